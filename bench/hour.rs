//! Times the hour check of a list of 255 times, and a request that it blocks, in an earlier version and in this one, alternating in one run; the
//! minimum of 250 rounds of 20,000 calls each.
use std::hint::black_box;
use std::time::Instant;

#[repr(C)]
struct Answer {
    number: u32,
    second: u32,
}

type FullFor = unsafe extern "C" fn(*const u32, usize, u32, u32, u32) -> u32;
type Request = unsafe extern "C" fn(*mut u32, usize, u32, u32) -> Answer;

extern "C" {
    fn then_full_for(times: *const u32, room: usize, length: u32, time: u32, most: u32) -> u32;
    fn then_request_in(state: *mut u32, length: usize, time: u32, kind: u32) -> Answer;
    fn then_request(state: *mut u32, length: usize, time: u32, kind: u32) -> Answer;
    fn timing_full_for(times: *const u32, room: usize, length: u32, time: u32, most: u32) -> u32;
    fn timing_request_in(state: *mut u32, length: usize, time: u32, kind: u32) -> Answer;
    fn timing_request(state: *mut u32, length: usize, time: u32, kind: u32) -> Answer;
}

const NOW: u32 = 9_000;

fn round(expected: u32, mut call: impl FnMut() -> u32) -> f64 {
    let start = Instant::now();
    for _ in 0..20_000 {
        assert!(black_box(call()) == expected);
    }
    start.elapsed().as_nanos() as f64 / 20_000.0
}

fn turns(name: &str, expected: u32, mut then: impl FnMut() -> u32, mut now: impl FnMut() -> u32) {
    let (mut before, mut after) = (f64::MAX, f64::MAX);
    for _ in 0..250 {
        before = before.min(round(expected, &mut then));
        after = after.min(round(expected, &mut now));
    }
    println!("{name:36} {before:7.1} ns, now {after:7.1} ns");
}

fn main() {
    let recent: Vec<u32> = (0..255).map(|i| 8_000 + 3 * i).collect();
    let old: Vec<u32> = (0..255).map(|i| 1_000 + 3 * i).collect();
    let check = |f: FullFor, times: &[u32], most: u32| unsafe { f(times.as_ptr(), times.len(), 255, black_box(NOW), black_box(most)) };
    for (name, times, most, expected) in [
        ("hour check, all in it, L = 255", &recent, 255, 8_000 + 3_600 - NOW),
        ("hour check, all in it, L = 1", &recent, 1, 8_762 + 3_600 - NOW),
        ("hour check, none in it, L = 255", &old, 255, 0),
    ] {
        turns(name, expected, || check(then_full_for, times, most), || check(timing_full_for, times, most));
    }

    let mut state = vec![0u32; 1331];
    state[..13].copy_from_slice(&[0x0057_5250, 2, 1000, NOW, 235, 801_733_525, 1, 0, 1, 3, 60, 120, 240]);
    state[27..31].copy_from_slice(&[255, 1, 1, 1]);
    for k in 0..5 {
        state[50 + k] = 255;
        state[55 + 255 * k..310 + 255 * k].copy_from_slice(&recent);
    }
    // the earlier one takes version 1
    let mut older = state[..1330].to_vec();
    older[1] = 1;
    let ask = |f: Request, s: &mut [u32]| unsafe {
        let answer = f(s.as_mut_ptr(), s.len(), black_box(NOW), 3);
        assert!(answer.number == 18);
        answer.second
    };
    let seconds = 8_000 + 3_600 - NOW;
    let (then, now) = (&mut older[..], &mut state[..]);
    turns("request that S1 = 255 blocks, inner", seconds, || ask(then_request_in, then), || ask(timing_request_in, now));
    turns("the same, checked", seconds, || ask(then_request, then), || ask(timing_request, now));
}
