//! Times the clock call and a request, each as a checked call and as the inner one on a good buffer, alternating in one run; the minimum of
//! 250 rounds of 20,000 calls each. The lists are full, all leak rates are 1, and each request is one that S1 blocks.
use std::hint::black_box;
use std::time::Instant;

#[repr(C)]
struct Answer {
    number: u32,
    second: u32,
}

extern "C" {
    fn timing_tick(state: *mut u32, length: usize, time: u32) -> Answer;
    fn timing_tick_in(state: *mut u32, length: usize, time: u32) -> Answer;
    fn timing_request(state: *mut u32, length: usize, time: u32, kind: u32) -> Answer;
    fn timing_request_in(state: *mut u32, length: usize, time: u32, kind: u32) -> Answer;
}

fn round(expected: (u32, u32), mut call: impl FnMut(u32) -> Answer) -> f64 {
    let start = Instant::now();
    for _ in 0..20_000 {
        let answer = black_box(call(black_box(9_000)));
        assert!((answer.number, answer.second) == expected);
    }
    start.elapsed().as_nanos() as f64 / 20_000.0
}

fn main() {
    let mut state = vec![0u32; 1331];
    state[..13].copy_from_slice(&[0x0057_5250, 2, 1000, 9000, 235, 801_733_525, 1, 0, 1, 3, 60, 120, 240]);
    state[27..31].copy_from_slice(&[255, 1, 1, 1]);
    for k in 0..5 {
        state[50 + k] = 255;
        for i in 0..255 {
            state[55 + 255 * k + i] = 8_000 + 3 * i as u32;
        }
    }
    let (s, n) = (state.as_mut_ptr(), state.len());
    // S1 is 255, so the permit of 8,000 has to leave the hour.
    let (done, blocked) = ((0, 0), (18, 8_000 + 3_600 - 9_000));
    let mut least = [f64::MAX; 4];
    for _ in 0..250 {
        least[0] = least[0].min(round(done, |t| unsafe { timing_tick(s, n, t) }));
        least[1] = least[1].min(round(done, |t| unsafe { timing_tick_in(s, n, t) }));
        least[2] = least[2].min(round(blocked, |t| unsafe { timing_request(s, n, t, 3) }));
        least[3] = least[3].min(round(blocked, |t| unsafe { timing_request_in(s, n, t, 3) }));
    }
    for (name, time) in ["tick, checked", "tick, inner", "request, checked", "request, inner"].iter().zip(least) {
        println!("{name:18} {time:7.1} ns");
    }
}
