//! Times the journaled calls beside the plain ones, by the names that C has, then parts of them,
//! then a restart and an erasing, all in turn in one run; the minimum of 250 rounds of 20,000 calls
//! each, of restart and erase 100. The state is that of bench/calls: the lists are full, all leak
//! rates are 1. The blocked request is one that S1 blocks, the permitted one a reset.
//!
//! Before each journaled call its slot is set back to 255. This is in its time, and has a row of
//! its own, "slot set back".
use std::hint::black_box;
use std::time::Instant;

#[repr(C)]
struct Answer {
    number: u32,
    second: u32,
}

extern "C" {
    fn dialchisel_request(s: *mut u32, n: usize, time: u32, kind: u32) -> Answer;
    fn dialchisel_tick(s: *mut u32, n: usize, time: u32) -> Answer;
    fn dialchisel_command(s: *mut u32, n: usize, line: *const u8, k: usize, out: *mut u8, o: usize) -> Answer;
    fn dialchisel_journal_request(s: *mut u32, n: usize, a: *mut u8, m: usize, time: u32, kind: u32) -> Answer;
    fn dialchisel_journal_granted(s: *mut u32, n: usize, a: *mut u8, m: usize, time: u32, service: u32) -> Answer;
    fn dialchisel_journal_dropped(s: *mut u32, n: usize, a: *mut u8, m: usize, time: u32) -> Answer;
    fn dialchisel_journal_tick(s: *mut u32, n: usize, a: *mut u8, m: usize, time: u32) -> Answer;
    fn dialchisel_journal_command(
        s: *mut u32, n: usize, a: *mut u8, m: usize, line: *const u8, k: usize, out: *mut u8, o: usize,
    ) -> Answer;
    fn dialchisel_journal_next(a: *const u8, m: usize) -> Answer;
    fn dialchisel_erase(a: *mut u8, m: usize) -> Answer;
    fn dialchisel_restart(i: *const u32, k: usize, a: *mut u8, m: usize, s: *mut u32, n: usize) -> Answer;
}

const N: usize = 1331;
const M: usize = 65536;
const NOW: u32 = 9_000;
const READ: &[u8] = b"AT+NFM=?\r";
const LONG: &[u8] = b"AT+NFMCI=10000,20000,30000,40000,50000,60000,61000,62000,63000,64000\r";

fn start() -> Vec<u32> {
    let mut state = vec![0u32; N];
    state[..13].copy_from_slice(&[0x0057_5250, 2, 1000, NOW, 235, 801_733_525, 1, 0, 1, 3, 60, 120, 240]);
    state[27..31].copy_from_slice(&[255, 1, 1, 1]);
    for k in 0..5 {
        state[50 + k] = 255;
        for i in 0..255 {
            state[55 + 255 * k + i] = 8_000 + 3 * i as u32;
        }
    }
    state
}

/// A journal of so many records, begun with the image `start()`: an activation permitted, granted
/// and dropped, and a clock call, one each second, again and again.
fn journal(records: u32) -> Vec<u8> {
    let (mut state, mut area) = (start(), vec![255u8; M]);
    let (s, a) = (state.as_mut_ptr(), area.as_mut_ptr());
    for i in 0..records {
        let time = NOW + i;
        let answer = unsafe {
            match i % 4 {
                0 => dialchisel_journal_request(s, N, a, M, time, 2),
                1 => dialchisel_journal_granted(s, N, a, M, time, 2),
                2 => dialchisel_journal_dropped(s, N, a, M, time),
                _ => dialchisel_journal_tick(s, N, a, M, time),
            }
        };
        assert!((answer.number, answer.second) == (0, 0));
    }
    area
}

/// What is timed: its name, the calls of a round, the answer that each has to give, the call, and
/// its least time.
struct Timed<'a> {
    name: String,
    calls: u32,
    expected: (u32, u32),
    call: Box<dyn Fn() -> Answer + 'a>,
    least: f64,
}

fn timed<'a>(name: &str, calls: u32, expected: (u32, u32), call: impl Fn() -> Answer + 'a) -> Timed<'a> {
    Timed { name: name.to_string(), calls, expected, call: Box::new(call), least: f64::MAX }
}

fn set_back(area: *mut u8, slot: usize) {
    unsafe { black_box(area).add(128 * slot).write_bytes(255, 128) }
}

fn main() {
    // S1 is 255, so the permit of 8,000 has to leave the hour.
    let (done, blocked) = ((0, 0), (18, 8_000 + 3_600 - NOW));
    let now = || black_box(NOW);
    let (image, mut state, mut restarted, mut room) = (start(), start(), start(), [0u8; 16]);
    let (i, s, r, out) = (image.as_ptr(), state.as_mut_ptr(), restarted.as_mut_ptr(), room.as_mut_ptr());
    let mut areas = [0, 511, 512, 0, 100].map(journal);
    let [first, last, full, none, some] = areas.each_mut().map(|area| area.as_mut_ptr());

    let plain = |line: &[u8]| unsafe { dialchisel_command(s, N, line.as_ptr(), line.len(), out, 16) };
    let kept = |a, line: &[u8]| unsafe { dialchisel_journal_command(s, N, a, M, line.as_ptr(), line.len(), out, 16) };
    let calls: [(&str, (u32, u32), &dyn Fn() -> Answer, &dyn Fn(*mut u8) -> Answer); 5] = unsafe {
        [
            ("request, blocked", blocked, &|| dialchisel_request(s, N, now(), 3),
                &|a| dialchisel_journal_request(s, N, a, M, now(), 3)),
            ("request, permitted", done, &|| dialchisel_request(s, N, now(), 5),
                &|a| dialchisel_journal_request(s, N, a, M, now(), 5)),
            ("clock call", done, &|| dialchisel_tick(s, N, now()), &|a| dialchisel_journal_tick(s, N, a, M, now())),
            ("AT line of 9 bytes", (0, 15), &|| plain(READ), &|a| kept(a, READ)),
            ("AT line of 69 bytes", (0, 4), &|| plain(LONG), &|a| kept(a, LONG)),
        ]
    };
    let mut rows = vec![];
    for (name, expected, plain, kept) in calls {
        rows.push(timed(name, 20_000, expected, plain));
        for (free, area, slot) in [("first", first, 0), ("last", last, 511)] {
            rows.push(timed(&format!("  journaled, {free} slot free"), 20_000, expected, move || {
                set_back(area, slot);
                kept(area)
            }));
        }
    }
    rows.extend(unsafe {
        [
            timed("slot set back", 20_000, done, || {
                set_back(first, 0);
                Answer { number: 0, second: 0 }
            }),
            timed("request, refused with 2", 20_000, (2, 0), || dialchisel_request(s, N, now(), 6)),
            timed("request, refused with 6", 20_000, (6, 0), || dialchisel_journal_request(s, N, full, M, now(), 3)),
            timed("next, first slot free", 20_000, (0, 0), || dialchisel_journal_next(none, M)),
            timed("next, no slot free", 20_000, (6, 0), || dialchisel_journal_next(full, M)),
            timed("restart, 0 records", 100, done, || dialchisel_restart(i, N, none, M, r, N)),
            timed("restart, 100 records", 100, done, || dialchisel_restart(i, N, some, M, r, N)),
            timed("restart, 512 records", 100, done, || dialchisel_restart(i, N, full, M, r, N)),
            timed("erase", 100, done, || dialchisel_erase(first, M)),
        ]
    });

    for _ in 0..250 {
        for row in &mut rows {
            let begun = Instant::now();
            for _ in 0..row.calls {
                let answer = black_box((row.call)());
                assert!((answer.number, answer.second) == row.expected);
            }
            row.least = row.least.min(begun.elapsed().as_nanos() as f64 / f64::from(row.calls));
        }
    }
    for row in rows {
        println!("{:30} {:8.1} ns", row.name, row.least);
    }
}
