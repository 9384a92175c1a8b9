//! Good states in which rules stand against a request, alone and together, at the edges of the limits and of the hour; for the tests of
//! `why`, in the comparison of calls and of the program.
#![forbid(unsafe_code)]
use crate::model::{self, *};
use crate::random::Random;

/// The bits of the rules that document 01 applies to a request: the back-off to 0-3, N1 to 5, F1, F2 or F3 to 2 by the mood and F4 to 2 and
/// 4, all five while RPM is 1, A1 to 0 and 1, S1 to 3.
pub fn applying(kind: u32, mood: u32, rpm: u32) -> u32 {
    let house = [0b0100_0001, 0b0100_0001, 0b0000_0001, 0b1000_0001, 0, 0];
    let by_mood = [0, 0b0000_0100, 0b0000_1000, 0b0001_0000];
    let radio = [0, 0, 0b0010_0000 | by_mood[mood as usize], 0, 0b0010_0000, 0b0000_0010];
    house[kind as usize] | if rpm == 1 { radio[kind as usize] } else { 0 }
}

/// A state opened so, and moved on to `last`. A reset may be due: no request asks for that.
fn quiet(random: &mut Random, opened: u32, last: u32) -> Vec<u32> {
    let mut s = vec![0; PLACES];
    model::open(&mut s, opened, 1_010_123_456_789, &[60, 120, 240], 1, 1, 0, 0, &[0; 32], &[0; 6], &[0; 32], &[0; 32], &[0; 6]);
    s[LAST] = last;
    s[DUE] = random.pick(&[0, 1, last, u32::MAX]);
    s
}

/// Puts these times on a list, oldest first.
fn put(s: &mut [u32], list: usize, mut times: Vec<u32>) {
    times.sort_unstable();
    s[LENGTHS + list] = times.len() as u32;
    s[LISTS + LIST_ROOM * list..][..times.len()].copy_from_slice(&times);
}

/// The standing that a request needs.
fn made_ready(s: &mut [u32], kind: u32) {
    s[STANDINGS + 2] = if kind == 4 { UP } else { IDLE };
    if kind == 4 {
        s[ENDS + 2] = 0;
    }
}

/// A state whose last time is 100,000, ready for a request then. The rules of `bits` are full, whether they apply to it or not, and no
/// others are: every list has `sent` permits in the hour, from 1 to 255, and mostly some older ones.
pub fn full(random: &mut Random, kind: u32, mood: u32, rpm: u32, bits: u32, sent: u32) -> Vec<u32> {
    let now = 100_000;
    let mut s = quiet(random, 0, now);
    (s[MOOD], s[RPM]) = (mood, rpm);
    for (rule, (_, limit)) in RULES.into_iter().enumerate() {
        let stands = bits >> rule & 1 == 1;
        match limit {
            None if stands => s[ENDS..ENDS + 4].fill(random.pick(&[now + 1, now + 103, LATEST_END])),
            None => s[ENDS..ENDS + 4].fill(random.pick(&[0, 1, now])),
            Some((place, _)) if stands => s[place] = random.pick(&[1, sent.div_ceil(2), sent, sent]),
            Some((place, _)) => s[place] = random.pick(&[0, (sent + 1) % 256]),
        }
    }
    for list in 0..5 {
        let mut times: Vec<u32> = (0..sent).map(|_| now - random.number(HOUR)).collect();
        let older = random.pick(&[0, 1, 2, 255]).min(255 - sent);
        times.extend((0..older).map(|_| now - HOUR - random.pick(&[0, 0, 1, 5_000])));
        put(&mut s, list, times);
    }
    made_ready(&mut s, kind);
    s
}

/// A state near the limits and the back-off that may stand against a request, and the time to ask it at.
pub fn pressed(random: &mut Random, kind: u32) -> (Vec<u32>, u32) {
    let any = random.number(LATEST);
    let opened = random.pick(&[0, 0, 1000, any, any, LATEST - 8_000, LATEST - 10, LATEST]);
    let last = opened + random.pick(&[0, 1, HOUR - 1, HOUR, 9_000, 9_000]).min(LATEST - opened);
    let time = last + random.pick(&[0, 0, 0, 1, 50, HOUR - 1, HOUR]).min(LATEST - last);
    let mut s = quiet(random, opened, last);
    s[NFM] = u32::from(random.chance(90));
    s[RPM] = u32::from(random.chance(85));
    s[MOOD] = random.pick(&[0, 1, 1, 2, 2, 3, 3]);
    let limits = random.pick(&[&[1, 1, 2, 3][..], &[0, 1, 5], &[254, 255, 255]]);
    for limit in [N1, F1, F2, F3, F4, A1, S1] {
        s[limit] = random.pick(limits);
    }
    let by_mood = [F1, F1, F2, F3][s[MOOD] as usize];
    for (list, limit) in [(ATTACH, A1), (ACTIVATION, by_mood), (PDP, F4), (SMS, S1), (RESET, N1)] {
        let times = times_near(random, opened, last, time, s[limit]);
        put(&mut s, list, times);
    }
    for service in 0..4 {
        let near = random.pick(&[0, 1, time.saturating_sub(1), time, time + 1, time + 2, time + 100, LATEST_END]);
        s[ENDS + service] = if s[NFM] == 1 { near } else { 0 };
    }
    made_ready(&mut s, kind);
    (s, time)
}

/// Times from `opened` to `last`: about as many as the limit, the one at that place from the newest at an edge of the hour of `time`, and
/// often some equal to it.
fn times_near(random: &mut Random, opened: u32, last: u32, time: u32, limit: u32) -> Vec<u32> {
    let count = random.pick(&[limit.saturating_sub(1), limit, limit, limit + 1, 255, 255]).min(255);
    let age = random.pick(&[0, 1, 1_800, HOUR - 2, HOUR - 1, HOUR - 1, HOUR, HOUR, HOUR + 1]);
    let edge = time.saturating_sub(age).clamp(opened, last);
    let equal = random.pick(&[0, 30, 100]);
    let place = |nth: u32, random: &mut Random| {
        if nth == limit || random.chance(equal) {
            edge
        } else if nth < limit {
            edge + random.number(last - edge + 1)
        } else {
            edge - random.number(edge - opened + 1)
        }
    };
    (1..=count).map(|nth| place(nth, random)).collect()
}
