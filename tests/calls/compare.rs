//! Compares the linked library with the model of document 01, call by call: both numbers, every place of the state and of every room, and
//! a guard on either side of each buffer. SEED in the environment repeats a run; without it the clock gives the seed.
//! It fails at the first difference, and at the end where an answer, a column's action, a row for
//! both registrations with the other one in each of its states, a permit on a full list, a block by
//! a limit of 254 or 255 or by one of the module's own file, a limit's first or last second, an
//! opening with some of the card's files and without the others, of `why` a number, a rule, two or
//! three rules at once or an edge of the lists, or a case of the timed reset, of turning or of the
//! journal was met fewer than 100 times.
mod both;
mod columns;
mod cuts;
mod due;
mod files;
#[allow(dead_code)]
#[path = "../link/gate.rs"]
mod gate;
mod journal;
mod made;
mod model;
mod model_journal;
mod random;
mod reasons;
mod turned;
mod why;

use both::{by_model, file, Bench, Call, Opening, Pair};
use columns::{ACTIONS, ERRORS, OTHER};
use cuts::CUT;
use due::TIMED;
use files::{LACKING, RPM_BLOCKS};
use journal::{JOURNALED, RESTARTED};
use made::EDGES;
use model::*;
use random::Random;
use std::collections::BTreeMap;
use std::fmt::Display;
use std::process::exit;
use turned::TURNED;
use why::{Reached, MET};

const ANSWERS: [u32; 24] = [0, 1, 2, 3, 4, 5, 10, 11, 12, 13, 14, 15, 16, 17, 18, 20, 21, 22, 23, 24, 25, 26, 27, 28];
const WHY_NUMBERS: [u32; 13] = [0, 1, 2, 3, 4, 10, 11, 13, 14, 15, 16, 17, 18];
const LIMITS: [u32; 7] = [11, 13, 14, 15, 16, 17, 18];
const SECONDS: [&str; 3] = ["limits, blocks with their seconds", "limits, blocks with 1 second", "limits, blocks with 3600 seconds"];
const LEAST_EACH: u64 = 100;
const LEAST_CALLS: u64 = 200_000;

impl Bench {
    /// An opening as the document's figures have it. The module's own files, which do not rule here, have other bytes.
    fn classroom() -> Opening {
        Opening {
            time: 0,
            imsi: 1_010_123_456_789,
            intervals: vec![60, 120, 240],
            nfm: 1,
            rpm: 1,
            a1: 0,
            s1: 0,
            params: file(32, &[]),
            leaks: file(6, &[]),
            counters: file(32, &[]),
            own_params: gate::RTC10.to_vec(),
            own_leaks: file(6, &[4, 5, 6]),
        }
    }

    /// The document's own figures, on both: C1 to C10 and the printed example, with the waits of request 3 and the seconds of request 4. In
    /// each, at most one rule stands against a request.
    fn figures(&mut self) {
        let ask = |time, kind| Call::Request { time, kind };
        let grant = |time, service| Call::Granted { time, service };
        let reject = |time, service, cause| Call::Rejected { time, service, cause, second: 0, column: service };
        let plain = Bench::classroom();
        let with = |params: &[u8]| Opening { params: file(32, params), ..plain.clone() };

        let mut c1 = self.opened(&plain);
        for (time, wait) in [(0, 103), (1000, 152), (2000, 273), (3000, 438)] {
            self.figure(&mut c1, ask(time, 0), (0, 0));
            self.figure(&mut c1, reject(time, 0, 3), (20, wait));
        }
        let mut printed = self.opened(&Opening { time: 1000, s1: 2, ..plain.clone() });
        let rows = [(ask(1000, 2), 0, 0), (reject(1010, 2, 26), 20, 103), (ask(1112, 2), 10, 1), (ask(1113, 2), 0, 0)];
        for (call, number, second) in rows.into_iter().chain([(grant(1114, 2), 0, 0), (ask(1115, 2), 4, 0)]) {
            self.figure(&mut printed, call, (number, second));
        }
        let mut c4 = self.opened(&Opening { s1: 2, ..plain.clone() });
        for call in [ask(10, 3), grant(10, 3), ask(20, 3), grant(20, 3)] {
            self.figure(&mut c4, call, (0, 0));
        }
        self.figure(&mut c4, ask(3609, 3), (18, 1));
        self.figure(&mut c4, ask(3610, 3), (0, 0));
        let mut c6 = self.opened(&with(&[1]));
        for (time, answer) in [(100, (0, 0)), (3699, (11, 1)), (3700, (0, 0))] {
            self.figure(&mut c6, ask(time, 5), answer);
        }
        let mut c8 = self.opened(&with(&[0, 0, 0, 0, 0, 2]));
        for (call, answer) in [(ask(0, 2), (0, 0)), (grant(1, 2), (0, 0)), (ask(2, 4), (0, 0)), (ask(3, 2), (16, 3597))] {
            self.figure(&mut c8, call, answer);
        }
        let mut c9 = self.opened(&Opening { nfm: 0, ..with(&[0, 0, 0, 1]) });
        for (call, answer) in [(ask(0, 2), (0, 0)), (reject(1, 2, 33), (23, 0)), (ask(2, 2), (14, 3598))] {
            self.figure(&mut c9, call, answer);
        }
        let mut c10 = self.opened(&Opening { leaks: file(6, &[0, 0, 1]), counters: file(32, &[0, 0, 3]), ..plain.clone() });
        for (time, count) in [(3599, 3), (3600, 2), (10_800, 0)] {
            let tick = Call::Tick { time };
            self.figure(&mut c10, tick.clone(), (0, 0));
            if c10.model.part()[C_PDP_1] != count {
                self.fail(&tick, "C-PDP-1 is not as C10 has it");
            }
        }
    }

    /// A call whose answer the document gives; where it is a request, `why` names that answer before it, and its bit alone.
    fn figure(&mut self, pair: &mut Pair, call: Call, answer: Answer) {
        if let Call::Request { time, kind } = call {
            let bits = RULES.iter().position(|&(number, _)| number == answer.0).map_or(0, |bit| 1 << bit);
            self.expect(pair, Call::Why { time, kind, room: 8 }, (answer.0, bits));
        }
        self.expect(pair, call, answer);
    }

    /// Each limit with one permit less, as many and one more in the hour, whose oldest is just in it or just out; for every request, mood,
    /// RPM off and on, and counters that can rise and cannot.
    fn limits(&mut self) {
        for (limit, list) in [(N1, RESET), (F1, ACTIVATION), (F2, ACTIVATION), (F3, ACTIVATION), (F4, PDP), (A1, ATTACH), (S1, SMS)] {
            for most in [0, 1, 2, 3, 254, 255] {
                for sent in [most.max(1) - 1, most, (most + 1).min(255)] {
                    for age in [HOUR - 1, HOUR, HOUR + 1] {
                        let state = self.limited(limit, list, most, sent, age);
                        self.each_request(&state);
                    }
                }
            }
        }
    }

    /// A quiet state at 100,000 with one limit, and a list with so many permits, the oldest of that age.
    fn limited(&mut self, limit: usize, list: usize, most: u32, sent: u32, age: u32) -> Vec<u32> {
        let now = 100_000;
        let mut state = vec![0; PLACES];
        by_model(&mut state, &Call::Open(Bench::classroom()), &mut [], &mut []);
        state[LAST] = now;
        state[limit] = most;
        state[LENGTHS + list] = sent;
        let times = &mut state[LISTS + LIST_ROOM * list..][..sent as usize];
        times.fill(now);
        if let Some(oldest) = times.first_mut() {
            *oldest = now - age;
        }
        for counter in &mut state[C_BR_1..LENGTHS] {
            *counter = self.random.pick(&[0, 253, 254, 255]);
        }
        state
    }

    /// Each limit, blocked from every edge of the hour of the permit that has to leave: asked then, a second before the seconds told are
    /// over, and when they are.
    fn come_back(&mut self) {
        let limits = [
            (11, N1, RESET, 5, 0),
            (13, F1, ACTIVATION, 2, 1),
            (14, F2, ACTIVATION, 2, 2),
            (15, F3, ACTIVATION, 2, 3),
            (16, F4, PDP, 4, 0),
            (17, A1, ATTACH, 1, 0),
            (18, S1, SMS, 3, 0),
        ];
        for (number, limit, list, kind, mood) in limits {
            for most in [1, 2, 3, 100, 254, 255] {
                for age in [0, 1, 1_800, HOUR - 2, HOUR - 1].repeat(20) {
                    let mut state = self.waiting(limit, list, most, age);
                    state[MOOD] = mood;
                    state[STANDINGS + 2] = if kind == 4 { UP } else { IDLE };
                    let mut pair = self.pair(&state);
                    let free = 100_000 - age + HOUR;
                    for (time, answer) in [(100_000, (number, HOUR - age)), (free - 1, (number, 1)), (free, (0, 0))] {
                        self.figure(&mut pair, Call::Request { time, kind }, answer);
                    }
                }
            }
        }
    }

    /// A quiet state at 100,000 with one limit; the permit that has to leave the hour is of that age, with newer ones up to the limit and
    /// mostly some older, in the hour or not.
    fn waiting(&mut self, limit: usize, list: usize, most: u32, age: u32) -> Vec<u32> {
        let older = self.random.pick(&[0, 1, 2, 255]).min(255 - most);
        let mut state = self.limited(limit, list, most, older + most, age);
        let times = &mut state[LISTS + LIST_ROOM * list..][..(older + most) as usize];
        let leaving = 100_000 - age;
        for (place, time) in times.iter_mut().enumerate() {
            *time = match place as u32 {
                place if place < older => leaving - self.random.pick(&[0, 1, 1_800, 5_000]),
                place if place > older => leaving + self.random.number(age + 1),
                _ => leaving,
            };
        }
        times.sort_unstable();
        state
    }

    /// Every request on a state at 100,000, for each mood, with RPM off and on.
    fn each_request(&mut self, state: &[u32]) {
        for kind in 0..6 {
            for mood in 0..4 {
                for rpm in 0..2 {
                    let mut other = state.to_vec();
                    (other[MOOD], other[RPM]) = (mood, rpm);
                    other[STANDINGS + 2] = if kind == 4 { UP } else { IDLE };
                    let mut pair = self.pair(&other);
                    self.ask(&mut pair, 100_000, kind);
                }
            }
        }
    }

    /// The clock moved from and to every edge of the first leak points, at each rate and count, with a block that adds one afterwards.
    fn leaks(&mut self) {
        for rate in [0, 1, 2, 254, 255] {
            for opened in [0, 1, 777, 3_000_000_000] {
                let period = HOUR * rate.max(1);
                let edges: Vec<u32> =
                    (0..4).flat_map(|k| [k * period, k * period + 1, (k + 1) * period - 1]).chain([256 * period]).collect();
                for &old in &edges {
                    for &new in edges.iter().filter(|&&new| new >= old) {
                        self.leak(rate, opened, opened + old, opened + new);
                    }
                }
            }
        }
    }

    /// A clock call and a blocked reset at `new` on a state at `old`, whose counters leak at one rate and at others.
    fn leak(&mut self, rate: u32, opened: u32, old: u32, new: u32) {
        let mut state = vec![0; PLACES];
        by_model(&mut state, &Call::Open(Opening { time: opened, ..Bench::classroom() }), &mut [], &mut []);
        state[LAST] = old;
        for hours in &mut state[LEAK_RATES..LEAK_RATES + 3] {
            *hours = if self.random.chance(70) { rate } else { self.random.pick(&[0, 1, 3]) };
        }
        for counter in &mut state[C_BR_1..LENGTHS] {
            *counter = self.random.pick(&[0, 1, 2, 3, 254, 255]);
        }
        state[N1] = 1;
        state[LENGTHS + RESET] = 1;
        state[LISTS + LIST_ROOM * RESET] = old;
        for call in [Call::Tick { time: new }, Call::Request { time: new, kind: 5 }] {
            let mut pair = self.pair(&state);
            self.call(&mut pair, &call);
        }
    }

    /// An opening on any buffer, its state then asked once more; the opening's answer.
    fn try_opening(&mut self, opening: Opening) -> Answer {
        let state = self.good_state();
        let mut pair = self.pair(&state);
        let answer = self.call(&mut pair, &Call::Open(opening));
        let call = self.next_call(&state, false, 50);
        self.call(&mut pair, &call);
        answer
    }

    /// Each number of an opening at its edges.
    fn openings(&mut self) {
        for edge in EDGES {
            let one = self.opening();
            self.try_opening(Opening { time: edge, ..one.clone() });
            self.try_opening(Opening { time: edge, nfm: 2, ..one.clone() });
            self.try_opening(Opening { nfm: edge, ..one.clone() });
            self.try_opening(Opening { rpm: edge, ..one.clone() });
            self.try_opening(Opening { a1: edge, ..one.clone() });
            self.try_opening(Opening { s1: edge, ..one.clone() });
            for count in 1..=10 {
                for at in 0..count {
                    let mut intervals = vec![60; count];
                    intervals[at] = edge;
                    self.try_opening(Opening { intervals, ..one.clone() });
                }
            }
        }
        let imsis = [0, 1, u64::from(u32::MAX), 1 << 32, LARGEST_IMSI - 1, LARGEST_IMSI, LARGEST_IMSI + 1, 1 << 50, 1 << 63, u64::MAX];
        for imsi in imsis {
            let one = self.opening();
            self.try_opening(Opening { imsi, ..one });
        }
        for count in (0..=13).chain([20, 255, 256, 257, 266, 65_537, 65_546]) {
            let one = self.opening();
            self.try_opening(Opening { intervals: vec![60; count], ..one });
        }
        for _ in 0..1000 {
            let one = self.opening();
            let (rising, falling) = (self.intervals(), self.intervals().into_iter().rev().collect());
            self.try_opening(Opening { intervals: rising, ..one.clone() });
            self.try_opening(Opening { intervals: falling, ..one });
        }
    }

    /// Short sequences on one opened buffer.
    fn short_sequences(&mut self) {
        for _ in 0..6_000 {
            let opening = self.opening();
            let grants = self.random.pick(&[97, 60, 30, 5]);
            self.sequence(&opening, 40, false, grants);
        }
    }

    /// Long sequences, with over 255 permits on each list and limits that only a full list can reach. F1, F2 and F3 take turns, alone, with
    /// few grants and no back-offs; then all at once, every other time with F4. In eight turns out of sixteen the card has no parameters.
    fn long_sequences(&mut self) {
        for turn in 0..32 {
            let mut opening = self.opening();
            opening.time = self.random.pick(&[0, 1000, 3_000_000_000]);
            opening.intervals = vec![1];
            (opening.a1, opening.s1) = self.random.pick(&[(0, 0), (255, 254), (254, 255)]);
            let mut limits = [(); 6].map(|()| self.random.pick(&[0, 254, 255]));
            let mut grants = self.random.pick(&[97, 60, 30]);
            opening.nfm = u32::from(grants > 90);
            if turn % 4 < 3 {
                limits[2..].fill(0);
                limits[2 + turn % 4] = self.random.pick(&[254, 255]);
                (opening.nfm, opening.rpm, grants) = (0, 1, 5);
            } else if turn % 8 == 3 {
                (opening.rpm, limits[5]) = (1, self.random.pick(&[254, 255]));
            }
            if turn / 8 % 2 == 1 {
                opening.params.clear();
            }
            opening.set_file(opening.ruling(0), file(32, &limits));
            self.sequence(&opening, 10_000, true, grants);
        }
    }

    fn sequence(&mut self, opening: &Opening, calls: u64, brisk: bool, grants: u64) {
        let mut pair = self.opened(opening);
        for _ in 0..calls {
            let call = self.next_call(pair.model.part(), brisk, grants);
            let (number, _) = self.call(&mut pair, &call);
            if opening.params.is_empty() && RPM_BLOCKS.contains(&number) {
                *self.own_blocks.entry(number).or_default() += 1;
            }
        }
    }

    /// Good states that no sequence may have reached, each with a few calls.
    fn good_states(&mut self) {
        for _ in 0..6_000 {
            let state = self.good_state();
            let mut pair = self.pair(&state);
            if !good(&state) {
                self.fail(&Call::Tick { time: 0 }, "a state made to be good is not");
            }
            for _ in 0..8 {
                let call = self.next_call(pair.model.part(), false, 40);
                self.call(&mut pair, &call);
            }
        }
    }

    /// A good state for each line of the table that depends on another place: 0 has full lists and its back-offs run, 1 has lists in use
    /// and PDP up, 2 has empty lists and NFM off; the others are any.
    fn base(&mut self, which: usize) -> Vec<u32> {
        if which > 2 {
            return self.good_state();
        }
        let (length, end, standing) = [(255, 200_050, ASKED), (100, 200_050, UP), (0, 0, IDLE)][which];
        let opening = Opening { time: 100_000, imsi: LARGEST_IMSI, nfm: u32::from(which < 2), ..self.opening() };
        let mut s = vec![0; PLACES];
        by_model(&mut s, &Call::Open(opening), &mut [], &mut []);
        s[LAST] = 200_000;
        s[ENDS..ENDS + 4].fill(end);
        s[STANDINGS + 2] = standing;
        if standing == UP {
            s[ENDS + 2] = 0;
        }
        for list in 0..5 {
            s[LENGTHS + list] = length;
            for i in 0..length {
                s[LISTS + LIST_ROOM * list + i as usize] = 199_000 + i;
            }
        }
        s
    }

    /// Every place damaged with every edge, on each of these states and on a new one for each place.
    fn damage(&mut self) {
        for which in 0..5 {
            let mut state = self.base(which);
            for place in 0..PLACES {
                if which == 4 {
                    state = self.good_state();
                }
                let near = [state[place], state[OPENED], state[LAST]];
                let values = EDGES.into_iter().chain(near.iter().flat_map(|&n| [n.wrapping_sub(1), n, n.wrapping_add(1)]));
                for value in values {
                    let mut damaged = state.clone();
                    damaged[place] = value;
                    self.try_damaged(&state, &damaged);
                }
            }
        }
    }

    /// Several places damaged at once, often places that belong together.
    fn damage_at_once(&mut self) {
        for _ in 0..10_000 {
            let state = self.good_state();
            let damaged = self.damaged_at_once(&state);
            self.try_damaged(&state, &damaged);
        }
    }

    fn damaged_at_once(&mut self, state: &[u32]) -> Vec<u32> {
        let mut damaged = state.to_vec();
        for _ in 0..2 + self.random.below(4) {
            let place = if self.random.chance(60) { self.random.below(56) } else { self.random.below(state.len() as u64) } as usize;
            let small = self.random.number(4);
            damaged[place] = self.random.pick(&[small, small, state[LAST], state[place].wrapping_add(1), u32::MAX]);
        }
        damaged
    }

    /// A clock call that only damage can refuse, any call that the state before the damage would bring about, and now and then an opening.
    fn try_damaged(&mut self, before: &[u32], damaged: &[u32]) {
        let call = match self.random.below(20) {
            0 => Call::Open(self.any_opening()),
            1 => Call::Counters { room: 32 },
            2 | 3 => Call::Command { line: self.line(), room: 16 },
            4 => Call::Why { time: before[LAST], kind: self.random.number(6), room: 8 },
            _ => self.next_call(before, false, 40),
        };
        for call in [Call::Tick { time: LATEST }, call] {
            let mut pair = self.pair(damaged);
            self.call(&mut pair, &call);
        }
    }

    /// States of wrong lengths, their first places good.
    fn lengths(&mut self) {
        for length in [0, 1, 2, 54, 55, 1075, 1329, 1330, 1332, 1400, 2662, 65_536 + 1331] {
            for _ in 0..40 {
                let good = self.good_state();
                let mut state = good.clone();
                state.resize(length, 0);
                let mut pair = self.pair(&state);
                let opening = self.any_opening();
                let line = self.line();
                let one = self.any_call(good[LAST]);
                let other = self.next_call(&good, false, 40);
                let why = Call::Why { time: good[LAST], kind: 5, room: 8 };
                for call in [Call::Open(opening), Call::Command { line, room: 16 }, Call::Counters { room: 32 }, why, one, other] {
                    let given = self.call(&mut pair, &call);
                    if !matches!(call, Call::Error { .. }) {
                        self.agree(&call, given, (1, 0));
                    }
                }
            }
        }
    }

    /// Rooms of every size, for good and bad states, and for lines well and ill formed.
    fn rooms(&mut self) {
        for room in (0..=40).chain([255, 256, 272, 288, 65_552, 65_568]) {
            for bad in [false, false, true] {
                let mut state = self.good_state();
                state[VERSION] += u32::from(bad);
                for line in [&b"AT+NFM=?\r"[..], b"AT+NFM=0,1\r", b"AT+NFMCI=1,2,3\r", b"AT+NFM=?", b""] {
                    let mut pair = self.pair(&state);
                    self.call(&mut pair, &Call::Command { line: line.to_vec(), room });
                    self.call(&mut pair, &Call::Counters { room });
                }
                for kind in (0..6).chain([6, u32::MAX]) {
                    let mut pair = self.pair(&state);
                    self.call(&mut pair, &Call::Why { time: state[LAST], kind, room });
                }
            }
        }
    }

    /// AT lines: valid ones, each changed in every single byte, and ill-formed ones.
    fn lines(&mut self) {
        let longest = format!("AT+NFMCI={}\r", ["65535"; 10].join(","));
        let valid =
            ["AT+NFM=0\r", "AT+NFM=1\r", "AT+NFM=0,1\r", "AT+NFM=1,0\r", "AT+NFM=?\r", "AT+NFMCI=60,120\r", "AT+NFMCI=1\r", &longest];
        for line in valid.map(str::as_bytes) {
            self.try_line(line.to_vec());
            for at in 0..=line.len() {
                self.try_line(line[..at].to_vec());
                self.try_line(line[at..].to_vec());
                for byte in 0..=255 {
                    let mut longer = line.to_vec();
                    longer.insert(at, byte);
                    self.try_line(longer);
                    if at < line.len() {
                        let mut changed = line.to_vec();
                        changed[at] = byte;
                        self.try_line(changed);
                    }
                }
                if at < line.len() {
                    let mut shorter = line.to_vec();
                    shorter.remove(at);
                    self.try_line(shorter);
                }
            }
        }
        for line in ILL_FORMED {
            self.try_line(line.as_bytes().to_vec());
        }
        self.number_lines();
    }

    /// Lines with numbers at their edges, many numbers, and lines near 96 bytes.
    fn number_lines(&mut self) {
        for edge in EDGES.map(u64::from).into_iter().chain([59, 60, 61, 99_999, 100_000, 1 << 32, (1 << 32) + 60, u64::MAX]) {
            for text in
                [format!("{edge}"), format!("60,{edge}"), format!("{edge},60"), format!("0{edge}"), format!("1844674407370955{edge}")]
            {
                self.try_line(format!("AT+NFMCI={text}\r").into_bytes());
            }
            self.try_line(format!("AT+NFM={edge}\r").into_bytes());
            self.try_line(format!("AT+NFM=1,{edge}\r").into_bytes());
        }
        for count in 0..=30 {
            for number in ["1", "60", "65535"] {
                self.try_line(format!("AT+NFMCI={}\r", vec![number; count].join(",")).into_bytes());
            }
        }
        for length in (90..=100).chain([200, 255, 256, 257, 1000, 65_545]) {
            for filler in ["0", "1", ",", "A", "\r"] {
                self.try_line(format!("AT+NFMCI={}\r", filler.repeat(length - 10)).into_bytes());
                self.try_line(format!("AT+NFM=1\r{}", filler.repeat(length - 9)).into_bytes());
            }
        }
    }

    fn try_line(&mut self, line: Vec<u8>) {
        let state = self.good_state();
        let mut pair = self.pair(&state);
        self.call(&mut pair, &Call::Command { line, room: 16 });
    }

    /// Every argument of the timed calls, in and out of range, with NFM off and on.
    fn arguments(&mut self) {
        for nfm in 0..2 {
            let mut state = self.good_state();
            while state[NFM] != nfm || state[LAST] < 10 || state[LAST] > LATEST - 10 {
                state = self.good_state();
            }
            state[ENDS..ENDS + 4].fill(0);
            state[STANDINGS..STANDINGS + 4].fill(ASKED);
            let now = state[LAST];
            for service in (0..5).chain(EDGES) {
                for cause in (0..=257).chain(EDGES) {
                    for second in [0, 1, 2, 256, u32::MAX] {
                        let mut pair = self.pair(&state);
                        let column = self.random.pick(&[service, service, 3, 4]);
                        self.call(&mut pair, &Call::Rejected { time: now, service, cause, second, column });
                    }
                }
                for time in EDGES.into_iter().chain([now - 1, now, now + 1]) {
                    let calls = [
                        Call::Request { time, kind: service },
                        Call::Granted { time, service },
                        Call::Silent { time, service },
                        Call::Rejected { time, service, cause: 26, second: 0, column: service },
                        Call::Dropped { time },
                        Call::Tick { time },
                        Call::Why { time, kind: service, room: 8 },
                        Call::Why { time, kind: service, room: 7 },
                    ];
                    for standing in [IDLE, ASKED, UP] {
                        let mut other = state.clone();
                        other[STANDINGS..STANDINGS + 4].fill(standing.min(ASKED));
                        other[STANDINGS + 2] = standing;
                        for call in &calls {
                            let mut pair = self.pair(&other);
                            self.call(&mut pair, call);
                        }
                    }
                }
            }
        }
    }

    /// Prints what was counted, and says whether it is enough.
    fn enough(&self) -> bool {
        let lists = ["attach", "activation", "PDP", "SMS", "reset"];
        println!("compare: calls: {}", listed(&self.kinds));
        println!("compare: answers: {}", listed(&self.answers));
        println!("compare: permits on a full list: {}", listed(&lists.into_iter().zip(self.cuts).collect()));
        println!("compare: blocks by limits of 254 and 255: {}", listed(&self.high));
        println!("compare: openings, by the files that the card lacks: {}", listed(&self.lacking));
        println!("compare: blocks by limits of the module's own file: {}", listed(&self.own_blocks));
        println!("compare: rejections, by column and answer: {}", listed(&self.actions));
        println!("compare: rows for both registrations, by the other one: {}", listed(&self.both_rows));
        println!("compare: numbers beside a cause: {}", listed(&self.errors));
        println!("compare: of the timed reset: {}", listed(&self.timed));
        println!("compare: of turning: {}", listed(&self.turned));
        println!("compare: journaled calls, answers: {}", listed(&self.journal_answers));
        println!("compare: of the journal: {}", listed(&self.journaled));
        println!("compare: of restarts, not cut: {}", listed(&self.restarted));
        let long = self.cuts.iter().all(|&n| n >= LEAST_EACH) && self.high.len() == 7 && self.high.values().all(|&n| n >= LEAST_EACH);
        let mut seldom = too_seldom("answer", &ANSWERS, &self.answers);
        let strange: Vec<&u32> = self.answers.keys().filter(|a| !ANSWERS.contains(a)).collect();
        seldom.extend(too_seldom("card without", &LACKING, &self.lacking));
        seldom.extend(too_seldom("block by the own file", &RPM_BLOCKS, &self.own_blocks));
        seldom.extend(too_seldom("rejection", &ACTIONS.map(str::to_string), &self.actions));
        seldom.extend(too_seldom("row for both", &OTHER, &self.both_rows));
        seldom.extend(too_seldom("error", &ERRORS, &self.errors));
        seldom.extend(too_seldom("timed reset", &TIMED, &self.timed));
        seldom.extend(too_seldom("turning", &TURNED, &self.turned));
        seldom.extend(too_seldom("journal", &JOURNALED, &self.journaled));
        seldom.extend(too_seldom("journal", &CUT, &self.journaled));
        seldom.extend(too_seldom("restart", &RESTARTED, &self.restarted));
        for (what, counts) in SECONDS.into_iter().zip(&self.seconds) {
            println!("compare: {what}: {}", listed(counts));
            seldom.extend(too_seldom(what, &LIMITS, counts));
        }
        seldom.extend(self.why_seldom());
        let enough = seldom.is_empty() && strange.is_empty() && long && self.calls >= LEAST_CALLS;
        if !enough {
            println!("compare: not enough: too seldom {seldom:?}, unknown {strange:?}, long lists enough: {long}");
        }
        enough
    }

    /// Prints what `why` told, and gives back what was met too seldom.
    fn why_seldom(&self) -> Vec<String> {
        let Reached { numbers, rules, at_once, met } = &self.reached;
        println!("compare: why, numbers: {}", listed(numbers));
        println!("compare: why, rules that stood: {}", listed(rules));
        println!("compare: why, rules at once: {}", listed(at_once));
        println!("compare: why, limits: {}", listed(met));
        let mut seldom = too_seldom("why number", &WHY_NUMBERS, numbers);
        seldom.extend(too_seldom("why rule", &RULES.map(|(number, _)| number), rules));
        seldom.extend(too_seldom("why at once", &[0, 1, 2, 3], at_once));
        seldom.extend(too_seldom("why limit", &MET, met));
        seldom
    }
}

/// Which of these were counted fewer than 100 times.
fn too_seldom<T: Ord + Display>(what: &str, needed: &[T], counts: &BTreeMap<T, u64>) -> Vec<String> {
    let seldom = needed.iter().filter(|name| counts.get(name).copied().unwrap_or(0) < LEAST_EACH);
    seldom.map(|name| format!("{what}: {name}")).collect()
}

/// Each thing counted and how often, on one line.
fn listed<T: Display>(counts: &BTreeMap<T, u64>) -> String {
    counts.iter().map(|(name, times)| format!("{name} x {times}")).collect::<Vec<_>>().join(", ")
}

/// Lines that are wrong in more than one byte, or as a firmware engineer might write them.
#[rustfmt::skip]
const ILL_FORMED: [&str; 48] = [
    "", "\r", "\r\r", "AT\r", "AT+\r", "AT+NFM\r", "AT+NFM=\r", "AT+NFM?\r", "AT+NFM=??\r", "AT+NFM=?,1\r", "AT+NFM=1,?\r", "AT+NFM=00\r",
    "AT+NFM=01\r", "AT+NFM=10\r", "AT+NFM=1,00\r", "AT+NFM=1,01\r", "AT+NFM=1,\r", "AT+NFM=,\r", "AT+NFM=,1\r", "AT+NFM=1,1,\r",
    "AT+NFM=1,1,1\r", "AT+NFM=1;1\r", "AT+NFM = 1\r", "at+nfm=1\r", "At+Nfm=1\r", "AT+nfm=1\r", "AT+NFM=1\n", "AT+NFM=1\r\n",
    "AT+NFM=1\rAT+NFM=1\r", "AT+NFMCI\r", "AT+NFMCI=\r", "AT+NFMCI=?\r", "AT+NFMCI?\r", "AT+NFMCI=,\r", "AT+NFMCI=60,\r",
    "AT+NFMCI=,60\r", "AT+NFMCI=60,,120\r", "AT+NFMCI=120,60\r", "AT+NFMCI=60 120\r", "AT+NFMCI=+60\r", "AT+NFMCI=-60\r",
    "AT+NFMCI=0x3C\r", "AT+NFMCI=6e1\r", "AT+NFMCI=60.0\r", "AT+NFMCI=060\r", "AT+NFMCI=60,0\r", "AT+NFMCI=0\r", "at+nfmci=60\r",
];

fn main() {
    let seed = match std::env::var("SEED") {
        Ok(text) => text.parse().unwrap_or_else(|_| {
            println!("compare: SEED is not a number of 64 bits");
            exit(2)
        }),
        Err(_) => std::time::SystemTime::now().duration_since(std::time::UNIX_EPOCH).map_or(1, |time| time.as_nanos() as u64),
    };
    println!("compare: seed {seed}");
    let random = Random(seed.max(1));
    let mut bench = Bench {
        seed,
        random,
        calls: 0,
        kinds: BTreeMap::new(),
        answers: BTreeMap::new(),
        cuts: [0; 5],
        high: BTreeMap::new(),
        seconds: Default::default(),
        reached: Reached::default(),
        lacking: BTreeMap::new(),
        own_blocks: BTreeMap::new(),
        actions: BTreeMap::new(),
        both_rows: BTreeMap::new(),
        errors: BTreeMap::new(),
        timed: BTreeMap::new(),
        turned: BTreeMap::new(),
        journaled: BTreeMap::new(),
        restarted: BTreeMap::new(),
        journal_answers: BTreeMap::new(),
    };
    bench.figures();
    bench.limits();
    bench.come_back();
    bench.every_set();
    bench.near_limits();
    bench.leaks();
    bench.openings();
    bench.files();
    bench.spoiled_files();
    bench.every_five_files();
    bench.ruling_files();
    bench.short_sequences();
    bench.long_sequences();
    bench.good_states();
    bench.damage();
    bench.damage_at_once();
    bench.lengths();
    bench.rooms();
    bench.lines();
    bench.arguments();
    bench.columns();
    bench.due();
    bench.turned();
    bench.journal();
    bench.cuts();
    let enough = bench.enough();
    println!("compare: {} calls, no difference", bench.calls);
    exit(i32::from(!enough))
}
