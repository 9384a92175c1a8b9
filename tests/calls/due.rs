//! The timed reset in the comparison: the causes that set the due time and the time that is drawn,
//! what it stays through and what ends it, the clock call about that time, C-R-1 with its leak, and
//! ordered resets as N1, `why` and a limit's seconds count them.
use crate::both::{by_model, file, Bench, Call, Opening, Pair};
use crate::model::*;
use std::collections::BTreeSet;

/// What is to be met: of the due time as it is set, kept and ended, and of clock calls.
#[rustfmt::skip]
pub const TIMED: [&str; 46] = [
    "set by MM 2", "set by MM 3", "set by MM 6", "set by GMM 2", "set by GMM 3", "set by GMM 6", "set by GMM 7", "set by GMM 8",
    "set with NFM 0", "not set, MM 5", "not set, MM 8", "not set, GMM 9", "not set, T1 0", "not set, RPM 0", "not set anew",
    "not set anew after it",
    "kept by a grant", "kept by silence", "kept by a drop", "kept by another rejection", "kept by a permit", "kept by a block",
    "kept by request 5 blocked", "kept by an AT line", "kept by AT+NFM=0", "kept by a request after it",
    "ended by request 5", "ended by request 5 after it", "ended by an opening",
    "a second before it", "ordered at it", "ordered after it", "held by N1", "held by RPM 0", "held, above the latest time",
    "ordered with N1 0", "ordered with N1 not full", "ordered with T1 0", "ordered onto a full list", "ordered, one asked",
    "ordered, PDP up", "ordered in a back-off", "C-R-1 stays at 255", "C-R-1 leaks and rises", "C-R-1 leaks from 255 and rises",
    "C-R-1 leaks to 0 and rises",
];

/// The causes of RMM6, by the numbers of their columns.
const PERMANENT: [(u32, u32); 8] = [(0, 2), (0, 3), (0, 6), (1, 2), (1, 3), (1, 6), (1, 7), (1, 8)];

/// The state that a call finds, of the right length.
pub struct Waiting(Vec<u32>);

impl Waiting {
    pub fn of(s: &[u32], call: &Call) -> Option<Waiting> {
        let looked_at = !matches!(call, Call::Error { .. } | Call::Why { .. } | Call::Counters { .. } | Call::Turn { .. });
        (looked_at && s.len() == PLACES).then(|| Waiting(s.to_vec()))
    }
}

fn asked(time: u32, kind: u32) -> Call {
    Call::Request { time, kind }
}

/// A rejection of the first four columns' services.
fn rejected(time: u32, column: u32, cause: u32) -> Call {
    Call::Rejected { time, service: column, cause, second: 0, column }
}

fn tick(time: u32) -> Call {
    Call::Tick { time }
}

impl Bench {
    /// Counts what an accepted call met of the timed reset. The due time must be kept by all but
    /// the few that set it or end it, and 12 come from a clock call alone.
    pub fn count_timed(&mut self, call: &Call, (number, _): Answer, found: Option<Waiting>, s: &[u32]) {
        let (Some(Waiting(before)), 0 | 6..) = (found, number) else {
            return;
        };
        let (due, now) = (before[DUE], s[DUE]);
        let right = match (call, number) {
            (Call::Tick { .. }, 12) | (Call::Open(_), 0) | (Call::Request { kind: 5, .. }, 0) => now == 0,
            (_, 12) => false,
            (Call::Rejected { .. }, _) if due == 0 => true,
            _ => now == due,
        };
        if !right {
            self.fail(call, &format!("answered {number}, and the due time goes from {due} to {now}"));
        }
        match *call {
            Call::Rejected { time, cause, column, .. } => self.count_set(&before, time, cause, column, now),
            Call::Tick { time } => self.count_tick(&before, time, number, s),
            _ if due != 0 => self.count_kept(call, &before, number),
            _ => {}
        }
    }

    fn met(&mut self, what: &'static str, met: bool) {
        *self.timed.entry(what).or_default() += u64::from(met);
    }

    fn count_set(&mut self, before: &[u32], time: u32, cause: u32, column: u32, now: u32) {
        let due = before[DUE];
        let at = PERMANENT.iter().position(|&permanent| permanent == (column, cause));
        if let (Some(at), true) = (at, now != due) {
            self.met(TIMED[at], true);
            self.met("set with NFM 0", before[NFM] == 0);
            return;
        }
        let could = due == 0 && before[T1] > 0 && before[RPM] == 1;
        for (what, near) in [("not set, MM 5", (0, 5)), ("not set, MM 8", (0, 8)), ("not set, GMM 9", (1, 9))] {
            self.met(what, could && near == (column, cause));
        }
        self.met("not set, T1 0", at.is_some() && due == 0 && before[RPM] == 1 && before[T1] == 0);
        self.met("not set, RPM 0", at.is_some() && due == 0 && before[RPM] == 0 && before[T1] > 0);
        self.met("not set anew", at.is_some() && due > time && before[T1] > 0 && before[RPM] == 1);
        self.met("not set anew after it", at.is_some() && 0 < due && due <= time && before[T1] > 0 && before[RPM] == 1);
        self.met("kept by another rejection", at.is_none() && due != 0);
    }

    fn count_kept(&mut self, call: &Call, before: &[u32], number: u32) {
        match *call {
            Call::Granted { .. } => self.met("kept by a grant", true),
            Call::Silent { .. } => self.met("kept by silence", true),
            Call::Dropped { .. } => self.met("kept by a drop", true),
            Call::Command { ref line, .. } => {
                self.met("kept by an AT line", true);
                self.met("kept by AT+NFM=0", line.starts_with(b"AT+NFM=0"));
            }
            Call::Request { time, kind: 5 } if number == 0 => {
                self.met(if before[DUE] <= time { "ended by request 5 after it" } else { "ended by request 5" }, true);
            }
            Call::Request { kind: 5, .. } => self.met("kept by request 5 blocked", true),
            Call::Request { time, .. } => {
                self.met(if number == 0 { "kept by a permit" } else { "kept by a block" }, true);
                self.met("kept by a request after it", before[DUE] <= time);
            }
            Call::Open(_) => self.met("ended by an opening", good(before)),
            _ => {}
        }
    }

    fn count_tick(&mut self, before: &[u32], time: u32, number: u32, s: &[u32]) {
        let (due, n1) = (before[DUE], before[N1]);
        if number == 0 {
            self.met("a second before it", due > 0 && time == due - 1 && before[RPM] == 1);
            let past = 0 < due && due <= time;
            self.met("held by RPM 0", past && before[RPM] == 0);
            self.met("held by N1", past && before[RPM] == 1);
            self.met("held, above the latest time", due > LATEST && time == LATEST);
            return;
        }
        self.met(if time == due { "ordered at it" } else { "ordered after it" }, true);
        self.met(if n1 == 0 { "ordered with N1 0" } else { "ordered with N1 not full" }, true);
        self.met("ordered with T1 0", before[T1] == 0);
        self.met("ordered onto a full list", before[LENGTHS + RESET] == 255);
        self.met("ordered, one asked", before[STANDINGS..STANDINGS + 4].contains(&ASKED));
        self.met("ordered, PDP up", before[STANDINGS + 2] == UP);
        self.met("ordered in a back-off", before[ENDS..ENDS + 4].iter().any(|&end| time < end));
        let (was, is) = (before[C_R_1], s[C_R_1]);
        let period = before[LEAK_RATES + 1] * HOUR;
        let opened = before[OPENED];
        let leaks = period > 0 && (time - opened) / period > (before[LAST] - opened) / period;
        self.met("C-R-1 stays at 255", was == 255 && is == 255 && !leaks);
        self.met("C-R-1 leaks and rises", leaks && 0 < was && was < 255);
        self.met("C-R-1 leaks from 255 and rises", leaks && was == 255);
        self.met("C-R-1 leaks to 0 and rises", leaks && is == 1);
    }

    /// All of it, with a line that tells how many calls it took.
    pub fn due(&mut self) {
        let before = self.calls;
        self.due_figures();
        let times = self.due_times();
        let rejections = self.every_rejection();
        let ticks = self.clock_calls() + self.raised();
        self.counted_resets();
        self.timed_sequences();
        let calls = self.calls - before;
        println!("due: {calls} calls, no difference: {times} due times drawn, {rejections} rejections by every cause, {ticks} clock calls");
    }

    /// An opening with this N1 and T1.
    fn with_t1(n1: u8, t1: u8) -> Opening {
        Opening { params: file(32, &[n1, t1]), intervals: vec![60, 120, 240, 480, 960, 1920, 3840], ..Bench::classroom() }
    }

    /// Looks at a place of a state that the figures give.
    fn holds(&self, pair: &Pair, place: usize, number: u32, call: &Call) {
        let held = pair.model.part()[place];
        if held != number {
            self.fail(call, &format!("place {place} is {held}, and the figures have {number}"));
        }
    }

    /// Lines worked out by hand, each with the answer, and then the due time and C-R-1.
    fn due_figures(&mut self) {
        let done = (0, 0);
        let ordered = (12, 0);
        // TC-RMM6a: two permanent rejections, one reset.
        let twice = vec![
            (asked(0, 0), done, 0, 0),
            (rejected(1, 0, 2), (20, 103), 332, 0),
            (asked(2, 1), done, 332, 0),
            (rejected(3, 1, 7), (20, 103), 332, 0),
            (tick(331), done, 332, 0),
            (tick(332), ordered, 0, 1),
            (asked(333, 0), done, 0, 1),
            (asked(333, 1), done, 0, 1),
            (Call::Granted { time: 334, service: 0 }, done, 0, 1),
            (Call::Granted { time: 334, service: 1 }, done, 0, 1),
            (tick(400), done, 0, 1),
        ];
        // TC-RPG4: rejected again after the reset.
        let again = vec![
            (asked(0, 1), done, 0, 0),
            (rejected(1, 1, 6), (20, 103), 332, 0),
            (asked(2, 0), (10, 102), 332, 0),
            (tick(331), done, 332, 0),
            (tick(332), ordered, 0, 1),
            (asked(333, 1), done, 0, 1),
            (rejected(334, 1, 6), (20, 152), 665, 1),
            (tick(664), done, 665, 1),
            (tick(665), ordered, 0, 2),
            (asked(666, 1), done, 0, 2),
            (Call::Granted { time: 667, service: 1 }, done, 0, 2),
        ];
        let full = vec![
            (asked(0, 5), done, 0, 0),
            (asked(1, 0), done, 0, 0),
            (rejected(2, 0, 2), (20, 103), 333, 0),
            (tick(333), done, 333, 0),
            (tick(3599), done, 333, 0),
            (tick(3600), ordered, 0, 1),
            (asked(3601, 5), (11, 3599), 0, 1),
        ];
        let ended = vec![
            (asked(0, 0), done, 0, 0),
            (rejected(1, 0, 2), (20, 103), 332, 0),
            (asked(200, 5), done, 0, 0),
            (tick(332), done, 0, 0),
            (tick(4000), done, 0, 0),
        ];
        for (n1, lines) in [(6, twice), (6, again), (1, full), (6, ended)] {
            let mut pair = self.opened(&Bench::with_t1(n1, 1));
            for (call, answer, due, c_r_1) in lines {
                self.figure(&mut pair, call.clone(), answer);
                self.holds(&pair, DUE, due, &call);
                self.holds(&pair, C_R_1, c_r_1, &call);
            }
        }
        let cards = [(1_010_123_456_789, [331, 1879, 3717, 98_553]), (0, [324, 1620, 3240, 82_620])];
        for (imsi, delays) in cards {
            for (t1, delay) in [1, 5, 10, 255].into_iter().zip(delays) {
                let mut pair = self.opened(&Opening { imsi, ..Bench::with_t1(0, t1) });
                self.figure(&mut pair, asked(0, 0), done);
                self.call(&mut pair, &rejected(7, 0, 3));
                self.holds(&pair, DUE, 7 + delay, &rejected(7, 0, 3));
                self.expect(&mut pair, tick(7 + delay - 1), done);
                self.expect(&mut pair, tick(7 + delay), ordered);
            }
        }
    }

    /// The time that is drawn, for every T1, many IMSIs and times up to the latest: it is in RTC1's
    /// window, of which all is drawn where it is narrow. Gives back how many were drawn.
    fn due_times(&mut self) -> u64 {
        let mut narrow = BTreeSet::new();
        let mut drawn = 0;
        let all = (0..=255).flat_map(|t1| [t1; 24]).chain([1; 3_000]);
        for t1 in all {
            let any = self.random.number(LATEST);
            let time = self.random.pick(&[0, 1, any, LATEST - 100_000, LATEST - 1, LATEST]);
            let (column, cause) = self.random.pick(&PERMANENT);
            let imsi = self.any_imsi();
            let mut pair = self.opened(&Opening { time, imsi, ..Bench::with_t1(0, t1) });
            self.call(&mut pair, &asked(time, column));
            let call = rejected(time, column, cause);
            self.call(&mut pair, &call);
            let due = pair.model.part()[DUE];
            let t1 = u32::from(t1);
            let window = if t1 == 0 { 0..=0 } else { time + 324 * t1..=time + 396 * t1 };
            if !window.contains(&due) {
                self.fail(&call, &format!("the due time is {due}, out of the window"));
            }
            if t1 == 1 {
                narrow.insert(due - time);
            }
            self.to_the_due_time(&mut pair);
            drawn += 1;
        }
        if narrow.len() != 73 {
            self.fail(&tick(0), &format!("with T1 = 1 only {} of 73 seconds were drawn", narrow.len()));
        }
        drawn
    }

    fn any_imsi(&mut self) -> u64 {
        let any = self.random.below(LARGEST_IMSI + 1);
        self.random.pick(&[any, any, any, 0, 1_010_123_456_789 + 240 * (any % 256), LARGEST_IMSI])
    }

    /// A clock call a second before the due time and one at it, or a late one where none is set; as
    /// far as there are such times.
    fn to_the_due_time(&mut self, pair: &mut Pair) {
        let s = pair.model.part();
        let (due, last) = (s[DUE], s[LAST]);
        let times = if due == 0 { [last, last.saturating_add(100_981)] } else { [due - 1, due] };
        for time in times {
            self.call(pair, &tick(time.clamp(last, LATEST)));
        }
    }

    /// Every cause in every column, with T1 0, small and high, RPM and NFM off and on, and a due
    /// time that is not set, past, to come or never; then the clock calls. Gives back how many
    /// rejections that were.
    fn every_rejection(&mut self) -> u64 {
        let mut rejections = 0;
        for (column, service) in [(0, 0), (1, 1), (2, 2), (3, 3), (4, 3)] {
            for t1 in [0, 1, 255] {
                for (rpm, nfm) in [(0, 0), (0, 1), (1, 0), (1, 1)] {
                    for due in [0, 1, 500, u32::MAX] {
                        let mut state = self.registered(service, nfm, ASKED, (IDLE, 3, 40));
                        (state[T1], state[RPM]) = (t1, rpm);
                        state[DUE] = if due == 500 { state[LAST] + due } else { due };
                        for cause in 0..=255 {
                            let mut pair = self.pair(&state);
                            let time = state[LAST] + self.random.number(3);
                            self.call(&mut pair, &Call::Rejected { time, service, cause, second: 0, column });
                            self.to_the_due_time(&mut pair);
                            rejections += 1;
                        }
                    }
                }
            }
        }
        rejections
    }

    /// Clock calls over due times, N1, resets in the hour and RPM. Gives back how many cases that
    /// were.
    fn clock_calls(&mut self) -> u64 {
        let mut ticks = 0;
        for n1 in [0, 1, 2, 254, 255] {
            for sent in [0, 1, n1.max(1) - 1, n1, (n1 + 1).min(255), 255] {
                for age in [0, HOUR - 1, HOUR, HOUR + 1] {
                    for rpm in 0..2 {
                        for gap in [0, 1, 2_000] {
                            let time = 100_000 + gap;
                            for due in [0, 1, 99_999, time - 1, time, time + 1, LATEST, LATEST + 1, u32::MAX] {
                                let mut state = self.limited(N1, RESET, n1, sent, age.saturating_sub(gap));
                                (state[RPM], state[DUE]) = (rpm, due);
                                self.unsettle(&mut state);
                                self.try_ticks(&state, time);
                                ticks += 1;
                            }
                        }
                    }
                }
            }
        }
        ticks
    }

    /// Standings, back-offs, failures, mood and T1 at random.
    fn unsettle(&mut self, s: &mut [u32]) {
        let random = &mut self.random;
        s[T1] = random.pick(&[0, 1, 255]);
        s[MOOD] = random.number(4);
        for service in 0..4 {
            s[FAILURES + service] = random.pick(&[0, 1, 255]);
            s[STANDINGS + service] = random.number(if service == 2 { 3 } else { 2 });
            let up = s[STANDINGS + service] == UP;
            s[ENDS + service] = if up { 0 } else { random.pick(&[0, 99_000, 101_000, LATEST_END]) };
        }
    }

    /// A clock call at that time, one more and a request; then anew with the request first, before
    /// it perhaps a drop, and a clock call at the latest time.
    fn try_ticks(&mut self, state: &[u32], time: u32) {
        let kind = self.random.pick(&[0, 1, 2, 3, 4, 5, 5, 5]);
        let mut pair = self.pair(state);
        self.call(&mut pair, &tick(time));
        self.call(&mut pair, &tick(time));
        self.ask(&mut pair, time, kind);
        let mut pair = self.pair(state);
        if self.random.chance(30) {
            self.call(&mut pair, &Call::Dropped { time });
        }
        self.ask(&mut pair, time, kind);
        self.call(&mut pair, &tick(time));
        self.call(&mut pair, &tick(LATEST));
    }

    /// C-R-1 at its edges, with no leak point, one and many between the last time and the clock
    /// call, and a reset that is ordered or that N1 holds back: it rises after its leak. Gives back
    /// how many clock calls that were.
    fn raised(&mut self) -> u64 {
        let before = self.calls;
        for rate in [0, 1, 2, 255] {
            let period = HOUR * rate.max(1);
            let moves =
                [(0, 0), (0, period - 1), (0, period), (period - 1, period), (period, period + 1), (5, 3 * period), (0, 256 * period)];
            for opened in [1, 777, 3_000_000_000] {
                for (old, new) in moves.map(|(old, new)| (opened + old, opened + new)) {
                    let points = if rate == 0 { 0 } else { (new - opened) / period - (old - opened) / period };
                    for count in [0, 1, 2, 3, 253, 254, 255] {
                        for due in [1, old, new] {
                            self.raise(opened, old, new, rate, due, count, count.saturating_sub(points));
                        }
                    }
                }
            }
        }
        self.calls - before
    }

    /// A clock call at `new` on a state at `old` with that due time, where C-R-1 leaks from `count`
    /// to `leaked`; with N1 off, and with one reset at `old` that fills it.
    #[allow(clippy::too_many_arguments)]
    fn raise(&mut self, opened: u32, old: u32, new: u32, rate: u32, due: u32, count: u32, leaked: u32) {
        for n1 in [0, 1] {
            let mut state = vec![0; PLACES];
            by_model(&mut state, &Call::Open(Opening { time: opened, ..Bench::with_t1(n1, 1) }), &mut [], &mut []);
            (state[LAST], state[DUE], state[C_R_1], state[LEAK_RATES + 1]) = (old, due, count, rate);
            state[LENGTHS + RESET] = 1;
            state[LISTS + LIST_ROOM * RESET] = old;
            let mut pair = self.pair(&state);
            let free = n1 == 0 || new >= old + HOUR;
            let (number, rises) = if free { (12, 1) } else { (0, 0) };
            self.expect(&mut pair, tick(new), (number, 0));
            self.holds(&pair, C_R_1, (leaked + rises).min(255), &tick(new));
            self.holds(&pair, C_BR_1, 0, &tick(new));
        }
    }

    /// As many ordered resets as N1 has, and requested ones among them: then a request 5 is blocked
    /// until the first of them leaves the hour, and so is the next ordered one; `why` names its
    /// time.
    fn counted_resets(&mut self) {
        for n1 in [1, 2, 3, 5, 8] {
            for turn in 0..20 {
                let imsi = self.any_imsi();
                let mut pair = self.opened(&Opening { nfm: 0, imsi, ..Bench::with_t1(n1, 1) });
                let mut resets = vec![];
                while resets.len() < usize::from(n1) {
                    let now = pair.model.part()[LAST];
                    if turn % 4 == 3 && self.random.chance(50) {
                        self.figure(&mut pair, asked(now + 1, 5), (0, 0));
                        resets.push(now + 1);
                        continue;
                    }
                    let due = self.rejected_for_good(&mut pair);
                    self.expect(&mut pair, tick(due), (12, 0));
                    resets.push(due);
                }
                let leaves = resets[0] + HOUR;
                let time = self.rejected_for_good(&mut pair).max(leaves - 1000);
                self.figure(&mut pair, asked(time, 5), (11, leaves - time));
                self.told(&mut pair, time, resets[0]);
                for (time, answer) in [(leaves - 1, (0, 0)), (leaves, (12, 0))] {
                    self.expect(&mut pair, tick(time), answer);
                }
                // the second of them has to leave now, or with N1 = 1 the one just ordered
                let next = resets.get(1).copied().unwrap_or(leaves);
                self.figure(&mut pair, asked(leaves, 5), (11, next + HOUR - leaves));
                self.told(&mut pair, leaves, next);
                self.figure(&mut pair, asked(next + HOUR, 5), (0, 0));
            }
        }
    }

    /// A registration asked and rejected for good; gives back the due time.
    fn rejected_for_good(&mut self, pair: &mut Pair) -> u32 {
        let now = pair.model.part()[LAST];
        let (column, cause) = self.random.pick(&PERMANENT);
        self.figure(pair, asked(now, column), (0, 0));
        self.expect(pair, rejected(now, column, cause), (23, 0));
        pair.model.part()[DUE]
    }

    /// `why` tells of N1 that this time has to leave the hour.
    fn told(&mut self, pair: &mut Pair, time: u32, leaves: u32) {
        let call = Call::Why { time, kind: 5, room: 8 };
        self.expect(pair, call.clone(), (11, 2));
        let mut times = [0; 8];
        why(pair.model.part(), time, 5, &mut times);
        if times[1] != leaves {
            self.fail(&call, &format!("N1 waits for {}, and the figures have {leaves}", times[1]));
        }
    }

    /// Sequences with a short T1 and many clock calls.
    fn timed_sequences(&mut self) {
        for _ in 0..3_000 {
            let mut opening = self.opening();
            opening.rpm = u32::from(self.random.chance(90));
            let limits = [self.random.pick(&[0, 0, 1, 2, 3, 255]), self.random.pick(&[1, 1, 2, 10])];
            opening.set_file(opening.ruling(0), file(32, &limits));
            let mut pair = self.opened(&opening);
            for _ in 0..60 {
                let call = self.timed_call(pair.model.part());
                self.call(&mut pair, &call);
            }
        }
    }

    /// The next call on a good state: often a clock call about the due time, a request 5 then, or a
    /// registration that is asked or rejected for good.
    pub fn timed_call(&mut self, s: &[u32]) -> Call {
        let (last, due) = (s[LAST], s[DUE]);
        let near = due.saturating_sub(self.random.number(3)).clamp(last, LATEST);
        let (column, cause) = self.random.pick(&PERMANENT);
        let waits = s[STANDINGS + column as usize] == ASKED;
        match self.random.below(20) {
            0 | 1 if due > 0 => tick(near),
            2 if due > 0 => asked(near, 5),
            3 | 4 if waits => rejected(last, column, cause),
            3 => asked(s[ENDS + column as usize].clamp(last, LATEST), column),
            _ => self.next_call(s, false, 20),
        }
    }
}
