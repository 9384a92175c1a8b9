//! The columns of causes in the comparison: every cause in every column, those that belong to the
//! service and those that do not, with the other registration in each of its states, and the
//! numbers for the AT side. After each rejection that is not refused for its arguments both
//! registrations are asked for.
use crate::both::{Bench, Call, Opening};
use crate::model::*;

const NAMES: [&str; 5] = ["MM", "GMM", "SM", "RP", "CP"];

/// What a column can answer to a rejection that is taken.
#[rustfmt::skip]
pub const ACTIONS: [&str; 20] = [
    "MM 20", "MM 23", "MM 24", "MM 25", "MM 26", "GMM 20", "GMM 23", "GMM 24", "GMM 25", "GMM 26",
    "SM 20", "SM 21", "SM 22", "SM 23", "SM 27", "SM 28", "RP 20", "RP 23", "CP 20", "CP 23",
];

/// How the other registration may stand when a row backs off both.
pub const OTHER: [&str; 4] = ["idle", "asked", "idle in a back-off", "asked in a back-off"];

/// What `error` can tell.
pub const ERRORS: [&str; 3] = ["one", "none", "refused"];

/// How many numbers section 7.5 has beside its causes, a number beside two of them counted twice.
const NUMBERS: usize = 38;

/// The other registration, or both where neither is rejected: its standing, its failures, and the
/// seconds that its back-off has left. The rejected service never has as many failures.
const OTHERS: [(u32, u32, u32); 6] = [(IDLE, 0, 0), (ASKED, 2, 0), (IDLE, 5, 77), (ASKED, 9, 33), (IDLE, 255, 0), (ASKED, 255, 5_000)];
const OWN_FAILURES: [u32; 5] = [1, 3, 14, 253, 254];

/// How the other registration stands in a good state, where a rejection comes by a row for both.
pub fn other_stands(s: &[u32], call: &Call) -> Option<&'static str> {
    let &Call::Rejected { time, service, cause, column, .. } = call else {
        return None;
    };
    let both = row(column, cause).is_some_and(|row| row.3 == Says::GsmAndGprsBackOff);
    if !both || service > 1 || !good(s) {
        return None;
    }
    let other = 1 - service as usize;
    let asked = usize::from(s[STANDINGS + other] == ASKED);
    let waits = usize::from(time < s[ENDS + other]);
    Some(OTHER[2 * waits + asked])
}

impl Bench {
    /// Counts a rejection that was taken, and in a row for both how the other registration stood.
    pub fn count_rejection(&mut self, call: &Call, (number, _): Answer, other: Option<&'static str>) {
        let (&Call::Rejected { column, .. }, 20..=28) = (call, number) else {
            return;
        };
        let name = NAMES.get(column as usize).unwrap_or(&"?");
        *self.actions.entry(format!("{name} {number}")).or_default() += 1;
        if let (Some(other), 20) = (other, number) {
            *self.both_rows.entry(other).or_default() += 1;
        }
    }

    pub fn count_error(&mut self, answer: Answer) {
        let what = match answer {
            (0, 0) => ERRORS[1],
            (0, _) => ERRORS[0],
            _ => ERRORS[2],
        };
        *self.errors.entry(what).or_default() += 1;
    }

    /// All of it, with a line that tells how many calls it took.
    pub fn columns(&mut self) {
        let before = self.calls;
        self.column_figures();
        let rejections = self.every_cause() + self.both_registrations();
        let errors = self.every_error();
        let calls = self.calls - before;
        println!("columns: {calls} calls, {rejections} of them rejections and {errors} of error, no difference");
    }

    /// Lines worked out by hand: a column of another service, a cause without a row, rows that
    /// hold one registration, both or none.
    fn column_figures(&mut self) {
        let ask = |time, kind| (Call::Request { time, kind }, (0, 0));
        let held = |time, kind, seconds| (Call::Request { time, kind }, (10, seconds));
        let reject = |time, service, cause, column, answer| (Call::Rejected { time, service, cause, second: 0, column }, answer);
        let silent = |time, service, answer| (Call::Silent { time, service }, answer);
        let plain = Opening { intervals: vec![60, 120, 240, 480, 960, 1920, 3840], ..Bench::classroom() };
        let refused = (2, 0);
        let sms = vec![
            ask(0, 3),
            reject(1, 3, 81, 2, refused),
            reject(1, 3, 81, 5, refused),
            reject(1, 3, 27, 3, (23, 0)),
            ask(2, 3),
            reject(3, 3, 17, 3, (23, 0)),
            ask(4, 3),
            reject(5, 3, 17, 4, (20, 103)),
            held(6, 3, 102),
        ];
        let gmm_6 = vec![ask(0, 1), reject(1, 1, 6, 1, (20, 103)), held(2, 0, 102), held(2, 1, 102)];
        let gmm_7 = vec![ask(0, 1), reject(1, 1, 7, 1, (20, 103)), ask(2, 0), held(2, 1, 102)];
        let mm_11 = vec![ask(0, 0), reject(1, 0, 11, 0, (24, 0)), ask(2, 0)];
        // A combined attach that is told as two rejections counts twice for each.
        let twice =
            vec![ask(0, 0), ask(0, 1), reject(1, 1, 8, 1, (20, 103)), reject(1, 0, 8, 0, (20, 152)), held(2, 0, 151), held(2, 1, 151)];
        // A pending request of the other stays pending, and its grant ends the back-off.
        let granted = (Call::Granted { time: 2, service: 0 }, (0, 0));
        let pending = vec![ask(0, 0), ask(0, 1), reject(1, 1, 3, 1, (20, 103)), granted, ask(2, 0), held(3, 1, 101)];
        let alone = vec![ask(0, 0), silent(1, 0, (20, 103)), ask(2, 1)];
        let off = Opening { nfm: 0, ..plain.clone() };
        let untimed = vec![ask(0, 1), reject(1, 1, 6, 1, (23, 0)), ask(1, 0), ask(1, 1)];
        // The other's back-off is moved to an earlier end, for its second wait is shorter.
        let one = Opening { intervals: vec![60], ..plain.clone() };
        let earlier = vec![
            ask(0, 0),
            ask(0, 1),
            reject(1, 1, 7, 1, (20, 103)),
            held(1, 1, 103),
            reject(2, 0, 8, 0, (20, 103)),
            held(2, 1, 92),
            held(93, 1, 1),
            ask(94, 1),
        ];
        let figures = [sms, gmm_6, gmm_7, mm_11, twice, pending, alone].map(|calls| (&plain, calls));
        for (opening, calls) in figures.into_iter().chain([(&off, untimed), (&one, earlier)]) {
            let mut pair = self.opened(opening);
            for (call, answer) in calls {
                self.figure(&mut pair, call, answer);
            }
        }
    }

    /// Every cause with every service, column and flag, in range and out of it, with NFM off and
    /// on, the service in each standing and the other registration in each state. Gives back how
    /// many rejections that were.
    fn every_cause(&mut self) -> u64 {
        let mut rejections = 0;
        for service in 0..=4 {
            for nfm in 0..2 {
                for standing in if service == 2 { IDLE..=UP } else { IDLE..=ASKED } {
                    for other in OTHERS {
                        let state = self.registered(service, nfm, standing, other);
                        for column in [0, 1, 2, 3, 4, 5, 6, 255, u32::MAX] {
                            for cause in (0..=256).chain([u32::MAX]) {
                                for second in 0..=2 {
                                    self.try_cause(&state, service, cause, second, column);
                                    rejections += 1;
                                }
                            }
                        }
                    }
                }
            }
        }
        rejections
    }

    /// A good state in which a service, or every one where there is no such, has that standing, and
    /// the other registration, or both, stands so.
    pub fn registered(&mut self, service: u32, nfm: u32, standing: u32, other: (u32, u32, u32)) -> Vec<u32> {
        let mut s = self.good_state();
        while s[LAST] > LATEST - 10_000 {
            s = self.good_state();
        }
        s[NFM] = nfm;
        let intervals = [60, 120, 240, 480, 960, 1920, 3840];
        s[INTERVALS..INTERVALS + 10].fill(0);
        s[INTERVAL_COUNT] = intervals.len() as u32;
        s[INTERVALS..INTERVALS + intervals.len()].copy_from_slice(&intervals);
        for each in 0..4 {
            let (at, failures, left) = match each {
                _ if each == service || service > 3 && each > 1 => (standing, self.random.pick(&OWN_FAILURES), 0),
                0 | 1 => other,
                _ => (self.random.number(2), self.random.pick(&OWN_FAILURES), 50),
            };
            let each = each as usize;
            s[STANDINGS + each] = at;
            s[FAILURES + each] = failures;
            s[ENDS + each] = if nfm == 1 && left > 0 { s[LAST] + left } else { 0 };
        }
        if !good(&s) {
            self.fail(&Call::Tick { time: 0 }, "a state made to be good is not");
        }
        s
    }

    /// Each row for both registrations, with every two numbers of failures at their edges, the
    /// other one idle and asked, and its back-off over or not. Gives back how many rejections that
    /// were.
    fn both_registrations(&mut self) -> u64 {
        let edges = [0, 1, 2, 6, 7, 8, 14, 15, 254, 255];
        let mut rejections = 0;
        for (column, cause) in [(0, 8), (0, 9), (1, 2), (1, 3), (1, 6), (1, 8), (1, 9)] {
            for own in edges {
                for others in edges {
                    for (standing, left) in [(IDLE, 0), (IDLE, 1), (IDLE, 90), (ASKED, 0), (ASKED, 3), (ASKED, 9_000)] {
                        let mut state = self.registered(column, 1, ASKED, (standing, others, left));
                        state[FAILURES + column as usize] = own;
                        self.try_cause(&state, column, cause, 0, column);
                        rejections += 1;
                    }
                }
            }
        }
        rejections
    }

    /// One rejection, and then a request of both registrations.
    fn try_cause(&mut self, state: &[u32], service: u32, cause: u32, second: u32, column: u32) {
        let time = state[LAST] + self.random.number(3);
        let mut pair = self.pair(state);
        let (number, _) = self.call(&mut pair, &Call::Rejected { time, service, cause, second, column });
        if number == 2 {
            return; // the state is as it was, which has been compared
        }
        for kind in 0..2 {
            self.call(&mut pair, &Call::Request { time: time + 1, kind });
        }
    }

    /// The number beside every cause of every column, and of columns and causes that there are not.
    /// Gives back how many calls that were.
    fn every_error(&mut self) -> u64 {
        let before = self.calls;
        let state = self.good_state();
        let mut pair = self.pair(&state);
        let mut told = 0;
        let huge = [65_535, 65_536, 0x7fff_ffff, 0x8000_0000, u32::MAX - 1, u32::MAX];
        for column in (0..=6).chain([255, 256, 257]).chain(huge) {
            for cause in (0..=300).chain([511, 512, 513]).chain(huge) {
                let call = Call::Error { column, cause };
                let answer = self.call(&mut pair, &call);
                let refused = answer == (2, 0);
                if refused != (column > 4 || cause > 255) || answer.1 == 148 {
                    self.fail(&call, &format!("both {answer:?}"));
                }
                told += usize::from(answer.1 != 0);
            }
        }
        let printed = PAGE.iter().flat_map(|(causes, cme, cms, _)| causes.map(|cause| (cause, (*cme).min(*cms))));
        let beside = printed.filter(|&(cause, number)| cause <= 255 && number != u32::MAX).count();
        if told != NUMBERS || beside != NUMBERS {
            let last = Call::Error { column: 0, cause: 0 };
            self.fail(&last, &format!("{told} numbers told, {beside} in the model's page, {NUMBERS} printed"));
        }
        self.calls - before
    }
}
