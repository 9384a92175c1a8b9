//! `why` in the comparison: states in which rules stand against a request, and what must hold of an answer besides its being the model's.
use crate::both::{Bench, Call, Pair};
use crate::model::{self, *};
use crate::reasons::{applying, full, pressed};
use std::collections::BTreeMap;

/// What `why` has told: its numbers, each rule that stood, how many stood at once, and what else was met.
#[derive(Default)]
pub struct Reached {
    pub numbers: BTreeMap<u32, u64>,
    pub rules: BTreeMap<u32, u64>,
    pub at_once: BTreeMap<u32, u64>,
    pub met: BTreeMap<&'static str, u64>,
}

// What is to be met: of limits that stand, and of limits that do not.
pub const MET: [&str; 6] = [FULL_LIST, LIMIT_1, LIMIT_255, EQUAL, JUST_OUT, RPM_OFF];
const FULL_LIST: &str = "stands on a list of 255";
const LIMIT_1: &str = "a limit of 1 stands";
const LIMIT_255: &str = "a limit of 255 stands";
const EQUAL: &str = "the time that has to leave is there twice";
const JUST_OUT: &str = "would stand but for a permit of 3,600 s";
const RPM_OFF: &str = "would stand but for RPM 0";

impl Bench {
    /// Looks at an answer of `why` by itself: it names the gate's own answer, its bits and its first rule agree, each time is the one that
    /// has to leave the hour, and where the gate names a limit its seconds end when that time has left: the two are one definition.
    pub fn look_at_why(&mut self, call: &Call, s: &[u32], answer: Answer, before: &[u32], times: &[u32]) {
        let &Call::Why { time, kind, room } = call else {
            return;
        };
        let (number, bits) = answer;
        *self.reached.numbers.entry(number).or_default() += 1;
        let (own, seconds) = model::request(&mut s.to_vec(), time, kind);
        if number != if room == 8 { own } else { 1 } {
            self.fail(call, &format!("the first rule told is {number}, the gate's own answer {own}"));
        }
        if (1..=4).contains(&number) {
            if bits != 0 || times != before {
                self.fail(call, "a refused call told rules");
            }
            return;
        }
        let first = if bits == 0 { 0 } else { RULES.get(bits.trailing_zeros() as usize).map_or(u32::MAX, |rule| rule.0) };
        if number != first || bits >= 1 << RULES.len() || bits.count_ones() > 3 {
            self.fail(call, &format!("the bits {bits:#b} do not fit the number {number}"));
        }
        *self.reached.at_once.entry(bits.count_ones()).or_default() += 1;
        for (rule, &p) in times.iter().enumerate() {
            self.look_at_rule(call, s, rule, bits >> rule & 1 == 1, p);
            if RULES[rule].0 == own && own > 10 && p + HOUR - time != seconds {
                self.fail(call, &format!("the time {p} for rule {own}, which the gate answers with {seconds} seconds"));
            }
        }
    }

    /// Looks at one rule of an answer that is no refusal, with its bit and its time.
    fn look_at_rule(&mut self, call: &Call, s: &[u32], rule: usize, stands: bool, p: u32) {
        let &Call::Why { time, kind, .. } = call else {
            return;
        };
        let (number, limit) = RULES[rule];
        if stands {
            *self.reached.rules.entry(number).or_default() += 1;
        }
        let Some((place, list)) = limit else {
            if p != 0 {
                self.fail(call, "a time for the back-off");
            }
            return;
        };
        let (limit, permits) = (s[place], permits(s, list));
        let sent = in_the_hour(s, list, time);
        let applies = |rpm| applying(kind, s[MOOD], rpm) >> rule & 1 == 1;
        if stands != (applies(s[RPM]) && limit != 0 && sent >= limit) {
            self.fail(call, &format!("rule {number}: its bit is {stands}, with {sent} in the hour and a limit of {limit}"));
        }
        if !stands {
            if p != 0 {
                self.fail(call, &format!("a time for rule {number}, which does not stand"));
            }
            let just_out = permits.iter().any(|&p| p + HOUR == time);
            self.meet(JUST_OUT, applies(s[RPM]) && limit == sent + 1 && just_out);
            self.meet(RPM_OFF, s[RPM] == 0 && applies(1) && limit != 0 && sent >= limit);
            return;
        }
        let equal = permits.iter().filter(|&&other| other == p).count();
        if equal == 0 || p > time || p.saturating_add(HOUR) <= time {
            self.fail(call, &format!("rule {number}: the time {p} is not on its list, or not in the hour"));
        }
        // The rule alone blocks while that permit is in the hour, and no longer.
        for (then, blocks) in [(p + HOUR - 1, true), (p + HOUR, false)] {
            if then <= LATEST && alone_blocks(s, rule, then, kind) != blocks {
                self.fail(call, &format!("rule {number}: {p} is not the permit that has to leave, by what the rule does at {then}"));
            }
        }
        self.meet(FULL_LIST, permits.len() == LIST_ROOM);
        self.meet(LIMIT_1, limit == 1);
        self.meet(LIMIT_255, limit == 255);
        self.meet(EQUAL, equal > 1);
    }

    fn meet(&mut self, what: &'static str, met: bool) {
        *self.reached.met.entry(what).or_default() += u64::from(met);
    }

    /// `why` and then the request itself, which must answer what `why` named.
    pub fn ask(&mut self, pair: &mut Pair, time: u32, kind: u32) -> Answer {
        let told = self.call(pair, &Call::Why { time, kind, room: 8 });
        let request = Call::Request { time, kind };
        let (number, _) = self.call(pair, &request);
        if number != told.0 {
            self.fail(&request, &format!("answers {number}, and why named {}", told.0));
        }
        told
    }

    /// Every set of the eight rules made full, for every request, mood and RPM: those of them that apply are told.
    pub fn every_set(&mut self) {
        for bits in 0..256 {
            for kind in 0..6 {
                for mood in 0..4 {
                    for rpm in 0..2 {
                        let sent = self.random.pick(&[1, 2, 3, 100, 254, 255]);
                        let state = full(&mut self.random, kind, mood, rpm, bits, sent);
                        let mut pair = self.pair(&state);
                        let (_, told) = self.ask(&mut pair, 100_000, kind);
                        if told != bits & applying(kind, mood, rpm) {
                            self.fail(&Call::Why { time: 100_000, kind, room: 8 }, &format!("told {told:#b} of {bits:#b}"));
                        }
                    }
                }
            }
        }
    }

    /// States near their limits, asked then, at the last second of the permit that has to leave for each limit that stands, and a second
    /// later.
    pub fn near_limits(&mut self) {
        for _ in 0..6_000 {
            let kind = self.random.pick(&[0, 1, 2, 2, 3, 4, 5]);
            let (state, time) = pressed(&mut self.random, kind);
            let mut pair = self.pair(&state);
            let mut times = [0; 8];
            let (_, bits) = model::why(&state, time, kind, &mut times);
            for p in (1..8).filter(|rule| bits >> rule & 1 == 1).map(|rule| times[rule]) {
                for time in [p + HOUR - 1, p + HOUR] {
                    self.call(&mut pair, &Call::Why { time, kind, room: 8 });
                }
            }
            self.ask(&mut pair, time, kind);
        }
    }
}
