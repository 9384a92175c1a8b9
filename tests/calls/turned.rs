//! Turning in the comparison: good buffers of version 1 turned, and driven on afterwards; old ones
//! that are damaged, of another length or of version 2, and states of another length, which are
//! refused; and every other call, which refuses version 1.
use crate::both::{by_model, Bench, Call, Pair};
use crate::made::EDGES;
use crate::model::*;

/// What is to be met.
#[rustfmt::skip]
pub const TURNED: [&str; 9] = [
    "turned", "turned over a good state", "turned, and a reset ordered later", "an old one damaged", "an old one of another length",
    "an old one of version 2", "a state of another length", "another call given version 1",
    "another call given a version in the other's length",
];

/// The buffer of version 1 that holds what a good state holds, but for the due time.
fn older(mut state: Vec<u32>) -> Vec<u32> {
    state.truncate(PLACES_1);
    state[VERSION] = 1;
    state
}

impl Bench {
    fn turning(&mut self, what: &'static str) {
        *self.turned.entry(what).or_default() += 1;
    }

    /// All of it, with a line that tells how many calls it took.
    pub fn turned(&mut self) {
        let before = self.calls;
        self.turned_and_driven_on();
        self.turned_damage();
        self.turned_lengths();
        self.other_versions();
        println!("turned: {} calls, no difference", self.calls - before);
    }

    /// A good buffer of version 1, any or one that so many calls have made.
    fn old(&mut self, calls: u64) -> Vec<u32> {
        if calls == 0 {
            return older(self.good_state());
        }
        let mut s = vec![0; PLACES];
        by_model(&mut s, &Call::Open(self.opening()), &mut [], &mut []);
        for _ in 0..calls {
            let call = self.next_call(&s, false, 50);
            by_model(&mut s, &call, &mut [0; 40], &mut [0; 8]);
        }
        older(s)
    }

    /// Good ones turned over anything, each then given to many calls.
    fn turned_and_driven_on(&mut self) {
        for turn in 0..1_200 {
            let mut old = self.old(turn % 3 * 40);
            if turn % 4 < 2 {
                (old[RPM], old[T1]) = (1, self.random.pick(&[1, 2, 10]));
            }
            let mut pair = self.rubbish(PLACES);
            if turn % 2 == 1 {
                let state = self.good_state();
                pair = self.pair(&state);
                self.turning("turned over a good state");
            }
            let call = Call::Turn { old: old.clone() };
            self.expect(&mut pair, call.clone(), (0, 0));
            let s = pair.model.part();
            if !good(s) || s[VERSION] != 2 || s[DUE] != 0 || s[LETTERS] != old[LETTERS] || s[OPENED..PLACES_1] != old[OPENED..] {
                self.fail(&call, "the state after it is not what the old one held");
            }
            self.turning("turned");
            for _ in 0..if turn % 100 == 0 { 3_000 } else { 60 } {
                let call = self.timed_call(pair.model.part());
                if self.call(&mut pair, &call).0 == 12 {
                    self.turning("turned, and a reset ordered later");
                }
            }
        }
    }

    /// A call of turning that is refused.
    fn not_turned(&mut self, pair: &mut Pair, old: Vec<u32>, what: &'static str) {
        self.expect(pair, Call::Turn { old }, (1, 0));
        self.turning(what);
    }

    /// Every place of an old one damaged with every edge, on each state that `base` makes and on a
    /// new one for each place; then several places at once.
    fn turned_damage(&mut self) {
        for which in 0..5 {
            let mut old = older(self.base(which));
            for place in 0..PLACES_1 {
                if which == 4 {
                    old = older(self.good_state());
                }
                let near = [old[place], old[OPENED], old[LAST]];
                let mut pair = self.rubbish(PLACES);
                for value in EDGES.into_iter().chain(near.iter().flat_map(|&n| [n.wrapping_sub(1), n, n.wrapping_add(1)])) {
                    let mut damaged = old.clone();
                    damaged[place] = value;
                    self.turn_damaged(&mut pair, damaged);
                }
            }
        }
        for _ in 0..10_000 {
            let old = older(self.good_state());
            let damaged = self.damaged_at_once(&old);
            let mut pair = self.rubbish(PLACES);
            self.turn_damaged(&mut pair, damaged);
        }
    }

    /// Turns one that was damaged and may still be good.
    fn turn_damaged(&mut self, pair: &mut Pair, old: Vec<u32>) {
        if good_1(&old) {
            self.expect(pair, Call::Turn { old }, (0, 0));
        } else {
            self.not_turned(pair, old, "an old one damaged");
        }
    }

    /// An old one of each version and each length, with a state of each length, whose first places
    /// are good or anything.
    fn turned_lengths(&mut self) {
        for length in [0, 1, 1329, 1330, 1331, 1332, 2660] {
            for version in [1, 2] {
                for room in [0, 1, 1330, 1331, 1332] {
                    for turn in 0..30 {
                        let mut old = self.good_state();
                        (old[VERSION], old[DUE]) = (version, 0);
                        old.resize(length, 0);
                        let mut pair = self.rubbish(room);
                        if turn % 2 == 1 {
                            let mut state = self.good_state();
                            state.resize(room, 0);
                            pair = self.pair(&state);
                        }
                        match (length, version, room) {
                            (1330, 1, 1331) => self.expect(&mut pair, Call::Turn { old }, (0, 0)),
                            (1330, 1, _) => self.not_turned(&mut pair, old, "a state of another length"),
                            (_, 1, _) => self.not_turned(&mut pair, old, "an old one of another length"),
                            _ => self.not_turned(&mut pair, old, "an old one of version 2"),
                        }
                    }
                }
            }
        }
    }

    /// Every other call, on a good buffer of version 1, on one of version 1 and the length of
    /// version 2, and on one of version 2 and the length of version 1. Opening alone asks for no
    /// version.
    fn other_versions(&mut self) {
        for _ in 0..40 {
            let state = self.good_state();
            let (time, old) = (state[LAST], older(state.clone()));
            let mut longer = old.clone();
            longer.push(state[DUE]);
            let shorter = state[..PLACES_1].to_vec();
            let mut calls = vec![Call::Open(self.opening()), Call::Dropped { time }, Call::Tick { time }];
            calls.extend([Call::Command { line: b"AT+NFM=?\r".to_vec(), room: 16 }, Call::Counters { room: 32 }]);
            for kind in 0..6 {
                calls.extend([Call::Request { time, kind }, Call::Why { time, kind, room: 8 }]);
            }
            for service in 0..4 {
                let rejected = Call::Rejected { time, service, cause: 2, second: 0, column: service };
                calls.extend([Call::Granted { time, service }, Call::Silent { time, service }, rejected]);
            }
            for (what, state) in [(TURNED[7], &old), (TURNED[8], &longer), (TURNED[8], &shorter)] {
                for call in &calls {
                    let mut pair = self.pair(state);
                    let given = self.call(&mut pair, call);
                    let opens = matches!(call, Call::Open(_)) && state.len() == PLACES;
                    self.agree(call, given, (u32::from(!opens), 0));
                    self.turning(what);
                }
            }
        }
    }
}
