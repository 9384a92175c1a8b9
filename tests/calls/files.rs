//! The five files of an opening in the comparison: three of the card, each of which it may lack, and the module's own two, which rule then.
use crate::both::{file, Bench, Call, Opening, Pair};
use crate::model::*;

/// The length of each file, and how many of its first bytes are in use.
pub const FILES: [(usize, usize); 5] = [(32, 6), (6, 3), (32, 6), (32, 6), (6, 3)];

/// What a card may lack, by a bit for each file.
pub const LACKING: [&str; 8] = [
    "none",
    "parameters",
    "leak rates",
    "parameters and leak rates",
    "counters",
    "parameters and counters",
    "leak rates and counters",
    "all three",
];

/// The blocks by limits of the parameter file that rules.
pub const RPM_BLOCKS: [u32; 5] = [11, 13, 14, 15, 16];

impl Opening {
    /// What the card lacks.
    pub fn lacking(&self) -> &'static str {
        let bit = |which: usize| usize::from(self.files()[which].is_empty()) << which;
        LACKING[bit(0) | bit(1) | bit(2)]
    }

    /// Which file rules for parameters (0) or leak rates (1): the card's, or the module's own, which stands three further on.
    pub fn ruling(&self, card: usize) -> usize {
        if self.files()[card].is_empty() {
            card + 3
        } else {
            card
        }
    }
}

/// How a file may be. The number of an absent one says which pointer is lent.
#[derive(Clone, Copy, PartialEq)]
enum How {
    Good,
    Absent(u64),
    Short,
    Long,
    OneByte,
    FirstReserved,
    LastReserved,
}

const HOW: [How; 9] =
    [How::Good, How::Absent(0), How::Absent(1), How::Absent(2), How::Short, How::Long, How::OneByte, How::FirstReserved, How::LastReserved];

/// The bytes in use of a file, all different from those of the four others.
fn bytes_in_use(which: usize) -> Vec<u8> {
    (1..=FILES[which].1).map(|byte| (40 * which + byte) as u8).collect()
}

/// A file that is so; `reserved` goes to the reserved byte, where it is one that is not 0.
fn file_so(which: usize, how: How, reserved: u8) -> Vec<u8> {
    let (length, used) = FILES[which];
    let mut bytes = file(length, &bytes_in_use(which));
    match how {
        How::Good => {}
        How::Absent(_) => bytes.clear(),
        How::Short => bytes.truncate(length - 1),
        How::Long => bytes.push(0),
        How::OneByte => bytes.truncate(1),
        How::FirstReserved => bytes[used] = reserved,
        How::LastReserved => bytes[length - 1] = reserved,
    }
    bytes
}

impl Bench {
    /// Each file by itself: of every length, and with each byte at its edges.
    pub fn files(&mut self) {
        let lengths: Vec<usize> = (0..=64).chain([255, 256, 262, 288, 65_542, 65_568]).collect();
        for (which, (right, used)) in FILES.into_iter().enumerate() {
            for &length in &lengths {
                let good = length == right || (length == 0 && which < 3);
                self.try_file(which, vec![0; length], good);
            }
            for at in 0..right {
                for value in [1, 2, 127, 128, 254, 255] {
                    let mut bytes = vec![0; right];
                    bytes[at] = value;
                    self.try_file(which, bytes, at < used);
                }
            }
        }
    }

    /// An opening with that file, alone and beside a time out of range: 2 comes before 3.
    fn try_file(&mut self, which: usize, bytes: Vec<u8>, good: bool) {
        let mut one = self.opening();
        one.set_file(which, bytes);
        for (time, number) in [(one.time, 0), (LATEST + 1, 3)] {
            one.time = time;
            let given = self.try_opening(one.clone());
            self.agree(&Call::Open(one.clone()), given, (if good { number } else { 2 }, 0));
        }
    }

    /// Openings with files that may be bad, at random.
    pub fn spoiled_files(&mut self) {
        for _ in 0..5_000 {
            let opening = self.any_opening();
            self.try_opening(opening);
        }
    }

    /// Each of the five files in each way, all together.
    pub fn every_five_files(&mut self) {
        for number in 0..HOW.len().pow(5) {
            let how = [0, 1, 2, 3, 4].map(|which| HOW[number / HOW.len().pow(which) % HOW.len()]);
            self.five_files(how);
        }
    }

    /// An opening with files so: at its time, at one out of range, and on a state of a wrong length.
    fn five_files(&mut self, how: [How; 5]) {
        let mut opening = self.opening();
        let mut odd = 0;
        for which in (0..5).rev() {
            let reserved = self.random.pick(&[1, 128, 255]);
            opening.set_file(which, file_so(which, how[which], reserved));
            odd = 3 * odd + if let How::Absent(pointer) = how[which] { pointer } else { 0 };
        }
        let good = |which: usize| how[which] == How::Good || (which < 3 && matches!(how[which], How::Absent(_)));
        let taken = (0..5).all(good);
        let wrong = self.random.pick(&[0, 1, PLACES - 1, PLACES + 1]);
        let late = LATEST + 1;
        for (length, time, number) in [(PLACES, opening.time, 0), (PLACES, late, 3), (wrong, late, 1)] {
            let mut pair = self.rubbish(length);
            let call = Call::Open(Opening { time, ..opening.clone() });
            let given = self.call_odd(&mut pair, &call, odd);
            self.agree(&call, given, (if number == 1 || taken { number } else { 2 }, 0));
            if given.0 == 0 {
                self.look_at_files(&pair, &call, how);
            }
        }
    }

    /// Looks at a state opened with such files: the places of each are those of the file that rules.
    fn look_at_files(&self, pair: &Pair, call: &Call, how: [How; 5]) {
        let ruling = |card: usize, own: usize| bytes_in_use(if how[card] == How::Good { card } else { own });
        let counters = if how[2] == How::Good { bytes_in_use(2) } else { vec![0; 6] };
        for (place, bytes) in [(N1, ruling(0, 3)), (LEAK_RATES, ruling(1, 4)), (C_BR_1, counters)] {
            let places = &pair.model.part()[place..place + bytes.len()];
            if !places.iter().copied().eq(bytes.into_iter().map(u32::from)) {
                self.fail(call, &format!("places from {place} on are {places:?}, not those of the file that rules"));
            }
        }
    }

    /// Sequences in which a limit, a leak rate and a counter of the files that rule show, for each limit and each set of files that the
    /// card lacks; at last RTC10's figures.
    pub fn ruling_files(&mut self) {
        let rejected = |cause| Call::Rejected { time: 0, service: 2, cause, second: 0, column: 2 };
        let [ignored, permanent, temporary] =
            [Call::Silent { time: 0, service: 2 }, rejected(33), rejected(26)].map(|outcome| (2, Some(outcome)));
        let reset = (5, None);
        for (byte, number, asked) in [(0, 11, &reset), (2, 13, &ignored), (3, 14, &permanent), (4, 15, &temporary), (5, 16, &ignored)] {
            for lacks in 0..8 {
                for (limit, other) in [(1, 0), (1, 2), (2, 1), (20, 0), (255, 254)] {
                    let opening = Bench::ruled(lacks, byte, limit, other);
                    self.blocked_after(&opening, asked, u32::from(limit), number);
                }
            }
        }
        let bare = Opening { nfm: 0, params: vec![], leaks: vec![], counters: vec![], ..Bench::classroom() };
        for (asked, limit, number) in [(&reset, 20, 11), (&ignored, 30, 16), (&permanent, 30, 14), (&temporary, 30, 16)] {
            self.blocked_after(&bare, asked, limit, number);
        }
    }

    /// An opening without back-offs whose card lacks the files of these bits. The parameter file that rules has one limit; a file of the
    /// module's own that does not rule has that other number in every byte.
    fn ruled(lacks: usize, byte: usize, limit: u8, other: u8) -> Opening {
        let mut opening = Opening { nfm: 0, counters: file(32, &[9; 6]), ..Bench::classroom() };
        (opening.own_params, opening.own_leaks) = (file(32, &[other; 6]), file(6, &[other; 3]));
        for which in (0..3).filter(|which| lacks >> which & 1 == 1) {
            opening.set_file(which, vec![]);
        }
        let mut limits = [0; 6];
        limits[byte] = limit;
        opening.set_file(opening.ruling(0), file(32, &limits));
        opening.set_file(opening.ruling(1), file(6, &[3; 3]));
        opening
    }

    /// A request with its outcome at 0, permitted so many times and then blocked; the counter rises from where it began, and falls at the
    /// first leak point.
    fn blocked_after(&mut self, opening: &Opening, asked: &(u32, Option<Call>), permits: u32, number: u32) {
        let mut pair = self.opened(opening);
        let (kind, outcome) = asked;
        let request = Call::Request { time: 0, kind: *kind };
        for _ in 0..permits {
            self.expect(&mut pair, request.clone(), (0, 0));
            if let Some(outcome) = outcome {
                self.expect(&mut pair, outcome.clone(), (23, 0));
            }
        }
        self.expect(&mut pair, request, (number, HOUR));
        let (counter, rate) = if number == 11 { (0, 0) } else { (number as usize - 11, 2) };
        let begun = u32::from(opening.counters.get(counter).copied().unwrap_or(0));
        let point = HOUR * u32::from(opening.files()[opening.ruling(1)][rate]);
        for (time, count) in [(point - 1, begun + 1), (point, begun)] {
            let tick = Call::Tick { time };
            self.expect(&mut pair, tick.clone(), (0, 0));
            if pair.model.part()[C_BR_1 + counter] != count {
                self.fail(&tick, &format!("counter {counter} is not {count}"));
            }
        }
    }
}
