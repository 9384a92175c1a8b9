//! The journal in the comparison: journaled calls on states and areas of every kind, and restarts
//! on areas and images that were damaged. The library and the model of the journal are compared in
//! both numbers and in every place and byte of every buffer lent, with the guards about them.
//! cuts.rs has the lives that a cut of the power breaks off.
use crate::both::{by_model, Bench, Call, Lent};
use crate::gate::c;
use crate::model::*;
use crate::model_journal::{self, free, refused, Entry, AREA, ERASED, RECORD, SLOTS};
use std::fmt::Debug;
use std::process::exit;

/// What is to be met of journaled calls, and of restarts where nothing was cut.
#[rustfmt::skip]
pub const JOURNALED: [&str; 33] = [
    "Q appended", "G appended", "S appended", "J appended", "D appended", "T appended", "A appended", "a read appended",
    "a permit appended", "a block appended", "an ordered reset appended", "in slot 0", "in between", "in slot 511",
    "between other bytes", "1 for the area's length", "1 for the area before 2 to 5", "1 for the state", "1 for the room", "2", "3", "4",
    "5", "6", "6 for an AT line", "6 instead of a permit", "6 instead of an ordered reset", "refused before 6", "erased",
    "erase refused", "next", "next, full", "next refused",
];
#[rustfmt::skip]
pub const RESTARTED: [&str; 34] = [
    "1", "1 before 7", "7", "0", "0 with a torn slot", "0 with no record", "0 with 512 records", "not damaged", "a byte changed",
    "a bit turned", "a byte changed behind", "two swapped", "one copied", "one dropped", "a hole", "torn, the first", "torn, the last",
    "torn, in the middle", "two torn", "another answer", "no answer", "another letter", "a byte not 0 behind the answer",
    "a record behind the 255s", "a last byte not 0 in the middle", "a first byte 255", "a refused call", "all of one byte", "anything",
    "erased", "an image damaged", "an image of version 1", "an image of another length", "a later image",
];

/// A state and the area lent with it.
#[derive(Clone)]
pub struct Held {
    pub state: Lent<u32>,
    pub area: Lent<u8>,
}

impl Held {
    pub fn difference(&self, model: &Held) -> Option<String> {
        self.state.difference("state", &model.state).or_else(|| self.area.difference("area", &model.area))
    }
}

/// The same, kept twice: as the library has it and as the model has it.
#[derive(Clone)]
pub struct Kept {
    pub library: Held,
    pub model: Held,
}

/// The library's answer to a journaled call.
fn by_library(held: &mut Held, entry: &Entry, line: &mut Lent<u8>, room: &mut Lent<u8>, odd: u64) -> Answer {
    let (n, m, k, o) = (held.state.part().len(), held.area.part().len(), line.part().len(), room.part().len());
    let (s, a, l, out) = (held.state.pointer(odd), held.area.pointer(odd), line.pointer(odd / 3), room.pointer(odd / 9));
    let answer = unsafe {
        match *entry {
            Entry::Request { time, kind } => c::dialchisel_journal_request(s, n, a, m, time, kind),
            Entry::Granted { time, service } => c::dialchisel_journal_granted(s, n, a, m, time, service),
            Entry::Silent { time, service } => c::dialchisel_journal_silent(s, n, a, m, time, service),
            Entry::Rejected { time, service, cause, second, column } => {
                c::dialchisel_journal_rejected(s, n, a, m, time, service, cause, second, column)
            }
            Entry::Dropped { time } => c::dialchisel_journal_dropped(s, n, a, m, time),
            Entry::Tick { time } => c::dialchisel_journal_tick(s, n, a, m, time),
            Entry::Command { .. } => c::dialchisel_journal_command(s, n, a, m, l, k, out, o),
        }
    };
    (answer.number, answer.second)
}

/// The entry that a call makes, and its room; none for a call that has no journaled form.
fn entry(call: &Call) -> Option<(Entry, usize)> {
    Some(match *call {
        Call::Request { time, kind } => (Entry::Request { time, kind }, 0),
        Call::Granted { time, service } => (Entry::Granted { time, service }, 0),
        Call::Silent { time, service } => (Entry::Silent { time, service }, 0),
        Call::Rejected { time, service, cause, second, column } => (Entry::Rejected { time, service, cause, second, column }, 0),
        Call::Dropped { time } => (Entry::Dropped { time }, 0),
        Call::Tick { time } => (Entry::Tick { time }, 0),
        Call::Command { ref line, room } => (Entry::Command { line: line.clone() }, room),
        _ => return None,
    })
}

/// What was damaged: its name, the image and the area, and what the request says that restart
/// answers, where it does.
type Damage = (&'static str, Vec<u32>, Vec<u8>, Option<u32>);

/// An image and the area that so many calls have made from it.
pub struct Written {
    pub image: Vec<u32>,
    pub area: Vec<u8>,
    pub records: usize,
}

impl Bench {
    /// Counts what was met of journaled calls and of cuts, and below of other restarts.
    pub fn note(&mut self, what: &'static str, met: bool) {
        *self.journaled.entry(what).or_default() += u64::from(met);
    }

    fn restarts(&mut self, what: &'static str, met: bool) {
        *self.restarted.entry(what).or_default() += u64::from(met);
    }

    /// Tells the difference and ends the program.
    pub fn differs(&self, made: &impl Debug, what: &str) -> ! {
        println!("compare: seed {}, call {}: journal: {made:?}", self.seed, self.calls);
        println!("compare: {what}");
        exit(1)
    }

    /// A state and an area, lent between guards and off every alignment that is not needed.
    pub fn held(&mut self, state: &[u32], area: &[u8]) -> Kept {
        let start = self.random.below(9) as usize;
        let beyond = self.random.pick(&[&[ERASED][..], &[0], &[0, ERASED, b'Q', b'T']]);
        let state = Lent::new(state, 16, || self.random.next() as u32);
        let area = Lent::new(area, start, || self.random.pick(beyond));
        let library = Held { state, area };
        Kept { model: library.clone(), library }
    }

    /// A journaled call on both. `next` is asked before it, and has to name the slot it goes to.
    pub fn journaled(&mut self, kept: &mut Kept, entry: &Entry, room: usize) -> Answer {
        let (number, slot) = self.next(kept);
        self.calls += 1;
        let bytes: Vec<u8> = (0..room).map(|_| self.random.next() as u8).collect();
        let start = self.random.below(9) as usize;
        let mut room = Lent::new(&bytes, start, || self.random.next() as u8);
        let mut model_room = room.clone();
        let line: &[u8] = if let Entry::Command { line } = entry { line } else { &[] };
        let mut lent = Lent::new(line, start, || self.random.pick(b"\r\r\r0015,?\0\0"));
        let line = lent.clone();
        let before = (kept.model.state.part().to_vec(), kept.model.area.part().len());
        let slot = slot as usize * RECORD;
        let was = kept.model.area.part().get(slot..slot + RECORD).map(<[u8]>::to_vec);

        let odd = self.random.next();
        let library = by_library(&mut kept.library, entry, &mut lent, &mut room, odd);
        let model = &mut kept.model;
        let model = model_journal::journaled(model.state.part_mut(), model.area.part_mut(), entry, model_room.part_mut());

        if library != model {
            self.differs(entry, &format!("answer: library {library:?}, model {model:?}"));
        }
        let others = room.difference("room", &model_room).or_else(|| lent.difference("line", &line));
        if let Some(difference) = kept.library.difference(&kept.model).or(others) {
            self.differs(entry, &difference);
        }
        let appended = was.is_some_and(|was| kept.library.area.part()[slot..slot + RECORD] != was);
        if appended != (number == 0 && !refused(model) && model.0 != 6) {
            self.differs(entry, &format!("answered {model:?}, and next named {number} {}", slot / RECORD));
        }
        *self.journal_answers.entry(model.0).or_default() += 1;
        self.count_journaled(entry, model, &before.0, before.1, slot / RECORD);
        model
    }

    /// Counts what a journaled call met.
    fn count_journaled(&mut self, entry: &Entry, answer: Answer, before: &[u32], area: usize, slot: usize) {
        let command = matches!(entry, Entry::Command { .. });
        match answer.0 {
            1 => {
                self.note("1 for the area's length", area != AREA && good(before));
                let plain = entry.plain(&mut before.to_vec(), &mut [0; 16]).0;
                self.note("1 for the area before 2 to 5", area != AREA && (2..=5).contains(&plain));
                self.note("1 for the state", area == AREA && !good(before));
                self.note("1 for the room", area == AREA && good(before));
            }
            2..=5 => self.note(["2", "3", "4", "5"][answer.0 as usize - 2], true),
            6 => {
                let plain = entry.plain(&mut before.to_vec(), &mut [0; 16]).0;
                self.note("6", true);
                self.note("6 for an AT line", command);
                self.note("6 instead of a permit", plain == 0 && matches!(entry, Entry::Request { .. }));
                self.note("6 instead of an ordered reset", plain == 12);
            }
            number => {
                self.note(JOURNALED[b"QGSJDTA".iter().position(|&letter| letter == entry.letter()).unwrap_or(0)], true);
                self.note("a read appended", command && answer.1 == 15);
                self.note("a permit appended", number == 0 && matches!(entry, Entry::Request { .. }));
                self.note("a block appended", matches!(number, 10 | 11 | 13..=18));
                self.note("an ordered reset appended", number == 12);
                self.note(["in slot 0", "in between", "in slot 511"][usize::from(slot > 0) + usize::from(slot == 511)], true);
            }
        }
    }

    /// `dialchisel_journal_next` on both.
    pub fn next(&mut self, kept: &mut Kept) -> Answer {
        self.calls += 1;
        let area = &mut kept.library.area;
        let m = area.part().len();
        let answer = unsafe { c::dialchisel_journal_next(area.pointer(self.random.next()), m) };
        let (library, model) = ((answer.number, answer.second), model_journal::next(kept.model.area.part()));
        if library != model {
            self.differs(&"next", &format!("answer: library {library:?}, model {model:?}"));
        }
        self.note(["next", "next refused", "next, full"][model.0.min(2) as usize], true);
        model
    }

    /// `dialchisel_erase` on both.
    pub fn erase(&mut self, kept: &mut Kept) -> Answer {
        self.calls += 1;
        let area = &mut kept.library.area;
        let m = area.part().len();
        let answer = unsafe { c::dialchisel_erase(area.pointer(self.random.next()), m) };
        let (library, model) = ((answer.number, answer.second), model_journal::erase(kept.model.area.part_mut()));
        if library != model {
            self.differs(&"erase", &format!("answer: library {library:?}, model {model:?}"));
        }
        if let Some(difference) = kept.library.difference(&kept.model) {
            self.differs(&"erase", &difference);
        }
        self.note(if model.0 == 0 { "erased" } else { "erase refused" }, true);
        model
    }

    /// `dialchisel_restart` of the library. The image must stay as it is.
    pub fn restart_library(&mut self, image: &[u32], held: &mut Held) -> Answer {
        self.calls += 1;
        let mut lent = Lent::new(image, 4, || self.random.pick(&[0, 1, 2]));
        let before = lent.clone();
        let (k, m, n) = (image.len(), held.area.part().len(), held.state.part().len());
        let odd = self.random.next();
        let (i, a, s) = (lent.pointer(odd), held.area.pointer(odd / 3), held.state.pointer(odd / 9));
        let answer = unsafe { c::dialchisel_restart(i, k, a, m, s, n) };
        if let Some(difference) = lent.difference("image", &before) {
            self.differs(&"restart", &difference);
        }
        (answer.number, answer.second)
    }

    /// A restart on both.
    pub fn restart(&mut self, image: &[u32], kept: &mut Kept, what: &'static str) -> Answer {
        let library = self.restart_library(image, &mut kept.library);
        let records = free(kept.model.area.part()).unwrap_or(SLOTS);
        let torn = records > 0 && kept.model.area.part().get(records * RECORD - 1).is_some_and(|&last| last != 0);
        let model = &mut kept.model;
        let model = model_journal::restart(image, model.area.part_mut(), model.state.part_mut());
        if library != model {
            self.differs(&("restart", what), &format!("answer: library {library:?}, model {model:?}"));
        }
        if let Some(difference) = kept.library.difference(&kept.model) {
            self.differs(&("restart", what), &difference);
        }
        self.restarts(what, true);
        self.restarts("1 before 7", model.0 == 1 && !good(image));
        self.restarts("0 with a torn slot", model.0 == 0 && torn);
        self.restarts("0 with no record", model.0 == 0 && records == 0);
        self.restarts("0 with 512 records", model.0 == 0 && records == SLOTS && !torn);
        self.restarts(["0", "1", "7"][model.0.min(2) as usize], true);
        model
    }

    /// All of it, with lines that tell how many calls it took.
    pub fn journal(&mut self) {
        let before = self.calls;
        self.journaled_calls();
        self.journaled_lengths();
        println!("journal: {} calls on states and areas of every kind, no difference", self.calls - before);
        let before = self.calls;
        let restarts = self.damaged_journals() + self.full_journals() + self.restart_lengths();
        println!("journal: {} calls, no difference: {restarts} restarts on damaged areas and images", self.calls - before);
    }

    /// The next call of a life that has a journaled form.
    pub fn next_entry(&mut self, s: &[u32]) -> (Entry, usize) {
        loop {
            let call = match self.random.below(25) {
                0 => Call::Command { line: self.line(), room: self.random.pick(&[16, 16, 16, 40, 15]) },
                1 => Call::Tick { time: s[LAST] },
                2 => Call::Dropped { time: s[LAST] },
                _ => self.timed_call(s),
            };
            if let Some(made) = entry(&call) {
                return made;
            }
        }
    }

    /// Any call that has a journaled form, its arguments in and out of range.
    fn any_entry(&mut self, time: u32) -> (Entry, usize) {
        loop {
            let call = self.any_call(time);
            if let Some(made) = entry(&call) {
                return made;
            }
        }
    }

    /// An area of any kind: erased, with records, with bytes of any kind before and behind the
    /// first free slot, full, or full but for the last slot.
    fn any_area(&mut self) -> Vec<u8> {
        let mut area = vec![ERASED; AREA];
        let taken = match self.random.below(8) {
            0 => return area,
            1 => SLOTS,
            2 => SLOTS - 1,
            3 => 1,
            _ => self.random.below(SLOTS as u64 + 1) as usize,
        };
        let kind = self.random.below(4);
        for (slot, bytes) in area.chunks_mut(RECORD).enumerate() {
            let behind = slot >= taken;
            match kind {
                0 if behind => {}
                0 => bytes.copy_from_slice(&Entry::Tick { time: slot as u32 }.record((0, 0))),
                1 => bytes.fill(self.random.pick(&[0, 1, b'Q', 254])),
                _ => (0..8).for_each(|_| bytes[self.random.below(RECORD as u64) as usize] = self.random.next() as u8),
            }
            bytes[0] = match slot {
                _ if slot == taken => ERASED,
                _ if behind => self.random.pick(&[ERASED, ERASED, bytes[0]]),
                _ => self.random.pick(&[0, 1, b'Q', b'T', 127, 128, 254]),
            };
        }
        area
    }

    /// A few calls each on a state that is good or damaged, and on an area of any kind.
    fn journaled_calls(&mut self) {
        for turn in 0..6_000 {
            let area = self.any_area();
            let mut state = self.good_state();
            if turn % 4 == 0 && state[LAST] < LATEST {
                (state[RPM], state[N1], state[DUE]) = (1, 0, state[LAST].max(1));
            }
            let before = state.clone();
            if turn % 9 == 1 {
                state = self.damaged_at_once(&before);
            }
            let mut kept = self.held(&state, &area);
            self.note("between other bytes", free(&area).is_some_and(|slot| area[slot * RECORD + 1..].iter().any(|&byte| byte != ERASED)));
            for _ in 0..4 {
                let now = kept.model.state.part();
                let s = if good(now) { now.to_vec() } else { before.clone() };
                let (entry, room) = match self.random.below(6) {
                    0 => self.any_entry(s[LAST]),
                    1 => (Entry::Command { line: self.line() }, self.random.pick(&[0, 15, 16, 16, 17])),
                    2 => (Entry::Tick { time: s[LAST] }, 0),
                    _ => self.next_entry(&s),
                };
                let answer = self.journaled(&mut kept, &entry, room);
                self.note("refused before 6", (2..=5).contains(&answer.0) && free(kept.model.area.part()).is_none());
            }
            if turn % 20 == 0 {
                self.erase(&mut kept);
            }
        }
    }

    /// Areas and states of other lengths, their first bytes and places good.
    fn journaled_lengths(&mut self) {
        for length in [0, 1, 127, 128, AREA - RECORD, AREA - 1, AREA, AREA + 1, AREA + RECORD, 2 * AREA] {
            for places in [0, 1, 1330, 1331, 1332, 2662] {
                for _ in 0..16 {
                    let good = self.good_state();
                    let mut area = self.any_area();
                    area.resize(length, ERASED);
                    let mut state = good.clone();
                    state.resize(places, 0);
                    let mut kept = self.held(&state, &area);
                    let last = good[LAST];
                    let wrong = self.random.pick(&[(last, 6), (last, 6), (last, u32::MAX), (last.wrapping_sub(1), 5), (LATEST + 1, 5)]);
                    let refused = Entry::Request { time: wrong.0, kind: wrong.1 };
                    let made = [self.next_entry(&good), self.any_entry(last), (Entry::Tick { time: last }, 0), (refused, 0)];
                    for (entry, room) in made {
                        let answer = self.journaled(&mut kept, &entry, room);
                        if (length, places) != (AREA, PLACES) && answer != (1, 0) {
                            self.differs(&entry, "a wrong length, and not refused with 1");
                        }
                    }
                    self.erase(&mut kept);
                }
            }
        }
    }

    /// An image, and the area that so many appended calls, or as many as fit, have made from it;
    /// by the model alone.
    pub fn written(&mut self, records: usize) -> Written {
        let image = self.begun();
        let (mut state, mut area) = (image.clone(), vec![ERASED; AREA]);
        let mut at = 0;
        while at < records {
            let (entry, _) = self.next_entry(&state);
            let answer = entry.plain(&mut state, &mut [0; 16]);
            if !refused(answer) {
                area[at * RECORD..][..RECORD].copy_from_slice(&entry.record(answer));
                at += 1;
            }
        }
        Written { image, area, records }
    }

    /// A state that a life begins with: opened, or any good one.
    pub fn begun(&mut self) -> Vec<u32> {
        let mut state = self.good_state();
        if self.random.chance(60) {
            let mut opening = self.opening();
            opening.time = self.random.pick(&[0, 1000, 3_000_000_000]);
            by_model(&mut state, &Call::Open(opening), &mut [], &mut []);
        }
        if self.random.chance(70) {
            (state[RPM], state[T1]) = (1, self.random.pick(&[1, 1, 2, 10]));
        }
        state
    }

    /// A restart of what `written` made and something has damaged; `must` is what the request
    /// itself says of it, where it does.
    fn restart_damaged(&mut self, image: &[u32], area: &[u8], what: &'static str, must: Option<u32>) {
        let state: Vec<u32> = if self.random.chance(50) { vec![7; PLACES] } else { self.good_state() };
        let mut kept = self.held(&state, area);
        let (number, _) = self.restart(image, &mut kept, what);
        if must.is_some_and(|must| must != number) {
            self.differs(&("restart", what), &format!("both answer {number}"));
        }
    }

    /// Each kind of damage, many times. Gives back how many restarts that were.
    fn damaged_journals(&mut self) -> u64 {
        let mut restarts = 0;
        for turn in 0..900 {
            let records = if turn % 50 == 0 { 200 } else { 2 + self.random.below(24) as usize };
            let written = self.written(records);
            for (what, image, area, must) in self.damages(&written) {
                self.restart_damaged(&image, &area, what, must);
                restarts += 1;
            }
        }
        restarts
    }

    /// What damage makes of an image and an area with two records or more.
    fn damages(&mut self, written: &Written) -> Vec<Damage> {
        let Written { image, area, records } = written;
        let records = *records;
        let mut made = vec![];
        let mut hurt = |what, must, by: &mut dyn FnMut(&mut Vec<u8>)| {
            let mut area = area.clone();
            by(&mut area);
            made.push((what, image.clone(), area, must));
        };
        let random = &mut self.random;
        let last = records - 1;
        let (one, other) = (random.below(records as u64) as usize, random.below(last as u64) as usize);
        let any = random.below((records * RECORD) as u64) as usize;
        let any_byte = random.next() as u8;
        let slot = |which: usize| which * RECORD..(which + 1) * RECORD;
        // how far into a record its answer stands
        let answer_at = |which: usize| Entry::read(&area[slot(which)]).map_or(1, |entry| entry.call().len());

        hurt("a byte changed", None, &mut |area| area[any] = any_byte);
        hurt("a bit turned", None, &mut |area| area[any] ^= 1 << (any_byte % 8));
        let far = records * RECORD + random.below((AREA - (records + 1) * RECORD) as u64) as usize + RECORD;
        hurt("a byte changed behind", Some(7), &mut |area| area[far] = any_byte.min(254));
        hurt("two swapped", None, &mut |area| {
            let first = area[slot(other)].to_vec();
            area.copy_within(slot(last), other * RECORD);
            area[slot(last)].copy_from_slice(&first);
        });
        hurt("one copied", None, &mut |area| area.copy_within(slot(one), random.pick(&[other, last, records]) * RECORD));
        hurt("one dropped", None, &mut |area| area.copy_within((one + 1) * RECORD..(records + 1) * RECORD, one * RECORD));
        hurt("a hole", Some(7), &mut |area| area[slot(other)].fill(ERASED));
        let cut = 1 + random.below(127) as usize;
        hurt("torn, the last", Some(0), &mut |area| area[slot(last)][cut..].fill(ERASED));
        hurt("torn, in the middle", Some(7), &mut |area| area[slot(other)][cut..].fill(ERASED));
        hurt("two torn", Some(7), &mut |area| {
            area[slot(last)][cut..].fill(ERASED);
            area[slot(last - 1)][128 - cut..].fill(ERASED);
        });
        let (answered, turned) = (answer_at(one), random.below(8) as usize);
        hurt("another answer", Some(7), &mut |area| area[slot(one)][answered + turned] ^= any_byte.max(1));
        let blank = area[slot(one)][answered..answered + 8].iter().all(|&byte| byte == 0);
        hurt("no answer", (!blank).then_some(7), &mut |area| area[slot(one)][answered..answered + 8].fill(0));
        let letter = random.pick(b"QGSJDTAOqN\0");
        hurt("another letter", None, &mut |area| area[one * RECORD] = letter);
        let behind = (answered + 8 + random.below(128) as usize).min(126);
        hurt("a byte not 0 behind the answer", Some(7), &mut |area| area[slot(one)][behind] = any_byte.max(1));
        let apart = records + 1 + random.below((SLOTS - records - 1) as u64) as usize;
        hurt("a record behind the 255s", Some(7), &mut |area| area.copy_within(slot(one), apart * RECORD));
        hurt("a last byte not 0 in the middle", Some(7), &mut |area| area[slot(other)][127] = any_byte.max(1));
        hurt("a first byte 255", Some(7), &mut |area| area[one * RECORD] = ERASED);
        let bytes = random.pick(&[0, 1, b'Q', 254]);
        hurt("torn, the first", Some(0), &mut |area| area[cut..].fill(ERASED));
        hurt("erased", Some(0), &mut |area| area.fill(ERASED));
        hurt("all of one byte", Some(7), &mut |area| area.fill(bytes));
        hurt("anything", Some(7), &mut |area| area.iter_mut().for_each(|byte| *byte = random.next() as u8 & 127));
        self.refused_record(written, &mut made);
        self.other_images(written, &mut made);
        made
    }

    /// A record more, of a call that the gate refuses there, with the answer that it gives.
    fn refused_record(&mut self, written: &Written, made: &mut Vec<Damage>) {
        let Written { image, area, records } = written;
        let mut state = vec![0; PLACES];
        model_journal::restart(image, &mut area.clone(), &mut state);
        for _ in 0..20 {
            let (entry, _) = self.any_entry(state[LAST]);
            let answer = entry.plain(&mut state.clone(), &mut [0; 16]);
            let short = !matches!(&entry, Entry::Command { line } if line.len() > 96);
            if refused(answer) && short {
                let mut area = area.clone();
                let told = self.random.pick(&[answer, (0, 0), (0, 4)]);
                area[records * RECORD..][..RECORD].copy_from_slice(&entry.record(told));
                made.push(("a refused call", image.clone(), area, Some(7)));
                return;
            }
        }
    }

    /// The area as it is, beside another image.
    fn other_images(&mut self, written: &Written, made: &mut Vec<Damage>) {
        let Written { image, area, records } = written;
        let damaged = self.damaged_at_once(image);
        let must = (!good(&damaged)).then_some(7);
        made.push(("an image damaged", damaged, area.clone(), must));
        let mut older = image[..PLACES_1].to_vec();
        older[VERSION] = 1;
        made.push(("an image of version 1", older, area.clone(), Some(7)));
        let mut longer = image.clone();
        longer.resize(self.random.pick(&[0, 1, 1330, 1332, 2662]), 0);
        made.push(("an image of another length", longer, area.clone(), Some(7)));
        let mut later = image.clone();
        for slot in area.chunks(RECORD).take(1 + self.random.below(*records as u64) as usize) {
            if let Some(entry) = Entry::read(slot) {
                entry.plain(&mut later, &mut [0; 16]);
            }
        }
        made.push(("a later image", later, area.clone(), None));
    }

    /// Areas with 511 and 512 records, whole and with the last one torn.
    fn full_journals(&mut self) -> u64 {
        let full = [(); 4].map(|()| self.written(SLOTS));
        for turn in 0..120 {
            let Written { image, area, .. } = &full[turn % 4];
            let what = if turn < 100 { "not damaged" } else { "torn, the last" };
            let mut area = area.clone();
            if turn >= 100 {
                area[AREA - 1 - self.random.below(127) as usize..].fill(ERASED);
            }
            self.restart_damaged(image, &area, what, Some(0));
        }
        120
    }

    /// Areas and states of other lengths, beside a good image and a bad one.
    fn restart_lengths(&mut self) -> u64 {
        let mut restarts = 0;
        let written = self.written(3);
        for length in [0, 1, 128, AREA - 1, AREA, AREA + 1, AREA + RECORD] {
            for places in [0, 1, 1330, 1331, 1332] {
                for bad in [0, 1, 0, 1, 0, 1] {
                    let mut image = written.image.clone();
                    image[LETTERS] += bad;
                    let mut area = written.area.clone();
                    area.resize(length, ERASED);
                    let mut kept = self.held(&vec![7; places], &area);
                    let given = self.restart(&image, &mut kept, "not damaged");
                    let number = if (length, places) != (AREA, PLACES) { 1 } else { 7 * bad };
                    if given != (number, 0) {
                        self.differs(&("restart", length, places, bad), &format!("both answer {given:?}"));
                    }
                    restarts += 1;
                }
            }
        }
        restarts
    }
}
