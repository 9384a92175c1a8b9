//! One call made twice, by the linked library and by the model, and all that is compared afterwards.
use crate::columns::other_stands;
use crate::due::Waiting;
use crate::gate::c;
use crate::model::{self, *};
use crate::random::Random;
use crate::why::Reached;
use std::collections::BTreeMap;
use std::fmt::Display;
use std::process::exit;

/// A buffer as it is lent to a call, between two guards.
#[derive(Clone)]
pub struct Lent<T> {
    all: Vec<T>,
    start: usize,
    count: usize,
}

impl<T: Copy + PartialEq + Display> Lent<T> {
    pub fn new(part: &[T], start: usize, mut guard: impl FnMut() -> T) -> Lent<T> {
        let mut all: Vec<T> = (0..start).map(|_| guard()).collect();
        all.extend_from_slice(part);
        all.extend((0..40).map(|_| guard()));
        Lent { all, start, count: part.len() }
    }

    pub fn part(&self) -> &[T] {
        &self.all[self.start..self.start + self.count]
    }

    pub fn part_mut(&mut self) -> &mut [T] {
        &mut self.all[self.start..self.start + self.count]
    }

    /// The pointer to lend. Where the count is 0 any pointer will do: none, a crooked one, or one into the guard.
    pub fn pointer(&mut self, odd: u64) -> *mut T {
        match (self.count, odd % 3) {
            (0, 0) => std::ptr::null_mut(),
            (0, 1) => std::ptr::without_provenance_mut(1),
            _ => self.all[self.start..].as_mut_ptr(),
        }
    }

    /// The first place where two differ, the guards included.
    pub fn difference(&self, name: &str, model: &Lent<T>) -> Option<String> {
        if self.all == model.all {
            return None;
        }
        let at = (0..self.all.len()).find(|&i| self.all[i] != model.all[i])?;
        let place = at as i64 - self.start as i64;
        let guard = if place < 0 || place >= self.count as i64 { " (guard)" } else { "" };
        Some(format!("{name}, place {place}{guard}: library {}, model {}", self.all[at], model.all[at]))
    }
}

/// What an opening is given. The card lacks a file that has no bytes.
#[derive(Clone, Debug)]
pub struct Opening {
    pub time: u32,
    pub imsi: u64,
    pub intervals: Vec<u32>,
    pub nfm: u32,
    pub rpm: u32,
    pub a1: u32,
    pub s1: u32,
    pub params: Vec<u8>,
    pub leaks: Vec<u8>,
    pub counters: Vec<u8>,
    pub own_params: Vec<u8>,
    pub own_leaks: Vec<u8>,
}

impl Opening {
    /// The five files, in the order of the call: three of the card, two of the module's own.
    pub fn files(&self) -> [&[u8]; 5] {
        [&self.params, &self.leaks, &self.counters, &self.own_params, &self.own_leaks]
    }

    pub fn set_file(&mut self, which: usize, bytes: Vec<u8>) {
        *[&mut self.params, &mut self.leaks, &mut self.counters, &mut self.own_params, &mut self.own_leaks][which] = bytes;
    }
}

/// A call with its arguments, all but the state. `Error` is given none, and must leave it alone.
/// `Turn` writes there what it makes of an older one.
#[derive(Clone, Debug)]
pub enum Call {
    Open(Opening),
    Request { time: u32, kind: u32 },
    Granted { time: u32, service: u32 },
    Rejected { time: u32, service: u32, cause: u32, second: u32, column: u32 },
    Silent { time: u32, service: u32 },
    Dropped { time: u32 },
    Tick { time: u32 },
    Command { line: Vec<u8>, room: usize },
    Counters { room: usize },
    Why { time: u32, kind: u32, room: usize },
    Error { column: u32, cause: u32 },
    Turn { old: Vec<u32> },
}

impl Call {
    fn name(&self) -> &'static str {
        match self {
            Call::Open(_) => "open",
            Call::Request { .. } => "request",
            Call::Granted { .. } => "granted",
            Call::Rejected { .. } => "rejected",
            Call::Silent { .. } => "silent",
            Call::Dropped { .. } => "dropped",
            Call::Tick { .. } => "tick",
            Call::Command { .. } => "command",
            Call::Counters { .. } => "counters",
            Call::Why { .. } => "why",
            Call::Error { .. } => "error",
            Call::Turn { .. } => "turn",
        }
    }
}

/// One state, kept twice: as the library has it and as the model has it.
pub struct Pair {
    library: Lent<u32>,
    pub model: Lent<u32>,
}

impl Pair {
    pub fn new(random: &mut Random, state: &[u32]) -> Pair {
        let library = Lent::new(state, 16, || random.next() as u32);
        Pair { model: library.clone(), library }
    }
}

/// The buffers that a call only reads, as they are lent to the library.
struct Inputs {
    numbers: Lent<u32>,
    bytes: [Lent<u8>; 5],
}

impl Inputs {
    fn of(call: &Call, random: &mut Random) -> Inputs {
        let none: &[u8] = &[];
        let (numbers, bytes): (&[u32], [&[u8]; 5]) = match call {
            Call::Open(o) => (&o.intervals, o.files()),
            Call::Command { line, .. } => (&[], [line, none, none, none, none]),
            Call::Turn { old } => (old, [none; 5]),
            _ => (&[], [none; 5]),
        };
        // What lies beyond the end would be well read, if it were read.
        let beyond: &[u32] = if let Call::Turn { .. } = call { &[0] } else { &[60, 65_535, 1] };
        let numbers = Lent::new(numbers, 4, || random.pick(beyond));
        let start = random.below(9) as usize;
        let bytes = bytes.map(|part| Lent::new(part, start, || random.pick(b"\r\r\r0015,?\0\0")));
        Inputs { numbers, bytes }
    }

    /// The pointers to the bytes and their counts; `odd` has a digit by three for each. Those with the same bytes are lent as one, which
    /// the interface allows for const buffers.
    fn lent(&mut self, mut odd: u64) -> [(*const u8, usize); 5] {
        let mut lent = self.bytes.each_mut().map(|bytes| {
            let pointer = bytes.pointer(odd);
            odd /= 3;
            (pointer as *const u8, bytes.count)
        });
        for second in 1..5 {
            let same = |first: &usize| self.bytes[*first].part() == self.bytes[second].part();
            if let (Some(first), false) = ((0..second).find(same), self.bytes[second].part().is_empty()) {
                lent[second] = lent[first];
            }
        }
        lent
    }
}

/// The buffers that a call writes to besides the state: a room of bytes, and one of numbers for `why`.
#[derive(Clone)]
struct Rooms {
    bytes: Lent<u8>,
    times: Lent<u32>,
}

impl Rooms {
    fn of(call: &Call, random: &mut Random) -> Rooms {
        let (bytes, times) = match *call {
            Call::Command { room, .. } | Call::Counters { room } => (room, 0),
            Call::Why { room, .. } => (0, room),
            _ => (0, 0),
        };
        let bytes: Vec<u8> = (0..bytes).map(|_| random.next() as u8).collect();
        let times: Vec<u32> = (0..times).map(|_| random.next() as u32).collect();
        let start = random.below(9) as usize;
        Rooms { bytes: Lent::new(&bytes, start, || random.next() as u8), times: Lent::new(&times, start, || random.next() as u32) }
    }
}

/// The library's answer.
fn by_library(state: &mut Lent<u32>, call: &Call, inputs: &mut Inputs, rooms: &mut Rooms, odd: u64) -> Answer {
    let (s, n) = (state.pointer(odd), state.count);
    let (out, out_count) = (rooms.bytes.pointer(odd), rooms.bytes.count);
    let (times, times_count) = (rooms.times.pointer(odd), rooms.times.count);
    let numbers = (inputs.numbers.pointer(odd) as *const u32, inputs.numbers.count);
    let [first, leaks, counters, own_params, own_leaks] = inputs.lent(odd);
    let answer = unsafe {
        match *call {
            Call::Open(Opening { time, imsi, nfm, rpm, a1, s1, .. }) => c::dialchisel_open(
                s,
                n,
                time,
                imsi,
                numbers.0,
                numbers.1,
                nfm,
                rpm,
                a1,
                s1,
                first.0,
                first.1,
                leaks.0,
                leaks.1,
                counters.0,
                counters.1,
                own_params.0,
                own_params.1,
                own_leaks.0,
                own_leaks.1,
            ),
            Call::Request { time, kind } => c::dialchisel_request(s, n, time, kind),
            Call::Granted { time, service } => c::dialchisel_granted(s, n, time, service),
            Call::Rejected { time, service, cause, second, column } => c::dialchisel_rejected(s, n, time, service, cause, second, column),
            Call::Silent { time, service } => c::dialchisel_silent(s, n, time, service),
            Call::Dropped { time } => c::dialchisel_dropped(s, n, time),
            Call::Tick { time } => c::dialchisel_tick(s, n, time),
            Call::Command { .. } => c::dialchisel_command(s, n, first.0, first.1, out, out_count),
            Call::Counters { .. } => c::dialchisel_counters(s, n, out, out_count),
            Call::Why { time, kind, .. } => c::dialchisel_why(s, n, time, kind, times, times_count),
            Call::Error { column, cause } => c::dialchisel_error(column, cause),
            Call::Turn { .. } => c::dialchisel_turn_1(numbers.0, numbers.1, s, n),
        }
    };
    (answer.number, answer.second)
}

/// The model's answer. `room` is for bytes, `times` for `why`.
pub fn by_model(s: &mut [u32], call: &Call, room: &mut [u8], times: &mut [u32]) -> Answer {
    match call {
        Call::Open(o) => {
            let [params, leaks, counters, own_params, own_leaks] = o.files();
            let (time, imsi, nfm, rpm, a1, s1) = (o.time, o.imsi, o.nfm, o.rpm, o.a1, o.s1);
            model::open(s, time, imsi, &o.intervals, nfm, rpm, a1, s1, params, leaks, counters, own_params, own_leaks)
        }
        Call::Request { time, kind } => model::request(s, *time, *kind),
        Call::Granted { time, service } => model::granted(s, *time, *service),
        Call::Rejected { time, service, cause, second, column } => model::rejected(s, *time, *service, *cause, *second, *column),
        Call::Silent { time, service } => model::silent(s, *time, *service),
        Call::Dropped { time } => model::dropped(s, *time),
        Call::Tick { time } => model::tick(s, *time),
        Call::Command { line, .. } => model::command(s, line, room),
        Call::Counters { .. } => model::counters(s, room),
        Call::Why { time, kind, .. } => model::why(s, *time, *kind, times),
        Call::Error { column, cause } => model::error(*column, *cause),
        Call::Turn { old } => model::turn(old, s),
    }
}

/// The comparison: the generator, and what was counted.
pub struct Bench {
    pub seed: u64,
    pub random: Random,
    pub calls: u64,
    pub kinds: BTreeMap<&'static str, u64>,
    pub answers: BTreeMap<u32, u64>,
    /// Permits on a list that was full, and blocks by a limit of 254 or 255.
    pub cuts: [u64; 5],
    pub high: BTreeMap<u32, u64>,
    /// Blocks by a limit, whose seconds are compared: all, those with 1 second and those with 3,600.
    pub seconds: [BTreeMap<u32, u64>; 3],
    /// What `why` told. Its answers are counted there, and not above.
    pub reached: Reached,
    /// Openings that were taken, by the files that the card lacked, and blocks by limits of the module's own file.
    pub lacking: BTreeMap<&'static str, u64>,
    pub own_blocks: BTreeMap<u32, u64>,
    /// Rejections that were taken, by their column and answer; those of a row for both
    /// registrations, by how the other one stood; and what `error` told, which is counted here
    /// alone.
    pub actions: BTreeMap<String, u64>,
    pub both_rows: BTreeMap<&'static str, u64>,
    pub errors: BTreeMap<&'static str, u64>,
    /// What was met of the timed reset, and of buffers that are turned.
    pub timed: BTreeMap<&'static str, u64>,
    pub turned: BTreeMap<&'static str, u64>,
    /// What was met of the journal and of restarts; the answers of journaled calls are counted here
    /// alone.
    pub journaled: BTreeMap<&'static str, u64>,
    pub restarted: BTreeMap<&'static str, u64>,
    pub journal_answers: BTreeMap<u32, u64>,
}

impl Bench {
    /// Makes one call on both, compares all there is, and gives back the answer.
    pub fn call(&mut self, pair: &mut Pair, call: &Call) -> Answer {
        let odd = self.random.next();
        self.call_odd(pair, call, odd)
    }

    /// The same, where `odd` says which pointers are lent for counts of 0.
    pub fn call_odd(&mut self, pair: &mut Pair, call: &Call, odd: u64) -> Answer {
        self.calls += 1;
        *self.kinds.entry(call.name()).or_default() += 1;
        let lent = Rooms::of(call, &mut self.random);
        let (mut library_rooms, mut model_rooms) = (lent.clone(), lent.clone());
        let mut inputs = Inputs::of(call, &mut self.random);
        let (numbers, files) = (inputs.numbers.clone(), inputs.bytes.clone());
        let full = full_lists(pair.model.part());
        let other = other_stands(pair.model.part(), call);
        let waiting = Waiting::of(pair.model.part(), call);

        let library = by_library(&mut pair.library, call, &mut inputs, &mut library_rooms, odd);
        let model = by_model(pair.model.part_mut(), call, model_rooms.bytes.part_mut(), model_rooms.times.part_mut());

        if library != model {
            self.fail(call, &format!("answer: library {library:?}, model {model:?}"));
        }
        let differences = [
            pair.library.difference("state", &pair.model),
            library_rooms.bytes.difference("room", &model_rooms.bytes),
            library_rooms.times.difference("times", &model_rooms.times),
            inputs.numbers.difference("numbers lent", &numbers),
        ];
        let names = ["first bytes lent", "second bytes lent", "third bytes lent", "fourth bytes lent", "fifth bytes lent"];
        let in_files = (0..5).map(|which| inputs.bytes[which].difference(names[which], &files[which]));
        if let Some(difference) = differences.into_iter().chain(in_files).flatten().next() {
            self.fail(call, &difference);
        }
        if let Call::Error { .. } = call {
            self.count_error(model);
            return model;
        }
        if !(1..=5).contains(&model.0) && !good(pair.model.part()) {
            self.fail(call, "the state after it is bad");
        }
        if let Call::Why { .. } = call {
            self.look_at_why(call, pair.model.part(), library, lent.times.part(), library_rooms.times.part());
            return model;
        }
        *self.answers.entry(model.0).or_default() += 1;
        if let (Call::Open(opening), 0) = (call, model.0) {
            *self.lacking.entry(opening.lacking()).or_default() += 1;
        }
        self.count_long(call, model, full, pair.model.part());
        self.count_rejection(call, model, other);
        self.count_timed(call, model, waiting, pair.model.part());
        if let (Call::Request { .. }, 11 | 13..=18) = (call, model.0) {
            self.count_seconds(call, model);
        }
        model
    }

    /// Counts a block by a limit. Its seconds, which agree with the model's, are 1 to 3,600.
    fn count_seconds(&mut self, call: &Call, (number, seconds): Answer) {
        if !(1..=HOUR).contains(&seconds) {
            self.fail(call, &format!("{number} with {seconds} seconds"));
        }
        for (counts, counted) in self.seconds.iter_mut().zip([true, seconds == 1, seconds == HOUR]) {
            *counts.entry(number).or_default() += u64::from(counted);
        }
    }

    /// Counts permits that made the oldest go, and blocks that need a long list.
    fn count_long(&mut self, call: &Call, answer: Answer, full: [bool; 5], s: &[u32]) {
        if let (Call::Request { kind, .. }, (0, _)) = (call, answer) {
            let lists: &[usize] = [&[ATTACH][..], &[ATTACH], &[ACTIVATION, PDP], &[SMS], &[PDP], &[RESET]][*kind as usize];
            for &list in lists {
                self.cuts[list] += u64::from(full[list]);
            }
        }
        for (number, limit) in [(11, N1), (13, F1), (14, F2), (15, F3), (16, F4), (17, A1), (18, S1)] {
            if answer.0 == number && s[limit] >= 254 {
                *self.high.entry(number).or_default() += 1;
            }
        }
    }

    /// Tells the difference and ends the program.
    pub fn fail(&self, call: &Call, what: &str) -> ! {
        println!("compare: seed {}, call {}: {call:?}", self.seed, self.calls);
        if let Call::Command { line, .. } = call {
            println!("compare: the line is \"{}\"", line.escape_ascii());
        }
        println!("compare: {what}");
        exit(1)
    }

    pub fn pair(&mut self, state: &[u32]) -> Pair {
        Pair::new(&mut self.random, state)
    }

    /// A pair of so many places that hold anything.
    pub fn rubbish(&mut self, places: usize) -> Pair {
        let rubbish: Vec<u32> = (0..places).map(|_| self.random.next() as u32).collect();
        self.pair(&rubbish)
    }

    /// A pair that was opened so; whatever was in it before.
    pub fn opened(&mut self, opening: &Opening) -> Pair {
        let mut pair = self.rubbish(PLACES);
        self.expect(&mut pair, Call::Open(opening.clone()), (0, 0));
        pair
    }

    /// A call whose answer the document gives.
    pub fn expect(&mut self, pair: &mut Pair, call: Call, answer: Answer) {
        let given = self.call(pair, &call);
        self.agree(&call, given, answer);
    }

    /// The answer that both gave is the one that the document gives.
    pub fn agree(&self, call: &Call, given: Answer, answer: Answer) {
        if given != answer {
            self.fail(call, &format!("answer: both {given:?}, the document {answer:?}"));
        }
    }
}

/// Which of the five lists hold 255 times.
fn full_lists(s: &[u32]) -> [bool; 5] {
    [0, 1, 2, 3, 4].map(|k| s.get(LENGTHS + k) == Some(&(LIST_ROOM as u32)))
}

/// A card file: these bytes, then zeros.
pub fn file(length: usize, first: &[u8]) -> Vec<u8> {
    let mut bytes = first.to_vec();
    bytes.resize(length, 0);
    bytes
}
