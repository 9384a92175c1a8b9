//! make DIRECTORY SEED: makes what tests/why/run gives to the program, and what it must print, by the model of tests/calls.
//!
//! - DIRECTORY/cases has a line `NAME TIME REQUEST` for each start of `why`, on states/NAME; wanted/NAME is what it must print.
//! - DIRECTORY/traces has a NAME for each trace; NAME.in is the trace, NAME.want its answers, NAME.state the buffer after it.
//! - DIRECTORY/rounds has a line `NAME TIME REQUEST` for each start of `why` on the buffer after a trace, and wanted/NAME-TIME-REQUEST.
//!
//! It fails where these leave a refusal, a rule, two or three rules at once, or in the rounds a limit's block with 1 or 3,600 seconds
//! unreached; and where a limit's seconds and its time differ, which are one definition.
#![forbid(unsafe_code)]
#[allow(dead_code)]
#[path = "../calls/model.rs"]
mod model;
#[allow(dead_code)]
#[path = "../calls/random.rs"]
mod random;
#[path = "../calls/reasons.rs"]
mod reasons;

use model::*;
use random::Random;
use reasons::{applying, full, pressed};
use std::collections::BTreeMap;
use std::path::PathBuf;
use std::process::exit;
use std::{env, fs, io};

/// The buffer in a file: each number in four bytes, the lowest first.
fn bytes(state: &[u32]) -> Vec<u8> {
    state.iter().flat_map(|number| number.to_le_bytes()).collect()
}

/// What has been made so far, and what it reaches.
struct Maker {
    directory: PathBuf,
    random: Random,
    cases: Vec<String>,
    traces: Vec<String>,
    rounds: Vec<String>,
    reached: BTreeMap<String, u32>,
    /// In the rounds, blocks by each limit: all, those with 1 second and those with 3,600.
    seconds: BTreeMap<u32, [u32; 3]>,
}

impl Maker {
    fn write(&self, name: &str, content: impl AsRef<[u8]>) -> io::Result<()> {
        fs::write(self.directory.join(name), content)
    }

    /// What the program must print.
    fn wanted(&mut self, state: &[u32], time: u32, kind: u32) -> String {
        let mut times = [0; 8];
        let (first, bits) = why(state, time, kind, &mut times);
        let mut text = format!("{first} {}\n", bits.count_ones());
        let (answer, seconds) = request(&mut state.to_vec(), time, kind);
        for (rule, (number, limit)) in RULES.into_iter().enumerate().filter(|(rule, _)| bits >> rule & 1 == 1) {
            if limit.is_some() && number == answer && times[rule] + HOUR - time != seconds {
                eprintln!("{answer} with {seconds} seconds at {time}, and the time is {}", times[rule]);
                exit(1);
            }
            *self.reached.entry(format!("rule {number}")).or_default() += 1;
            text += &match limit {
                None => format!("{number}\n"),
                Some(_) => format!("{number} {}\n", times[rule]),
            };
        }
        let reached = if (1..=4).contains(&first) { format!("refusal {first}") } else { format!("{} at once", bits.count_ones()) };
        *self.reached.entry(reached).or_default() += 1;
        text
    }

    /// One start of `why` on a state.
    fn case(&mut self, state: &[u32], time: u32, kind: u32) -> io::Result<()> {
        let wanted = self.wanted(state, time, kind);
        self.file(&bytes(state), time, kind, &wanted)
    }

    /// One start of `why` on a file of any bytes.
    fn file(&mut self, bytes: &[u8], time: u32, kind: u32, wanted: &str) -> io::Result<()> {
        let name = format!("{:03}", self.cases.len());
        self.write(&format!("states/{name}"), bytes)?;
        self.write(&format!("wanted/{name}"), wanted)?;
        self.cases.push(format!("{name} {time} {kind}"));
        Ok(())
    }

    /// States in which the rules of a request are full, each set of them; all others are, or none.
    fn sets(&mut self) -> io::Result<()> {
        for (kind, mood) in [(0, 0), (1, 3), (2, 0), (2, 1), (2, 2), (2, 3), (3, 1), (4, 2), (5, 1)] {
            let applying = applying(kind, mood, 1);
            for bits in (0..256).filter(|bits| bits & !applying == 0) {
                let sent = self.random.pick(&[1, 2, 100, 255]);
                let others = self.random.pick(&[0, !applying & 255]);
                let state = full(&mut self.random, kind, mood, 1, bits | others, sent);
                self.case(&state, 100_000, kind)?;
            }
        }
        for kind in [2, 4, 5] {
            let state = full(&mut self.random, kind, 1, 0, 254, 255);
            self.case(&state, 100_000, kind)?;
        }
        for _ in 0..30 {
            let kind = self.random.pick(&[0, 1, 2, 2, 3, 4, 5]);
            let (state, time) = pressed(&mut self.random, kind);
            self.case(&state, time, kind)?;
        }
        Ok(())
    }

    /// The first and the last second of an hour, for the earliest and the latest permit there can be.
    fn hours(&mut self) -> io::Result<()> {
        for (opened, sent) in [(0, 0), (1_000, 1_234), (LATEST - HOUR, LATEST - HOUR), (LATEST, LATEST)] {
            let mut state = vec![0; PLACES];
            open(&mut state, opened, 1, &[60], 1, 1, 0, 1, &[0; 32], &[0; 6], &[0; 32], &[0; 32], &[0; 6]);
            request(&mut state, sent, 3);
            granted(&mut state, sent, 3);
            for time in [sent, sent + HOUR - 1, sent + HOUR] {
                self.case(&state, time, 3)?;
            }
        }
        Ok(())
    }

    /// Requests that would be refused with 2, 3 or 4, and where two refusals meet.
    fn refusals(&mut self) -> io::Result<()> {
        let state = full(&mut self.random, 2, 1, 1, 255, 3);
        let now = state[LAST];
        let arguments = [
            (now, 6),
            (now, 256),
            (now, u32::MAX),
            (now - 1, 6),
            (now - 1, 2),
            (0, 5),
            (LATEST + 1, 5),
            (u32::MAX, 2),
            (now, 4),
            (now - 1, 4),
            (LATEST + 1, 4),
        ];
        for (time, kind) in arguments {
            self.case(&state, time, kind)?;
        }
        for kind in 0..4 {
            let mut asked = state.clone();
            asked[STANDINGS + kind as usize] = ASKED;
            self.case(&asked, now, kind)?;
        }
        let up = full(&mut self.random, 4, 1, 1, 255, 3);
        self.case(&up, now, 2)
    }

    /// Damaged states: a line of the table broken in each.
    fn damage(&mut self) -> io::Result<()> {
        let broken = [
            (LETTERS, 0x5052_5700),
            (VERSION, 0),
            (VERSION, 1),
            (VERSION, 3),
            (OPENED, 100_001),
            (LAST, LATEST + 1),
            (IMSI, 232_831),
            (NFM, 0),
            (NFM, 2),
            (START_TIMER, 2),
            (RPM, 2),
            (INTERVAL_COUNT, 0),
            (INTERVAL_COUNT, 11),
            (INTERVALS, 121),
            (INTERVALS + 3, 1),
            (N1, 256),
            (ENDS, LATEST_END + 1),
            (STANDINGS, 2),
            (MOOD, 4),
            (C_BR_1, 256),
            (LENGTHS, 256),
            (LISTS, 100_001),
            (LISTS + 1, 0),
            (DUE - 1, 1),
        ];
        for (place, value) in broken {
            let mut state = full(&mut self.random, 2, 1, 1, 255, 3);
            state[place] = value;
            self.case(&state, 100_000, 2)?;
        }
        self.case(&[0; PLACES], 0, 5)?;
        self.case(&[u32::MAX; PLACES], u32::MAX, u32::MAX)
    }

    /// Files of other lengths, good as far as they go; one of them is a good buffer of version 1.
    fn lengths(&mut self) -> io::Result<()> {
        for version in [1, 2] {
            let mut state = full(&mut self.random, 3, 0, 1, 255, 3);
            state[VERSION] = version;
            for length in [0, 1, 4, 5_320, 5_323, 5_325, 5_328, 10_648] {
                let mut file = bytes(&state);
                file.resize(length, 0);
                self.file(&file, 100_000, 3, "1 0\n")?;
            }
        }
        Ok(())
    }
}

/// A trace with its answers, and the buffer that it leaves. "Before any `O` the buffer is all 0."
struct Trace {
    state: Vec<u32>,
    lines: String,
    answers: String,
}

impl Trace {
    fn new() -> Trace {
        Trace { state: vec![0; PLACES], lines: String::new(), answers: String::new() }
    }

    fn said(&mut self, line: &str, (number, second): Answer) {
        self.lines += &format!("{line}\n");
        self.answers += &format!("{number} {second}\n");
    }

    fn ill_formed(&mut self, line: &str) {
        self.lines += &format!("{line}\n");
        self.answers += "ERR\n";
    }

    /// Opens with intervals of 60, 120 and 240 s, these parameters and limits, and a leak rate of 1 for the PDP counters.
    fn open(&mut self, time: u32, imsi: u64, params: [u8; 6], a1: u32, s1: u32) {
        let mut file = [0; 32];
        file[..6].copy_from_slice(&params);
        let leaks = [0, 0, 1, 0, 0, 0];
        let answer = open(&mut self.state, time, imsi, &[60, 120, 240], 1, 1, a1, s1, &file, &leaks, &[0; 32], &file, &leaks);
        let listed = params.map(|byte| byte.to_string()).join(",");
        self.said(&format!("O {time} {imsi} 60,120,240 {listed} 0,0,1 {a1} {s1}"), answer);
    }

    fn ask(&mut self, time: u32, kind: u32) {
        let answer = request(&mut self.state, time, kind);
        self.said(&format!("Q {time} {kind}"), answer);
    }

    fn grant(&mut self, time: u32, service: u32) {
        let answer = granted(&mut self.state, time, service);
        self.said(&format!("G {time} {service}"), answer);
    }

    fn reject(&mut self, time: u32, service: u32, cause: u32, second: u32, column: u32) {
        let answer = rejected(&mut self.state, time, service, cause, second, column);
        self.said(&format!("J {time} {service} {cause} {second} {column}"), answer);
    }

    fn silence(&mut self, time: u32, service: u32) {
        let answer = silent(&mut self.state, time, service);
        self.said(&format!("S {time} {service}"), answer);
    }

    fn drop(&mut self, time: u32) {
        let answer = dropped(&mut self.state, time);
        self.said(&format!("D {time}"), answer);
    }

    fn clock(&mut self, time: u32) {
        let answer = tick(&mut self.state, time);
        self.said(&format!("T {time}"), answer);
    }

    fn at(&mut self, line: &str) {
        let answer = command(&mut self.state, format!("{line}\r").as_bytes(), &mut [0; 16]);
        self.said(&format!("A {line}"), answer);
    }
}

impl Maker {
    /// Keeps a trace, and a start of `why` after it for each of these times and requests.
    fn trace(&mut self, name: &str, trace: &Trace, next: &[(u32, u32)]) -> io::Result<()> {
        self.write(&format!("{name}.in"), &trace.lines)?;
        self.write(&format!("{name}.want"), &trace.answers)?;
        self.write(&format!("{name}.state"), bytes(&trace.state))?;
        self.traces.push(name.to_string());
        for (time, kind) in next {
            let wanted = self.wanted(&trace.state, *time, *kind);
            self.write(&format!("wanted/{name}-{time}-{kind}"), wanted)?;
            let (answer, seconds) = request(&mut trace.state.clone(), *time, *kind);
            if answer > 10 {
                let counts = self.seconds.entry(answer).or_default();
                *counts = [counts[0] + 1, counts[1] + u32::from(seconds == 1), counts[2] + u32::from(seconds == HOUR)];
            }
            self.rounds.push(format!("{name} {time} {kind}"));
        }
        Ok(())
    }

    fn made_traces(&mut self) -> io::Result<()> {
        self.trace("empty", &Trace::new(), &[(0, 5)])?;

        let mut unopened = Trace::new();
        unopened.ask(0, 5);
        unopened.at("AT+NFM=?");
        unopened.ill_formed("Q 0");
        unopened.open(0, 1_000_000_000_000_000, [0; 6], 0, 0);
        self.trace("unopened", &unopened, &[])?;

        let mut printed = Trace::new();
        printed.open(1000, 1_010_123_456_789, [0; 6], 0, 2);
        printed.ask(1000, 2);
        printed.reject(1010, 2, 26, 0, 2);
        self.trace("back-off", &printed, &[(1112, 2), (1113, 2), (1009, 2)])?;
        printed.ask(1112, 2);
        printed.ask(1113, 2);
        printed.grant(1114, 2);
        printed.ask(1115, 2);
        self.trace("printed", &printed, &[(1115, 2), (1115, 4), (1115, 6)])?;

        let mut sms = Trace::new();
        sms.open(0, 1_010_123_456_789, [0; 6], 0, 2);
        for time in [10, 20] {
            sms.ask(time, 3);
            sms.grant(time, 3);
        }
        // The last line lacks its LF.
        sms.lines.pop();
        self.trace("sms", &sms, &[(3609, 3), (3610, 3)])?;

        let mut three = Trace::new();
        three.open(0, 1_010_123_456_789, [1, 0, 0, 0, 1, 1], 1, 1);
        for kind in [0, 2, 3] {
            three.ask(5 + kind, kind);
        }
        three.reject(10, 2, 26, 0, 2);
        three.silence(11, 0);
        three.reject(12, 3, 17, 0, 4);
        three.ask(12, 5);
        self.trace("three", &three, &[(50, 2), (50, 0), (50, 3), (50, 5), (113, 2), (3606, 2), (3607, 2)])?;

        // GMM 6 holds GSM's registration too, GMM 7 and MM 11 do not, and RP 17 holds nothing.
        let mut columns = Trace::new();
        columns.open(0, 1_010_123_456_789, [0; 6], 0, 0);
        for kind in [0, 1, 3] {
            columns.ask(0, kind);
        }
        columns.ill_formed("J 1 1 6 0");
        columns.reject(1, 1, 6, 0, 0);
        columns.reject(1, 1, 6, 0, 5);
        columns.reject(1, 3, 17, 0, 3);
        columns.reject(1, 0, 11, 0, 0);
        columns.reject(1, 1, 7, 0, 1);
        self.trace("columns", &columns, &[(2, 0), (2, 1), (2, 3)])?;
        columns.ask(104, 1);
        columns.reject(105, 1, 6, 0, 1);
        self.trace("both", &columns, &[(106, 0), (106, 1), (207, 0), (208, 0), (256, 1), (257, 1)])?;

        // A reset is due, N1 holds it back until 3600, and then N1 counts it.
        let mut timed = Trace::new();
        timed.open(0, 1_010_123_456_789, [1, 1, 0, 0, 0, 0], 0, 0);
        timed.ask(0, 5);
        timed.ask(1, 0);
        timed.reject(2, 0, 2, 0, 0);
        timed.clock(333);
        self.trace("due", &timed, &[(333, 5), (3599, 5), (3600, 5)])?;
        timed.clock(3599);
        timed.clock(3600);
        self.trace("ordered", &timed, &[(3600, 5), (7199, 5), (7200, 5), (3600, 0)])?;

        let mut long = Trace::new();
        long.open(4_294_967, LARGEST_IMSI, [0; 6], 0, 255);
        for i in 0..320 {
            long.ask(4_294_967 + 12 * i, 3);
            long.grant(4_294_967 + 12 * i, 3);
        }
        self.trace("long", &long, &[(4_298_806, 3), (4_298_807, 3)])?;

        for number in 1..=3 {
            let trace = self.any_trace();
            let (time, kind) = (trace.state[LAST], self.random.number(6));
            self.trace(&format!("any{number}"), &trace, &[(time, kind)])?;
        }
        Ok(())
    }

    /// Traces after which each limit, of 1, waits for a permit of one time: asked then, a second before the permit leaves the hour, and when
    /// it has left. F1, F2 and F3 have one more in the hour, which was granted.
    fn hours_of_limits(&mut self) -> io::Result<()> {
        let sent = 1_000;
        let times = [sent, sent + HOUR - 1, sent + HOUR];
        let mut others = Trace::new();
        others.open(0, 1_010_123_456_789, [1, 0, 0, 0, 0, 1], 1, 1);
        for kind in [0, 2, 3, 5] {
            others.ask(sent, kind);
        }
        let kinds = [0, 1, 2, 3, 5];
        self.trace("limits", &others, &times.map(|time| kinds.map(|kind| (time, kind))).concat())?;
        for mood in 1..=3 {
            let mut params = [0; 6];
            params[1 + mood] = 1;
            let mut trace = Trace::new();
            trace.open(0, 1_010_123_456_789, params, 0, 0);
            trace.at("AT+NFM=0");
            trace.ask(sent - 100, 2);
            trace.grant(sent - 100, 2);
            trace.drop(sent - 100);
            trace.ask(sent, 2);
            match mood {
                1 => trace.silence(sent, 2),
                2 => trace.reject(sent, 2, 33, 0, 2),
                _ => trace.reject(sent, 2, 26, 0, 2),
            }
            self.trace(&format!("mood{mood}"), &trace, &times.map(|time| (time, 2)))?;
        }
        Ok(())
    }

    /// A trace of any lines, mostly accepted.
    fn any_trace(&mut self) -> Trace {
        let mut trace = Trace::new();
        let random = &mut self.random;
        let mut time = random.pick(&[0, 1_000_000, LATEST - 500]);
        trace.open(time, 123_456_789_012_345, [1, 9, 1, 2, 2, 3], 2, 2);
        for _ in 0..60 {
            time += random.pick(&[0, 0, 1, 2, 30]);
            let service = random.pick(&[0, 1, 2, 2, 2, 3]);
            let asked = trace.state[STANDINGS + service as usize] == ASKED;
            match random.below(12) {
                0 => trace.clock(time),
                1 => trace.drop(time),
                2 => trace.at(random.pick(&["AT+NFM=0", "AT+NFM=1,1", "AT+NFM=?", "AT+NFMCI=1,2", "AT+NFM=2"])),
                3 => trace.ill_formed(random.pick(&["", "Q", "Q 1 2 ", "q 1 2", "T 01", "T -1", "T 4294967296", "X 1", "J 1 2 26 0"])),
                4 => trace.ask(time, random.number(7)),
                5 => trace.open(time, 1_010_123_456_789, [0, 0, 1, 1, 1, 2], 256 * random.number(2), 1),
                6 | 7 if asked => trace.grant(time, service),
                8 if asked => trace.silence(time, service),
                _ if asked => {
                    let column = if random.chance(80) { random.pick(columns(service)) } else { random.number(6) };
                    let both = random.pick(&[2, 3, 6, 8, 9]);
                    let cause = if random.chance(40) { both } else { random.number(64) };
                    trace.reject(time, service, cause, random.number(2), column);
                }
                _ => trace.ask(time, service),
            }
        }
        trace
    }

    /// The lists of what was made; it fails where something was not reached.
    fn end(&self) -> io::Result<()> {
        self.write("cases", lines(&self.cases))?;
        self.write("traces", lines(&self.traces))?;
        self.write("rounds", lines(&self.rounds))?;
        let (cases, rounds, traces) = (self.cases.len(), self.rounds.len(), self.traces.len());
        println!("made: {cases} states, {traces} traces and {rounds} rounds");
        println!("reached: {}", self.reached.iter().map(|(what, times)| format!("{what} x {times}")).collect::<Vec<_>>().join(", "));
        let told = |(number, [all, one, hour]): (&u32, &[u32; 3])| format!("{number} x {all} ({one} and {hour})");
        let seconds = self.seconds.iter().map(told).collect::<Vec<_>>().join(", ");
        println!("blocks in the rounds, with their seconds (with 1 and with 3600): {seconds}");
        let refusals = (1..=4).map(|number| format!("refusal {number}"));
        let rules = RULES.into_iter().map(|(number, _)| format!("rule {number}"));
        let at_once = (0..=3).map(|count| format!("{count} at once"));
        let mut missing: Vec<String> = refusals.chain(rules).chain(at_once).filter(|what| !self.reached.contains_key(what)).collect();
        let limits = RULES.into_iter().filter(|(_, limit)| limit.is_some()).map(|(number, _)| number);
        let met = |number: &u32| self.seconds.get(number).is_some_and(|counts| !counts.contains(&0));
        missing.extend(limits.filter(|number| !met(number)).map(|number| format!("{number} with 1 and with 3600 seconds")));
        if !missing.is_empty() {
            eprintln!("not reached: {}", missing.join(", "));
            exit(1);
        }
        Ok(())
    }
}

fn lines(all: &[String]) -> String {
    all.iter().map(|line| format!("{line}\n")).collect()
}

fn main() -> io::Result<()> {
    let words: Vec<String> = env::args().skip(1).collect();
    let [directory, seed] = &words[..] else {
        eprintln!("make DIRECTORY SEED");
        exit(2);
    };
    let Ok(seed) = seed.parse::<u64>() else {
        eprintln!("make: SEED is not a number of 64 bits");
        exit(2);
    };
    let directory = PathBuf::from(directory);
    fs::create_dir_all(directory.join("states"))?;
    fs::create_dir_all(directory.join("wanted"))?;
    let (cases, traces, rounds) = (vec![], vec![], vec![]);
    let (reached, seconds) = (BTreeMap::new(), BTreeMap::new());
    let mut maker = Maker { directory, random: Random(seed.max(1)), cases, traces, rounds, reached, seconds };
    maker.sets()?;
    maker.hours()?;
    maker.refusals()?;
    maker.damage()?;
    maker.lengths()?;
    maker.made_traces()?;
    maker.hours_of_limits()?;
    maker.end()
}
