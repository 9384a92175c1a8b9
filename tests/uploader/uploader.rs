//! What request 4 spares an uploader, and where it spares nothing. The same made work, thirty days of it on each of several openings, is asked of the linked library by
//! one that knows only that it was blocked, and polls, and by one that waits as many seconds as it was told. What the network answers is
//! drawn by the count of permits, so that it does not hang on when they came. Of the waiting one it is checked that
//! - from one permit to the next no rule blocks it twice,
//! - the seconds of a limit are 1 to 3,600, and a second before their end the same rule still blocks, with 1,
//! - it is never behind a polling one; `never_behind` says where this holds, and why.
//!
//! It fails at the first time that one of these does not hold, and where one of the seven limits never blocked. SEED in the environment
//! repeats a run; without it the clock gives the seed.
#[allow(dead_code)]
#[path = "../link/gate.rs"]
mod gate;
#[allow(dead_code)]
#[path = "../calls/random.rs"]
mod random;

use gate::c::{self, Answer};
use gate::{Gate, Settings, RTC10, STATE};
use random::Random;
use std::array::from_fn;
use std::process::exit;

const OPENINGS: u32 = 8;
/// Openings with limits of 150 to 255. They are counted apart: there a permit is seldom far off, and to wait as told spares nothing beside
/// a slow poll.
const WIDE_OPENINGS: u32 = 4;
const DAYS: u32 = 30;
const DAY: u32 = 86_400;
const HOUR: u32 = 3_600;
/// Work comes in the first hours of each day.
const BUSY_HOURS: u32 = 8;

/// What an uploader does after a block, by a limit or by a back-off. A back-off told its seconds before request 4 too: the line under the
/// table counts the limits alone.
#[derive(Clone, Copy, PartialEq)]
enum Manner {
    Polls(u32),
    Waits,
}

const MANNERS: [(&str, Manner); 3] =
    [("polls every 10 s", Manner::Polls(10)), ("polls every 60 s", Manner::Polls(60)), ("waits as told", Manner::Waits)];

/// The rules by the number that they give back: NFM's back-off, then the seven limits.
const RULES: [(u32, &str); 8] = [(10, "NFM"), (11, "N1"), (13, "F1"), (14, "F2"), (15, "F3"), (16, "F4"), (17, "A1"), (18, "S1")];

/// The workers of an uploader. No two of them have a list in common, nor a back-off: the two
/// registrations, which some causes hold together, are one worker's.
const WORKERS: [&str; 4] = ["attach", "PDP", "SMS", "reset"];
const ATTACH: usize = 0;
const PDP: usize = 1;
const SMS: usize = 2;
const RESET: usize = 3;

type State = [u32; STATE];

/// What the network answers, after so many seconds. A PDP context that it grants is used for so many more.
#[derive(Clone, Copy)]
struct Outcome {
    how: How,
    after: u32,
    used: u32,
}

#[derive(Clone, Copy)]
enum How {
    Granted,
    Silent,
    /// In a column, by a cause.
    Rejected(u32, u32),
}

/// Columns with causes as they may come: service 0 to 2 has the column of its number, service 3 the
/// last two. Most back off, some of those in the first two columns both registrations.
const REJECTIONS: [(u32, &[u32]); 5] = [
    (0, &[2, 3, 5, 6, 8, 9, 11, 12, 15, 17, 22, 34, 95]),
    (1, &[2, 3, 6, 7, 8, 9, 10, 14, 16, 17, 22, 111]),
    (2, &[8, 26, 27, 28, 29, 30, 31, 32, 33, 34, 35, 36, 38, 39, 111]),
    (3, &[8, 10, 21, 22, 27, 28, 38, 41, 42, 69, 81]),
    (4, &[17, 21, 22]),
];

impl Outcome {
    fn drawn(random: &mut Random, service: u32) -> Outcome {
        let last = if service == 3 { 4 } else { service };
        let (column, causes) = random.pick(&REJECTIONS[service as usize..=last as usize]);
        let rejected = How::Rejected(column, random.pick(causes));
        let how = random.pick(&[How::Granted, How::Granted, How::Granted, How::Silent, rejected]);
        Outcome { how, after: random.number(9), used: random.number(20) }
    }
}

// SAFETY (both): the pointer and its count come from one array, which is borrowed until the call returns.
fn request(state: &mut State, time: u32, kind: u32) -> Answer {
    unsafe { c::dialchisel_request(state.as_mut_ptr(), STATE, time, kind) }
}

fn outcome(state: &mut State, time: u32, service: u32, how: How) -> Answer {
    let s = state.as_mut_ptr();
    unsafe {
        match how {
            How::Granted => c::dialchisel_granted(s, STATE, time, service),
            How::Silent => c::dialchisel_silent(s, STATE, time, service),
            How::Rejected(column, cause) => c::dialchisel_rejected(s, STATE, time, service, cause, 0, column),
        }
    }
}

fn shown(answer: Answer) -> String {
    format!("{} with {}", answer.number, answer.second)
}

/// What is made for one opening: the opened state, when each piece of work comes to each worker, and what its outcomes are drawn from.
struct Made {
    opened: u32,
    state: State,
    work: [Vec<u32>; 4],
    draws: [u64; 4],
    resets: bool,
}

impl Made {
    /// By turns low limits, with back-offs, and higher ones, which would seldom be reached with them; or wide ones, with and without. By
    /// turns of two, nobody resets.
    fn new(random: &mut Random, number: u32, wide: bool) -> Result<Made, gate::Verdict> {
        let (nfm, resets) = (number & 1 == 0, number & 2 == 0);
        let (few, more) = match (wide, nfm) {
            (true, _) => ([150, 180, 220, 255], [150, 180, 220, 255]),
            (false, true) => ([1, 2, 3, 5], [4, 6, 9, 12]),
            (false, false) => ([4, 8, 12, 20], [24, 30, 40, 60]),
        };
        let [n1, a1, s1, f4] = [few, more, more, more].map(|from| random.pick(&from));
        let mut parameters = [0; 32];
        parameters[..6].copy_from_slice(&[n1, 0, random.pick(&few), random.pick(&few), random.pick(&few), f4]);
        let opened = random.number(3_900_000_000);
        let settings = Settings {
            time: opened,
            imsi: random.below(1_000_000_000_000_000),
            intervals: random.pick(&[&[60, 120, 240][..], &[10, 20, 40, 80], &[600]]),
            nfm,
            rpm: true,
            a1,
            s1,
            parameters: Some(&parameters),
            leak_rates: Some(&[1, 0, 1, 0, 0, 0]),
            counters: None,
            own_parameters: &RTC10,
            own_leak_rates: &[0; 6],
        };
        let state = *Gate::open(&settings)?.state();
        // Twice what the limit permits. Of F4, once: a context that comes up takes two permits.
        let hourly = [2 * u32::from(a1), u32::from(f4), 2 * u32::from(s1), if resets { 2 * u32::from(n1) } else { 0 }];
        let work = hourly.map(|hourly| arrivals(random, opened, hourly));
        Ok(Made { opened, state, work, draws: from_fn(|_| random.next().max(1)), resets })
    }
}

/// When work comes, so many pieces in each busy hour.
fn arrivals(random: &mut Random, opened: u32, hourly: u32) -> Vec<u32> {
    let daily = hourly * BUSY_HOURS;
    let mut all: Vec<u32> = (0..DAYS * daily).map(|piece| opened + piece / daily * DAY + random.number(BUSY_HOURS * HOUR)).collect();
    all.sort_unstable();
    all
}

/// One of an uploader's workers: it has its own work, one piece after the other, and asks or awaits one thing at a time.
struct Worker<'a> {
    who: usize,
    work: &'a [u32],
    done: usize,
    random: Random,
    /// When it acts next: then its outcome comes, or it asks.
    next: u32,
    awaits: Option<Outcome>,
    /// Is its PDP context up?
    up: bool,
    /// The first block by each rule since its last permit.
    blocks: Vec<(u32, Answer)>,
    permits: Vec<u32>,
}

impl<'a> Worker<'a> {
    fn new(made: &'a Made, who: usize) -> Worker<'a> {
        let (work, random) = (&made.work[who][..], Random(made.draws[who]));
        let mut worker = Worker { who, work, done: 0, random, next: 0, awaits: None, up: false, blocks: vec![], permits: vec![] };
        worker.begin(0);
        worker
    }

    /// The next piece of work, when it is there.
    fn begin(&mut self, now: u32) {
        self.next = self.work.get(self.done).map_or(u32::MAX, |&comes| comes.max(now));
    }

    fn finish(&mut self, now: u32) {
        self.done += 1;
        self.begin(now);
    }

    /// The request that it asks for next: registrations are by turns GSM's and GPRS's.
    fn kind(&self) -> u32 {
        match self.who {
            ATTACH => self.done as u32 % 2,
            PDP if self.up => 4,
            PDP => 2,
            SMS => 3,
            _ => 5,
        }
    }

    fn permitted(&mut self, now: u32) {
        self.permits.push(now);
        self.blocks.clear();
        match self.kind() {
            4 | 5 => {
                self.up = false;
                self.finish(now);
            }
            _ => {
                let kind = self.kind();
                let outcome = Outcome::drawn(&mut self.random, kind);
                self.awaits = Some(outcome);
                self.next = now + outcome.after;
            }
        }
    }

    /// What it awaited has come. After a failure it asks again at once: the gate is to say when.
    fn answered(&mut self, now: u32, outcome: Outcome) {
        match (outcome.how, self.who) {
            (How::Granted, PDP) => {
                self.up = true;
                self.next = now + outcome.used;
            }
            (How::Granted, _) => self.finish(now),
            _ => self.next = now,
        }
    }

    /// The module was reset and all its services are idle: no outcome will come, and no context is up. What was begun has to be asked for
    /// anew. A wait that it was told goes on, for lists, moods and timers stay.
    fn reset(&mut self, now: u32) {
        self.up = false;
        if self.awaits.take().is_some() {
            self.next = now;
        }
    }
}

/// How often an uploader asked, and what it was answered.
#[derive(Clone, Default)]
struct Count {
    asked: u64,
    permits: u64,
    blocks: [u64; RULES.len()],
    twice: u64,
}

/// One uploader on one opening.
struct Run<'a> {
    name: String,
    manner: Manner,
    state: State,
    end: u32,
    workers: [Worker<'a>; 4],
    count: &'a mut Count,
}

impl<'a> Run<'a> {
    fn new(name: String, manner: Manner, made: &'a Made, count: &'a mut Count) -> Run<'a> {
        let workers = [ATTACH, PDP, SMS, RESET].map(|who| Worker::new(made, who));
        Run { name, manner, state: made.state, end: made.opened + DAYS * DAY, workers, count }
    }

    /// All that is done, in order of time; in the same second, in the order of the workers.
    fn through(&mut self) {
        while let Some(who) = (0..4).min_by_key(|&who| self.workers[who].next).filter(|&who| self.workers[who].next < self.end) {
            let worker = &mut self.workers[who];
            let now = worker.next;
            let Some(awaited) = worker.awaits.take() else {
                self.ask(who, now);
                continue;
            };
            let answer = outcome(&mut self.state, now, worker.kind(), awaited.how);
            if !matches!(answer.number, 0 | 20..=28) {
                self.fail(who, format!("its outcome at {now} was answered {}", shown(answer)));
            }
            worker.answered(now, awaited);
        }
    }

    fn ask(&mut self, who: usize, now: u32) {
        let answer = request(&mut self.state, now, self.workers[who].kind());
        self.count.asked += 1;
        match answer.number {
            0 => self.permitted(who, now),
            10..=18 => self.blocked(who, now, answer),
            _ => self.fail(who, format!("request {} at {now} was answered {}", self.workers[who].kind(), shown(answer))),
        }
    }

    fn permitted(&mut self, who: usize, now: u32) {
        self.count.permits += 1;
        self.workers[who].permitted(now);
        if who == RESET {
            self.workers.iter_mut().for_each(|worker| worker.reset(now));
        }
    }

    fn blocked(&mut self, who: usize, now: u32, answer: Answer) {
        let Some(rule) = RULES.iter().position(|&(number, _)| number == answer.number) else {
            self.fail(who, format!("no rule answers {}", shown(answer)));
        };
        self.count.blocks[rule] += 1;
        let before = self.workers[who].blocks.iter().find(|(_, before)| before.number == answer.number).copied();
        if self.manner == Manner::Waits {
            self.check(who, now, answer, before);
        }
        let worker = &mut self.workers[who];
        match before {
            Some(_) => self.count.twice += 1,
            None => worker.blocks.push((now, answer)),
        }
        worker.next = match self.manner {
            Manner::Polls(seconds) => now + seconds,
            Manner::Waits => now + answer.second,
        };
    }

    /// Are the seconds of this block right? `before` is a block by the same rule since the worker's last permit.
    fn check(&self, who: usize, now: u32, answer: Answer, before: Option<(u32, Answer)>) {
        let kind = self.workers[who].kind();
        let asked = || format!("request {kind} at {now} was answered {}", shown(answer));
        if let Some((time, first)) = before {
            self.fail(who, format!("{}; it waited since {time}, as it was answered {}", asked(), shown(first)));
        }
        if answer.second == 0 || (answer.number != 10 && answer.second > HOUR) {
            self.fail(who, format!("{}, which is out of range", asked()));
        }
        if answer.second > 1 {
            let (mut copy, earlier) = (self.state, now + answer.second - 1);
            let then = request(&mut copy, earlier, kind);
            if (then.number, then.second) != (answer.number, 1) {
                self.fail(who, format!("{}; a second too early, at {earlier}, it would be answered {}", asked(), shown(then)));
            }
        }
    }

    fn fail(&self, who: usize, what: String) -> ! {
        fail(format!("{}, {}: {what}", self.name, WORKERS[who]))
    }
}

/// When each worker was permitted.
type Permits = [Vec<u32>; 4];

/// The waiting uploader's k-th permit is no later than the polling one's, for each worker that no reset of another disturbs; gives back how
/// many were compared. For what such a worker asks k-th, and what comes of it, hang on k alone; and it can be permitted once its work is
/// there and set times have passed since its earlier permits: until the outcome, the back-off's end, the hour's end. If those were no
/// later, nor is this one, for the waiting worker asks in the very second when the last of these times has passed.
fn never_behind(name: &str, made: &Made, polled: &Permits, waited: &Permits) -> usize {
    let undisturbed = |who| who == RESET || !made.resets;
    let mut compared = 0;
    for who in (0..4).filter(|&who| undisturbed(who)) {
        for (k, time) in polled[who].iter().enumerate() {
            let waited = waited[who].get(k);
            if waited.is_none_or(|waited| waited > time) {
                fail(format!("{name}, {}: permit {} comes at {time} by polling, and by waiting at {waited:?}", WORKERS[who], k + 1));
            }
        }
        compared += polled[who].len();
    }
    compared
}

fn fail(what: String) -> ! {
    println!("uploader: {what}");
    exit(1)
}

fn seed() -> u64 {
    match std::env::var("SEED") {
        Ok(text) => text.parse().unwrap_or_else(|_| {
            println!("uploader: SEED is not a number of 64 bits");
            exit(2)
        }),
        Err(_) => std::time::SystemTime::now().duration_since(std::time::UNIX_EPOCH).map_or(1, |time| time.as_nanos() as u64),
    }
}

/// The table, a line for each uploader.
fn table(counts: &[Count]) {
    let rules: String = RULES.iter().map(|(number, name)| format!("{:>9}", format!("{number} {name}"))).collect();
    println!("{:<16}{:>9}{:>9}{rules}{:>13}{:>17}", "", "asked", "permits", "asks/permit", "same rule twice");
    for ((name, _), count) in MANNERS.iter().zip(counts) {
        let blocks: String = count.blocks.iter().map(|number| format!("{number:>9}")).collect();
        let ratio = count.asked as f64 / count.permits as f64;
        println!("{name:<16}{:>9}{:>9}{blocks}{ratio:>13.2}{:>17}", count.asked, count.permits, count.twice);
    }
}

/// All three uploaders on so many openings; gives back their counts, and how many permits were compared.
fn group(seed: u64, random: &mut Random, openings: u32, wide: bool) -> ([Count; 3], usize) {
    let mut counts = MANNERS.map(|_| Count::default());
    let mut compared = 0;
    for number in 0..openings {
        let name = format!("seed {seed}, {}opening {number}", if wide { "wide " } else { "" });
        let made = Made::new(random, number, wide).unwrap_or_else(|verdict| fail(format!("{name}: not opened: {verdict:?}")));
        let [often, seldom, waited]: [Permits; 3] = from_fn(|i| {
            let (how, manner) = MANNERS[i];
            let mut run = Run::new(format!("{name}, {how}"), manner, &made, &mut counts[i]);
            run.through();
            run.workers.map(|worker| worker.permits)
        });
        compared += never_behind(&name, &made, &often, &waited) + never_behind(&name, &made, &seldom, &waited);
    }
    (counts, compared)
}

/// The table of a group, and of the limits alone how often each uploader was blocked.
fn tell(what: &str, counts: &[Count; 3]) {
    println!("uploader: {what}");
    table(counts);
    let [often, seldom, waiting] = counts.each_ref().map(|count| count.blocks[1..].iter().sum::<u64>());
    println!("uploader: blocked by a limit: {often} times by polling every 10 s, {seldom} every 60 s, {waiting} by waiting as told");
}

fn main() {
    let seed = seed();
    println!("uploader: seed {seed}");
    let mut random = Random(seed.max(1));
    let (counts, mut compared) = group(seed, &mut random, OPENINGS, false);
    tell(&format!("{OPENINGS} openings of {DAYS} days, limits of 1 to 60"), &counts);
    for (rule, (number, name)) in RULES.into_iter().enumerate() {
        if counts.iter().any(|count| count.blocks[rule] == 0) {
            fail(format!("seed {seed}: {number}, by {name}, was not met"));
        }
    }
    let (counts, more) = group(seed, &mut random, WIDE_OPENINGS, true);
    tell(&format!("{WIDE_OPENINGS} openings of {DAYS} days, limits of 150 to 255"), &counts);
    compared += more;
    println!("uploader: waiting as told, it was never blocked twice by the same rule; of {compared} permits that no reset disturbs none came later");
}
