//! The trace program of document 01, answered from the full record: the time of every permit since
//! the last accepted opening stays in memory, none goes at 255, and each limit counts over these.
//! Written from document 01, for the wait from request §3, for a limit's seconds from request §4,
//! for the causes from request §6 with section 7.5 of 000 and for the timed reset from request §7
//! with RMM6 to RMM8 and RTC1 of 000, and from nothing else, to be read beside it, section by
//! section.
//! It goes from standard input to standard output: `rustc -O --edition 2021 docs/src/record.rs -o record && ./record < trace`.
use std::io::{self, BufRead, Read, Write};

/// The two numbers given back.
type Answer = (u64, u64);

/// A number from 1 to 5. The second number is 0 then, and nothing has changed.
type Refusal = u64;

const LAST_TIME: u64 = 4_000_000_000;
const HOUR: u64 = 3_600;
const U32: u64 = u32::MAX as u64;
const BLOCK: usize = 1 << 16;

// The buffer

#[derive(Clone, Copy, PartialEq)]
enum Standing {
    Idle,
    Asked,
    Up,
}

#[derive(PartialEq)]
enum Mood {
    Clear,
    Ignored,
    Permanent,
    Temporary,
}

struct Record {
    opening: u64,
    last: u64,
    imsi: u64,
    nfm: bool,
    start_timer: bool,
    rpm: bool,
    intervals: Vec<u64>,
    /// N1, T1, F1, F2, F3, F4.
    parameters: [u64; 6],
    a1: u64,
    s1: u64,
    /// LR-1, LR-2, LR-3.
    leak_rates: [u64; 3],
    /// By service, as are the ends and the standing.
    failures: [u64; 4],
    ends: [u64; 4],
    standing: [Standing; 4],
    mood: Mood,
    /// C-BR-1, C-R-1, C-PDP-1 to 4.
    counters: [u64; 6],
    /// Permit times, oldest first, as are the four below.
    attach: Vec<u64>,
    activation: Vec<u64>,
    pdp: Vec<u64>,
    sms: Vec<u64>,
    /// Those of request 5, and the resets that were ordered.
    reset: Vec<u64>,
    /// When the timed reset is due, while one is waited for.
    due: Option<u64>,
}

/// 1 to 10 intervals, 1 to 65,535 s, none below the one before.
fn good_intervals(intervals: &[u64]) -> bool {
    (1..=10).contains(&intervals.len()) && intervals.iter().all(|b| (1..=65_535).contains(b)) && intervals.is_sorted()
}

/// The permits in the hour of t. No time is above t, so the newest are looked at until one is out of the hour.
fn in_the_hour(list: &[u64], t: u64) -> u64 {
    list.iter().rev().take_while(|&&p| p + HOUR > t).count() as u64
}

/// x of request §3: from the IMSI and n failures, by three steps of 64 bits.
fn drawn(imsi: u64, n: u64) -> u64 {
    let mut x = imsi * 16 + n.min(15);
    x ^= x << 13;
    x ^= x >> 7;
    x ^= x << 17;
    x
}

// The columns of section 7.5, by the numbers that a `J` line gives them.
const MM: u64 = 0;
const GMM: u64 = 1;
const SM: u64 = 2;
const RP: u64 = 3;
const CP: u64 = 4;

/// What section 7.5 proposes.
enum Action {
    /// The service that was rejected backs off.
    BackOff,
    /// "a GSM and GPRS Attach 'Back-off'": both registrations do, whichever was rejected.
    BothBackOff,
    Reattach,
    /// Another network, if there is a second one, else a back-off.
    OtherNetwork,
    As3gpp,
    NotThisPlmn,
    NotThisArea,
    NotThisCell,
    Reactivate,
    Reestablish,
}

/// Section 7.5, by its actions. A cause that no row of its column has is as 3GPP says.
fn proposed(column: u64, cause: u64) -> Action {
    match (column, cause) {
        (MM, 2 | 3 | 5 | 6 | 17 | 22 | 34) => Action::BackOff,
        (GMM, 7 | 16 | 17 | 22) => Action::BackOff,
        (MM, 8 | 9) | (GMM, 2 | 3 | 6 | 8 | 9) => Action::BothBackOff,
        (MM, 11) | (GMM, 11 | 14) => Action::NotThisPlmn,
        (MM | GMM, 12 | 13) => Action::NotThisArea,
        (MM | GMM, 15) => Action::NotThisCell,
        (SM, 8 | 26 | 27 | 29 | 30 | 31 | 32 | 33 | 35 | 38) => Action::BackOff,
        (SM, 28) => Action::Reattach,
        (SM, 34) => Action::OtherNetwork,
        (SM, 36) => Action::Reactivate,
        (SM, 39) => Action::Reestablish,
        (RP, 8 | 10 | 21 | 22 | 28 | 29 | 30 | 38) => Action::BackOff,
        (RP, 41 | 42 | 47 | 50 | 69 | 81) => Action::BackOff,
        (CP, 17 | 21) => Action::BackOff,
        _ => Action::As3gpp,
    }
}

impl Record {
    // Services and requests

    /// A new buffer, as the trace's `O` opens it: NFM and RPM 1, counters 0.
    fn open(t: u64, imsi: u64, intervals: Vec<u64>, parameters: [u64; 6], leak_rates: [u64; 3], a1: u64, s1: u64) -> Result<Record, Refusal> {
        if imsi > 999_999_999_999_999 || !good_intervals(&intervals) || a1 > 255 || s1 > 255 {
            return Err(2);
        }
        if t > LAST_TIME {
            return Err(3);
        }
        Ok(Record {
            opening: t,
            last: t,
            imsi,
            nfm: true,
            start_timer: false,
            rpm: true,
            intervals,
            parameters,
            a1,
            s1,
            leak_rates,
            failures: [0; 4],
            ends: [0; 4],
            standing: [Standing::Idle; 4],
            mood: Mood::Clear,
            counters: [0; 6],
            attach: Vec::new(),
            activation: Vec::new(),
            pdp: Vec::new(),
            sms: Vec::new(),
            reset: Vec::new(),
            due: None,
        })
    }

    fn request(&mut self, t: u64, request: u64) -> Result<Answer, Refusal> {
        let fits = match request {
            0..=3 => self.standing[request as usize] == Standing::Idle,
            4 => self.standing[2] == Standing::Up,
            _ => true,
        };
        self.accept(t, request <= 5, fits)?;

        if request <= 3 && t < self.ends[request as usize] {
            return Ok((10, self.ends[request as usize] - t));
        }
        let [n1, _, f1, f2, f3, f4] = self.parameters;
        let limits = [
            (11, self.rpm && request == 5, n1, &self.reset),
            (13, self.rpm && request == 2 && self.mood == Mood::Ignored, f1, &self.activation),
            (14, self.rpm && request == 2 && self.mood == Mood::Permanent, f2, &self.activation),
            (15, self.rpm && request == 2 && self.mood == Mood::Temporary, f3, &self.activation),
            (16, self.rpm && (request == 2 || request == 4), f4, &self.pdp),
            (17, request == 0 || request == 1, self.a1, &self.attach),
            (18, request == 3, self.s1, &self.sms),
        ];
        for (number, applies, limit, list) in limits {
            if applies && limit > 0 && in_the_hour(list, t) >= limit {
                let counter = match number {
                    11 => Some(0),
                    13..=16 => Some(number as usize - 13 + 2),
                    _ => None,
                };
                if let Some(place) = counter {
                    self.counters[place] = 255.min(self.counters[place] + 1);
                }
                // Request §4: "the permit time L places from the newest, the newest counted as one, plus 3,600, less now".
                return Ok((number, list[list.len() - limit as usize] + HOUR - t));
            }
        }

        match request {
            0 | 1 => self.attach.push(t),
            2 => {
                self.activation.push(t);
                self.pdp.push(t);
            }
            3 => self.sms.push(t),
            4 => self.pdp.push(t),
            _ => self.reset.push(t),
        }
        match request {
            0..=3 => self.standing[request as usize] = Standing::Asked,
            4 => self.standing[2] = Standing::Idle,
            _ => {
                self.standing = [Standing::Idle; 4];
                // RMM8: the timer is stopped when the module is reset.
                self.due = None;
            }
        }
        Ok((0, 0))
    }

    // Outcomes and back-off

    fn asked(&self, service: u64) -> bool {
        service <= 3 && self.standing[service as usize] == Standing::Asked
    }

    fn granted(&mut self, t: u64, service: u64) -> Result<Answer, Refusal> {
        self.accept(t, service <= 3, self.asked(service))?;
        self.failures[service as usize] = 0;
        self.ends[service as usize] = 0;
        self.standing[service as usize] = Standing::Idle;
        if service == 2 {
            self.standing[2] = Standing::Up;
            self.mood = Mood::Clear;
        }
        Ok((0, 0))
    }

    fn rejected(&mut self, t: u64, service: u64, cause: u64, second: u64, column: u64) -> Result<Answer, Refusal> {
        let belongs = matches!((service, column), (0, MM) | (1, GMM) | (2, SM) | (3, RP | CP));
        self.accept(t, belongs && cause <= 255 && second <= 1, self.asked(service))?;
        self.standing[service as usize] = Standing::Idle;
        if service == 2 {
            self.mood = match cause {
                8 | 27 | 28 | 29 | 32 | 33 => Mood::Permanent,
                _ => Mood::Temporary,
            };
        }
        self.wait_for_reset(t, column, cause);
        Ok(match proposed(column, cause) {
            Action::BackOff => self.back_off(t, service),
            Action::BothBackOff => {
                // Each by its own failures; the answer has the wait of the one that was rejected.
                self.back_off(t, 1 - service);
                self.back_off(t, service)
            }
            Action::Reattach => (21, 0),
            Action::OtherNetwork if second == 1 => (22, 0),
            Action::OtherNetwork => self.back_off(t, service),
            Action::As3gpp => (23, 0),
            Action::NotThisPlmn => (24, 0),
            Action::NotThisArea => (25, 0),
            Action::NotThisCell => (26, 0),
            Action::Reactivate => (27, 0),
            Action::Reestablish => (28, 0),
        })
    }

    fn silent(&mut self, t: u64, service: u64) -> Result<Answer, Refusal> {
        self.accept(t, service <= 3, self.asked(service))?;
        self.standing[service as usize] = Standing::Idle;
        if service == 2 {
            self.mood = Mood::Ignored;
        }
        Ok(self.back_off(t, service))
    }

    fn dropped(&mut self, t: u64) -> Result<Answer, Refusal> {
        self.accept(t, true, self.standing[2] == Standing::Up)?;
        self.standing[2] = Standing::Idle;
        Ok((0, 0))
    }

    fn back_off(&mut self, t: u64, service: u64) -> Answer {
        if !self.nfm {
            return (23, 0);
        }
        let n = 255.min(self.failures[service as usize] + 1);
        let b = self.intervals[self.intervals.len().min(n as usize) - 1];
        let wait = b + drawn(self.imsi, n) % b;
        self.failures[service as usize] = n;
        self.ends[service as usize] = t + wait;
        (20, wait)
    }

    // Request §7, the timed reset

    /// RMM6: a permanent reject sets the timer, "disabled if T1 is set to 0", unless it runs. T1 is
    /// in units of 360 s; RTC1 has it within a tenth of that, both ends included: 72 T1 + 1 seconds
    /// to draw from.
    fn wait_for_reset(&mut self, t: u64, column: u64, cause: u64) {
        let t1 = self.parameters[1];
        let permanent = matches!((column, cause), (MM, 2 | 3 | 6) | (GMM, 2 | 3 | 6 | 7 | 8));
        if self.rpm && t1 > 0 && permanent && self.due.is_none() {
            self.due = Some(t + 324 * t1 + drawn(self.imsi, 0) % (72 * t1 + 1));
        }
    }

    /// Is the reset to be ordered at t? "Not before the due time", while N1, if it applies, is not
    /// full, "and never while RPM is 0".
    fn orders(&self, t: u64) -> bool {
        let n1 = self.parameters[0];
        let full = n1 > 0 && in_the_hour(&self.reset, t) >= n1;
        self.rpm && !full && self.due.is_some_and(|due| due <= t)
    }

    // Clock and leaks

    fn clock(&mut self, t: u64) -> Result<Answer, Refusal> {
        self.accept(t, true, true)?;
        if !self.orders(t) {
            return Ok((0, 0));
        }
        self.counters[1] = 255.min(self.counters[1] + 1);
        self.reset.push(t);
        self.standing = [Standing::Idle; 4];
        self.due = None;
        Ok((12, 0))
    }

    /// Checks 2, 3 and 4 of a timed call. One that passes them first moves the clock.
    fn accept(&mut self, t: u64, in_range: bool, fits: bool) -> Result<(), Refusal> {
        if !in_range {
            return Err(2);
        }
        if t < self.last || t > LAST_TIME {
            return Err(3);
        }
        if !fits {
            return Err(4);
        }
        let [lr_1, lr_2, lr_3] = self.leak_rates;
        for (counter, rate) in self.counters.iter_mut().zip([lr_1, lr_2, lr_3, lr_3, lr_3, lr_3]) {
            if rate > 0 && *counter > 0 {
                let apart = rate * HOUR;
                let points = (t - self.opening) / apart - (self.last - self.opening) / apart;
                *counter = counter.saturating_sub(points);
            }
        }
        self.last = t;
        Ok(())
    }

    // AT lines

    /// The line is given without the CR that closes it. A CR inside is one too early, and no form has it.
    fn at_line(&mut self, line: &[u8]) -> Result<Answer, Refusal> {
        if line.len() + 1 > 96 {
            return Err(5);
        }
        let mut answer = String::new();
        if let Some(flags) = line.strip_prefix(b"AT+NFM=") {
            match flags {
                b"?" => answer = format!("+NFM: {},{}\r\n", self.nfm as u8, self.start_timer as u8),
                [a @ b'0'..=b'1'] => self.set_nfm(*a == b'1'),
                [a @ b'0'..=b'1', b',', s @ b'0'..=b'1'] => {
                    self.set_nfm(*a == b'1');
                    self.start_timer = *s == b'1';
                }
                _ => return Err(5),
            }
        } else {
            let listed = line.strip_prefix(b"AT+NFMCI=").and_then(|rest| list(rest, U32));
            self.intervals = listed.filter(|intervals| good_intervals(intervals)).ok_or(5u64)?;
        }
        answer.push_str("OK\r\n");
        Ok((0, answer.len() as u64))
    }

    fn set_nfm(&mut self, a: bool) {
        self.nfm = a;
        if !a {
            self.failures = [0; 4];
            self.ends = [0; 4];
        }
    }
}

// The trace

/// A decimal without leading zero, at most `most`.
fn decimal(digits: &[u8], most: u64) -> Option<u64> {
    if digits.is_empty() || digits.len() > 1 && digits[0] == b'0' {
        return None;
    }
    let mut n: u64 = 0;
    for digit in digits {
        if !digit.is_ascii_digit() {
            return None;
        }
        n = n.checked_mul(10)?.checked_add((digit - b'0') as u64)?;
    }
    (n <= most).then_some(n)
}

/// Exactly N decimals with `mark` between them.
fn decimals<const N: usize>(bytes: &[u8], mark: u8, most: u64) -> Option<[u64; N]> {
    let mut parts = bytes.split(|&byte| byte == mark);
    let mut numbers = [0; N];
    for number in &mut numbers {
        *number = decimal(parts.next()?, most)?;
    }
    parts.next().is_none().then_some(numbers)
}

/// One decimal or more, with commas.
fn list(bytes: &[u8], most: u64) -> Option<Vec<u64>> {
    bytes.split(|&byte| byte == b',').map(|part| decimal(part, most)).collect()
}

/// None is `ERR`. Before any accepted `O` there is no record: the buffer is bad, which is check 1.
fn answer(record: &mut Option<Record>, line: &[u8]) -> Option<Result<Answer, Refusal>> {
    let (letter, rest) = line.split_first()?;
    let rest = rest.strip_prefix(b" ")?;
    let good = record.as_mut().ok_or(1);
    Some(match letter {
        b'O' => {
            let fields: Vec<&[u8]> = rest.split(|&byte| byte == b' ').collect();
            let [t, imsi, intervals, parameters, leak_rates, a1, s1] = fields[..] else { return None };
            let opened = Record::open(
                decimal(t, U32)?,
                decimal(imsi, u64::MAX)?,
                list(intervals, U32)?,
                decimals(parameters, b',', 255)?,
                decimals(leak_rates, b',', 255)?,
                decimal(a1, U32)?,
                decimal(s1, U32)?,
            );
            opened.map(|new| {
                *record = Some(new);
                (0, 0)
            })
        }
        b'Q' => {
            let [t, request] = decimals(rest, b' ', U32)?;
            good.and_then(|record| record.request(t, request))
        }
        b'G' => {
            let [t, service] = decimals(rest, b' ', U32)?;
            good.and_then(|record| record.granted(t, service))
        }
        b'S' => {
            let [t, service] = decimals(rest, b' ', U32)?;
            good.and_then(|record| record.silent(t, service))
        }
        b'J' => {
            let [t, service, cause, second, column] = decimals(rest, b' ', U32)?;
            good.and_then(|record| record.rejected(t, service, cause, second, column))
        }
        b'D' => {
            let [t] = decimals(rest, b' ', U32)?;
            good.and_then(|record| record.dropped(t))
        }
        b'T' => {
            let [t] = decimals(rest, b' ', U32)?;
            good.and_then(|record| record.clock(t))
        }
        b'A' => good.and_then(|record| record.at_line(rest)),
        _ => return None,
    })
}

fn write_decimal(out: &mut Vec<u8>, mut n: u64) {
    let mut digits = [0; 20];
    let mut first = digits.len();
    loop {
        first -= 1;
        digits[first] = b'0' + (n % 10) as u8;
        n /= 10;
        if n == 0 {
            break;
        }
    }
    out.extend_from_slice(&digits[first..]);
}

fn main() -> io::Result<()> {
    let mut input = io::BufReader::with_capacity(BLOCK, io::stdin().lock());
    let mut output = io::stdout().lock();
    let mut record = None;
    let mut line = Vec::with_capacity(257);
    let mut out = Vec::with_capacity(BLOCK + 64);
    // At most 256 bytes and the LF are kept; of a longer line, the rest is skipped.
    while input.by_ref().take(257).read_until(b'\n', &mut line)? > 0 {
        let given = match line.strip_suffix(b"\n") {
            Some(whole) => answer(&mut record, whole),
            None if line.len() <= 256 => answer(&mut record, &line),
            None => {
                input.skip_until(b'\n')?;
                None
            }
        };
        match given {
            Some(numbers) => {
                let (number, second) = numbers.unwrap_or_else(|refusal| (refusal, 0));
                write_decimal(&mut out, number);
                out.push(b' ');
                write_decimal(&mut out, second);
                out.push(b'\n');
            }
            None => out.extend_from_slice(b"ERR\n"),
        }
        line.clear();
        if out.len() >= BLOCK {
            output.write_all(&out)?;
            out.clear();
        }
    }
    output.write_all(&out)?;
    output.flush()
}
