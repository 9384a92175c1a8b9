//! A module with its card on the linked library. It is told the lines of a trace and gives back
//! what a trace program prints. After every line the counter file must hold, for each counter, what
//! the card had at the opening and one more for each of its blocks since, of C-R-1 for each reset
//! that was ordered; 255 is the most.
#[allow(dead_code)]
#[path = "../../tests/link/gate.rs"]
mod gate;

use gate::{c, STATE};
use std::fmt::Debug;
use std::str::FromStr;

/// More than any limit can be.
pub const TOO_MANY: u32 = 256;

/// The module's own files where the card has all three: they would answer otherwise.
const OWN_PARAMETERS: [u8; 6] = [1, 255, 1, 1, 1, 1];
const OWN_LEAK_RATES: [u8; 3] = [1, 1, 1];

/// Nothing, or the first difference.
pub type Checked<T = ()> = Result<T, String>;

pub fn same<T: PartialEq + Debug>(what: &str, given: T, expected: T) -> Checked {
    if given == expected {
        return Ok(());
    }
    Err(format!("{what}: expected {expected:?}, given {given:?}"))
}

fn numbers<T: FromStr>(text: &str, parted: char) -> Option<Vec<T>> {
    text.split(parted).map(|number| number.parse().ok()).collect()
}

/// A file of so many bytes that begins with these; the others are 0.
fn file(bytes: &[u8], size: usize) -> Vec<u8> {
    let mut file = bytes.to_vec();
    file.resize(size, 0);
    file
}

/// A line with its time in the place of T.
pub fn at(time: u32, line: &str) -> String {
    line.replace('T', &time.to_string())
}

/// What the card holds.
#[derive(Clone, Copy)]
pub enum Card {
    /// No files. The pointer to each of the three; its count is 0. The parameters and leak rates of
    /// an opening line are in the module's own files.
    Without(*const u8),
    /// All three: the parameters and leak rates of an opening line, and these counters.
    With([u8; 6]),
}

pub struct Module {
    pub card: Card,
    /// RPM_Flag, 0 or 1: the card's, or the module's own where the card has none.
    pub rpm: u32,
    pub state: [u32; STATE],
    /// How often each counter had to rise since the opening: C-BR-1, C-R-1, C-PDP-1 to C-PDP-4.
    rises: [u8; 6],
}

impl Module {
    pub fn new(card: Card) -> Module {
        Module { card, rpm: 1, state: [u32::MAX; STATE], rises: [0; 6] }
    }

    /// Takes a line of a trace and gives back what a trace program prints for it.
    pub fn line(&mut self, line: &str) -> Checked<String> {
        let c::Answer { number, second } = self.told(line).ok_or_else(|| format!("'{line}' is not read here"))?;
        match number {
            0 if line.starts_with('O') => self.rises = [0; 6],
            11..=16 => {
                let counter = &mut self.rises[number as usize - 11];
                *counter = counter.saturating_add(1);
            }
            _ => {}
        }
        Ok(format!("{number} {second}"))
    }

    /// The six counters of the counter file. The other bytes must be 0.
    pub fn counters(&mut self) -> Checked<[u8; 6]> {
        let mut room = [255; 32];
        let (state, out) = (self.state.as_mut_ptr(), room.as_mut_ptr());
        let c::Answer { number, second } = unsafe { c::dialchisel_counters(state, STATE, out, 32) };
        same("the counter file", (number, second, &room[6..]), (0, 32, &[0; 26][..]))?;
        let mut six = [0; 6];
        six.copy_from_slice(&room[..6]);
        Ok(six)
    }

    /// The counter file after a line, where no counter leaks.
    fn counted(&mut self, line: &str) -> Checked {
        let mut expected = match self.card {
            Card::Without(_) => [0; 6],
            Card::With(counters) => counters,
        };
        for (counter, rises) in expected.iter_mut().zip(self.rises) {
            *counter = counter.saturating_add(rises);
        }
        same(&format!("'{line}', counters after it"), self.counters()?, expected)
    }

    /// The letters of document 01's trace. `None` is a line that is not among them.
    fn told(&mut self, line: &str) -> Option<c::Answer> {
        let (letter, rest) = line.split_once(' ')?;
        let state = self.state.as_mut_ptr();
        // SAFETY (here, above and below): each pointer and count are of one array or vector, which
        // nothing else touches until the call returns; a file that is absent has the count 0.
        if letter == "A" {
            let (line, mut room) = (format!("{rest}\r"), [0; 16]);
            return Some(unsafe { c::dialchisel_command(state, STATE, line.as_ptr(), line.len(), room.as_mut_ptr(), room.len()) });
        }
        if letter == "O" {
            return self.opened(&rest.split(' ').collect::<Vec<_>>());
        }
        Some(match (letter, &numbers(rest, ' ')?[..]) {
            ("Q", &[time, kind]) => unsafe { c::dialchisel_request(state, STATE, time, kind) },
            ("G", &[time, service]) => unsafe { c::dialchisel_granted(state, STATE, time, service) },
            ("S", &[time, service]) => unsafe { c::dialchisel_silent(state, STATE, time, service) },
            ("J", &[time, service, cause, second, column]) => unsafe {
                c::dialchisel_rejected(state, STATE, time, service, cause, second, column)
            },
            ("D", &[time]) => unsafe { c::dialchisel_dropped(state, STATE, time) },
            ("T", &[time]) => unsafe { c::dialchisel_tick(state, STATE, time) },
            _ => return None,
        })
    }

    /// An opening, with the card that there is.
    fn opened(&mut self, fields: &[&str]) -> Option<c::Answer> {
        let &[time, imsi, intervals, parameters, leak_rates, a1, s1] = fields else { return None };
        let intervals: Vec<u32> = numbers(intervals, ',')?;
        let parameters = file(&numbers(parameters, ',')?, 32);
        let leak_rates = file(&numbers(leak_rates, ',')?, 6);
        let (card, own) = match self.card {
            Card::Without(_) => ([vec![], vec![], vec![]], [parameters, leak_rates]),
            Card::With(counters) => (
                [parameters, leak_rates, file(&counters, 32)],
                [file(&OWN_PARAMETERS, 32), file(&OWN_LEAK_RATES, 6)],
            ),
        };
        let [parameters, leak_rates, counters] = card.each_ref().map(|file| match self.card {
            Card::Without(absent) => absent,
            Card::With(_) => file.as_ptr(),
        });
        Some(unsafe {
            c::dialchisel_open(
                self.state.as_mut_ptr(),
                STATE,
                time.parse().ok()?,
                imsi.parse().ok()?,
                intervals.as_ptr(),
                intervals.len(),
                1,
                self.rpm,
                a1.parse().ok()?,
                s1.parse().ok()?,
                parameters,
                card[0].len(),
                leak_rates,
                card[1].len(),
                counters,
                card[2].len(),
                own[0].as_ptr(),
                own[0].len(),
                own[1].as_ptr(),
                own[1].len(),
            )
        })
    }

    pub fn expect(&mut self, line: &str, answer: &str) -> Checked {
        let given = self.line(line)?;
        same(&format!("'{line}'"), &given[..], answer)?;
        self.counted(line)
    }

    pub fn expect_all(&mut self, lines: &[(&str, &str)]) -> Checked {
        lines.iter().try_for_each(|(line, answer)| self.expect(line, answer))
    }

    /// Opens, with NFM off so that no back-off stands before a limit, and repeats the lines each
    /// second from 0 on. Gives back how often that was permitted, and what was answered then.
    pub fn repeated(&mut self, opening: &str, lines: &[&str]) -> Checked<(u32, String)> {
        self.expect(opening, "0 0")?;
        self.expect("A AT+NFM=0", "0 4")?;
        for time in 0..TOO_MANY {
            for line in lines {
                let line = at(time, line);
                let answer = self.line(&line)?;
                self.counted(&line)?;
                if answer != "0 0" && answer != "23 0" {
                    return Ok((time, answer));
                }
            }
        }
        Ok((TOO_MANY, "0 0".to_string()))
    }

    /// Makes the clock call each second from one time to another, and gives back when it ordered a
    /// reset.
    pub fn ordered(&mut self, from: u32, to: u32) -> Checked<Vec<u32>> {
        let mut times = Vec::new();
        for time in from..=to {
            let line = format!("T {time}");
            let answer = self.line(&line)?;
            self.counted(&line)?;
            match &answer[..] {
                "0 0" => {}
                "12 0" => times.push(time),
                _ => return Err(format!("'{line}': given {answer:?}")),
            }
        }
        Ok(times)
    }

    /// Replays a trace, compares its answers byte for byte, and how often each counter rose in each
    /// of its openings.
    pub fn replay(&mut self, (trace, answers): (&str, &str), rises: &[[u8; 6]]) -> Checked {
        let mut answers = answers.split('\n');
        let mut ends = Vec::new();
        for (i, line) in trace.lines().enumerate() {
            let answer = answers.next().unwrap_or("nothing");
            self.expect(line, answer).map_err(|difference| format!("line {}, {difference}", i + 1))?;
            if line.starts_with('O') {
                ends.push(self.rises);
            }
            *ends.last_mut().ok_or("a trace begins with an opening")? = self.rises;
        }
        same("what follows the last answer", answers.collect(), vec![""])?;
        same("how often each counter rose, by opening", &ends[..], rises)
    }
}
