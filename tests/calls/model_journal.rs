//! A model of the journal, written from §8 of the customer's requests and from nothing else, over
//! the model of the plain calls. It is plain and slow on purpose, as that one is, and it never
//! panics, whatever it is given.
#![forbid(unsafe_code)]

use crate::model::{self, good, Answer, PLACES};

/// "The area holds 512 records" "of 128 bytes", "over erased bytes (255)".
pub const AREA: usize = 65_536;
pub const RECORD: usize = 128;
pub const SLOTS: usize = 512;
pub const ERASED: u8 = 255;

/// What is appended where it is accepted: a request, an outcome, a clock call or an AT line.
#[derive(Clone, Debug, PartialEq)]
pub enum Entry {
    Request { time: u32, kind: u32 },
    Granted { time: u32, service: u32 },
    Silent { time: u32, service: u32 },
    Rejected { time: u32, service: u32, cause: u32, second: u32, column: u32 },
    Dropped { time: u32 },
    Tick { time: u32 },
    Command { line: Vec<u8> },
}

impl Entry {
    /// The letter of its line in a trace.
    pub fn letter(&self) -> u8 {
        match self {
            Entry::Request { .. } => b'Q',
            Entry::Granted { .. } => b'G',
            Entry::Silent { .. } => b'S',
            Entry::Rejected { .. } => b'J',
            Entry::Dropped { .. } => b'D',
            Entry::Tick { .. } => b'T',
            Entry::Command { .. } => b'A',
        }
    }

    /// The numbers in the order of that line; of an AT line its length.
    fn numbers(&self) -> Vec<u32> {
        match *self {
            Entry::Request { time, kind } => vec![time, kind],
            Entry::Granted { time, service } | Entry::Silent { time, service } => vec![time, service],
            Entry::Rejected { time, service, cause, second, column } => vec![time, service, cause, second, column],
            Entry::Dropped { time } | Entry::Tick { time } => vec![time],
            Entry::Command { ref line } => vec![line.len() as u32],
        }
    }

    /// The plain call.
    pub fn plain(&self, s: &mut [u32], room: &mut [u8]) -> Answer {
        match *self {
            Entry::Request { time, kind } => model::request(s, time, kind),
            Entry::Granted { time, service } => model::granted(s, time, service),
            Entry::Silent { time, service } => model::silent(s, time, service),
            Entry::Rejected { time, service, cause, second, column } => model::rejected(s, time, service, cause, second, column),
            Entry::Dropped { time } => model::dropped(s, time),
            Entry::Tick { time } => model::tick(s, time),
            Entry::Command { ref line } => model::command(s, line, room),
        }
    }

    /// What a record has before the answer: the letter, the numbers, four bytes each and the lowest
    /// first, the bytes of an AT line.
    pub fn call(&self) -> Vec<u8> {
        let mut bytes = vec![self.letter()];
        bytes.extend(self.numbers().iter().flat_map(|n| n.to_le_bytes()));
        if let Entry::Command { line } = self {
            bytes.extend(line);
        }
        bytes
    }

    /// The record of an accepted call: the call, the two numbers of its answer, then zeros.
    pub fn record(&self, answer: Answer) -> Vec<u8> {
        let mut bytes = self.call();
        bytes.extend([answer.0, answer.1].iter().flat_map(|n| n.to_le_bytes()));
        bytes.resize(RECORD, 0);
        bytes
    }

    /// The call that a slot begins with, if it begins with one.
    pub fn read(slot: &[u8]) -> Option<Entry> {
        let number = |which: usize| {
            let four = slot.get(1 + 4 * which..5 + 4 * which)?;
            Some(four.iter().rev().fold(0, |n, &byte| n * 256 + u32::from(byte)))
        };
        Some(match slot.first()? {
            b'Q' => Entry::Request { time: number(0)?, kind: number(1)? },
            b'G' => Entry::Granted { time: number(0)?, service: number(1)? },
            b'S' => Entry::Silent { time: number(0)?, service: number(1)? },
            b'J' => {
                let (time, service, cause) = (number(0)?, number(1)?, number(2)?);
                Entry::Rejected { time, service, cause, second: number(3)?, column: number(4)? }
            }
            b'D' => Entry::Dropped { time: number(0)? },
            b'T' => Entry::Tick { time: number(0)? },
            b'A' => Entry::Command { line: slot[5..].get(..number(0)? as usize)?.to_vec() },
            _ => return None,
        })
    }
}

/// "Refusals": document 01's numbers 1 to 5.
pub fn refused((number, _): Answer) -> bool {
    (1..=5).contains(&number)
}

/// "An append goes to the first slot that begins with 255; the journal is full when none does."
pub fn free(area: &[u8]) -> Option<usize> {
    area.chunks(RECORD).position(|slot| slot[0] == ERASED)
}

/// A journaled call: "6 when the journal is full, after the checks of document 01 and before the
/// clock moves"; "1 for an area not of 65,536 bytes". Else the plain call, and its record.
pub fn journaled(s: &mut [u32], area: &mut [u8], entry: &Entry, room: &mut [u8]) -> Answer {
    if area.len() != AREA {
        return (1, 0);
    }
    let (mut after, mut written) = (s.to_vec(), room.to_vec());
    let answer = entry.plain(&mut after, &mut written);
    if refused(answer) {
        return answer;
    }
    let Some(slot) = free(area) else {
        return (6, 0);
    };
    area[slot * RECORD..][..RECORD].copy_from_slice(&entry.record(answer));
    s.copy_from_slice(&after);
    room.copy_from_slice(&written);
    answer
}

/// An erased journal.
pub fn erase(area: &mut [u8]) -> Answer {
    if area.len() != AREA {
        return (1, 0);
    }
    area.fill(ERASED);
    (0, 0)
}

/// The slot that the next append writes.
pub fn next(area: &[u8]) -> Answer {
    if area.len() != AREA {
        return (1, 0);
    }
    free(area).map_or((6, 0), |slot| (0, slot as u32))
}

/// "Restart takes an image of the buffer and the journal begun with it": "7 at restart for a bad
/// image, a whole record that the gate would not write there, or an area other than whole records,
/// at most one torn, then 255s".
pub fn restart(image: &[u32], area: &mut [u8], s: &mut [u32]) -> Answer {
    if area.len() != AREA || s.len() != PLACES {
        return (1, 0);
    }
    let slots: Vec<&[u8]> = area.chunks(RECORD).collect();
    let whole = slots.iter().take_while(|slot| slot[0] != ERASED && slot[RECORD - 1] == 0).count();
    let torn = slots.get(whole).is_some_and(|slot| slot[0] != ERASED);
    let behind = whole + usize::from(torn);
    if !good(image) || slots[behind..].iter().any(|slot| slot.iter().any(|&byte| byte != ERASED)) {
        return (7, 0);
    }
    let mut after = image.to_vec();
    for slot in &slots[..whole] {
        let Some(entry) = Entry::read(slot) else {
            return (7, 0);
        };
        let answer = entry.plain(&mut after, &mut [0; 16]);
        if refused(answer) || entry.record(answer) != *slot {
            return (7, 0);
        }
    }
    // "Drops a last record whose last byte isn't 0 and first fills its slot with 255."
    if torn {
        area[whole * RECORD..][..RECORD].fill(ERASED);
    }
    s.copy_from_slice(&after);
    (0, 0)
}
