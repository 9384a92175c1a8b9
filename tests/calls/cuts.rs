//! Cuts of the power in the comparison: made lives whose calls go through the journal, cut at every
//! byte of an append and at every byte of the filling that follows it, restarted by the library and
//! compared with a model that never lost anything; and what happens where a premise of request 8
//! does not hold.
use crate::both::{by_model, Bench, Call};
use crate::journal::{Held, Kept, Written};
use crate::model::*;
use crate::model_journal::{self, refused, Entry, AREA, ERASED, RECORD, SLOTS};

/// What is to be met.
#[rustfmt::skip]
pub const CUT: [&str; 17] = [
    "lives", "lives with three restarts or more", "cut before the first byte", "cut in the record", "cut behind the last byte",
    "filling cut", "filling cut twice or more",
    "cut in Q", "cut in G", "cut in S", "cut in J", "cut in D", "cut in T", "cut in A", "cut in an ordered reset",
    "a life that goes on", "a full journal replaced",
];

/// A life: the image that its journal was begun with, and what is held. The model's part was never
/// cut.
struct Life {
    image: Vec<u32>,
    kept: Kept,
}

/// An append that is cut: the image, what was held before the call and after it, which slot it goes
/// to, and the library's own record.
struct Append<'a> {
    image: &'a [u32],
    before: &'a Held,
    after: &'a Held,
    slot: usize,
    record: Vec<u8>,
}

/// How a life is cut at its chosen call.
enum At {
    EveryPair,
    EveryByte,
    Pairs(usize),
}

impl Bench {
    /// All of it, with a line that tells how many lives, cuts and restarts that were.
    pub fn cuts(&mut self) {
        self.premises();
        let (before, lives) = (self.calls, 4_000);
        let (mut cuts, mut every_pair, mut every_byte) = (0, 0, 0);
        let full = [(); 4].map(|()| self.written(SLOTS));
        for turn in 0..lives {
            let mut life = if (107..267).contains(&turn) { self.nearly_full(&full[turn % 4]) } else { self.any_life() };
            let (calls, at) = match turn {
                0..7 => (30, At::EveryPair),
                7..107 => (20, At::EveryByte),
                107..267 => (20, At::Pairs(2)),
                _ => (6 + self.random.below(30), At::Pairs(5)),
            };
            let (all, of_one) = self.live(&mut life, calls, at, turn);
            cuts += all;
            every_pair += u64::from(of_one == (RECORD + 1) * (RECORD + 1));
            every_byte += u64::from(of_one == RECORD + 1);
            self.note("lives", true);
        }
        let calls = self.calls - before;
        println!("cuts: {calls} calls, no difference: {lives} lives, {cuts} appends and fillings cut and restarted");
        println!("cuts: {every_pair} appends were cut at all 129 x 129 pairs of bytes, {every_byte} at all 129 bytes");
        if every_pair != 7 || every_byte != 100 {
            self.differs(&"cuts", "these must be 7 and 100");
        }
    }

    /// A journal begun with this state.
    fn begin(&mut self, image: Vec<u32>) -> Life {
        let mut kept = self.held(&image, &[7; AREA]);
        self.erase(&mut kept);
        Life { image, kept }
    }

    fn any_life(&mut self) -> Life {
        let image = self.begun();
        self.begin(image)
    }

    /// A life whose journal has a few slots left.
    fn nearly_full(&mut self, full: &Written) -> Life {
        let (image, mut area) = (full.image.clone(), full.area.clone());
        area[(SLOTS - 1 - self.random.below(6) as usize) * RECORD..].fill(ERASED);
        let mut state = vec![0; PLACES];
        model_journal::restart(&image, &mut area, &mut state);
        Life { kept: self.held(&state, &area), image }
    }

    /// So many calls more of a life. One of them is chosen and cut as `at` says; now and then
    /// another is cut once; a full journal is replaced, and now and then one that is not. Gives back
    /// how many cuts were restarted from, in all and at the chosen call.
    fn live(&mut self, life: &mut Life, calls: u64, at: At, turn: usize) -> (u64, usize) {
        let mut chosen = self.random.below(calls / 2);
        let (mut cuts, mut of_chosen, mut restarts) = (0, 0, 0);
        let every = matches!(at, At::EveryPair | At::EveryByte);
        let letter = b"QGSJDTA"[turn % 7];
        for call in 0..calls {
            let (mut entry, room) = self.next_entry(life.kept.model.state.part());
            if call == chosen && every {
                entry = self.of_letter(life, letter);
            }
            let before = life.kept.clone();
            let answer = self.journaled(&mut life.kept, &entry, room.max(16 * usize::from(call == chosen)));
            if answer.0 == 6 || self.random.below(200) == 0 {
                let state = life.kept.model.state.part().to_vec();
                *life = self.begin(state);
                self.note("a full journal replaced", answer.0 == 6);
                chosen += u64::from(call == chosen);
                continue;
            }
            if refused(answer) {
                chosen += u64::from(call == chosen);
                continue;
            }
            let often = if answer.0 == 12 { 2 } else { 14 };
            if call != chosen && self.random.below(often) != 0 {
                continue;
            }
            let pairs = if call == chosen { self.pairs(&at) } else { self.pairs(&At::Pairs(1)) };
            cuts += pairs.len() as u64;
            of_chosen += if call == chosen { pairs.len() } else { 0 };
            restarts += 1;
            self.note("cut in an ordered reset", answer.0 == 12);
            self.cut(life, before, &entry, pairs);
        }
        self.note("lives with three restarts or more", restarts >= 3);
        (cuts, of_chosen)
    }

    /// The next call of a life with this letter, one that is accepted; others are made until there
    /// is one.
    fn of_letter(&mut self, life: &mut Life, letter: u8) -> Entry {
        for _ in 0..3_000 {
            let (entry, room) = self.next_entry(life.kept.model.state.part());
            if entry.letter() != letter {
                if self.journaled(&mut life.kept, &entry, room).0 == 6 {
                    let state = life.kept.model.state.part().to_vec();
                    *life = self.begin(state);
                }
            } else if !refused(entry.plain(&mut life.kept.model.state.part().to_vec(), &mut [0; 16])) {
                return entry;
            }
        }
        Entry::Tick { time: life.kept.model.state.part()[LAST] }
    }

    /// Where an append is cut, and where the fillings after it are: one, or one after the other.
    fn pairs(&mut self, at: &At) -> Vec<(usize, Vec<usize>)> {
        match *at {
            At::EveryPair => (0..=RECORD).flat_map(|cut| (0..=RECORD).map(move |filled| (cut, vec![filled]))).collect(),
            At::EveryByte => (0..=RECORD).map(|cut| (cut, self.fillings())).collect(),
            At::Pairs(count) => (0..count).map(|_| (self.byte(), self.fillings())).collect(),
        }
    }

    /// 0 to 128, the ends more often.
    fn byte(&mut self) -> usize {
        let any = self.random.below(RECORD as u64 + 1) as usize;
        self.random.pick(&[any, any, any, any, any, any, 0, 1, 127, 128])
    }

    fn fillings(&mut self) -> Vec<usize> {
        (0..self.random.pick(&[0, 1, 1, 2, 3])).map(|_| self.byte()).collect()
    }

    /// The call that led from `before` to the life as it is, cut at each of these; the life goes on
    /// from one of them.
    fn cut(&mut self, life: &mut Life, before: Kept, entry: &Entry, pairs: Vec<(usize, Vec<usize>)>) {
        let slot = model_journal::next(before.model.area.part()).1 as usize * RECORD;
        let record = life.kept.library.area.part()[slot..slot + RECORD].to_vec();
        let after = life.kept.clone();
        let append = Append { image: &life.image, before: &before.model, after: &after.model, slot, record };
        let on = self.random.below(pairs.len() as u64) as usize;
        let mut broken = after.library.clone();
        for (at, (cut, fillings)) in pairs.iter().enumerate() {
            let model = self.cut_at(&mut broken, &append, entry, *cut, fillings).clone();
            if at == on {
                life.kept = Kept { library: broken.clone(), model: model.clone() };
            }
            if at == on || self.random.below(40) == 0 {
                self.go_on(Kept { library: broken.clone(), model });
            }
        }
    }

    /// A cut behind the first bytes of the record, the restart, cut itself behind so many bytes of
    /// its filling, as often as there are, and the restart that comes through; the state and the
    /// area then are those of before the call or of after it.
    fn cut_at<'a>(&mut self, broken: &mut Held, append: &Append<'a>, entry: &Entry, cut: usize, fillings: &[usize]) -> &'a Held {
        let left = |held: &mut Held, filled: usize| {
            let slot = &mut held.area.part_mut()[append.slot..append.slot + RECORD];
            slot.copy_from_slice(&append.record);
            slot[cut..].fill(ERASED);
            slot[RECORD - filled..].fill(ERASED);
        };
        let whole = cut == RECORD;
        let kept = if whole { append.after } else { append.before };
        let torn = 0 < cut && !whole;
        // a filling that begins anew finds the last bytes at 255 already
        let filled = if torn { fillings.iter().copied().max().unwrap_or(0) } else { 0 };
        let rubbish = self.random.next() as u32;
        broken.state.part_mut().fill(rubbish);
        broken.area.part_mut().copy_from_slice(kept.area.part());
        left(broken, filled);
        let answer = self.restart_library(append.image, broken);
        let made = (entry, "cut behind byte", cut, "filling cut behind byte", fillings);
        if answer != (0, 0) {
            self.differs(&made, &format!("restart answers {answer:?}"));
        }
        if let Some(difference) = broken.difference(kept) {
            self.differs(&made, &format!("restart, beside what was never lost: {difference}"));
        }
        let where_cut = if whole { 2 } else { usize::from(torn) };
        self.note(["cut before the first byte", "cut in the record", "cut behind the last byte"][where_cut], true);
        self.note("filling cut", torn && fillings.len() == 1);
        self.note("filling cut twice or more", torn && fillings.len() > 1);
        let letters = ["cut in Q", "cut in G", "cut in S", "cut in J", "cut in D", "cut in T", "cut in A"];
        self.note(letters[b"QGSJDTA".iter().position(|&letter| letter == entry.letter()).unwrap_or(0)], torn);
        kept
    }

    /// A few calls more, after a restart.
    fn go_on(&mut self, mut kept: Kept) {
        for _ in 0..3 {
            let (entry, room) = self.next_entry(kept.model.state.part());
            self.journaled(&mut kept, &entry, room);
        }
        self.note("a life that goes on", true);
    }

    /// What happens where restart does not come before the next call, and where an image does not
    /// go with its journal.
    fn premises(&mut self) {
        let mut image = vec![0; PLACES];
        by_model(&mut image, &Call::Open(Bench::classroom()), &mut [], &mut []);
        let reset = |time| Entry::Request { time, kind: 5 };
        let mut life = self.begin(image.clone());
        self.journaled(&mut life.kept, &reset(10), 0);
        let old = life.kept.clone();
        self.journaled(&mut life.kept, &reset(20), 0);
        for held in [&mut life.kept.library, &mut life.kept.model] {
            held.area.part_mut()[RECORD + 60..2 * RECORD].fill(ERASED);
            held.state = old.model.state.clone();
        }
        let next = self.journaled(&mut life.kept, &reset(30), 0);
        let first = self.restart(&image, &mut life.kept, "not damaged");
        let mut ever = first;
        for time in 31..100 {
            self.journaled(&mut life.kept, &reset(time), 0);
            ever = self.restart(&image, &mut life.kept, "not damaged");
        }
        if (next, first, ever) != ((0, 0), (7, 0), (7, 0)) {
            self.differs(&"an append behind a torn slot", &format!("{next:?}, {first:?}, {ever:?}"));
        }
        println!("cuts: without a restart after a cut, the next call answers 0 behind the torn slot, and restart answers 7 ever after");

        let mut kept = old;
        let later = kept.model.state.part().to_vec();
        let answer = self.restart(&later, &mut kept, "not damaged");
        let (once, twice) = (later[LENGTHS + RESET], kept.library.state.part()[LENGTHS + RESET]);
        if (answer, once, twice) != ((0, 0), 1, 2) {
            self.differs(&"a new image beside the old journal", &format!("{answer:?}, {once}, {twice}"));
        }
        println!("cuts: with a new image beside the old journal, restart answers 0 and counts a permit twice: {once} was given, {twice} are held");
    }
}
