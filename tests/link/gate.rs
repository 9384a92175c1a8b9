//! A safe wrapper in Rust over the C interface: a `Gate` owns its state, each call is a method, and each answer is a `Verdict`. It needs
//! only `core`, allocates nothing and never panics. include/dialchisel.h says what each call does.

/// The C interface, as include/dialchisel.h has it.
pub mod c {
    #[repr(C)]
    #[derive(Clone, Copy, Debug, PartialEq, Eq)]
    pub struct Answer {
        pub number: u32,
        pub second: u32,
    }

    extern "C" {
        #[allow(clippy::too_many_arguments)]
        pub fn dialchisel_open(
            state: *mut u32,
            state_count: usize,
            time: u32,
            imsi: u64,
            intervals: *const u32,
            intervals_count: usize,
            nfm: u32,
            rpm: u32,
            a1: u32,
            s1: u32,
            params: *const u8,
            params_count: usize,
            leaks: *const u8,
            leaks_count: usize,
            counters: *const u8,
            counters_count: usize,
            own_params: *const u8,
            own_params_count: usize,
            own_leaks: *const u8,
            own_leaks_count: usize,
        ) -> Answer;
        pub fn dialchisel_request(state: *mut u32, state_count: usize, time: u32, kind: u32) -> Answer;
        pub fn dialchisel_why(state: *const u32, state_count: usize, time: u32, kind: u32, times: *mut u32, times_count: usize) -> Answer;
        pub fn dialchisel_granted(state: *mut u32, state_count: usize, time: u32, service: u32) -> Answer;
        pub fn dialchisel_rejected(
            state: *mut u32,
            state_count: usize,
            time: u32,
            service: u32,
            cause: u32,
            second: u32,
            column: u32,
        ) -> Answer;
        pub fn dialchisel_error(column: u32, cause: u32) -> Answer;
        pub fn dialchisel_silent(state: *mut u32, state_count: usize, time: u32, service: u32) -> Answer;
        pub fn dialchisel_dropped(state: *mut u32, state_count: usize, time: u32) -> Answer;
        pub fn dialchisel_tick(state: *mut u32, state_count: usize, time: u32) -> Answer;
        pub fn dialchisel_command(
            state: *mut u32,
            state_count: usize,
            line: *const u8,
            line_count: usize,
            room: *mut u8,
            room_count: usize,
        ) -> Answer;
        pub fn dialchisel_counters(state: *mut u32, state_count: usize, room: *mut u8, room_count: usize) -> Answer;
        pub fn dialchisel_turn_1(old: *const u32, old_count: usize, state: *mut u32, state_count: usize) -> Answer;
        pub fn dialchisel_erase(area: *mut u8, area_count: usize) -> Answer;
        pub fn dialchisel_journal_next(area: *const u8, area_count: usize) -> Answer;
        pub fn dialchisel_restart(
            image: *const u32,
            image_count: usize,
            area: *mut u8,
            area_count: usize,
            state: *mut u32,
            state_count: usize,
        ) -> Answer;
        pub fn dialchisel_journal_request(
            state: *mut u32,
            state_count: usize,
            area: *mut u8,
            area_count: usize,
            time: u32,
            kind: u32,
        ) -> Answer;
        pub fn dialchisel_journal_granted(
            state: *mut u32,
            state_count: usize,
            area: *mut u8,
            area_count: usize,
            time: u32,
            service: u32,
        ) -> Answer;
        #[allow(clippy::too_many_arguments)]
        pub fn dialchisel_journal_rejected(
            state: *mut u32,
            state_count: usize,
            area: *mut u8,
            area_count: usize,
            time: u32,
            service: u32,
            cause: u32,
            second: u32,
            column: u32,
        ) -> Answer;
        pub fn dialchisel_journal_silent(
            state: *mut u32,
            state_count: usize,
            area: *mut u8,
            area_count: usize,
            time: u32,
            service: u32,
        ) -> Answer;
        pub fn dialchisel_journal_dropped(state: *mut u32, state_count: usize, area: *mut u8, area_count: usize, time: u32) -> Answer;
        pub fn dialchisel_journal_tick(state: *mut u32, state_count: usize, area: *mut u8, area_count: usize, time: u32) -> Answer;
        #[allow(clippy::too_many_arguments)]
        pub fn dialchisel_journal_command(
            state: *mut u32,
            state_count: usize,
            area: *mut u8,
            area_count: usize,
            line: *const u8,
            line_count: usize,
            room: *mut u8,
            room_count: usize,
        ) -> Answer;
    }
}

/// How many numbers a state has.
pub const STATE: usize = 1331;

/// How many numbers a state of version 1 had.
pub const STATE_1: usize = 1330;

/// How many bytes a journal has, and each of its records.
pub const JOURNAL: usize = 65_536;
pub const RECORD: usize = 128;

/// How many rules can stand against a request.
pub const RULES: usize = 8;

/// A parameter file of the module's own with RTC10's values: N1 20; T1 60 minutes, in units of 6; F1 60, F2 30, F3 60, F4 30.
pub const RTC10: [u8; 32] = [20, 10, 60, 30, 60, 30, 0, 0, 0, 0, 0, 0, 0, 0, 0, 0, 0, 0, 0, 0, 0, 0, 0, 0, 0, 0, 0, 0, 0, 0, 0, 0];

/// What a request asks for.
#[derive(Clone, Copy, Debug, PartialEq, Eq)]
pub enum Request {
    GsmRegistration = 0,
    GprsRegistration = 1,
    PdpActivation = 2,
    Sms = 3,
    PdpDeactivation = 4,
    ModuleReset = 5,
}

/// Whom an outcome comes from.
#[derive(Clone, Copy, Debug, PartialEq, Eq)]
pub enum Service {
    Gsm = 0,
    Gprs = 1,
    Pdp = 2,
    Sms = 3,
}

/// The column of section 7.5 of CLP.03 that a cause stands in. Each belongs to one service.
#[derive(Clone, Copy, Debug, PartialEq, Eq)]
pub enum Column {
    /// `Service::Gsm`.
    Mm = 0,
    /// `Service::Gprs`.
    Gmm = 1,
    /// `Service::Pdp`.
    Sm = 2,
    /// `Service::Sms`, as is the next.
    Rp = 3,
    Cp = 4,
}

impl Column {
    /// The number for the AT side that section 7.5 has beside a cause of this column, if it has
    /// one: of +CME ERROR for MM, GMM and SM, of +CMS ERROR for RP and CP.
    pub fn error(self, cause: u8) -> Option<u32> {
        // SAFETY: no pointer is lent. A column and a byte are in range, so the first number is 0.
        let answer = unsafe { c::dialchisel_error(self as u32, u32::from(cause)) };
        (answer.second != 0).then_some(answer.second)
    }
}

/// What a call gave back.
#[derive(Clone, Copy, Debug, PartialEq, Eq)]
pub enum Verdict {
    /// Done or permitted; the bytes written by `command` and `counters`, else 0.
    Done(u32),
    /// Nothing changed.
    Refused(Refusal),
    /// The request must not be sent.
    Blocked(Block),
    /// The outcome is taken; what to do next.
    Advice(Advice),
    /// From `tick` alone: reset the module now. The reset counts already, so do not request it.
    ResetOrdered,
    /// A number that this wrapper does not know. Treat it as "no".
    Unknown { number: u32, second: u32 },
}

/// Why nothing was done.
#[derive(Clone, Copy, Debug, PartialEq, Eq)]
pub enum Refusal {
    /// The state is damaged, or a room has the wrong size.
    Buffer,
    /// An argument is out of range, a column is not the service's, or a file is bad.
    Range,
    /// The time is below the last one or above 4,000,000,000.
    Time,
    /// The service does not stand where the call needs it.
    Standing,
    /// The AT line has none of the four forms.
    Line,
    /// The journal has no slot left.
    Full,
    /// From `restart` alone: the image or the journal is bad, or they do not belong together.
    Journal,
}

/// The rule that forbids a request. Each limit has the seconds, 1 to 3,600, until it by itself would permit. To wait so long is enough for
/// it, unless something is permitted in between, and a second less is not; another rule may still block, so ask again then.
#[derive(Clone, Copy, Debug, PartialEq, Eq)]
pub enum Block {
    /// A back-off runs, with so many seconds left.
    BackOff(u32),
    N1(u32),
    F1(u32),
    F2(u32),
    F3(u32),
    F4(u32),
    A1(u32),
    S1(u32),
}

impl Block {
    /// In how many seconds to ask again.
    pub fn seconds(self) -> u32 {
        let (Block::BackOff(seconds)
        | Block::N1(seconds)
        | Block::F1(seconds)
        | Block::F2(seconds)
        | Block::F3(seconds)
        | Block::F4(seconds)
        | Block::A1(seconds)
        | Block::S1(seconds)) = self;
        seconds
    }
}

/// A rule that can stand against a request, by its bit.
#[derive(Clone, Copy, Debug, PartialEq, Eq)]
pub enum Rule {
    BackOff = 0,
    N1 = 1,
    F1 = 2,
    F2 = 3,
    F3 = 4,
    F4 = 5,
    A1 = 6,
    S1 = 7,
}

/// The rules that stand against a request.
#[derive(Clone, Copy, Debug, PartialEq, Eq)]
pub struct Reasons {
    bits: u32,
    times: [u32; RULES],
}

impl Reasons {
    /// How many rules stand.
    pub fn count(&self) -> u32 {
        self.bits.count_ones()
    }

    /// The first of them, which is the one that `request` would tell; `None` where it would permit.
    pub fn first(&self) -> Option<Rule> {
        let order = [Rule::BackOff, Rule::N1, Rule::F1, Rule::F2, Rule::F3, Rule::F4, Rule::A1, Rule::S1];
        order.into_iter().find(|&rule| self.stands(rule))
    }

    /// Would this rule, taken alone, block the request?
    pub fn stands(&self, rule: Rule) -> bool {
        self.bits >> rule as u32 & 1 == 1
    }

    /// The permit time that has to leave the hour before this limit permits; `None` for the back-off and for a rule that does not stand. It
    /// does so 3,600 s later: where this limit is the first, its `Block` has the seconds until then.
    pub fn leaves(&self, rule: Rule) -> Option<u32> {
        if rule == Rule::BackOff || !self.stands(rule) {
            return None;
        }
        self.times.get(rule as usize).copied()
    }
}

/// What to do after an outcome.
#[derive(Clone, Copy, Debug, PartialEq, Eq)]
pub enum Advice {
    /// A back-off of so many seconds began.
    BackedOff(u32),
    Reattach,
    OtherNetwork,
    As3gpp,
    /// Not again on the same PLMN unless prompted from outside, as in the two below.
    NotSamePlmn,
    /// In the same location area.
    NotSameArea,
    NotSameCell,
    /// PDP may be activated again at once.
    MayReactivate,
    /// PDP may be established again at once.
    MayReestablish,
}

impl From<c::Answer> for Verdict {
    fn from(answer: c::Answer) -> Verdict {
        let c::Answer { number, second } = answer;
        match number {
            0 => Verdict::Done(second),
            1 => Verdict::Refused(Refusal::Buffer),
            2 => Verdict::Refused(Refusal::Range),
            3 => Verdict::Refused(Refusal::Time),
            4 => Verdict::Refused(Refusal::Standing),
            5 => Verdict::Refused(Refusal::Line),
            6 => Verdict::Refused(Refusal::Full),
            7 => Verdict::Refused(Refusal::Journal),
            10 => Verdict::Blocked(Block::BackOff(second)),
            11 => Verdict::Blocked(Block::N1(second)),
            12 => Verdict::ResetOrdered,
            13 => Verdict::Blocked(Block::F1(second)),
            14 => Verdict::Blocked(Block::F2(second)),
            15 => Verdict::Blocked(Block::F3(second)),
            16 => Verdict::Blocked(Block::F4(second)),
            17 => Verdict::Blocked(Block::A1(second)),
            18 => Verdict::Blocked(Block::S1(second)),
            20 => Verdict::Advice(Advice::BackedOff(second)),
            21 => Verdict::Advice(Advice::Reattach),
            22 => Verdict::Advice(Advice::OtherNetwork),
            23 => Verdict::Advice(Advice::As3gpp),
            24 => Verdict::Advice(Advice::NotSamePlmn),
            25 => Verdict::Advice(Advice::NotSameArea),
            26 => Verdict::Advice(Advice::NotSameCell),
            27 => Verdict::Advice(Advice::MayReactivate),
            28 => Verdict::Advice(Advice::MayReestablish),
            _ => Verdict::Unknown { number, second },
        }
    }
}

/// What a gate is opened with. A file of the card is `None` where the card lacks it, and an empty slice means the same: then the module's
/// own rules in its place, and counters begin at 0. The module's own two are always needed; there an empty slice is refused.
#[derive(Clone, Copy, Debug)]
pub struct Settings<'a> {
    pub time: u32,
    pub imsi: u64,
    pub intervals: &'a [u32],
    pub nfm: bool,
    pub rpm: bool,
    pub a1: u8,
    pub s1: u8,
    /// 32 bytes, as they were read from the card.
    pub parameters: Option<&'a [u8]>,
    /// 6 bytes.
    pub leak_rates: Option<&'a [u8]>,
    /// 32 bytes.
    pub counters: Option<&'a [u8]>,
    /// 32 bytes, `RTC10` for example.
    pub own_parameters: &'a [u8],
    /// 6 bytes.
    pub own_leak_rates: &'a [u8],
}

/// A gate with its state. Each call borrows it whole, so no other call can run on it at the same time.
#[derive(Clone)]
pub struct Gate {
    state: [u32; STATE],
}

impl Gate {
    /// A gate opened with these settings, or why it was refused.
    pub fn open(settings: &Settings) -> Result<Gate, Verdict> {
        let mut gate = Gate { state: [0; STATE] };
        match gate.reopen(settings) {
            Verdict::Done(_) => Ok(gate),
            other => Err(other),
        }
    }

    /// A gate on a state that was saved. A damaged one is refused by every call but `reopen`.
    pub fn restored(state: [u32; STATE]) -> Gate {
        Gate { state }
    }

    /// The state, to be read or saved.
    pub fn state(&self) -> &[u32; STATE] {
        &self.state
    }

    /// Opens this gate anew; a refusal leaves it as it was.
    pub fn reopen(&mut self, settings: &Settings) -> Verdict {
        let Settings { time, imsi, intervals, nfm, rpm, a1, s1, own_parameters, own_leak_rates, .. } = *settings;
        let [parameters, leak_rates, counters] =
            [settings.parameters, settings.leak_rates, settings.counters].map(Option::unwrap_or_default);
        // SAFETY (here and below): each pointer and count come from one slice, which is borrowed until the call returns, for writing where
        // the pointer is not const.
        unsafe {
            c::dialchisel_open(
                self.state.as_mut_ptr(),
                STATE,
                time,
                imsi,
                intervals.as_ptr(),
                intervals.len(),
                u32::from(nfm),
                u32::from(rpm),
                u32::from(a1),
                u32::from(s1),
                parameters.as_ptr(),
                parameters.len(),
                leak_rates.as_ptr(),
                leak_rates.len(),
                counters.as_ptr(),
                counters.len(),
                own_parameters.as_ptr(),
                own_parameters.len(),
                own_leak_rates.as_ptr(),
                own_leak_rates.len(),
            )
        }
        .into()
    }

    pub fn request(&mut self, time: u32, request: Request) -> Verdict {
        unsafe { c::dialchisel_request(self.state.as_mut_ptr(), STATE, time, request as u32) }.into()
    }

    /// Why a request would be blocked now, or why it would be refused. The gate stays as it is.
    pub fn why(&self, time: u32, request: Request) -> Result<Reasons, Verdict> {
        let mut times = [0; RULES];
        let answer = unsafe { c::dialchisel_why(self.state.as_ptr(), STATE, time, request as u32, times.as_mut_ptr(), RULES) };
        match answer.number {
            0 | 10..=18 => Ok(Reasons { bits: answer.second, times }),
            _ => Err(answer.into()),
        }
    }

    pub fn granted(&mut self, time: u32, service: Service) -> Verdict {
        unsafe { c::dialchisel_granted(self.state.as_mut_ptr(), STATE, time, service as u32) }.into()
    }

    pub fn rejected(&mut self, time: u32, service: Service, cause: u8, second_network: bool, column: Column) -> Verdict {
        let (service, cause, second) = (service as u32, u32::from(cause), u32::from(second_network));
        unsafe { c::dialchisel_rejected(self.state.as_mut_ptr(), STATE, time, service, cause, second, column as u32) }.into()
    }

    pub fn silent(&mut self, time: u32, service: Service) -> Verdict {
        unsafe { c::dialchisel_silent(self.state.as_mut_ptr(), STATE, time, service as u32) }.into()
    }

    pub fn dropped(&mut self, time: u32) -> Verdict {
        unsafe { c::dialchisel_dropped(self.state.as_mut_ptr(), STATE, time) }.into()
    }

    /// Tells the time. A timed reset is ordered here alone: call it each minute or more often.
    pub fn tick(&mut self, time: u32) -> Verdict {
        unsafe { c::dialchisel_tick(self.state.as_mut_ptr(), STATE, time) }.into()
    }

    /// Obeys an AT line that ends in its CR; the answer's bytes go to the room.
    pub fn command(&mut self, line: &[u8], room: &mut [u8]) -> Verdict {
        let (out, count) = (room.as_mut_ptr(), room.len());
        unsafe { c::dialchisel_command(self.state.as_mut_ptr(), STATE, line.as_ptr(), line.len(), out, count) }.into()
    }

    /// Writes the counter file for the card.
    pub fn counters(&mut self, file: &mut [u8; 32]) -> Verdict {
        unsafe { c::dialchisel_counters(self.state.as_mut_ptr(), STATE, file.as_mut_ptr(), file.len()) }.into()
    }

    /// A gate on a state of version 1 that was saved, with no reset due; or why it was refused.
    pub fn turned(old: &[u32; STATE_1]) -> Result<Gate, Verdict> {
        let mut gate = Gate { state: [0; STATE] };
        match unsafe { c::dialchisel_turn_1(old.as_ptr(), STATE_1, gate.state.as_mut_ptr(), STATE) }.into() {
            Verdict::Done(_) => Ok(gate),
            other => Err(other),
        }
    }
}

/// A gate whose accepted calls go into a journal first. The area is what survives a cut of the
/// power, with the image beside it: both belong to the caller, and an image goes with the journal
/// that was begun with it.
pub struct Journaled<'a> {
    gate: Gate,
    area: &'a mut [u8; JOURNAL],
}

impl<'a> Journaled<'a> {
    /// Begins a journal in this area, which is erased. The image that goes with it is the gate's
    /// state as it is now.
    pub fn begin(gate: Gate, area: &'a mut [u8; JOURNAL]) -> Journaled<'a> {
        // SAFETY (here and below): as in `Gate`; the area is borrowed for writing all the time. The
        // area has its length, so the first number is 0.
        unsafe { c::dialchisel_erase(area.as_mut_ptr(), JOURNAL) };
        Journaled { gate, area }
    }

    /// The gate as its image and the journal begun with it tell, or why it was refused. After each
    /// power-up, before anything else.
    pub fn restart(image: &[u32], area: &'a mut [u8; JOURNAL]) -> Result<Journaled<'a>, Verdict> {
        let mut gate = Gate { state: [0; STATE] };
        let state = gate.state.as_mut_ptr();
        match unsafe { c::dialchisel_restart(image.as_ptr(), image.len(), area.as_mut_ptr(), JOURNAL, state, STATE) }.into() {
            Verdict::Done(_) => Ok(Journaled { gate, area }),
            other => Err(other),
        }
    }

    /// The gate, to be asked why, read or saved.
    pub fn gate(&self) -> &Gate {
        &self.gate
    }

    /// The journal, to be saved or flushed.
    pub fn area(&self) -> &[u8; JOURNAL] {
        self.area
    }

    /// The slot of `RECORD` bytes that the next accepted call writes; `None` where the journal is
    /// full.
    pub fn next(&self) -> Option<usize> {
        let answer = unsafe { c::dialchisel_journal_next(self.area.as_ptr(), JOURNAL) };
        (answer.number == 0).then_some(answer.second as usize)
    }

    pub fn request(&mut self, time: u32, request: Request) -> Verdict {
        let (state, area) = self.lent();
        unsafe { c::dialchisel_journal_request(state, STATE, area, JOURNAL, time, request as u32) }.into()
    }

    pub fn granted(&mut self, time: u32, service: Service) -> Verdict {
        let (state, area) = self.lent();
        unsafe { c::dialchisel_journal_granted(state, STATE, area, JOURNAL, time, service as u32) }.into()
    }

    pub fn rejected(&mut self, time: u32, service: Service, cause: u8, second_network: bool, column: Column) -> Verdict {
        let (service, cause, second, column) = (service as u32, u32::from(cause), u32::from(second_network), column as u32);
        let (state, area) = self.lent();
        unsafe { c::dialchisel_journal_rejected(state, STATE, area, JOURNAL, time, service, cause, second, column) }.into()
    }

    pub fn silent(&mut self, time: u32, service: Service) -> Verdict {
        let (state, area) = self.lent();
        unsafe { c::dialchisel_journal_silent(state, STATE, area, JOURNAL, time, service as u32) }.into()
    }

    pub fn dropped(&mut self, time: u32) -> Verdict {
        let (state, area) = self.lent();
        unsafe { c::dialchisel_journal_dropped(state, STATE, area, JOURNAL, time) }.into()
    }

    /// Tells the time, as `Gate::tick` does.
    pub fn tick(&mut self, time: u32) -> Verdict {
        let (state, area) = self.lent();
        unsafe { c::dialchisel_journal_tick(state, STATE, area, JOURNAL, time) }.into()
    }

    /// Obeys an AT line that ends in its CR; the answer's bytes go to the room.
    pub fn command(&mut self, line: &[u8], room: &mut [u8]) -> Verdict {
        let (out, count) = (room.as_mut_ptr(), room.len());
        let (state, area) = self.lent();
        unsafe { c::dialchisel_journal_command(state, STATE, area, JOURNAL, line.as_ptr(), line.len(), out, count) }.into()
    }

    /// Writes the counter file for the card. It changes nothing, so no journal has it.
    pub fn counters(&mut self, file: &mut [u8; 32]) -> Verdict {
        self.gate.counters(file)
    }

    fn lent(&mut self) -> (*mut u32, *mut u8) {
        (self.gate.state.as_mut_ptr(), self.area.as_mut_ptr())
    }
}
