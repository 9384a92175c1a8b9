//! A Rust program on the safe wrapper: document 01's printed example, refusals, the columns of
//! causes, why the gate says no and when to come back, an AT line, the counter file, a state that
//! is saved and brought back, a card that lacks its files, a timed reset, a state of version 1, a
//! journal and cuts of the power. It ends in failure on any surprise.
mod gate;

use gate::{Advice, Block, Column, Gate, Journaled, Refusal, Request, Rule, Service, Settings, Verdict};
use gate::{JOURNAL, RECORD, RTC10, STATE, STATE_1};
use std::process::ExitCode;

/// Notes each surprise and how many things were looked at.
struct Seen {
    looked: u32,
    surprises: u32,
}

impl Seen {
    fn same<T: PartialEq + std::fmt::Debug>(&mut self, what: &str, got: T, expected: T) {
        self.looked += 1;
        if got != expected {
            self.surprises += 1;
            eprintln!("use.rs: {what}: {got:?}, expected {expected:?}");
        }
    }
}

/// The printed example of document 01, with the wait of request 3.
fn example(seen: &mut Seen, gate: &mut Gate) {
    let done = Verdict::Done(0);
    seen.same("first request", gate.request(1000, Request::PdpActivation), done);
    let told = gate.rejected(1010, Service::Pdp, 26, false, Column::Sm);
    seen.same("rejected", told, Verdict::Advice(Advice::BackedOff(103)));
    seen.same("a second too early", gate.request(1112, Request::PdpActivation), Verdict::Blocked(Block::BackOff(1)));
    seen.same("in time", gate.request(1113, Request::PdpActivation), done);
    seen.same("granted", gate.granted(1114, Service::Pdp), done);
    seen.same("asked while up", gate.request(1115, Request::PdpActivation), Verdict::Refused(Refusal::Standing));
}

/// Refusals change nothing; a damaged state is refused, a saved one goes on.
fn refusals(seen: &mut Seen, gate: &mut Gate, settings: &Settings) {
    let before = *gate.state();
    let wrong = Settings { imsi: 1_000_000_000_000_000, ..*settings };
    seen.same("IMSI too large", gate.reopen(&wrong), Verdict::Refused(Refusal::Range));
    seen.same("no intervals", gate.reopen(&Settings { intervals: &[], ..*settings }), Verdict::Refused(Refusal::Range));
    seen.same("time went back", gate.tick(1113), Verdict::Refused(Refusal::Time));
    seen.same("nothing asked", gate.silent(1115, Service::Sms), Verdict::Refused(Refusal::Standing));
    seen.same("lower case", gate.command(b"at+nfm=1\r", &mut [0; 16]), Verdict::Refused(Refusal::Line));
    seen.same("small room", gate.command(b"AT+NFM=?\r", &mut [0; 15]), Verdict::Refused(Refusal::Buffer));
    seen.same("refusals change nothing", *gate.state() == before, true);

    let mut damaged = before;
    damaged[1] = 3;
    seen.same("damaged", Gate::restored(damaged).dropped(1115), Verdict::Refused(Refusal::Buffer));
    seen.same("saved", Gate::restored(before).dropped(1115), Verdict::Done(0));
}

/// Every other request and service, by turns.
fn others(seen: &mut Seen, gate: &mut Gate) {
    let done = Verdict::Done(0);
    seen.same("deactivation", gate.request(2000, Request::PdpDeactivation), done);
    for (request, service) in
        [(Request::GsmRegistration, Service::Gsm), (Request::GprsRegistration, Service::Gprs), (Request::Sms, Service::Sms)]
    {
        seen.same("asked", gate.request(2000, request), done);
        seen.same("granted", gate.granted(2000, service), done);
        seen.same("asked again", gate.request(2000, request), done);
        seen.same("silence", gate.silent(2000, service), Verdict::Advice(Advice::BackedOff(103)));
    }
    seen.same("reset", gate.request(2000, Request::ModuleReset), done);
    why(seen, gate);
    seen.same("third SMS of two", gate.request(5599, Request::Sms), Verdict::Blocked(Block::S1(1)));
    seen.same("in the next hour", gate.request(5600, Request::Sms), done);
}

/// An outcome names its column: each action that section 7.5 has, a row that holds both
/// registrations, a column of another service, and the numbers for the AT side.
fn columns(seen: &mut Seen, settings: &Settings) {
    let Ok(mut gate) = Gate::open(settings) else {
        return seen.same("opened for columns", false, true);
    };
    let advised = [
        (Request::GsmRegistration, Service::Gsm, Column::Mm, 11, Advice::NotSamePlmn),
        (Request::GsmRegistration, Service::Gsm, Column::Mm, 12, Advice::NotSameArea),
        (Request::GprsRegistration, Service::Gprs, Column::Gmm, 15, Advice::NotSameCell),
        (Request::PdpActivation, Service::Pdp, Column::Sm, 28, Advice::Reattach),
        (Request::PdpActivation, Service::Pdp, Column::Sm, 34, Advice::OtherNetwork),
        (Request::PdpActivation, Service::Pdp, Column::Sm, 36, Advice::MayReactivate),
        (Request::PdpActivation, Service::Pdp, Column::Sm, 39, Advice::MayReestablish),
        (Request::Sms, Service::Sms, Column::Rp, 17, Advice::As3gpp),
        (Request::Sms, Service::Sms, Column::Cp, 17, Advice::BackedOff(103)),
    ];
    for (request, service, column, cause, advice) in advised {
        seen.same("asked", gate.request(1000, request), Verdict::Done(0));
        let told = gate.rejected(1000, service, cause, true, column);
        seen.same("its row", told, Verdict::Advice(advice));
    }
    seen.same("GPRS asked", gate.request(1001, Request::GprsRegistration), Verdict::Done(0));
    let wrong = gate.rejected(1001, Service::Gprs, 6, false, Column::Mm);
    seen.same("GSM's column", wrong, Verdict::Refused(Refusal::Range));
    let told = gate.rejected(1001, Service::Gprs, 6, false, Column::Gmm);
    seen.same("GMM 6", told, Verdict::Advice(Advice::BackedOff(103)));
    let held = gate.request(1002, Request::GsmRegistration);
    seen.same("GSM is held too", held, Verdict::Blocked(Block::BackOff(102)));

    let errors = [Column::Mm, Column::Gmm, Column::Sm, Column::Rp, Column::Cp].map(|column| column.error(22));
    seen.same("error numbers of 22", errors, [Some(42), Some(42), None, Some(27), None]);
}

/// A sender that comes back when it was told to, and a second before: S1 = 2, with an SMS at 1000 and one at 1100.
fn come_back(seen: &mut Seen, settings: &Settings) {
    let Ok(mut gate) = Gate::open(settings) else {
        return seen.same("opened to come back", false, true);
    };
    for time in [1000, 1100] {
        seen.same("SMS", gate.request(time, Request::Sms), Verdict::Done(0));
        seen.same("granted", gate.granted(time, Service::Sms), Verdict::Done(0));
    }
    seen.same("what has to leave", gate.why(1500, Request::Sms).map(|why| why.leaves(Rule::S1)), Ok(Some(1000)));
    let told = gate.request(1500, Request::Sms);
    seen.same("third SMS", told, Verdict::Blocked(Block::S1(3100)));
    let Verdict::Blocked(block) = told else {
        return;
    };
    let free = 1500 + block.seconds();
    seen.same("a second too early", gate.request(free - 1, Request::Sms), Verdict::Blocked(Block::S1(1)));
    seen.same("as told", gate.request(free, Request::Sms), Verdict::Done(0));
    seen.same("granted", gate.granted(free, Service::Sms), Verdict::Done(0));
    seen.same("fourth SMS", gate.request(free, Request::Sms), Verdict::Blocked(Block::S1(100)));
}

/// Why the gate says no, asked before the request: after two SMS at 2000 and a silence, the back-off and S1 = 2, then S1 alone.
fn why(seen: &mut Seen, gate: &Gate) {
    let soon = gate.why(2001, Request::Sms);
    seen.same("rules", soon.map(|why| (why.count(), why.first())), Ok((2, Some(Rule::BackOff))));
    seen.same("S1 too", soon.map(|why| why.stands(Rule::S1)), Ok(true));
    seen.same("no time for the back-off", soon.map(|why| why.leaves(Rule::BackOff)), Ok(None));
    let late = gate.why(5599, Request::Sms);
    seen.same("rules, in an hour", late.map(|why| (why.count(), why.first())), Ok((1, Some(Rule::S1))));
    seen.same("the first SMS has to leave", late.map(|why| why.leaves(Rule::S1)), Ok(Some(2000)));
    seen.same("no rule", gate.why(5600, Request::Sms).map(|why| (why.count(), why.first())), Ok((0, None)));
    seen.same("PDP is not up", gate.why(5600, Request::PdpDeactivation), Err(Verdict::Refused(Refusal::Standing)));
}

/// An AT line and the counter file.
fn bytes(seen: &mut Seen, gate: &mut Gate) {
    let mut room = [b'.'; 16];
    seen.same("AT line", gate.command(b"AT+NFM=1,1\r", &mut room), Verdict::Done(4));
    seen.same("its answer", &room, b"OK\r\n............");
    seen.same("AT read", gate.command(b"AT+NFM=?\r", &mut room), Verdict::Done(15));
    seen.same("its answer", &room, b"+NFM: 1,1\r\nOK\r\n.");

    let mut file = [255; 32];
    seen.same("counters", gate.counters(&mut file), Verdict::Done(32));
    let mut expected = [0; 32];
    expected[2] = 7;
    seen.same("counter file", file, expected);
}

/// What a gate opened so has from its files: six parameters, three leak rates, six counters.
fn taken(settings: &Settings) -> Result<Vec<u32>, Verdict> {
    let places = |gate: Gate| [&gate.state()[20..26], &gate.state()[28..31], &gate.state()[44..50]].concat();
    Gate::open(settings).map(places)
}

/// A card that lacks its files, and the module's own in their place.
fn lacking(seen: &mut Seen, settings: &Settings) {
    let bare = Settings { parameters: None, leak_rates: None, counters: None, own_leak_rates: &[1, 2, 3, 0, 0, 0], ..*settings };
    let by_own = Ok(vec![20, 10, 60, 30, 60, 30, 1, 2, 3, 0, 0, 0, 0, 0, 0]);
    seen.same("no files", taken(&bare), by_own.clone());
    seen.same("empty files", taken(&Settings { parameters: Some(&[]), leak_rates: Some(&[]), counters: Some(&[]), ..bare }), by_own);
    let counters = Settings { counters: settings.counters, ..bare };
    seen.same("counters alone", taken(&counters), Ok(vec![20, 10, 60, 30, 60, 30, 1, 2, 3, 0, 0, 7, 0, 0, 0]));
    let all = Settings { own_leak_rates: bare.own_leak_rates, ..*settings };
    seen.same("all files", taken(&all), Ok(vec![0, 0, 0, 0, 0, 0, 0, 0, 0, 0, 0, 7, 0, 0, 0]));
    let refused = Err(Verdict::Refused(Refusal::Range));
    seen.same("no own parameters", taken(&Settings { own_parameters: &[], ..all }), refused.clone());
    seen.same("own leak rates too short", taken(&Settings { own_leak_rates: &[0; 5], ..all }), refused.clone());
    seen.same("parameters too short", taken(&Settings { parameters: Some(&[0; 31]), ..bare }), refused);
}

/// A registration rejected for good, twice: the first time the gate orders the reset, the second
/// time the application is before it. N1 = 6, T1 = 1.
fn timed(seen: &mut Seen, settings: &Settings) {
    let mut parameters = [0; 32];
    parameters[..2].copy_from_slice(&[6, 1]);
    let Ok(mut gate) = Gate::open(&Settings { parameters: Some(&parameters), ..*settings }) else {
        return seen.same("opened for a timed reset", false, true);
    };
    let done = Verdict::Done(0);
    seen.same("asked", gate.request(1000, Request::GprsRegistration), done);
    let told = gate.rejected(1001, Service::Gprs, 6, false, Column::Gmm);
    seen.same("GMM 6", told, Verdict::Advice(Advice::BackedOff(103)));
    seen.same("GSM is held too", gate.request(1002, Request::GsmRegistration), Verdict::Blocked(Block::BackOff(102)));
    let due = gate.state()[1330];
    seen.same("due", due, 1332);
    seen.same("a second early", gate.tick(due - 1), done);
    seen.same("ordered", gate.tick(due), Verdict::ResetOrdered);
    seen.same("once", gate.tick(due), done);
    seen.same("asked again", gate.request(1333, Request::GprsRegistration), done);
    let told = gate.rejected(1334, Service::Gprs, 6, false, Column::Gmm);
    seen.same("GMM 6 again", told, Verdict::Advice(Advice::BackedOff(152)));
    seen.same("due anew", gate.state()[1330], 1665);
    seen.same("the application resets", gate.request(1665, Request::ModuleReset), done);
    seen.same("nothing is due", gate.tick(5000), done);
    let mut file = [0; 32];
    seen.same("counters", gate.counters(&mut file), Verdict::Done(32));
    seen.same("one was ordered", file[1], 1);
    println!("use.rs: rejected at 1001 with GMM 6, reset ordered at {due}");
}

/// A state as version 1 had it is turned, and goes on where it was.
fn turned(seen: &mut Seen, gate: &Gate) {
    let mut old = [0; STATE_1];
    old.copy_from_slice(&gate.state()[..STATE_1]);
    seen.same("version 2", Gate::turned(&old).map(|_| ()), Err(Verdict::Refused(Refusal::Buffer)));
    old[1] = 1;
    let turned = Gate::turned(&old).map(|gate| *gate.state());
    seen.same("version 1", turned.map(|state| state == *gate.state()), Ok(true));
    let mut longer = [0; STATE];
    longer[..STATE_1].copy_from_slice(&old);
    seen.same("not turned", Gate::restored(longer).tick(9000), Verdict::Refused(Refusal::Buffer));
}

/// What survives a cut of the power: two pairs of an image and its journal, and a selector that
/// tells which of them rules.
struct Surviving {
    pairs: [([u32; STATE], Box<[u8; JOURNAL]>); 2],
    selector: usize,
}

impl Surviving {
    /// A new image and an erased journal replace the old pair in one step: the selector is written
    /// last.
    fn begin(&mut self, gate: &Gate) -> Journaled<'_> {
        let other = 1 - self.selector;
        let (image, area) = &mut self.pairs[other];
        *image = *gate.state();
        let begun = Journaled::begin(gate.clone(), area);
        self.selector = other;
        begun
    }

    /// What is made of the pair that rules, when the power is back.
    fn power_up(&mut self) -> Result<Journaled<'_>, Verdict> {
        let (image, area) = &mut self.pairs[self.selector];
        Journaled::restart(&*image, area)
    }

    fn area(&mut self) -> &mut [u8; JOURNAL] {
        &mut self.pairs[self.selector].1
    }
}

/// Every journaled call.
fn journaled(seen: &mut Seen, gate: &mut Journaled) {
    let done = Verdict::Done(0);
    seen.same("first slot", gate.next(), Some(0));
    seen.same("asked", gate.request(1000, Request::PdpActivation), done);
    let told = gate.rejected(1010, Service::Pdp, 26, false, Column::Sm);
    seen.same("rejected", told, Verdict::Advice(Advice::BackedOff(103)));
    seen.same("held", gate.request(1112, Request::PdpActivation), Verdict::Blocked(Block::BackOff(1)));
    seen.same("asked again", gate.request(1113, Request::PdpActivation), done);
    seen.same("granted", gate.granted(1114, Service::Pdp), done);
    seen.same("dropped", gate.dropped(1115), done);
    seen.same("SMS", gate.request(1116, Request::Sms), done);
    seen.same("silence", gate.silent(1117, Service::Sms), Verdict::Advice(Advice::BackedOff(103)));
    seen.same("tick", gate.tick(1118), done);
    let mut room = [b'.'; 16];
    seen.same("AT read", gate.command(b"AT+NFM=?\r", &mut room), Verdict::Done(15));
    seen.same("its answer", &room, b"+NFM: 1,0\r\nOK\r\n.");
    seen.same("refused", gate.tick(1117), Verdict::Refused(Refusal::Time));
    seen.same("ten records", gate.next(), Some(10));
    let letters: Vec<u8> = gate.area().chunks(RECORD).take(11).map(|slot| slot[0]).collect();
    seen.same("their letters", &letters[..], b"QJQQGDQSTA\xff");
    seen.same("counters", gate.counters(&mut [0; 32]), Verdict::Done(32));
}

/// A life with a journal: every call, cuts in the middle of one, a journal that is full, and one
/// that is damaged.
fn power(seen: &mut Seen, settings: &Settings) {
    let Ok(gate) = Gate::open(settings) else {
        return seen.same("opened for a journal", false, true);
    };
    let area = || Box::new([0; JOURNAL]);
    let mut surviving = Surviving { pairs: [([0; STATE], area()), ([0; STATE], area())], selector: 0 };
    let mut begun = surviving.begin(&gate);
    journaled(seen, &mut begun);
    let mut state = *begun.gate().state();

    for bytes in [0, 1, 60, 127, RECORD] {
        let Ok(mut gate) = surviving.power_up() else {
            return seen.same("power up", false, true);
        };
        seen.same("as it was", *gate.gate().state() == state, true);
        let slot = gate.next().unwrap_or(0);
        seen.same("reset", gate.request(1118, Request::ModuleReset), Verdict::Done(0));
        if bytes == RECORD {
            state = *gate.gate().state();
        }
        // the power is cut when so many bytes of the record are written
        surviving.area()[slot * RECORD + bytes..][..RECORD - bytes].fill(255);
    }

    let Ok(mut gate) = surviving.power_up() else {
        return seen.same("power up", false, true);
    };
    while gate.next().is_some() {
        seen.same("tick", gate.tick(2000), Verdict::Done(0));
    }
    state = *gate.gate().state();
    seen.same("full", gate.tick(2001), Verdict::Refused(Refusal::Full));
    seen.same("nothing has changed", *gate.gate().state() == state, true);
    let gate = gate.gate().clone();
    seen.same("the new pair has room", surviving.begin(&gate).tick(2001), Verdict::Done(0));
    let last = surviving.power_up().map(|gate| gate.gate().state()[3]);
    seen.same("after it", last, Ok(2001));

    surviving.area()[5] = 1;
    let refused = Err(Verdict::Refused(Refusal::Journal));
    seen.same("another answer", surviving.power_up().map(|_| ()), refused);
}

fn main() -> ExitCode {
    let mut seen = Seen { looked: 0, surprises: 0 };
    let mut counters = [0; 32];
    counters[2] = 7;
    let settings = Settings {
        time: 1000,
        imsi: 1_010_123_456_789,
        intervals: &[60, 120, 240],
        nfm: true,
        rpm: true,
        a1: 0,
        s1: 2,
        parameters: Some(&[0; 32]),
        leak_rates: Some(&[0; 6]),
        counters: Some(&counters),
        own_parameters: &RTC10,
        own_leak_rates: &[0; 6],
    };
    match Gate::open(&settings) {
        Ok(mut gate) => {
            example(&mut seen, &mut gate);
            refusals(&mut seen, &mut gate, &settings);
            others(&mut seen, &mut gate);
            columns(&mut seen, &settings);
            come_back(&mut seen, &settings);
            bytes(&mut seen, &mut gate);
            lacking(&mut seen, &settings);
            timed(&mut seen, &settings);
            turned(&mut seen, &gate);
            power(&mut seen, &settings);
        }
        Err(verdict) => {
            eprintln!("use.rs: not opened: {verdict:?}");
            return ExitCode::FAILURE;
        }
    }
    println!("use.rs: {} answers and rooms as document 01 has them, {} surprises", seen.looked - seen.surprises, seen.surprises);
    if seen.surprises == 0 {
        ExitCode::SUCCESS
    } else {
        ExitCode::FAILURE
    }
}
