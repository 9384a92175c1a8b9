//! The test cases of CLP.09 that need more than a trace shows, on the linked library: a card
//! without RPM files, (U)SIM-RPM04; RPM switched off; the counters. It ends in failure at the first
//! difference. docs/CONFORMANCE.md says what the cases show.
mod module;

use module::{at, same, Card, Checked, Module, TOO_MANY};
use std::process::ExitCode;

/// Where the places of the state begin that are read here.
const RPM: usize = 8;
const PARAMETERS: usize = 20;
const LEAK_RATES: usize = 28;
const COUNTERS: usize = 44;
const DUE: usize = 1330;

/// RTC10's values: N1 20; T1 60 minutes, in units of 6 (CLP.03, 8.3.2); F1 60, F2 30, F3 60, F4 30.
const RTC10: [u32; 6] = [20, 10, 60, 30, 60, 30];

/// An opening at 0 with this N1, T1 and F4, and with F1 to F3 as RTC10 and annex A have them. Both
/// have 30 for F4; where it is disabled, F1 and F3 can block, before which it else comes.
fn opening(n1: u32, t1: u32, f4: u32) -> String {
    format!("O 0 1010123456789 60 {n1},{t1},60,30,60,{f4} 0,0,0 0 0")
}

/// Each limit that RPM switches: F4 at the opening; what an application does each second (T is the
/// time); how often it can in the hour, with this N1; and the number of the answer after that.
fn limits(n1: u32) -> [(u32, &'static [&'static str], u32, u32); 5] {
    [
        (30, &["Q T 5"], n1, 11),                   // N1: reset
        (0, &["Q T 2", "S T 2"], 60, 13),           // F1: activation, ignored
        (30, &["Q T 2", "J T 2 33 0 2"], 30, 14),   // F2: rejected, permanent
        (0, &["Q T 2", "J T 2 26 0 2"], 60, 15),    // F3: rejected, temporary
        (30, &["Q T 2", "G T 2", "Q T 4"], 15, 16), // F4: a pair is two requests
    ]
}

/// A limit's answer at this time, while the permit at 0 is the one that has to leave the hour: its
/// number, and the seconds until then.
fn blocked(number: u32, time: u32) -> String {
    format!("{number} {}", 3600 - time)
}

/// Opens, has GSM registration rejected with MM 2 at 1, and makes the clock call each second for
/// twice T1. Gives back when it ordered a reset.
fn after_mm_2(module: &mut Module, n1: u32, t1: u32) -> Checked<Vec<u32>> {
    module.expect(&opening(n1, t1, 30), "0 0")?;
    module.expect_all(&[("Q 0 0", "0 0"), ("J 1 0 2 0 0", "20 103")])?;
    module.ordered(1, 1 + 2 * 360 * t1)
}

/// With the flag 1 each limit holds, and the clock call orders a reset so many seconds after a
/// permanent rejection, once. With 0 no limit does, and none is ordered.
fn by_the_flag(module: &mut Module, n1: u32, t1: u32, delay: u32) -> Checked {
    for rpm in [1, 0] {
        module.rpm = rpm;
        for (f4, lines, most, number) in limits(n1) {
            let expected = if rpm == 1 { (most, blocked(number, most)) } else { (TOO_MANY, "0 0".to_string()) };
            let given = module.repeated(&opening(n1, t1, f4), lines)?;
            same(&format!("{lines:?} with the flag {rpm}"), given, expected)?;
            same("the flag's place", module.state[RPM], rpm)?;
        }
        let expected = if rpm == 1 { vec![1 + delay] } else { vec![] };
        same(&format!("T1 with the flag {rpm}"), after_mm_2(module, n1, t1)?, expected)?;
    }
    Ok(())
}

/// TC-RPG1. 1: power on. 2: read the RPM parameters. Exit 1: they match RTC10.
/// No AT line reads them: the places of the state are read. And they rule: N1, F2 and F4, each
/// until its first permit leaves the hour, and T1.
fn rpg1(module: &mut Module) -> Checked {
    let [n1, t1, .., f4] = RTC10;
    module.expect(&opening(n1, t1, f4), "0 0")?;
    same("N1, T1, F1 to F4", &module.state[PARAMETERS..][..6], &RTC10)?;
    same("leak rates", &module.state[LEAK_RATES..][..3], &[0; 3])?;
    same("counters", &module.state[COUNTERS..][..6], &[0; 6])?;
    for (_, lines, most, number) in limits(n1).into_iter().filter(|limit| limit.0 == f4) {
        let given = module.repeated(&opening(n1, t1, f4), lines)?;
        same(&format!("{lines:?}"), given, (most, blocked(number, most)))?;
        module.expect(&at(3599, lines[0]), &blocked(number, 3599))?;
        module.expect(&at(3600, lines[0]), "0 0")?;
    }
    same("T1", after_mm_2(module, n1, t1)?, vec![1 + 3717])
}

/// TC-RPG3. 1: power on. 2: read the RPM flag. Exit 1: RPM is enabled or disabled by the default of
/// the flag that is saved on the device. RTC10 prints no value for it: both are tried.
fn rpg3(module: &mut Module) -> Checked {
    by_the_flag(module, RTC10[0], RTC10[1], 3717)
}

/// TC-RPG5a. 1-3: power on, registered. 4, 5: the flag becomes 0 over the air. 6: power cycle.
/// 7, 8: rejected with MM 2 and GMM 7. Exit 1: no registration in the next 2 x T1.
/// The update is a new opening. With the flag left at 1 a reset is ordered; with 0 none is, and no
/// due time is set.
fn rpg5a(module: &mut Module) -> Checked {
    let rpm01 = "1010123456789 60,120,240,480,960,1920,3840 6,1,60,30,60,30 0,0,0 0 0";
    for (rpm, due, expected) in [(1, 122 + 331, vec![122 + 331]), (0, 0, vec![])] {
        module.rpm = 1;
        module.expect(&format!("O 0 {rpm01}"), "0 0")?;
        module.expect_all(&[("Q 0 0", "0 0"), ("Q 0 1", "0 0")])?;
        module.expect_all(&[("G 1 0", "0 0"), ("G 1 1", "0 0")])?;
        module.rpm = rpm;
        module.expect(&format!("O 60 {rpm01}"), "0 0")?;
        module.expect_all(&[("Q 120 5", "0 0"), ("Q 121 0", "0 0"), ("Q 121 1", "0 0")])?;
        module.expect_all(&[("J 122 0 2 0 0", "20 103"), ("J 123 1 7 0 1", "20 103")])?;
        same(&format!("the due time with the flag {rpm}"), module.state[DUE], due)?;
        let given = module.ordered(123, 123 + 2 * 360)?;
        same(&format!("resets with the flag {rpm}"), given, expected)?;
    }
    Ok(())
}

/// TC-RPG5c. 1, 2: switched on, RPM is enabled. 3, 4: the flag becomes 0, and RPM is disabled.
/// Exit 1: enabled and disabled as the card's flag has it. The change is a new opening.
fn rpg5c(module: &mut Module) -> Checked {
    by_the_flag(module, 6, 1, 331)
}

/// TC-RTC4. 1: on for 2.5 hours. 2: read the counter file. Exit 1: C-BR-1 stays, C-R-1 is one less,
/// C-PDP-1 and C-PDP-2 are 0, C-PDP-3 and C-PDP-4 are two less.
/// By clock calls before, at and after each leak point, and by one after 2.5 hours of silence.
fn rtc4(module: &mut Module) -> Checked {
    let rpm06 = [10, 20, 0, 1, 100, 255];
    let one_hour = [10, 20, 0, 0, 99, 254];
    let two_hours = [10, 19, 0, 0, 98, 253];
    let read =
        [(3599, rpm06), (3600, one_hour), (7199, one_hour), (7200, two_hours), (9000, two_hours)];
    module.card = Card::With(rpm06);
    for calls in [&read[..], &read[4..]] {
        module.expect("O 0 1010123456789 60 6,1,60,30,60,30 0,2,1 0 0", "0 0")?;
        for &(time, counters) in calls {
            let line = format!("T {time}");
            same(&format!("'{line}'"), &module.line(&line)?[..], "0 0")?;
            same(&format!("'{line}', counters after it"), module.counters()?, counters)?;
        }
    }
    Ok(())
}

/// The trace of a test case, and its answers.
macro_rules! trace {
    ($name:literal) => {
        (
            include_str!(concat!("../", $name, ".trace")),
            include_str!(concat!("../", $name, ".answers")),
        )
    };
}

/// TC-RSM5. 1: power on, register. 2, 3: activate PDP, rejected with SM 26. 4: 2 x F3 more in an
/// hour, rejected too. Exit 1: at least 0.05 x F3 sent in 15 minutes. Exit 2: fewer than F3 in an
/// hour. Both are in the answers, with NFM on. Exit 3: C-PDP-3 rises with each one ignored. Under
/// RTC10's values it is F4 that ignores, and C-PDP-4 that rises.
fn rsm5(module: &mut Module) -> Checked {
    let mut rises = vec![[0; 6], [0, 0, 0, 0, 0, 90], [0, 0, 0, 0, 60, 0]];
    rises.extend([[0, 0, 0, 0, 1, 0]; 9]); // each cause of RSM5, with F3 = 1
    module.replay(trace!("TC-RSM5"), &rises)
}

/// TC-RSM8. 1: power on, register. 2, 3: activate and deactivate PDP, 2 x F4 times in an hour.
/// Exit 1: at most F4 activations sent in the hour, which is in the answers. Exit 2: C-PDP-4 rises
/// with each one ignored.
fn rsm8(module: &mut Module) -> Checked {
    module.replay(trace!("TC-RSM8"), &[[0, 0, 0, 0, 0, 46], [0, 0, 0, 0, 0, 2]])
}

/// C-BR-1 and C-R-1 rose so often, and no other counter.
const fn resets(c_br_1: u8, c_r_1: u8) -> [u8; 6] {
    [c_br_1, c_r_1, 0, 0, 0, 0]
}

/// TC-RPG4. Rejected with GMM 6, reset after T1, twice; then accepted. Step 10: C-R-1 by 2.
fn rpg4(module: &mut Module) -> Checked {
    module.replay(trace!("TC-RPG4"), &[resets(0, 2)])
}

/// TC-RPG5b. The only order is the one after a rejection that follows a reset, where T1 is not 0;
/// the only block is N1's, where T1 is 0.
fn rpg5b(module: &mut Module) -> Checked {
    let none = resets(0, 0);
    module.replay(trace!("TC-RPG5b"), &[none, resets(1, 0), none, none, resets(0, 1), none])
}

/// TC-RMM3a. Exit 2: C-BR-1 by N1, which is 6. Each opening has one more blocked reset, after
/// step 3.
fn rmm3a(module: &mut Module) -> Checked {
    module.replay(trace!("TC-RMM3a"), &[resets(7, 0), resets(7, 1)])
}

/// TC-RMM3b. RMM4's C-BR-1, of which the test case has no exit.
fn rmm3b(module: &mut Module) -> Checked {
    module.replay(trace!("TC-RMM3b"), &[resets(6, 0)])
}

/// TC-RMM3c. Exit 2: C-BR-1 and C-R-1 unchanged.
fn rmm3c(module: &mut Module) -> Checked {
    module.replay(trace!("TC-RMM3c"), &[resets(0, 0)])
}

/// TC-RMM6a. Exit 3: C-R-1 by 1. Each opening orders one reset, but the seven with other causes.
fn rmm6a(module: &mut Module) -> Checked {
    module.replay(trace!("TC-RMM6a"), &[[resets(0, 1); 7], [resets(0, 0); 7]].concat())
}

/// TC-RMM6b. Exit 3: C-R-1 by 1. Each opening orders one reset, but the four with other causes.
fn rmm6b(module: &mut Module) -> Checked {
    module.replay(trace!("TC-RMM6b"), &[&[resets(0, 1); 6][..], &[resets(0, 0); 4]].concat())
}

/// TC-RMM6c. Exit 3: C-R-1 by 1, and so with each of the four rejections.
fn rmm6c(module: &mut Module) -> Checked {
    module.replay(trace!("TC-RMM6c"), &[resets(0, 4)])
}

/// TC-RSM1. Exit 3: C-PDP-1 rises with each one ignored. Under the card's values it is F4 that
/// ignores, and C-PDP-4 that rises.
fn rsm1(module: &mut Module) -> Checked {
    module.replay(trace!("TC-RSM1"), &[[0; 6], [0, 0, 0, 0, 0, 90], [0, 0, 60, 0, 0, 0]])
}

/// TC-RSM3. Exit 4: C-PDP-2 rises with each one ignored.
fn rsm3(module: &mut Module) -> Checked {
    let mut rises = vec![[0; 6], [0, 0, 0, 60, 0, 0]];
    rises.extend([[0, 0, 0, 1, 0, 0]; 7]); // each cause of RSM3, with F2 = 1
    rises[6] = [0; 6]; // but 30, which counts as temporary
    module.replay(trace!("TC-RSM3"), &rises)
}

type Case = (&'static str, fn(&mut Module) -> Checked, &'static str);

const WITHOUT_FILES: [Case; 4] = [
    ("TC-RPG1", rpg1, "RTC10's parameters are in use: N1, F2 and F4 hold, T1 orders a reset"),
    ("TC-RPG3", rpg3, "with the flag 1 each of N1, T1 and F1 to F4 acts, with 0 none"),
    ("TC-RSM5", rsm5, "the answers of the trace; C-PDP-3 and C-PDP-4 count each block"),
    ("TC-RSM8", rsm8, "the answers of the trace; C-PDP-4 counts each block"),
];

const WITH_FILES: [Case; 13] = [
    ("TC-RPG4", rpg4, "the answers of the trace; C-R-1 counts both resets"),
    ("TC-RPG5a", rpg5a, "with the flag 0 no reset is ordered in 2 x T1, with 1 one is"),
    ("TC-RPG5b", rpg5b, "the answers of the trace; with T1 = 0 C-R-1 stays"),
    ("TC-RPG5c", rpg5c, "with the flag 1 each of N1, T1 and F1 to F4 acts, with 0 none"),
    ("TC-RMM3a", rmm3a, "the answers of the trace; C-BR-1 counts each block"),
    ("TC-RMM3b", rmm3b, "the answers of the trace; C-BR-1 counts each block"),
    ("TC-RMM3c", rmm3c, "the answers of the trace; C-BR-1 and C-R-1 stay"),
    ("TC-RMM6a", rmm6a, "the answers of the trace; C-R-1 counts each reset"),
    ("TC-RMM6b", rmm6b, "the answers of the trace; C-R-1 counts each reset"),
    ("TC-RMM6c", rmm6c, "the answers of the trace; C-R-1 counts each reset"),
    ("TC-RSM1", rsm1, "the answers of the trace; C-PDP-1 and C-PDP-4 count each block"),
    ("TC-RSM3", rsm3, "the answers of the trace; C-PDP-2 counts each block"),
    ("TC-RTC4", rtc4, "after 2.5 hours the counters are 10, 19, 0, 0, 98, 253"),
];

/// Runs each case with each card, on a module of its own.
fn all(cases: &[Case], cards: &[Card]) -> Checked {
    for (name, case, shown) in cases {
        for &card in cards {
            case(&mut Module::new(card)).map_err(|difference| format!("{name}: {difference}"))?;
        }
        println!("{name}: {shown}");
    }
    Ok(())
}

fn main() -> ExitCode {
    // an absent file may have no pointer, or that of an empty slice; the bytes beyond it would be
    // refused
    let beyond = [255; 32];
    let without = [std::ptr::null(), beyond[..0].as_ptr()].map(Card::Without);
    // annex A leaves the counters open: from 254 each can rise once more
    let with = [[0; 6], [254; 6]].map(Card::With);
    if let Err(difference) = all(&WITHOUT_FILES, &without).and_then(|()| all(&WITH_FILES, &with)) {
        eprintln!("{difference}");
        return ExitCode::FAILURE;
    }
    let (without, with) = (WITHOUT_FILES.len(), WITH_FILES.len());
    println!("conformance: {without} cases without card files, {with} with them, all as expected");
    ExitCode::SUCCESS
}
