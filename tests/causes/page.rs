//! page PAGE: holds every row of the five tables of docs/CAUSES.md against the linked library, and
//! every cause of 0 to 255 that they do not list. It ends in failure at the first difference.
use std::{collections::BTreeMap, env, fs, process::ExitCode};

const STATE: usize = 1331;

#[repr(C)]
#[derive(Clone, Copy, PartialEq, Debug)]
struct Answer {
    number: u32,
    second: u32,
}

#[rustfmt::skip]
extern "C" {
    fn dialchisel_open(state: *mut u32, count: usize, time: u32, imsi: u64, intervals: *const u32, intervals_count: usize,
        nfm: u32, rpm: u32, a1: u32, s1: u32, params: *const u8, params_count: usize, leaks: *const u8, leaks_count: usize,
        counters: *const u8, counters_count: usize, own_params: *const u8, own_params_count: usize,
        own_leaks: *const u8, own_leaks_count: usize) -> Answer;
    fn dialchisel_request(state: *mut u32, count: usize, time: u32, kind: u32) -> Answer;
    fn dialchisel_rejected(state: *mut u32, count: usize, time: u32, service: u32, cause: u32, second: u32, column: u32) -> Answer;
    fn dialchisel_error(column: u32, cause: u32) -> Answer;
}

/// What the page says of a cause: the answer without a second network and with one, which services
/// back off on 20, and the number for the AT side.
#[derive(Clone, Copy)]
struct Row {
    answers: [u32; 2],
    backs_off: &'static [u32],
    error: u32,
}

/// A column of causes: whose it is, and its rows; the one without a cause is for all others.
struct Column {
    service: u32,
    rows: BTreeMap<Option<u32>, Row>,
}

fn row(line: &str) -> Option<(Option<u32>, Row)> {
    let cells: Vec<&str> = line.split('|').map(str::trim).collect();
    let &["", cause, _, _, answer, who, error, _, ""] = &cells[..] else { return None };
    let cause = if cause == "other" { None } else { Some(cause.parse().ok()?) };
    let (without, with) = answer.split_once(", ").unwrap_or((answer, answer));
    let names: [(&str, &[u32]); 6] = [("", &[]), ("GSM", &[0]), ("GPRS", &[1]), ("both", &[0, 1]), ("PDP", &[2]), ("SMS", &[3])];
    let backs_off = names.into_iter().find(|name| name.0 == who)?.1;
    let error = if error.is_empty() { 0 } else { error.parse().ok()? };
    Some((cause, Row { answers: [without.parse().ok()?, with.parse().ok()?], backs_off, error }))
}

/// Reads the table after a heading "### Column k: NAME, service s"; none where a cause stands twice.
fn column(k: usize, part: &str) -> Option<Column> {
    let (heading, text) = part.split_once('\n')?;
    let service = heading.strip_prefix(&format!("{k}: "))?.split_once(", service ")?.1.parse().ok()?;
    let lines = text.lines().skip_while(|line| !line.starts_with("|-")).skip(1);
    let read: Vec<_> = lines.take_while(|line| line.starts_with('|')).map(row).collect::<Option<_>>()?;
    let rows: BTreeMap<_, _> = read.iter().copied().collect();
    (rows.len() == read.len() && rows.contains_key(&None)).then_some(Column { service, rows })
}

/// Opens a gate at 0, asks for a service, and has it rejected at 1. Gives back what is answered, and
/// what is then answered to a request for each service.
fn rejected(nfm: u32, service: u32, cause: u32, second: u32, column: u32) -> (Answer, [Answer; 4]) {
    let (mut state, file, intervals) = ([u32::MAX; STATE], [0; 32], [60]);
    let (at, file, intervals) = (state.as_mut_ptr(), file.as_ptr(), intervals.as_ptr());
    // SAFETY: each pointer and count are of one array, which nothing else touches.
    unsafe {
        let imsi = 1_010_123_456_789;
        dialchisel_open(at, STATE, 0, imsi, intervals, 1, nfm, 1, 0, 0, file, 32, file, 6, file, 32, file, 32, file, 6);
        dialchisel_request(at, STATE, 0, service);
        let answer = dialchisel_rejected(at, STATE, 1, service, cause, second, column);
        (answer, [0, 1, 2, 3].map(|kind| dialchisel_request(at, STATE, 1, kind)))
    }
}

fn check(page: &str) -> Result<String, String> {
    let columns: Option<Vec<Column>> = page.split("\n### Column ").skip(1).enumerate().map(|(k, part)| column(k, part)).collect();
    let columns = columns.filter(|columns| columns.len() == 5).ok_or("the page has not the five tables, or a cause stands twice")?;
    let (mut listed, mut unlisted, mut errors, mut answers) = (0, 0, 0, 0);
    // column 5 and cause 256 are out of range
    for (k, cause) in (0..=5).flat_map(|k| (0..=256).map(move |cause| (k, cause))) {
        let column = columns.get(k as usize).filter(|_| cause <= 255);
        let row = column.map(|column| column.rows.get(&Some(cause)).unwrap_or(&column.rows[&None]));
        match column {
            Some(column) if column.rows.contains_key(&Some(cause)) => listed += 1,
            Some(_) => unlisted += 1,
            None => {}
        }
        let expected = row.map_or(Answer { number: 2, second: 0 }, |row| Answer { number: 0, second: row.error });
        let given = unsafe { dialchisel_error(k, cause) };
        if given != expected {
            return Err(format!("column {k}, cause {cause}: the number is {given:?}, and the page has {expected:?}"));
        }
        errors += u32::from(expected.second != 0);
        for (service, second, nfm) in (0..16).map(|i| (i % 4, i / 4 % 2, i / 8)) {
            // the column of another service is refused, and the service stays asked
            let row = row.filter(|_| column.is_some_and(|column| column.service == service));
            let on_page = row.map_or(2, |row| row.answers[second as usize]);
            let number = if on_page == 20 && nfm == 0 { 23 } else { on_page };
            let held = row.filter(|_| number == 20).map_or(&[][..], |row| row.backs_off);
            let next = [0, 1, 2, 3].map(|s| match s {
                s if held.contains(&s) => 10,
                s if s == service && row.is_none() => 4,
                _ => 0,
            });
            let (answer, after) = rejected(nfm, service, cause, second, k);
            let wait = if number == 20 { after[service as usize].second } else { 0 };
            if answer != (Answer { number, second: wait }) || after.map(|answer| answer.number) != next || number == 20 && wait < 60 {
                let call = format!("column {k}, cause {cause}, service {service}, second network {second}, NFM {nfm}");
                return Err(format!("{call}: {answer:?}, then {after:?}, and the page has {number}, then {next:?}"));
            }
            answers += 1;
        }
    }
    Ok(format!("{listed} listed, {errors} with a number, {unlisted} not listed; {answers} rejections are answered as the page says"))
}

fn main() -> ExitCode {
    let page = fs::read_to_string(env::args().nth(1).unwrap_or_default()).map_err(|error| error.to_string());
    match page.and_then(|page| check(&page)) {
        Ok(counts) => println!("causes: {counts}"),
        Err(difference) => {
            eprintln!("causes: {difference}");
            return ExitCode::FAILURE;
        }
    }
    ExitCode::SUCCESS
}
