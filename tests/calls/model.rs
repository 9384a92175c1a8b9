//! A model of the twelve plain calls, eleven of them on the buffer of 1,331 numbers, written from
//! document 01 and from the customer's requests, §1 for `why`, §2 for the files of an opening, §3
//! for the wait, §4 for the seconds of a limit, §6, with section 7.5 of 000, for causes and
//! `error`, and §7, with RMM6 to RMM8 and RTC1 of 000, for the timed reset and `turn`, and from
//! nothing else. It is plain and slow on purpose: each part names the heading that it follows, to
//! be read beside it. It never panics, whatever it is given.
#![forbid(unsafe_code)]

/// The two numbers given back.
pub type Answer = (u32, u32);

// "The buffer": the places. §7: version 2 has one more at the end, the due time.
pub const PLACES: usize = 1331;
pub const PLACES_1: usize = 1330;
pub const LETTERS: usize = 0;
pub const VERSION: usize = 1;
pub const OPENED: usize = 2;
pub const LAST: usize = 3;
pub const IMSI: usize = 4;
pub const NFM: usize = 6;
pub const START_TIMER: usize = 7;
pub const RPM: usize = 8;
pub const INTERVAL_COUNT: usize = 9;
pub const INTERVALS: usize = 10;
pub const N1: usize = 20;
pub const T1: usize = 21;
pub const F1: usize = 22;
pub const F2: usize = 23;
pub const F3: usize = 24;
pub const F4: usize = 25;
pub const A1: usize = 26;
pub const S1: usize = 27;
pub const LEAK_RATES: usize = 28;
pub const FAILURES: usize = 31;
pub const ENDS: usize = 35;
pub const STANDINGS: usize = 39;
pub const MOOD: usize = 43;
pub const C_BR_1: usize = 44;
pub const C_R_1: usize = 45;
pub const C_PDP_1: usize = 46;
pub const LENGTHS: usize = 50;
pub const LISTS: usize = 55;
pub const LIST_ROOM: usize = 255;
pub const DUE: usize = 1330;

// The five lists, in their order.
pub const ATTACH: usize = 0;
pub const ACTIVATION: usize = 1;
pub const PDP: usize = 2;
pub const SMS: usize = 3;
pub const RESET: usize = 4;

// Standings and moods.
pub const IDLE: u32 = 0;
pub const ASKED: u32 = 1;
pub const UP: u32 = 2;
const CLEAR: u32 = 0;
const IGNORED: u32 = 1;
const PERMANENT: u32 = 2;
const TEMPORARY: u32 = 3;

pub const MAGIC: u32 = 0x0057_5250;
pub const LATEST: u32 = 4_000_000_000;
pub const LATEST_END: u32 = 4_000_131_069;
pub const LARGEST_IMSI: u64 = 999_999_999_999_999;
pub const HOUR: u32 = 3_600;

/// §7: "Version 2 of the buffer adds a due time (any number is good)".
pub fn good(s: &[u32]) -> bool {
    s.len() == PLACES && s[VERSION] == 2 && fits_the_table(s)
}

/// A buffer of version 1.
pub fn good_1(s: &[u32]) -> bool {
    s.len() == PLACES_1 && s[VERSION] == 1 && fits_the_table(s)
}

/// "A buffer that breaks any line here is bad": all lines but those of its length and its version.
fn fits_the_table(s: &[u32]) -> bool {
    s[LETTERS] == MAGIC
        && s[OPENED] <= s[LAST]
        && s[LAST] <= LATEST
        && imsi(s) <= LARGEST_IMSI
        && s[NFM] <= 1
        && s[START_TIMER] <= 1
        && s[RPM] <= 1
        && good_interval_places(s)
        && s[20..=34].iter().all(|&n| n <= 255)
        && good_ends(s)
        && s[39] <= 1
        && s[40] <= 1
        && s[41] <= 2
        && s[42] <= 1
        && s[MOOD] <= 3
        && s[44..=49].iter().all(|&n| n <= 255)
        && (0..5).all(|k| good_list(s, k))
}

/// Places 4 and 5.
fn imsi(s: &[u32]) -> u64 {
    u64::from(s[IMSI]) * 4_294_967_296 + u64::from(s[IMSI + 1])
}

/// Places 9 and 10-19.
fn good_interval_places(s: &[u32]) -> bool {
    let count = s[INTERVAL_COUNT] as usize;
    count <= 10 && good_intervals(&s[10..10 + count]) && s[10 + count..20].iter().all(|&n| n == 0)
}

/// One to ten intervals, "1 to 65,535 s, none below the one before".
fn good_intervals(intervals: &[u32]) -> bool {
    (1..=10).contains(&intervals.len())
        && intervals.iter().all(|&n| (1..=65_535).contains(&n))
        && intervals.windows(2).all(|two| two[0] <= two[1])
}

/// Places 35-38.
fn good_ends(s: &[u32]) -> bool {
    let ends = &s[35..=38];
    ends.iter().all(|&end| end <= LATEST_END)
        && (s[NFM] != 0 || ends.iter().all(|&end| end == 0))
        && (s[STANDINGS + 2] != UP || s[ENDS + 2] == 0)
}

/// Places 50-54 and 55-1329, for list k.
fn good_list(s: &[u32], k: usize) -> bool {
    let length = s[LENGTHS + k] as usize;
    if length > LIST_ROOM {
        return false;
    }
    let (times, unused) = s[LISTS + LIST_ROOM * k..LISTS + LIST_ROOM * (k + 1)].split_at(length);
    times.windows(2).all(|two| two[0] <= two[1]) && times.iter().all(|&p| s[OPENED] <= p && p <= s[LAST]) && unused.iter().all(|&p| p == 0)
}

/// "Card files": a file has its length, and every byte after the first `used` is 0.
fn good_file(file: &[u8], length: usize, used: usize) -> bool {
    file.len() == length && file[used..].iter().all(|&byte| byte == 0)
}

/// §2, "Cards that carry no RPM files": which of two files rules, the module's own where the card's is absent, or `None` where one of them
/// is bad. "2 stays, for every length except 0 and the file's own, for a reserved byte other than 0, and for a default file bad or empty,
/// used or not."
fn ruling<'a>(card: &'a [u8], own: &'a [u8], length: usize, used: usize) -> Option<&'a [u8]> {
    let absent = card.is_empty();
    if !good_file(own, length, used) || !(absent || good_file(card, length, used)) {
        return None;
    }
    Some(if absent { own } else { card })
}

/// Opening: "given the time, IMSI, intervals, NFM, RPM, A1, S1 and the three files", and the module's own two of §2.
#[allow(clippy::too_many_arguments)]
pub fn open(
    s: &mut [u32],
    time: u32,
    imsi: u64,
    intervals: &[u32],
    nfm: u32,
    rpm: u32,
    a1: u32,
    s1: u32,
    params: &[u8],
    leaks: &[u8],
    counters: &[u8],
    own_params: &[u8],
    own_leaks: &[u8],
) -> Answer {
    if s.len() != PLACES {
        return (1, 0);
    }
    let settings = imsi <= LARGEST_IMSI && good_intervals(intervals) && nfm <= 1 && rpm <= 1 && a1 <= 255 && s1 <= 255;
    // "Each file is judged by itself"; "absent counters begin at 0".
    let files = (ruling(params, own_params, 32, 6), ruling(leaks, own_leaks, 6, 3), ruling(counters, &[0; 32], 32, 6));
    let (true, (Some(params), Some(leaks), Some(counters))) = (settings, files) else {
        return (2, 0);
    };
    if time > LATEST {
        return (3, 0);
    }
    // "A new buffer is idle and clear, ... failures and ends 0, lists empty; Start Timer is 0", and
    // no due time is set: all that is not named below is 0.
    s.fill(0);
    s[LETTERS] = MAGIC;
    s[VERSION] = 2;
    s[OPENED] = time;
    s[LAST] = time;
    s[IMSI] = (imsi / 4_294_967_296) as u32;
    s[IMSI + 1] = (imsi % 4_294_967_296) as u32;
    s[NFM] = nfm;
    s[RPM] = rpm;
    set_intervals(s, intervals);
    for i in 0..6 {
        s[20 + i] = u32::from(params[i]);
        s[44 + i] = u32::from(counters[i]);
    }
    s[A1] = a1;
    s[S1] = s1;
    for i in 0..3 {
        s[LEAK_RATES + i] = u32::from(leaks[i]);
    }
    (0, 0)
}

fn set_intervals(s: &mut [u32], intervals: &[u32]) {
    s[10..=19].fill(0);
    s[INTERVAL_COUNT] = intervals.len() as u32;
    s[10..10 + intervals.len()].copy_from_slice(intervals);
}

/// Checks 1 to 4 of a timed call, in their order; the clock where all pass. `fits` is asked only of arguments in range.
fn accept(s: &mut [u32], in_range: bool, time: u32, fits: impl Fn(&[u32]) -> bool) -> Result<(), Answer> {
    if !good(s) {
        return Err((1, 0));
    }
    if !in_range {
        return Err((2, 0));
    }
    if time < s[LAST] || time > LATEST {
        return Err((3, 0));
    }
    if !fits(s) {
        return Err((4, 0));
    }
    move_clock(s, time);
    Ok(())
}

/// "Clock and leaks": LR-1 serves C-BR-1, LR-2 C-R-1, LR-3 the four C-PDP.
fn move_clock(s: &mut [u32], time: u32) {
    let (opened, old) = (s[OPENED], s[LAST]);
    for (counter, rate) in [(C_BR_1, 1), (C_R_1, 2), (C_PDP_1, 3), (C_PDP_1 + 1, 3), (C_PDP_1 + 2, 3), (C_PDP_1 + 3, 3)] {
        let hours = s[LEAK_RATES + rate - 1];
        let points = leak_points(hours, opened, time) - leak_points(hours, opened, old);
        s[counter] = s[counter].saturating_sub(points);
    }
    s[LAST] = time;
}

/// How many leak points, "the opening time plus each positive multiple of rate x 3,600 s", there are up to t.
fn leak_points(rate: u32, opened: u32, t: u32) -> u32 {
    if rate == 0 {
        0
    } else {
        (t - opened) / (rate * HOUR)
    }
}

/// "Services and requests".
pub fn request(s: &mut [u32], time: u32, kind: u32) -> Answer {
    let service = kind as usize;
    let fits = |s: &[u32]| match kind {
        0..=3 => s[STANDINGS + service] == IDLE,
        4 => s[STANDINGS + 2] == UP,
        _ => true,
    };
    if let Err(refused) = accept(s, kind <= 5, time, fits) {
        return refused;
    }
    if kind <= 3 && time < s[ENDS + service] {
        return (10, s[ENDS + service] - time);
    }
    if let Some((number, seconds, counter)) = first_limit(s, time, kind) {
        if let Some(place) = counter {
            s[place] = (s[place] + 1).min(255);
        }
        return (number, seconds);
    }
    match kind {
        0..=3 => s[STANDINGS + service] = ASKED,
        4 => s[STANDINGS + 2] = IDLE,
        _ => {
            s[39..=42].fill(IDLE);
            // RMM8: "Timer related to T1 shall be stopped when UE is reset".
            s[DUE] = 0;
        }
    }
    let lists: &[usize] = match kind {
        0 | 1 => &[ATTACH],
        2 => &[ACTIVATION, PDP],
        3 => &[SMS],
        4 => &[PDP],
        _ => &[RESET],
    };
    for &list in lists {
        append(s, list, time);
    }
    (0, 0)
}

/// The first limit that blocks, with its seconds and the counter that it raises: "11, 13, 14, 15, 16, 17, 18; the first alone acts".
fn first_limit(s: &[u32], time: u32, kind: u32) -> Option<(u32, u32, Option<usize>)> {
    let rpm = s[RPM] == 1;
    let mood = s[MOOD];
    let limits = [
        (11, s[N1], RESET, rpm && kind == 5, Some(C_BR_1)),
        (13, s[F1], ACTIVATION, rpm && kind == 2 && mood == IGNORED, Some(C_PDP_1)),
        (14, s[F2], ACTIVATION, rpm && kind == 2 && mood == PERMANENT, Some(C_PDP_1 + 1)),
        (15, s[F3], ACTIVATION, rpm && kind == 2 && mood == TEMPORARY, Some(C_PDP_1 + 2)),
        (16, s[F4], PDP, rpm && (kind == 2 || kind == 4), Some(C_PDP_1 + 3)),
        (17, s[A1], ATTACH, kind == 0 || kind == 1, None),
        (18, s[S1], SMS, kind == 3, None),
    ];
    for (number, limit, list, applies, counter) in limits {
        if applies && limit != 0 && in_the_hour(s, list, time) >= limit {
            return Some((number, seconds_until(s, list, limit, time), counter));
        }
    }
    None
}

/// §4, "the seconds until that rule by itself would permit", by their meaning and not by the formula beside it: of the times at which a
/// permit leaves the hour, the first from which on fewer than the limit are in the hour.
fn seconds_until(s: &[u32], list: usize, limit: u32, t: u32) -> u32 {
    let leaves = permits(s, list).iter().map(|&p| p + HOUR).filter(|&later| later > t);
    leaves.filter(|&later| in_the_hour(s, list, later) < limit).min().map_or(0, |later| later - t)
}

/// "In the hour of t" means a permit time p with p <= t and p + 3,600 > t.
pub fn in_the_hour(s: &[u32], list: usize, t: u32) -> u32 {
    permits(s, list).iter().filter(|&&p| p <= t && p + HOUR > t).count() as u32
}

/// The permit times on a list of a good state, oldest first.
pub fn permits(s: &[u32], list: usize) -> &[u32] {
    let start = LISTS + LIST_ROOM * list;
    &s[start..start + s[LENGTHS + list] as usize]
}

/// "A list holds the newest permit times, oldest first ... At 255 the oldest goes."
fn append(s: &mut [u32], list: usize, time: u32) {
    let start = LISTS + LIST_ROOM * list;
    let length = s[LENGTHS + list] as usize;
    if length == LIST_ROOM {
        s.copy_within(start + 1..start + LIST_ROOM, start);
        s[start + LIST_ROOM - 1] = time;
    } else {
        s[start + length] = time;
        s[LENGTHS + list] += 1;
    }
}

/// The rules that can stand against a request, by their bits: "Bits run in document 01's order". Each has the number that it gives back
/// and, where it is a limit, the limit's place and its list.
pub const RULES: [(u32, Option<(usize, usize)>); 8] = [
    (10, None),
    (11, Some((N1, RESET))),
    (13, Some((F1, ACTIVATION))),
    (14, Some((F2, ACTIVATION))),
    (15, Some((F3, ACTIVATION))),
    (16, Some((F4, PDP))),
    (17, Some((A1, ATTACH))),
    (18, Some((S1, SMS))),
];

/// §1, "Say why the gate said no": the first rule that stands and a bit for each, and the times that have to leave the hour.
pub fn why(s: &[u32], time: u32, kind: u32, times: &mut [u32]) -> Answer {
    if times.len() != RULES.len() {
        return (1, 0);
    }
    // "Requests that would be refused 1 to 4 get that number and no rules."
    let (answer, _) = request(&mut s.to_vec(), time, kind);
    if (1..=4).contains(&answer) {
        return (answer, 0);
    }
    let (mut first, mut bits) = (0, 0);
    for (rule, (number, limit)) in RULES.into_iter().enumerate() {
        times[rule] = 0;
        if !alone_blocks(s, rule, time, kind) {
            continue;
        }
        bits |= 1 << rule;
        if first == 0 {
            first = number;
        }
        if let Some((place, list)) = limit {
            times[rule] = from_the_newest(s, list, s[place]);
        }
    }
    (first, bits)
}

/// "A bit is set exactly when that rule, taken alone, would block": the request is asked of a copy of a good state in which every other
/// limit is disabled by a zero and, unless the rule is the back-off, no back-off runs.
pub fn alone_blocks(s: &[u32], rule: usize, time: u32, kind: u32) -> bool {
    let mut alone = s.to_vec();
    for (other, (_, limit)) in RULES.into_iter().enumerate() {
        match limit {
            _ if other == rule => {}
            None => alone[ENDS..ENDS + 4].fill(0),
            Some((place, _)) => alone[place] = 0,
        }
    }
    (10..=18).contains(&request(&mut alone, time, kind).0)
}

/// "The permit time that has to leave the hour", for a limit L that stands: L places from the newest, the newest counted as one.
fn from_the_newest(s: &[u32], list: usize, limit: u32) -> u32 {
    permits(s, list).iter().rev().zip(1..).find(|&(_, place)| place == limit).map_or(0, |(&p, _)| p)
}

/// "Granted, rejected and silent need standing 1 of services 0-3."
fn asked(service: u32) -> impl Fn(&[u32]) -> bool {
    move |s| s[STANDINGS + service as usize] == ASKED
}

pub fn granted(s: &mut [u32], time: u32, service: u32) -> Answer {
    if let Err(refused) = accept(s, service <= 3, time, asked(service)) {
        return refused;
    }
    s[FAILURES + service as usize] = 0;
    s[ENDS + service as usize] = 0;
    s[STANDINGS + service as usize] = IDLE;
    if service == 2 {
        s[STANDINGS + 2] = UP;
        s[MOOD] = CLEAR;
    }
    (0, 0)
}

/// §6, "The other cause columns": what the last cell of a row says.
#[derive(Clone, Copy, Debug, PartialEq)]
pub enum Says {
    /// "a GSM Attach 'Back-off'", in one row without "Attach".
    GsmBackOff,
    /// "a GPRS Attach 'Back-off'".
    GprsBackOff,
    /// "a GSM and GPRS Attach 'Back-off'".
    GsmAndGprsBackOff,
    /// "the 'Back-off'", of no service by name: of the one that was rejected.
    TheBackOff,
    /// "a Session Management Back-off".
    SmBackOff,
    /// "an SMS Back-off".
    SmsBackOff,
    /// "a GPRS re-attach".
    Reattach,
    /// "If a second mobile network is available, ... connect via the alternate", else back off.
    SecondNetwork,
    /// "As per 3GPP specifications".
    As3gpp,
    /// "should not retry ... on the same PLMN unless prompted externally".
    NotSamePlmn,
    /// "on the same LA".
    NotSameLa,
    /// "on the same cell".
    NotSameCell,
    /// "Immediate reactivation of PDP Context ... is OK".
    ReactivationOk,
    /// "may re-establish the PDP Context immediately".
    MayReestablish,
}

use Says::*;

/// An empty cell: no cause, and no number of an error.
const __: u32 = u32::MAX;

/// A row of section 7.5: its causes by column, MM, GMM, SM, RP and CP, its CME and its CMS number,
/// and what it says.
type Row = ([u32; 5], u32, u32, Says);

/// Section 7.5 as it is printed, a line for each row, but for the row "All other MM codes", "All
/// other GMM codes": it says what goes for every cause without a row, in all columns.
#[rustfmt::skip]
pub const PAGE: [Row; 64] = [
    // MM  GMM   SM   RP   CP    CME  CMS
    ([  2,  __,  __,  __,  __],  __,  __, GsmBackOff),        // page 39
    ([ __,   2,  __,  __,  __],  __,  __, GsmAndGprsBackOff),
    ([  3,  __,  __,  __,  __], 103,  __, GsmBackOff),
    ([ __,   3,  __,  __,  __], 106,  __, GsmAndGprsBackOff),
    ([  4,  __,  __,  __,  __],  __,  __, As3gpp),
    ([  5,  __,  __,  __,  __],  __,  __, TheBackOff),
    ([  6,  __,  __,  __,  __], 106,  __, GsmBackOff),        // page 40
    ([ __,   6,  __,  __,  __], 106,  __, GsmAndGprsBackOff),
    ([ __,   7,  __,  __,  __], 107,  __, GprsBackOff),
    ([  8,   8,  __,  __,  __],  __,  __, GsmAndGprsBackOff),
    ([  9,   9,  __,  __,  __],  __,  __, GsmAndGprsBackOff),
    ([ __,  10,  __,  __,  __],  __,  __, As3gpp),
    ([ 11,  11,  __,  __,  __], 111,  __, NotSamePlmn),
    ([ 12,  12,  __,  __,  __], 112,  __, NotSameLa),
    ([ 13,  13,  __,  __,  __], 113,  __, NotSameLa),         // page 41
    ([ __,  14,  __,  __,  __],  __,  __, NotSamePlmn),
    ([ 15,  15,  __,  __,  __],  __,  __, NotSameCell),
    ([ __,  16,  __,  __,  __],  __,  __, TheBackOff),
    ([ 17,  17,  __,  __,  __], 615,  __, TheBackOff),
    ([ 20,  20,  __,  __,  __],  __,  __, As3gpp),
    ([ 21,  21,  __,  __,  __],  __,  __, As3gpp),
    ([ 22,  22,  __,  __,  __],  42,  __, TheBackOff),
    ([ 23,  __,  __,  __,  __],  __,  __, As3gpp),            // page 42
    ([ 32,  __,  __,  __,  __], 132,  __, As3gpp),
    ([ 33,  __,  __,  __,  __], 133,  __, As3gpp),
    ([ 34,  __,  __,  __,  __], 134,  __, TheBackOff),
    ([ 38,  __,  __,  __,  __],  __,  __, As3gpp),
    ([ 40,  __,  __,  __,  __],  __,  __, As3gpp),
    ([ __,  __,   8,  __,  __],  __,  __, SmBackOff),
    ([ __,  __,  26,  __,  __],  __,  __, SmBackOff),         // page 43
    ([ __,  __,  27,  __,  __], 134,  __, SmBackOff),
    ([ __,  __,  28,  __,  __],  __,  __, Reattach),
    ([ __,  __,  29,  __,  __], 149,  __, SmBackOff),
    ([ __,  __,  30,  __,  __],  __,  __, SmBackOff),
    ([ __,  __,  31,  __,  __],  __,  __, SmBackOff),
    ([ __,  __,  32,  __,  __], 132,  __, SmBackOff),         // page 44
    ([ __,  __,  33,  __,  __], 133,  __, SmBackOff),
    ([ __,  __,  34,  __,  __], 134,  __, SecondNetwork),
    ([ __,  __,  35,  __,  __],  __,  __, SmBackOff),
    ([ __,  __,  36,  __,  __],  __,  __, ReactivationOk),
    ([ __,  __,  37,  __,  __],  __,  __, As3gpp),
    ([ __,  __,  38,  __,  __], 615,  __, SmBackOff),
    ([ __,  __,  39,  __,  __],  __,  __, MayReestablish),    // page 45
    ([ __,  __,  40,  __,  __],  __,  __, As3gpp),
    ([ __,  __,  43,  __,  __],  __,  __, As3gpp),
    ([ __,  __,  56,  __,  __],  __,  __, As3gpp),
    ([ __,  __, 112,  __,  __],  __,  __, As3gpp),
    ([ __,  __,  __,   8,  __],  __,   8, SmsBackOff),
    ([ __,  __,  __,  10,  __],  __,  10, SmsBackOff),
    ([ __,  __,  __,  21,  __],  __,  21, SmsBackOff),        // page 46
    ([ __,  __,  __,  22,  __],  __,  27, SmsBackOff),
    ([ __,  __,  __,  28,  __],  __,  28, SmsBackOff),
    ([ __,  __,  __,  29,  __],  __,  29, SmsBackOff),
    ([ __,  __,  __,  30,  __],  __,  30, SmsBackOff),
    ([ __,  __,  __,  38,  __],  __,  38, SmsBackOff),
    ([ __,  __,  __,  41,  __],  __,  41, SmsBackOff),        // page 47
    ([ __,  __,  __,  42,  __],  __,  42, SmsBackOff),
    ([ __,  __,  __,  47,  __],  __,  47, SmsBackOff),
    ([ __,  __,  __,  50,  __],  __,  50, SmsBackOff),
    ([ __,  __,  __,  69,  __],  __,  69, SmsBackOff),
    ([ __,  __,  __,  81,  __],  __,  81, SmsBackOff),
    ([ __,  __,  __,  __,  17],  __,  __, SmsBackOff),
    ([ __,  __,  __,  __,  21],  __,  __, SmsBackOff),        // page 48
    ([ __,  __,  __,  __,  __], 148,  __, As3gpp),            // stands beside no cause
];

/// The row of a cause of 0 to 255, if its column has one.
pub fn row(column: u32, cause: u32) -> Option<&'static Row> {
    PAGE.iter().find(|(causes, ..)| causes.get(column as usize) == Some(&cause))
}

/// The columns of a service: "Services 0 (MM causes), 1 (GMM) and 3 (RP, CP)", and SM of service 2.
pub fn columns(service: u32) -> &'static [u32] {
    match service {
        0 => &[0],
        1 => &[1],
        2 => &[2],
        3 => &[3, 4],
        _ => &[],
    }
}

pub fn rejected(s: &mut [u32], time: u32, service: u32, cause: u32, second: u32, column: u32) -> Answer {
    let in_range = service <= 3 && cause <= 255 && second <= 1 && columns(service).contains(&column);
    if let Err(refused) = accept(s, in_range, time, asked(service)) {
        return refused;
    }
    s[STANDINGS + service as usize] = IDLE;
    if service == 2 {
        s[MOOD] = match cause {
            8 | 27 | 28 | 29 | 32 | 33 => PERMANENT,
            _ => TEMPORARY,
        };
    }
    set_due(s, time, column, cause);
    let backs_off: &[u32] = match row(column, cause).map_or(As3gpp, |row| row.3) {
        GsmBackOff => &[0],
        GprsBackOff => &[1],
        GsmAndGprsBackOff => &[0, 1],
        TheBackOff => &[service],
        SmBackOff => &[2],
        SmsBackOff => &[3],
        Reattach => return (21, 0),
        SecondNetwork if second == 1 => return (22, 0),
        SecondNetwork => &[service],
        As3gpp => return (23, 0),
        NotSamePlmn => return (24, 0),
        NotSameLa => return (25, 0),
        NotSameCell => return (26, 0),
        ReactivationOk => return (27, 0),
        MayReestablish => return (28, 0),
    };
    // Each by its own failures; the answer is that of the service that was rejected.
    let mut answer = (0, 0);
    for &each in backs_off {
        let own = back_off(s, time, each);
        if each == service {
            answer = own;
        }
    }
    answer
}

/// §7, "The timed reset". RMM6: MM 2, 3 and 6 and GMM 2, 3, 6, 7 and 8 are permanent; "disabled if
/// T1 is set to 0"; "not be re-started if an instance of the same timer is already running". It is
/// RPM's, so it waits for nothing while RPM is 0.
fn set_due(s: &mut [u32], time: u32, column: u32, cause: u32) {
    let permanent: &[u32] = match column {
        0 => &[2, 3, 6],
        1 => &[2, 3, 6, 7, 8],
        _ => &[],
    };
    if s[RPM] == 0 || s[T1] == 0 || s[DUE] != 0 || !permanent.contains(&cause) {
        return;
    }
    // T1 is "in 6 min increments" and an average; RTC1 has the time "within a time window of [-10%,
    // +10%]" of it. "An open draw is §3's x at n = 0, modulo the spread": of all its whole seconds.
    let average = s[T1] * 6 * 60;
    let (shortest, longest) = (average - average / 10, average + average / 10);
    let spread = u64::from(longest - shortest + 1);
    s[DUE] = time + shortest + (drawn(imsi(s), 0) % spread) as u32;
}

/// "For the AT side the CME and CMS numbers that it gives beside them": the CME number of an MM,
/// GMM or SM cause, the CMS number of an RP or CP cause, or 0 where none stands there.
pub fn error(column: u32, cause: u32) -> Answer {
    if column > 4 || cause > 255 {
        return (2, 0);
    }
    let number = row(column, cause).map_or(__, |&(_, cme, cms, _)| if column <= 2 { cme } else { cms });
    (0, if number == __ { 0 } else { number })
}

pub fn silent(s: &mut [u32], time: u32, service: u32) -> Answer {
    if let Err(refused) = accept(s, service <= 3, time, asked(service)) {
        return refused;
    }
    s[STANDINGS + service as usize] = IDLE;
    if service == 2 {
        s[MOOD] = IGNORED;
    }
    back_off(s, time, service)
}

/// "To back off".
fn back_off(s: &mut [u32], time: u32, service: u32) -> Answer {
    if s[NFM] == 0 {
        return (23, 0);
    }
    let failures = (s[FAILURES + service as usize] + 1).min(255);
    let base = s[INTERVALS - 1 + failures.min(s[INTERVAL_COUNT]) as usize];
    let wait = base + (drawn(imsi(s), failures) % u64::from(base)) as u32;
    s[FAILURES + service as usize] = failures;
    s[ENDS + service as usize] = time + wait;
    (20, wait)
}

/// §3: "Take x as IMSI x 16 plus the smaller of n and 15; then x becomes x xor (x shifted left 13), x xor (x shifted right 7), x xor (x
/// shifted left 17), each kept to 64 bits".
fn drawn(imsi: u64, n: u32) -> u64 {
    let start = imsi * 16 + u64::from(n.min(15));
    let left = start ^ start << 13;
    let right = left ^ left >> 7;
    right ^ right << 17
}

/// "Dropped needs service 2 up and makes it idle."
pub fn dropped(s: &mut [u32], time: u32) -> Answer {
    if let Err(refused) = accept(s, true, time, |s| s[STANDINGS + 2] == UP) {
        return refused;
    }
    s[STANDINGS + 2] = IDLE;
    (0, 0)
}

/// "The clock call has only a time", and by §7 it alone orders a reset: "the first one not before
/// the due time at which N1, if it applies, is not full, and never while RPM is 0". N1 applies, and
/// is full, as for request 5.
pub fn tick(s: &mut [u32], time: u32) -> Answer {
    if let Err(refused) = accept(s, true, time, |_| true) {
        return refused;
    }
    let waits = s[DUE] != 0 && s[RPM] == 1;
    if !waits || time < s[DUE] || first_limit(s, time, 5).is_some() {
        return (0, 0);
    }
    // "Adds one to C-R-1, at most 255, enters the reset list ..., makes all services idle as
    // request 5 does and ends the due time."
    s[C_R_1] = (s[C_R_1] + 1).min(255);
    append(s, RESET, time);
    s[39..=42].fill(IDLE);
    s[DUE] = 0;
    (12, 0)
}

/// "One separate call reads version 1 and writes version 2, due time 0." What was in `s` does not
/// matter.
pub fn turn(old: &[u32], s: &mut [u32]) -> Answer {
    if !good_1(old) || s.len() != PLACES {
        return (1, 0);
    }
    s[..PLACES_1].copy_from_slice(old);
    s[VERSION] = 2;
    s[DUE] = 0;
    (0, 0)
}

/// "AT lines": what a line asks for.
enum Order {
    Read,
    Flags(u32, Option<u32>),
    Intervals(Vec<u32>),
}

/// What a line asks for, if it has one of the four forms.
fn understood(line: &[u8]) -> Option<Order> {
    if line.len() > 96 {
        return None;
    }
    let text = line.strip_suffix(b"\r")?;
    if let Some(rest) = text.strip_prefix(b"AT+NFM=") {
        return match rest {
            b"?" => Some(Order::Read),
            [a @ b'0'..=b'1'] => Some(Order::Flags(flag(*a), None)),
            [a @ b'0'..=b'1', b',', s @ b'0'..=b'1'] => Some(Order::Flags(flag(*a), Some(flag(*s)))),
            _ => None,
        };
    }
    let rest = text.strip_prefix(b"AT+NFMCI=")?;
    let intervals: Option<Vec<u32>> = rest.split(|&byte| byte == b',').map(decimal).collect();
    intervals.filter(|list| good_intervals(list)).map(Order::Intervals)
}

fn flag(digit: u8) -> u32 {
    u32::from(digit == b'1')
}

/// "Decimals have no leading zero."
fn decimal(digits: &[u8]) -> Option<u32> {
    let leading_zero = digits.len() > 1 && digits[0] == b'0';
    if digits.is_empty() || leading_zero || !digits.iter().all(u8::is_ascii_digit) {
        return None;
    }
    std::str::from_utf8(digits).ok()?.parse().ok()
}

pub fn command(s: &mut [u32], line: &[u8], room: &mut [u8]) -> Answer {
    if !good(s) || room.len() < 16 {
        return (1, 0);
    }
    let Some(order) = understood(line) else {
        return (5, 0);
    };
    let mut text = String::new();
    match order {
        Order::Read => text = format!("+NFM: {},{}\r\n", s[NFM], s[START_TIMER]),
        Order::Flags(a, timer) => {
            s[NFM] = a;
            if a == 0 {
                s[31..=34].fill(0);
                s[35..=38].fill(0);
            }
            if let Some(on) = timer {
                s[START_TIMER] = on;
            }
        }
        Order::Intervals(intervals) => set_intervals(s, &intervals),
    }
    text += "OK\r\n";
    room[..text.len()].copy_from_slice(text.as_bytes());
    (0, text.len() as u32)
}

/// "Writing counters needs exactly 32 bytes of room and does not move the clock."
pub fn counters(s: &mut [u32], room: &mut [u8]) -> Answer {
    if !good(s) || room.len() != 32 {
        return (1, 0);
    }
    room.fill(0);
    for i in 0..6 {
        room[i] = s[44 + i] as u8;
    }
    (0, 32)
}
