//! compare SEED: the mixing of request 3 in the linked library, beside one that is done here bit by bit: on the edges of 64 bits, on what
//! IMSIs and failures start with, and on numbers at random. It fails at the first difference, and where two different numbers are mixed to
//! the same one.
#[allow(dead_code)]
#[path = "../calls/random.rs"]
mod random;

use random::Random;
use std::array::from_fn;
use std::process::exit;

extern "C" {
    fn timing_mix(x: u64) -> u64;
}

const LARGEST_IMSI: u64 = 999_999_999_999_999;
const AT_RANDOM: usize = 400_000;
const IMSIS_AT_RANDOM: usize = 5_000;

/// The 64 bits of a number, the lowest first.
type Bits = [bool; 64];

fn bits(x: u64) -> Bits {
    from_fn(|i| x / 2u64.pow(i as u32) % 2 == 1)
}

fn number(bits: Bits) -> u64 {
    bits.iter().rev().fold(0, |above, &bit| 2 * above + u64::from(bit))
}

/// Shifted left: bit i takes bit i - k. The k lowest are 0, and the k highest are lost.
fn left(bits: Bits, k: usize) -> Bits {
    from_fn(|i| i >= k && bits[i - k])
}

/// Shifted right: bit i takes bit i + k. The k highest are 0, and the k lowest are lost.
fn right(bits: Bits, k: usize) -> Bits {
    from_fn(|i| i + k < 64 && bits[i + k])
}

/// Exclusive or: set where just one of the two is.
fn xor(one: Bits, other: Bits) -> Bits {
    from_fn(|i| one[i] != other[i])
}

/// "x becomes x xor (x shifted left 13), x xor (x shifted right 7), x xor (x shifted left 17), each kept to 64 bits."
fn mixed(start: u64) -> u64 {
    let first = bits(start);
    let second = xor(first, left(first, 13));
    let third = xor(second, right(second, 7));
    number(xor(third, left(third, 17)))
}

/// What an IMSI and n failures start with: "IMSI x 16 plus the smaller of n and 15".
fn start(imsi: u64, n: u64) -> u64 {
    imsi * 16 + n.min(15)
}

/// The edges of 64 bits: powers of two and their neighbours, ones to the left and to the right, patterns, and every two bits.
fn edges() -> Vec<u64> {
    let mut all = vec![0, 1, u64::MAX, 1 << 63];
    for k in 0..64 {
        let power = 1 << k;
        all.extend([power, power - 1, power + 1, u64::MAX << k, u64::MAX >> k]);
        all.extend((0..k).map(|other| power | 1 << other));
    }
    // 1, 2, 4 to 32 bits of one kind, then as many of the other
    for wide in [1, 2, 4, 8, 16, 32] {
        let low = u64::MAX / ((1 << wide) + 1);
        all.extend([low, !low]);
    }
    all
}

/// What real IMSIs start with: those at the edges, a row of cards that are 240 apart, and some at random, each with 0 to 15 failures.
fn starts(random: &mut Random) -> Vec<u64> {
    let mut imsis = vec![0, 1, 15, 16, 239, 240, LARGEST_IMSI - 240, LARGEST_IMSI - 1, LARGEST_IMSI];
    imsis.extend((1..15).flat_map(|k| [10u64.pow(k) - 1, 10u64.pow(k)]));
    imsis.extend((1..50).flat_map(|k| [(1 << k) - 1, 1 << k]));
    imsis.extend((0..256).map(|card| 1_010_123_456_789 + 240 * card));
    imsis.extend((0..IMSIS_AT_RANDOM).map(|_| random.below(LARGEST_IMSI + 1)));
    imsis.into_iter().flat_map(|imsi| (0..16).map(move |n| start(imsi, n))).collect()
}

fn main() {
    let Some(seed) = std::env::args().nth(1).and_then(|word| word.parse::<u64>().ok()) else {
        println!("mixing: SEED is missing, or is not a number of 64 bits");
        exit(2);
    };
    let fail = |what: String| {
        println!("mixing: seed {seed}: {what}");
        exit(1)
    };

    // The one that is done here gives the classroom's waits: C1, as request 3 has it.
    for (n, base, wait) in [(1, 60, 103), (2, 120, 152), (3, 240, 273), (4, 240, 438)] {
        if base + mixed(start(1_010_123_456_789, n)) % base != wait {
            fail(format!("bit by bit, the wait of {n} failures is not {wait}"));
        }
    }

    let mut random = Random(seed.max(1));
    let mut numbers = edges();
    numbers.extend(starts(&mut random));
    numbers.extend((0..AT_RANDOM).map(|_| random.next()));
    numbers.sort_unstable();
    numbers.dedup();

    let mut images = Vec::with_capacity(numbers.len());
    for &start in &numbers {
        let (library, here) = (unsafe { timing_mix(start) }, mixed(start));
        if library != here {
            fail(format!("{start} is mixed to {library} by the library, and to {here} bit by bit"));
        }
        images.push((library, start));
    }
    images.sort_unstable();
    for two in images.windows(2) {
        if two[0].0 == two[1].0 {
            fail(format!("{} and {} are both mixed to {}", two[0].1, two[1].1, two[0].0));
        }
    }
    println!("mixing: {} numbers, seed {seed}, all agree, and no two were mixed to the same", numbers.len());
}
