//! Times the check of one buffer beside the same scan in Rust, alternating in one run; the minimum of 250 rounds of 20,000 checks each.
use std::hint::black_box;
use std::time::Instant;

extern "C" {
    fn timing_is_good(state: *const u32, length: usize) -> bool;
}

fn capped(p: &[u32], hi: u32) -> bool {
    p.iter().fold(true, |ok, &x| ok & (x <= hi))
}

fn rising(p: &[u32], lo: u32, hi: u32) -> bool {
    let (mut ok, mut low) = (true, lo);
    for &x in p {
        ok &= low <= x;
        low = x;
    }
    ok & (p.is_empty() | (low <= hi))
}

#[inline(never)]
fn is_good(b: &[u32]) -> bool {
    if b.len() != 1331 || b[9] < 1 || b[9] > 10 || !capped(&b[50..55], 255) {
        return false;
    }
    let n = 10 + b[9] as usize;
    let head = (b[0] == 0x0057_5250)
        & (b[1] == 2)
        & (b[2] <= b[3])
        & (b[3] <= 4_000_000_000)
        & ((u64::from(b[4]) << 32 | u64::from(b[5])) <= 999_999_999_999_999)
        & capped(&b[6..9], 1);
    let settings = rising(&b[10..n], 1, 65_535) & capped(&b[n..20], 0) & capped(&b[20..35], 255) & capped(&b[44..50], 255);
    let services = capped(&b[35..39], 4_000_131_069)
        & ((b[6] == 1) | capped(&b[35..39], 0))
        & ((b[41] != 2) | (b[37] == 0))
        & (b[39] <= 1)
        & (b[40] <= 1)
        & (b[41] <= 2)
        & (b[42] <= 1)
        & (b[43] <= 3);
    let lists = (0..5).fold(true, |ok, k| {
        let (p, m) = (&b[55 + 255 * k..310 + 255 * k], b[50 + k] as usize);
        ok & rising(&p[..m], b[2], b[3]) & capped(&p[m..], 0)
    });
    head & settings & services & lists
}

fn round(mut check: impl FnMut() -> bool) -> f64 {
    let start = Instant::now();
    let mut ok = true;
    for _ in 0..20_000 {
        ok &= black_box(check());
    }
    assert!(ok);
    start.elapsed().as_nanos() as f64 / 20_000.0
}

fn main() {
    println!("lists hold  Dialchisel       Rust  ratio");
    for used in [0usize, 1, 64, 128, 200, 254, 255] {
        let mut b = vec![0u32; 1331];
        b[..13].copy_from_slice(&[0x0057_5250, 2, 1000, 9000, 235, 801_733_525, 1, 0, 1, 3, 60, 120, 240]);
        for k in 0..5 {
            b[50 + k] = used as u32;
            for i in 0..used {
                b[55 + 255 * k + i] = 1000 + 3 * i as u32;
            }
        }
        let b = black_box(&b[..]);
        let (mut ours, mut theirs) = (f64::MAX, f64::MAX);
        for _ in 0..250 {
            ours = ours.min(round(|| unsafe { timing_is_good(b.as_ptr(), b.len()) }));
            theirs = theirs.min(round(|| is_good(b)));
        }
        println!("{used:10} {ours:8.1} ns {theirs:7.1} ns {:6.2}", ours / theirs);
    }
}
