//! The images of all 65,536 error blocks of 16 symbols, with a span of 4 and of 64: nanoseconds an image, and
//! how many times as long the longer span takes. That is near 1 if a row is fetched once for its symbol, and
//! not again for each bit of the span; at most 2 is asked for.
//!
//! The coder's images are timed: 15 rows, the parity's, which is 1, joined here. A decoder's image is of the same
//! function, and is not timed: its step also moves N − 1 delayed blocks, and no call does one without the other.

use crate::archive::burst_code_batch;
use crate::batch::whole;
use crate::{code, fast, median, numbers, ROUNDS};
use std::time::Instant;

const MOST: f64 = 2.0;
const SPANS: [usize; 2] = [4, 64];
const BLOCKS: usize = 1 << 16;
const INFORMATION: u16 = 0x7fff;
/// The last is the implementation written for speed.
const WAYS: [&str; 4] = ["coder calls", "less what is tested first", "one batch", "calls, for speed"];

/// A table of 16 symbols with dense rows.
fn dense(span: usize) -> fast::Table {
    let row = |j: usize| ((j as u64).wrapping_mul(0x9e37_79b9_7f4a_7c15) | 1) & u64::MAX >> (64 - span);
    fast::Table { n: 16, span, depth: 1, rows: std::array::from_fn(|i| row(i + 1)) }
}

/// Nanoseconds an image, and a sum of all of them: what the first step of a started coder adds to the parity
/// of its block and of those after it. The parity symbol's row is 1.
fn by_steps(mut step: impl FnMut(&mut [u64], u16) -> u64) -> (f64, u64) {
    let mut sum = 0u64;
    let begun = Instant::now();
    for e in 0..=u16::MAX {
        let mut words = [0; 2];
        let block = step(&mut words, e & INFORMATION);
        let image = words[1] << 1 | (block >> 15 ^ u64::from(e >> 15)) & 1;
        sum = sum.wrapping_mul(31).wrapping_add(image);
    }
    (begun.elapsed().as_nanos() as f64 / BLOCKS as f64, sum)
}

/// Nanoseconds an image by one batch, whose images are looked up in tables that are made once; each joins
/// what is pending of the blocks before. No parity is joined: each of the 32,768 informations comes twice.
fn by_a_batch(t: &fast::Table, table: &[u64; 18]) -> f64 {
    let infos: Vec<u16> = (0..=u16::MAX).map(|e| e & INFORMATION).collect();
    let (mut words, mut entries) = ([0; 2], vec![u32::MAX; BLOCKS]);
    let begun = Instant::now();
    whole(burst_code_batch, table, &mut words, &infos, &mut entries);
    let time = begun.elapsed().as_nanos() as f64 / BLOCKS as f64;
    let mut same = [0; 2];
    let differs = |(&info, &entry): (&u16, &u32)| fast::code(t, &mut same, info) != u64::from(entry);
    assert!(!infos.iter().zip(&entries).any(differs) && words == same, "images: a batch differs");
    time
}

/// Nanoseconds an image, by each of the ways.
fn round(t: &fast::Table) -> [f64; 4] {
    let table = numbers(t);
    let calls = by_steps(|words, info| code(&table, words, info));
    // A call refused for 15 tests all that a step tests, and ends before the image.
    let refused = by_steps(|words, info| {
        let answer = code(&table, words, info | !INFORMATION);
        assert_eq!(answer, 15 << 33, "images: a block too large was not refused");
        answer
    });
    let speed = by_steps(|words, info| fast::code(t, words, info));
    assert_eq!(calls.1, speed.1, "images: the two differ");
    [calls.0, calls.0 - refused.0, by_a_batch(t, &table), speed.0]
}

/// Prints a row for each way, and says whether none of ours takes more than is asked for.
pub fn report() -> bool {
    let tables = SPANS.map(dense);
    let rounds: Vec<[[f64; 4]; 2]> = (0..ROUNDS).map(|_| tables.each_ref().map(round)).collect();
    println!(
        "\n{:<30} {:>10} {:>10} {:>7} {:>6}",
        "ns an image, all 65536, n = 16", "N = 4", "N = 64", "ratio", "most"
    );
    let mut within = true;
    for (way, what) in WAYS.into_iter().enumerate() {
        let of = |figure: fn(&[f64; 2]) -> f64| {
            median(rounds.iter().map(|spans| figure(&spans.map(|times| times[way]))).collect())
        };
        let (short, long, ratio) = (of(|t| t[0]), of(|t| t[1]), of(|t| t[1] / t[0]));
        let ours = way + 1 < WAYS.len();
        let most = if ours { format!(" {MOST:>6.1}") } else { String::new() };
        println!("{what:<30} {short:>10.1} {long:>10.1} {ratio:>7.2}{most}");
        within &= ratio <= MOST || !ours;
    }
    println!("timed: the coder's images, of rows 1 to 15. Not timed: a decoder's, whose step also moves N - 1 blocks");
    within
}
