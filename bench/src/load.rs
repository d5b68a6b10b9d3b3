//! Filling a test load beside the fill written for speed, in the same run: nanoseconds a block of each, and how many
//! times as long the proved one takes, medians of rounds. The bound, less than 2 ns a block, is for long gaps, where
//! nearly all blocks are right ones. Where they are short a block costs more draws, and that is only told. What
//! both fill is compared in every round.

use crate::archive::burst_load;
use crate::{fast, made, median, numbers, ROUNDS};
use std::time::Instant;

const BELOW: f64 = 2.0;
const BLOCKS: usize = 1 << 18;
const SEED: u32 = 2_463_534_242;

/// Nanoseconds a block, and what is then in the lent numbers.
fn timed(mut fill: impl FnMut(&mut [u16]) -> u64) -> (f64, Vec<u16>) {
    let mut blocks = vec![0xA5A5; BLOCKS]; // written, so that the clock does not see the pages come
    let begun = Instant::now();
    let refused = fill(&mut blocks);
    let time = begun.elapsed().as_nanos() as f64 / BLOCKS as f64;
    assert_eq!(refused, 0, "loads: refused");
    (time, blocks)
}

/// Prints a row, and says whether it is below the bound, if it has one.
fn report(what: &str, t: &fast::Table, bound: Option<f64>) -> bool {
    let table = numbers(t);
    let mut times = vec![];
    for _ in 0..ROUNDS {
        let ours =
            timed(|blocks| unsafe { burst_load(table.as_ptr(), SEED, blocks.as_mut_ptr(), blocks.len()) });
        let theirs = timed(|blocks| fast::load(t, SEED, blocks));
        assert!(ours.1 == theirs.1, "loads, {what}: the two differ");
        times.push((ours.0, theirs.0));
    }
    let of = |figure: fn(&(f64, f64)) -> f64| median(times.iter().map(figure).collect());
    let (ours, theirs, ratio) = (of(|t| t.0), of(|t| t.1), of(|t| t.0 / t.1));
    let below = bound.map_or(String::new(), |bound| format!(" {bound:>6.1}"));
    println!("{what:<22} {:>3} {:>3} {ours:>10.2} {theirs:>10.2} {ratio:>7.2}{below}", t.n, t.depth);
    bound.is_none_or(|bound| ours < bound)
}

/// Prints all rows, and says whether long gaps are filled as fast as is asked for.
pub fn report_all() -> bool {
    println!(
        "\n{:<22} {:>3} {:>3} {:>10} {:>10} {:>7} {:>6}",
        "ns a block, median", "n", "m", "proved", "for speed", "ratio", "below"
    );
    let long = report("load, long gaps", &made(16, 64), Some(BELOW));
    report("load, short gaps", &made(2, 1), None);
    long
}
