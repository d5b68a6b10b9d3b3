//! The plain implementation of the test load tested by itself: listed loads, draws, and its two ways.

use crate::cases::*;
use crate::examples::{load_cases, z};
use crate::load::*;

#[test]
fn listed_loads() {
    for case in load_cases() {
        let mut blocks = vec![7; case.length];
        let refused = fill(&case.table, case.seed, &mut blocks);
        match &case.fills {
            Ok(due) => {
                assert_eq!((refused, &blocks), (Ok(()), due), "{case:?}");
                let rounds = rounds(&case.table, case.seed, case.length);
                assert_eq!(blocks_of(&case.table, &rounds, case.length), *due, "{case:?}");
            }
            Err(number) => {
                assert_eq!((refused, blocks), (Err(*number), vec![7; case.length]), "{case:?}");
            }
        }
    }
}

fn draws_by_bits(seed: u32, count: usize) -> Vec<u64> {
    let mut bits = Bits::from_seed(seed);
    (0..count).map(|_| bits.draw()).collect()
}

fn draws_by_arithmetic(seed: u32, count: usize) -> Vec<u64> {
    let first = drawn_by_arithmetic(u64::from(seed));
    std::iter::successors(Some(first), |&drawn| Some(drawn_by_arithmetic(drawn))).take(count).collect()
}

#[test]
fn first_draws() {
    // The shifts of 1: 1 + 2^13; nothing is shifted right; 1 + 2^5 + 2^13 + 2^18.
    let by_hand: [(u32, &[u64]); 3] = [
        (1, &[(1 << 18) + (1 << 13) + (1 << 5) + 1, 67634689, 2647435461]),
        // Those of 2^31 go out to the left; right 2^14, and left of that 2^19.
        (1 << 31, &[(1 << 31) + (1 << 19) + (1 << 14), 2299036804]),
        // Marsaglia's own seed.
        (2463534242, &[723471715, 2497366906, 2064144800]),
    ];
    for (seed, due) in by_hand {
        assert_eq!(draws_by_bits(seed, due.len()), due);
        assert_eq!(draws_by_arithmetic(seed, due.len()), due);
    }
    assert_eq!(draws_by_bits(1, 1), [270369]);
}

#[test]
fn draws_in_two_ways_and_added() {
    let mut draw = Draw::from_seed(31);
    for _ in 0..3_000 {
        let [one, other] = [(); 2].map(|_| draw.bits(32) as u32);
        let [of_one, of_other, of_sum] = [one, other, one ^ other].map(|seed| draws_by_bits(seed, 20));
        assert_eq!(of_one, draws_by_arithmetic(one, 20));
        // shifts and sums keep sums, and so do draws
        let added: Vec<u64> = of_one.iter().zip(&of_other).map(|(one, other)| one ^ other).collect();
        assert_eq!(of_sum, added);
    }
}

#[test]
fn no_seed_but_0_draws_0() {
    // Draws of the 32 seeds of one bit each are independent, so no sum of them is 0.
    let mut kept: Vec<u64> = Vec::new();
    for bit in 0..32 {
        let drawn = kept.iter().fold(draws_by_bits(1 << bit, 1)[0], |rest, &other| rest.min(rest ^ other));
        assert_ne!(drawn, 0, "bit {bit}");
        kept.push(drawn);
        kept.sort_unstable_by(|one, other| other.cmp(one));
    }
    assert_eq!(draws_by_bits(0, 3), [0, 0, 0]);
}

#[test]
fn loads_in_two_ways() {
    let mut draw = Draw::from_seed(32);
    for _ in 0..3_000 {
        let (table, seed) = (any_fit_table(&mut draw), any_seed(&mut draw));
        let length = draw.below(900) as usize;
        let by_blocks: Vec<u16> = Load::new(&table, seed).take(length).collect();
        assert_eq!(by_blocks, blocks_of(&table, &rounds(&table, seed, length), length), "{seed} {table:?}");
    }
}

#[test]
fn rounds_end_after_the_length() {
    // The first round of Z has 9 blocks, the second 4.
    for (length, count) in [(0, 0), (1, 1), (9, 1), (10, 2), (13, 2), (14, 3)] {
        assert_eq!(rounds(&z(1), 1, length).len(), count, "{length}");
    }
}
