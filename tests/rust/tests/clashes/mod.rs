//! The group for the first triple of refusal 10, by reading and by writing. Tables are drawn so that an answer in
//! another order would often be another triple, and how often is counted.

use super::*;
use std::fmt;

// ---- The count of what was compared ----

/// Of each kind at each range of l.
const LEAST_TABLES: u64 = 100;

/// The ranges of l: 1, 2 to n − 1, n or more.
const RANGES: usize = 3;

/// What can be so of a table, its first triple, and all e0 that clash at its l, each with its least e1.
struct Kind {
    name: &'static str,
    /// At how many of the ranges of l it can be so.
    ranges: usize,
    holds: fn(&Table, Triple, &[Triple]) -> bool,
}

const KINDS: [Kind; 6] = [
    // every shift shows it, the one by 1 too
    Kind { name: "e1 is 0", ranges: 1, holds: |_, first, _| first.e1 == 0 },
    Kind { name: "e1 is not 0", ranges: RANGES, holds: |_, first, _| first.e1 != 0 },
    Kind { name: "several e0", ranges: RANGES, holds: |_, _, clashes| clashes.len() > 1 },
    Kind { name: "several e1 for the first e0", ranges: RANGES, holds: has_several_e1 },
    Kind { name: "a lesser e0 at a greater l", ranges: RANGES, holds: has_lesser_e0 },
    Kind {
        name: "a lesser e1 for a greater e0",
        ranges: RANGES,
        holds: |_, first, clashes| clashes.iter().any(|clash| clash.e1 < first.e1),
    },
];

fn has_several_e1(table: &Table, first: Triple, _: &[Triple]) -> bool {
    (first.e1 + 1..1 << table.n).any(|e1| oracle::shows_unsuitable(table, Triple { e1, ..first }))
}

fn has_lesser_e0(table: &Table, first: Triple, _: &[Triple]) -> bool {
    let clash_at = |l| oracle::first_at_by_descent(table, l);
    (first.l + 1..table.span).filter_map(clash_at).any(|clash| clash.e0 < first.e0)
}

#[derive(Default)]
pub struct Count {
    tables: u64,
    kinds: [[u64; RANGES]; KINDS.len()],
}

impl Count {
    fn add(&mut self, table: &Table, first: Triple, clashes: &[Triple]) {
        self.tables += 1;
        for (kind, counts) in KINDS.iter().zip(&mut self.kinds) {
            counts[range_of_shift(table.n, first.l)] += u64::from((kind.holds)(table, first, clashes));
        }
    }
}

impl fmt::Display for Count {
    fn fmt(&self, f: &mut fmt::Formatter) -> fmt::Result {
        write!(f, "{} first triples drawn, by l (1, 2 to n − 1, n or more)", self.tables)?;
        for (Kind { name, .. }, counts) in KINDS.iter().zip(self.kinds) {
            write!(f, "; {name}: {counts:?}")?;
        }
        Ok(())
    }
}

pub fn everything_reached(tally: &mut Tally) {
    for (Kind { name, ranges, .. }, counts) in KINDS.iter().zip(tally.clashes.kinds) {
        let reached = counts[..*ranges].iter().all(|&count| count >= LEAST_TABLES);
        tally.check(reached, || format!("first triples with {name}, by l: only {counts:?}"));
    }
}

// ---- The group ----

/// A table of n symbols that is unsuitable most often.
fn drawn_table(draw: &mut Draw, n: u64) -> Table {
    let span = if draw.once_in(6) { any_span(draw) } else { draw.between(2 * n, 64) };
    let depth = any_depth(draw);
    if draw.once_in(6) {
        fit_table(draw, n, span, depth)
    } else {
        clashing_table(draw, n, span, depth)
    }
}

/// Reading and writing, and the first triple by looking all images up; fewer tables of more symbols, as that is slow.
pub fn drawn(tally: &mut Tally, draw: &mut Draw) {
    for n in 2..=16 {
        for _ in 0..((1 << 20) >> n).clamp(20, 1_000) {
            let table = drawn_table(draw, n);
            compare_read(tally, &table_bytes(draw, &table));
            let room = writing::any_room(draw, n);
            writing::compare_write(tally, draw, &table, room);
            if let Some(first) = oracle::unsuitable(&table) {
                let clashes = oracle::clashes_by_lookup(&table, first.l);
                let both = clashes.first() == Some(&first);
                tally.check(both, || format!("two ways differ: {table:?} {first:?} {:?}", clashes.first()));
                tally.clashes.add(&table, first, &clashes);
            }
        }
    }
}
