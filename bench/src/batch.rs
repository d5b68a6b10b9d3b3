//! Batches against the single calls of the same blocks, both of the archive, in the same run: nanoseconds a block of each, and how many
//! times faster the batch is, medians of rounds. Answers and memories are compared in every round.

use crate::archive::{burst_code, burst_code_batch, burst_decode, burst_decode_batch, Batch};
use crate::{fast, made, median, numbers, Random, ROUNDS};
use std::hint::black_box;
use std::time::Instant;

/// Blocks of a round: whole batches of every length here.
const BLOCKS: usize = 16 * 4096;
const SYMBOLS: [usize; 4] = [2, 5, 8, 16];
const DEPTHS: [usize; 2] = [1, 16];

/// The entry of a single call. One that is refused shows as a difference: no batch writes this number.
fn entry(refused: u64, entry: u64) -> u32 {
    if refused == 0 {
        entry as u32
    } else {
        u32::MAX
    }
}

/// Takes blocks and fills their entries, by single calls or by a batch.
type Take = fn(&[u64; 18], &mut [u64], &[u16], &mut [u32]);

/// What is timed, with the least ratio that is asked for of batches of 256 or more, by n as in `SYMBOLS`.
#[derive(Clone, Copy)]
struct Work {
    what: &'static str,
    least: [f64; 4],
    singles: Take,
    batch: Take,
}

const CODER: Work = Work {
    what: "coder",
    least: [2.0, 3.0, 4.0, 6.0],
    singles: |table, words, infos, entries| {
        for (&info, filled) in infos.iter().zip(entries) {
            let a = unsafe { burst_code(table.as_ptr(), words.as_mut_ptr(), words.len(), info) };
            *filled = entry(a.refused, a.block);
        }
    },
    batch: |table, words, infos, entries| whole(burst_code_batch, table, words, infos, entries),
};

const RIGHT: Work = Work {
    what: "decoder, right",
    least: [2.0, 2.0, 2.3, 3.0],
    singles: |table, words, received, entries| {
        for (&block, filled) in received.iter().zip(entries) {
            let a = unsafe { burst_decode(table.as_ptr(), words.as_mut_ptr(), words.len(), block) };
            *filled = entry(a.refused, a.info | a.mark << 16);
        }
    },
    batch: |table, words, received, entries| whole(burst_decode_batch, table, words, received, entries),
};

const BURSTS: Work = Work { what: "decoder, bursts", least: [2.0, 3.0, 3.5, 4.0], ..RIGHT };

/// A batch that must take all its blocks.
pub fn whole(batch: Batch, table: &[u64; 18], words: &mut [u64], blocks: &[u16], entries: &mut [u32]) {
    let (list, output) = (blocks.as_ptr(), entries.as_mut_ptr());
    let (length, room, count) = (blocks.len(), entries.len(), words.len());
    let taken = unsafe { batch(table.as_ptr(), words.as_mut_ptr(), count, list, length, output, room) };
    assert_eq!(taken, length, "a batch ended early");
}

/// One line of the report: blocks, in batches of so many, on a memory of so many words.
struct Row<'a> {
    work: Work,
    n: usize,
    depth: usize,
    words: usize,
    blocks: &'a [u16],
    length: usize,
    /// Nanoseconds a block by single calls and by batches, a pair a round.
    times: Vec<(f64, f64)>,
}

impl Row<'_> {
    /// Nanoseconds a block, and the memory and the entries after all blocks.
    fn timed(&self, take: Take, table: &[u64; 18]) -> (f64, Vec<u64>, Vec<u32>) {
        let mut words = vec![0; self.words];
        let mut entries = vec![0xE000_0000; self.blocks.len()];
        black_box(self.blocks.iter().fold(0, |seen, block| seen | block)); // in the cache before the clock starts
        let begun = Instant::now();
        for (part, entries) in self.blocks.chunks(self.length).zip(entries.chunks_mut(self.length)) {
            take(table, &mut words, part, entries);
        }
        (begun.elapsed().as_nanos() as f64 / self.blocks.len() as f64, words, entries)
    }

    fn round(&mut self) {
        let table = numbers(&made(self.n, self.depth));
        let singles = self.timed(self.work.singles, &table);
        let batches = self.timed(self.work.batch, &table);
        let same = singles.1 == batches.1 && singles.2 == batches.2;
        assert!(same, "{}: batches and single calls differ", self.work.what);
        self.times.push((singles.0, batches.0));
    }

    /// Prints the row, and says whether it is as fast as is insisted on: neither batches of 16, of which a ratio of 1 is asked for, nor a
    /// single stream, whose delayed blocks are moved at each step (docs/DECISIONS.md), though what is below is told.
    fn report(&self) -> bool {
        let Row { work, n, depth, length, .. } = self;
        let of = |figure: fn(&(f64, f64)) -> f64| median(self.times.iter().map(figure).collect());
        let (single, batch, ratio) = (of(|t| t.0), of(|t| t.1), of(|t| t.0 / t.1));
        let large = *length >= 256;
        let at = SYMBOLS.iter().position(|symbols| symbols == n).unwrap_or(0);
        let least = if large { work.least[at] } else { 1.0 };
        let note = if ratio < least { " below" } else { "" };
        println!(
            "{:<22} {n:>3} {depth:>3} {length:>6} {single:>10.1} {batch:>10.1} {ratio:>7.2} {least:>6.1}{note}",
            work.what
        );
        ratio >= least || !large || *depth == 1
    }
}

/// A table's sizes with information, what a started coder sends of it, and that with a burst of m wrong blocks in each 16 × m.
struct Load {
    n: usize,
    depth: usize,
    infos: Vec<u16>,
    sent: Vec<u16>,
    bursts: Vec<u16>,
}

impl Load {
    fn new(n: usize, depth: usize, random: &mut Random) -> Load {
        let t = made(n, depth);
        let infos: Vec<u16> = (0..BLOCKS).map(|_| random.below(n - 1)).collect();
        let mut words = vec![0; 1 + depth];
        let sent: Vec<u16> = infos.iter().map(|&info| fast::code(&t, &mut words, info) as u16).collect();
        let mut error = |p: usize| if p % (16 * depth) < depth { random.below(n).max(1) } else { 0 };
        let bursts = sent.iter().enumerate().map(|(p, &block)| block ^ error(p)).collect();
        Load { n, depth, infos, sent, bursts }
    }

    fn rows(&self) -> Vec<Row<'_>> {
        let Load { n, depth, infos, sent, bursts } = self;
        let (coder, decoder) = (1 + depth, 2 + depth * (2 * n + 1));
        let works = [(CODER, coder, infos), (RIGHT, decoder, sent), (BURSTS, decoder, bursts)];
        let lengths: &[usize] = if *depth == 16 { &[16, 256, 4096] } else { &[256, 4096] };
        let mut rows = vec![];
        for (work, words, blocks) in works {
            let row = |&length| Row { work, n: *n, depth: *depth, words, blocks, length, times: vec![] };
            rows.extend(lengths.iter().map(row));
        }
        rows
    }
}

/// Prints all rows, and says whether every one is as fast as is insisted on.
pub fn report_all(random: &mut Random) -> bool {
    let sizes = SYMBOLS.iter().flat_map(|&n| DEPTHS.map(|depth| (n, depth)));
    let loads: Vec<Load> = sizes.map(|(n, depth)| Load::new(n, depth, random)).collect();
    let mut rows: Vec<Row> = loads.iter().flat_map(Load::rows).collect();
    // A round goes over all rows, so that what else the machine does for a while falls on a few rounds of each.
    for _ in 0..ROUNDS {
        rows.iter_mut().for_each(Row::round);
    }
    println!(
        "\n{:<22} {:>3} {:>3} {:>6} {:>10} {:>10} {:>7} {:>6}",
        "ns a block, median", "n", "m", "batch", "single", "batch", "ratio", "least"
    );
    rows.iter().filter(|row| !row.report()).count() == 0
}
