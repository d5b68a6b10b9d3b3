//! Prints what a call takes in nanoseconds, the proved codec and the one written for speed in the same run,
//! and their ratio: medians of several rounds, the ratio's too, answers and memories compared throughout.
//! Then how much longer the images of all error blocks of 16 symbols take with a span of 64 than with one of
//! 4, and what writing a table costs beside judging it. Then steps of the Iwadare-Massey stations beside our
//! own, and filling a test load. Last, batches against single calls. The exit status is 1 if images, stations,
//! loads or batches take longer than is asked for.

// The declarations that the comparing tests have; not every function is timed.
#[allow(dead_code)]
#[path = "../../tests/rust/src/archive.rs"]
mod archive;
mod batch;
mod fast;
mod images;
mod iwadare;
mod load;

use archive::{burst_code, burst_decode, burst_read, burst_write, Written};
use std::time::Instant;

const COLUMNS: [u64; 15] = [1, 3, 7, 13, 17, 35, 71, 237, 433, 851, 1687, 2365, 5873, 9155, 26183];
const STEPS: usize = 200_000;
const ROUNDS: usize = 15;

fn made(n: usize, depth: usize) -> fast::Table {
    let mut rows = [0; 15];
    for j in 1..n {
        let upper = |k: usize| (COLUMNS[k - 2] >> (j - 1) & 1) << (n + k - 1);
        rows[j - 1] = (2..=n).fold(1 << (n - j), |row, k| row | upper(k));
    }
    fast::Table { n, span: 2 * n, depth, rows }
}

fn numbers(t: &fast::Table) -> [u64; 18] {
    let mut numbers = [0; 18];
    numbers[..3].copy_from_slice(&[t.n as u64, t.span as u64, t.depth as u64]);
    numbers[3..].copy_from_slice(&t.rows);
    numbers
}

fn bytes(t: &fast::Table) -> Vec<u8> {
    let mut bytes = vec![1, t.n as u8, t.span as u8, t.depth as u8];
    for (j, row) in t.rows[..t.n - 1].iter().enumerate() {
        bytes.extend([2, j as u8 + 1]);
        bytes.extend(row.to_le_bytes());
    }
    bytes.push(0);
    bytes
}

struct Random(u64);

impl Random {
    fn below(&mut self, bits: usize) -> u16 {
        self.0 ^= self.0 << 13;
        self.0 ^= self.0 >> 7;
        self.0 ^= self.0 << 17;
        (self.0 >> 20 & ((1 << bits) - 1)) as u16
    }
}

fn code(table: &[u64; 18], words: &mut [u64], info: u16) -> u64 {
    let a = unsafe { burst_code(table.as_ptr(), words.as_mut_ptr(), words.len(), info) };
    if a.refused == 0 {
        a.block
    } else {
        a.refused << 33
    }
}

fn decode(table: &[u64; 18], words: &mut [u64], received: u16) -> u64 {
    let a = unsafe { burst_decode(table.as_ptr(), words.as_mut_ptr(), words.len(), received) };
    match (a.refused, a.mark) {
        (0, 0) => fast::NOTHING_YET,
        (0, mark) => a.info | mark << 16 | a.error << 32,
        (refused, _) => 1 << 63 | refused << 48,
    }
}

/// Nanoseconds a call over the blocks, and a sum of the answers with the memory after them.
fn timed(blocks: &[u16], count: usize, mut step: impl FnMut(&mut [u64], u16) -> u64) -> (f64, u64, Vec<u64>) {
    let mut words = vec![0; count];
    let mut sum = 0u64;
    let begun = Instant::now();
    for &block in blocks {
        sum = sum.wrapping_mul(31).wrapping_add(step(&mut words, block));
    }
    (begun.elapsed().as_nanos() as f64 / blocks.len() as f64, sum, words)
}

fn median(mut times: Vec<f64>) -> f64 {
    times.sort_by(f64::total_cmp);
    times[times.len() / 2]
}

fn report(
    what: &str,
    t: &fast::Table,
    mut ours: impl FnMut() -> (f64, u64, Vec<u64>),
    mut theirs: impl FnMut() -> (f64, u64, Vec<u64>),
) {
    let (mut a, mut b, mut ratios) = (vec![], vec![], vec![]);
    for _ in 0..ROUNDS {
        let (x, y) = (ours(), theirs());
        assert_eq!((x.1, &x.2), (y.1, &y.2), "{what}: the two differ");
        a.push(x.0);
        b.push(y.0);
        ratios.push(x.0 / y.0);
    }
    let (a, b, ratio) = (median(a), median(b), median(ratios));
    println!("{:<22} {:>3} {:>3} {:>10.1} {:>10.1} {:>7.2}", what, t.n, t.depth, a, b, ratio);
}

/// Nanoseconds of writing a table into this much room, and the answer.
fn written(table: &[u64; 18], bytes: &mut [u8]) -> (f64, Written) {
    let begun = Instant::now();
    let a = unsafe { burst_write(table.as_ptr(), bytes.as_mut_ptr(), bytes.len()) };
    (begun.elapsed().as_nanos() as f64, a)
}

/// A table of 16 symbols with a span of 64: with no room for it it is judged alone, and then refused for 16.
fn report_writing() {
    let t = fast::Table { span: 64, ..made(16, 1) };
    let (table, file) = (numbers(&t), bytes(&t));
    let (mut alone, mut whole, mut ratios) = (vec![], vec![], vec![]);
    for _ in 0..100 * ROUNDS {
        let mut out = vec![0xff; file.len()];
        let (judging, refused) = written(&table, &mut out[..0]);
        assert_eq!((refused.refused, refused.length), (16, 0), "writing: another refusal");
        let (writing, done) = written(&table, &mut out);
        assert_eq!(
            (done.refused, done.length, done.l, done.e0, done.e1),
            (0, 155, 0, 0, 0),
            "writing: refused"
        );
        assert_eq!(out, file, "writing: other bytes");
        alone.push(judging);
        whole.push(writing);
        ratios.push(writing / judging);
    }
    println!("\nwriting a table, n = 16, N = 64, ns a call: judged alone, judged and written, ratio");
    println!("{:>40.0} {:>10.0} {:>7.3}", median(alone), median(whole), median(ratios));
}

/// Blocks of a started coder, and the same with a burst of m wrong blocks after each m × (N − 1) right ones.
fn blocks(t: &fast::Table, random: &mut Random) -> (Vec<u16>, Vec<u16>, Vec<u16>) {
    let infos: Vec<u16> = (0..STEPS).map(|_| random.below(t.n - 1)).collect();
    let mut words = vec![0; 1 + t.depth];
    let sent: Vec<u16> = infos.iter().map(|&info| fast::code(t, &mut words, info) as u16).collect();
    let period = t.depth * t.span;
    let bursts = sent.iter().enumerate();
    let bursts = bursts.map(|(p, &c)| if p % period < t.depth { c ^ random.below(t.n) } else { c }).collect();
    (infos, sent, bursts)
}

fn main() {
    println!(
        "{:<22} {:>3} {:>3} {:>10} {:>10} {:>7}",
        "ns a call, median", "n", "m", "proved", "for speed", "ratio"
    );
    let mut random = Random(88_172_645_463_325_252);
    for n in [2, 5, 8, 16] {
        for depth in [1, 16] {
            let t = made(n, depth);
            let table = numbers(&t);
            let (infos, sent, bursts) = blocks(&t, &mut random);
            let coder = 1 + depth;
            let decoder = 2 + depth * (2 * n + 1);
            report(
                "coder step",
                &t,
                || timed(&infos, coder, |w, b| code(&table, w, b)),
                || timed(&infos, coder, |w, b| fast::code(&t, w, b)),
            );
            for (what, taken) in [("decoder step, right", &sent), ("decoder step, bursts", &bursts)] {
                report(
                    what,
                    &t,
                    || timed(taken, decoder, |w, b| decode(&table, w, b)),
                    || timed(taken, decoder, |w, b| fast::decode(&t, w, b)),
                );
            }
        }
        let t = made(n, 1);
        let file = bytes(&t);
        let once = [0; 400];
        let read = |_: &mut [u64], _| {
            let mut table = [0; 18];
            let a = unsafe { burst_read(file.as_ptr(), file.len(), table.as_mut_ptr()) };
            a.refused + a.place + a.l + a.e0 + a.e1 + table.iter().sum::<u64>()
        };
        let fast_read = |_: &mut [u64], _| fast::read(&file).map_or(0, |t| numbers(&t).iter().sum());
        report("reading a table", &t, || timed(&once, 0, read), || timed(&once, 0, fast_read));
    }
    let fetched_once = images::report();
    report_writing();
    let stations = iwadare::report_all(&mut random);
    let loads = load::report_all();
    let batches = batch::report_all(&mut random);
    if !fetched_once {
        println!("images with a span of 64 take more than twice what they take with one of 4");
    }
    if !stations {
        println!("a step of an Iwadare-Massey station takes longer than one of our own codes with n = 3");
    }
    if !loads {
        println!("a block of a test load with long gaps takes 2 ns or more");
    }
    if !batches {
        println!("a batch of 256 blocks or more with m = 16 is slower than is asked for");
    }
    if !fetched_once || !stations || !loads || !batches {
        std::process::exit(1);
    }
}
