//! Groups for the test load. Each load is filled by the archive and by the plain implementation, in both of its ways,
//! into numbers that held anything. The answer and every number, those around the lent ones too, must be the same. Then
//! loads are decoded from a start, by themselves and as the errors of a message: all that is delivered is right.

use super::*;
use batches::any_length;
use burst_compare::examples::LoadCase;
use burst_compare::load::{blocks_of, fill, rounds, Round};
use std::collections::BTreeMap;
use std::fmt;
use sums::{every_n_and_sort, info_of, mark_of, table_of, Sort, SORTS};

// ---- The count of what was compared ----

/// Of each kind of answer, end, table, size, burst, error, gap and mark.
const LEAST_MET: u64 = 30;

/// The answers: filled, an unfit table, a seed of 0.
const ANSWERS: [u64; 3] = [0, 12, 17];

/// Where a load ends: before its first block, within a burst, with a burst, within a gap, with a gap.
const ENDS: usize = 5;

/// Marks that deliveries of a load have: clean, held, corrected, parity. Doubtful is not one of them.
const DUE_MARKS: [usize; 4] = [1, 2, 3, 5];

/// How many of each number there were.
#[derive(Default)]
struct Met(BTreeMap<u64, u64>);

impl Met {
    fn add(&mut self, number: u64) {
        *self.0.entry(number).or_default() += 1;
    }

    /// Of the number that there were the fewest of.
    fn least(&self, mut numbers: Range<u64>) -> u64 {
        numbers.try_fold(u64::MAX, |least, number| Some(least.min(*self.0.get(&number)?))).unwrap_or(0)
    }

    fn all(&self) -> u64 {
        self.0.values().sum()
    }
}

/// Of whole rounds: bursts by length, errors by kind (0, the parity alone, others), gaps by surplus, and bursts of m
/// blocks whose gap has none.
#[derive(Default)]
struct Rounds {
    bursts: Met,
    errors: [u64; 3],
    gaps: Met,
    tight: u64,
}

impl Rounds {
    fn add(&mut self, table: &Table, rounds: &[Round]) {
        for Round { errors, surplus } in rounds {
            self.bursts.add(errors.len() as u64);
            self.gaps.add(*surplus);
            self.tight += u64::from(errors.len() as u64 == table.depth && *surplus == 0);
            for &error in errors {
                let other = 1 + usize::from(error != parity_alone(table));
                self.errors[if error == 0 { 0 } else { other }] += 1;
            }
        }
    }

    /// The least of bursts of a length, of errors of a kind, of gaps with a surplus, and of tight rounds.
    fn least(&self) -> [u64; 4] {
        let [right, parity, others] = self.errors;
        [self.bursts.least(1..65), right.min(parity).min(others), self.gaps.least(0..16), self.tight]
    }
}

impl fmt::Display for Rounds {
    fn fmt(&self, f: &mut fmt::Formatter) -> fmt::Result {
        let (bursts, [burst, _, gap, tight]) = (self.bursts.all(), self.least());
        write!(f, "{bursts} bursts, {burst} or more of each length 1 to 64, {gap} or more with each gap, ")?;
        write!(f, "{tight} of m blocks with the least gap, errors (0, parity, others) {:?}", self.errors)
    }
}

#[derive(Default)]
pub struct Count {
    answers: Met,
    /// Of filled loads.
    ends: [u64; ENDS],
    sorts: [u64; SORTS.len()],
    /// n, N, m.
    sizes: [Met; 3],
    compared: Rounds,
    /// Of rounds whose blocks were all delivered.
    decoded: Rounds,
    /// By how the load was decoded.
    marks: [[u64; MARKS]; WAYS],
}

impl Count {
    fn add(&mut self, table: &Table, rounds: &[Round], length: usize) {
        for (met, size) in self.sizes.iter_mut().zip([table.n, table.span, table.depth]) {
            met.add(size);
        }
        self.ends[end_of(table, rounds, length)] += 1;
        self.compared.add(table, whole_rounds(table, rounds, length));
    }

    pub fn calls(&self) -> u64 {
        self.answers.all()
    }

    fn by_answer(&self) -> [u64; 3] {
        ANSWERS.map(|answer| self.answers.least(answer..answer + 1))
    }

    /// Of an n, of an N and of an m.
    fn least_sizes(&self) -> [u64; 3] {
        let [n, span, depth] = &self.sizes;
        [n.least(2..17), span.least(2..65), depth.least(1..65)]
    }
}

impl fmt::Display for Count {
    fn fmt(&self, f: &mut fmt::Formatter) -> fmt::Result {
        let Count { ends, sorts, compared, decoded, marks, .. } = self;
        let (calls, answers, sizes) = (self.calls(), self.by_answer(), self.least_sizes());
        write!(
            f,
            "{calls} loads compared, by answer (filled, refusals 12, 17): {answers:?}; by end (no block, "
        )?;
        writeln!(f, "within a burst, with it, within a gap, with it): {ends:?}")?;
        write!(f, "loads: tables (made, read, unsuitable, any fit): {sorts:?}; ")?;
        writeln!(f, "loads filled, the least of an n, an N, an m: {sizes:?}")?;
        writeln!(f, "loads: compared {compared}")?;
        writeln!(f, "loads: decoded {decoded}")?;
        write!(f, "loads: marks 0 to 5 by single calls, by batches, by both: {marks:?}")
    }
}

pub fn everything_reached(tally: &mut Tally) {
    let Count { ends, sorts, compared, decoded, marks, .. } = &tally.load;
    let marks = marks.map(|marks| DUE_MARKS.map(|mark| marks[mark]));
    for (what, counts) in [
        ("answers", tally.load.by_answer().to_vec()),
        ("ends", ends.to_vec()),
        ("sorts of tables", sorts.to_vec()),
        ("sizes", tally.load.least_sizes().to_vec()),
        ("bursts, errors, gaps and tight rounds compared", compared.least().to_vec()),
        ("bursts, errors, gaps and tight rounds decoded", decoded.least().to_vec()),
        ("marks of deliveries", marks.concat()),
    ] {
        let reached = counts.iter().all(|&count| count >= LEAST_MET);
        tally.check(reached, || format!("loads: {what} of each kind: only {counts:?}"));
    }
}

// ---- Rounds ----

fn parity_alone(table: &Table) -> u16 {
    1 << (table.n - 1)
}

/// Those that do not end after the load.
fn whole_rounds<'a>(table: &Table, rounds: &'a [Round], length: usize) -> &'a [Round] {
    let blocks: usize = rounds.iter().map(|round| round.length(table)).sum();
    &rounds[..rounds.len() - usize::from(blocks > length)]
}

/// Where a load with these rounds ends, numbered as `ENDS` says.
fn end_of(table: &Table, rounds: &[Round], length: usize) -> usize {
    let Some((last, before)) = rounds.split_last() else {
        return 0;
    };
    let of_last = length - before.iter().map(|round| round.length(table)).sum::<usize>();
    let (burst, whole) = (last.errors.len(), last.length(table));
    1 + usize::from(of_last >= burst) + usize::from(of_last > burst) + usize::from(of_last == whole)
}

// ---- A compared load ----

/// Numbers that stand before those lent, and after them.
const MARGIN: usize = 5;

/// What a call did: its answer, and all numbers with those around the lent ones.
type Outcome = (u64, Vec<u16>);

fn plain_load(table: &Table, seed: u32, mut blocks: Vec<u16>) -> Outcome {
    let lent = MARGIN..blocks.len() - MARGIN;
    (fill(table, seed, &mut blocks[lent]).err().unwrap_or(0), blocks)
}

fn linked_load(table: &Table, seed: u32, mut blocks: Vec<u16>) -> Outcome {
    let lent = MARGIN..blocks.len() - MARGIN;
    (linked::load(&table.numbers(), seed, &mut blocks[lent]), blocks)
}

/// Compares a load of so many blocks, and returns the answer and what the lent numbers then hold.
fn compare_load(tally: &mut Tally, draw: &mut Draw, table: &Table, seed: u32, length: usize) -> Outcome {
    let before: Vec<u16> = (0..MARGIN + length + MARGIN).map(|_| draw.bits(16) as u16).collect();
    let lent = MARGIN..MARGIN + length;
    let (expected, plain) = plain_load(table, seed, before.clone());
    let (got, linked) = linked_load(table, seed, before);
    let call = || format!("load of {length} blocks, seed {seed}, {table:?}");
    tally.calls += 1;
    tally.load.answers.add(expected);
    tally.check(got == expected, || format!("{}: expected {expected}, got {got}", call()));
    tally.check(linked == plain, || {
        let at = plain.iter().zip(&linked).position(|(plain, linked)| plain != linked);
        format!("{}: differs first at block {:?}", call(), at.map(|at| at as isize - MARGIN as isize))
    });
    if expected == 0 {
        let rounds = rounds(table, seed, length);
        tally.check(blocks_of(table, &rounds, length) == plain[lent.clone()], || {
            format!("{}: the two plain ways differ", call())
        });
        tally.load.add(table, &rounds, length);
    }
    (got, linked[lent].to_vec())
}

/// Compares a load that is not refused, and returns its blocks.
fn filled(tally: &mut Tally, draw: &mut Draw, table: &Table, seed: u32, length: usize) -> Vec<u16> {
    let (got, blocks) = compare_load(tally, draw, table, seed, length);
    tally.check(got == 0, || format!("refused {got}: load of {length} blocks, seed {seed}, {table:?}"));
    blocks
}

/// Holds the plain answer and the linked one to the case, each by itself, and every number of both.
pub fn check_case(tally: &mut Tally, LoadCase { table, seed, length, fills }: &LoadCase) {
    let before: Vec<u16> = (0..MARGIN + length + MARGIN).map(|at| 0xE000 ^ at as u16).collect();
    let mut after = before.clone();
    if let Ok(blocks) = fills {
        after[MARGIN..MARGIN + length].copy_from_slice(blocks);
    }
    let due = (fills.as_ref().err().copied().unwrap_or(0), after);
    let (plain, linked) = (plain_load(table, *seed, before.clone()), linked_load(table, *seed, before));
    check_answers(tally, due, plain, linked);
}

fn any_table_of(tally: &mut Tally, draw: &mut Draw, sort: Sort, n: u64, depth: u64) -> Table {
    tally.load.sorts[sort as usize] += 1;
    table_of(tally, draw, sort, n, depth)
}

// ---- Groups: numbers ----

/// Every length to 400; each load is the beginning of the longest.
pub fn every_length(tally: &mut Tally, draw: &mut Draw) {
    for (n, sort) in every_n_and_sort() {
        let depth = any_depth(draw);
        let (table, seed) = (any_table_of(tally, draw, sort, n, depth), any_seed(draw));
        let longest = filled(tally, draw, &table, seed, 400);
        for length in 0..400 {
            let blocks = filled(tally, draw, &table, seed, length);
            tally.check(blocks == longest[..length], || {
                format!("{length} blocks are not the beginning of 400, seed {seed}, {table:?}")
            });
        }
    }
}

/// Two rounds of tables with every n and m, cut a block before the end of a burst and of a gap, there, and a block
/// after it. What the rows are does not tell.
pub fn every_size(tally: &mut Tally, draw: &mut Draw) {
    for (n, depth) in (2..=16).flat_map(|n| (1..=64).map(move |depth| (n, depth))) {
        let table = any_table_of(tally, draw, SORTS[(n + depth) as usize % SORTS.len()], n, depth);
        let seed = any_seed(draw);
        let first = &rounds(&table, seed, 1)[0];
        let (burst, round) = (first.errors.len(), first.length(&table));
        let second = &rounds(&table, seed, round + 1)[1];
        let ends = [burst, round, round + second.errors.len(), round + second.length(&table)];
        let longest = filled(tally, draw, &table, seed, ends[3] + 1);
        for length in ends.into_iter().flat_map(|end| [end - 1, end, end + 1]) {
            let blocks = filled(tally, draw, &table, seed, length);
            tally.check(longest.starts_with(&blocks), || format!("{length} blocks, seed {seed}, {table:?}"));
        }
        let other = fit_table(draw, n, table.span, depth);
        let same = filled(tally, draw, &other, seed, longest.len()) == longest;
        tally.check(same, || format!("rows tell, seed {seed}, {table:?}"));
    }
}

/// Seeds of a single bit, of all bits but one, the first ones, and any; with many draws in few blocks.
pub fn seeds(tally: &mut Tally, draw: &mut Draw) {
    let tables = [fit_table(draw, 16, 2, 64), fit_table(draw, 2, 2, 1), made_table(tally, 5, 7)];
    let single = (0..32).flat_map(|bit| [1 << bit, !(1 << bit)]);
    let seeds: Vec<u32> = single.chain(1..=200).chain((0..2_000).map(|_| any_seed(draw))).collect();
    for (table, &seed) in tables.iter().flat_map(|table| seeds.iter().map(move |seed| (table, seed))) {
        let length = draw.between(250, 350) as usize;
        filled(tally, draw, table, seed, length);
    }
}

/// Loads that are long enough for every length of a burst and every gap, with every m, and so many that 16 bits do not
/// count their blocks; and one with the longest gaps.
pub fn every_round(tally: &mut Tally, draw: &mut Draw) {
    for depth in 1..=64 {
        let table = fit_table(draw, 2 + depth % 15, 2, depth);
        let (seed, count) = (any_seed(draw), (24 * depth).max(400)); // so many rounds hardly miss one
        let length = (count * (2 * depth + 8)) as usize;
        filled(tally, draw, &table, seed, length);
        let mut seen = Rounds::default();
        seen.add(&table, &rounds(&table, seed, length));
        let lengths = seen.bursts.least(1..depth + 1) > 0 && seen.bursts.0.len() as u64 == depth;
        let gaps = seen.gaps.least(0..16) > 0 && seen.gaps.0.len() == 16;
        tally.check(lengths && gaps, || format!("a burst or a gap is missing: {seen}, {table:?}"));
    }
    let (table, seed) = (fit_table(draw, 16, 64, 64), any_seed(draw));
    filled(tally, draw, &table, seed, 1_000_000);
}

/// 12 whatever the seed is, and 17 of every fit table, suitable or not; also where no number is lent.
pub fn refusals(tally: &mut Tally, draw: &mut Draw) {
    for round in 0..20_000 {
        let fit = any_table(draw);
        let unfit = unfit_table(draw, &fit);
        let length = if round % 8 == 0 { 0 } else { draw.below(40) as usize };
        let seed = any_seed(draw);
        for (table, seed, due) in [(&unfit, seed, 12), (&unfit, 0, 12), (&fit, 0, 17), (&fit, seed, 0)] {
            let (got, _) = compare_load(tally, draw, table, seed, length);
            tally.check(got == due, || format!("{due} is due, got {got}: seed {seed}, {table:?}"));
        }
    }
}

// ---- Groups: loads decoded ----

/// How a load is decoded.
#[derive(Clone, Copy, Debug)]
enum Way {
    Calls,
    Batches,
    Both,
}

const WAYS: usize = 3;

/// Whether an entry is as due: nothing yet, or of a delivered block, given by its error and the information sent, that
/// information and a mark that tells the error. N − 1 right blocks follow a wrong one in its stream, so the register is
/// its image when it is delivered, and no image but 0 before and after that.
fn is_due(table: &Table, delivered: Option<(u16, u16)>, entry: u32) -> bool {
    let Some((error, info)) = delivered else {
        return entry == 0;
    };
    let mark = mark_of(entry);
    let told = match error {
        0 => mark == 1 || mark == 2,
        _ if error == parity_alone(table) => mark == 5,
        _ => mark == 3,
    };
    told && info_of(entry) == u32::from(info)
}

/// The entries of all blocks, which are taken in parts; and where a single call told of another error than this load's.
fn take_all(
    tally: &mut Tally,
    draw: &mut Draw,
    way: Way,
    table: &Table,
    received: &[u16],
    load: &[u16],
) -> (Vec<u32>, Option<usize>) {
    let mut twin = Twin::new(well_formed_decoder(draw, table));
    DECODER.compare_start(tally, table, &mut twin);
    let (mut entries, mut other_error) = (Vec::new(), None);
    while entries.len() < received.len() {
        let left = &received[entries.len()..];
        let part = &left[..any_length(draw, table).clamp(1, left.len())];
        let by_batch = match way {
            Way::Calls => false,
            Way::Batches => true,
            Way::Both => draw.once_in(2),
        };
        if by_batch {
            let (taken, _) = DECODER.compare_batch(tally, table, &mut twin, part, part.len());
            entries.extend(&taken);
            if taken.len() < part.len() {
                break;
            }
            continue;
        }
        for &block in part {
            let Decoded { refused, info, mark, error } = compare_decode(tally, table, &mut twin, block);
            if refused != 0 {
                return (entries, other_error);
            }
            let at = entries.len();
            let due = at.checked_sub(table.delay() as usize).map_or(0, |at| load[at]);
            other_error = other_error.or((error != u64::from(due)).then_some(at));
            entries.push((mark << 16 | info) as u32);
        }
    }
    (entries, other_error)
}

/// Decodes a load as the errors of a message that a started coder sent, or of one of zeros.
fn decode_load(
    tally: &mut Tally,
    draw: &mut Draw,
    way: Way,
    table: &Table,
    seed: u32,
    length: usize,
    zeros: bool,
) {
    let load = filled(tally, draw, table, seed, length);
    let infos = if zeros { vec![0; length] } else { CODER.fit_blocks(draw, table, length) };
    let mut coder = Twin::new(well_formed_coder(draw, table));
    CODER.compare_start(tally, table, &mut coder);
    let (sent, _) = CODER.compare_batch(tally, table, &mut coder, &infos, length);
    let received: Vec<u16> = sent.iter().zip(&load).map(|(&sent, error)| sent as u16 ^ error).collect();
    let call = || format!("{way:?}: load of {length} blocks, seed {seed}, {table:?}");
    tally.check(!zeros || received == load, || format!("not a message of zeros as received: {}", call()));

    let (entries, other_error) = take_all(tally, draw, way, table, &received, &load);
    let taken = entries.len();
    tally.check(taken == length, || format!("{taken} blocks taken: {}", call()));
    tally.check(other_error.is_none(), || format!("another error found at {other_error:?}: {}", call()));
    let delay = table.delay() as usize;
    let delivered = (0..taken).map(|at| at.checked_sub(delay).map(|at| (load[at], infos[at])));
    let wrong = delivered.zip(&entries).position(|(delivered, &entry)| !is_due(table, delivered, entry));
    tally.check(wrong.is_none(), || format!("answer {wrong:?} is wrong: {}", call()));
    for &entry in &entries {
        tally.load.marks[way as usize][mark_of(entry) as usize] += 1;
    }
    let delivered = length.saturating_sub(delay);
    let rounds = rounds(table, seed, delivered);
    tally.load.decoded.add(table, whole_rounds(table, &rounds, delivered));
}

/// Made and read tables of every m, the fewer streams the more rounds; and many rounds in 64 streams, for bursts of
/// every length.
fn decoded(tally: &mut Tally, draw: &mut Draw, way: Way) {
    for depth in 1..=64 {
        let sort = [Sort::Made, Sort::Read][depth as usize % 2];
        let n = any_n(draw);
        let (table, seed) = (any_table_of(tally, draw, sort, n, depth), any_seed(draw));
        let count = 1 + draw.between(64, 256) / depth;
        let length = table.delay() + count * (table.delay() + depth + 8) + draw.below(100);
        decode_load(tally, draw, way, &table, seed, length as usize, depth % 4 < 2);
    }
    for (n, zeros) in [(2, true), (3, false)] {
        let (table, seed) = (any_table_of(tally, draw, Sort::Made, n, 64), any_seed(draw));
        decode_load(tally, draw, way, &table, seed, 200_000, zeros);
    }
}

pub fn decoded_by_calls(tally: &mut Tally, draw: &mut Draw) {
    decoded(tally, draw, Way::Calls);
}

pub fn decoded_by_batches(tally: &mut Tally, draw: &mut Draw) {
    decoded(tally, draw, Way::Batches);
}

pub fn decoded_by_both(tally: &mut Tally, draw: &mut Draw) {
    decoded(tally, draw, Way::Both);
}

/// Every line of a load's listing has information 0 and is not doubtful.
pub fn listed(tally: &mut Tally, draw: &mut Draw) {
    for (n, depth) in (2..=16).flat_map(|n| [1, 2, 3, 64].map(|depth| (n, depth))) {
        let (table, seed) = (any_table_of(tally, draw, Sort::Made, n, depth), any_seed(draw));
        let length = (table.delay() + draw.below(3 * table.delay())) as usize;
        let load = filled(tally, draw, &table, seed, length);
        let mut input = vec![n as u8, depth as u8];
        input.extend(load.iter().flat_map(|block| block.to_le_bytes()));
        let listing = compare_listing(tally, &input);
        let right = |line: &&str| line.split(' ').nth(1) == Some("0") && !line.contains("doubtful");
        let lines = listing.lines().skip(1).filter(right).count();
        let due = length - table.delay() as usize;
        tally.check(lines == due && listing.lines().count() == 1 + due, || {
            format!("{lines} right lines, {due} are due: listing of {length} blocks, seed {seed}, {table:?}")
        });
    }
}
