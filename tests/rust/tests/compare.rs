//! Compares the proved implementation, call by call and word by word, with the plain one, and both with listed
//! cases.

use burst_compare::cases::*;
use burst_compare::examples::{load_cases, read_cases, step_cases, sum_cases, write_cases, z};
use burst_compare::examples::{ReadCase, Says, Step, StepCase};
use burst_compare::iwadare_cases::station_cases;
use burst_compare::oracle::{self, Delivered, ReadRefusal, Table, Triple, MARKS};
use burst_compare::{linked, program, Coded, Decoded, Numbers, Reading};
use std::fmt::Debug;
use std::ops::Range;
use std::time::Instant;

mod batches;
mod clashes;
mod images;
mod iwadare;
mod load;
mod sums;
mod writing;

const SEED: u64 = 0x9E37_79B9_7F4A_7C15;
const LEAST_CALLS: u64 = 10_000_000;
const SHOWN_MISMATCHES: usize = 3;

// ---- The count of what was compared ----

#[derive(Default)]
struct Tally {
    calls: u64,
    refusals: [u64; 16],
    marks: [u64; MARKS],
    /// Of the last m calls of double guards.
    guard_end: [u64; MARKS],
    batches: batches::Count,
    writing: writing::Count,
    clashes: clashes::Count,
    iwadare: iwadare::Count,
    sums: sums::Count,
    load: load::Count,
    mismatches: u64,
    shown: Vec<String>,
}

impl Tally {
    fn check(&mut self, holds: bool, message: impl FnOnce() -> String) {
        if holds {
            return;
        }
        self.mismatches += 1;
        if self.shown.len() < SHOWN_MISMATCHES {
            self.shown.push(message());
        }
    }

    /// Counts a compared call by the refusal expected of it, 0 if none.
    fn count(&mut self, refused: u64) {
        self.calls += 1;
        self.refusals[refused as usize] += 1;
    }

    /// Ends a group: whether it held, with its mismatches handed out.
    fn close(&mut self) -> (u64, Vec<String>) {
        (std::mem::take(&mut self.mismatches), std::mem::take(&mut self.shown))
    }
}

// ---- A memory lent to both ----

const FENCE: [u64; 2] = [0xFE5C_E000_0000_0001, 0xFE5C_E000_0000_0002];

/// The same words twice; the linked ones stand between fences, so that a write past them shows.
struct Twin {
    plain: Vec<u64>,
    fenced: Vec<u64>,
    lent: Range<usize>,
}

impl Twin {
    fn new(words: Vec<u64>) -> Twin {
        let mut twin = Twin { plain: words, fenced: Vec::new(), lent: 0..0 };
        twin.match_plain();
        twin
    }

    fn match_plain(&mut self) {
        self.fenced.clear();
        self.fenced.extend(FENCE);
        self.fenced.extend(&self.plain);
        self.fenced.extend(FENCE);
        self.lend_all();
    }

    fn set(&mut self, words: &[u64]) {
        self.plain.clear();
        self.plain.extend(words);
        self.match_plain();
    }

    fn lend_all(&mut self) {
        self.lent = 0..self.plain.len();
    }

    /// Lends less than all from here on.
    fn lend(&mut self, part: Range<usize>) {
        self.lent = part;
    }

    fn plain(&mut self) -> &mut [u64] {
        &mut self.plain[self.lent.clone()]
    }

    fn linked(&mut self) -> &mut [u64] {
        let Range { start, end } = self.lent;
        &mut self.fenced[start + FENCE.len()..end + FENCE.len()]
    }

    fn agrees(&self) -> bool {
        let end = FENCE.len() + self.plain.len();
        self.fenced[FENCE.len()..end] == self.plain[..]
            && self.fenced[..FENCE.len()] == FENCE
            && self.fenced[end..] == FENCE
    }

    /// Checks every word; after a mismatch both go on from the plain words.
    fn check(&mut self, tally: &mut Tally, call: impl FnOnce() -> String) {
        if !self.agrees() {
            let theirs = self.fenced[FENCE.len()..].iter();
            let at = self.plain.iter().zip(theirs).position(|(plain, linked)| plain != linked);
            tally.check(false, || format!("{}: memory differs first at word {at:?}", call()));
            let lent = self.lent.clone();
            self.match_plain();
            self.lend(lent);
        }
    }
}

// ---- Compared calls ----

/// What reading answers of a table that it accepts.
const READ: Reading = Reading { refused: 0, place: 0, l: 0, e0: 0, e1: 0 };

/// Refusals 1 to 9.
fn refused_at(refused: u64, place: u64) -> Reading {
    Reading { refused, place, ..READ }
}

/// Refusal 10.
fn unsuitable_by(Triple { l, e0, e1 }: Triple) -> Reading {
    Reading { refused: 10, l, e0, e1, ..READ }
}

/// The answer, and what the table's numbers hold after it.
fn plain_read(bytes: &[u8]) -> (Reading, Numbers) {
    let refusal = match oracle::read_table(bytes) {
        Ok(table) => return (READ, table.numbers()),
        Err(ReadRefusal::At { number, place }) => refused_at(number, place as u64),
        Err(ReadRefusal::Unsuitable(triple)) => unsuitable_by(triple),
    };
    (refusal, linked::UNWRITTEN)
}

fn compare_read(tally: &mut Tally, bytes: &[u8]) -> Reading {
    let (expected, numbers) = plain_read(bytes);
    let (got, got_numbers) = linked::read(bytes);
    tally.count(expected.refused);
    tally.check(got == expected && got_numbers == numbers, || {
        format!("read {bytes:02X?}: expected {expected:?} {numbers:?}, got {got:?} {got_numbers:?}")
    });
    got
}

fn compare_make(tally: &mut Tally, n: u64, m: u64) {
    let answer = oracle::make_table(n, m);
    let refused = answer.as_ref().err().copied().unwrap_or(0);
    let numbers = answer.map_or(linked::UNWRITTEN, |table| table.numbers());
    let got = linked::make(n, m);
    tally.count(refused);
    tally.check(got == (refused, numbers), || {
        format!("make {n} {m}: expected {refused} {numbers:?}, got {got:?}")
    });
}

fn plain_coded(answer: Result<u64, u64>) -> Coded {
    match answer {
        Ok(block) => Coded { refused: 0, block },
        Err(refused) => Coded { refused, block: 0 },
    }
}

fn compare_code(tally: &mut Tally, table: &Table, twin: &mut Twin, info: u16) -> Coded {
    let expected = plain_coded(oracle::code(table, twin.plain(), u64::from(info)));
    let got = linked::code(&table.numbers(), twin.linked(), info);
    tally.count(expected.refused);
    tally.check(got == expected, || format!("code {info} {table:?}: expected {expected:?}, got {got:?}"));
    twin.check(tally, || format!("code {info} {table:?}"));
    got
}

fn plain_decoded(answer: Result<Option<Delivered>, u64>) -> Decoded {
    let nothing = Decoded { refused: 0, info: 0, mark: 0, error: 0 };
    match answer {
        Err(refused) => Decoded { refused, ..nothing },
        Ok(None) => nothing,
        Ok(Some(Delivered { info, mark })) => {
            Decoded { refused: 0, info, mark: mark.number(), error: mark.error() }
        }
    }
}

fn compare_decode(tally: &mut Tally, table: &Table, twin: &mut Twin, received: u16) -> Decoded {
    let expected = plain_decoded(oracle::decode(table, twin.plain(), u64::from(received)));
    let got = linked::decode(&table.numbers(), twin.linked(), received);
    tally.count(expected.refused);
    if expected.refused == 0 {
        tally.marks[expected.mark as usize] += 1;
    }
    tally.check(got == expected, || {
        format!("decode {received} {table:?}: expected {expected:?}, got {got:?}")
    });
    twin.check(tally, || format!("decode {received} {table:?}"));
    got
}

// ---- Coder and decoder alike ----

/// What a coder and a decoder do not share.
struct Side {
    name: &'static str,
    plain_start: fn(&Table, &mut [u64]) -> Result<(), u64>,
    linked_start: fn(&Numbers, &mut [u64]) -> u64,
    refusal: fn(&Table, &[u64], u64) -> Option<u64>,
    compare: fn(&mut Tally, &Table, &mut Twin, u16),
    plain_batch: fn(&Table, &mut [u64], &[u16], &mut [u32]) -> usize,
    linked_batch: fn(&Numbers, &mut [u64], &[u16], &mut [u32]) -> usize,
    /// The entry of a block by the linked single call, or why that is refused.
    linked_entry: fn(&Numbers, &mut [u64], u16) -> Result<u32, u64>,
    memory: fn(&mut Draw, &Table) -> Vec<u64>,
    well_formed: fn(&mut Draw, &Table) -> Vec<u64>,
    /// How many bits a block has that a step is handed, by n.
    bits: fn(u64) -> u64,
    /// One past what is fit of each word, by n, N and m.
    bounds: fn(u64, u64, u64) -> Vec<u64>,
}

const CODER: Side = Side {
    name: "coder",
    plain_start: oracle::start_coder,
    linked_start: linked::start_coder,
    refusal: oracle::code_refusal,
    compare: |tally, table, twin, info| _ = compare_code(tally, table, twin, info),
    plain_batch: oracle::code_batch,
    linked_batch: linked::code_batch,
    linked_entry: |table, words, info| match linked::code(table, words, info) {
        Coded { refused: 0, block } => Ok(block as u32),
        Coded { refused, .. } => Err(refused),
    },
    memory: any_coder_memory,
    well_formed: well_formed_coder,
    bits: |n| n - 1,
    bounds: |_, span, depth| [vec![depth], vec![1 << (span - 1); depth as usize]].concat(),
};

const DECODER: Side = Side {
    name: "decoder",
    plain_start: oracle::start_decoder,
    linked_start: linked::start_decoder,
    refusal: oracle::decode_refusal,
    compare: |tally, table, twin, received| _ = compare_decode(tally, table, twin, received),
    plain_batch: oracle::decode_batch,
    linked_batch: linked::decode_batch,
    linked_entry: |table, words, received| match linked::decode(table, words, received) {
        Decoded { refused: 0, info, mark, .. } => Ok((mark << 16 | info) as u32),
        Decoded { refused, .. } => Err(refused),
    },
    memory: any_decoder_memory,
    well_formed: well_formed_decoder,
    bits: |n| n,
    bounds: |n, span, depth| {
        let stream = [vec![1 << (span - 1); 2], vec![1 << (n - 1); span as usize - 1]].concat();
        [vec![depth, depth * (span - 1) + 1], stream.repeat(depth as usize)].concat()
    },
};

impl Side {
    fn compare_start(&self, tally: &mut Tally, table: &Table, twin: &mut Twin) {
        let expected = (self.plain_start)(table, twin.plain()).err().unwrap_or(0);
        let got = (self.linked_start)(&table.numbers(), twin.linked());
        tally.count(expected);
        let call = format!("start {} {table:?} with {} words", self.name, twin.lent.len());
        tally.check(got == expected, || format!("{call}: expected {expected}, got {got}"));
        twin.check(tally, || call);
    }

    /// One step, now and then of a kind that is mostly refused.
    fn any_step(&self, tally: &mut Tally, draw: &mut Draw, table: &Table, twin: &mut Twin) {
        let block = any_block(draw, (self.bits)(table.n));
        match draw.below(24) {
            0 => (self.compare)(tally, &unfit_table(draw, table), twin, block),
            1 => {
                lend_some(draw, twin);
                (self.compare)(tally, table, twin, block);
                twin.lend_all();
            }
            _ => (self.compare)(tally, table, twin, block),
        }
    }

    fn steps(&self, tally: &mut Tally, draw: &mut Draw, runs: u64, length: u64) {
        for _ in 0..runs {
            let table = any_table(draw);
            let mut twin = Twin::new((self.memory)(draw, &table));
            for _ in 0..length {
                self.any_step(tally, draw, &table, &mut twin);
            }
        }
    }

    /// A step on the run's own memory that is refused, if the drawn one is.
    fn refused_step(&self, tally: &mut Tally, draw: &mut Draw, table: &Table, twin: &mut Twin) {
        let kind = draw.below(4);
        let handed = match kind {
            0 => unfit_table(draw, table),
            1 => other_table(draw, table),
            _ => table.clone(),
        };
        let block = too_large_block(draw, (self.bits)(handed.n.clamp(2, 16))).unwrap_or(0);
        if kind == 2 {
            lend_some(draw, twin);
        }
        if (self.refusal)(&handed, twin.plain(), u64::from(block)).is_some() {
            (self.compare)(tally, &handed, twin, block);
        }
        twin.lend_all();
    }

    /// Calls with every table of these sizes, every memory and every list of so many blocks within the bounds, which
    /// are one past what is fit, so that refusals 12, 14 and 15 come by themselves.
    fn every_small(
        &self,
        (n, span, depth): (u64, u64, u64),
        length: usize,
        mut call: impl FnMut(&Table, &mut Twin, &[u16]),
    ) {
        let words = (self.bounds)(n, span, depth);
        let bounds = [words.clone(), vec![1 << (self.bits)(n); length]].concat();
        let rows = vec![1 << span; n as usize - 1];
        let mut twin = Twin::new(Vec::new());
        let mut blocks = vec![0; length];
        each_tuple(&rows, |rows| {
            let table = Table::new(n, span, depth, rows);
            each_tuple(&bounds, |tuple| {
                twin.set(&tuple[..words.len()]);
                for (block, &number) in blocks.iter_mut().zip(&tuple[words.len()..]) {
                    *block = number as u16;
                }
                call(&table, &mut twin, &blocks);
            });
        });
    }
}

// ---- Groups: the scope's examples ----

fn expect_reading(tally: &mut Tally, bytes: &[u8], due: Reading) {
    let got = compare_read(tally, bytes);
    tally.check(got == due, || format!("read {bytes:02X?}: {due:?} is due, got {got:?}"));
}

fn examples_of_tables(tally: &mut Tally, draw: &mut Draw) {
    expect_reading(tally, &[1, 2, 4, 1, 2, 1, 0x0A, 0, 0, 0, 0, 0, 0, 0, 0], READ);
    expect_reading(tally, &[], refused_at(1, 0));
    expect_reading(tally, &[0], refused_at(4, 0));
    expect_reading(tally, &[1], refused_at(3, 0));
    expect_reading(tally, &[1, 17, 4, 1], refused_at(5, 0));
    let tables = [
        (Table::new(2, 4, 1, &[2]), unsuitable_by(Triple { l: 1, e0: 1, e1: 2 })),
        (Table::new(3, 6, 1, &[56, 34]), READ),
        (Table::new(5, 10, 1, &[976, 904, 772, 514]), unsuitable_by(Triple { l: 2, e0: 7, e1: 29 })),
    ];
    for (table, due) in tables {
        expect_reading(tally, &table_bytes(draw, &table), due);
    }
    for rows in [&[52, 34][..], &[232, 196, 130], &[976, 392, 772, 514]] {
        let n = rows.len() as u64 + 1;
        compare_make(tally, n, 1);
        let made = linked::make(n, 1);
        tally.check(made == (0, Table::new(n, 2 * n, 1, rows).numbers()), || format!("made {n}: {made:?}"));
    }
}

fn examples_of_steps(tally: &mut Tally, _: &mut Draw) {
    let mut coder = Twin::new(vec![7; 2]);
    CODER.compare_start(tally, &z(1), &mut coder);
    let sent = [1, 1, 0, 0, 0].map(|info| compare_code(tally, &z(1), &mut coder, info).block);
    tally.check(sent == [1, 3, 2, 2, 2], || format!("T10 sent {sent:?}"));

    let mut decoder = Twin::new(vec![7; 7]);
    DECODER.compare_start(tally, &z(1), &mut decoder);
    let marks = [2, 2, 0, 0].map(|received| compare_decode(tally, &z(1), &mut decoder, received).mark);
    tally.check(marks == [0, 0, 0, 4], || format!("T11 marks {marks:?}"));

    decoder.set(&[0, 3, 4, 0, 0, 0, 0]);
    let answers: Vec<Decoded> = (0..7).map(|_| compare_decode(tally, &z(1), &mut decoder, 0)).collect();
    // One place before the end of its guard of 6 no mark is promised yet: call 5 is held.
    let due = [(1, 0), (1, 0), (2, 0), (2, 0), (2, 0), (5, 2), (1, 0)];
    let due = due.map(|(mark, error)| Decoded { refused: 0, info: 0, mark, error });
    tally.check(answers == due, || format!("T12 answers {answers:?}"));

    // A clean mark early in a guard, here of 10, tells nothing: call 6 is wrong.
    let (made, mut decoder) = (Table::new(3, 6, 1, &[52, 34]), Twin::new(vec![0, 5, 22, 0, 0, 0, 0, 0, 0]));
    let answers: Vec<Decoded> = (0..10).map(|_| compare_decode(tally, &made, &mut decoder, 0)).collect();
    let mut due = [(0, 2, 0); 10];
    due[0] = (0, 1, 0);
    due[5] = (3, 3, 3);
    due[6..].fill((0, 1, 0));
    let due = due.map(|(info, mark, error)| Decoded { refused: 0, info, mark, error });
    tally.check(answers == due, || format!("a clean mark before a wrong block: {answers:?}"));
}

// ---- Groups: table bytes ----

/// Every refusal of reading at every kind of place, with what must come before what.
fn bytes_of_every_refusal(tally: &mut Tally, _: &mut Draw) {
    let sizes = sizes_record(3, 6, 1);
    let (row_1, row_2) = (row_record(1, 56), row_record(2, 34));
    let mut expect = |parts: &[&[u8]], refused, place| {
        expect_reading(tally, &parts.concat(), refused_at(refused, place));
    };
    for (before, place) in [(vec![], 0), (sizes.clone(), 4), ([&sizes[..], &row_1].concat(), 14)] {
        expect(&[&before], 1, place);
        expect(&[&before, &[3]], 2, place);
        expect(&[&before, &[255, 0, 0]], 2, place);
        expect(&[&before, &[1, 3, 6]], 3, place);
        expect(&[&before, &row_2[..9]], 3, place);
        expect(&[&before, &[2]], 3, place);
    }
    expect(&[&row_1], 4, 0);
    expect(&[&row_1, &sizes], 4, 0);
    expect(&[&[0], &sizes], 4, 0);
    expect(&[&sizes, &sizes], 4, 4);
    expect(&[&sizes, &[1, 0, 0, 0]], 4, 4);
    expect(&[&sizes, &row_1, &sizes], 4, 14);
    for out in [[0, 6, 1], [1, 6, 1], [17, 6, 1], [255, 6, 1], [3, 0, 1], [3, 1, 1], [3, 65, 1], [3, 255, 1]]
    {
        expect(&[&[1], &out, &row_1], 5, 0);
    }
    for out in [[3, 6, 0], [3, 6, 65], [3, 6, 255], [0, 0, 0]] {
        expect(&[&[1], &out], 5, 0);
    }
    for j in [0, 3, 4, 15, 16, 255] {
        expect(&[&sizes, &row_record(j, 1)], 6, 4);
        expect(&[&sizes, &row_record(j, u64::MAX)], 6, 4);
    }
    expect(&[&sizes, &row_1, &row_1], 6, 14);
    expect(&[&sizes, &row_1, &row_record(1, 64)], 6, 14);
    for row in [64, 127, 128, 1 << 63, u64::MAX, 56 + (1 << 32)] {
        expect(&[&sizes, &row_record(1, row)], 7, 4);
        expect(&[&sizes, &row_1, &row_record(2, row), &[9]], 7, 14);
    }
    expect(&[&sizes, &[0]], 8, 4);
    expect(&[&sizes, &row_2, &[0, 0]], 8, 14);
    expect(&[&sizes, &row_2, &row_1, &[0, 0]], 9, 25);
    expect(&[&sizes, &row_1, &row_2, &[0, 3, 3, 3]], 9, 25);
    expect(&[&sizes, &row_1, &row_2, &[0; 100_000]], 9, 25);
    let dependent = row_record(2, 56);
    expect(&[&sizes, &row_1, &dependent, &[0, 1]], 9, 25);
    for (row_2, e0) in [(56, 3), (0, 2), (1, 6)] {
        let bytes = [&sizes[..], &row_1, &row_record(2, row_2), &[0]].concat();
        expect_reading(tally, &bytes, unsuitable_by(Triple { l: 1, e0, e1: 0 }));
    }
}

fn bytes_cut_at_each_place(tally: &mut Tally, draw: &mut Draw) {
    for n in 2..=16 {
        for _ in 0..20 {
            let span = any_span(draw);
            let table = fit_table(draw, n, span, 1);
            let bytes = table_bytes(draw, &table);
            for length in 0..=bytes.len() {
                compare_read(tally, &bytes[..length]);
            }
        }
    }
}

fn bytes_mutated(tally: &mut Tally, draw: &mut Draw) {
    for _ in 0..120_000 {
        let table = if draw.once_in(2) { any_suitable_table(draw) } else { any_fit_table(draw) };
        let mut records = records(draw, &table);
        for _ in 0..draw.below(3) {
            mutate_records(draw, &mut records);
            if records.is_empty() {
                break;
            }
        }
        let mut bytes = records.concat();
        for _ in 0..draw.between(1, 2) {
            mutate_bytes(draw, &mut bytes);
        }
        compare_read(tally, &bytes);
    }
}

fn bytes_random(tally: &mut Tally, draw: &mut Draw) {
    for _ in 0..300_000 {
        let mut bytes = random_bytes(draw);
        if draw.once_in(2) {
            bytes.splice(0..0, [1, 2, draw.between(2, 64) as u8, 1]);
        }
        compare_read(tally, &bytes);
    }
}

// ---- Groups: suitability, making ----

fn tables_of_all_sizes(tally: &mut Tally, draw: &mut Draw) {
    let mut accepted = 0;
    for n in 2..=16 {
        for span in 2..=64 {
            for round in 0..9 {
                let depth = any_depth(draw);
                let table = match round % 3 {
                    0 => suitable_table(draw, n, span, depth),
                    1 => Some(spoilt_table(draw, n, span, depth)),
                    _ => None,
                };
                let table = table.unwrap_or_else(|| fit_table(draw, n, span, depth));
                let bytes = table_bytes(draw, &table);
                accepted += u64::from(compare_read(tally, &bytes).refused == 0);
            }
        }
    }
    tally.check(accepted > 1000, || format!("only {accepted} tables accepted"));
}

/// All rows of small tables: the first triple by trying all.
fn small_tables_all(tally: &mut Tally, draw: &mut Draw) {
    for (n, span) in (2..=9).map(|span| (2, span)).chain([(3, 2), (3, 4), (3, 5), (3, 6)]) {
        each_tuple(&vec![(1 << span) - 1; n as usize - 1], |rows| {
            let table = Table::new(n, span, 1, rows);
            let due = oracle::first_by_trying(&table).map_or(READ, unsuitable_by);
            expect_reading(tally, &table_bytes(draw, &table), due);
        });
    }
}

fn made_tables(tally: &mut Tally, draw: &mut Draw) {
    for n in 0..=20 {
        for m in 0..=70 {
            compare_make(tally, n, m);
        }
    }
    let far = [255, 256, 257, 258, 65_536 + 2, (1 << 32) + 2, 1 << 63, u64::MAX];
    for far in far {
        for near in [0, 1, 2, 16, 64] {
            compare_make(tally, far, near);
            compare_make(tally, near, far);
        }
    }
    for n in 2..=16 {
        let made = oracle::table_of_triangle(&oracle::triangle()[..n - 1], 1);
        expect_reading(tally, &table_bytes(draw, &made), READ);
    }
}

/// The plain search asserts that each column has one filling; the made tables were compared with it.
fn triangle_forced(tally: &mut Tally, _: &mut Draw) {
    let columns = oracle::triangle();
    tally.check(columns.len() == 15 && columns[..4] == [0b1, 0b11, 0b111, 0b1101], || {
        format!("columns {columns:?}")
    });
}

// ---- Groups: starting ----

/// Starts with the stated count of words and with others, on fit and unfit tables.
fn starting(tally: &mut Tally, draw: &mut Draw) {
    for _ in 0..60_000 {
        let fit = any_fit_table(draw);
        let table = if draw.once_in(4) { unfit_table(draw, &fit) } else { fit.clone() };
        let count = start_count(draw, fit.coder_words());
        CODER.compare_start(tally, &table, &mut Twin::new(random_words(draw, count)));
        let count = start_count(draw, fit.decoder_words());
        DECODER.compare_start(tally, &table, &mut Twin::new(random_words(draw, count)));
    }
}

fn start_count(draw: &mut Draw, stated: usize) -> usize {
    match draw.below(8) {
        0 => 0,
        1 => stated - 1,
        2 => stated + 1,
        3 => 2 * stated,
        _ => stated,
    }
}

// ---- Groups: steps from every small memory ----

/// Calls with every tuple of numbers from 0 to its bound, the bound included.
fn each_tuple(bounds: &[u64], mut call: impl FnMut(&[u64])) {
    let mut tuple = vec![0; bounds.len()];
    loop {
        call(&tuple);
        let Some(at) = (0..bounds.len()).find(|&at| tuple[at] < bounds[at]) else {
            return;
        };
        tuple[..at].fill(0);
        tuple[at] += 1;
    }
}

fn every_small_memory(tally: &mut Tally, _: &mut Draw) {
    for sizes in [(2, 2, 1), (2, 3, 1), (2, 2, 2), (3, 2, 1), (2, 4, 1)] {
        DECODER
            .every_small(sizes, 1, |table, twin, blocks| _ = compare_decode(tally, table, twin, blocks[0]));
    }
    for sizes in [(2, 2, 1), (2, 4, 2), (2, 3, 3), (3, 3, 2), (3, 4, 1), (4, 2, 2)] {
        CODER.every_small(sizes, 1, |table, twin, blocks| _ = compare_code(tally, table, twin, blocks[0]));
    }
}

// ---- Groups: steps from drawn memories ----

fn any_coder_memory(draw: &mut Draw, table: &Table) -> Vec<u64> {
    match draw.below(6) {
        0 => vec![0; table.coder_words()],
        1 => malformed_coder(draw, table),
        2 => random_words(draw, table.coder_words()),
        _ => well_formed_coder(draw, table),
    }
}

fn any_decoder_memory(draw: &mut Draw, table: &Table) -> Vec<u64> {
    match draw.below(8) {
        0 => vec![0; table.decoder_words()],
        1 => malformed_decoder(draw, table),
        2 => random_words(draw, table.decoder_words()),
        _ => well_formed_decoder(draw, table),
    }
}

/// Lends a shorter part for one call, or all; refusal 13 or none.
fn lend_some(draw: &mut Draw, twin: &mut Twin) {
    let count = twin.plain.len();
    let part = match draw.below(4) {
        0 => 0..count - 1,
        1 => 1..count,
        2 => 0..0,
        _ => 0..draw.below(count as u64) as usize,
    };
    twin.lend(part);
}

fn any_table(draw: &mut Draw) -> Table {
    if draw.once_in(3) {
        any_suitable_table(draw)
    } else {
        any_fit_table(draw)
    }
}

fn coder_steps(tally: &mut Tally, draw: &mut Draw) {
    CODER.steps(tally, draw, 20_000, 100);
}

fn decoder_steps(tally: &mut Tally, draw: &mut Draw) {
    DECODER.steps(tally, draw, 60_000, 40);
}

/// Long runs from a start, so that the fill completes by itself.
fn decoder_steps_from_the_start(tally: &mut Tally, draw: &mut Draw) {
    for _ in 0..1_000 {
        let table = any_table(draw);
        let count = table.decoder_words();
        let mut twin = Twin::new(random_words(draw, count));
        DECODER.compare_start(tally, &table, &mut twin);
        for _ in 0..(2 * table.delay()).min(1500) {
            DECODER.any_step(tally, draw, &table, &mut twin);
        }
    }
}

/// The ends of the sizes, with dependent, equal and zero rows among others.
fn extremes(tally: &mut Tally, draw: &mut Draw) {
    for round in 0..1_600 {
        let n = [2, 16][round % 2];
        let span = [2, 64][round / 2 % 2];
        let depth = [1, 64][round / 4 % 2];
        let mut table = fit_table(draw, n, span, depth);
        match round / 8 % 5 {
            0 => table.rows = [0; 15],
            1 => table.rows = [1; 15],
            2 => table.rows = [draw.bits(span); 15],
            3 => table.rows = std::array::from_fn(|j| 1 << (j as u64 % span)),
            _ => (),
        }
        let mut coder = Twin::new(any_coder_memory(draw, &table));
        let mut decoder = Twin::new(any_decoder_memory(draw, &table));
        for _ in 0..300 {
            CODER.any_step(tally, draw, &table, &mut coder);
            DECODER.any_step(tally, draw, &table, &mut decoder);
        }
    }
}

/// Every block value that 16 bits hold, on one memory each.
fn every_block(tally: &mut Tally, draw: &mut Draw) {
    for n in [2, 3, 8, 15, 16] {
        let span = any_span(draw);
        let depth = draw.between(1, 3);
        let table = fit_table(draw, n, span, depth);
        let mut coder = Twin::new(well_formed_coder(draw, &table));
        let mut decoder = Twin::new(well_formed_decoder(draw, &table));
        for block in 0..=u16::MAX {
            compare_code(tally, &table, &mut coder, block);
            compare_decode(tally, &table, &mut decoder, block);
        }
    }
}

/// A table whose decoder memory is as long as this one's, most often of other sizes.
fn table_of_equal_length(draw: &mut Draw, table: &Table) -> Table {
    let product = table.depth * (table.span + 1);
    let depths: Vec<u64> = (1..=64)
        .filter(|&depth| depth * (product / depth) == product && (3..=65).contains(&(product / depth)))
        .collect();
    let depth = draw.pick(&depths);
    let n = any_n(draw);
    fit_table(draw, n, product / depth - 1, depth)
}

fn other_table(draw: &mut Draw, table: &Table) -> Table {
    let (n, span) = (any_n(draw), any_span(draw));
    match draw.below(4) {
        0 => any_fit_table(draw),
        1 => fit_table(draw, n, span, table.depth),
        2 => fit_table(draw, n, table.span, table.depth),
        _ => table_of_equal_length(draw, table),
    }
}

/// Other tables on the same memory: refused, or a step by the other table.
fn tables_handed_over(tally: &mut Tally, draw: &mut Draw) {
    for _ in 0..12_000 {
        let mut table = any_table(draw);
        let mut coder = Twin::new(any_coder_memory(draw, &table));
        let mut decoder = Twin::new(any_decoder_memory(draw, &table));
        for _ in 0..30 {
            CODER.any_step(tally, draw, &table, &mut coder);
            DECODER.any_step(tally, draw, &table, &mut decoder);
            if draw.once_in(3) {
                let other = other_table(draw, &table);
                CODER.any_step(tally, draw, &other, &mut coder);
                DECODER.any_step(tally, draw, &other, &mut decoder);
                let stays = other.decoder_words() == table.decoder_words() && draw.once_in(4);
                table = if stays { other } else { table };
            }
        }
    }
}

// ---- Groups: against the definitions themselves ----

fn parity_by_definition(tally: &mut Tally, draw: &mut Draw) {
    for _ in 0..300 {
        let table = any_fit_table(draw);
        let mut twin = Twin::new(vec![0; table.coder_words()]);
        let mut streams = vec![Vec::new(); table.depth as usize];
        for t in 0..400 {
            let info = draw.bits(table.n - 1);
            let stream: &mut Vec<u64> = &mut streams[t % table.depth as usize];
            stream.push(info);
            let block = info | oracle::parity_by_definition(&table, stream) << (table.n - 1);
            let coded = compare_code(tally, &table, &mut twin, info as u16);
            tally.check(coded.block == block, || format!("parity of block {t} of {table:?}"));
        }
    }
}

/// The least error against trying all e, on tables with dependent rows among them.
fn least_error_by_trying(tally: &mut Tally, draw: &mut Draw) {
    for round in 0..16_000 {
        let n = if round % 64 == 0 { draw.between(11, 16) } else { draw.between(2, 8) };
        let span = any_span(draw);
        let table = fit_table(draw, n, span, 1);
        let e = draw.bits(n);
        let register = if draw.once_in(4) { draw.bits(span) } else { oracle::image(&table, e) };
        let least = oracle::least_error_by_trying(&table, register);
        let both = least == oracle::least_error_by_elimination(&table, register);
        tally.check(both, || format!("two ways differ: {table:?} {register}"));
        let (words, received) = memory_before(&table, register);
        let decoded = compare_decode(tally, &table, &mut Twin::new(words), received);
        let found = matches!(decoded.mark, 1 | 3 | 5).then_some(decoded.error);
        tally.check(found == least, || format!("least error {least:?}, got {decoded:?}"));
    }
}

// ---- Groups: demand 3 ----

fn made_table(tally: &mut Tally, n: u64, depth: u64) -> Table {
    compare_make(tally, n, depth);
    oracle::make_table(n, depth).expect("in range")
}

/// A table that reading or making returned, as the linked functions return it.
fn accepted_table(tally: &mut Tally, draw: &mut Draw) -> Table {
    let table = any_suitable_table(draw);
    if draw.once_in(3) {
        return made_table(tally, table.n, table.depth);
    }
    let bytes = table_bytes(draw, &table);
    expect_reading(tally, &bytes, READ);
    table
}

/// One run, whose first wrong place comes after this guard: the coder and the decoder from memories of their own,
/// refused steps in between. Returns the places at which bursts began.
fn run_of_fades(tally: &mut Tally, draw: &mut Draw, table: &Table, guard: u64, places: u64) -> Vec<u64> {
    let mut coder = Twin::new(well_formed_coder(draw, table));
    let mut decoder = Twin::new(well_formed_decoder(draw, table));
    if draw.once_in(4) {
        CODER.compare_start(tally, table, &mut coder);
    }
    if draw.once_in(4) {
        DECODER.compare_start(tally, table, &mut decoder);
    }
    let mut fades = Fades::new(draw, table, guard);
    let (mut infos, mut answers) = (Vec::new(), Vec::new());
    for p in 1..=places {
        if draw.once_in(16) {
            CODER.refused_step(tally, draw, table, &mut coder);
        }
        if draw.once_in(16) {
            DECODER.refused_step(tally, draw, table, &mut decoder);
        }
        let info = draw.bits(table.n - 1) as u16;
        infos.push(info);
        let sent = compare_code(tally, table, &mut coder, info);
        let taken = sent.block ^ fades.next_error(draw);
        let answer = compare_decode(tally, table, &mut decoder, taken as u16);
        answers.push((answer.info, answer.mark));
        tally
            .check(sent.refused == 0 && answer.refused == 0, || format!("refused at place {p} of {table:?}"));
    }
    let wrong = first_wrong_delivery(table, guard, &infos, &answers, &mut tally.guard_end);
    tally.check(wrong.is_none(), || format!("after a guard of {guard}, {wrong:?}: {table:?}"));
    fades.bursts
}

fn after_a_fade(tally: &mut Tally, draw: &mut Draw) {
    let (mut places, mut bursts) = (0, 0);
    while places < 3_000_000 {
        let table = accepted_table(tally, draw);
        let guard = double_guard(&table);
        let length = guard + draw.between(3, 6) * (table.delay() + table.depth);
        let length = length.max(1500);
        bursts += run_of_fades(tally, draw, &table, guard, length).len();
        places += length;
    }
    tally.check(bursts > 10_000, || format!("only {bursts} bursts in {places} places"));
}

/// What is due after the double guard, with 2 × m right places fewer. Made tables of few symbols half of the time:
/// a register is an image of theirs most often.
fn after_a_short_guard(tally: &mut Tally, draw: &mut Draw) {
    let (mut at_once, mut within) = (0, 0);
    for round in 0..4_000 {
        let (n, depth) = (2 + round / 2 % 4, draw.between(1, 4));
        let table = if round % 2 == 0 { made_table(tally, n, depth) } else { accepted_table(tally, draw) };
        let (guard, double) = (short_guard(&table), double_guard(&table));
        let length = double + draw.between(1, 3) * (table.delay() + table.depth);
        let first = run_of_fades(tally, draw, &table, guard, length).first().copied();
        at_once += u64::from(first == Some(guard + 1));
        within += u64::from(first.is_some_and(|place| (guard + 2..=double).contains(&place)));
    }
    tally.check(at_once > 1_000 && within > 500, || {
        format!("only {at_once} first bursts at once, {within} later within the double guard")
    });
}

/// With one place less it does not hold: on Z, after 3 right places, place 7 delivers the error of place 4.
fn shorter_guard_fails(tally: &mut Tally, _: &mut Draw) {
    let (mut coder, mut decoder) = (Twin::new(vec![0; 2]), Twin::new(vec![0, 3, 4, 0, 0, 0, 0]));
    let answers = [0, 0, 0, 1, 0, 0, 0].map(|error| {
        let sent = compare_code(tally, &z(1), &mut coder, 0).block;
        compare_decode(tally, &z(1), &mut decoder, sent as u16 ^ error)
    });
    let (info, mark) = (answers[6].info, answers[6].mark);
    tally.check((info, mark) == (1, 2), || format!("after a guard of 3: {answers:?}"));
}

/// From a malformed memory fewer than m blocks are taken, so demand 3 claims nothing of it.
fn malformed_memory_takes_few(tally: &mut Tally, draw: &mut Draw) {
    for _ in 0..2_000 {
        let table = any_suitable_table(draw);
        let mut twin = Twin::new(malformed_decoder(draw, &table));
        let taken = (0..2 * table.depth)
            .filter(|_| compare_decode(tally, &table, &mut twin, 0).refused == 0)
            .count() as u64;
        tally.check(taken < table.depth, || format!("{taken} blocks taken by {table:?}"));
    }
}

// ---- Groups: the listing program ----

/// Compares what the program prints, and returns what it should print.
fn compare_listing(tally: &mut Tally, input: &[u8]) -> String {
    let expected = oracle::listing(input);
    let got = program::listing(input).unwrap_or_else(|error| format!("target/bin/listing: {error}"));
    tally.calls += 1;
    tally.check(got == expected, || {
        let same = expected.lines().zip(got.lines()).take_while(|(due, line)| due == line).count();
        let (due, line) = (expected.lines().nth(same), got.lines().nth(same));
        let head = &input[..input.len().min(12)];
        format!("listing of {} bytes {head:?}..: line {same} should be {due:?}, got {line:?}", input.len())
    });
    expected
}

/// Every n to 17 and m to 66, each pair twice, and inputs without an m. The words count the listings that have them.
fn listings(tally: &mut Tally, draw: &mut Draw) {
    let mut words =
        ["clean", "held", "corrected", "doubtful", "parity", "refused 11", "refused 15", "odd byte"]
            .map(|word| (word, 0));
    compare_listing(tally, &[]);
    for n in 0..=17 {
        compare_listing(tally, &[n as u8]);
        for m in (0..=66).chain(0..=66) {
            let expected = compare_listing(tally, &listing_input(draw, n, m));
            for (word, count) in &mut words {
                *count += u64::from(expected.contains(*word));
            }
        }
    }
    for (word, count) in words {
        tally.check(count >= 100, || format!("only {count} listings have {word:?}"));
    }
}

// ---- Everything reached ----

fn guard_end_line([_, clean, .., parity]: [u64; MARKS], how: &str) -> String {
    format!("last m calls of double guards {how}: {} checked, {clean} clean, {parity} parity", clean + parity)
}

fn check_guard_end(tally: &mut Tally, marks: [u64; MARKS], how: &str) {
    let reached = marks[1] > 0 && marks[5] > 0;
    tally.check(reached, || format!("not both marks in the {}", guard_end_line(marks, how)));
}

fn everything_reached(tally: &mut Tally, _: &mut Draw) {
    for number in 1..=15 {
        let reached = tally.refusals[number] > 0;
        tally.check(reached, || format!("refusal {number} was not reached"));
    }
    for mark in 0..MARKS {
        let reached = tally.marks[mark] > 0;
        tally.check(reached, || format!("mark {mark} was not reached"));
    }
    check_guard_end(tally, tally.guard_end, "in single calls");
    batches::everything_reached(tally);
    writing::everything_reached(tally);
    clashes::everything_reached(tally);
    iwadare::everything_reached(tally);
    sums::everything_reached(tally);
    load::everything_reached(tally);
    let apart = tally.batches.batches + tally.iwadare.calls() + tally.sums.calls + tally.load.calls();
    let calls = tally.calls - apart;
    tally.check(calls >= LEAST_CALLS, || {
        format!("only {calls} calls compared, batches, stations, sums and loads apart")
    });
}

// ---- Listed cases ----

/// Holds both answers to the one that is due.
fn check_answers<A: PartialEq + Debug>(tally: &mut Tally, due: A, plain: A, linked: A) {
    tally.check(plain == due && linked == due, || format!("plain answer: {plain:?}, linked: {linked:?}"));
}

/// Holds both answers to the case, and the table that is written or not.
fn check_reading(tally: &mut Tally, ReadCase { bytes, says }: &ReadCase) {
    let due = match says {
        Says::Refused(number, place) => (refused_at(*number, *place), linked::UNWRITTEN),
        Says::Unsuitable(triple) => (unsuitable_by(*triple), linked::UNWRITTEN),
        Says::Accepted(table) => (READ, table.numbers()),
    };
    check_answers(tally, due, plain_read(bytes), linked::read(bytes));
}

/// Holds both answers to the case, step by step, and then every word of both memories.
fn check_steps(tally: &mut Tally, StepCase { table, memory, steps, after }: &StepCase) {
    let mut twin = Twin::new(memory.clone());
    for step in steps {
        match *step {
            Step::Code(info, due) => {
                let plain = plain_coded(oracle::code(table, twin.plain(), u64::from(info)));
                let linked = linked::code(&table.numbers(), twin.linked(), info);
                check_answers(tally, due, plain, linked);
            }
            Step::Decode(received, due) => {
                let plain = plain_decoded(oracle::decode(table, twin.plain(), u64::from(received)));
                let linked = linked::decode(&table.numbers(), twin.linked(), received);
                check_answers(tally, due, plain, linked);
            }
        }
    }
    tally.check(twin.plain == *after, || format!("plain memory: {:?}", twin.plain));
    twin.check(tally, || String::from("linked memory"));
}

type Group = (&'static str, fn(&mut Tally, &mut Draw));

const GROUPS: [Group; 73] = [
    ("examples of tables", examples_of_tables),
    ("examples of steps", examples_of_steps),
    ("bytes of every refusal and place", bytes_of_every_refusal),
    ("bytes cut at each place", bytes_cut_at_each_place),
    ("bytes of mutated tables", bytes_mutated),
    ("random bytes", bytes_random),
    ("tables of all n and N", tables_of_all_sizes),
    ("all small tables, by trying", small_tables_all),
    ("made tables", made_tables),
    ("starting", starting),
    ("every small memory", every_small_memory),
    ("coder steps", coder_steps),
    ("decoder steps", decoder_steps),
    ("decoder steps from the start", decoder_steps_from_the_start),
    ("ends of the sizes", extremes),
    ("every block", every_block),
    ("tables handed over in between", tables_handed_over),
    ("parity by its definition", parity_by_definition),
    ("least error by trying", least_error_by_trying),
    ("after a fade", after_a_fade),
    ("malformed memories take few", malformed_memory_takes_few),
    ("the listing program", listings),
    ("triangle forced", triangle_forced),
    ("batches: examples", batches::examples),
    ("batches: any cut of a run", batches::any_cut),
    ("batches: every length, room and block too large", batches::every_length_and_room),
    ("batches: malformed memories", batches::malformed),
    ("batches: every small memory", batches::every_small_memory),
    ("batches: single calls and refusals in between", batches::mixed),
    ("batches: the first wrong block at each place", batches::first_wrong_block),
    ("batches: unused rows", batches::unused_rows),
    ("batches: every block", batches::every_block),
    ("writing: accepted tables, read back", writing::read_back),
    ("writing: files with rows in any order", writing::files_sorted),
    ("writing: every room", writing::every_room),
    ("writing: tables that are not fit", writing::unfit),
    ("writing: unsuitable tables", writing::unsuitable),
    ("writing: all small tables, by trying", writing::small_tables_all),
    ("writing: unused rows", writing::unused_rows),
    ("writing: equal tables, equal bytes", writing::equal_tables),
    ("images: all error blocks, by coder calls", images::by_coder_calls),
    ("images: all error blocks, by decoder calls", images::by_decoder_calls),
    ("images: all error blocks, by batches of the coder", images::by_coder_batches),
    ("images: all error blocks, by batches of the decoder", images::by_decoder_batches),
    ("short guard", after_a_short_guard),
    ("short guard, one place less", shorter_guard_fails),
    ("first triples of unsuitable tables, read and written", clashes::drawn),
    ("stations: starting", iwadare::starting),
    ("stations: every refusal", iwadare::refusals),
    ("stations: every pending word of a coder", iwadare::every_pending_word),
    ("stations: every terms word of a decoder", iwadare::every_terms_word),
    ("stations: steps", iwadare::steps),
    ("stations: parities and raw terms by their definition", iwadare::by_definition),
    ("stations: every burst of 10 bits", iwadare::every_burst),
    ("stations: runs of bursts, 56 bits between", iwadare::runs_at_the_bounds),
    ("stations: bursts of 11 bits, 55 bits between", iwadare::beyond_the_bounds),
    ("stations: after 30 blocks", iwadare::recoveries),
    ("stations: after 29 blocks", iwadare::shorter_guard_fails),
    ("stations: the end of the guard", iwadare::end_of_the_guard),
    ("sums: coded forms", sums::coded_forms),
    ("sums: raw terms", sums::raw_terms),
    ("sums: deliveries of Z", sums::deliveries_of_z),
    ("sums: reach of one bit", sums::reach),
    ("loads: every length", load::every_length),
    ("loads: every n and m, cut about the ends of rounds", load::every_size),
    ("loads: seeds", load::seeds),
    ("loads: every length of a burst, every gap", load::every_round),
    ("loads: refusals", load::refusals),
    ("loads: decoded by single calls", load::decoded_by_calls),
    ("loads: decoded by batches", load::decoded_by_batches),
    ("loads: decoded by calls and batches mixed", load::decoded_by_both),
    ("loads: the listing program", load::listed),
    ("everything reached", everything_reached),
];

fn verdict(holds: bool) -> &'static str {
    if holds {
        "ok"
    } else {
        "FAILED"
    }
}

fn run_group(tally: &mut Tally, index: usize, (name, group): Group) -> bool {
    let (calls, began) = (tally.calls, Instant::now());
    // Each group has a seed of its own, so that one can change without the others.
    let mut draw = Draw::from_seed(SEED.wrapping_mul(index as u64 + 1));
    group(tally, &mut draw);
    let (mismatches, shown) = tally.close();
    let verdict = verdict(mismatches == 0);
    println!("{verdict:6} {name}: {} calls, {:.1} s", tally.calls - calls, began.elapsed().as_secs_f64());
    if mismatches > 0 {
        println!("  {mismatches} mismatches, first of them:");
    }
    for message in shown {
        println!("  {message}");
    }
    mismatches == 0
}

/// Each case counts by itself, and each that fails is printed. Returns how many passed.
fn run_cases<C: Debug>(tally: &mut Tally, name: &str, cases: &[C], check: fn(&mut Tally, &C)) -> usize {
    let mut passed = 0;
    for case in cases {
        check(tally, case);
        let (mismatches, shown) = tally.close();
        passed += usize::from(mismatches == 0);
        if mismatches > 0 {
            println!("{case:?}\n  {}", shown.join("\n  "));
        }
    }
    tally.calls += cases.len() as u64;
    println!("{:6} {name}: {passed} of {} cases", verdict(passed == cases.len()), cases.len());
    passed
}

fn main() {
    let mut tally = Tally::default();
    let (read_cases, write_cases, step_cases) = (read_cases(), write_cases(), step_cases());
    let (sum_cases, station_cases, load_cases) = (sum_cases(), station_cases(), load_cases());
    let mut passed = run_cases(&mut tally, "listed table bytes", &read_cases, check_reading)
        + run_cases(&mut tally, "listed writes", &write_cases, writing::check_case)
        + run_cases(&mut tally, "listed steps", &step_cases, check_steps)
        + run_cases(&mut tally, "listed sums", &sum_cases, check_steps)
        + run_cases(&mut tally, "listed steps of stations", &station_cases, iwadare::check_case)
        + run_cases(&mut tally, "listed loads", &load_cases, load::check_case);
    for (index, &group) in GROUPS.iter().enumerate() {
        passed += usize::from(run_group(&mut tally, index, group));
    }
    let cases = read_cases.len() + write_cases.len() + step_cases.len();
    let cases = cases + sum_cases.len() + station_cases.len() + load_cases.len();
    let failed = cases + GROUPS.len() - passed;
    println!("{} calls compared", tally.calls);
    println!("refusals 1 to 15: {:?}", &tally.refusals[1..]);
    println!("marks 0 to 5: {:?}", tally.marks);
    println!("{}", guard_end_line(tally.guard_end, "in single calls"));
    println!("{}", tally.batches);
    println!("{}", tally.writing);
    println!("{}", tally.clashes);
    println!("{}", tally.iwadare);
    println!("{}", tally.sums);
    println!("{}", tally.load);
    println!("{passed} passed, {failed} failed");
    std::process::exit(i32::from(failed > 0));
}
