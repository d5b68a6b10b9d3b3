//! Groups for tables written back. Each write is done by the archive and by the plain implementation, into the same
//! bytes, any ones. The answer and every byte, written or not, must be the same, and the groups hold the answer and
//! the written bytes to what they know of them besides.

use super::*;
use burst_compare::examples::{WriteCase, Writes};
use burst_compare::oracle::WriteRefusal;
use burst_compare::Written;
use std::fmt;

// ---- The count of what was compared ----

const LEAST_WRITES: u64 = 50_000;

/// The answers of a write: written, unsuitable, unfit, too short a buffer.
const ANSWERS: [usize; 4] = [0, 10, 12, 16];

#[derive(Default)]
pub struct Count {
    writes: u64,
    answers: [u64; 17],
}

impl Count {
    fn add(&mut self, refused: u64) {
        self.writes += 1;
        self.answers[refused as usize] += 1;
    }
}

impl fmt::Display for Count {
    fn fmt(&self, f: &mut fmt::Formatter) -> fmt::Result {
        let answers = ANSWERS.map(|answer| self.answers[answer]);
        write!(f, "{} writes compared, by answer (written, refusals 10, 12, 16): {answers:?}", self.writes)
    }
}

pub fn everything_reached(tally: &mut Tally) {
    for answer in ANSWERS {
        let reached = tally.writing.answers[answer] > 0;
        tally.check(reached, || format!("answer {answer} of a write was not reached"));
    }
    let writes = tally.writing.writes;
    tally.check(writes >= LEAST_WRITES, || format!("only {writes} writes compared"));
}

// ---- A compared write ----

/// Bytes that stand before those lent, and after them: more than a record.
const MARGIN: usize = 11;

const NOTHING: Written = Written { refused: 0, length: 0, l: 0, e0: 0, e1: 0 };

/// Refusals 12 and 16.
fn refusal(refused: u64) -> Written {
    Written { refused, ..NOTHING }
}

/// Refusal 10.
fn unsuitable_by(Triple { l, e0, e1 }: Triple) -> Written {
    Written { refused: 10, l, e0, e1, ..NOTHING }
}

/// Refusal 10 of a table that was made unsuitable. If no triple is found, its l is 0, which no answer has.
fn refusal_10(spoilt: &Table) -> Written {
    oracle::unsuitable(spoilt).map_or(refusal(10), unsuitable_by)
}

/// What writing answers of a table of n symbols that it writes.
fn written(n: u64) -> Written {
    Written { length: length(n) as u64, ..NOTHING }
}

fn plain_written(answer: Result<usize, WriteRefusal>) -> Written {
    match answer {
        Ok(length) => Written { length: length as u64, ..NOTHING },
        Err(WriteRefusal::Number(refused)) => refusal(refused),
        Err(WriteRefusal::Unsuitable(triple)) => unsuitable_by(triple),
    }
}

/// What a write did: its answer, and all bytes with those around the lent ones.
type Outcome = (Written, Vec<u8>);

fn plain_write(table: &Table, mut bytes: Vec<u8>) -> Outcome {
    let lent = MARGIN..bytes.len() - MARGIN;
    (plain_written(oracle::write_table(table, &mut bytes[lent])), bytes)
}

fn linked_write(table: &Table, mut bytes: Vec<u8>) -> Outcome {
    let lent = MARGIN..bytes.len() - MARGIN;
    (linked::write(&table.numbers(), &mut bytes[lent]), bytes)
}

/// Compares a write into so many bytes, and returns the answer and the bytes that it says are written.
pub fn compare_write(tally: &mut Tally, draw: &mut Draw, table: &Table, room: usize) -> (Written, Vec<u8>) {
    let before = any_bytes(draw, MARGIN + room + MARGIN);
    let (expected, plain) = plain_write(table, before.clone());
    let (got, bytes) = linked_write(table, before);
    let call = || format!("write {table:?} into {room} bytes");
    tally.calls += 1;
    tally.writing.add(expected.refused);
    tally.check(got == expected, || format!("{}: expected {expected:?}, got {got:?}", call()));
    tally.check(bytes == plain, || {
        let at = plain.iter().zip(&bytes).position(|(plain, linked)| plain != linked);
        format!("{}: differs first at byte {:?}", call(), at.map(|at| at as isize - MARGIN as isize))
    });
    let written = bytes[MARGIN..MARGIN + room].iter().take(got.length as usize);
    (got, written.copied().collect())
}

/// 10n − 5.
fn length(n: u64) -> usize {
    10 * n as usize - 5
}

/// Compares a write of which the answer is known, and returns the written bytes.
fn expect_write(tally: &mut Tally, draw: &mut Draw, table: &Table, room: usize, due: Written) -> Vec<u8> {
    let (got, written) = compare_write(tally, draw, table, room);
    tally.check(got == due && written.len() as u64 == due.length, || {
        format!("write {table:?} into {room} bytes: {due:?} is due, got {got:?}")
    });
    written
}

/// Holds the plain answer and the linked one to the case, each by itself, and every byte of both.
pub fn check_case(tally: &mut Tally, WriteCase { table, room, writes }: &WriteCase) {
    let before: Vec<u8> = (0..MARGIN + room + MARGIN).map(|at| 0xE0 ^ at as u8).collect();
    let mut after = before.clone();
    if let Writes::Bytes(bytes) = writes {
        after[MARGIN..MARGIN + bytes.len()].copy_from_slice(bytes);
    }
    let due = match writes {
        Writes::Refused(number) => refusal(*number),
        Writes::Unsuitable(triple) => unsuitable_by(*triple),
        Writes::Bytes(bytes) => Written { length: bytes.len() as u64, ..NOTHING },
    };
    let (plain, linked) = (plain_write(table, before.clone()), linked_write(table, before));
    check_answers(tally, (due, after), plain, linked);
}

// ---- Drawn tables and rooms ----

/// Changes one row by 1 or by another row, which keeps a suitable table suitable, or by any bit.
fn change_row(draw: &mut Draw, table: &mut Table) {
    let which = draw.below(table.n - 1) as usize;
    let other = draw.below(table.n - 1) as usize;
    table.rows[which] ^= match draw.below(4) {
        0 => 1,
        1 if other != which => table.rows[other],
        _ => 1 << draw.below(table.span),
    };
}

/// A made table with N as it is or larger, of which some rows are changed as long as it stays suitable.
fn changed_made_table(draw: &mut Draw, n: u64, depth: u64) -> Table {
    let mut table = oracle::make_table(n, depth).expect("in range");
    if draw.once_in(2) {
        table.span = draw.between(table.span, 64);
    }
    for _ in 0..draw.between(1, 6) {
        let mut changed = table.clone();
        change_row(draw, &mut changed);
        if oracle::is_suitable(&changed) {
            table = changed;
        }
    }
    table
}

/// A table of n symbols that making returns, such a one with rows changed, or any that reading accepts.
fn accepted(draw: &mut Draw, n: u64) -> Table {
    let (depth, span) = (any_depth(draw), draw.between(2 * n, 64));
    let table = match draw.below(4) {
        0 => oracle::make_table(n, depth).expect("in range"),
        1 => changed_made_table(draw, n, depth),
        _ => suitable_table(draw, n, span, depth).expect("N is 2n or more"),
    };
    with_unused_rows(draw, table)
}

/// As many bytes as are written, or more.
fn enough(draw: &mut Draw, n: u64) -> usize {
    length(n) + draw.pick(&[0, 0, 1, 2, 10, 101])
}

/// Enough, or less.
pub fn any_room(draw: &mut Draw, n: u64) -> usize {
    match draw.below(6) {
        0 => 0,
        1 => length(n) - 1,
        2 => draw.below(length(n) as u64) as usize,
        _ => enough(draw, n),
    }
}

/// The table as it is given back: rows past n − 1 are 0.
fn given_back(table: &Table) -> Table {
    Table::new(table.n, table.span, table.depth, table.used_rows())
}

// ---- Groups ----

/// Compares a reading that returns this table.
fn expect_table(tally: &mut Tally, bytes: &[u8], table: &Table) {
    expect_reading(tally, bytes, READ);
    let read = linked::read(bytes);
    tally.check(read == (READ, given_back(table).numbers()), || {
        format!("read {bytes:02X?}: {table:?} is due, got {read:?}")
    });
}

/// What is written is read as the table that it was, and that one is written as the same bytes.
pub fn read_back(tally: &mut Tally, draw: &mut Draw) {
    for round in 0..3_000 {
        let n = 2 + round % 15;
        let table = accepted(draw, n);
        let room = enough(draw, n);
        let bytes = expect_write(tally, draw, &table, room, written(n));
        expect_table(tally, &bytes, &table);
        let again = expect_write(tally, draw, &given_back(&table), length(n), written(n));
        tally.check(again == bytes, || format!("{bytes:02X?} written again is {again:02X?}"));
    }
}

/// The file with its row records sorted, by its bytes alone: all have kind 2, and then their number.
fn with_rows_sorted(file: &[u8]) -> Vec<u8> {
    let (sizes, rest) = file.split_at(4);
    let (rows, end) = rest.split_at(rest.len() - 1);
    let mut rows: Vec<&[u8]> = rows.chunks_exact(10).collect();
    rows.sort();
    [sizes, &rows.concat(), end].concat()
}

/// Files with rows in any order, read and written.
pub fn files_sorted(tally: &mut Tally, draw: &mut Draw) {
    let mut moved = 0;
    for round in 0..3_000 {
        let n = 2 + round % 15;
        let table = accepted(draw, n);
        let file = table_bytes(draw, &table);
        expect_table(tally, &file, &table);
        let room = enough(draw, n);
        let bytes = expect_write(tally, draw, &given_back(&table), room, written(n));
        let sorted = with_rows_sorted(&file);
        tally.check(bytes == sorted, || format!("file {file:02X?} is written as {bytes:02X?}"));
        moved += u64::from(sorted != file);
    }
    tally.check(moved > 2_000, || format!("only {moved} files were not sorted"));
}

/// Every room to 10n + 2, and some that are 0 once cut to 8 or 16 bits: of an accepted table, of an unsuitable one
/// and of one that is not fit.
pub fn every_room(tally: &mut Tally, draw: &mut Draw) {
    for n in (2..=16).flat_map(|n| [n; 4]) {
        let table = accepted(draw, n);
        let spoilt = spoilt_table(draw, n, table.span, table.depth);
        let first = refusal_10(&spoilt);
        let unfit = unfit_table(draw, &table);
        for room in (0..=length(n) + 7).chain([256, 1 << 16]) {
            let due = if room < length(n) { refusal(16) } else { written(n) };
            expect_write(tally, draw, &table, room, due);
            expect_write(tally, draw, &spoilt, room, first);
            expect_write(tally, draw, &unfit, room, refusal(12));
        }
    }
}

/// Sizes in range and out of it, each with each, on rows of zeros, so that 10 is due where 12 is not; ones at bit N
/// and above in each row; and any of both. The room does not matter.
pub fn unfit(tally: &mut Tally, draw: &mut Draw) {
    let far = [255, 256 + 2, (1 << 16) + 2, (1 << 32) + 2, (1 << 63) + 2, u64::MAX];
    let sizes = |ends: [u64; 5]| ends.into_iter().chain(far);
    for n in sizes([0, 1, 2, 16, 17]) {
        for span in sizes([0, 1, 2, 64, 65]) {
            for depth in sizes([0, 1, 2, 64, 65]) {
                let fit = (2..=16).contains(&n) && (2..=64).contains(&span) && (1..=64).contains(&depth);
                let room = any_room(draw, n.clamp(2, 16));
                let table = Table::new(n, span, depth, &[]);
                let due = if fit { unsuitable_by(Triple { l: 1, e0: 1, e1: 0 }) } else { refusal(12) };
                expect_write(tally, draw, &table, room, due);
            }
        }
    }
    for (n, span) in (2..=16).flat_map(|n| (2..64).map(move |span| (n, span))) {
        let depth = any_depth(draw);
        let suitable = suitable_table(draw, n, span, depth);
        let table = suitable.unwrap_or_else(|| fit_table(draw, n, span, depth));
        let above = draw.between(span, 63);
        for (j, bit) in (1..n).flat_map(|j| [span, above, 63].map(|bit| (j, bit))) {
            let mut unfit = table.clone();
            unfit.rows[j as usize - 1] |= 1 << bit;
            let room = any_room(draw, n);
            expect_write(tally, draw, &unfit, room, refusal(12));
        }
    }
    for _ in 0..20_000 {
        let table = any_table(draw);
        let (unfit, room) = (unfit_table(draw, &table), any_room(draw, table.n));
        expect_write(tally, draw, &unfit, room, refusal(12));
    }
}

/// Tables of every n and N that one shift shows unsuitable; and accepted ones with one row changed, some of which
/// stay suitable.
pub fn unsuitable(tally: &mut Tally, draw: &mut Draw) {
    for (n, span) in (2..=16).flat_map(|n| (2..=64).map(move |span| (n, span))) {
        let depth = any_depth(draw);
        let spoilt = spoilt_table(draw, n, span, depth);
        let (table, room) = (with_unused_rows(draw, spoilt), any_room(draw, n));
        expect_write(tally, draw, &table, room, refusal_10(&table));
    }
    let (mut stayed, mut spoilt) = (0, 0);
    for round in 0..3_000 {
        let n = 2 + round % 15;
        let mut table = accepted(draw, n);
        change_row(draw, &mut table);
        let room = any_room(draw, n);
        match compare_write(tally, draw, &table, room).0.refused {
            10 => spoilt += 1,
            _ => stayed += 1,
        }
    }
    tally
        .check(stayed > 500 && spoilt > 500, || format!("{stayed} tables stayed suitable, {spoilt} did not"));
}

/// All rows of small tables, to 2^N, the first triple by trying all; with just the room, and a byte less.
pub fn small_tables_all(tally: &mut Tally, draw: &mut Draw) {
    for (n, span) in (2..=8).map(|span| (2, span)).chain([(3, 2), (3, 4), (3, 5), (3, 6)]) {
        each_tuple(&vec![1 << span; n as usize - 1], |rows| {
            let table = Table::new(n, span, 1, rows);
            let refused = if rows.contains(&(1 << span)) {
                Some(refusal(12))
            } else {
                oracle::first_by_trying(&table).map(unsuitable_by)
            };
            expect_write(tally, draw, &table, length(n), refused.unwrap_or(written(n)));
            expect_write(tally, draw, &table, length(n) - 1, refused.unwrap_or(refusal(16)));
        });
    }
}

/// Whatever stands in the rows past n − 1, nothing depends on it.
pub fn unused_rows(tally: &mut Tally, draw: &mut Draw) {
    for round in 0..1_200 {
        let n = 2 + round % 14;
        let mut table = accepted(draw, n);
        if draw.once_in(3) {
            table = spoilt_table(draw, n, table.span, table.depth);
        }
        let room = any_room(draw, n);
        let first_row = table.rows[0];
        let outcomes = [0, u64::MAX, first_row, draw.number()].map(|filler| {
            table.rows[n as usize - 1..].fill(filler);
            compare_write(tally, draw, &table, room)
        });
        let same = outcomes.iter().all(|outcome| *outcome == outcomes[0]);
        tally.check(same, || format!("unused rows tell in {table:?}, room {room}"));
    }
}

// ---- Groups: equal tables, equal bytes ----

/// Tables and what they are written as: of each two, the bytes are the same exactly if n, N, m and the rows are.
fn check_each_pair(tally: &mut Tally, written: &[(Table, Vec<u8>)]) {
    for (at, (one, bytes)) in written.iter().enumerate() {
        for (other, other_bytes) in &written[at..] {
            let sizes = |table: &Table| [table.n, table.span, table.depth];
            let equal = sizes(one) == sizes(other) && one.used_rows() == other.used_rows();
            tally.check((bytes == other_bytes) == equal, || {
                format!("equal: {equal}; {one:?} is written as {bytes:02X?}, {other:?} as {other_bytes:02X?}")
            });
        }
    }
}

/// An accepted table, and tables that differ from it in one thing: m, one row by 1, what stands past row n − 1 (which
/// is no difference), N, n, two rows in each other's place, one row by another, one row by a bit. A table stays
/// suitable with a larger N, with a row less, and with rows that give the same images; only the one changed by a bit
/// is judged.
fn table_and_neighbours(draw: &mut Draw, n: u64) -> Vec<Table> {
    let table = accepted(draw, n);
    let which = draw.below(n - 1) as usize;
    let other = (which + draw.between(1, 14) as usize) % (n as usize - 1);
    let mut tables = vec![table.clone()];
    let mut add = |change: &dyn Fn(&mut Table)| {
        let mut neighbour = table.clone();
        change(&mut neighbour);
        tables.push(neighbour);
    };
    add(&|table| table.depth = table.depth % 64 + 1);
    add(&|table| table.rows[which] ^= 1);
    add(&|table| table.rows[n as usize - 1..].fill(u64::MAX));
    if table.span < 64 {
        add(&|table| table.span += 1);
    }
    if n > 2 {
        add(&|table| table.n -= 1);
    }
    if which != other {
        add(&|table| table.rows.swap(which, other));
        add(&|table| table.rows[which] ^= table.rows[other]);
    }
    let mut by_a_bit = table.clone();
    by_a_bit.rows[which] ^= 1 << draw.below(table.span);
    if oracle::is_suitable(&by_a_bit) {
        tables.push(by_a_bit);
    }
    tables
}

/// All small accepted tables, each twice, once with unused rows that may be anything; and drawn ones with their
/// neighbours.
pub fn equal_tables(tally: &mut Tally, draw: &mut Draw) {
    let mut small = Vec::new();
    for (span, depth) in (4..=7).flat_map(|span| [(span, 1), (span, 2)]) {
        let tables = (0..1 << span).map(|row| Table::new(2, span, depth, &[row]));
        for table in tables.filter(oracle::is_suitable) {
            for table in [with_unused_rows(draw, table.clone()), table] {
                let bytes = expect_write(tally, draw, &table, length(2), written(2));
                small.push((table, bytes));
            }
        }
    }
    check_each_pair(tally, &small);
    for round in 0..600 {
        let tables = table_and_neighbours(draw, 2 + round % 15);
        let with_bytes: Vec<(Table, Vec<u8>)> = tables
            .into_iter()
            .map(|table| {
                let room = enough(draw, table.n);
                let bytes = expect_write(tally, draw, &table, room, written(table.n));
                (table, bytes)
            })
            .collect();
        check_each_pair(tally, &with_bytes);
    }
}
