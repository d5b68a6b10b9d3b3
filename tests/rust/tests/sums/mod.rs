//! Groups for sums of messages: coded forms and raw terms add, deliveries need not, and one bit reaches as far as its
//! row says. On a well-formed memory that was not started, what two messages lead to differs as their sum does from a
//! start. Each law is held to the archive's single calls, to its batches and to the plain implementation, each by itself
//! on words of its own; and then all three are compared.

use super::*;
use batches::{any_length, stream_word};
use burst_compare::examples::Z_LISTS;
use std::fmt;

// ---- The count of what was drawn ----

/// Of tables, pairs, raw terms, deliveries and changed symbols of each kind.
const LEAST_MET: u64 = 100;

/// Where a table comes from. The last two are fit, and the laws ask for no more.
#[derive(Clone, Copy)]
pub enum Sort {
    Made,
    Read,
    Unsuitable,
    AnyFit,
}

pub const SORTS: [Sort; 4] = [Sort::Made, Sort::Read, Sort::Unsuitable, Sort::AnyFit];

/// What a table is drawn for.
#[derive(Clone, Copy)]
enum Law {
    CodedForms,
    RawTerms,
    Reach,
}

/// How many blocks follow a changed one: none, some, one fewer than m × (N − 1) where the row has bit N − 1, so that
/// one bit is not reached, just m × (N − 1), and more.
const FOLLOWING: usize = 5;

#[derive(Default)]
pub struct Count {
    /// Single calls of the archive.
    pub calls: u64,
    /// By law and sort.
    tables: [[u64; SORTS.len()]; 3],
    /// Pairs of lists, by law and length: 0, 1, to 2 × m × N, more.
    pairs: [[u64; 4]; 2],
    /// Raw terms that are 0 and 1: those that only trying shows, and those that are in the syndrome word too.
    terms: [[u64; 2]; 2],
    /// Steps at which both lists and their sum deliver: those whose information adds, and the others.
    deliveries: [u64; 2],
    /// Changed symbols of a first block and of a later one, by how many follow.
    changes: [[u64; 2]; FOLLOWING],
    /// Memories that were started, and other well-formed ones, by law.
    memories: [[u64; 2]; 3],
}

impl Count {
    fn add_pair(&mut self, law: Law, table: &Table, length: usize) {
        let long = length as u64 > 2 * table.depth * table.span;
        let range = if long { 3 } else { length.min(2) };
        self.pairs[law as usize][range] += 1;
    }

    /// A well-formed memory, or none for one that is started.
    fn any_memory(&mut self, draw: &mut Draw, law: Law, side: &Side, table: &Table) -> Option<Vec<u64>> {
        let memory = draw.once_in(3).then(|| (side.well_formed)(draw, table));
        self.memories[law as usize][usize::from(memory.is_some())] += 1;
        memory
    }

    fn add_deliveries(&mut self, entries: [u32; 3]) {
        let [one, other, sum] = entries.map(info_of);
        if entries.iter().all(|&entry| mark_of(entry) > 0) {
            self.deliveries[usize::from(sum != one ^ other)] += 1;
        }
    }

    fn add_change(&mut self, table: &Table, j: u64, before: usize, after: usize) {
        let (delay, after) = (table.delay(), after as u64);
        let has_last_bit = table.row(j) >> (table.span - 1) == 1;
        let following = match after {
            _ if after > delay => 4,
            _ if after == delay => 3,
            _ if after + 1 == delay && has_last_bit => 2,
            _ => after.min(1) as usize,
        };
        self.changes[following][before.min(1)] += 1;
    }
}

impl fmt::Display for Count {
    fn fmt(&self, f: &mut fmt::Formatter) -> fmt::Result {
        let Count { calls, tables, pairs, terms, deliveries, changes, memories } = self;
        write!(f, "sums: {calls} calls held to the laws; memories (started, not) for coded forms, raw terms, reach: ")?;
        writeln!(f, "{memories:?}")?;
        write!(f, "sums: tables (made, read, unsuitable, any fit) for coded forms, raw terms, reach: ")?;
        writeln!(f, "{tables:?}; pairs of lists by length (0, 1, to 2 × m × N, more): {pairs:?}")?;
        write!(f, "sums: raw terms 0 and 1, only tried, and in a syndrome word: {terms:?}; ")?;
        writeln!(f, "deliveries that add, and others: {deliveries:?}")?;
        write!(f, "sums: symbols changed in a first block and in a later one, by the blocks that follow ")?;
        write!(f, "(none, some, one fewer than the row reaches, just m × (N − 1), more): {changes:?}")
    }
}

pub fn everything_reached(tally: &mut Tally) {
    let Count { tables, pairs, terms, deliveries, changes, memories, .. } = tally.sums;
    for (what, counts) in [
        ("tables", tables.as_flattened()),
        ("pairs of lists", pairs.as_flattened()),
        ("raw terms", terms.as_flattened()),
        ("deliveries", &deliveries),
        ("changed symbols", changes.as_flattened()),
        ("memories", memories.as_flattened()),
    ] {
        let reached = counts.iter().all(|&count| count >= LEAST_MET);
        tally.check(reached, || format!("sums: {what} of each kind: only {counts:?}"));
    }
}

// ---- Three ways ----

/// Who takes a list of blocks.
#[derive(Clone, Copy, Debug)]
enum Way {
    ArchiveCalls,
    ArchiveBatches,
    Plain,
}

/// Does the same in each way, and compares what comes of it.
fn in_each_way<T: PartialEq>(
    tally: &mut Tally,
    table: &Table,
    mut run: impl FnMut(&mut Tally, Way) -> T,
) -> T {
    let ways = [Way::ArchiveCalls, Way::ArchiveBatches, Way::Plain];
    let [calls, batches, plain] = ways.map(|way| run(tally, way));
    tally.check(calls == batches, || format!("the archive's calls and batches differ; {table:?}"));
    tally.check(calls == plain, || format!("the archive's calls and the plain ones differ; {table:?}"));
    calls
}

impl Side {
    fn started(&self, tally: &mut Tally, draw: &mut Draw, way: Way, table: &Table) -> Vec<u64> {
        let mut words = (self.well_formed)(draw, table);
        let refused = match way {
            Way::Plain => (self.plain_start)(table, &mut words).err().unwrap_or(0),
            _ => (self.linked_start)(&table.numbers(), &mut words),
        };
        tally.check(refused == 0, || format!("{way:?}: start {}: {refused}; {table:?}", self.name));
        words
    }

    /// That memory, or a started one.
    fn on(
        &self,
        tally: &mut Tally,
        draw: &mut Draw,
        way: Way,
        table: &Table,
        memory: &Option<Vec<u64>>,
    ) -> Vec<u64> {
        memory.clone().unwrap_or_else(|| self.started(tally, draw, way, table))
    }

    /// The entries of a list, all of which is taken.
    fn take(&self, tally: &mut Tally, way: Way, table: &Table, words: &mut [u64], list: &[u16]) -> Vec<u32> {
        let mut entries = vec![0; list.len()];
        let taken = match way {
            Way::ArchiveCalls => self.by_single_calls(&table.numbers(), words, list, &mut entries).0,
            Way::ArchiveBatches => (self.linked_batch)(&table.numbers(), words, list, &mut entries),
            Way::Plain => (self.plain_batch)(table, words, list, &mut entries),
        };
        if matches!(way, Way::ArchiveCalls) {
            tally.calls += list.len() as u64;
            tally.sums.calls += list.len() as u64;
        }
        tally.check(taken == list.len(), || {
            format!("{way:?}: {} took {taken} of {} blocks; {table:?}", self.name, list.len())
        });
        entries
    }
}

// ---- Tables and lists ----

pub fn every_n_and_sort() -> impl Iterator<Item = (u64, Sort)> {
    (2..=16).flat_map(|n| SORTS.map(|sort| (n, sort)))
}

fn table_for_law(tally: &mut Tally, draw: &mut Draw, law: Law, sort: Sort, n: u64, depth: u64) -> Table {
    tally.sums.tables[law as usize][sort as usize] += 1;
    table_of(tally, draw, sort, n, depth)
}

pub fn table_of(tally: &mut Tally, draw: &mut Draw, sort: Sort, n: u64, depth: u64) -> Table {
    let span = any_span(draw);
    match sort {
        Sort::Made => made_table(tally, n, depth),
        Sort::Read => {
            let table = suitable_table(draw, n, span.max(2 * n), depth).expect("N is 2n or more");
            expect_reading(tally, &table_bytes(draw, &table), READ);
            table
        }
        Sort::Unsuitable => {
            let table = spoilt_table(draw, n, span, depth);
            with_unused_rows(draw, table)
        }
        Sort::AnyFit => fit_table(draw, n, span, depth),
    }
}

/// So many fit blocks: any, zeros with few others between, or ones in every bit.
fn any_list(draw: &mut Draw, side: &Side, table: &Table, length: usize) -> Vec<u16> {
    let mut list = side.fit_blocks(draw, table, length);
    match draw.below(6) {
        0 => list.iter_mut().for_each(|block| *block *= u16::from(draw.once_in(20))),
        1 => list.fill(u16::MAX >> (16 - (side.bits)(table.n))),
        _ => (),
    }
    list
}

fn sum_of(one: &[u32], other: &[u32]) -> Vec<u32> {
    one.iter().zip(other).map(|(one, other)| one ^ other).collect()
}

/// Where they stand in a stream's part of the memory.
const PENDING: u64 = 0;
const SYNDROME: u64 = 1;

/// Whether the turn is the same in all three memories, and each pending word of the last is the sum of the others'.
fn memories_add(side: &Side, table: &Table, [one, other, sum]: [&[u64]; 3]) -> bool {
    let adds = |stream| {
        let (at, _) = stream_word(side, table, stream, PENDING);
        sum[at] == one[at] ^ other[at]
    };
    one[0] == sum[0] && other[0] == sum[0] && (0..table.depth).all(adds)
}

// ---- Group: coded forms ----

/// Two coders on one memory code two messages, and a started one their sum, so many blocks at a time. In the end the
/// coded forms add; and if all were started, the memories after each time. Returns the forms.
fn code_messages(
    tally: &mut Tally,
    draw: &mut Draw,
    way: Way,
    at_a_time: usize,
    table: &Table,
    memory: &Option<Vec<u64>>,
    messages: &[Vec<u16>; 3],
) -> [Vec<u32>; 3] {
    let mut coders = [memory, memory, &None].map(|memory| CODER.on(tally, draw, way, table, memory));
    let mut forms = [(); 3].map(|_| Vec::new());
    let length = messages[0].len();
    for from in (0..length).step_by(at_a_time) {
        let to = length.min(from + at_a_time);
        for ((form, words), message) in forms.iter_mut().zip(&mut coders).zip(messages) {
            form.extend(CODER.take(tally, way, table, words, &message[from..to]));
        }
        let memories = coders.each_ref().map(|words| &words[..]);
        tally.check(memory.is_some() || memories_add(&CODER, table, memories), || {
            format!("{way:?}: memories of coders do not add after {to} blocks; {table:?}")
        });
    }
    let [one, other, sum] = &forms;
    let wrong = sum.iter().zip(sum_of(one, other)).position(|(sum, due)| *sum != due);
    tally.check(wrong.is_none(), || format!("{way:?}: coded block {wrong:?} does not add; {table:?}"));
    forms
}

/// With every depth; batches are of a whole message, or of up to a quarter.
pub fn coded_forms(tally: &mut Tally, draw: &mut Draw) {
    for (n, sort) in every_n_and_sort() {
        for depth in 1..=64 {
            let table = table_for_law(tally, draw, Law::CodedForms, sort, n, depth);
            let length = any_length(draw, &table);
            let [one, other] = [(); 2].map(|_| any_list(draw, &CODER, &table, length));
            let sum = one.iter().zip(&other).map(|(one, other)| one ^ other).collect();
            let messages = [one, other, sum];
            let batch = (length / draw.between(1, 4) as usize).max(1);
            let memory = tally.sums.any_memory(draw, Law::CodedForms, &CODER, &table);
            tally.sums.add_pair(Law::CodedForms, &table, length);
            in_each_way(tally, &table, |tally, way| {
                let at_a_time = if matches!(way, Way::ArchiveBatches) { batch } else { 1 };
                code_messages(tally, draw, way, at_a_time, &table, &memory, &messages)
            });
        }
    }
}

// ---- Groups: raw terms and deliveries ----

pub fn info_of(entry: u32) -> u32 {
    entry & 0xFFFF
}

/// 0 is "nothing yet", 1 is clean.
pub fn mark_of(entry: u32) -> u32 {
    entry >> 16
}

/// A decoder, whether it was started, the turn of its next block by count, and the information that each stream
/// received.
struct Receiver {
    way: Way,
    started: bool,
    words: Vec<u64>,
    turn: u64,
    streams: Vec<Vec<u64>>,
}

impl Receiver {
    fn on(
        tally: &mut Tally,
        draw: &mut Draw,
        way: Way,
        table: &Table,
        memory: &Option<Vec<u64>>,
    ) -> Receiver {
        let words = DECODER.on(tally, draw, way, table, memory);
        let streams = vec![Vec::new(); table.depth as usize];
        Receiver { way, started: memory.is_none(), turn: words[0], words, streams }
    }

    /// The raw term of the next block, by trying: on a copy of the memory with the fill complete and the stream's
    /// syndrome word 0 the register has the new term alone, and the mark is clean exactly if it is 0.
    fn tried_term(&self, tally: &mut Tally, table: &Table, syndrome: usize, received: u16) -> u64 {
        let mut words = self.words.clone();
        words[1] = table.delay();
        words[syndrome] = 0;
        let entries = DECODER.take(tally, self.way, table, &mut words, &[received]);
        u64::from(mark_of(entries[0]) != 1)
    }

    /// Takes a block, and returns its raw term and the entry. If the syndrome word is not cleared, nothing was found,
    /// and its highest bit shows the term, too. From the start on it is the one of the definition.
    fn take(&mut self, tally: &mut Tally, table: &Table, received: u16) -> (u64, u32) {
        let stream = self.turn;
        let (syndrome, _) = stream_word(&DECODER, table, stream, SYNDROME);
        let tried = self.tried_term(tally, table, syndrome, received);
        let entries = DECODER.take(tally, self.way, table, &mut self.words, &[received]);
        let word = self.words[syndrome];
        let shown = if word > 0 { word >> (table.span - 2) } else { tried };
        tally.sums.terms[usize::from(word > 0)][tried as usize] += 1;
        self.turn = (stream + 1) % table.depth;

        let infos = &mut self.streams[stream as usize];
        infos.push(u64::from(received % (1 << (table.n - 1))));
        let defined = oracle::parity_by_definition(table, infos) ^ u64::from(received >> (table.n - 1));
        let due = if self.started { defined } else { tried };
        tally.check(tried == due && shown == due, || {
            format!("{:?}: raw term {due} is due, {tried} tried, {shown} shown; {table:?}", self.way)
        });
        (tried, entries[0])
    }
}

/// Two decoders on one memory take two lists, and a started one their sum. At each step the raw terms add; and if all
/// were started, the memories after it. Returns the terms and the entries.
fn take_lists(
    tally: &mut Tally,
    draw: &mut Draw,
    way: Way,
    table: &Table,
    memory: &Option<Vec<u64>>,
    [one, other]: [&[u16]; 2],
) -> Vec<[(u64, u32); 3]> {
    let mut decoders = [memory, memory, &None].map(|memory| Receiver::on(tally, draw, way, table, memory));
    let mut steps = Vec::new();
    for (one, other) in one.iter().zip(other) {
        let received = [*one, *other, one ^ other];
        let step = [0, 1, 2].map(|i| decoders[i].take(tally, table, received[i]));
        steps.push(step);
        let (count, terms) = (steps.len(), step.map(|(term, _)| term));
        tally.check(terms[2] == terms[0] ^ terms[1], || {
            format!("{way:?}: raw terms {terms:?} of step {count} do not add; {table:?}")
        });
        let memories = decoders.each_ref().map(|decoder| &decoder.words[..]);
        tally.check(memory.is_some() || memories_add(&DECODER, table, memories), || {
            format!("{way:?}: memories of decoders do not add after {count} blocks; {table:?}")
        });
    }
    steps
}

/// Any blocks; or what a coder sent, with no, few or many of them damaged, so that errors are found.
fn any_received(draw: &mut Draw, table: &Table, length: usize) -> Vec<u16> {
    if draw.once_in(2) {
        any_list(draw, &DECODER, table, length)
    } else {
        received_blocks(draw, table, length as u64)
    }
}

pub fn raw_terms(tally: &mut Tally, draw: &mut Draw) {
    for (n, sort) in every_n_and_sort() {
        for _ in 0..30 {
            let depth = any_depth(draw);
            let table = table_for_law(tally, draw, Law::RawTerms, sort, n, depth);
            let length = any_length(draw, &table).min(1_000); // a step costs a copy of the memory
            let [one, other] = [(); 2].map(|_| any_received(draw, &table, length));
            let memory = tally.sums.any_memory(draw, Law::RawTerms, &DECODER, &table);
            tally.sums.add_pair(Law::RawTerms, &table, length);
            let take = |tally: &mut Tally, way| take_lists(tally, draw, way, &table, &memory, [&one, &other]);
            for step in in_each_way(tally, &table, take) {
                tally.sums.add_deliveries(step.map(|(_, entry)| entry));
            }
        }
    }
}

/// The raw terms of two lists on Z add, and what their fourth calls deliver does not; the listed sums say why.
pub fn deliveries_of_z(tally: &mut Tally, draw: &mut Draw) {
    let [one, other] = &Z_LISTS;
    let take = |tally: &mut Tally, way| take_lists(tally, draw, way, &z(1), &None, [one, other]);
    let steps = in_each_way(tally, &z(1), take);
    let terms: Vec<_> = steps.iter().map(|step| step.map(|(term, _)| term)).collect();
    tally.check(terms == [[1, 1, 0], [1, 0, 1], [0, 0, 0], [0, 1, 1]], || format!("raw terms {terms:?}"));
    let infos: Vec<_> = steps.iter().map(|step| step.map(|(_, entry)| info_of(entry))).collect();
    let first = infos.iter().position(|[one, other, sum]| *sum != one ^ other);
    tally.check(first == Some(3) && infos[3] == [0, 0, 1], || format!("information delivered {infos:?}"));
}

// ---- Group: reach of one bit ----

/// What changes in a coded form with symbol j of a block that has so many before it and after it: that symbol, and
/// the parity k × m blocks later for each one k of row j.
fn impulse_response(table: &Table, j: u64, before: usize, after: usize) -> Vec<u32> {
    let mut bits = vec![0; before + 1 + after];
    bits[before] = 1 << (j - 1);
    for k in (0..table.span).filter(|k| table.row(j) >> k & 1 == 1) {
        if let Some(block) = bits.get_mut(before + (k * table.depth) as usize) {
            *block |= 1 << (table.n - 1);
        }
    }
    bits
}

/// The Hamming distance of the coded forms: 1 + the ones in row j, of which only those k count for which k × m blocks
/// follow, and that is all of them if m × (N − 1) do.
fn due_distance(table: &Table, j: u64, after: usize) -> u32 {
    let row = table.row(j);
    if after as u64 >= table.delay() {
        return 1 + row.count_ones();
    }
    let last = after as u64 / table.depth; // the last k, below N − 1
    1 + (row & ((2 << last) - 1)).count_ones()
}

/// Changes symbol j of a block in a message, with so many blocks before it and after it, on one memory.
fn change_symbol(tally: &mut Tally, draw: &mut Draw, table: &Table, j: u64, before: usize, after: usize) {
    let message = any_list(draw, &CODER, table, before + 1 + after);
    let mut changed = message.clone();
    changed[before] ^= 1 << (j - 1);
    let memory = tally.sums.any_memory(draw, Law::Reach, &CODER, table);
    tally.sums.add_change(table, j, before, after);
    in_each_way(tally, table, |tally, way| {
        let [one, other] = [&message, &changed].map(|message| {
            let mut words = CODER.on(tally, draw, way, table, &memory);
            CODER.take(tally, way, table, &mut words, message)
        });
        let bits = sum_of(&one, &other);
        let distance: u32 = bits.iter().map(|block| block.count_ones()).sum();
        let due = due_distance(table, j, after);
        let call = || format!("{way:?}: symbol {j}, {before} blocks before it, {after} after it; {table:?}");
        tally.check(distance == due, || format!("{due} bits are due to change, {distance} do: {}", call()));
        let right = bits == impulse_response(table, j, before, after);
        tally.check(right, || format!("other bits change: {}", call()));
        bits
    });
}

/// Each symbol, with just m × (N − 1) blocks after the changed one, one fewer, more, fewer and none; in the first
/// block of a message, and in a later one.
pub fn reach(tally: &mut Tally, draw: &mut Draw) {
    for (n, sort) in every_n_and_sort() {
        for _ in 0..7 {
            let depth = any_depth(draw);
            let table = table_for_law(tally, draw, Law::Reach, sort, n, depth);
            let delay = table.delay();
            let (more, fewer) = (delay + draw.between(1, 2 * depth), draw.below(delay));
            for (j, after) in (1..n).flat_map(|j| [delay, delay - 1, more, fewer, 0].map(|after| (j, after)))
            {
                for before in [0, draw.between(1, delay + depth)] {
                    change_symbol(tally, draw, &table, j, before as usize, after as usize);
                }
            }
        }
    }
}
