//! The codec written plainly from its scope: right by reading, not fast.

use std::collections::HashMap;
use std::sync::OnceLock;

/// The most rows a table can be handed with (n = 16).
pub const MOST_ROWS: usize = 15;

/// A code's sizes and rows. Rows past n − 1 do not matter.
#[derive(Clone, Debug, PartialEq, Eq)]
pub struct Table {
    pub n: u64,
    pub span: u64,
    pub depth: u64,
    pub rows: [u64; MOST_ROWS],
}

impl Table {
    pub fn new(n: u64, span: u64, depth: u64, given: &[u64]) -> Table {
        let mut rows = [0; MOST_ROWS];
        rows[..given.len()].copy_from_slice(given);
        Table { n, span, depth, rows }
    }

    /// Row j, 1 to n; row n is 1 always.
    pub fn row(&self, j: u64) -> u64 {
        if j == self.n {
            1
        } else {
            self.rows[j as usize - 1]
        }
    }

    /// Rows 1 to n − 1.
    pub fn used_rows(&self) -> &[u64] {
        &self.rows[..self.n as usize - 1]
    }

    /// m × (N − 1): the calls between a block's taking and its delivery.
    pub fn delay(&self) -> u64 {
        self.depth * (self.span - 1)
    }

    pub fn coder_words(&self) -> usize {
        (1 + self.depth) as usize
    }

    pub fn decoder_words(&self) -> usize {
        (2 + self.depth * (self.span + 1)) as usize
    }

    /// The table as it crosses the C interface.
    pub fn numbers(&self) -> [u64; 18] {
        let mut numbers = [0; 18];
        numbers[..3].copy_from_slice(&[self.n, self.span, self.depth]);
        numbers[3..].copy_from_slice(&self.rows);
        numbers
    }
}

// ---- Binary words ----

/// 2^bits, wide enough for bits = 64.
fn power(bits: u64) -> u128 {
    1 << bits
}

pub fn is_below(word: u64, bits: u64) -> bool {
    u128::from(word) < power(bits)
}

/// Whether symbol j (from 1) of a block is a one.
fn symbol(block: u64, j: u64) -> bool {
    block >> (j - 1) & 1 == 1
}

/// The exclusive or of the rows of the ones of e.
pub fn image(table: &Table, e: u64) -> u64 {
    (1..=table.n).filter(|&j| symbol(e, j)).fold(0, |sum, j| sum ^ table.row(j))
}

/// The image × 2^l, bits N and above dropped.
pub fn shifted_image(table: &Table, e: u64, l: u64) -> u64 {
    ((u128::from(image(table, e)) << l) % power(table.span)) as u64
}

/// Independent vectors, each with the combination of the offered ones that gives it.
/// No kept vector has a one at the pivot of one kept before it, so reducing in order clears every pivot.
#[derive(Default)]
struct Echelon {
    kept: Vec<(u64, u64)>,
}

fn pivot(vector: u64) -> u64 {
    1 << vector.ilog2()
}

impl Echelon {
    fn reduce(&self, mut vector: u64, mut combination: u64) -> (u64, u64) {
        for &(kept, its_combination) in &self.kept {
            if vector & pivot(kept) != 0 {
                vector ^= kept;
                combination ^= its_combination;
            }
        }
        (vector, combination)
    }

    /// Keeps an independent vector; of a dependent one it returns the combination that sums to zero.
    fn offer(&mut self, vector: u64, combination: u64) -> Option<u64> {
        let (rest, combination) = self.reduce(vector, combination);
        if rest == 0 {
            return Some(combination);
        }
        self.kept.push((rest, combination));
        None
    }
}

// ---- Suitability ----

/// What shows a table unsuitable.
#[derive(Clone, Copy, Debug, PartialEq, Eq)]
pub struct Triple {
    pub l: u64,
    pub e0: u64,
    pub e1: u64,
}

/// The condition of a triple, as the scope words it.
pub fn shows_unsuitable(table: &Table, triple: Triple) -> bool {
    let Triple { l, e0, e1 } = triple;
    let in_range = (1..table.span).contains(&l) && is_below(e0, table.n) && is_below(e1, table.n);
    in_range && e0 != 0 && image(table, e0) == shifted_image(table, e1, l)
}

/// The first triple, least l, then least e0, then least e1, by trying all in that order; for small tables.
pub fn first_by_trying(table: &Table) -> Option<Triple> {
    let blocks = 1u64 << table.n;
    let of_pair = |l, e0| (0..blocks).map(move |e1| Triple { l, e0, e1 });
    let of_shift = |l| (1..blocks).flat_map(move |e0| of_pair(l, e0));
    (1..table.span).flat_map(of_shift).find(|&triple| shows_unsuitable(table, triple))
}

/// Each e0 that clashes at l, with its least e1, ascending: by looking its image up among all shifted ones.
pub fn clashes_by_lookup(table: &Table, l: u64) -> Vec<Triple> {
    let blocks = 1u64 << table.n;
    let mut least_e1 = HashMap::new();
    for e1 in 0..blocks {
        least_e1.entry(shifted_image(table, e1, l)).or_insert(e1);
    }
    let clash = |e0| least_e1.get(&image(table, e0)).map(|&e1| Triple { l, e0, e1 });
    (1..blocks).filter_map(clash).collect()
}

/// Whether e0 ≠ 0 and e1 exist for this l. The shifted rows come first: a row that depends on them and on
/// rows before it gives e0 ≠ 0, as it stands in its own combination; if none does, only e0 = 0 is left.
fn clashes_at(table: &Table, l: u64) -> bool {
    let mut echelon = Echelon::default();
    for j in 0..table.n {
        echelon.offer(shifted_image(table, 1 << j, l), 0);
    }
    (0..table.n).any(|j| echelon.offer(image(table, 1 << j), 0).is_some())
}

pub fn is_suitable(table: &Table) -> bool {
    (1..table.span).all(|l| !clashes_at(table, l))
}

/// Whether some of the vectors, or none of them, sum to this.
fn is_sum(vectors: &[u64], sum: u64) -> bool {
    let mut echelon = Echelon::default();
    for &vector in vectors {
        echelon.offer(vector, 0);
    }
    echelon.reduce(sum, 0).0 == 0
}

/// The least number that serves and begins with these high bits. The `open` bits below them are decided from the top:
/// a bit is 0 if `begins` says that some number that serves goes on so.
fn least_that_begins(high: u64, open: u64, begins: impl Fn(u64, u64) -> bool) -> u64 {
    (0..open).rev().fold(high, |high, bit| if begins(high, bit) { high } else { high | 1 << bit })
}

/// The first triple of this l, bit by bit. The open bits of e0 or e1 can add any sum of their rows, so whether one that
/// serves begins so is whether what is left to add is such a sum.
pub fn first_at_by_descent(table: &Table, l: u64) -> Option<Triple> {
    let rows: Vec<u64> = (0..table.n).map(|j| image(table, 1 << j)).collect();
    let shifted: Vec<u64> = (0..table.n).map(|j| shifted_image(table, 1 << j, l)).collect();
    let some_e0 = |high, open: u64| is_sum(&[&rows[..open as usize], &shifted].concat(), image(table, high));
    // e0 is not 0: it has a highest one, which is the lowest that can be.
    let highest = (0..table.n).find(|&bit| some_e0(1 << bit, bit))?;
    let e0 = least_that_begins(1 << highest, highest, some_e0);
    let some_e1 =
        |high, open: u64| is_sum(&shifted[..open as usize], image(table, e0) ^ shifted_image(table, high, l));
    Some(Triple { l, e0, e1: least_that_begins(0, table.n, some_e1) })
}

pub fn first_by_descent(table: &Table) -> Option<Triple> {
    let l = (1..table.span).find(|&l| clashes_at(table, l))?;
    first_at_by_descent(table, l)
}

/// Up to this N × 2^n × 2^n all triples are tried; that is every N for n up to 5.
const FEW_TRIPLES: u64 = 1 << 16;

/// The first triple that shows a table unsuitable.
pub fn unsuitable(table: &Table) -> Option<Triple> {
    if table.span << (2 * table.n) <= FEW_TRIPLES {
        first_by_trying(table)
    } else {
        first_by_descent(table)
    }
}

// ---- Table bytes ----

#[derive(Clone, Copy, Debug, PartialEq, Eq)]
pub enum ReadRefusal {
    At { number: u64, place: usize },
    Unsuitable(Triple),
}

fn body_length(kind: u8) -> Option<usize> {
    match kind {
        0 => Some(0),
        1 => Some(3),
        2 => Some(9),
        _ => None,
    }
}

fn sizes_in_range(n: u64, span: u64, depth: u64) -> bool {
    (2..=16).contains(&n) && (2..=64).contains(&span) && (1..=64).contains(&depth)
}

/// A table being read: sizes, and which rows were given.
struct Draft {
    table: Table,
    given: Vec<u64>,
}

fn read_sizes(body: &[u8]) -> Result<Draft, u64> {
    let [n, span, depth] = [body[0], body[1], body[2]].map(u64::from);
    if !sizes_in_range(n, span, depth) {
        return Err(5);
    }
    Ok(Draft { table: Table::new(n, span, depth, &[]), given: Vec::new() })
}

fn read_row(draft: &mut Draft, body: &[u8]) -> Result<(), u64> {
    let j = u64::from(body[0]);
    let row = body[1..].iter().rev().fold(0, |row, &byte| row << 8 | u64::from(byte));
    if !(1..draft.table.n).contains(&j) || draft.given.contains(&j) {
        return Err(6);
    }
    if !is_below(row, draft.table.span) {
        return Err(7);
    }
    draft.table.rows[j as usize - 1] = row;
    draft.given.push(j);
    Ok(())
}

/// What stands after the end record's kind byte decides last: missing rows, bytes that follow, suitability.
fn finish(draft: Draft, place: usize, length: usize) -> Result<Table, ReadRefusal> {
    if draft.given.len() as u64 != draft.table.n - 1 {
        return Err(ReadRefusal::At { number: 8, place });
    }
    if place + 1 < length {
        return Err(ReadRefusal::At { number: 9, place: place + 1 });
    }
    match unsuitable(&draft.table) {
        Some(triple) => Err(ReadRefusal::Unsuitable(triple)),
        None => Ok(draft.table),
    }
}

pub fn read_table(bytes: &[u8]) -> Result<Table, ReadRefusal> {
    let mut draft: Option<Draft> = None;
    let mut place = 0;
    loop {
        let at = |number| ReadRefusal::At { number, place };
        let kind = *bytes.get(place).ok_or(at(1))?;
        let length = body_length(kind).ok_or(at(2))?;
        let next = place + 1 + length;
        let body = bytes.get(place + 1..next).ok_or(at(3))?;
        draft = match (kind, draft) {
            (1, None) => Some(read_sizes(body).map_err(at)?),
            (2, Some(mut draft)) => {
                read_row(&mut draft, body).map_err(at)?;
                Some(draft)
            }
            (0, Some(draft)) => return finish(draft, place, bytes.len()),
            _ => return Err(at(4)), // sizes again, or another record before them
        };
        place = next;
    }
}

// ---- Made tables ----

/// The table that columns 2 to n of a triangle fix; bit j − 1 of a column is its place j.
pub fn table_of_triangle(columns: &[u64], depth: u64) -> Table {
    let n = columns.len() as u64 + 1;
    let row = |j: u64| {
        (2..=n)
            .filter(|&k| symbol(columns[k as usize - 2], j))
            .fold(1u64 << (n - j), |row, k| row | 1 << (n + k - 1))
    };
    let rows: Vec<u64> = (1..n).map(row).collect();
    Table::new(n, 2 * n, depth, &rows)
}

/// All fillings of the next column that make its table suitable.
pub fn suitable_fillings(columns: &[u64]) -> Vec<u64> {
    let n = columns.len() as u64 + 2;
    let serves = |filling: &u64| {
        let longer = [columns, &[*filling]].concat();
        is_suitable(&table_of_triangle(&longer, 1))
    };
    (0..1 << (n - 1)).filter(serves).collect()
}

/// Columns 2 to 16, searched once; each is the only filling that serves.
pub fn triangle() -> &'static [u64] {
    static TRIANGLE: OnceLock<Vec<u64>> = OnceLock::new();
    TRIANGLE.get_or_init(|| {
        let mut columns = Vec::new();
        for n in 2..=16 {
            let fillings = suitable_fillings(&columns);
            assert_eq!(fillings.len(), 1, "column {n} is not forced: {fillings:?}");
            columns.push(fillings[0]);
        }
        columns
    })
}

/// Refusal 11, or the made table.
pub fn make_table(n: u64, depth: u64) -> Result<Table, u64> {
    if !sizes_in_range(n, 2, depth) {
        return Err(11);
    }
    Ok(table_of_triangle(&triangle()[..n as usize - 1], depth))
}

// ---- Coder and decoder memory ----

pub fn is_fit(table: &Table) -> bool {
    sizes_in_range(table.n, table.span, table.depth)
        && (1..table.n).all(|j| is_below(table.row(j), table.span))
}

/// Refusals 12 and 13.
fn memory_refusal(table: &Table, count: usize, stated: fn(&Table) -> usize) -> Option<u64> {
    if !is_fit(table) {
        Some(12)
    } else if count != stated(table) {
        Some(13)
    } else {
        None
    }
}

fn start(table: &Table, words: &mut [u64], stated: fn(&Table) -> usize) -> Result<(), u64> {
    match memory_refusal(table, words.len(), stated) {
        Some(number) => Err(number),
        None => {
            words.fill(0);
            Ok(())
        }
    }
}

pub fn start_coder(table: &Table, words: &mut [u64]) -> Result<(), u64> {
    start(table, words, Table::coder_words)
}

pub fn start_decoder(table: &Table, words: &mut [u64]) -> Result<(), u64> {
    start(table, words, Table::decoder_words)
}

// ---- Coder ----

/// Refusals 12 to 15 of a coder step.
pub fn code_refusal(table: &Table, words: &[u64], info: u64) -> Option<u64> {
    if let Some(number) = memory_refusal(table, words.len(), Table::coder_words) {
        return Some(number);
    }
    let turn = words[0];
    if turn >= table.depth || !is_below(words[1 + turn as usize], table.span - 1) {
        return Some(14);
    }
    (!is_below(info, table.n - 1)).then_some(15)
}

/// Codes one information block: the sent block has the parity as symbol n.
pub fn code(table: &Table, words: &mut [u64], info: u64) -> Result<u64, u64> {
    if let Some(number) = code_refusal(table, words, info) {
        return Err(number);
    }
    let turn = words[0];
    let pending = &mut words[1 + turn as usize];
    let w = *pending ^ image(table, info);
    *pending = w >> 1;
    words[0] = (turn + 1) % table.depth;
    Ok(info | (w & 1) << (table.n - 1))
}

/// The parity of the last of a stream's blocks by the definition, from all of the stream's information.
pub fn parity_by_definition(table: &Table, stream: &[u64]) -> u64 {
    let mut count = 0;
    for (k, &info) in stream.iter().rev().enumerate().take(table.span as usize) {
        for j in 1..table.n {
            count += u64::from(table.row(j) >> k & 1 == 1 && symbol(info, j));
        }
    }
    count % 2
}

// ---- Decoder ----

#[derive(Clone, Copy, Debug, PartialEq, Eq)]
pub enum Mark {
    Clean,
    Held,
    Corrected(u64),
    Doubtful,
    Parity(u64),
}

/// One past the greatest number of a mark.
pub const MARKS: usize = 6;

impl Mark {
    /// The number in an answer and in an entry, where 0 is "nothing yet".
    pub fn number(self) -> u64 {
        match self {
            Mark::Clean => 1,
            Mark::Held => 2,
            Mark::Corrected(_) => 3,
            Mark::Doubtful => 4,
            Mark::Parity(_) => 5,
        }
    }

    /// The e that was found, or 0.
    pub fn error(self) -> u64 {
        match self {
            Mark::Corrected(e) | Mark::Parity(e) => e,
            Mark::Clean | Mark::Held | Mark::Doubtful => 0,
        }
    }

    /// As the listing program prints it.
    fn word(self) -> &'static str {
        match self {
            Mark::Clean => "clean",
            Mark::Held => "held",
            Mark::Corrected(_) => "corrected",
            Mark::Doubtful => "doubtful",
            Mark::Parity(_) => "parity",
        }
    }
}

#[derive(Clone, Copy, Debug, PartialEq, Eq)]
pub struct Delivered {
    pub info: u64,
    pub mark: Mark,
}

/// Where a stream's words stand in its part of the decoder's memory.
const PENDING: usize = 0;
const SYNDROME: usize = 1;
const DELAYED: usize = 2;

fn stream_part(table: &Table, turn: u64) -> std::ops::Range<usize> {
    let length = table.span as usize + 1;
    let begin = 2 + turn as usize * length;
    begin..begin + length
}

fn stream_is_well_formed(table: &Table, stream: &[u64]) -> bool {
    is_below(stream[PENDING], table.span - 1)
        && is_below(stream[SYNDROME], table.span - 1)
        && stream[DELAYED..].iter().all(|&block| is_below(block, table.n - 1))
}

/// Refusals 12 to 15 of a decoder step.
pub fn decode_refusal(table: &Table, words: &[u64], received: u64) -> Option<u64> {
    if let Some(number) = memory_refusal(table, words.len(), Table::decoder_words) {
        return Some(number);
    }
    let (turn, fill) = (words[0], words[1]);
    if turn >= table.depth || fill > table.delay() {
        return Some(14);
    }
    if !stream_is_well_formed(table, &words[stream_part(table, turn)]) {
        return Some(14);
    }
    (!is_below(received, table.n)).then_some(15)
}

/// The least e by trying all in ascending order.
pub fn least_error_by_trying(table: &Table, register: u64) -> Option<u64> {
    (0..1 << table.n).find(|&e| image(table, e) == register)
}

/// The least e by elimination. Rows are offered in ascending order and a dependent one is not kept, so the
/// answer has no row that those below it could replace: every other answer has a one at such a row, higher up.
pub fn least_error_by_elimination(table: &Table, register: u64) -> Option<u64> {
    let mut echelon = Echelon::default();
    for j in 1..=table.n {
        echelon.offer(table.row(j), 1 << (j - 1));
    }
    let (rest, e) = echelon.reduce(register, 0);
    (rest == 0).then_some(e)
}

/// Up to this n all e are tried.
const SMALL: u64 = 5;

pub fn least_error(table: &Table, register: u64) -> Option<u64> {
    if table.n <= SMALL {
        least_error_by_trying(table, register)
    } else {
        least_error_by_elimination(table, register)
    }
}

fn mark_of(table: &Table, register: u64, error: Option<u64>) -> Mark {
    match error {
        Some(0) => Mark::Clean,
        Some(e) if e == 1 << (table.n - 1) => Mark::Parity(e),
        Some(e) => Mark::Corrected(e),
        None if register & 1 == 1 => Mark::Doubtful,
        None => Mark::Held,
    }
}

/// Takes one received block; `None` is "nothing yet".
pub fn decode(table: &Table, words: &mut [u64], received: u64) -> Result<Option<Delivered>, u64> {
    if let Some(number) = decode_refusal(table, words, received) {
        return Err(number);
    }
    let (turn, fill) = (words[0], words[1]);
    let information = received % (1 << (table.n - 1));
    let parity = received >> (table.n - 1);

    let stream = &mut words[stream_part(table, turn)];
    let w = stream[PENDING] ^ image(table, information);
    let raw = w & 1 ^ parity;
    let register = stream[SYNDROME] | raw << (table.span - 1);
    let error = least_error(table, register);
    stream[PENDING] = w >> 1;
    stream[SYNDROME] = if error.is_some() { 0 } else { register >> 1 };
    let delayed = &mut stream[DELAYED..];
    let oldest = delayed[0];
    delayed.rotate_left(1);
    delayed[table.span as usize - 2] = information;

    words[0] = (turn + 1) % table.depth;
    if fill < table.delay() {
        words[1] = fill + 1;
        return Ok(None);
    }
    let wrong_information = error.unwrap_or(0) % (1 << (table.n - 1));
    let info = oldest ^ wrong_information;
    Ok(Some(Delivered { info, mark: mark_of(table, register, error) }))
}

// ---- Batches ----

// A batch is told by its single calls, and so is this one: the steps above, which other groups compare with the
// archive's single calls. Nothing is tested ahead, kept between blocks or written later, as one for speed would.

/// Takes blocks while one is left and there is room for its entry, up to the first that is refused, and says how
/// many.
fn batch(blocks: &[u16], entries: &mut [u32], mut step: impl FnMut(u64) -> Result<u32, u64>) -> usize {
    let mut taken = 0;
    while taken < blocks.len() && taken < entries.len() {
        match step(u64::from(blocks[taken])) {
            Ok(entry) => entries[taken] = entry,
            Err(_) => break,
        }
        taken += 1;
    }
    taken
}

/// An entry is the coded block.
pub fn code_batch(table: &Table, words: &mut [u64], infos: &[u16], entries: &mut [u32]) -> usize {
    batch(infos, entries, |info| code(table, words, info).map(|block| block as u32))
}

/// An entry has the information in its low 16 bits and the mark's number above them; "nothing yet" is 0.
pub fn decode_batch(table: &Table, words: &mut [u64], received: &[u16], entries: &mut [u32]) -> usize {
    batch(received, entries, |block| {
        let delivered = decode(table, words, block)?;
        Ok(delivered.map_or(0, |Delivered { info, mark }| (mark.number() << 16 | info) as u32))
    })
}

// ---- Tables written back ----

#[derive(Clone, Copy, Debug, PartialEq, Eq)]
pub enum WriteRefusal {
    /// 12, the table is not fit, or 16, the buffer is shorter than 10n − 5.
    Number(u64),
    /// 10.
    Unsuitable(Triple),
}

/// Sizes, rows ascending, end.
fn written_records(table: &Table) -> Vec<u8> {
    let mut bytes = vec![1, table.n as u8, table.span as u8, table.depth as u8];
    for j in 1..table.n {
        bytes.extend([2, j as u8]);
        bytes.extend((0..8).map(|k| (table.row(j) >> (8 * k)) as u8)); // low byte first
    }
    bytes.push(0);
    bytes
}

/// Writes a table into the first of the lent bytes, and says how many those are.
pub fn write_table(table: &Table, bytes: &mut [u8]) -> Result<usize, WriteRefusal> {
    if !is_fit(table) {
        return Err(WriteRefusal::Number(12));
    }
    if let Some(triple) = unsuitable(table) {
        return Err(WriteRefusal::Unsuitable(triple));
    }
    let length = 10 * table.n as usize - 5;
    if bytes.len() < length {
        return Err(WriteRefusal::Number(16));
    }
    bytes[..length].copy_from_slice(&written_records(table));
    Ok(length)
}

// ---- The listing program ----

fn listing_line(number: u64, delivered: Delivered) -> String {
    let Delivered { info, mark } = delivered;
    format!("{number} {info} {} {}\n", mark.word(), mark.error())
}

/// The lines after the header, and the refusal that stopped them.
fn list_blocks(lines: &mut String, n: u64, m: u64, blocks: &[u8]) -> Result<(), u64> {
    let table = make_table(n, m)?;
    let mut words = vec![0; table.decoder_words()];
    start_decoder(&table, &mut words)?;
    let mut number = 0;
    let pairs = blocks.chunks_exact(2);
    let odd = !pairs.remainder().is_empty();
    for pair in pairs {
        let received = u64::from(pair[0]) + 256 * u64::from(pair[1]);
        if let Some(delivered) = decode(&table, &mut words, received)? {
            lines.push_str(&listing_line(number, delivered));
            number += 1;
        }
    }
    if odd {
        lines.push_str("odd byte\n");
    }
    Ok(())
}

/// What the listing program prints for these input bytes.
pub fn listing(input: &[u8]) -> String {
    let mut lines = String::from("block info mark error\n");
    if let [n, m, blocks @ ..] = input {
        if let Err(number) = list_blocks(&mut lines, u64::from(*n), u64::from(*m), blocks) {
            lines.push_str(&format!("refused {number}\n"));
        }
    }
    lines
}
