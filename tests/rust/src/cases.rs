//! Drawn cases: tables, table bytes, memories, fades and inputs of the listing program, repeatable from a seed.

use crate::oracle::{code, image, is_below, is_suitable, make_table, shifted_image, Table, MARKS, MOST_ROWS};

/// The xorshift generator.
pub struct Draw(u64);

impl Draw {
    pub fn from_seed(seed: u64) -> Draw {
        Draw(seed | 1) // zero would stay zero
    }

    pub fn number(&mut self) -> u64 {
        self.0 ^= self.0 << 13;
        self.0 ^= self.0 >> 7;
        self.0 ^= self.0 << 17;
        self.0
    }

    /// 0 to bound − 1.
    pub fn below(&mut self, bound: u64) -> u64 {
        (self.number() >> 11) % bound
    }

    /// Both ends included.
    pub fn between(&mut self, low: u64, high: u64) -> u64 {
        low + self.below(high - low + 1)
    }

    /// A number below 2^bits, bits 0 to 64.
    pub fn bits(&mut self, bits: u64) -> u64 {
        ((u128::from(self.number()) << bits) >> 64) as u64
    }

    /// True once in `of` times.
    pub fn once_in(&mut self, of: u64) -> bool {
        self.below(of) == 0
    }

    pub fn pick<T: Copy>(&mut self, from: &[T]) -> T {
        from[self.below(from.len() as u64) as usize]
    }
}

// ---- Sizes ----

/// A number of the range, its ends more often than the rest.
fn with_ends(draw: &mut Draw, low: u64, high: u64) -> u64 {
    match draw.below(6) {
        0 => low,
        1 => high,
        _ => draw.between(low, high),
    }
}

pub fn any_n(draw: &mut Draw) -> u64 {
    with_ends(draw, 2, 16)
}

pub fn any_span(draw: &mut Draw) -> u64 {
    with_ends(draw, 2, 64)
}

/// Small depths more often: a step costs the comparing of the whole memory.
pub fn any_depth(draw: &mut Draw) -> u64 {
    match draw.below(12) {
        0 => 64,
        1 => draw.between(1, 64),
        2 | 3 => 1,
        _ => draw.between(1, 6),
    }
}

// ---- Rows ----

/// One row below 2^N: dense, sparse, a single one, zero, or all ones.
fn any_row(draw: &mut Draw, span: u64) -> u64 {
    match draw.below(8) {
        0 => 0,
        1 => 1 << draw.below(span),
        2 => (1 << draw.below(span)) | (1 << draw.below(span)),
        3 => draw.bits(span) & draw.bits(span),
        4 => u64::MAX >> (64 - span),
        _ => draw.bits(span),
    }
}

/// A row that depends on those before it and on row n: equal to one, or a sum of some.
fn dependent_row(draw: &mut Draw, before: &[u64]) -> u64 {
    if before.is_empty() {
        return draw.below(2);
    }
    if draw.once_in(2) {
        return draw.pick(before);
    }
    let start = draw.below(2);
    before.iter().fold(start, |sum, row| sum ^ (row * draw.below(2)))
}

/// Rows past n − 1 do not matter; half of the time something stands there.
pub fn with_unused_rows(draw: &mut Draw, mut table: Table) -> Table {
    if draw.once_in(2) {
        for row in &mut table.rows[table.n as usize - 1..MOST_ROWS] {
            *row = draw.number();
        }
    }
    table
}

/// Any fit table of these sizes, with dense rows only or a mixture.
pub fn fit_table(draw: &mut Draw, n: u64, span: u64, depth: u64) -> Table {
    let dense = draw.once_in(2);
    let mut rows = Vec::new();
    for _ in 1..n {
        let row = if dense {
            draw.bits(span)
        } else if draw.once_in(4) {
            dependent_row(draw, &rows)
        } else {
            any_row(draw, span)
        };
        rows.push(row);
    }
    let table = Table::new(n, span, depth, &rows);
    with_unused_rows(draw, table)
}

pub fn any_fit_table(draw: &mut Draw) -> Table {
    let (n, span, depth) = (any_n(draw), any_span(draw), any_depth(draw));
    fit_table(draw, n, span, depth)
}

/// Adds rows to other rows and 1 to some. The span of all rows stays, and suitability is a property of it.
fn mix_rows(draw: &mut Draw, rows: &mut [u64]) {
    for _ in 0..3 * rows.len() {
        let from = draw.below(rows.len() as u64) as usize;
        let to = draw.below(rows.len() as u64) as usize;
        if from != to {
            rows[to] ^= rows[from];
        }
        rows[to] ^= draw.below(2);
    }
}

/// A suitable table from a made one of no fewer symbols: its rows mixed, some left out, and ones added above
/// its span. Each of the three keeps a table suitable.
fn suitable_from_made(draw: &mut Draw, n: u64, span: u64, depth: u64) -> Option<Table> {
    let base = draw.between(n, (span / 2).min(16));
    let made = make_table(base, 1).ok()?;
    let mut rows = made.rows[..base as usize - 1].to_vec();
    mix_rows(draw, &mut rows);
    rows.truncate(n as usize - 1);
    if made.span < span {
        for row in &mut rows {
            *row |= draw.bits(span - made.span) << made.span;
        }
    }
    Some(Table::new(n, span, depth, &rows))
}

fn suitable_by_chance(draw: &mut Draw, n: u64, span: u64, depth: u64) -> Option<Table> {
    let rows: Vec<u64> = (1..n).map(|_| draw.bits(span)).collect();
    let table = Table::new(n, span, depth, &rows);
    is_suitable(&table).then_some(table)
}

/// A suitable table; there is none if N < 2n.
pub fn suitable_table(draw: &mut Draw, n: u64, span: u64, depth: u64) -> Option<Table> {
    if span < 2 * n {
        return None;
    }
    if draw.once_in(2) {
        if let Some(table) = suitable_by_chance(draw, n, span, depth) {
            return Some(table);
        }
    }
    suitable_from_made(draw, n, span, depth)
}

/// A suitable table of any sizes that allow one.
pub fn any_suitable_table(draw: &mut Draw) -> Table {
    loop {
        let (n, depth) = (any_n(draw), any_depth(draw));
        let span = if draw.once_in(3) { 2 * n } else { with_ends(draw, 2 * n, 64) };
        if let Some(table) = suitable_table(draw, n, span, depth) {
            return with_unused_rows(draw, table);
        }
    }
}

/// Where a shift lies: 0 if it is 1, 1 if it is 2 to n − 1, 2 if it is n or more.
pub fn range_of_shift(n: u64, l: u64) -> usize {
    usize::from(l > 1) + usize::from(l >= n)
}

fn suitable_or_fit_table(draw: &mut Draw, n: u64, span: u64, depth: u64) -> Table {
    match suitable_table(draw, n, span, depth) {
        Some(table) => table,
        None => fit_table(draw, n, span, depth),
    }
}

/// Makes a row a shifted image plus some of the other rows, both of these symbols only.
fn spoil_row(draw: &mut Draw, table: &mut Table, which: usize, l: u64, symbols: u64) {
    let e1 = draw.bits(table.n) & symbols;
    let others = draw.bits(table.n) & symbols;
    table.rows[which] = shifted_image(table, e1, l) ^ image(table, others);
}

/// A table that the shift l shows unsuitable: one row is made a shifted image, plus some of the other rows.
/// Often no other shift shows it.
pub fn spoilt_table(draw: &mut Draw, n: u64, span: u64, depth: u64) -> Table {
    let mut table = suitable_or_fit_table(draw, n, span, depth);
    let own = draw.below(n - 1) as usize;
    let l = draw.between(1, span - 1);
    spoil_row(draw, &mut table, own, l, !(1 << own));
    table
}

/// A table with a clash at l, which is 1, less than n, or n and more, and often with others: a second row is spoilt at
/// the same l or at a greater one, so that another e0 clashes, or shifting by l drops all of it, so that several e1
/// have one shifted image.
pub fn clashing_table(draw: &mut Draw, n: u64, span: u64, depth: u64) -> Table {
    let mut table = suitable_or_fit_table(draw, n, span, depth);
    let l = match draw.below(3) {
        0 => 1,
        1 => draw.between(1, (n - 1).min(span - 1)),
        _ => draw.between(n.min(span - 1), span - 1),
    };
    let greater = draw.between(l, span - 1);
    let (own, second) = (draw.below(n - 1) as usize, draw.below(n - 1) as usize);
    if second != own {
        // The first row is spoilt last, so the second one does without it.
        let symbols = !(1 << own | 1 << second);
        match draw.below(3) {
            0 => spoil_row(draw, &mut table, second, l, symbols),
            1 => spoil_row(draw, &mut table, second, greater, symbols),
            _ => table.rows[second] = draw.bits(l) << (span - l),
        }
    }
    spoil_row(draw, &mut table, own, l, !(1 << own));
    with_unused_rows(draw, table)
}

/// A number that is out of range, some of which are in range once cut to fewer bits.
fn out_of_range(draw: &mut Draw, low: u64, high: u64) -> u64 {
    let inside = draw.between(low, high);
    match draw.below(6) {
        0 => low - 1,
        1 => high + 1,
        2 => u64::MAX,
        3 => inside + (1 << draw.pick(&[8, 16, 32, 63])),
        4 => draw.bits(64) | 1 << 40,
        _ => 0,
    }
}

/// A table that refusal 12 meets; rows are spoilt only where bits N and above exist.
pub fn unfit_table(draw: &mut Draw, fit: &Table) -> Table {
    let mut table = fit.clone();
    let high_row = fit.span < 64 && draw.once_in(2);
    if high_row {
        let above = draw.between(fit.span, 63);
        let which = draw.below(fit.n - 1) as usize;
        table.rows[which] |= 1 << if draw.once_in(2) { fit.span } else { above };
        return table;
    }
    match draw.below(3) {
        0 => table.n = out_of_range(draw, 2, 16),
        1 => table.span = out_of_range(draw, 2, 64),
        _ => table.depth = out_of_range(draw, 1, 64),
    }
    table
}

// ---- Seeds of test loads ----

/// A seed that is not 0: an end, a single bit, or any.
pub fn any_seed(draw: &mut Draw) -> u32 {
    match draw.below(6) {
        0 => 1,
        1 => u32::MAX,
        2 => 1 << draw.below(32),
        _ => draw.between(1, u64::from(u32::MAX)) as u32,
    }
}

// ---- Table bytes ----

pub fn sizes_record(n: u8, span: u8, depth: u8) -> Vec<u8> {
    vec![1, n, span, depth]
}

pub fn row_record(j: u8, row: u64) -> Vec<u8> {
    let mut record = vec![2, j];
    record.extend(row.to_le_bytes());
    record
}

/// The records of a table, its rows in a drawn order.
pub fn records(draw: &mut Draw, table: &Table) -> Vec<Vec<u8>> {
    let mut order: Vec<u64> = (1..table.n).collect();
    for last in (1..order.len()).rev() {
        order.swap(last, draw.below(last as u64 + 1) as usize);
    }
    let mut records = vec![sizes_record(table.n as u8, table.span as u8, table.depth as u8)];
    records.extend(order.iter().map(|&j| row_record(j as u8, table.row(j))));
    records.push(vec![0]);
    records
}

pub fn table_bytes(draw: &mut Draw, table: &Table) -> Vec<u8> {
    records(draw, table).concat()
}

/// Leaves out, repeats, swaps or replaces a record.
pub fn mutate_records(draw: &mut Draw, records: &mut Vec<Vec<u8>>) {
    let which = draw.below(records.len() as u64) as usize;
    let other = draw.below(records.len() as u64) as usize;
    match draw.below(5) {
        0 => drop(records.remove(which)),
        1 => records.insert(other, records[which].clone()),
        2 => records.swap(which, other),
        3 => records[which] = any_record(draw),
        _ => records.insert(which, any_record(draw)),
    }
}

fn any_record(draw: &mut Draw) -> Vec<u8> {
    match draw.below(4) {
        0 => sizes_record(draw.below(18) as u8, draw.below(67) as u8, draw.below(67) as u8),
        1 => vec![0],
        2 => vec![draw.bits(8) as u8],
        _ => {
            let bits = draw.between(1, 64);
            row_record(draw.below(18) as u8, draw.bits(bits))
        }
    }
}

/// Changes, adds, removes or cuts off bytes.
pub fn mutate_bytes(draw: &mut Draw, bytes: &mut Vec<u8>) {
    if bytes.is_empty() {
        bytes.push(draw.bits(8) as u8);
        return;
    }
    let at = draw.below(bytes.len() as u64) as usize;
    match draw.below(6) {
        0 => bytes[at] ^= 1 << draw.below(8),
        1 => bytes[at] = draw.bits(8) as u8,
        2 => drop(bytes.remove(at)),
        3 => bytes.insert(at, draw.bits(2) as u8),
        4 => bytes.truncate(at),
        _ => bytes.push(draw.bits(2) as u8),
    }
}

/// Bytes of small values mostly, as larger ones end at once with refusal 2.
pub fn random_bytes(draw: &mut Draw) -> Vec<u8> {
    let length = draw.below(40);
    (0..length).map(|_| if draw.once_in(4) { draw.bits(8) as u8 } else { draw.below(4) as u8 }).collect()
}

/// So many bytes of any value.
pub fn any_bytes(draw: &mut Draw, count: usize) -> Vec<u8> {
    (0..count).map(|_| draw.bits(8) as u8).collect()
}

// ---- Memories ----

/// A pending word: zero, full, or any below 2^(N−1).
fn pending_word(draw: &mut Draw, span: u64) -> u64 {
    match draw.below(4) {
        0 => 0,
        1 => u64::MAX >> (65 - span),
        _ => draw.bits(span - 1),
    }
}

/// A syndrome word: zero, any, or one that a raw term can complete to an image.
fn syndrome_word(draw: &mut Draw, table: &Table) -> u64 {
    match draw.below(4) {
        0 => 0,
        1 => draw.bits(table.span - 1),
        _ => {
            let e = draw.bits(table.n);
            image(table, e) & (u64::MAX >> (65 - table.span))
        }
    }
}

pub fn well_formed_coder(draw: &mut Draw, table: &Table) -> Vec<u64> {
    let mut words = vec![draw.below(table.depth)];
    words.extend((0..table.depth).map(|_| pending_word(draw, table.span)));
    words
}

/// The fill: complete, one short of it, none, or any.
fn any_fill(draw: &mut Draw, delay: u64) -> u64 {
    match draw.below(6) {
        0 => 0,
        1 => delay - 1,
        2 => draw.between(0, delay),
        _ => delay,
    }
}

pub fn well_formed_decoder(draw: &mut Draw, table: &Table) -> Vec<u64> {
    let mut words = vec![draw.below(table.depth), any_fill(draw, table.delay())];
    for _ in 0..table.depth {
        words.push(pending_word(draw, table.span));
        words.push(syndrome_word(draw, table));
        words.extend((1..table.span).map(|_| draw.bits(table.n - 1)));
    }
    words
}

/// A decoder memory of depth 1 whose next register this is, if the parity alone is received as returned.
pub fn memory_before(table: &Table, register: u64) -> (Vec<u64>, u16) {
    let mut words = vec![0; table.decoder_words()];
    words[1] = table.delay();
    words[3] = register & (u64::MAX >> (65 - table.span));
    (words, ((register >> (table.span - 1)) << (table.n - 1)) as u16)
}

/// A word that is 2^bits or more: the least such, the greatest, or any.
pub fn too_large(draw: &mut Draw, bits: u64) -> u64 {
    match draw.below(3) {
        0 => 1 << bits,
        1 => u64::MAX,
        _ => draw.number() | 1 << bits,
    }
}

fn spoilt_turn(draw: &mut Draw, depth: u64) -> u64 {
    draw.pick(&[depth, depth + 1, u64::MAX, 1 << 32, 1 << 63])
}

pub fn malformed_coder(draw: &mut Draw, table: &Table) -> Vec<u64> {
    let mut words = well_formed_coder(draw, table);
    if draw.once_in(4) {
        words[0] = spoilt_turn(draw, table.depth);
    } else {
        let stream = 1 + draw.below(table.depth) as usize;
        words[stream] = too_large(draw, table.span - 1);
    }
    words
}

/// A fault in the turn, the fill, or one word of one stream, not always the turn's.
pub fn malformed_decoder(draw: &mut Draw, table: &Table) -> Vec<u64> {
    let mut words = well_formed_decoder(draw, table);
    let turn = words[0];
    match draw.below(8) {
        0 => words[0] = spoilt_turn(draw, table.depth),
        1 => words[1] = draw.pick(&[table.delay() + 1, u64::MAX, 1 << 32]),
        _ => {
            let stream = if draw.once_in(2) { turn } else { draw.below(table.depth) };
            let within = if draw.once_in(2) { draw.below(2) } else { draw.below(table.span + 1) };
            let bits = if within < 2 { table.span - 1 } else { table.n - 1 };
            words[(2 + stream * (table.span + 1) + within) as usize] = too_large(draw, bits);
        }
    }
    words
}

/// Any words at all, mostly small, so that the turn and the fill often pass.
pub fn random_words(draw: &mut Draw, count: usize) -> Vec<u64> {
    (0..count)
        .map(|_| {
            let bits = draw.pick(&[0, 1, 2, 4, 8, 16, 64]);
            draw.bits(bits)
        })
        .collect()
}

/// A block that fits mostly, and now and then any of 16 bits.
pub fn any_block(draw: &mut Draw, bits: u64) -> u16 {
    if draw.once_in(12) {
        draw.bits(16) as u16
    } else {
        draw.bits(bits) as u16
    }
}

/// A block that refusal 15 meets, if 16 bits can hold one.
pub fn too_large_block(draw: &mut Draw, bits: u64) -> Option<u16> {
    if bits >= 16 {
        return None;
    }
    let block = draw.bits(16) | 1 << bits;
    debug_assert!(!is_below(block, bits));
    Some(if draw.once_in(3) { 1 << bits } else { block as u16 })
}

// ---- Fades ----

/// 2 × m × (N − 1): the right places that a run begins with.
pub fn double_guard(table: &Table) -> u64 {
    2 * table.delay()
}

/// 2 × m × (N − 2) right places, which do for what is due after the double guard. The papers do not say so.
pub fn short_guard(table: &Table) -> u64 {
    2 * table.depth * (table.span - 2)
}

/// The errors of the places in turn: bursts of at most m places, at least m × (N − 1) right places between
/// them, and at first as many right ones as the run's guard has.
pub struct Fades {
    n: u64,
    depth: u64,
    between: u64,
    right: u64,
    burst: Vec<u64>,
    place: u64,
    /// The places, from 1, at which bursts began.
    pub bursts: Vec<u64>,
}

impl Fades {
    pub fn new(draw: &mut Draw, table: &Table, guard: u64) -> Fades {
        let right = guard + slack(draw, table.depth);
        let (n, depth, between) = (table.n, table.depth, table.delay());
        Fades { n, depth, between, right, burst: Vec::new(), place: 0, bursts: Vec::new() }
    }

    /// The error of the next place; 0 leaves it right.
    pub fn next_error(&mut self, draw: &mut Draw) -> u64 {
        self.place += 1;
        if self.right > 0 {
            self.right -= 1;
            return 0;
        }
        if self.burst.is_empty() {
            self.burst = burst(draw, self.n, self.depth);
            self.bursts.push(self.place);
        }
        let error = self.burst.pop().unwrap_or(0);
        if self.burst.is_empty() {
            self.right = self.between + slack(draw, self.depth);
        }
        error
    }
}

/// What is claimed of a run with fades, held to the information sent and to the information and the mark's number of
/// each answer: every delivery after the double guard is right and not doubtful; and if the run began with all of
/// that guard, those of its last m places, whose marks are counted, are right and clean or parity. Tells of the first
/// place, from 1, that is not so.
pub fn first_wrong_delivery(
    table: &Table,
    guard: u64,
    infos: &[u16],
    answers: &[(u64, u64)],
    guard_end: &mut [u64; MARKS],
) -> Option<String> {
    let (delay, double) = (table.delay(), double_guard(table));
    let first = if guard < double { double + 1 } else { double - table.depth + 1 };
    (first..=answers.len() as u64).find_map(|p| {
        let (info, mark) = answers[p as usize - 1];
        let due = infos[(p - delay) as usize - 1];
        let marks: &[u64] = if p > double { &[1, 2, 3, 5] } else { &[1, 5] }; // 4 is doubtful
        let right = info == u64::from(due) && marks.contains(&mark);
        if right && p <= double {
            guard_end[mark as usize] += 1;
        }
        (!right).then(|| format!("place {p}: {due} is due, with a mark of {marks:?}, got {info}, {mark}"))
    })
}

/// Right places beyond those that must be; most often none.
fn slack(draw: &mut Draw, depth: u64) -> u64 {
    match draw.below(4) {
        0 => draw.below(3 * depth + 3),
        1 => draw.below(3),
        _ => 0,
    }
}

fn wrong(draw: &mut Draw, n: u64) -> u64 {
    let one = 1 << draw.below(n);
    match draw.below(5) {
        0 => one,
        1 => 1 << (n - 1), // the parity alone
        2 => (1 << n) - 1,
        _ => draw.bits(n) | one,
    }
}

/// A burst begins and ends wrong; the places inside may be right.
fn burst(draw: &mut Draw, n: u64, depth: u64) -> Vec<u64> {
    let length = with_ends(draw, 1, depth);
    let solid = draw.once_in(2);
    (0..length)
        .map(|i| {
            let end = i == 0 || i + 1 == length;
            if end || solid || draw.once_in(2) {
                wrong(draw, n)
            } else {
                0
            }
        })
        .collect()
}

// ---- Inputs of the listing program ----

/// A few blocks, enough for deliveries, or about as many as fill one or two of the program's parts of 1,024.
fn block_count(draw: &mut Draw, delay: u64) -> u64 {
    match draw.below(6) {
        0 => draw.below(10),
        1 => draw.between(1_021, 1_027),
        2 => draw.between(2_045, 2_051),
        _ => delay + draw.below(2 * delay),
    }
}

/// What a started coder sends, with no, few or many blocks damaged.
pub fn received_blocks(draw: &mut Draw, table: &Table, count: u64) -> Vec<u16> {
    let damaged = draw.pick(&[u64::MAX, 200, 20, 2]); // one block in so many
    let mut coder = vec![0; table.coder_words()];
    let mut blocks = Vec::new();
    for _ in 0..count {
        let info = draw.bits(table.n - 1);
        let sent = code(table, &mut coder, info).expect("a started memory");
        let error = if draw.once_in(damaged) { wrong(draw, table.n) } else { 0 };
        blocks.push((sent ^ error) as u16);
    }
    blocks
}

/// Input of the listing program: n, m and blocks, one that is refused among them now and then, and at times an
/// odd byte at the end. Any bytes follow sizes that are refused.
pub fn listing_input(draw: &mut Draw, n: u64, m: u64) -> Vec<u8> {
    let mut input = vec![n as u8, m as u8];
    let Ok(table) = make_table(n, m) else {
        input.extend(random_bytes(draw));
        return input;
    };
    let count = block_count(draw, table.delay());
    let mut blocks = received_blocks(draw, &table, count);
    if draw.once_in(4) {
        let at = draw.below(count + 1) as usize;
        blocks.splice(at..at, too_large_block(draw, n));
    }
    input.extend(blocks.iter().flat_map(|block| block.to_le_bytes()));
    if draw.once_in(3) {
        input.push(draw.bits(8) as u8);
    }
    input
}
