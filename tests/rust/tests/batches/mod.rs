//! Groups for batches. Each batch is done three ways: by the archive, by the archive's own single calls on a copy of
//! the memory, and by the plain implementation. The count, every entry, written or not, and every word of the memory
//! must be the same, and the groups hold the count to what they know of it besides.

use super::*;
use std::fmt;

// ---- The count of what was compared ----

const LEAST_BATCHES: u64 = 10_000_000;

/// How a batch ended: its list taken, its room filled before that, or by a refusal, whose number it is then.
const ALL_TAKEN: usize = 0;
const ROOM_FILLED: usize = 1;
const ENDS: [usize; 6] = [ALL_TAKEN, ROOM_FILLED, 12, 13, 14, 15];

#[derive(Default)]
pub struct Count {
    pub batches: u64,
    blocks: u64,
    coder_ends: [u64; 16],
    decoder_ends: [u64; 16],
    marks: [u64; MARKS],
    /// Of the last m entries of double guards.
    guard_end: [u64; MARKS],
}

impl Count {
    fn add(&mut self, side: &Side, end: usize, entries: &[u32]) {
        self.batches += 1;
        self.blocks += entries.len() as u64;
        if side.name == CODER.name {
            self.coder_ends[end] += 1;
            return;
        }
        self.decoder_ends[end] += 1;
        for entry in entries {
            self.marks[(entry >> 16) as usize] += 1;
        }
    }
}

impl fmt::Display for Count {
    fn fmt(&self, f: &mut fmt::Formatter) -> fmt::Result {
        let Count { batches, blocks, coder_ends, decoder_ends, marks, guard_end } = self;
        writeln!(f, "{batches} batches compared, {blocks} blocks taken")?;
        for (name, ends) in [("coder", coder_ends), ("decoder", decoder_ends)] {
            let ends = ENDS.map(|end| ends[end]);
            writeln!(f, "{name} batches by end (list taken, room filled, refusals 12 to 15): {ends:?}")?;
        }
        writeln!(f, "marks 0 to 5 in entries: {marks:?}")?;
        write!(f, "{}", guard_end_line(*guard_end, "in entries"))
    }
}

pub fn everything_reached(tally: &mut Tally) {
    for end in ENDS {
        let Count { coder_ends, decoder_ends, .. } = tally.batches;
        let reached = coder_ends[end] > 0 && decoder_ends[end] > 0;
        tally.check(reached, || format!("end {end} of a batch was not reached by coder and decoder"));
    }
    for mark in 0..MARKS {
        let reached = tally.batches.marks[mark] > 0;
        tally.check(reached, || format!("mark {mark} was not reached in an entry"));
    }
    check_guard_end(tally, tally.batches.guard_end, "in entries");
    let batches = tally.batches.batches;
    tally.check(batches >= LEAST_BATCHES, || format!("only {batches} batches compared"));
}

// ---- A compared batch ----

/// Entries that stand before those lent, and after them.
const MARGIN: usize = 3;

/// What entries hold before a batch, each its own number, which no batch writes.
fn unwritten(room: usize) -> Vec<u32> {
    (0..2 * MARGIN + room).map(|at| 0xE000_0000 + at as u32).collect()
}

/// What a batch did: its count, all entries with those around them, and the words it was lent.
#[derive(PartialEq)]
struct Outcome {
    taken: usize,
    entries: Vec<u32>,
    words: Vec<u64>,
}

impl Outcome {
    /// Of a batch with so much room on these words.
    fn of(words: &mut [u64], room: usize, batch: impl FnOnce(&mut [u64], &mut [u32]) -> usize) -> Outcome {
        let mut entries = unwritten(room);
        let taken = batch(words, &mut entries[MARGIN..MARGIN + room]);
        Outcome { taken, entries, words: words.to_vec() }
    }

    fn filled(&self) -> &[u32] {
        &self.entries[MARGIN..MARGIN + self.taken]
    }

    fn differs_from(&self, other: &Outcome) -> String {
        let entry = self.entries.iter().zip(&other.entries).position(|(a, b)| a != b);
        let word = self.words.iter().zip(&other.words).position(|(a, b)| a != b);
        let entry = entry.map(|at| at as isize - MARGIN as isize);
        format!("took {} for {}, first entry {entry:?}, first word {word:?}", other.taken, self.taken)
    }
}

impl Side {
    /// A batch by the linked single calls: the count, and how it ended.
    pub fn by_single_calls(
        &self,
        table: &Numbers,
        words: &mut [u64],
        blocks: &[u16],
        entries: &mut [u32],
    ) -> (usize, usize) {
        for (at, &block) in blocks.iter().enumerate() {
            if at == entries.len() {
                return (at, ROOM_FILLED);
            }
            match (self.linked_entry)(table, words, block) {
                Ok(entry) => entries[at] = entry,
                Err(refused) => return (at, refused as usize),
            }
        }
        (blocks.len(), ALL_TAKEN)
    }

    /// Compares a batch, and returns its entries and how it ended.
    pub fn compare_batch(
        &self,
        tally: &mut Tally,
        table: &Table,
        twin: &mut Twin,
        blocks: &[u16],
        room: usize,
    ) -> (Vec<u32>, usize) {
        let numbers = table.numbers();
        let call = || format!("{} batch of {} blocks, room {room}, {table:?}", self.name, blocks.len());
        let mut end = ALL_TAKEN;
        let singles = Outcome::of(&mut twin.linked().to_vec(), room, |words, entries| {
            let taken;
            (taken, end) = self.by_single_calls(&numbers, words, blocks, entries);
            taken
        });
        let plain = Outcome::of(twin.plain(), room, |words, entries| {
            (self.plain_batch)(table, words, blocks, entries)
        });
        let linked = Outcome::of(twin.linked(), room, |words, entries| {
            (self.linked_batch)(&numbers, words, blocks, entries)
        });
        tally.calls += 1;
        tally.batches.add(self, end, plain.filled());
        tally.check(linked == singles, || {
            format!("{}: not as single calls: {}", call(), singles.differs_from(&linked))
        });
        tally.check(linked == plain, || {
            format!("{}: not as the plain one: {}", call(), plain.differs_from(&linked))
        });
        twin.check(tally, call); // the words around those lent too
        (plain.filled().to_vec(), end)
    }

    /// Compares a batch of which the count is known.
    fn expect_taken(
        &self,
        tally: &mut Tally,
        table: &Table,
        twin: &mut Twin,
        (blocks, room): (&[u16], usize),
        due: usize,
    ) {
        let (entries, _) = self.compare_batch(tally, table, twin, blocks, room);
        tally.check(entries.len() == due, || {
            format!(
                "{} of {} blocks taken, room {room}, {due} are due: {table:?}",
                entries.len(),
                blocks.len()
            )
        });
    }

    /// Compares the batches of a run that is cut anywhere, and returns all entries, up to a refusal.
    fn compare_cuts(
        &self,
        tally: &mut Tally,
        draw: &mut Draw,
        table: &Table,
        twin: &mut Twin,
        blocks: &[u16],
    ) -> Vec<u32> {
        let mut all = Vec::new();
        while all.len() < blocks.len() {
            let left = &blocks[all.len()..];
            let length = any_length(draw, table).min(left.len());
            let room = any_room(draw, length);
            let (entries, end) = self.compare_batch(tally, table, twin, &left[..length], room);
            all.extend(entries);
            if end > ROOM_FILLED {
                break;
            }
        }
        all
    }

    /// Blocks that refusal 15 meets nowhere.
    pub fn fit_blocks(&self, draw: &mut Draw, table: &Table, count: usize) -> Vec<u16> {
        (0..count).map(|_| draw.bits((self.bits)(table.n)) as u16).collect()
    }
}

/// Lengths about 0, about m, about the delay, and any.
pub fn any_length(draw: &mut Draw, table: &Table) -> usize {
    let length = match draw.below(6) {
        0 => draw.below(4),
        1 => table.depth - 1 + draw.below(3),
        2 => table.delay() - 1 + draw.below(3),
        3 => draw.below(2 * table.depth + 3),
        4 => draw.below(3 * table.delay()),
        _ => draw.below(300),
    };
    length as usize
}

/// Less than the length, more, and most often just that.
fn any_room(draw: &mut Draw, length: usize) -> usize {
    match draw.below(4) {
        0 => draw.below(length as u64 + 1) as usize,
        1 => length + draw.between(1, 5) as usize,
        _ => length,
    }
}

// ---- Groups ----

pub fn examples(tally: &mut Tally, _: &mut Draw) {
    let mut expect = |side: &Side, memory: &[u64], blocks: &[u16], due: &[u32]| {
        let twin = &mut Twin::new(memory.to_vec());
        let (entries, _) = side.compare_batch(tally, &z(1), twin, blocks, blocks.len());
        tally.check(entries == due, || format!("{} {blocks:?}: {due:?} is due, got {entries:?}", side.name));
    };
    expect(&CODER, &[0; 2], &[1, 1, 0, 0, 0], &[1, 3, 2, 2, 2]);
    expect(&DECODER, &[0; 7], &[2, 2, 0, 0], &[0, 0, 0, 4 << 16]);
    expect(&DECODER, &[0, 3, 4, 0, 0, 0, 0], &[0; 7], &[1, 1, 2, 2, 2, 5, 1].map(|mark| mark << 16));
    expect(&DECODER, &[0, 3, 0, 0, 1, 0, 1], &[0, 0, 0, 4], &[1 << 16 | 1, 1 << 16, 1 << 16 | 1]);
}

/// A table for n and m that is made, or that reading accepts, or any; and whether it is suitable.
fn table_for(draw: &mut Draw, n: u64, depth: u64) -> (Table, bool) {
    let (kind, span) = (draw.below(4), any_span(draw));
    let suitable = match kind {
        0 => oracle::make_table(n, depth).ok(),
        1 => suitable_table(draw, n, span.max(2 * n), depth),
        _ => None,
    };
    match suitable {
        Some(table) => (with_unused_rows(draw, table), true),
        None => (fit_table(draw, n, span, depth), false),
    }
}

/// What is received of these blocks: all right, with fades, or any.
fn received(draw: &mut Draw, table: &Table, sent: &[u32], kind: u64) -> Vec<u16> {
    let mut fades = Fades::new(draw, table, double_guard(table));
    let mut take = |&block: &u32| match kind {
        0 => block as u16,
        1 => block as u16 ^ fades.next_error(draw) as u16,
        _ => draw.bits(table.n) as u16,
    };
    sent.iter().map(&mut take).collect()
}

/// Coder and decoder over a run, every n with every m, both cut anywhere. Where the table is suitable and the blocks
/// are right or have fades, demand 3 holds of the entries, and what is claimed of the end of the double guard.
pub fn any_cut(tally: &mut Tally, draw: &mut Draw) {
    for (n, depth) in (2..=16).flat_map(|n| (1..=64).chain(1..=64).map(move |depth| (n, depth))) {
        let (table, suitable) = table_for(draw, n, depth);
        let guard = double_guard(&table);
        let length = (guard + draw.below(3) * (table.delay() + depth) + draw.below(200)) as usize;
        let infos = CODER.fit_blocks(draw, &table, length);
        let mut coder = Twin::new(well_formed_coder(draw, &table));
        let sent = CODER.compare_cuts(tally, draw, &table, &mut coder, &infos);

        let mut decoder = Twin::new(well_formed_decoder(draw, &table));
        if draw.once_in(3) {
            DECODER.compare_start(tally, &table, &mut decoder);
        }
        let kind = draw.below(3);
        let taken = received(draw, &table, &sent, kind);
        let entries = DECODER.compare_cuts(tally, draw, &table, &mut decoder, &taken);
        let whole = sent.len() == length && entries.len() == length;
        tally.check(whole, || format!("{} of {length} blocks taken: {table:?}", entries.len()));
        if suitable && kind < 2 && whole {
            let answer = |&entry: &u32| (u64::from(entry & 0xFFFF), u64::from(entry >> 16));
            let answers: Vec<_> = entries.iter().map(answer).collect();
            let guard_end = &mut tally.batches.guard_end;
            let wrong = first_wrong_delivery(&table, guard, &infos, &answers, guard_end);
            tally.check(wrong.is_none(), || format!("after a guard of {guard}, {wrong:?}: {table:?}"));
        }
    }
}

/// Every length to 7 with every room and one block too large at each place, or none; then lists of any length.
pub fn every_length_and_room(tally: &mut Tally, draw: &mut Draw) {
    for round in 0..400 {
        let side = [&CODER, &DECODER][round % 2];
        let table = any_table(draw);
        let words = (side.well_formed)(draw, &table);
        let mut twin = Twin::new(words.clone());
        let too_large = too_large_block(draw, (side.bits)(table.n));
        let mut with_one_at = |blocks: &[u16], room: usize, place: usize| {
            let mut blocks = blocks.to_vec();
            let fits = match too_large {
                Some(block) if place < blocks.len() => {
                    blocks[place] = block;
                    place
                }
                _ => blocks.len(),
            };
            twin.set(&words);
            side.expect_taken(tally, &table, &mut twin, (&blocks, room), fits.min(room));
        };
        let blocks = side.fit_blocks(draw, &table, 7);
        for length in 0..=7 {
            for (room, place) in (0..length + 3).flat_map(|room| (0..=length).map(move |place| (room, place)))
            {
                with_one_at(&blocks[..length], room, place);
            }
        }
        for _ in 0..20 {
            let length = any_length(draw, &table);
            let blocks = side.fit_blocks(draw, &table, length);
            let (room, place) = (any_room(draw, length), draw.below(length as u64 + 1));
            with_one_at(&blocks, room, place as usize);
        }
    }
}

/// Where a word of a stream stands, and how many bits it may have. A coder's stream has its pending word only.
pub fn stream_word(side: &Side, table: &Table, stream: u64, within: u64) -> (usize, u64) {
    if side.name == CODER.name {
        return (1 + stream as usize, table.span - 1);
    }
    let bits = if within < 2 { table.span - 1 } else { table.n - 1 };
    ((2 + stream * (table.span + 1) + within) as usize, bits)
}

/// A word of a stream is malformed that has its turn after `ahead` blocks: these are taken, and no more; a list that
/// ends before it is taken whole. The single call says why; and with the word repaired the rest is taken.
fn malformed_stream(tally: &mut Tally, draw: &mut Draw, side: &Side, table: &Table, ahead: u64, within: u64) {
    let mut words = (side.well_formed)(draw, table);
    let (word, bits) = stream_word(side, table, (words[0] + ahead) % table.depth, within);
    let repaired = words[word];
    words[word] = too_large(draw, bits);
    let mut twin = Twin::new(words.clone());
    let ahead = ahead as usize;
    let (one_round, far) = (table.depth as usize, any_length(draw, table));
    for length in [0, ahead, ahead + 1, ahead + one_round + 1, ahead + far] {
        let mut blocks = side.fit_blocks(draw, table, length);
        let room = any_room(draw, length);
        twin.set(&words);
        if let Some(block) = too_large_block(draw, (side.bits)(table.n)).filter(|_| draw.once_in(4)) {
            blocks.splice(ahead.min(length).., [block]); // the malformed word comes before it
        }
        side.expect_taken(tally, table, &mut twin, (&blocks, room), ahead.min(room).min(length));
        if ahead < length && ahead <= room {
            (side.compare)(tally, table, &mut twin, blocks[ahead]);
            let mut mended = twin.plain.clone();
            mended[word] = repaired;
            twin.set(&mended);
            let rest = side.fit_blocks(draw, table, length - ahead);
            side.expect_taken(tally, table, &mut twin, (&rest, length), rest.len());
        }
    }
}

/// Each kind of word, met at once, in the middle, in the last turn of the first round, or never; and the turn and
/// the fill.
pub fn malformed(tally: &mut Tally, draw: &mut Draw) {
    for round in 0..1_000 {
        let side = [&CODER, &DECODER][round % 2];
        let table = any_table(draw);
        let inside = draw.below(table.span + 1);
        for ahead in [0, table.depth / 2, table.depth - 1, draw.below(table.depth)] {
            for within in [0, 1, 2, table.span, inside] {
                malformed_stream(tally, draw, side, &table, ahead, within);
            }
        }
        let mut words = (side.well_formed)(draw, &table);
        if side.name == DECODER.name && draw.once_in(2) {
            words[1] = draw.pick(&[table.delay() + 1, u64::MAX, 1 << 32 | words[1]]);
        } else {
            words[0] = draw.pick(&[table.depth, table.depth + 1, u64::MAX, 1 << 32 | words[0]]);
        }
        let length = any_length(draw, &table);
        let blocks = side.fit_blocks(draw, &table, length);
        let room = any_room(draw, length);
        side.expect_taken(tally, &table, &mut Twin::new(words), (&blocks, room), 0);
    }
}

/// Lists of two to four blocks on every small memory, with room for all and for one less.
pub fn every_small_memory(tally: &mut Tally, _: &mut Draw) {
    let mut both_rooms = |side: &Side, table: &Table, twin: &mut Twin, blocks: &[u16]| {
        let words = twin.plain.clone();
        for room in [blocks.len(), blocks.len() - 1] {
            twin.set(&words);
            side.compare_batch(tally, table, twin, blocks, room);
        }
    };
    for (sizes, length) in [((2, 2, 1), 4), ((2, 3, 1), 2), ((2, 2, 2), 3)] {
        DECODER.every_small(sizes, length, |table, twin, blocks| both_rooms(&DECODER, table, twin, blocks));
    }
    for (sizes, length) in [((2, 2, 1), 3), ((2, 3, 2), 3), ((3, 2, 1), 2), ((2, 2, 3), 3)] {
        CODER.every_small(sizes, length, |table, twin, blocks| both_rooms(&CODER, table, twin, blocks));
    }
}

/// Batches, single calls and calls that are refused, on one memory; with other tables too.
pub fn mixed(tally: &mut Tally, draw: &mut Draw) {
    for round in 0..8_000 {
        let side = [&CODER, &DECODER][round % 2];
        let table = any_table(draw);
        let mut twin = Twin::new((side.memory)(draw, &table));
        for _ in 0..16 {
            let length = any_length(draw, &table).min(400);
            let room = any_room(draw, length);
            let blocks = match draw.below(4) {
                0 => (0..length).map(|_| any_block(draw, (side.bits)(table.n))).collect(),
                _ => side.fit_blocks(draw, &table, length),
            };
            match draw.below(10) {
                0 => {
                    let unfit = unfit_table(draw, &table);
                    side.expect_taken(tally, &unfit, &mut twin, (&blocks, room), 0);
                }
                1 => {
                    lend_some(draw, &mut twin);
                    side.expect_taken(tally, &table, &mut twin, (&blocks, room), 0);
                    twin.lend_all();
                }
                2 => {
                    let other = other_table(draw, &table);
                    side.compare_batch(tally, &other, &mut twin, &blocks, room);
                }
                3 => side.refused_step(tally, draw, &table, &mut twin),
                4 | 5 => side.any_step(tally, draw, &table, &mut twin),
                _ => {
                    // The single call of the next block says why a batch ended, and else is a step like any other.
                    let (entries, _) = side.compare_batch(tally, &table, &mut twin, &blocks, room);
                    if let Some(&next) = blocks.get(entries.len()) {
                        (side.compare)(tally, &table, &mut twin, next);
                    }
                }
            }
        }
        too_long(tally, draw, side, &table);
    }
}

/// A memory with more words than are asked for.
fn too_long(tally: &mut Tally, draw: &mut Draw, side: &Side, table: &Table) {
    let mut words = (side.well_formed)(draw, table);
    words.extend(vec![0; draw.between(1, 3) as usize]);
    let blocks = side.fit_blocks(draw, table, 3);
    side.expect_taken(tally, table, &mut Twin::new(words), (&blocks, 3), 0);
}

/// A decoder may go another way from the first register on that is not 0: a list that begins right and has its first
/// wrong block at each place, or none, with a burst, right blocks or any after it; and a memory that is not clean in
/// one stream.
pub fn first_wrong_block(tally: &mut Tally, draw: &mut Draw) {
    for round in 0..600 {
        let (n, depth) = (2 + round % 15, draw.between(1, 5));
        let span = if draw.once_in(2) { draw.between(2, 12) } else { 2 * n };
        let table = fit_table(draw, n, span, depth);
        let delay = table.delay() as usize;
        let length = (delay + 2 * depth as usize + 3).min(130);
        let infos = CODER.fit_blocks(draw, &table, delay + length);
        let mut sent = vec![0; infos.len()];
        oracle::code_batch(&table, &mut vec![0; table.coder_words()], &infos, &mut sent);
        let sent: Vec<u16> = sent.iter().map(|&block| block as u16).collect();
        let mut words = vec![0; table.decoder_words()];
        let begun = if draw.once_in(2) { delay } else { 0 }; // at once, or once the first are delivered
        oracle::decode_batch(&table, &mut words, &sent[..begun], &mut vec![0; begun]);
        let right = &sent[begun..begun + length];
        let mut twin = Twin::new(Vec::new());
        for place in 0..=length {
            let mut blocks = right.to_vec();
            let wrong = [1, depth as usize, length][draw.below(3) as usize];
            for block in blocks.iter_mut().skip(place).take(wrong) {
                *block ^= draw.bits(n) as u16;
            }
            if let Some(first) = blocks.get_mut(place) {
                *first = right[place] ^ 1 << draw.below(n);
            }
            twin.set(&words);
            let (entries, _) = DECODER.compare_batch(tally, &table, &mut twin, &blocks, length);
            let clean = entries[..place.min(entries.len())].iter().all(|entry| entry >> 16 <= 1);
            tally.check(clean, || format!("wrong from place {place} on, and marked before it: {table:?}"));
        }
        for (stream, within) in (0..depth).flat_map(|stream| [(stream, 0), (stream, 1)]) {
            let mut words = words.clone();
            let (word, bits) = stream_word(&DECODER, &table, stream, within);
            words[word] ^= 1 << draw.below(bits);
            twin.set(&words);
            DECODER.compare_batch(tally, &table, &mut twin, right, length);
        }
    }
}

/// Whatever stands in the rows past n − 1, nothing depends on it.
pub fn unused_rows(tally: &mut Tally, draw: &mut Draw) {
    for round in 0..2_000 {
        let side = [&CODER, &DECODER][round % 2];
        let (n, span, depth) = (draw.between(2, 15), any_span(draw), any_depth(draw));
        let mut table = fit_table(draw, n, span, depth);
        let length = any_length(draw, &table);
        let blocks = side.fit_blocks(draw, &table, length);
        let words = (side.well_formed)(draw, &table);
        let mut after = Vec::new();
        for filler in [0, u64::MAX, draw.number()] {
            table.rows[n as usize - 1..].fill(filler);
            let mut twin = Twin::new(words.clone());
            let (entries, _) = side.compare_batch(tally, &table, &mut twin, &blocks, length);
            after.push((entries, twin.plain));
        }
        let same = after[0] == after[1] && after[0] == after[2];
        tally.check(same && after[0].0.len() == length, || format!("unused rows tell in {table:?}"));
    }
}

/// More blocks than 16 bits count, and then every number that 16 bits hold, up to the first that is too large.
pub fn every_block(tally: &mut Tally, draw: &mut Draw) {
    for (side, n) in [&CODER, &DECODER].into_iter().flat_map(|side| [2, 7, 8, 9, 15, 16].map(|n| (side, n))) {
        let (table, _) = table_for(draw, n, 3);
        let bits = (side.bits)(n);
        let mut blocks = side.fit_blocks(draw, &table, 70_000);
        blocks.extend(0..=u16::MAX);
        let mut twin = Twin::new((side.well_formed)(draw, &table));
        side.expect_taken(tally, &table, &mut twin, (&blocks, blocks.len()), 70_000 + (1 << bits));
    }
}
