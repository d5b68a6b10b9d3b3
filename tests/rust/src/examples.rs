//! Listed cases, those that are easy to get wrong: table bytes and what reading them says, tables and what writing
//! them does, steps of the coder and the decoder with the memory after them, and test loads.

use crate::cases::{row_record, sizes_record, table_bytes, Draw};
use crate::oracle::{Table, Triple};
use crate::{Coded, Decoded};

/// "Z" is n = 2, N = 4, row 10, and m is 1 in the scope. Its images are 0, 10, 1, 11.
pub fn z(depth: u64) -> Table {
    Table::new(2, 4, depth, &[10])
}

// ---- Unsuitable tables ----

/// Tables and their first triples, which reading and writing return alike.
pub fn first_triples() -> [(Table, Triple); 9] {
    let first = |table, l, e0, e1| (table, Triple { l, e0, e1 });
    [
        // T6
        first(Table::new(2, 4, 1, &[2]), 1, 1, 2),
        // row 1 is row n, or zero; rows 1 and 2 are equal: e1 is 0, and l is 1, as every shift shows it
        first(Table::new(2, 4, 1, &[1]), 1, 3, 0),
        first(Table::new(2, 4, 1, &[0]), 1, 1, 0),
        first(Table::new(3, 6, 1, &[56, 56]), 1, 3, 0),
        // rows 1 and 2 are equal, but a lesser e0 has another e1
        first(Table::new(3, 4, 1, &[2, 2]), 1, 1, 4),
        // T9: the least l goes before the least e0, as 3, 3, 26 shows it too
        first(Table::new(5, 10, 1, &[976, 904, 772, 514]), 2, 7, 29),
        // the least e0 goes before the least e1, as 1, 2, 1 shows it too
        first(Table::new(3, 4, 1, &[2, 4]), 1, 1, 4),
        // rows 1 and n are equal once shifted by 1: 1, 2, 4 shows it too
        first(Table::new(3, 4, 1, &[9, 2]), 1, 2, 1),
        // the last shift alone; and no row of 64 bits is too long for N = 64
        first(Table::new(2, 64, 64, &[1 << 63]), 63, 1, 2),
    ]
}

// ---- Table bytes ----

/// What reading says of bytes.
#[derive(Debug)]
pub enum Says {
    /// The number, 1 to 9, and the place.
    Refused(u64, u64),
    Accepted(Table),
    /// Refusal 10, with the first triple.
    Unsuitable(Triple),
}

#[derive(Debug)]
pub struct ReadCase {
    pub bytes: Vec<u8>,
    pub says: Says,
}

fn says(records: &[&[u8]], says: Says) -> ReadCase {
    ReadCase { bytes: records.concat(), says }
}

pub fn read_cases() -> Vec<ReadCase> {
    let mut draw = Draw::from_seed(1);
    let unsuitable = first_triples()
        .map(|(table, triple)| says(&[&table_bytes(&mut draw, &table)], Says::Unsuitable(triple)));
    other_read_cases().into_iter().chain(unsuitable).collect()
}

/// Those that are not refused 10.
fn other_read_cases() -> [ReadCase; 16] {
    use Says::{Accepted, Refused};
    // of Z: its sizes, its row, and a row of any number that has a one at bit 4, too high
    let sizes = sizes_record(2, 4, 1);
    let row = row_record(1, 10);
    let long = |j| row_record(j, 16);
    [
        // a kind that is none of the three, alone and after the sizes
        says(&[&[3]], Refused(2, 0)),
        says(&[&sizes, &[255]], Refused(2, 4)),
        // a row first: cut short, and whole
        says(&[&[2]], Refused(3, 0)),
        says(&[&row], Refused(4, 0)),
        // sizes again: cut short, and whole but out of range
        says(&[&sizes, &[1, 2, 4]], Refused(3, 4)),
        says(&[&sizes, &[1, 17, 4, 1]], Refused(4, 4)),
        // rows: number 0, number n, a number given twice, all with a one too high; and a one too high alone
        says(&[&sizes, &long(0)], Refused(6, 4)),
        says(&[&sizes, &long(2)], Refused(6, 4)),
        says(&[&sizes, &row, &long(1)], Refused(6, 14)),
        says(&[&sizes, &long(1)], Refused(7, 4)),
        // T1 without its last byte
        says(&[&sizes, &row], Refused(1, 14)),
        // an early end, alone and with bytes after it; bytes after the end
        says(&[&sizes, &[0]], Refused(8, 4)),
        says(&[&sizes, &[0, 0]], Refused(8, 4)),
        says(&[&sizes, &row, &[0, 0]], Refused(9, 15)),
        // bytes after the end of an unsuitable table, n = 2, N = 4, row 2
        says(&[&sizes, &row_record(1, 2), &[0, 255]], Refused(9, 15)),
        // rows in any order
        says(
            &[&sizes_record(3, 6, 1), &row_record(2, 34), &row_record(1, 56), &[0]],
            Accepted(Table::new(3, 6, 1, &[56, 34])),
        ),
    ]
}

// ---- Tables written back ----

/// What writing a table does.
#[derive(Debug)]
pub enum Writes {
    /// The number, 12 or 16.
    Refused(u64),
    /// Refusal 10, with the first triple.
    Unsuitable(Triple),
    Bytes(Vec<u8>),
}

#[derive(Debug)]
pub struct WriteCase {
    pub table: Table,
    /// How many bytes are lent.
    pub room: usize,
    pub writes: Writes,
}

fn write(table: &Table, room: usize, writes: Writes) -> WriteCase {
    WriteCase { table: table.clone(), room, writes }
}

/// A table that is written as these bytes.
fn writes(table: &Table, room: usize, bytes: &[u8]) -> WriteCase {
    write(table, room, Writes::Bytes(bytes.to_vec()))
}

/// A table that is refused, 12 or 16.
fn no_write(table: &Table, room: usize, refused: u64) -> WriteCase {
    write(table, room, Writes::Refused(refused))
}

/// Each unsuitable table into as many bytes as it would take, and into one less and none: 10 before 16.
pub fn write_cases() -> Vec<WriteCase> {
    let unsuitable = first_triples().into_iter().flat_map(|(table, triple)| {
        let length = 10 * table.n as usize - 5;
        [length, length - 1, 0].map(|room| write(&table, room, Writes::Unsuitable(triple)))
    });
    other_write_cases().into_iter().chain(unsuitable).collect()
}

/// Those that are not refused 10: n = 2 takes 15 bytes, n = 3 takes 25.
fn other_write_cases() -> [WriteCase; 26] {
    let t1 = [1, 2, 4, 1, 2, 1, 0x0A, 0, 0, 0, 0, 0, 0, 0, 0];
    let two_rows = [1, 3, 6, 9, 2, 1, 56, 0, 0, 0, 0, 0, 0, 0, 2, 2, 34, 0, 0, 0, 0, 0, 0, 0, 0];
    let long_row = [1, 2, 64, 64, 2, 1, 0xF0, 0xE1, 0xD2, 0xC3, 0xB4, 0xA5, 0x96, 0x87, 0];
    let (n2, n3) = (z(1), Table::new(3, 6, 9, &[56, 34]));
    let sized = |n, span, depth| Table::new(n, span, depth, &[10]);
    [
        // into as many bytes as it takes, into more, which stay, and into one less
        writes(&n2, 15, &t1),
        writes(&n2, 16, &t1),
        writes(&n2, 300, &t1),
        no_write(&n2, 14, 16),
        no_write(&n2, 0, 16),
        // rows ascending
        writes(&n3, 25, &two_rows),
        writes(&n3, 27, &two_rows),
        no_write(&n3, 24, 16),
        // a row of 64 bits, its low byte first
        writes(&Table::new(2, 64, 64, &[0x8796_A5B4_C3D2_E1F0]), 15, &long_row),
        // rows past n − 1 do not matter: too long for N, all ones, or equal to one before
        writes(&Table::new(2, 4, 1, &[10, 16, u64::MAX]), 15, &t1),
        writes(&Table::new(2, 4, 1, &[10; 15]), 15, &t1),
        no_write(&Table::new(2, 4, 1, &[10, 16, u64::MAX]), 14, 16),
        // 12 before 10 and 16: a row that is zero once cut to N bits; and rows that are right once cut
        no_write(&Table::new(2, 4, 1, &[16]), 0, 12),
        no_write(&Table::new(2, 4, 1, &[1 << 63 | 10]), 15, 12),
        no_write(&Table::new(3, 6, 1, &[56, 64 | 34]), 25, 12),
        // each size out of range; the table beside a refused reading
        no_write(&sized(1, 4, 1), 15, 12),
        no_write(&sized(17, 64, 1), 165, 12),
        no_write(&sized(2, 1, 1), 15, 12),
        no_write(&sized(2, 65, 1), 15, 12),
        no_write(&sized(2, 4, 0), 15, 12),
        no_write(&sized(2, 4, 65), 15, 12),
        no_write(&Table::new(0, 0, 0, &[]), 0, 12),
        // in range once cut to a byte, or to 32 bits
        no_write(&sized(258, 4, 1), 15, 12),
        no_write(&sized(2, 260, 1), 15, 12),
        no_write(&sized(2, 4, 257), 15, 12),
        no_write(&sized((1 << 32) + 2, (1 << 32) + 4, (1 << 32) + 1), 15, 12),
    ]
}

// ---- Steps ----

/// The block that a step is handed, and its answer.
#[derive(Clone, Copy, Debug)]
pub enum Step {
    Code(u16, Coded),
    Decode(u16, Decoded),
}

/// Steps one after another, most often one.
#[derive(Debug)]
pub struct StepCase {
    pub table: Table,
    pub memory: Vec<u64>,
    pub steps: Vec<Step>,
    pub after: Vec<u64>,
}

fn step(table: &Table, memory: &[u64], step: Step, after: &[u64]) -> StepCase {
    StepCase { table: table.clone(), memory: memory.to_vec(), steps: vec![step], after: after.to_vec() }
}

/// A coder's step that is taken, with the coded block.
fn codes(table: &Table, memory: &[u64], info: u16, block: u64, after: &[u64]) -> StepCase {
    step(table, memory, Step::Code(info, Coded { refused: 0, block }), after)
}

/// A decoder's step that is taken, with the information, the number of the mark, and e.
fn decodes(table: &Table, memory: &[u64], received: u16, values: [u64; 3], after: &[u64]) -> StepCase {
    let [info, mark, error] = values;
    step(table, memory, Step::Decode(received, Decoded { refused: 0, info, mark, error }), after)
}

/// A coder's step that is refused, which writes nothing.
fn no_code(table: &Table, memory: &[u64], info: u16, refused: u64) -> StepCase {
    step(table, memory, Step::Code(info, Coded { refused, block: 0 }), memory)
}

/// A decoder's step that is refused, which writes nothing.
fn no_decode(table: &Table, memory: &[u64], received: u16, refused: u64) -> StepCase {
    step(table, memory, Step::Decode(received, Decoded { refused, info: 0, mark: 0, error: 0 }), memory)
}

/// The values of a step that delivers nothing.
const NOTHING_YET: [u64; 3] = [0; 3];

/// These words, and zeros after them.
fn with_zeros(words: &[u64], zeros: usize) -> Vec<u64> {
    [words, &vec![0; zeros]].concat()
}

/// A stream of Z has 5 words in the decoder: pending, syndrome, 3 delayed blocks.
pub fn step_cases() -> [StepCase; 37] {
    let (z1, z2) = (z(1), z(2));
    let t7 = Table::new(3, 6, 1, &[56, 34]);
    let n2_span2 = Table::new(2, 2, 1, &[2]);
    let more_rows = Table::new(2, 4, 1, &[10, 255, 1]);
    let n16 = Table::new(16, 2, 1, &[]);
    let span64 = Table::new(2, 64, 1, &[]);
    [
        // a correction takes from the oldest block; the youngest joins as received
        decodes(&z1, &[0, 3, 0, 2, 1, 0, 0], 3, [0, 3, 1], &[0, 3, 5, 0, 0, 0, 1]),
        // the parity alone is wrong: the information stays. With an information symbol it is a correction, and so is
        // the symbol next to it; an e of 16 bits
        decodes(&z1, &[0, 3, 0, 1, 1, 0, 0], 0, [1, 5, 2], &[0, 3, 0, 0, 0, 0, 0]),
        decodes(&z1, &[0, 3, 0, 3, 1, 0, 0], 2, [0, 3, 3], &[0, 3, 0, 0, 0, 0, 0]),
        decodes(&t7, &[0, 5, 0, 1, 3, 0, 0, 0, 0], 0, [3, 5, 4], &[0, 5, 0, 0, 0, 0, 0, 0, 0]),
        decodes(&t7, &[0, 5, 0, 2, 3, 0, 0, 0, 0], 4, [1, 3, 2], &[0, 5, 0, 0, 0, 0, 0, 0, 0]),
        decodes(&n16, &[0, 1, 0, 1, 7], 0, [7, 5, 32768], &[0, 1, 0, 0, 0]),
        // no error found: the word is halved, not cleared
        decodes(&z1, &[0, 3, 0, 3, 1, 0, 0], 0, [1, 4, 0], &[0, 3, 0, 1, 0, 0, 0]),
        // before the fill is complete the register, here 10, is judged and cleared too; and a received parity
        // does not join the pending word
        decodes(&z1, &[0, 0, 0, 2, 0, 0, 0], 2, NOTHING_YET, &[0, 1, 0, 0, 0, 0, 0]),
        // N = 2 has one delayed block
        decodes(&n2_span2, &[0, 1, 0, 0, 1], 0, [1, 1, 0], &[0, 1, 0, 0, 0]),
        decodes(&n2_span2, &[0, 0, 0, 0, 0], 1, NOTHING_YET, &[0, 1, 1, 0, 1]),
        // equal rows 1, 1 and 1: the least e is 1; zero rows: register 0 is clean
        decodes(&Table::new(3, 2, 1, &[1, 1]), &[0, 1, 0, 1, 3], 0, [2, 3, 1], &[0, 1, 0, 0, 0]),
        decodes(&Table::new(3, 2, 1, &[]), &[0, 1, 0, 0, 3], 0, [3, 1, 0], &[0, 1, 0, 0, 0]),
        // rows beyond n − 1 do not matter, not even to 12
        decodes(&more_rows, &[0, 3, 0, 2, 1, 0, 0], 3, [0, 3, 1], &[0, 3, 5, 0, 0, 0, 1]),
        codes(&more_rows, &[0, 1], 1, 3, &[0, 5]),
        // two streams, one fill. A malformed word of the other stream: the step is taken and the word stays;
        // then it is that stream's turn
        decodes(
            &z2,
            &[0, 5, 0, 0, 0, 0, 0, 99, 99, 99, 99, 99],
            0,
            NOTHING_YET,
            &[1, 6, 0, 0, 0, 0, 0, 99, 99, 99, 99, 99],
        ),
        no_decode(&z2, &[1, 6, 0, 0, 0, 0, 0, 99, 99, 99, 99, 99], 0, 14),
        codes(&z2, &[0, 0, 99], 1, 1, &[1, 5, 99]),
        no_code(&z2, &[1, 5, 99], 1, 14),
        // the turn returns to 0
        codes(&z2, &[1, 99, 0], 1, 1, &[0, 99, 5]),
        // n = 16: no received block of 16 bits is refused for 15, and information has 15 bits
        decodes(&n16, &[0, 0, 1, 0, 0], 65535, NOTHING_YET, &[0, 1, 0, 0, 32767]),
        codes(&n16, &[0, 1], 32767, 65535, &[0, 0]),
        no_code(&n16, &[0, 1], 32768, 15),
        // N = 64: 2^63 is too large a word, 2^63 − 1 is not
        no_decode(&span64, &with_zeros(&[0, 0, 1 << 63], 64), 0, 14),
        no_decode(&span64, &with_zeros(&[0, 0, 0, 1 << 63], 63), 0, 14),
        decodes(
            &span64,
            &with_zeros(&[0, 0, 0, (1 << 63) - 1], 63),
            0,
            NOTHING_YET,
            &with_zeros(&[0, 1, 0, (1 << 62) - 1], 63),
        ),
        no_code(&span64, &[0, 1 << 63], 0, 14),
        codes(&span64, &[0, (1 << 63) - 1], 0, 2, &[0, (1 << 62) - 1]),
        // 12 before 13: the table beside a refused reading, a row with a one at bit N; both on no memory
        no_decode(&Table::new(0, 0, 0, &[]), &[], 0, 12),
        no_code(&Table::new(2, 4, 1, &[16]), &[], 0, 12),
        // a table of another size: 13, before a turn that 14 would refuse
        no_decode(&z2, &[9, 0, 0, 0, 0, 0, 0], 0, 13),
        no_code(&z2, &[9, 0], 0, 13),
        // 14 before 15: turn m, a fill past m × (N − 1), a delayed block of 2^(n−1)
        no_decode(&z1, &[1, 0, 0, 0, 0, 0, 0], 4, 14),
        no_decode(&z1, &[0, 4, 0, 0, 0, 0, 0], 4, 14),
        no_decode(&z1, &[0, 0, 0, 0, 0, 0, 2], 4, 14),
        no_code(&z1, &[u64::MAX, 0], 2, 14),
        // 15: a block of 2^n, information of 2^(n−1)
        no_decode(&z1, &[0; 7], 4, 15),
        no_code(&z1, &[0, 0], 2, 15),
    ]
}

// ---- Sums ----

/// Steps from the start.
fn run(table: &Table, steps: Vec<Step>, after: &[u64]) -> StepCase {
    StepCase { table: table.clone(), memory: vec![0; after.len()], steps, after: after.to_vec() }
}

/// A message and its coded form, by block, of a started coder.
fn codes_message(table: &Table, blocks: &[(u16, u64)], after: &[u64]) -> StepCase {
    let step = |&(info, block): &(u16, u64)| Step::Code(info, Coded { refused: 0, block });
    run(table, blocks.iter().map(step).collect(), after)
}

/// Four blocks that a started decoder of Z takes, the last of which delivers these values.
fn z_delivers(received: [u16; 4], last: [u64; 3], after: &[u64]) -> StepCase {
    let answers = [NOTHING_YET, NOTHING_YET, NOTHING_YET, last];
    let step = |(received, [info, mark, error]): (u16, [u64; 3])| {
        Step::Decode(received, Decoded { refused: 0, info, mark, error })
    };
    run(&z(1), received.into_iter().zip(answers).map(step).collect(), after)
}

/// Two lists of received blocks whose deliveries on Z do not add.
pub const Z_LISTS: [[u16; 4]; 2] = [[2, 2, 0, 0], [2, 0, 0, 2]];

/// Two lists that a decoder of Z takes and their sum; two messages that a coder of Z takes and theirs, which is T10's;
/// and a message of one bit in two streams, with just as many blocks after it as it reaches, and with one fewer.
pub fn sum_cases() -> [StepCase; 8] {
    let (z1, z2) = (z(1), z(2));
    [
        // No block has information: nothing is pending, the raw term is the received parity, and delayed blocks are 0.
        // The register is the syndrome word, plus 8 if the term is 1; images are 0, 10, 1 and 11, of e = 0 to 3.
        //   2 2 0 0: register 8, word 4; 12, word 6; 6, word 3; then 3, doubtful as bit 0 is 1, word 1: delivers 0
        //   2 0 0 2: register 8, word 4;  4, word 2; 2, word 1; then 9, doubtful as bit 0 is 1, word 4: delivers 0
        //   0 2 0 2: register 0, word 0;  8, word 4; 4, word 2; then 10, the image of 1, word 0: delivers 0 ^ 1
        // So the terms 1 1 0 0 and 1 0 0 1 add to 0 1 0 1; but 0 and 0 are delivered, and of the sum 1.
        z_delivers(Z_LISTS[0], [0, 4, 0], &[0, 3, 0, 1, 0, 0, 0]),
        z_delivers(Z_LISTS[1], [0, 4, 0], &[0, 3, 0, 4, 0, 0, 0]),
        z_delivers([0, 2, 0, 2], [1, 3, 1], &[0, 3, 0, 0, 0, 0, 0]),
        // row 10 has bits 1 and 3: one bit of information is in the parities 1 and 3 blocks later
        codes_message(&z1, &[(1, 1), (0, 2), (0, 0), (0, 2), (0, 0)], &[0, 0]),
        codes_message(&z1, &[(0, 0), (1, 1), (0, 2), (0, 0), (0, 2)], &[0, 0]),
        codes_message(&z1, &[(1, 1), (1, 3), (0, 2), (0, 2), (0, 2)], &[0, 0]),
        // in two streams 2 and 6 blocks later, and 5 blocks later the last is still pending
        codes_message(&z2, &[(1, 1), (0, 0), (0, 2), (0, 0), (0, 0), (0, 0), (0, 2)], &[1, 0, 0]),
        codes_message(&z2, &[(1, 1), (0, 0), (0, 2), (0, 0), (0, 0), (0, 0)], &[0, 1, 0]),
    ]
}

// ---- Test loads ----

/// So many lent numbers, and what they become, or the number of the refusal.
#[derive(Debug)]
pub struct LoadCase {
    pub table: Table,
    pub seed: u32,
    pub length: usize,
    pub fills: Result<Vec<u16>, u64>,
}

/// Bursts, each with how many right blocks follow it in what is lent.
fn fills(table: Table, seed: u32, rounds: &[(&[u16], usize)]) -> LoadCase {
    let blocks: Vec<u16> = rounds.iter().flat_map(|(burst, gap)| [*burst, &vec![0; *gap]].concat()).collect();
    LoadCase { table, seed, length: blocks.len(), fills: Ok(blocks) }
}

fn no_load(table: Table, seed: u32, length: usize, refused: u64) -> LoadCase {
    LoadCase { table, seed, length, fills: Err(refused) }
}

pub fn load_cases() -> Vec<LoadCase> {
    // Seed 1 draws 270369, 67634689, 2647435461, 307599695, 2398689233, 745495504, 632435482, 435756210, 2005365029,
    // 2916098932, 2657092299, 1495045943, 3031976842, 82049198, 87470069. On Z a round takes three of them: a length of
    // 1, an error mod 4, and 3 + a number mod 16 of right blocks.
    let of_z: [(&[u16], usize); 4] = [(&[1], 3 + 5), (&[1], 3), (&[2], 3 + 5), (&[3], 3 + 7)];
    // In two streams the lengths are 2, 2, 2 and 1, and a burst may begin right.
    let of_z2: [(&[u16], usize); 4] = [(&[1, 1], 6 + 15), (&[0, 2], 6 + 2), (&[0, 3], 6 + 7), (&[2], 6 + 5)];
    // Seed 2^32 − 1 draws 253983, 4228382207, 1958451267, 4056713434, 2049502865, 2560970988, 1705115568, 279806459,
    // 2999224306, 1700793103, 3829070063, 3754945276: lengths of 1, 2 and 3 in three streams.
    let of_made_3: [(&[u16], usize); 3] = [(&[7], 15 + 3), (&[1, 4], 15), (&[2, 7, 7], 15 + 12)];
    // Seed 2^31 draws 2148024320, 2299036804, 2861646152, 3585606292 for a length of 21, 1756881985, 332285342,
    // 3032542240, 2178132162.
    let of_64: [(&[u16], usize); 2] = [(&[33924], 64 * 63 + 8), (&[58433, 17822, 60448, 43202], 0)];
    let (unsuitable, too_large) = (Table::new(2, 4, 1, &[2]), Table::new(2, 4, 1, &[16]));
    vec![
        fills(z(1), 1, &of_z),
        fills(z(2), 1, &of_z2),
        fills(Table::new(3, 6, 3, &[52, 34]), u32::MAX, &of_made_3),
        // T6 is not refused, and the rows do not tell
        fills(unsuitable, 1, &of_z),
        // the greatest sizes
        fills(Table::new(16, 64, 64, &[u64::MAX; 15]), 1 << 31, &of_64),
        // cut in a burst, at its end, in a gap, at its end, and before the first block
        fills(z(2), 1, &[of_z2[0], (&[0], 0)]),
        fills(z(2), 1, &[(&[1, 1], 0)]),
        fills(z(2), 1, &[(&[1, 1], 20)]),
        fills(z(2), 1, &of_z2[..1]),
        fills(z(2), 1, &[]),
        // 12, also before 17; 17, also of no block
        no_load(Table::new(17, 4, 1, &[10]), 1, 9, 12),
        no_load(too_large.clone(), 1, 9, 12),
        no_load(too_large.clone(), 0, 9, 12),
        no_load(too_large, 0, 0, 12),
        no_load(z(1), 0, 9, 17),
        no_load(z(1), 0, 0, 17),
    ]
}
