//! The plain implementation tested by itself: the scope's examples, its own two or three ways, and fades.

use crate::cases::*;
use crate::examples::{first_triples, sum_cases, z, Step, StepCase};
use crate::oracle::*;

fn bytes_of(table: &Table) -> Vec<u8> {
    table_bytes(&mut Draw::from_seed(1), table)
}

fn at(number: u64, place: usize) -> Result<Table, ReadRefusal> {
    Err(ReadRefusal::At { number, place })
}

fn clash(l: u64, e0: u64, e1: u64) -> Result<Table, ReadRefusal> {
    Err(ReadRefusal::Unsuitable(Triple { l, e0, e1 }))
}

#[test]
fn t1_z_is_accepted() {
    let bytes = [1, 2, 4, 1, 2, 1, 0x0A, 0, 0, 0, 0, 0, 0, 0, 0];
    assert_eq!(read_table(&bytes), Ok(z(1)));
}

#[test]
fn t2_to_t5_short_inputs() {
    assert_eq!(read_table(&[]), at(1, 0));
    assert_eq!(read_table(&[0]), at(4, 0));
    assert_eq!(read_table(&[1]), at(3, 0));
    assert_eq!(read_table(&[1, 17, 4, 1]), at(5, 0));
}

#[test]
fn t6_row_2_is_unsuitable() {
    let table = Table::new(2, 4, 1, &[2]);
    assert_eq!(read_table(&bytes_of(&table)), clash(1, 1, 2));
    assert!(!shows_unsuitable(&table, Triple { l: 1, e0: 0, e1: 0 }));
}

#[test]
fn t7_example_2_of_000_is_accepted() {
    let table = Table::new(3, 6, 1, &[56, 34]);
    assert_eq!(read_table(&bytes_of(&table)), Ok(table));
}

#[test]
fn t8_made_rows() {
    assert_eq!(make_table(2, 1), Ok(z(1)));
    assert_eq!(make_table(3, 1), Ok(Table::new(3, 6, 1, &[52, 34])));
    assert_eq!(make_table(4, 1), Ok(Table::new(4, 8, 1, &[232, 196, 130])));
    assert_eq!(make_table(5, 1), Ok(Table::new(5, 10, 1, &[976, 392, 772, 514])));
    assert_eq!(triangle()[..4], [0b1, 0b11, 0b111, 0b1101]);
}

#[test]
fn t9_all_ones_fail_at_5() {
    let table = Table::new(5, 10, 1, &[976, 904, 772, 514]);
    assert_eq!(table, table_of_triangle(&[0b1, 0b11, 0b111, 0b1111], 1));
    assert_eq!(read_table(&bytes_of(&table)), clash(2, 7, 29));
    assert!(shows_unsuitable(&table, Triple { l: 3, e0: 3, e1: 26 }));
}

#[test]
fn t10_z_codes() {
    let mut words = vec![7; 2];
    assert_eq!(start_coder(&z(1), &mut words), Ok(()));
    let sent = [1, 1, 0, 0, 0].map(|info| code(&z(1), &mut words, info));
    assert_eq!(sent, [1, 3, 2, 2, 2].map(Ok));
}

#[test]
fn t11_doubtful() {
    let mut words = vec![7; 7];
    assert_eq!(start_decoder(&z(1), &mut words), Ok(()));
    let answers = [2, 2, 0, 0].map(|received| decode(&z(1), &mut words, received));
    let doubtful = Some(Delivered { info: 0, mark: Mark::Doubtful });
    assert_eq!(answers, [Ok(None), Ok(None), Ok(None), Ok(doubtful)]);
}

#[test]
fn t12_the_unneeded_parity_mark() {
    let mut words = vec![0, 3, 4, 0, 0, 0, 0];
    let answers: Vec<_> = (0..7).map(|_| decode(&z(1), &mut words, 0)).collect();
    use Mark::{Clean, Held, Parity};
    let marks = [Clean, Clean, Held, Held, Held, Parity(2), Clean];
    assert_eq!(answers, marks.map(|mark| Ok(Some(Delivered { info: 0, mark }))));
}

#[test]
fn parity_is_the_mark_of_that_symbol_alone() {
    use Mark::{Corrected, Parity};
    let mark_of = |table: &Table, register: u64| {
        let (mut words, received) = memory_before(table, register);
        let delivered = decode(table, &mut words, u64::from(received)).expect("well-formed");
        delivered.expect("the fill is complete").mark
    };
    for n in 2..=16 {
        let table = make_table(n, 1).expect("in range");
        let mark = |e| mark_of(&table, image(&table, e));
        let parity = 1 << (n - 1);
        assert_eq!(mark(parity), Parity(parity), "n = {n}");
        for e in [parity / 2, parity + 1, parity - 1, 2 * parity - 1] {
            assert_eq!(mark(e), Corrected(e), "n = {n}");
        }
    }
    // row 1 is the parity's too: the least e is 1
    assert_eq!(mark_of(&Table::new(2, 4, 1, &[1]), 1), Corrected(1));
}

/// What entries hold before a batch; no batch writes such a number.
const KEPT: u32 = u32::MAX;

#[test]
fn t10_to_t12_by_the_batch() {
    let (mut coder, mut decoder) = ([0; 2], [0; 7]);
    let mut entries = [KEPT; 7];
    assert_eq!(code_batch(&z(1), &mut coder, &[1, 1, 0, 0, 0], &mut entries), 5);
    assert_eq!(entries, [1, 3, 2, 2, 2, KEPT, KEPT]);
    assert_eq!(decode_batch(&z(1), &mut decoder, &[2, 2, 0, 0], &mut entries), 4);
    assert_eq!(entries, [0, 0, 0, 4 << 16, 2, KEPT, KEPT]);
    decoder = [0, 3, 4, 0, 0, 0, 0];
    assert_eq!(decode_batch(&z(1), &mut decoder, &[0; 7], &mut entries), 7);
    assert_eq!(entries.map(|entry| entry >> 16), [1, 1, 2, 2, 2, 5, 1]);
    assert_eq!(decoder, [0, 3, 0, 0, 0, 0, 0]);
}

#[test]
fn a_batch_ends_at_its_room_and_before_what_is_refused() {
    let mut entries = [KEPT; 4];
    let mut decoder = [0, 3, 0, 0, 1, 0, 1];
    assert_eq!(decode_batch(&z(1), &mut decoder, &[0; 3], &mut entries[..0]), 0);
    assert_eq!(decode_batch(&z(1), &mut decoder, &[], &mut entries), 0);
    assert_eq!(decode_batch(&z(1), &mut decoder, &[4, 0], &mut entries), 0);
    assert_eq!((decoder, entries), ([0, 3, 0, 0, 1, 0, 1], [KEPT; 4]));
    assert_eq!(decode_batch(&z(1), &mut decoder, &[0; 3], &mut entries[..1]), 1);
    assert_eq!(decode_batch(&z(1), &mut decoder, &[0, 0, 4, 0], &mut entries), 2);
    assert_eq!((decoder, entries), ([0, 3, 0, 0, 0, 0, 0], [1 << 16, 1 << 16 | 1, KEPT, KEPT]));
    let mut coder = [1, 0, 8, 0]; // of three streams the second is malformed, and the turn's
    assert_eq!(code_batch(&z(3), &mut coder, &[1; 4], &mut entries), 0);
    coder[0] = 2;
    assert_eq!(code_batch(&z(3), &mut coder, &[1; 4], &mut entries), 2);
    assert_eq!((coder, entries), ([1, 5, 8, 5], [1, 1, KEPT, KEPT]));
}

/// What stands in a buffer before a table is written; no record holds such a byte here.
const STOOD: u8 = 0xEE;

/// The answer, and the buffer after it.
fn write(table: &Table, room: usize) -> (Result<usize, WriteRefusal>, Vec<u8>) {
    let mut bytes = vec![STOOD; room];
    (write_table(table, &mut bytes), bytes)
}

fn assert_not_written(table: &Table, room: usize, refused: u64) {
    assert_eq!(write(table, room), (Err(WriteRefusal::Number(refused)), vec![STOOD; room]));
}

#[test]
fn z_is_written_as_t1() {
    let t1 = vec![1, 2, 4, 1, 2, 1, 0x0A, 0, 0, 0, 0, 0, 0, 0, 0];
    assert_eq!(write(&z(1), 15), (Ok(15), t1.clone()));
    assert_eq!(write(&Table::new(2, 4, 1, &[10, u64::MAX, 16]), 15), (Ok(15), t1.clone()));
    assert_eq!(write(&z(1), 18), (Ok(15), [&t1[..], &[STOOD; 3]].concat()));
}

#[test]
fn rows_are_written_ascending_and_low_byte_first() {
    let (sizes, end) = ([1, 3, 6, 1], [0]);
    let (row_1, row_2) = ([2, 1, 56, 0, 0, 0, 0, 0, 0, 0], [2, 2, 34, 0, 0, 0, 0, 0, 0, 0]);
    let ascending = [&sizes[..], &row_1, &row_2, &end].concat();
    let table = Table::new(3, 6, 1, &[56, 34]);
    assert_eq!(write(&table, 25), (Ok(25), ascending.clone()));
    assert_eq!(read_table(&[&sizes[..], &row_2, &row_1, &end].concat()), Ok(table.clone()));
    assert_eq!(write(&table, 26), (Ok(25), [&ascending[..], &[STOOD]].concat()));

    let long = vec![1, 2, 64, 33, 2, 1, 0xF0, 0xE1, 0xD2, 0xC3, 0xB4, 0xA5, 0x96, 0x87, 0];
    assert_eq!(write(&Table::new(2, 64, 33, &[0x8796_A5B4_C3D2_E1F0]), 15), (Ok(15), long));
}

#[test]
fn a_buffer_of_a_byte_less_is_16() {
    for n in 2..=16 {
        let table = make_table(n, 1).expect("in range");
        let length = 10 * n as usize - 5;
        assert_not_written(&table, length - 1, 16);
        assert_not_written(&table, 0, 16);
        assert_eq!(write(&table, length).0, Ok(length));
    }
}

#[test]
fn writing_has_12_before_10_before_16() {
    let unsuitable = Table::new(2, 4, 1, &[2]);
    for room in [0, 14, 15, 20] {
        // a one at bit N; sizes out of range, with rows of zeros; sizes that are in range once cut to a byte
        assert_not_written(&Table::new(2, 4, 1, &[16]), room, 12);
        for (n, span, depth) in
            [(0, 0, 0), (1, 4, 1), (17, 64, 1), (2, 1, 1), (2, 65, 1), (2, 4, 0), (2, 4, 65)]
        {
            assert_not_written(&Table::new(n, span, depth, &[]), room, 12);
        }
        assert_not_written(&Table::new(258, 260, 257, &[10]), room, 12);
        assert_not_written(&Table::new(u64::MAX, 4, 1, &[10]), room, 12);
        let first = Triple { l: 1, e0: 1, e1: 2 };
        assert_eq!(write(&unsuitable, room), (Err(WriteRefusal::Unsuitable(first)), vec![STOOD; room]));
    }
    assert_not_written(&z(1), 14, 16);
    assert_not_written(&z(1), 0, 16);
}

#[test]
fn what_is_written_is_read() {
    let mut draw = Draw::from_seed(8);
    for _ in 0..500 {
        let table = any_suitable_table(&mut draw);
        let length = 10 * table.n as usize - 5;
        let (answer, bytes) = write(&table, length);
        assert_eq!(answer, Ok(length));
        let read = Table::new(table.n, table.span, table.depth, table.used_rows());
        assert_eq!(read_table(&bytes), Ok(read));
    }
}

#[test]
fn listing_example() {
    let input = [2, 1, 1, 0, 0, 0, 0, 0, 0, 0, 0, 0];
    let lines = "block info mark error\n0 0 corrected 1\n1 0 clean 0\n";
    assert_eq!(listing(&input), lines);
    assert_eq!(listing(&[input.as_slice(), &[9]].concat()), format!("{lines}odd byte\n"));
    assert_eq!(listing(&[input.as_slice(), &[4, 0, 9]].concat()), format!("{lines}refused 15\n"));
}

#[test]
fn listing_of_every_mark() {
    let listed = |blocks: &[u8]| {
        let input: Vec<u8> = blocks.iter().flat_map(|&block| [block, 0]).collect();
        listing(&[&[2, 1], &input[..]].concat())
    };
    let header = "block info mark error\n";
    assert_eq!(listed(&[2, 0, 0, 0, 0]), format!("{header}0 0 parity 2\n1 0 clean 0\n"));
    assert_eq!(listed(&[3, 0, 0, 0]), format!("{header}0 0 corrected 3\n"));
    assert_eq!(listed(&[2, 2, 0, 0]), format!("{header}0 0 doubtful 0\n"));
    assert_eq!(listed(&[0, 2, 0, 0]), format!("{header}0 0 held 0\n"));
}

#[test]
fn listing_short_and_refused() {
    let header = "block info mark error\n";
    assert_eq!(listing(&[]), header);
    assert_eq!(listing(&[2]), header);
    assert_eq!(listing(&[2, 1]), header);
    assert_eq!(listing(&[2, 1, 0]), format!("{header}odd byte\n"));
    assert_eq!(listing(&[17, 1, 0]), format!("{header}refused 11\n"));
    assert_eq!(listing(&[2, 0]), format!("{header}refused 11\n"));
}

#[test]
fn each_column_is_forced() {
    assert_eq!(triangle().len(), 15); // the search asserts that one filling serves
    for n in 2..=16 {
        let table = make_table(n, 1).expect("in range");
        assert_eq!(unsuitable(&table), None);
        assert_eq!(read_table(&bytes_of(&table)), Ok(table));
    }
    for (n, m) in [(1, 1), (17, 1), (2, 0), (2, 65), (u64::MAX, 1), (2, 257)] {
        assert_eq!(make_table(n, m), Err(11));
    }
}

fn first_by_lookup(table: &Table) -> Option<Triple> {
    (1..table.span).find_map(|l| clashes_by_lookup(table, l).first().copied())
}

/// The first triple, which the descent finds as another way does.
fn first_both_ways(table: &Table, other_way: fn(&Table) -> Option<Triple>) -> Option<Triple> {
    let first = other_way(table);
    assert_eq!(first_by_descent(table), first, "{table:?}");
    assert_eq!(unsuitable(table), first, "{table:?}");
    assert_eq!(is_suitable(table), first.is_none(), "{table:?}");
    first
}

#[test]
fn first_triples_as_listed() {
    assert_eq!(read_table(&bytes_of(&Table::new(2, 4, 1, &[1]))), clash(1, 3, 0));
    for (table, triple) in first_triples() {
        for way in [first_by_trying, first_by_lookup] {
            assert_eq!(first_both_ways(&table, way), Some(triple));
        }
        assert_eq!(read_table(&bytes_of(&table)), Err(ReadRefusal::Unsuitable(triple)));
        assert_eq!(write(&table, 0).0, Err(WriteRefusal::Unsuitable(triple)));
    }
}

#[test]
fn first_triples_of_all_small_tables() {
    for (n, span) in (2..=8).map(|span| (2, span)).chain([(3, 2), (3, 3), (3, 4), (3, 5), (4, 2), (4, 3)]) {
        for all_rows in 0..1u64 << (span * (n - 1)) {
            let row = |j| all_rows >> (span * j) & ((1 << span) - 1);
            let table = Table::new(n, span, 1, &(0..n - 1).map(row).collect::<Vec<u64>>());
            first_both_ways(&table, first_by_trying);
            first_both_ways(&table, first_by_lookup);
        }
    }
}

#[test]
fn first_triples_of_drawn_tables() {
    let mut draw = Draw::from_seed(2);
    let (mut suitable, mut dependent, mut shifts) = (0, 0, [0; 3]);
    for round in 0..6_000 {
        // all triples of few symbols are tried; of more, images are looked up
        let (n, span, way): (_, _, fn(&Table) -> _) = match round % 20 {
            0 => (draw.between(7, 10), draw.between(2, 32), first_by_lookup),
            _ => (draw.between(2, 6), draw.between(2, 16), first_by_trying),
        };
        let table = match draw.below(6) {
            0 | 1 => fit_table(&mut draw, n, span, 1),
            2 => spoilt_table(&mut draw, n, span, 1),
            3 => suitable_table(&mut draw, n, span, 1).unwrap_or(fit_table(&mut draw, n, span, 1)),
            _ => clashing_table(&mut draw, n, span, 1),
        };
        match first_both_ways(&table, way) {
            None => suitable += 1,
            Some(Triple { e1: 0, .. }) => dependent += 1,
            Some(Triple { l, .. }) => shifts[range_of_shift(n, l)] += 1,
        }
    }
    let reached = suitable > 300 && dependent > 300 && shifts.iter().all(|&count| count > 200);
    assert!(reached, "{suitable} suitable, {dependent} dependent, others by l {shifts:?}");
}

#[test]
fn first_triples_of_16_symbols() {
    let mut draw = Draw::from_seed(10);
    for _ in 0..20 {
        let span = draw.between(32, 64);
        first_both_ways(&clashing_table(&mut draw, 16, span, 1), first_by_lookup);
    }
}

#[test]
fn drawn_tables_are_as_meant() {
    let mut draw = Draw::from_seed(3);
    let mut beyond_n = 0;
    for _ in 0..2000 {
        let table = any_suitable_table(&mut draw);
        assert!(is_suitable(&table), "{table:?}");
        let spoilt = spoilt_table(&mut draw, table.n, table.span, table.depth);
        let shown = unsuitable(&spoilt).expect("spoilt");
        beyond_n += u64::from(shown.l >= spoilt.n);
    }
    assert!(beyond_n > 200, "{beyond_n}"); // tables that only shifts of n or more show unsuitable
}

#[test]
fn least_error_both_ways() {
    let mut draw = Draw::from_seed(4);
    let (mut found, mut missed) = (0, 0);
    for _ in 0..4000 {
        let (n, span) = (draw.between(2, 10), draw.between(2, 64));
        let table = fit_table(&mut draw, n, span, 1);
        let e = draw.bits(n);
        let register = if draw.once_in(3) { draw.bits(span) } else { image(&table, e) };
        let least = least_error_by_trying(&table, register);
        assert_eq!(least, least_error_by_elimination(&table, register), "{table:?} {register}");
        *if least.is_some() { &mut found } else { &mut missed } += 1;
    }
    assert!(found > 1000 && missed > 400, "{found} {missed}");
}

#[test]
fn parity_is_the_definition_s() {
    let mut draw = Draw::from_seed(5);
    for _ in 0..200 {
        let table = any_fit_table(&mut draw);
        let mut words = vec![0; table.coder_words()];
        let mut streams = vec![Vec::new(); table.depth as usize];
        for t in 0..300 {
            let info = draw.bits(table.n - 1);
            let stream: &mut Vec<u64> = &mut streams[t % table.depth as usize];
            stream.push(info);
            let block = info | parity_by_definition(&table, stream) << (table.n - 1);
            assert_eq!(code(&table, &mut words, info), Ok(block));
        }
    }
}

fn blocks_of(case: &StepCase) -> Vec<u16> {
    case.steps.iter().map(|&(Step::Code(block, _) | Step::Decode(block, _))| block).collect()
}

#[test]
fn sums_as_listed() {
    let cases = sum_cases();
    for three in [&cases[..3], &cases[3..6]] {
        let [one, other, sum] = [0, 1, 2].map(|at| blocks_of(&three[at]));
        let added: Vec<u16> = one.iter().zip(&other).map(|(one, other)| one ^ other).collect();
        assert_eq!(added, sum);
    }
    for StepCase { table, mut memory, steps, after } in cases {
        for step in steps {
            match step {
                Step::Code(info, due) => {
                    assert_eq!(code(&table, &mut memory, u64::from(info)), Ok(due.block));
                }
                Step::Decode(received, due) => {
                    let answer = decode(&table, &mut memory, u64::from(received)).expect("well-formed");
                    let values = answer.map(|Delivered { info, mark }| [info, mark.number(), mark.error()]);
                    assert_eq!(values.unwrap_or_default(), [due.info, due.mark, due.error]);
                }
            }
        }
        assert_eq!(memory, after);
    }
}

#[test]
fn well_and_malformed_memories_are_as_meant() {
    let mut draw = Draw::from_seed(6);
    for _ in 0..3000 {
        let table = any_fit_table(&mut draw);
        assert_eq!(code_refusal(&table, &well_formed_coder(&mut draw, &table), 0), None);
        assert_eq!(decode_refusal(&table, &well_formed_decoder(&mut draw, &table), 0), None);
        let mut words = malformed_decoder(&mut draw, &table);
        // A malformed stream is met in its turn, and then the turn stays: fewer than m blocks are taken.
        let taken = (0..table.depth).filter(|_| decode(&table, &mut words, 0).is_ok()).count() as u64;
        assert!(taken < table.depth);
        let unfit = unfit_table(&mut draw, &table);
        assert_eq!(code_refusal(&unfit, &[], 0), Some(12), "{unfit:?}");
    }
}

/// What is claimed of one run; returns the bursts met, and counts the marks at the double guard's end.
fn run_of_fades(
    draw: &mut Draw,
    table: &Table,
    guard: u64,
    places: u64,
    guard_end: &mut [u64; MARKS],
) -> usize {
    let mut coder = well_formed_coder(draw, table);
    let mut decoder = well_formed_decoder(draw, table);
    let mut fades = Fades::new(draw, table, guard);
    let (mut infos, mut answers) = (Vec::new(), Vec::new());
    for _ in 0..places {
        let info = draw.bits(table.n - 1);
        infos.push(info as u16);
        let sent = code(table, &mut coder, info).expect("well-formed");
        let answer = decode(table, &mut decoder, sent ^ fades.next_error(draw)).expect("well-formed");
        answers.push(answer.map_or((0, 0), |Delivered { info, mark }| (info, mark.number())));
    }
    let wrong = first_wrong_delivery(table, guard, &infos, &answers, guard_end);
    assert_eq!(wrong, None, "{table:?}");
    fades.bursts.len()
}

/// Runs on drawn tables; the marks at the double guard's end.
fn runs_of_fades(seed: u64, guard: fn(&Table) -> u64) -> [u64; MARKS] {
    let mut draw = Draw::from_seed(seed);
    let (mut bursts, mut places, mut guard_end) = (0, 0, [0; MARKS]);
    while places < 400_000 {
        let table = any_suitable_table(&mut draw);
        let length = double_guard(&table) + 4 * (table.delay() + table.depth) + draw.below(100);
        bursts += run_of_fades(&mut draw, &table, guard(&table), length, &mut guard_end);
        places += length;
    }
    assert!(bursts > 500, "{bursts}");
    guard_end
}

#[test]
fn after_a_fade() {
    let [_, clean, .., parity] = runs_of_fades(7, double_guard);
    assert!(clean > 100 && parity > 100, "{clean} {parity}");
}

#[test]
fn after_a_short_guard() {
    runs_of_fades(9, short_guard);
}
