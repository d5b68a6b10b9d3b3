//! The images of all 65,536 error blocks of 16 symbols, at the two spans whose times the benchmark compares. The first
//! block that a started coder or decoder takes shows its image: bit 0 in the parity or in the mark, the others in the
//! pending word, and all of them in the parities of the blocks of zeros after it.

use super::*;

const SYMBOLS: u64 = 16;
const SPANS: [u64; 2] = [4, 64];

/// Rows that are dense or mixed, with ones at every place, and with a single one each, the last place among them.
fn tables(draw: &mut Draw, span: u64) -> Vec<Table> {
    let depth = draw.between(1, 3);
    let ones = [u64::MAX >> (64 - span); 15];
    let units: [u64; 15] = std::array::from_fn(|j| 1 << ((j as u64 * 5 + span - 1) % span));
    let mut tables = vec![Table::new(SYMBOLS, span, depth, &ones), Table::new(SYMBOLS, span, depth, &units)];
    tables.extend((0..6).map(|_| fit_table(draw, SYMBOLS, span, depth)));
    tables
}

fn each_table(draw: &mut Draw, mut call: impl FnMut(&Table)) {
    for span in SPANS {
        tables(draw, span).iter().for_each(&mut call);
    }
}

fn check_image(tally: &mut Tally, table: &Table, e: u16, seen: u64, how: &str) {
    let image = oracle::image(table, u64::from(e));
    tally.check(seen == image, || format!("image of {e} by {how}: expected {image}, got {seen}; {table:?}"));
}

/// By coder calls, of the information; the parity symbol adds its row, which is 1.
pub fn by_coder_calls(tally: &mut Tally, draw: &mut Draw) {
    each_table(draw, |table| {
        for info in 0..=0x7FFF {
            let mut twin = Twin::new(vec![0; table.coder_words()]);
            let coded = compare_code(tally, table, &mut twin, info);
            let seen = twin.linked()[1] << 1 | coded.block >> 15;
            check_image(tally, table, info, seen, "a coder call");
            check_image(tally, table, info | 0x8000, seen ^ 1, "a coder call");
        }
    });
}

/// A started decoder with its fill complete, so that it delivers: its mark is clean exactly if the raw term, bit 0 of
/// the image, is 0.
fn delivering(table: &Table) -> Vec<u64> {
    let mut words = vec![0; table.decoder_words()];
    words[1] = table.delay();
    words
}

fn seen_by_decoder(words: &[u64], mark: u64) -> u64 {
    words[2] << 1 | u64::from(mark != 1)
}

pub fn by_decoder_calls(tally: &mut Tally, draw: &mut Draw) {
    each_table(draw, |table| {
        for e in 0..=u16::MAX {
            let mut twin = Twin::new(delivering(table));
            let decoded = compare_decode(tally, table, &mut twin, e);
            check_image(tally, table, e, seen_by_decoder(twin.linked(), decoded.mark), "a decoder call");
        }
    });
}

/// By batches of the coder: an information block and zeros, so that the parities of its stream are the image's bits.
pub fn by_coder_batches(tally: &mut Tally, draw: &mut Draw) {
    each_table(draw, |table| {
        let mut infos = vec![0; (table.depth * table.span) as usize];
        for info in 0..=0x7FFF {
            infos[0] = info;
            let mut twin = Twin::new(vec![0; table.coder_words()]);
            let (entries, _) = CODER.compare_batch(tally, table, &mut twin, &infos, infos.len());
            let stream = entries.iter().step_by(table.depth as usize);
            let seen = stream.rev().fold(0, |image, entry| image << 1 | u64::from(entry >> 15));
            check_image(tally, table, info, seen, "a coder's batch");
            check_image(tally, table, info | 0x8000, seen ^ 1, "a coder's batch");
        }
    });
}

/// By batches of the decoder, of one block each.
pub fn by_decoder_batches(tally: &mut Tally, draw: &mut Draw) {
    each_table(draw, |table| {
        for e in 0..=u16::MAX {
            let mut twin = Twin::new(delivering(table));
            let (entries, _) = DECODER.compare_batch(tally, table, &mut twin, &[e], 1);
            let mark = entries.first().map_or(0, |entry| u64::from(entry >> 16));
            check_image(tally, table, e, seen_by_decoder(twin.linked(), mark), "a decoder's batch");
        }
    });
}
