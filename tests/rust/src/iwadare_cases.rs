//! Cases for the Iwadare-Massey stations: listed steps, drawn memories, and bursts of wrong bits.

use crate::cases::Draw;
use crate::iwadare::{Station, DELAY};
use crate::{Coded, IwadareDecoded};
use std::collections::VecDeque;

// ---- Listed steps ----

/// The block that a step is handed, and its answer.
#[derive(Clone, Copy, Debug)]
pub enum StationStep {
    Code(u16, Coded),
    Decode(u16, IwadareDecoded),
}

#[derive(Debug)]
pub struct StationCase {
    pub memory: Vec<u64>,
    pub step: StationStep,
    pub after: Vec<u64>,
}

pub const NOTHING_YET: IwadareDecoded = IwadareDecoded { refused: 0, delivered: 0, info: 0 };

pub fn delivers(info: u64) -> IwadareDecoded {
    IwadareDecoded { refused: 0, delivered: 1, info }
}

/// A coder's step that is taken, with the coded block.
fn codes(pending: u64, info: u16, block: u64, after: u64) -> StationCase {
    let step = StationStep::Code(info, Coded { refused: 0, block });
    StationCase { memory: vec![pending], step, after: vec![after] }
}

/// A coder's step that is refused, which writes nothing.
fn no_code(memory: &[u64], info: u16, refused: u64) -> StationCase {
    let step = StationStep::Code(info, Coded { refused, block: 0 });
    StationCase { memory: memory.to_vec(), step, after: memory.to_vec() }
}

/// Fill, pending word, terms, and blocks by how far they are back from the one that is taken next, the others 0.
pub fn decoder_words(fill: u64, pending: u64, terms: u64, blocks: &[(usize, u64)]) -> Vec<u64> {
    let mut words = vec![fill, pending, terms];
    words.extend([0; DELAY]);
    for &(back, block) in blocks {
        words[3 + DELAY - back] = block;
    }
    words
}

/// A decoder's step that is taken.
fn decodes(memory: Vec<u64>, received: u16, answer: IwadareDecoded, after: Vec<u64>) -> StationCase {
    StationCase { memory, step: StationStep::Decode(received, answer), after }
}

/// A decoder's step that is refused, which writes nothing.
fn no_decode(memory: Vec<u64>, received: u16, refused: u64) -> StationCase {
    let answer = IwadareDecoded { refused, ..NOTHING_YET };
    StationCase { step: StationStep::Decode(received, answer), after: memory.clone(), memory }
}

/// After a step blocks are one further back, and the one 18 back is gone.
pub fn station_cases() -> Vec<StationCase> {
    let words = decoder_words;
    let (zero, one) = (1 << 6 | 1 << 17, 1 << 2 | 1 << 14); // what the symbols leave pending
    let both = zero | one;
    let mut cases = vec![
        // each symbol on a started memory; what is pending is the parity, and moves down
        codes(0, 0, 0, 0),
        codes(0, 1, 1, zero),
        codes(0, 2, 2, one),
        codes(0, 3, 3, both),
        codes(1, 0, 4, 0),
        codes(1 << 17, 1, 1, 1 << 16 | zero),
        codes((1 << 18) - 1, 0, 4, (1 << 17) - 1),
        codes((1 << 18) - 1, 3, 7, 0x3FFFF - (1 << 2 | 1 << 6 | 1 << 14)),
        // 15, 14 before it, 13 before both
        no_code(&[0], 4, 15),
        no_code(&[(1 << 18) - 1], 65535, 15),
        no_code(&[1 << 18], 0, 14),
        no_code(&[u64::MAX], 4, 14),
        no_code(&[1 << 32], 3, 14),
        no_code(&[], 4, 13),
        no_code(&[1 << 18, 0], 4, 13),
        // the information joins the pending word and the blocks; the parity does not, but is in the term
        decodes(words(0, 0, 0, &[]), 0, NOTHING_YET, words(1, 0, 0, &[])),
        decodes(words(0, 0, 0, &[]), 1, NOTHING_YET, words(1, zero, 0, &[(1, 1)])),
        decodes(words(0, 0, 0, &[]), 6, NOTHING_YET, words(1, one, 1 << 11, &[(1, 2)])),
        decodes(words(0, 1, 0, &[]), 0, NOTHING_YET, words(1, 0, 1 << 11, &[])),
        decodes(words(0, 1, 0, &[]), 4, NOTHING_YET, words(1, 0, 0, &[])),
        // the last step that delivers nothing, and the first that delivers
        decodes(words(17, 0, 0, &[(18, 3), (17, 2)]), 0, NOTHING_YET, words(18, 0, 0, &[(18, 2)])),
        decodes(words(18, 0, 0, &[(18, 2), (17, 1)]), 3, delivers(2), words(18, both, 0, &[(18, 1), (1, 3)])),
        // newest and twelfth: symbol 1 of the block 15 back, and of no other
        decodes(words(18, 0, 1, &[(18, 3), (15, 1)]), 4, delivers(3), words(18, 0, 0, &[(16, 3)])),
        decodes(words(18, 1, 1, &[(15, 3), (14, 3)]), 0, delivers(0), words(18, 0, 0, &[(16, 1), (15, 3)])),
        // newest and eleventh: symbol 0 of the block 18 back, which is delivered with it
        decodes(words(18, 0, 2, &[(18, 2), (15, 2)]), 4, delivers(3), words(18, 0, 0, &[(16, 2)])),
        decodes(words(18, 1, 2, &[(18, 1), (17, 1)]), 0, delivers(0), words(18, 0, 0, &[(18, 1)])),
        // all three: symbol 1 alone, and the eleventh stays 1
        decodes(words(18, 0, 3, &[(18, 1)]), 4, delivers(1), words(18, 0, 1, &[(16, 2)])),
        // the newest is 0: nothing is flipped, and no term is altered
        decodes(words(18, 0, 3, &[(18, 1)]), 0, delivers(1), words(18, 0, 1, &[])),
        decodes(words(18, 1, 3, &[(18, 2)]), 4, delivers(2), words(18, 0, 1, &[])),
        // the other terms stay as they are
        decodes(words(18, 0, 0xFFC, &[]), 4, delivers(0), words(18, 0, 0xFFE, &[])),
        decodes(words(18, 0, 0xFFD, &[]), 4, delivers(0), words(18, 0, 0x7FE, &[(16, 2)])),
        decodes(words(18, 0, 0xFFE, &[]), 4, delivers(1), words(18, 0, 0x7FE, &[])),
        decodes(words(18, 0, 0xFFF, &[]), 4, delivers(0), words(18, 0, 0x7FF, &[(16, 2)])),
        // before the fill is complete flips are the same, of words that no block was taken for, too
        decodes(words(17, 0, 2, &[(18, 1)]), 4, NOTHING_YET, words(18, 0, 0, &[])),
        decodes(words(15, 0, 1, &[(15, 2)]), 4, NOTHING_YET, words(16, 0, 0, &[])),
        decodes(words(3, 0, 1, &[]), 4, NOTHING_YET, words(4, 0, 0, &[(16, 2)])),
        // 15, 14 before it, 13 before both
        no_decode(words(18, 0, 3, &[(18, 3)]), 8, 15),
        no_decode(words(0, 0, 0, &[]), 65535, 15),
        no_decode(vec![], 8, 13),
        no_decode(vec![0; 20], 8, 13),
        no_decode([vec![19], vec![4; 21]].concat(), 8, 13),
    ];
    // each bound of the decoder's words
    for (at, bound) in [(0, 19), (1, 1 << 18), (2, 1 << 12)].into_iter().chain((3..21).map(|at| (at, 4))) {
        let mut memory = words(0, 0, 0, &[]);
        memory[at] = bound;
        cases.extend([no_decode(memory.clone(), 0, 14), no_decode(memory, 8, 14)]);
    }
    cases
}

// ---- Memories ----

/// A memory within the bounds: each word zero, the greatest, or any.
pub fn well_formed<S: Station>(draw: &mut Draw) -> Vec<u64> {
    let mut word = |&bound: &u64| match draw.below(6) {
        0 => 0,
        1 => bound - 1,
        _ => draw.below(bound),
    };
    S::BOUNDS.iter().map(&mut word).collect()
}

/// A word that is not below the bound: the least such, the greatest, one that is below once cut to 32 bits, or any.
pub fn out_of_bounds(draw: &mut Draw, bound: u64) -> u64 {
    match draw.below(4) {
        0 => bound,
        1 => u64::MAX,
        2 => draw.below(bound) + (1 << 32),
        _ => draw.number().max(bound),
    }
}

// ---- Bursts of wrong bits ----

/// Bits of a block, sent from the lowest on.
const BLOCK_BITS: usize = 3;

/// The error blocks of wrong bits, the first of all in bit 0.
pub fn error_blocks(bits: u64) -> Vec<u16> {
    let mut blocks = Vec::new();
    let mut left = bits;
    while left > 0 {
        blocks.push((left % 8) as u16);
        left /= 8;
    }
    blocks
}

/// The errors of the blocks in turn: bursts within so many bits, and at least so many right ones between.
pub struct BitBursts {
    within: u64,
    between: u64,
    due: VecDeque<bool>,
    /// The bits before those that are due.
    past: usize,
    /// Bursts as long and as close to the next as can be, by the place in its block at which one begins.
    pub tight: [u64; BLOCK_BITS],
}

impl BitBursts {
    /// The first burst comes after this many right bits.
    pub fn new(right: u64, within: u64, between: u64) -> BitBursts {
        let due = (0..right).map(|_| false).collect();
        BitBursts { within, between, due, past: 0, tight: [0; BLOCK_BITS] }
    }

    fn add_burst(&mut self, draw: &mut Draw) {
        let length = match draw.below(4) {
            0 => draw.between(1, self.within),
            1 => self.within - 1,
            _ => self.within,
        };
        let slack = if draw.once_in(6) { draw.below(10) } else { 0 };
        if length == self.within && slack == 0 {
            self.tight[(self.past + self.due.len()) % BLOCK_BITS] += 1;
        }
        let kind = draw.below(4);
        for at in 0..length {
            let inside = match kind {
                0 => true,
                1 => false,
                _ => draw.once_in(2),
            };
            self.due.push_back(at == 0 || at + 1 == length || inside);
        }
        self.due.extend((0..self.between + slack).map(|_| false));
    }

    pub fn next_error(&mut self, draw: &mut Draw) -> u16 {
        while self.due.len() < BLOCK_BITS {
            self.add_burst(draw);
        }
        self.past += BLOCK_BITS;
        (0..BLOCK_BITS).map(|k| u16::from(self.due.pop_front() == Some(true)) << k).sum()
    }
}
