//! The test load written plainly from its description, in two ways that share nothing but the table: block after block
//! from a generator of single bits, and round after round from one that multiplies and divides.

use crate::iwadare::{bits_of, number_of};
use crate::oracle::{is_fit, Table};

// ---- Draws ----

/// How many bits the generator has.
const BITS: usize = 32;

/// The generator as its bits, the lowest first.
#[derive(Clone, Debug)]
pub struct Bits(Vec<bool>);

impl Bits {
    pub fn from_seed(seed: u32) -> Bits {
        Bits(bits_of(u64::from(seed), BITS))
    }

    /// Adds to each bit the one that a shift brings to its place, if there is one.
    fn add(&mut self, brought: impl Fn(usize) -> Option<usize>) {
        let bit = |at: usize| self.0.get(at) == Some(&true);
        self.0 = (0..BITS).map(|at| bit(at) != brought(at).is_some_and(bit)).collect();
    }

    pub fn draw(&mut self) -> u64 {
        self.add(|at| at.checked_sub(13));
        self.add(|at| Some(at + 17));
        self.add(|at| at.checked_sub(5));
        number_of(self.0.iter().copied())
    }
}

/// The number drawn from this generator, which is the generator as it then stands: a shift to the left multiplies, with
/// the bits above dropped, and one to the right divides.
pub fn drawn_by_arithmetic(generator: u64) -> u64 {
    let dropped_above = |number: u64| number % (1 << BITS);
    let first = generator ^ dropped_above(generator * (1 << 13));
    let second = first ^ (first / (1 << 17));
    second ^ dropped_above(second * (1 << 5))
}

// ---- Block after block ----

/// How many blocks are left of the burst, or of the gap, that the load is in.
#[derive(Clone, Copy, Debug)]
enum Left {
    Burst(u64),
    Gap(u64),
}

/// The load without its end.
#[derive(Clone, Debug)]
pub struct Load {
    bits: Bits,
    left: Left,
    depth: u64,
    errors: u64,
    guard: u64,
}

impl Load {
    /// With no block left of a gap, so that a round begins.
    pub fn new(table: &Table, seed: u32) -> Load {
        let (bits, left) = (Bits::from_seed(seed), Left::Gap(0));
        Load { bits, left, depth: table.depth, errors: 1 << table.n, guard: table.delay() }
    }
}

impl Iterator for Load {
    type Item = u16;

    fn next(&mut self) -> Option<u16> {
        loop {
            let block;
            (self.left, block) = match self.left {
                Left::Gap(0) => (Left::Burst(1 + self.bits.draw() % self.depth), None),
                Left::Burst(0) => (Left::Gap(self.guard + self.bits.draw() % 16), None),
                Left::Burst(left) => (Left::Burst(left - 1), Some(self.bits.draw() % self.errors)),
                Left::Gap(left) => (Left::Gap(left - 1), Some(0)),
            };
            if let Some(block) = block {
                return Some(block as u16);
            }
        }
    }
}

/// Refusal 12 or 17, or all of the lent numbers are filled.
pub fn fill(table: &Table, seed: u32, blocks: &mut [u16]) -> Result<(), u64> {
    if !is_fit(table) {
        return Err(12);
    }
    if seed == 0 {
        return Err(17);
    }
    for (block, error) in blocks.iter_mut().zip(Load::new(table, seed)) {
        *block = error;
    }
    Ok(())
}

// ---- Round after round ----

/// A burst's errors, some of which may be 0, and how many right blocks follow them beyond m × (N − 1).
#[derive(Clone, Debug, PartialEq, Eq)]
pub struct Round {
    pub errors: Vec<u16>,
    pub surplus: u64,
}

impl Round {
    pub fn length(&self, table: &Table) -> usize {
        self.errors.len() + (table.delay() + self.surplus) as usize
    }
}

/// The rounds that a load of this length begins; the last of them may end after it.
pub fn rounds(table: &Table, seed: u32, length: usize) -> Vec<Round> {
    let mut generator = u64::from(seed);
    let mut draw = || {
        generator = drawn_by_arithmetic(generator);
        generator
    };
    let (mut rounds, mut begun) = (Vec::new(), 0);
    while begun < length {
        let burst = 1 + draw() % table.depth;
        let errors = (0..burst).map(|_| (draw() % (1 << table.n)) as u16).collect();
        let round = Round { errors, surplus: draw() % 16 };
        begun += round.length(table);
        rounds.push(round);
    }
    rounds
}

/// The blocks of these rounds, as many as the load has.
pub fn blocks_of(table: &Table, rounds: &[Round], length: usize) -> Vec<u16> {
    let mut blocks = Vec::new();
    for round in rounds {
        let end = blocks.len() + round.length(table);
        blocks.extend(&round.errors);
        blocks.resize(end, 0);
    }
    blocks.truncate(length);
    blocks
}
