//! The Iwadare-Massey stations written plainly from their description: right by reading, not fast. A coder or a decoder
//! keeps what it took in lists that only grow, forms each parity by its definition, and derives the words of its memory
//! from the lists, or the lists' beginnings from the words.

/// How many blocks after a block it is delivered; the highest power of D, too.
pub const DELAY: usize = 18;

/// How many terms a memory has.
const TERMS: usize = 12;

/// The generators: a power of D, and the symbol that has it.
const POWERS: [(usize, usize); 4] = [(7, 0), (18, 0), (3, 1), (15, 1)];

/// Symbols 0 and 1 of a block.
type Info = [bool; 2];

// ---- Numbers and bits ----

/// So many bits of a number, the lowest first.
pub fn bits_of(number: u64, count: usize) -> Vec<bool> {
    (0..count).map(|k| number >> k & 1 == 1).collect()
}

pub fn number_of(bits: impl DoubleEndedIterator<Item = bool>) -> u64 {
    bits.rev().fold(0, |number, bit| 2 * number + u64::from(bit))
}

fn info_of(number: u64) -> Info {
    [number % 2 == 1, number / 2 == 1]
}

// ---- Parities ----

/// The information that was taken, the block of time 0 first, and what the blocks before time 0 add to the parities of
/// time 0 and on.
#[derive(Clone, Debug)]
struct Parities {
    added_before: Vec<bool>,
    infos: Vec<Info>,
}

impl Parities {
    fn of(pending: u64) -> Parities {
        Parities { added_before: bits_of(pending, DELAY), infos: Vec::new() }
    }

    /// The time of the block that is taken next.
    fn now(&self) -> usize {
        self.infos.len()
    }

    /// Of the block so far back from this time; one that was not taken adds nothing.
    fn symbol(&self, time: usize, back: usize, which: usize) -> bool {
        let info = time.checked_sub(back).and_then(|time| self.infos.get(time));
        info.is_some_and(|info| info[which])
    }

    /// What the blocks that were taken add to the parity of this time.
    fn at(&self, time: usize) -> bool {
        let before = self.added_before.get(time) == Some(&true);
        POWERS.iter().fold(before, |sum, &(power, which)| sum ^ self.symbol(time, power, which))
    }

    /// The pending word: bit k is what is added to the parity k blocks after the next one.
    fn pending(&self) -> u64 {
        number_of((0..DELAY).map(|k| self.at(self.now() + k)))
    }
}

// ---- Coder and decoder ----

/// What a coder and a decoder share.
pub trait Station: Sized {
    /// One past what is fit of each word of the memory.
    const BOUNDS: &'static [u64];
    /// One past what is fit of a block.
    const BLOCKS: u64;
    /// What taking a block does.
    type Taken;

    /// Of words that are within the bounds.
    fn of(words: &[u64]) -> Self;
    fn words(&self) -> Vec<u64>;
    /// Takes a block that is fit.
    fn take(&mut self, block: u64) -> Self::Taken;
}

/// Refusals 13 to 15 of a step.
pub fn refusal<S: Station>(words: &[u64], block: u64) -> Option<u64> {
    if words.len() != S::BOUNDS.len() {
        Some(13)
    } else if words.iter().zip(S::BOUNDS).any(|(word, bound)| word >= bound) {
        Some(14)
    } else if block >= S::BLOCKS {
        Some(15)
    } else {
        None
    }
}

/// Refusal 13, or all words are 0.
pub fn start<S: Station>(words: &mut [u64]) -> Result<(), u64> {
    if words.len() != S::BOUNDS.len() {
        return Err(13);
    }
    words.fill(0);
    Ok(())
}

/// One step on a memory.
pub fn step<S: Station>(words: &mut [u64], block: u64) -> Result<S::Taken, u64> {
    if let Some(number) = refusal::<S>(words, block) {
        return Err(number);
    }
    let mut station = S::of(words);
    let taken = station.take(block);
    words.copy_from_slice(&station.words());
    Ok(taken)
}

#[derive(Clone, Debug)]
pub struct Coder(Parities);

impl Station for Coder {
    const BOUNDS: &'static [u64] = &[1 << 18];
    const BLOCKS: u64 = 4;
    /// The coded block.
    type Taken = u64;

    fn of(words: &[u64]) -> Coder {
        Coder(Parities::of(words[0]))
    }

    fn words(&self) -> Vec<u64> {
        vec![self.0.pending()]
    }

    fn take(&mut self, info: u64) -> u64 {
        let parity = self.0.at(self.0.now());
        self.0.infos.push(info_of(info));
        info + 4 * u64::from(parity)
    }
}

/// What the term of a received block flips in a block before it.
#[derive(Clone, Copy, Debug, PartialEq, Eq)]
pub enum Flip {
    None,
    /// Symbol 1 of the block 15 back: the newest term and the one 12 before it are 1. Whether the one 11 before it is
    /// 1, too.
    One {
        eleventh: bool,
    },
    /// Symbol 0 of the block 18 back.
    Zero,
}

/// What a decoder's step does.
#[derive(Clone, Copy, Debug, PartialEq, Eq)]
pub struct Received {
    /// `None` is "nothing yet".
    pub delivered: Option<u64>,
    pub flip: Flip,
}

#[derive(Clone, Debug)]
pub struct Decoder {
    fill: usize,
    parities: Parities,
    /// The oldest first, 12 of them before time 0; as the flips left them.
    terms: Vec<bool>,
    /// The oldest first, 18 of them before time 0; as the flips left them.
    blocks: Vec<Info>,
}

impl Decoder {
    /// Alters terms and blocks as the newest term asks for. Its block is not yet among the blocks, so the last of these
    /// is 1 back.
    fn flip(&mut self) -> Flip {
        let newest = self.terms.len() - 1;
        let (eleventh, twelfth) = (newest - 11, newest - 12);
        let next = self.blocks.len();
        let flip = match [newest, eleventh, twelfth].map(|term| self.terms[term]) {
            [true, eleventh, true] => Flip::One { eleventh },
            [true, true, false] => Flip::Zero,
            _ => Flip::None,
        };
        let (back, which, older) = match flip {
            Flip::One { .. } => (15, 1, twelfth),
            Flip::Zero => (18, 0, eleventh),
            Flip::None => return flip,
        };
        let symbol = &mut self.blocks[next - back][which];
        *symbol = !*symbol;
        self.terms[newest] = false;
        self.terms[older] = false;
        flip
    }
}

impl Station for Decoder {
    const BOUNDS: &'static [u64] =
        &[19, 1 << 18, 1 << 12, 4, 4, 4, 4, 4, 4, 4, 4, 4, 4, 4, 4, 4, 4, 4, 4, 4, 4];
    const BLOCKS: u64 = 8;
    type Taken = Received;

    fn of(words: &[u64]) -> Decoder {
        Decoder {
            fill: words[0] as usize,
            parities: Parities::of(words[1]),
            terms: bits_of(words[2], TERMS),
            blocks: words[3..].iter().map(|&block| info_of(block)).collect(),
        }
    }

    fn words(&self) -> Vec<u64> {
        let terms = &self.terms[self.terms.len() - TERMS..];
        let blocks = &self.blocks[self.blocks.len() - DELAY..];
        let mut words = vec![self.fill as u64, self.parities.pending(), number_of(terms.iter().copied())];
        words.extend(blocks.iter().map(|info| number_of(info.iter().copied())));
        words
    }

    fn take(&mut self, received: u64) -> Received {
        let now = self.parities.now();
        let (info, parity) = (info_of(received % 4), received / 4 == 1);
        self.terms.push(self.parities.at(now) != parity);
        let flip = self.flip();
        let oldest = self.blocks[self.blocks.len() - DELAY];
        self.parities.infos.push(info);
        self.blocks.push(info);
        let delivered = (self.fill == DELAY).then(|| number_of(oldest.iter().copied()));
        self.fill = (self.fill + 1).min(DELAY);
        Received { delivered, flip }
    }
}
