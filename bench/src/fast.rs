//! The codec and its test load written for speed: the memory layout of the scope, any table, the same checks and
//! answers (of reading, the table or none), and no proof.

#[derive(Clone)]
pub struct Table {
    pub n: usize,
    pub span: usize,
    pub depth: usize,
    pub rows: [u64; 15],
}

pub const NOTHING_YET: u64 = 1 << 32;

#[inline]
fn mask(bits: usize) -> u64 {
    if bits == 0 {
        0
    } else {
        u64::MAX >> (64 - bits)
    }
}

#[inline]
fn row(t: &Table, j: usize) -> u64 {
    if j + 1 == t.n {
        1
    } else {
        t.rows[j]
    }
}

fn fit(t: &Table) -> bool {
    let sizes = (2..=16).contains(&t.n) && (2..=64).contains(&t.span) && (1..=64).contains(&t.depth);
    sizes && t.rows[..t.n - 1].iter().fold(0, |seen, r| seen | r) <= mask(t.span)
}

#[inline]
fn joining(t: &Table, pending: u64, info: u64) -> u64 {
    let mut word = pending;
    let mut left = info;
    for r in &t.rows[..t.n - 1] {
        word ^= r & 0u64.wrapping_sub(left & 1);
        left >>= 1;
    }
    word
}

#[inline]
fn next_turn(depth: usize, turn: u64) -> u64 {
    if turn + 1 == depth as u64 {
        0
    } else {
        turn + 1
    }
}

/// The coded block, or the refusal's number times 2^33.
#[inline(never)]
pub fn code(t: &Table, words: &mut [u64], info: u16) -> u64 {
    if !fit(t) {
        return 12 << 33;
    }
    if words.len() != 1 + t.depth {
        return 13 << 33;
    }
    let turn = words[0];
    if turn >= t.depth as u64 || words[1 + turn as usize] > mask(t.span - 1) {
        return 14 << 33;
    }
    if u64::from(info) > mask(t.n - 1) {
        return 15 << 33;
    }
    let pending = &mut words[1 + turn as usize];
    let word = joining(t, *pending, u64::from(info));
    *pending = word >> 1;
    words[0] = next_turn(t.depth, turn);
    u64::from(info) | (word & 1) << (t.n - 1)
}

/// Words that were reduced, each with its lowest one and its coefficients.
struct Basis {
    size: usize,
    vectors: [u64; 32],
    lowest: [u64; 32],
    coefficients: [u64; 32],
}

impl Basis {
    #[inline]
    fn new() -> Basis {
        Basis { size: 0, vectors: [0; 32], lowest: [0; 32], coefficients: [0; 32] }
    }

    #[inline]
    fn reduce(&self, mut x: u64, mut c: u64) -> (u64, u64) {
        for i in 0..self.size {
            if x & self.lowest[i] != 0 {
                x ^= self.vectors[i];
                c ^= self.coefficients[i];
            }
        }
        (x, c)
    }

    #[inline]
    fn join(&mut self, x: u64, c: u64) {
        self.vectors[self.size] = x;
        self.lowest[self.size] = x & x.wrapping_neg();
        self.coefficients[self.size] = c;
        self.size += 1;
    }
}

fn least_error(t: &Table, register: u64) -> Option<u64> {
    let mut basis = Basis::new();
    for j in 0..t.n {
        let (x, c) = basis.reduce(row(t, j), 1 << j);
        if x != 0 {
            basis.join(x, c);
        }
    }
    let (x, c) = basis.reduce(register, 0);
    if x == 0 {
        Some(c)
    } else {
        None
    }
}

/// Information, mark and e of a delivery, 16 bits each, NOTHING_YET, or the refusal's number times 2^48 and a one above.
#[inline(never)]
pub fn decode(t: &Table, words: &mut [u64], received: u16) -> u64 {
    if !fit(t) {
        return 1 << 63 | 12 << 48;
    }
    let (n, span) = (t.n, t.span);
    if words.len() != 2 + t.depth * (span + 1) {
        return 1 << 63 | 13 << 48;
    }
    let delay = (t.depth * (span - 1)) as u64;
    let (turn, fill) = (words[0], words[1]);
    if turn >= t.depth as u64 || fill > delay {
        return 1 << 63 | 14 << 48;
    }
    let at = 2 + turn as usize * (span + 1);
    let part = &mut words[at..at + span + 1];
    let seen = part[2..].iter().fold(0, |seen, w| seen | w);
    if part[0] | part[1] > mask(span - 1) || seen > mask(n - 1) {
        return 1 << 63 | 14 << 48;
    }
    let block = u64::from(received);
    if block > mask(n) {
        return 1 << 63 | 15 << 48;
    }
    let info = block & mask(n - 1);
    let word = joining(t, part[0], info);
    let raw = (word ^ block >> (n - 1)) & 1;
    let register = part[1] | raw << (span - 1);
    let (mut error, mut kept, mut mark) = (0, 0, 1);
    if register != 0 {
        match least_error(t, register) {
            Some(e) => (error, mark) = (e, 3 + 2 * u64::from(e == 1 << (n - 1))),
            None => (kept, mark) = (register >> 1, 2 + 2 * (register & 1)),
        }
    }
    let oldest = part[2];
    part[0] = word >> 1;
    part[1] = kept;
    part.copy_within(3.., 2);
    part[span] = info;
    words[0] = next_turn(t.depth, turn);
    if fill < delay {
        words[1] = fill + 1;
        return NOTHING_YET;
    }
    (oldest ^ error & mask(n - 1)) | mark << 16 | error << 32
}

/// Whether some image is a shifted one.
fn clashes(t: &Table) -> bool {
    (1..t.span).any(|l| {
        let mut basis = Basis::new();
        for j in 0..t.n {
            let (x, _) = basis.reduce(row(t, j) << l & mask(t.span), 0);
            if x != 0 {
                basis.join(x, 0);
            }
        }
        (0..t.n).any(|j| {
            let (x, _) = basis.reduce(row(t, j), 0);
            if x != 0 {
                basis.join(x, 0);
            }
            x == 0
        })
    })
}

/// A table of sound bytes (sizes, rows, end), or none where it is not suitable or the bytes are no table.
#[inline(never)]
pub fn read(bytes: &[u8]) -> Option<Table> {
    let (&[1, n, span, depth], mut rest) = bytes.split_first_chunk::<4>()? else { return None };
    let mut t = Table { n: n.into(), span: span.into(), depth: depth.into(), rows: [0; 15] };
    let sizes = (2..=16).contains(&t.n) && (2..=64).contains(&t.span) && (1..=64).contains(&t.depth);
    if !sizes {
        return None;
    }
    let mut given = 0u32;
    while let Some((&[2, j, a, b, c, d, e, f, g, h], after)) = rest.split_first_chunk::<10>() {
        let value = u64::from_le_bytes([a, b, c, d, e, f, g, h]);
        if j == 0 || usize::from(j) >= t.n || given >> j & 1 == 1 || value > mask(t.span) {
            return None;
        }
        t.rows[usize::from(j) - 1] = value;
        given |= 1 << j;
        rest = after;
    }
    (rest == [0] && given.count_ones() as usize == t.n - 1 && !clashes(&t)).then_some(t)
}

/// Fills the blocks, or returns the refusal's number.
#[inline(never)]
pub fn load(t: &Table, seed: u32, blocks: &mut [u16]) -> u64 {
    if !fit(t) {
        return 12;
    }
    if seed == 0 {
        return 17;
    }
    let mut state = seed;
    let mut draw = || {
        state ^= state << 13;
        state ^= state >> 17;
        state ^= state << 5;
        state
    };
    let guard = t.depth * (t.span - 1);
    let mut left = blocks;
    while !left.is_empty() {
        let length = 1 + draw() as usize % t.depth;
        let (burst, after) = left.split_at_mut(length.min(left.len()));
        for error in burst {
            *error = (u64::from(draw()) & mask(t.n)) as u16;
        }
        let length = guard + draw() as usize % 16;
        let (gap, after) = after.split_at_mut(length.min(after.len()));
        gap.fill(0);
        left = after;
    }
    0
}
