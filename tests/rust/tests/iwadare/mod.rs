//! Groups for the Iwadare-Massey stations. Each step is done by the archive on lent words, and by the plain
//! implementation on its lists of all that a run took. The answer, every word, and the words around the lent ones must
//! be the same, and the groups hold answers and memory to what they know of them besides.

use super::{check_answers, Tally, Twin};
use burst_compare::cases::Draw;
use burst_compare::iwadare::{self, Coder, Decoder, Flip, Received, Station, DELAY};
use burst_compare::iwadare_cases::*;
use burst_compare::{linked, Coded, IwadareDecoded};
use std::fmt::{self, Debug};

// ---- The count of what was compared ----

const LEAST_CALLS: u64 = 5_000_000;

/// Of each flip, each fill, and each kind of burst.
const LEAST_MET: u64 = 1_000;

/// The answers of a step: taken, another length, a word out of its bounds, a block too large.
const ANSWERS: [usize; 4] = [0, 13, 14, 15];

#[derive(Default)]
pub struct Count {
    /// Of the coder, of the decoder.
    steps: [[u64; 16]; 2],
    /// Starts that were done, and that were refused.
    starts: [[u64; 2]; 2],
    /// Of symbol 1 with the eleventh term 0, of symbol 1 with it 1, of symbol 0.
    flips: [u64; 3],
    /// Of steps that were taken, by the fill before.
    fills: [u64; DELAY + 1],
    /// Bursts of exactly 9 and exactly 10 bits with exactly 56 right ones before the next, by their place in a block.
    tight: [[u64; 3]; 2],
    /// Runs from any memories with a guard of 30 blocks, and those of them with a burst right after it; and how many
    /// runs with a guard of 29 went wrong.
    recoveries: u64,
    at_once: u64,
    failures: u64,
}

impl Count {
    fn add<S: Compared>(&mut self, before: &[u64], taken: &Result<S::Taken, u64>) {
        self.steps[S::SIDE][*taken.as_ref().err().unwrap_or(&0) as usize] += 1;
        if let Ok(taken) = taken {
            S::count(self, before, taken);
        }
    }

    /// Steps and starts.
    pub fn calls(&self) -> u64 {
        self.steps.iter().flatten().chain(self.starts.iter().flatten()).sum()
    }
}

impl fmt::Display for Count {
    fn fmt(&self, f: &mut fmt::Formatter) -> fmt::Result {
        for (name, steps, starts) in
            [("coder", self.steps[0], self.starts[0]), ("decoder", self.steps[1], self.starts[1])]
        {
            let steps = ANSWERS.map(|answer| steps[answer]);
            write!(f, "stations: {name} steps (taken, refusals 13 to 15): {steps:?}; ")?;
            writeln!(f, "starts (done, refused): {starts:?}")?;
        }
        let Count { flips, fills, tight, recoveries, at_once, failures, .. } = self;
        write!(f, "stations: flips of symbol 1, of it with the eleventh term 1, of symbol 0: {flips:?}; ")?;
        writeln!(f, "steps by fill: {fills:?}")?;
        write!(f, "stations: bursts of 9 and of 10 bits, by place in a block: {tight:?}; ")?;
        write!(f, "{recoveries} recoveries, {at_once} with a burst at once; {failures} failures")
    }
}

pub fn everything_reached(tally: &mut Tally) {
    let Count { steps, starts, flips, fills, .. } = tally.iwadare;
    for answer in ANSWERS {
        let reached = steps.iter().all(|steps| steps[answer] > 0);
        tally.check(reached, || format!("answer {answer} of a step was not reached by coder and decoder"));
    }
    let started = starts.iter().flatten().all(|&count| count > 0);
    tally.check(started, || format!("starts done and refused: {starts:?}"));
    let met = flips.iter().chain(&fills).all(|&count| count >= LEAST_MET);
    tally.check(met, || format!("only {flips:?} flips, or {fills:?} steps by fill"));
    let calls = tally.iwadare.calls();
    tally.check(calls >= LEAST_CALLS, || format!("only {calls} calls of stations compared"));
}

// ---- Compared calls ----

/// What of a coder or a decoder is compared.
trait Compared: Station {
    const NAME: &'static str;
    /// 0 or 1, where it is counted.
    const SIDE: usize;
    type Answer: Copy + Debug + PartialEq;

    fn answer(taken: &Result<Self::Taken, u64>) -> Self::Answer;
    fn linked_start(words: &mut [u64]) -> u64;
    fn linked_step(words: &mut [u64], block: u16) -> Self::Answer;
    fn count(count: &mut Count, before: &[u64], taken: &Self::Taken);
}

impl Compared for Coder {
    const NAME: &'static str = "coder";
    const SIDE: usize = 0;
    type Answer = Coded;

    fn answer(taken: &Result<u64, u64>) -> Coded {
        match *taken {
            Ok(block) => Coded { refused: 0, block },
            Err(refused) => Coded { refused, block: 0 },
        }
    }

    fn linked_start(words: &mut [u64]) -> u64 {
        linked::iwadare_start_coder(words)
    }

    fn linked_step(words: &mut [u64], info: u16) -> Coded {
        linked::iwadare_code(words, info)
    }

    fn count(_: &mut Count, _: &[u64], _: &u64) {}
}

impl Compared for Decoder {
    const NAME: &'static str = "decoder";
    const SIDE: usize = 1;
    type Answer = IwadareDecoded;

    fn answer(taken: &Result<Received, u64>) -> IwadareDecoded {
        match *taken {
            Ok(Received { delivered, .. }) => delivered.map_or(NOTHING_YET, delivers),
            Err(refused) => IwadareDecoded { refused, ..NOTHING_YET },
        }
    }

    fn linked_start(words: &mut [u64]) -> u64 {
        linked::iwadare_start_decoder(words)
    }

    fn linked_step(words: &mut [u64], received: u16) -> IwadareDecoded {
        linked::iwadare_decode(words, received)
    }

    fn count(count: &mut Count, before: &[u64], received: &Received) {
        count.fills[before[0] as usize] += 1;
        match received.flip {
            Flip::None => (),
            Flip::One { eleventh } => count.flips[usize::from(eleventh)] += 1,
            Flip::Zero => count.flips[2] += 1,
        }
    }
}

/// A memory lent to both. The plain one's lists begin where the words were last set.
struct Lent<S> {
    twin: Twin,
    lists: Option<S>,
}

impl<S: Compared> Lent<S> {
    fn new(words: Vec<u64>) -> Lent<S> {
        Lent { twin: Twin::new(words), lists: None }
    }

    fn started() -> Lent<S> {
        Lent::new(vec![0; S::BOUNDS.len()])
    }

    fn any(draw: &mut Draw) -> Lent<S> {
        Lent::new(well_formed::<S>(draw))
    }

    fn set(&mut self, words: &[u64]) {
        self.twin.set(words);
        self.lists = None;
    }

    fn words(&mut self) -> &[u64] {
        self.twin.linked()
    }

    fn start(&mut self, tally: &mut Tally) {
        let expected = iwadare::start::<S>(self.twin.plain()).err().unwrap_or(0);
        let got = S::linked_start(self.twin.linked());
        self.lists = None;
        tally.calls += 1;
        tally.iwadare.starts[S::SIDE][usize::from(expected > 0)] += 1;
        let call = format!("start a station's {} with {} words", S::NAME, self.twin.lent.len());
        tally.check(got == expected, || format!("{call}: expected {expected}, got {got}"));
        self.twin.check(tally, || call);
    }

    fn plain_step(&mut self, block: u64) -> Result<S::Taken, u64> {
        if let Some(refused) = iwadare::refusal::<S>(self.twin.plain(), block) {
            return Err(refused);
        }
        let words = &mut self.twin.plain;
        let lists = self.lists.get_or_insert_with(|| S::of(words));
        let taken = lists.take(block);
        *words = lists.words();
        Ok(taken)
    }

    fn step(&mut self, tally: &mut Tally, block: u16) -> S::Answer {
        let before = self.twin.plain.clone();
        let taken = self.plain_step(u64::from(block));
        let expected = S::answer(&taken);
        let got = S::linked_step(self.twin.linked(), block);
        tally.calls += 1;
        tally.iwadare.add::<S>(&before, &taken);
        let call = || format!("{} step of a station, block {block}, on {before:?}", S::NAME);
        tally.check(got == expected, || format!("{}: expected {expected:?}, got {got:?}", call()));
        self.twin.check(tally, call);
        got
    }

    /// A step on fewer words.
    fn step_on(&mut self, tally: &mut Tally, words: std::ops::Range<usize>, block: u16) {
        self.twin.lend(words);
        self.step(tally, block);
        self.twin.lend_all();
    }

    /// A step with another word at one place, which is mended again.
    fn step_with(&mut self, tally: &mut Tally, at: usize, word: u64, block: u16) {
        let mended = self.twin.plain.clone();
        self.twin.plain[at] = word;
        self.twin.match_plain();
        self.step(tally, block);
        self.twin.set(&mended);
    }

    /// A step that is refused, on the run's own memory.
    fn refused_step(&mut self, tally: &mut Tally, draw: &mut Draw) {
        let count = S::BOUNDS.len() as u64;
        let block = draw.below(2 * S::BLOCKS) as u16;
        match draw.below(3) {
            0 => {
                let end = draw.below(count) as usize;
                self.step_on(tally, draw.below(end as u64 + 1) as usize..end, block);
            }
            1 => {
                let at = draw.below(count) as usize;
                self.step_with(tally, at, out_of_bounds(draw, S::BOUNDS[at]), block);
            }
            _ => _ = self.step(tally, draw.between(S::BLOCKS, 65_535) as u16),
        }
    }
}

// ---- A coder and a decoder ----

/// What was sent over a line, and what was delivered.
struct Line {
    coder: Lent<Coder>,
    decoder: Lent<Decoder>,
    infos: Vec<u16>,
    answers: Vec<IwadareDecoded>,
}

impl Line {
    fn of(coder: Lent<Coder>, decoder: Lent<Decoder>) -> Line {
        Line { coder, decoder, infos: Vec::new(), answers: Vec::new() }
    }

    fn started() -> Line {
        Line::of(Lent::started(), Lent::started())
    }

    /// Sends any block, which arrives with this error.
    fn send(&mut self, tally: &mut Tally, draw: &mut Draw, error: u16) {
        let info = draw.below(4) as u16;
        let sent = self.coder.step(tally, info);
        let answer = self.decoder.step(tally, sent.block as u16 ^ error);
        let place = self.infos.len();
        tally.check(sent.refused == 0 && answer.refused == 0, || {
            format!("refused at block {place} of a line")
        });
        self.infos.push(info);
        self.answers.push(answer);
    }

    fn send_right(&mut self, tally: &mut Tally, draw: &mut Draw, blocks: u64) {
        for _ in 0..blocks {
            self.send(tally, draw, 0);
        }
    }

    fn send_all(&mut self, tally: &mut Tally, draw: &mut Draw, errors: &[u16]) {
        for &error in errors {
            self.send(tally, draw, error);
        }
    }

    /// The first block of which, counted from this one, the answer is not as is due on a started line.
    fn first_wrong(&self, from: usize) -> Option<usize> {
        (from..self.answers.len()).find(|&at| {
            let sent = at.checked_sub(DELAY).map(|at| delivers(u64::from(self.infos[at])));
            self.answers[at] != sent.unwrap_or(NOTHING_YET)
        })
    }

    /// Whether the decoder's memory is that of one that took all blocks right.
    fn agrees(&mut self) -> bool {
        let taken = self.infos.len();
        let back = |k: usize| taken.checked_sub(k).map_or(0, |at| u64::from(self.infos[at]));
        let mut words = vec![taken.min(DELAY) as u64, self.coder.twin.plain[0], 0];
        words.extend((1..=DELAY).rev().map(back));
        self.decoder.words() == words
    }
}

// ---- Listed steps ----

/// Holds both answers to the case, and every word of both memories.
pub fn check_case(tally: &mut Tally, StationCase { memory, step, after }: &StationCase) {
    let mut twin = Twin::new(memory.clone());
    match *step {
        StationStep::Code(info, due) => {
            let plain = Coder::answer(&iwadare::step::<Coder>(twin.plain(), u64::from(info)));
            check_answers(tally, due, plain, linked::iwadare_code(twin.linked(), info));
        }
        StationStep::Decode(received, due) => {
            let plain = Decoder::answer(&iwadare::step::<Decoder>(twin.plain(), u64::from(received)));
            check_answers(tally, due, plain, linked::iwadare_decode(twin.linked(), received));
        }
    }
    tally.check(twin.plain == *after, || format!("plain memory: {:?}", twin.plain));
    twin.check(tally, || String::from("linked memory"));
}

// ---- Groups: starting, refusals ----

/// Lengths near those of the memories, and far from them.
fn lengths() -> impl Iterator<Item = usize> {
    (0..=45).chain([63, 64, 65, 1 << 8, 1 << 16])
}

fn any_words(draw: &mut Draw, count: usize) -> Vec<u64> {
    (0..count).map(|_| draw.number()).collect()
}

fn start_each<S: Compared>(tally: &mut Tally, draw: &mut Draw) {
    for count in lengths() {
        Lent::<S>::new(any_words(draw, count)).start(tally);
        Lent::<S>::new(vec![u64::MAX; count]).start(tally);
    }
    for _ in 0..2_000 {
        let mut lent = Lent::<S>::new(any_words(draw, S::BOUNDS.len()));
        lent.start(tally);
        let all_zero = lent.words().iter().all(|&word| word == 0);
        tally.check(all_zero, || format!("a started {} has a word that is not 0", S::NAME));
        lent.step(tally, draw.below(S::BLOCKS) as u16);
    }
}

/// Every length, on words of any value; and a step after it.
pub fn starting(tally: &mut Tally, draw: &mut Draw) {
    start_each::<Coder>(tally, draw);
    start_each::<Decoder>(tally, draw);
}

/// Compares a step of which it is known why it is refused.
fn expect_refusal<S: Compared>(tally: &mut Tally, words: Vec<u64>, block: u16, due: u64) {
    let (count, answer) = (words.len(), Lent::<S>::new(words).step(tally, block));
    let refused = S::answer(&Err(due));
    tally.check(answer == refused, || {
        format!("{} step, {count} words, block {block}: {refused:?} is due, got {answer:?}", S::NAME)
    });
}

/// Words just out of their bounds and far out, one at a time, and just within.
fn each_word<S: Compared>(tally: &mut Tally, draw: &mut Draw) {
    for (at, &bound) in S::BOUNDS.iter().enumerate() {
        let out = [bound, bound + 1, 2 * bound, 1 << 32, 1 << 63, (1 << 32) + bound - 1, u64::MAX];
        for block in 0..2 * S::BLOCKS as u16 {
            for word in out {
                for mut words in [vec![0; S::BOUNDS.len()], well_formed::<S>(draw)] {
                    words[at] = word;
                    expect_refusal::<S>(tally, words, block, 14);
                }
            }
            let mut words = well_formed::<S>(draw);
            words[at] = bound - 1;
            Lent::<S>::new(words).step(tally, block);
        }
    }
}

/// Every number of 16 bits, those that are fit too.
fn each_block<S: Compared>(tally: &mut Tally, draw: &mut Draw) {
    let mut lent = Lent::<S>::any(draw);
    for block in 0..=u16::MAX {
        let words = lent.twin.plain.clone();
        if u64::from(block) >= S::BLOCKS {
            expect_refusal::<S>(tally, words, block, 15);
        }
        lent.step(tally, block);
    }
}

/// Each wrong length with words and blocks that are fit or not: 13 comes first.
fn each_length<S: Compared>(tally: &mut Tally, draw: &mut Draw) {
    for count in lengths().filter(|&count| count != S::BOUNDS.len()) {
        for block in [0, S::BLOCKS - 1, S::BLOCKS, 65_535] {
            for words in [vec![0; count], vec![u64::MAX; count], any_words(draw, count)] {
                expect_refusal::<S>(tally, words, block as u16, 13);
            }
        }
    }
}

fn refusals_of<S: Compared>(tally: &mut Tally, draw: &mut Draw) {
    each_length::<S>(tally, draw);
    each_word::<S>(tally, draw);
    each_block::<S>(tally, draw);
    for _ in 0..20_000 {
        Lent::<S>::any(draw).refused_step(tally, draw);
    }
}

pub fn refusals(tally: &mut Tally, draw: &mut Draw) {
    refusals_of::<Coder>(tally, draw);
    refusals_of::<Decoder>(tally, draw);
}

// ---- Groups: steps from every memory of the coder, and from drawn ones ----

/// Every pending word with every block.
pub fn every_pending_word(tally: &mut Tally, _: &mut Draw) {
    let mut coder = Lent::<Coder>::started();
    for (pending, info) in (0..1 << 18).flat_map(|pending| (0..4).map(move |info| (pending, info))) {
        coder.set(&[pending]);
        coder.step(tally, info);
    }
}

fn steps_of<S: Compared>(tally: &mut Tally, draw: &mut Draw, runs: u64, length: u64) {
    for _ in 0..runs {
        let mut lent = Lent::<S>::any(draw);
        for _ in 0..length {
            if draw.once_in(8) {
                lent.refused_step(tally, draw);
            }
            let block = draw.below(S::BLOCKS) as u16;
            lent.step(tally, block);
        }
    }
}

pub fn steps(tally: &mut Tally, draw: &mut Draw) {
    steps_of::<Coder>(tally, draw, 4_000, 100);
    steps_of::<Decoder>(tally, draw, 60_000, 10);
    steps_of::<Decoder>(tally, draw, 6_000, 100);
}

/// Every terms word with every block, on any other words: each flip with the term that completes it.
pub fn every_terms_word(tally: &mut Tally, draw: &mut Draw) {
    let mut decoder = Lent::<Decoder>::started();
    for (terms, block) in (0..1 << 12).flat_map(|terms| (0..8).map(move |block| (terms, block))) {
        let mut words = well_formed::<Decoder>(draw);
        words[2] = terms;
        decoder.set(&words);
        decoder.step(tally, block);
        decoder.step(tally, draw.below(8) as u16);
    }
}

// ---- Groups: against the definitions themselves ----

/// The exclusive or of symbol 0 of the blocks 7 and 18 back, and symbol 1 of those 3 and 15 back.
fn parity_of(infos: &[u16], time: usize) -> u64 {
    let back = |k: usize| time.checked_sub(k).map_or(0, |time| u64::from(infos[time]));
    (back(7) ^ back(18) ^ back(3) >> 1 ^ back(15) >> 1) & 1
}

/// Parities of a started coder, and raw terms of a started decoder, which are seen on a copy of its memory with no term
/// before the newest.
pub fn by_definition(tally: &mut Tally, draw: &mut Draw) {
    let mut raw_ones = 0;
    for round in 0..60 {
        let (mut coder, mut decoder) = (Lent::<Coder>::started(), Lent::<Decoder>::started());
        let (mut infos, mut taken) = (Vec::new(), Vec::new());
        for time in 0..300 {
            let info = draw.below(4) as u16;
            infos.push(info);
            let due = u64::from(info) | parity_of(&infos, time) << 2;
            let block = coder.step(tally, info).block;
            tally.check(block == due, || format!("block {time}: {due} is due, got {block}"));

            let wrong = [false, draw.once_in(40), draw.once_in(2)][round % 3];
            let received = if wrong { draw.below(8) as u16 } else { block as u16 };
            taken.push(received & 3);
            let raw = parity_of(&taken, time) ^ u64::from(received >> 2);
            let mut words = decoder.words().to_vec();
            words[2] = 0;
            let mut alone = Lent::<Decoder>::new(words);
            alone.step(tally, received);
            let seen = alone.words()[2];
            tally.check(seen == raw << 11, || format!("raw term {time}: {raw} is due, seen in {seen}"));
            raw_ones += raw;
            decoder.step(tally, received);
        }
    }
    tally.check(raw_ones > 1_000, || format!("only {raw_ones} raw terms are 1"));
}

// ---- Groups: bursts ----

/// Bits of a block, bits that a burst may have, right bits between bursts.
const PLACES: u64 = 3;
const WITHIN: u64 = 10;
const BETWEEN: u64 = 56;

/// After so many blocks from the first wrong one on nothing is left of a burst: 66 bits.
const SPENT: usize = 22;

/// Each burst of so many bits or fewer, as error blocks, with the bits.
fn each_burst(bits: u64, mut call: impl FnMut(&[u16], u64)) {
    for (place, pattern) in (0..PLACES).flat_map(|place| (1..1 << bits).map(move |pattern| (place, pattern)))
    {
        call(&error_blocks(pattern << place), pattern);
    }
}

/// All bursts, one after another on a line, and each on a line of its own: at once, or after some blocks.
pub fn every_burst(tally: &mut Tally, draw: &mut Draw) {
    let mut bursts = 0;
    let mut long = Line::started();
    each_burst(WITHIN, |errors, _| {
        bursts += 1;
        let mut own = Line::started();
        let before = draw.below(30);
        own.send_right(tally, draw, before);
        for line in [&mut own, &mut long] {
            line.send_all(tally, draw, errors);
            line.send_right(tally, draw, (SPENT - errors.len()) as u64);
            let agrees = line.agrees();
            tally.check(agrees, || format!("burst {errors:?} is not spent: {:?}", line.decoder.words()));
        }
        let wrong = own.first_wrong(0);
        tally.check(wrong.is_none(), || format!("burst {errors:?} after {before}: block {wrong:?} is wrong"));
    });
    let wrong = long.first_wrong(0);
    tally.check(wrong.is_none(), || format!("block {wrong:?} of all bursts in a row is wrong"));
    tally.check(bursts == 3 * 1_023, || format!("{bursts} bursts"));
}

/// Bursts of exactly so many bits and fewer, exactly so many right bits between and more, from the first bits on, with
/// steps that are refused anywhere. Every delivery is right.
pub fn runs_at_the_bounds(tally: &mut Tally, draw: &mut Draw) {
    for round in 0..600 {
        let shorter = round / PLACES % 2;
        let mut bursts = BitBursts::new(round % PLACES, WITHIN - shorter, BETWEEN);
        let mut line = Line::started();
        line.coder.start(tally);
        line.decoder.start(tally);
        for _ in 0..1_000 {
            if draw.once_in(30) {
                line.coder.refused_step(tally, draw);
            }
            if draw.once_in(30) {
                line.decoder.refused_step(tally, draw);
            }
            let error = bursts.next_error(draw);
            line.send(tally, draw, error);
        }
        let wrong = line.first_wrong(0);
        tally.check(wrong.is_none(), || format!("block {wrong:?} of run {round} is wrong"));
        for (count, met) in tally.iwadare.tight[1 - shorter as usize].iter_mut().zip(bursts.tight) {
            *count += met;
        }
    }
    let tight = tally.iwadare.tight;
    tally.check(tight.iter().flatten().all(|&count| count >= LEAST_MET), || {
        format!("bursts at the bounds: only {tight:?}")
    });
}

/// Whether a started line with these errors, some right blocks before them and more after, delivers something wrong.
fn goes_wrong(tally: &mut Tally, draw: &mut Draw, errors: &[u16]) -> bool {
    let mut line = Line::started();
    let before = draw.below(4);
    line.send_right(tally, draw, before);
    line.send_all(tally, draw, errors);
    line.send_right(tally, draw, 2 * DELAY as u64);
    line.first_wrong(0).is_some()
}

/// With 11 bits, or with 55 between, it does not hold. Of 11 bits every burst goes wrong that has the first and the
/// last of them wrong.
pub fn beyond_the_bounds(tally: &mut Tally, draw: &mut Draw) {
    let two = |first: u16, right: usize, second: u16| [vec![first], vec![0; right], vec![second]].concat();
    for (errors, due) in [
        (vec![4, 7, 7, 7], false), // 10 bits
        (vec![4, 7, 7, 7, 1], true),
        (two(1, 18, 1), false), // 56 right bits between
        (two(1, 17, 4), true),
    ] {
        let wrong = goes_wrong(tally, draw, &errors);
        tally.check(wrong == due, || format!("errors {errors:?} go wrong: {wrong}"));
    }
    let (mut bursts, mut wrong) = (0, 0);
    each_burst(WITHIN + 1, |errors, pattern| {
        let goes_wrong = goes_wrong(tally, draw, errors);
        let all_bits = pattern & 1 << WITHIN != 0 && pattern & 1 != 0;
        tally.check(goes_wrong == all_bits, || format!("burst {errors:?} goes wrong: {goes_wrong}"));
        bursts += 1;
        wrong += u64::from(goes_wrong);
    });
    let met = (bursts, wrong) == (6_141, 1_536);
    tally.check(met, || format!("{wrong} of {bursts} bursts of 11 bits go wrong"));
}

// ---- Groups: recovery ----

/// The right blocks after which any memory serves.
const GUARD: usize = 30;
/// The right blocks after which, while they are right, what is delivered is.
const GUARD_END: usize = 21;

/// The first wrong delivery after a guard of so many right blocks, from any memories; bursts begin after it and so many
/// right bits more.
fn recovery(tally: &mut Tally, draw: &mut Draw, guard: usize, more_bits: u64) -> Option<usize> {
    let mut line = Line::of(Lent::any(draw), Lent::any(draw));
    let mut bursts = BitBursts::new(guard as u64 * PLACES + more_bits, WITHIN, BETWEEN);
    for _ in 0..guard + 60 {
        if draw.once_in(60) {
            line.coder.refused_step(tally, draw);
            line.decoder.refused_step(tally, draw);
        }
        let error = bursts.next_error(draw);
        line.send(tally, draw, error);
    }
    line.first_wrong(guard)
}

/// After 30 blocks all is right, and after 29 not always.
pub fn recoveries(tally: &mut Tally, draw: &mut Draw) {
    for round in 0..8_000 {
        let more_bits = if round % 8 == 0 { draw.below(60) } else { round % PLACES };
        let wrong = recovery(tally, draw, GUARD, more_bits);
        tally.check(wrong.is_none(), || format!("block {wrong:?} is wrong, after a guard of {GUARD} blocks"));
        tally.iwadare.recoveries += 1;
        tally.iwadare.at_once += u64::from(more_bits == 0);
    }
    for round in 0..1_000 {
        let wrong = recovery(tally, draw, GUARD - 1, round % PLACES);
        tally.iwadare.failures += u64::from(wrong.is_some());
    }
    let Count { at_once, failures, .. } = tally.iwadare;
    tally.check(at_once >= 1_000 && failures >= 100, || {
        format!("only {at_once} runs with a burst at once, {failures} failures with a block less")
    });
}

/// While all blocks are right, from any memories: from the 22nd on what is delivered is right, and at the 21st not always.
pub fn end_of_the_guard(tally: &mut Tally, draw: &mut Draw) {
    let mut late = 0;
    for _ in 0..2_000 {
        let mut line = Line::of(Lent::any(draw), Lent::any(draw));
        line.send_right(tally, draw, 40);
        let wrong = line.first_wrong(GUARD_END);
        tally.check(wrong.is_none(), || format!("block {wrong:?} is wrong, all before it being right"));
        late += u64::from(line.first_wrong(GUARD_END - 1).is_some());
    }
    tally.check(late >= 100, || format!("only {late} wrong deliveries at the 21st right block"));
}

/// The first wrong delivery after a guard of so many right blocks and one with a wrong parity, from the guard on.
fn after_a_guard(tally: &mut Tally, draw: &mut Draw, mut line: Line, guard: usize) -> Option<usize> {
    let begun = line.infos.len();
    line.send_right(tally, draw, guard as u64);
    line.send(tally, draw, 4);
    line.send_right(tally, draw, 2 * DELAY as u64);
    line.first_wrong(begun + guard).map(|at| at - begun)
}

/// A one in bit 17 of a pending word is a term 18 blocks later, and 12 more later a wrong parity makes it a flip, of
/// symbol 1 of the guard's block 14. A started line with two wrong bits that are too close comes to it, too.
pub fn shorter_guard_fails(tally: &mut Tally, draw: &mut Draw) {
    for (guard, due) in [(GUARD - 1, Some(14 + DELAY)), (GUARD, None)] {
        let any = Line::of(Lent::started(), Lent::new(decoder_words(18, 1 << 17, 0, &[])));
        let mut damaged = Line::started();
        damaged.send_all(tally, draw, &[2, 0, 0, 0, 0, 0, 0, 0, 1]);
        for line in [any, damaged] {
            let wrong = after_a_guard(tally, draw, line, guard);
            tally.check(wrong == due, || format!("guard of {guard}: {due:?} is due, got {wrong:?}"));
        }
    }
}
