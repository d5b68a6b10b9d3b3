//! Steps of the Iwadare-Massey stations beside steps of our own codes with as many symbols, n = 3, and m = 1, both of
//! the archive, in the same run: nanoseconds a call of each, and how many times as long a station's takes, medians of
//! rounds. A ratio of at most 1 is asked for. What the stations answer is compared with what is due in every round.

use crate::archive::{burst_iwadare_code, burst_iwadare_decode};
use crate::{code, decode, fast, made, median, numbers, timed, Random, ROUNDS, STEPS};

const MOST: f64 = 1.0;
const SYMBOLS: usize = 3;
/// How many blocks after a block a station delivers it.
const DELAY: usize = 18;
/// A burst of 10 bits and 56 right ones.
const PERIOD: usize = 22;

fn station_code(words: &mut [u64], info: u16) -> u64 {
    let a = unsafe { burst_iwadare_code(words.as_mut_ptr(), words.len(), info) };
    if a.refused == 0 {
        a.block
    } else {
        a.refused << 33
    }
}

fn station_decode(words: &mut [u64], received: u16) -> u64 {
    let a = unsafe { burst_iwadare_decode(words.as_mut_ptr(), words.len(), received) };
    match (a.refused, a.delivered) {
        (0, 0) => fast::NOTHING_YET,
        (0, _) => a.info,
        (refused, _) => 1 << 63 | refused << 48,
    }
}

/// The sum that `timed` forms of these answers.
fn sum(answers: impl Iterator<Item = u64>) -> u64 {
    answers.fold(0, |sum: u64, answer| sum.wrapping_mul(31).wrapping_add(answer))
}

/// What a started station sends, by the definition of the parity.
fn sent_by_station(infos: &[u16]) -> Vec<u16> {
    let symbol = |p: usize, back: usize, which: u16| if p < back { 0 } else { infos[p - back] >> which & 1 };
    let parity = |p| symbol(p, 7, 0) ^ symbol(p, 18, 0) ^ symbol(p, 3, 1) ^ symbol(p, 15, 1);
    (0..infos.len()).map(|p| infos[p] | parity(p) << 2).collect()
}

/// A burst within 10 bits from symbol 1 of a block on, after each 56 right bits.
fn with_errors(sent: &[u16], errors: &[u16]) -> Vec<u16> {
    let error = |p: usize| u64::from(errors[p / PERIOD]) << 1 >> (SYMBOLS * (p % PERIOD)) & 7;
    sent.iter().enumerate().map(|(p, &block)| block ^ error(p) as u16).collect()
}

/// What is timed: our blocks and the station's, with the words of each and what the station's answers sum to.
struct Row<'a> {
    what: &'static str,
    ours: (&'a [u16], usize),
    theirs: (&'a [u16], usize),
    due: u64,
}

impl Row<'_> {
    /// Prints the row, and says whether a station's step takes no longer than is asked for.
    fn report(
        &self,
        our_step: impl Fn(&mut [u64], u16) -> u64,
        their_step: impl Fn(&mut [u64], u16) -> u64,
    ) -> bool {
        let mut times = vec![];
        for _ in 0..ROUNDS {
            let ours = timed(self.ours.0, self.ours.1, &our_step);
            let theirs = timed(self.theirs.0, self.theirs.1, &their_step);
            assert_eq!(theirs.1, self.due, "stations, {}: other answers than are due", self.what);
            times.push((ours.0, theirs.0));
        }
        let of = |figure: fn(&(f64, f64)) -> f64| median(times.iter().map(figure).collect());
        let (ours, theirs, ratio) = (of(|t| t.0), of(|t| t.1), of(|t| t.1 / t.0));
        println!("{:<30} {ours:>10.1} {theirs:>10.1} {ratio:>7.2} {MOST:>6.1}", self.what);
        ratio <= MOST
    }
}

/// Prints all rows, and says whether every one is as fast as is asked for.
pub fn report_all(random: &mut Random) -> bool {
    let t = made(SYMBOLS, 1);
    let table = numbers(&t);
    let infos: Vec<u16> = (0..STEPS).map(|_| random.below(SYMBOLS - 1)).collect();
    let errors: Vec<u16> = (0..=STEPS / PERIOD).map(|_| random.below(10)).collect();
    let mut words = [0; 2];
    let sent: Vec<u16> = infos.iter().map(|&info| fast::code(&t, &mut words, info) as u16).collect();
    let stations_sent = sent_by_station(&infos);
    let (wrong, stations_wrong) = (with_errors(&sent, &errors), with_errors(&stations_sent, &errors));

    let coded = sum(stations_sent.iter().map(|&block| block.into()));
    let nothing_yet = [fast::NOTHING_YET; DELAY].into_iter();
    let delivered = sum(nothing_yet.chain(infos[..STEPS - DELAY].iter().map(|&info| info.into())));
    let (coder, decoder) = (words.len(), 2 + 2 * SYMBOLS + 1);
    let steps = Row { what: "coder step", ours: (&infos, coder), theirs: (&infos, 1), due: coded };
    let right = Row {
        what: "decoder step, right",
        ours: (&sent, decoder),
        theirs: (&stations_sent, 3 + DELAY),
        due: delivered,
    };
    let bursts = Row {
        what: "decoder step, the same bursts",
        ours: (&wrong, decoder),
        theirs: (&stations_wrong, 3 + DELAY),
        ..right
    };
    println!(
        "\n{:<30} {:>10} {:>10} {:>7} {:>6}",
        "ns a call, n = 3, m = 1", "ours", "a station", "ratio", "most"
    );
    let within = [
        steps.report(|words, info| code(&table, words, info), station_code),
        right.report(|words, block| decode(&table, words, block), station_decode),
        bursts.report(|words, block| decode(&table, words, block), station_decode),
    ];
    within.iter().all(|&holds| holds)
}
