//! The plain implementation of the Iwadare-Massey stations tested by itself: listed steps, runs worked out by hand, its
//! lists against its words, bursts, and recovery.

use crate::cases::Draw;
use crate::iwadare::*;
use crate::iwadare_cases::*;

#[test]
fn listed_steps() {
    for case in station_cases() {
        let mut words = case.memory.clone();
        match case.step {
            StationStep::Code(info, due) => {
                let answer = step::<Coder>(&mut words, u64::from(info));
                assert_eq!(
                    answer,
                    if due.refused == 0 { Ok(due.block) } else { Err(due.refused) },
                    "{case:?}"
                );
            }
            StationStep::Decode(received, due) => {
                let answer = step::<Decoder>(&mut words, u64::from(received)).map(|taken| taken.delivered);
                let delivered = (due.delivered == 1).then_some(due.info);
                assert_eq!(
                    answer,
                    if due.refused == 0 { Ok(delivered) } else { Err(due.refused) },
                    "{case:?}"
                );
            }
        }
        assert_eq!(words, case.after, "{case:?}");
    }
}

#[test]
fn starting_asks_for_1_word_and_for_21() {
    for count in 0..50 {
        let started = |refused| (refused, vec![if refused == Ok(()) { 0 } else { 7 }; count]);
        let mut words = vec![7; count];
        let refused = start::<Coder>(&mut words);
        assert_eq!((refused, words), started(if count == 1 { Ok(()) } else { Err(13) }));
        let mut words = vec![7; count];
        let refused = start::<Decoder>(&mut words);
        assert_eq!((refused, words), started(if count == 21 { Ok(()) } else { Err(13) }));
    }
}

/// What a started coder sends of one block and zeros after it.
fn sent(info: u64) -> Vec<u64> {
    let mut coder = Coder::of(&[0]);
    (0..25).map(|time| coder.take(if time == 0 { info } else { 0 })).collect()
}

/// The block at time 0, and a parity alone at each of these times.
fn block_and_parities(block: u64, times: &[usize]) -> Vec<u64> {
    let parity = |time| if times.contains(&time) { 4 } else { 0 };
    (0..25).map(|time| if time == 0 { block } else { parity(time) }).collect()
}

#[test]
fn each_symbol_has_its_two_parities() {
    assert_eq!(sent(1), block_and_parities(1, &[7, 18]));
    assert_eq!(sent(2), block_and_parities(2, &[3, 15]));
    assert_eq!(sent(3), block_and_parities(3, &[3, 7, 15, 18]));
}

/// The terms word and the flip of each step, of zeros that arrive with these errors; all is delivered right.
fn terms_and_flips(errors: &[u64]) -> Vec<(u64, Flip)> {
    let mut decoder = Decoder::of(&[0; 21]);
    let mut steps = Vec::new();
    for time in 0..40 {
        let received = decoder.take(errors.get(time).copied().unwrap_or(0));
        assert_eq!(received.delivered, (time >= 18).then_some(0), "time {time}");
        steps.push((decoder.words()[2], received.flip));
    }
    assert_eq!(decoder.words(), decoder_words(18, 0, 0, &[]));
    steps
}

/// Terms that are 1 from one time until before another, in the terms word as it moves down, and flips by their times.
fn steps_of(ones: &[(usize, usize)], flips: &[(usize, Flip)]) -> Vec<(u64, Flip)> {
    let step = |time: usize| {
        let seen = ones.iter().filter(|(from, until)| (*from..*until).contains(&time));
        let terms = seen.map(|(from, _)| 2048 >> (time - from)).sum();
        let flip = flips.iter().find(|(at, _)| *at == time);
        (terms, flip.map_or(Flip::None, |&(_, flip)| flip))
    };
    (0..40).map(step).collect()
}

#[test]
fn wrong_symbols_of_one_block() {
    let one = Flip::One { eleventh: false };
    // the parity is seen once; 12 steps later it has left the word
    assert_eq!(terms_and_flips(&[4]), steps_of(&[(0, 12)], &[]));
    // symbol 1 is seen at 3, and with it again at 15 is flipped; symbol 0 at 7 and 18
    assert_eq!(terms_and_flips(&[2]), steps_of(&[(3, 15)], &[(15, one)]));
    assert_eq!(terms_and_flips(&[1]), steps_of(&[(7, 18)], &[(18, Flip::Zero)]));
    let all = steps_of(&[(0, 12), (3, 15), (7, 18)], &[(15, one), (18, Flip::Zero)]);
    assert_eq!(terms_and_flips(&[7]), all);
}

#[test]
fn wrong_symbols_of_two_blocks() {
    // at 15 the terms of 3 and 4 are 1: symbol 1 alone is flipped
    let flips = [(15, Flip::One { eleventh: true }), (16, Flip::One { eleventh: false })];
    assert_eq!(terms_and_flips(&[2, 2]), steps_of(&[(3, 15), (4, 16)], &flips));
    // at 19 the term of 7, which is 12 before, was set to 0 by the flip at 18
    let flips = [(18, Flip::Zero), (19, Flip::Zero)];
    assert_eq!(terms_and_flips(&[1, 1]), steps_of(&[(7, 18), (8, 19)], &flips));
}

#[test]
fn lists_are_as_words() {
    let mut draw = Draw::from_seed(21);
    for _ in 0..300 {
        let (mut coder_words, mut decoder_words) =
            (well_formed::<Coder>(&mut draw), well_formed::<Decoder>(&mut draw));
        let (mut coder, mut decoder) = (Coder::of(&coder_words), Decoder::of(&decoder_words));
        assert_eq!((coder.words(), decoder.words()), (coder_words.clone(), decoder_words.clone()));
        for _ in 0..100 {
            let (info, received) = (draw.below(4), draw.below(8));
            assert_eq!(step::<Coder>(&mut coder_words, info), Ok(coder.take(info)));
            assert_eq!(step::<Decoder>(&mut decoder_words, received), Ok(decoder.take(received)));
            assert_eq!((coder.words(), decoder.words()), (coder_words.clone(), decoder_words.clone()));
        }
    }
}

/// Whether all that is delivered from a step on is right, of a message that arrives with these errors.
fn is_right(draw: &mut Draw, stations: (Coder, Decoder), errors: &[u16], from: usize) -> bool {
    let (mut coder, mut decoder) = stations;
    let mut infos = Vec::new();
    errors.iter().enumerate().all(|(time, &error)| {
        let info = draw.below(4);
        infos.push(info);
        let delivered = decoder.take(coder.take(info) ^ u64::from(error)).delivered;
        time < from || delivered == time.checked_sub(DELAY).map(|time| infos[time])
    })
}

/// Of a started line, with right blocks after the errors.
fn is_right_from_the_start(draw: &mut Draw, errors: &[u16]) -> bool {
    let errors = [errors, &[0; 2 * DELAY]].concat();
    is_right(draw, (Coder::of(&[0]), Decoder::of(&[0; 21])), &errors, 0)
}

#[test]
fn bursts_of_10_bits_are_corrected_and_of_11_are_not() {
    let mut draw = Draw::from_seed(22);
    for (place, pattern) in (0..3).flat_map(|place| (1u64..1 << 11).map(move |pattern| (place, pattern))) {
        let right = is_right_from_the_start(&mut draw, &error_blocks(pattern << place));
        let both_ends = pattern & 1 << 10 != 0 && pattern & 1 != 0;
        assert_eq!(right, !both_ends, "pattern {pattern:b} at place {place}");
    }
}

#[test]
fn bursts_56_bits_apart_are_corrected_and_55_are_not() {
    let mut draw = Draw::from_seed(23);
    let apart = |blocks| [vec![1], vec![0; blocks], vec![4]].concat();
    assert!(!is_right_from_the_start(&mut draw, &apart(17))); // the second parity of symbol 0 is wrong
    assert!(is_right_from_the_start(&mut draw, &apart(18)));
    for round in 0..600 {
        let mut bursts = BitBursts::new(round % 3, 10, 56);
        let errors: Vec<u16> = (0..300).map(|_| bursts.next_error(&mut draw)).collect();
        assert!(is_right_from_the_start(&mut draw, &errors), "{errors:?}");
    }
}

/// A run from any memories, right for so many blocks, with bursts after them.
fn recovers(draw: &mut Draw, guard: usize, more_bits: u64) -> bool {
    let coder = Coder::of(&well_formed::<Coder>(draw));
    let decoder = Decoder::of(&well_formed::<Decoder>(draw));
    let mut bursts = BitBursts::new(3 * guard as u64 + more_bits, 10, 56);
    let errors: Vec<u16> = (0..guard + 80).map(|_| bursts.next_error(draw)).collect();
    is_right(draw, (coder, decoder), &errors, guard)
}

#[test]
fn any_memory_serves_after_30_blocks_and_not_after_29() {
    let mut draw = Draw::from_seed(24);
    for more_bits in [0, 1, 2] {
        let right = (0..2_000).filter(|_| recovers(&mut draw, 30, more_bits)).count();
        assert_eq!(right, 2_000);
        let wrong = (0..500).filter(|_| !recovers(&mut draw, 29, more_bits)).count();
        assert!(wrong > 20, "{wrong}");
    }
}
