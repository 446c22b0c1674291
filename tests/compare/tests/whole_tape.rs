//! The plan of a whole tape.

use std::collections::BTreeSet;

use compare::words::some_steps;
use compare::{first_seed, hex, proved, report, same, seeds, Trying};
use reference::examples::{example, NAMES};
use reference::generate::*;
use reference::refusal::Fault;
use reference::rng::Rng;
use reference::tape::{self, read_tape, Tape, MOST_BLOCKS};

/// The answer and what the list holds after it, from a list of 77s.
type Planned = (Result<(), Fault>, Vec<u64>);

fn planned(
    plan: impl Fn(&[u8], &[u8], &mut [u64]) -> Result<(), Fault>,
    (tape, steps): (&[u8], &[u8]),
    n: usize,
) -> Planned {
    let mut list = vec![77; n];
    (plan(tape, steps, &mut list), list)
}

/// Compares both under the steps on a list of `n` numbers; gives the number on
/// the display.
fn compare_in(seed: u64, bytes: &[u8], steps: &[u8], n: usize) -> u64 {
    let expected = planned(tape::plan_tape, (bytes, steps), n);
    let number = expected
        .0
        .map_or_else(|fault| fault.refusal.number(), |()| 0);
    let input = || format!("{} under {} in {n} numbers", hex(bytes), hex(steps));
    let found = planned(proved::plan_tape, (bytes, steps), n);
    same(seed, input, found, expected);
    number
}

/// Compares both on a list of the right length and on a wrong one.
fn compare_both(seed: u64, rng: &mut Rng, bytes: &[u8], steps: &[u8]) -> [u64; 2] {
    let right = bytes.len().saturating_sub(24) / 16 + 1;
    let wrong = (right + rng.within(1, 9) as usize) % (right + 5);
    [right, wrong].map(|n| compare_in(seed, bytes, steps, n))
}

#[test]
fn accepted_tapes_have_the_same_plan() {
    let (mut met, mut count) = (BTreeSet::new(), 0);
    for seed in seeds(4_000) {
        let _trying = Trying::seed(seed);
        let mut rng = Rng::new(seed);
        let (bytes, steps) = (tape(&mut rng), steps(&mut rng));
        met.extend(compare_both(seed, &mut rng, &bytes, &steps));
        count += 2;
    }
    assert_eq!(met, BTreeSet::from([0, 11]));
    report(count, "accepted tapes");
}

/// Refusals with their places, one or two faults at once, steps at fault among
/// them, lists of right and wrong length.
#[test]
fn faulty_tapes_have_the_same_refusal_and_place() {
    let (mut met, mut count) = (BTreeSet::new(), 0);
    for seed in seeds(8_000) {
        let _trying = Trying::seed(seed);
        let mut rng = Rng::new(seed);
        let (bytes, steps) = (faulty_tape(&mut rng), some_steps(&mut rng));
        met.extend(compare_both(seed, &mut rng, &bytes, &steps));
        count += 2;
    }
    assert_eq!(met, BTreeSet::from([0, 1, 2, 3, 4, 5, 9, 10, 11, 14]));
    report(count, "faulty tapes");
}

/// Each length of an accepted tape, byte by byte, and around the longest.
#[test]
fn cut_and_lengthened_tapes_are_answered_alike() {
    let blocks = short_steps(first_seed(), MOST_BLOCKS + 2);
    let limits = machine_m();
    let bytes = Tape { limits, blocks }.pack();
    let most = 24 + 16 * MOST_BLOCKS;
    let lengths: Vec<usize> = (0..200).chain(most - 40..=most + 32).collect();
    let mut count = 0;
    for (length, seed) in lengths.iter().zip(seeds(lengths.len() as u64)) {
        let _trying = Trying::seed(seed);
        let steps = some_steps(&mut Rng::new(seed));
        let right = length.saturating_sub(24) / 16 + 1;
        for n in [right, right - 1, right + 1] {
            compare_in(seed, &bytes[..*length], &steps, n);
            count += 1;
        }
    }
    report(count, "cut tapes");
}

#[test]
fn examples_and_longest_tapes_have_the_same_plan() {
    let mut tapes: Vec<Tape> = NAMES.iter().filter_map(|name| example(name)).collect();
    let first = first_seed();
    for blocks in [
        short_steps(first, MOST_BLOCKS),
        straight_steps(first, MOST_BLOCKS),
    ] {
        let limits = machine_m();
        tapes.push(Tape { limits, blocks });
    }
    for (tape, seed) in tapes.iter().zip(seeds(tapes.len() as u64)) {
        let _trying = Trying::seed(seed);
        let bytes = tape.pack();
        assert_eq!(read_tape(&bytes).as_ref(), Ok(tape));
        for steps in [Vec::new(), loaded_steps(&mut Rng::new(seed))] {
            let number = compare_in(seed, &bytes, &steps, tape.blocks.len() + 1);
            assert_eq!(number, 0, "seed {seed}");
        }
    }
    report(2 * tapes.len(), "example and longest tapes");
}
