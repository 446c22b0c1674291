//! Tapes for the functions that fill a list with what is made of a tape, and what
//! such a function leaves.

use reference::examples::{example, NAMES};
use reference::generate::*;
use reference::refusal::Fault;
use reference::rng::Rng;
use reference::tape::{Tape, MOST_BLOCKS, MOST_BYTES};

use crate::first_seed;

/// The answer and what a list of `n` 77s holds after it.
pub fn filled(
    fill: impl Fn(&[u8], &[u8], &mut [u64]) -> Result<(), Fault>,
    (tape, steps): (&[u8], &[u8]),
    n: usize,
) -> (Result<(), Fault>, Vec<u64>) {
    let mut list = vec![77; n];
    (fill(tape, steps, &mut list), list)
}

/// An accepted tape of one of the kinds that there are, with steps that pass.
pub fn some_tape(seed: u64) -> (Vec<u8>, Vec<u8>) {
    let mut rng = Rng::new(seed);
    let steps = steps(&mut rng);
    let count = rng.spread(0, 120) as usize;
    let (limits, blocks) = match seed % 6 {
        0 => tight_path(&mut rng, count),
        1 => path_at_edges(&mut rng, count),
        2 => return (tied_tape(&mut rng), steps),
        _ => return (tape(&mut rng), steps),
    };
    (Tape { limits, blocks }.pack(), steps)
}

/// Bytes of accepted blocks past the longest tape, and lengths to cut them at:
/// byte by byte, and around the longest.
pub fn cut_tapes() -> (Vec<u8>, Vec<usize>) {
    let blocks = short_steps(first_seed(), MOST_BLOCKS + 2);
    let limits = machine_m();
    let lengths = (0..140).chain(MOST_BYTES - 18..=MOST_BYTES + 18).collect();
    (Tape { limits, blocks }.pack(), lengths)
}

/// All example tapes, and tapes of 2,047 and 2,048 blocks.
pub fn examples_and_longest() -> Vec<Tape> {
    let mut tapes: Vec<Tape> = NAMES.iter().filter_map(|name| example(name)).collect();
    assert_eq!(tapes.len(), NAMES.len());
    let (first, limits) = (first_seed(), machine_m());
    let mut rng = Rng::new(first);
    for blocks in [
        short_steps(first, MOST_BLOCKS),
        straight_steps(first, MOST_BLOCKS),
    ] {
        tapes.push(Tape { limits, blocks });
    }
    for (limits, blocks) in [
        tied_path(&mut rng, MOST_BLOCKS),
        tight_path(&mut rng, MOST_BLOCKS),
        tied_path(&mut rng, MOST_BLOCKS - 1),
        path_at_edges(&mut rng, MOST_BLOCKS - 1),
    ] {
        tapes.push(Tape { limits, blocks });
    }
    tapes
}
