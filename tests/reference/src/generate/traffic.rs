//! Long lists of calls, for planners that go round their places thousands of
//! times.

use std::iter::repeat_with;

use super::blocks::{faulty_block, mould_steps, path, straight_steps, BLOCK_FAULTS};
use crate::line::PLACES;
use crate::machine::Block;
use crate::rng::Rng;
use crate::trace::Call;

/// How adds and takes follow one another in a stretch of calls.
#[derive(Clone, Copy)]
enum Traffic {
    /// Full, with a take before each add.
    Full,
    /// Filled past 64 blocks.
    Fills,
    /// Emptied past the last block.
    Empties,
    /// So many takes in a hundred calls.
    Chance(u64),
}

const TRAFFIC: [Traffic; 7] = [
    Traffic::Full,
    Traffic::Full,
    Traffic::Fills,
    Traffic::Empties,
    Traffic::Chance(45),
    Traffic::Chance(50),
    Traffic::Chance(55),
];

impl Traffic {
    /// Whether the next call is a take, with so many blocks held.
    fn takes(self, rng: &mut Rng, held: usize) -> bool {
        match self {
            // at times an add that is refused by 7
            Traffic::Full => held == PLACES && !rng.once_in(100),
            Traffic::Fills => false,
            Traffic::Empties => true,
            Traffic::Chance(takes_in_hundred) => rng.below(100) < takes_in_hundred,
        }
    }

    /// Whether the stretch is at its end: one that fills or empties has come past
    /// it, the others last 2,000 calls on average.
    fn is_over(self, rng: &mut Rng, held: usize) -> bool {
        match self {
            Traffic::Fills => held == PLACES && rng.once_in(3),
            Traffic::Empties => held == 0 && rng.once_in(3),
            Traffic::Full | Traffic::Chance(_) => rng.once_in(2_000),
        }
    }
}

/// A list of `count` calls with blocks as they come: stretches with 64 held,
/// filled and emptied ones, and stretches by chance. Of the adds one in fifty is
/// of a faulty block.
pub fn traffic(rng: &mut Rng, count: usize, mut blocks: impl Iterator<Item = Block>) -> Vec<Call> {
    let mut list = Vec::with_capacity(count);
    let (mut held, mut traffic) = (0, Traffic::Full);
    while list.len() < count {
        if traffic.is_over(rng, held) {
            traffic = rng.pick(&TRAFFIC);
        }
        list.push(if traffic.takes(rng, held) {
            held = held.saturating_sub(1);
            Call::Take
        } else if rng.once_in(50) {
            let faults = rng.pick(&BLOCK_FAULTS);
            Call::Add(faulty_block(rng, faults, false))
        } else {
            held = PLACES.min(held + 1);
            Call::Add(blocks.next().expect("a block for each add"))
        });
    }
    list
}

/// Blocks without end, in stretches: a row over a mould, straight steps, or paths
/// of every kind.
pub fn work(mut rng: Rng) -> impl Iterator<Item = Block> {
    let stretch = move || match rng.below(4) {
        0 => mould_steps(rng.word(), 4_000),
        1 => straight_steps(rng.word(), 2_000),
        _ => path(&mut rng, 1_000),
    };
    repeat_with(stretch).flatten()
}
