//! Limits and paths over tight curves: radii near the chord tolerance, at
//! speeds that the chord rule holds back.

use super::blocks::path;
use super::limits::limits;
use crate::machine::{range, Block, Limits};
use crate::rng::Rng;

/// A radius near a chord tolerance, both in µm: at it, one to either side of
/// it, down to 1, and up to twice it.
pub fn tight_radius(rng: &mut Rng, chord: u64) -> u64 {
    match rng.below(5) {
        0 => chord,
        1 => (chord - 1).max(1),
        2 => chord + 1,
        3 => rng.within(1, chord),
        _ => rng.within(chord, 2 * chord),
    }
}

/// Limits under which each axis reaches the greatest speed, and a path of
/// `count` blocks, three in four of them chords of tight curves. Half of these
/// have a feed in the upper half of its range.
pub fn tight_path(rng: &mut Rng, count: usize) -> (Limits, Vec<Block>) {
    let limits = Limits {
        speed: [*range::SPEED.end(); 3],
        chord: rng.spread(*range::CHORD.start(), *range::CHORD.end()),
        tick: rng.spread(*range::TICK.start(), *range::TICK.end()),
        ..limits(rng)
    };
    let mut blocks = path(rng, count);
    for block in &mut blocks {
        if !rng.once_in(4) {
            block.radius = tight_radius(rng, limits.chord);
            if rng.once_in(2) {
                block.feed = rng.within(*range::FEED.end() / 2, *range::FEED.end());
            }
        }
    }
    (limits, blocks)
}

/// Limits and a path of `count` blocks, one in four over tight curves.
pub fn limits_and_path(rng: &mut Rng, count: usize) -> (Limits, Vec<Block>) {
    if rng.once_in(4) {
        tight_path(rng, count)
    } else {
        (limits(rng), path(rng, count))
    }
}
