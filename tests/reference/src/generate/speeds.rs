//! Limits and blocks of a given block speed: at the edges of the torque steps
//! and at the ends of the range, where a step too early or too late is seen.

use super::limits::limits;
use crate::machine::{length_of, range, speed_of, Block, Limits};
use crate::rng::Rng;

/// Speeds of one torque step, µm/s.
const STEP: u64 = 125_000;
/// Torque steps.
const STEPS: u64 = 8;
/// Moves tried until one has the speed.
const TRIES: usize = 200;

/// What makes the block speed.
#[derive(Clone, Copy, Debug, PartialEq, Eq, PartialOrd, Ord)]
pub enum Cause {
    /// The feed: every axis allows more.
    Feed,
    /// The speed limit of an axis: the feed is higher.
    Axis,
}

pub const CAUSES: [Cause; 2] = [Cause::Feed, Cause::Axis];

/// Where a block moves.
#[derive(Clone, Copy, Debug, PartialEq, Eq, PartialOrd, Ord)]
pub enum Way {
    /// Along one axis.
    Straight,
    /// On two or three axes.
    Oblique,
}

pub const WAYS: [Way; 2] = [Way::Straight, Way::Oblique];

/// The last speed of each torque step and the first of the next, with their
/// neighbours, and the ends of the range, in µm/s.
pub fn edge_speeds() -> Vec<u64> {
    let last = (1..=STEPS).map(|step| STEP * step);
    let beside = last.flat_map(|last| last - 1..=last + 2);
    let all = [1, 2].into_iter().chain(beside);
    all.filter(|speed| range::FEED.contains(speed)).collect()
}

/// Limits, and a block whose block speed on them is exactly `speed`. A block
/// that an axis makes so fast has a higher feed where there is one.
pub fn block_of_speed(rng: &mut Rng, speed: u64, way: Way, cause: Cause) -> (Limits, Block) {
    for _ in 0..TRIES {
        let moves = moves(rng, way);
        let feed = match cause {
            Cause::Feed => speed,
            Cause::Axis => rng.within((speed + 1).min(*range::FEED.end()), *range::FEED.end()),
        };
        let mut limits = limits(rng);
        limits.speed = [*range::SPEED.end(); 3];
        let block = dressed(rng, moves, feed);
        if cause == Cause::Axis {
            let axis = (0..3).max_by_key(|axis| moves[*axis].abs()).unwrap_or(0);
            limits.speed[axis] = least_limit(speed, moves[axis], length_of(&block));
        }
        if speed_of(&limits, &block, length_of(&block)) == speed {
            return (limits, block);
        }
    }
    panic!("no block of {speed} µm/s, {way:?}, by {cause:?}");
}

/// The least speed limit of an axis that allows the speed: limit × L is at least
/// speed × |move|.
fn least_limit(speed: u64, signed: i64, length: u64) -> u64 {
    (speed * signed.unsigned_abs()).div_ceil(length)
}

/// Moves of up to 2 mm, so short that the speed is not the only thing that
/// bounds a plan.
fn moves(rng: &mut Rng, way: Way) -> [i64; 3] {
    let mut signed = || rng.within(1, 2_000) as i64 * rng.pick(&[-1, 1]);
    let mut moves = [signed(), signed(), signed()];
    let axis = rng.below(3) as usize;
    match way {
        Way::Straight => moves = [0, 1, 2].map(|k| if k == axis { moves[k] } else { 0 }),
        Way::Oblique if rng.once_in(2) => moves[axis] = 0,
        Way::Oblique => {}
    }
    moves
}

/// The moves with a feed, without a radius, and with a mark.
fn dressed(rng: &mut Rng, moves: [i64; 3], feed: u64) -> Block {
    Block {
        moves,
        feed,
        radius: 0,
        mark: rng.spread(*range::MARK.start(), *range::MARK.end()),
    }
}

/// Limits of which one axis has an edge speed, and a path of `count` blocks
/// whose feeds are edge speeds. Some follow one another unchanged, so that the
/// plan has their reach.
pub fn path_at_edges(rng: &mut Rng, count: usize) -> (Limits, Vec<Block>) {
    let edges = edge_speeds();
    let mut limits = limits(rng);
    limits.speed = [(); 3].map(|_| *range::SPEED.end());
    limits.speed[rng.below(3) as usize] = rng.pick(&edges);
    let mut blocks = Vec::new();
    while blocks.len() < count {
        let way = rng.pick(&WAYS);
        let moves = moves(rng, way);
        let feed = rng.pick(&edges);
        let block = dressed(rng, moves, feed);
        blocks.extend(vec![block; rng.within(1, 3) as usize]);
    }
    blocks.truncate(count);
    (limits, blocks)
}
