//! Paths at whose junctions the caps of feed, corner and chord are one number,
//! or next to it, so that it is seen which of them is asked first.

use super::limits::limits;
use crate::machine::{range, Block, Limits};
use crate::rng::Rng;
use crate::tape::Tape;

/// What makes caps equal, all in the units of the limits and the block: a corner
/// jump, a chord tolerance and a tick; a feed whose square the other caps are;
/// a radius whose chord cap is that square, or 0; and the directions of a block
/// and of the one after it, between which the corner cap is that square too.
struct Tie {
    jump: u64,
    chord: u64,
    tick: u64,
    feed: u64,
    radius: u64,
    ways: [[i64; 3]; 2],
}

/// Ticks, µs, that 2,000,000 is a multiple of.
const TICKS: [u64; 10] = [
    100, 200, 400, 500, 1_000, 2_000, 4_000, 5_000, 8_000, 10_000,
];
/// Corner jumps and feeds, µm/s, with J × J = 2 × feed × feed + 1: the corner cap
/// of a right angle, rounded down, is the feed's square.
const RIGHT_ANGLES: [(u64, u64); 8] = [
    (3, 2),
    (17, 12),
    (99, 70),
    (577, 408),
    (3_363, 2_378),
    (19_601, 13_860),
    (114_243, 80_782),
    (665_857, 470_832),
];
/// Sides of right-angled triangles.
const TRIANGLES: [[i64; 3]; 4] = [[3, 4, 5], [5, 12, 13], [8, 15, 17], [20, 21, 29]];

/// There and back: the corner cap is J × J / 4.
const REVERSAL: [[i64; 3]; 2] = [[1, 0, 0], [-1, 0, 0]];

/// A tie of any sort.
fn tie(rng: &mut Rng) -> Tie {
    match rng.below(5) {
        0 => on_a_wide_curve(rng),
        1 => at_a_right_angle(rng),
        2 => at_a_mirror(rng),
        _ => on_a_tight_curve(rng),
    }
}

/// A radius within the chord tolerance, there and back: the chord cap is the
/// square of 2 × R × 10^6 / T.
fn on_a_tight_curve(rng: &mut Rng) -> Tie {
    let tick = rng.pick(&TICKS);
    let radius = rng.spread(1, (tick / 4).min(1_000));
    let feed = 2 * radius * 1_000_000 / tick;
    Tie {
        jump: 2 * feed,
        chord: rng.spread(radius, *range::CHORD.end()),
        tick,
        feed,
        radius,
        ways: REVERSAL,
    }
}

/// A radius beyond the chord tolerance of 1 µm, there and back, for an odd m: on
/// a tick of 2,000 µs the chord cap is (2 × R − 1) × 10^6, which is m × m × 10^6.
fn on_a_wide_curve(rng: &mut Rng) -> Tie {
    let m = 2 * rng.within(0, 249) + 1;
    Tie {
        jump: 2_000 * m,
        chord: 1,
        tick: 2_000,
        feed: 1_000 * m,
        radius: m.pow(2).div_ceil(2),
        ways: REVERSAL,
    }
}

/// A right angle, without a curve.
fn at_a_right_angle(rng: &mut Rng) -> Tie {
    let (jump, feed) = rng.pick(&RIGHT_ANGLES);
    Tie {
        jump,
        chord: 1,
        tick: 2_000,
        feed,
        radius: 0,
        ways: [[1, 0, 0], [0, 0, -1]],
    }
}

/// A way a, b and its mirror a, −b, of length c: P − S is 2 × b × b, so the corner
/// cap is the square of c × J / (2 × b).
fn at_a_mirror(rng: &mut Rng) -> Tie {
    let [a, b, c] = rng.pick(&TRIANGLES);
    let times = rng.spread(1, 20_000);
    Tie {
        jump: 2 * b as u64 * times,
        chord: 1,
        tick: 2_000,
        feed: c as u64 * times,
        radius: 0,
        ways: [[a, b, 0], [a, -b, 0]],
    }
}

/// Limits and a path of `count` blocks about one tie. Most junctions have equal
/// caps; at some a feed, a radius, the way or the length is another.
pub fn tied_path(rng: &mut Rng, count: usize) -> (Limits, Vec<Block>) {
    let tie = tie(rng);
    let limits = tied_limits(rng, &tie);
    let block = |k: usize, rng: &mut Rng| tied_block(rng, &tie, &limits, k);
    let blocks = (0..count).map(|k| block(k, rng)).collect();
    (limits, blocks)
}

/// The limits of a tie. Once in eight times the corner jump is 1 away, and at
/// times an axis has the tie's speed.
fn tied_limits(rng: &mut Rng, tie: &Tie) -> Limits {
    let mut own = Limits {
        speed: [*range::SPEED.end(); 3],
        jump: tie.jump,
        chord: tie.chord,
        tick: tie.tick,
        ..limits(rng)
    };
    if rng.once_in(8) {
        own.jump = beside(rng, tie.jump).min(*range::JUMP.end());
    }
    if rng.once_in(6) {
        own.speed[rng.below(3) as usize] = tie.feed;
    }
    own
}

/// Block k of a path about a tie.
fn tied_block(rng: &mut Rng, tie: &Tie, limits: &Limits, k: usize) -> Block {
    let way = match rng.below(8) {
        0 => rng.pick(&tie.ways),
        1 => rng.pick(&[[0, 1, 0], [1, 1, 1]]),
        _ => tie.ways[k % 2],
    };
    let feed = match rng.below(6) {
        0 => beside(rng, tie.feed),
        1 | 2 => *range::FEED.end(),
        _ => tie.feed,
    };
    let radius = match rng.below(6) {
        0 => 0,
        1 if tie.radius > 0 => beside(rng, tie.radius),
        _ => tie.radius,
    };
    let times = times(rng, tie, limits);
    Block {
        moves: way.map(|m| m * times),
        feed: feed.min(*range::FEED.end()),
        radius,
        mark: k as u64,
    }
}

/// 1 more or 1 less, at least 1.
fn beside(rng: &mut Rng, number: u64) -> u64 {
    rng.pick(&[number + 1, (number - 1).max(1)])
}

/// How often a direction is gone along, so that moves stay in their range: up to
/// far, or so that a block along X can just reach the tie from rest, or just not.
fn times(rng: &mut Rng, tie: &Tie, limits: &Limits) -> i64 {
    let reaching = tie.feed.pow(2).div_ceil(2 * limits.accel[0]);
    let times = match rng.below(4) {
        0 => reaching,
        1 => beside(rng, reaching),
        _ => rng.spread(1, 30_000),
    };
    times.clamp(1, 30_000) as i64
}

/// Bytes of an accepted tape of such a path, of 0 to 40 blocks.
pub fn tied_tape(rng: &mut Rng) -> Vec<u8> {
    let count = rng.spread(0, 40) as usize;
    let (limits, blocks) = tied_path(rng, count);
    Tape { limits, blocks }.pack()
}
