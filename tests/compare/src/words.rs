//! Limits, blocks and blocks given out as the lists of numbers that C lends, and
//! lists of torque steps.

use crate::library::{GIVEN, LIMITS, MOVES};
use reference::generate::{faulty_steps, steps};
use reference::machine::{Block, Given, Limits, Ramp};
use reference::refusal::Refusal;
use reference::rng::Rng;

/// Refusals with their numbers on the display.
const REFUSALS: [(u64, Refusal); 16] = [
    (1, Refusal::Limits),
    (2, Refusal::Still),
    (3, Refusal::Long),
    (4, Refusal::Feed),
    (5, Refusal::Radius),
    (6, Refusal::Mark),
    (7, Refusal::Full),
    (8, Refusal::Empty),
    (9, Refusal::Ragged),
    (10, Refusal::Many),
    (11, Refusal::List),
    (12, Refusal::Word),
    (13, Refusal::Number),
    (14, Refusal::Steps),
    (15, Refusal::NotFinite),
    (16, Refusal::Beyond),
];

/// What a number on the display says: 0 is accepted.
pub fn answer_of(number: u64) -> Result<(), Refusal> {
    if number == 0 {
        return Ok(());
    }
    let known = REFUSALS.iter().find(|(own, _)| *own == number);
    let (_, refusal) = known.unwrap_or_else(|| panic!("{number} is no number on the display"));
    Err(*refusal)
}

/// Accelerations X, Y, Z, speeds X, Y, Z, jump, chord tolerance, tick.
pub fn limit_words(limits: &Limits) -> [u64; LIMITS] {
    let [ax, ay, az] = limits.accel;
    let [sx, sy, sz] = limits.speed;
    [
        ax,
        ay,
        az,
        sx,
        sy,
        sz,
        limits.jump,
        limits.chord,
        limits.tick,
    ]
}

/// The limits of such words.
pub fn limits_of(words: &[u64]) -> Limits {
    Limits {
        accel: [words[0], words[1], words[2]],
        speed: [words[3], words[4], words[5]],
        jump: words[6],
        chord: words[7],
        tick: words[8],
    }
}

/// Limits of words of any size, mostly far outside their ranges.
pub fn any_limits(rng: &mut Rng) -> Limits {
    limits_of(&[(); LIMITS].map(|_| any_word(rng)))
}

/// Torque steps that pass, loaded in about a third, and once in eight times such
/// that do not.
pub fn some_steps(rng: &mut Rng) -> Vec<u8> {
    if rng.once_in(8) {
        faulty_steps(rng)
    } else {
        steps(rng)
    }
}

/// A block of words of any size.
pub fn any_block(rng: &mut Rng) -> Block {
    Block {
        moves: [(); MOVES].map(|_| any_word(rng) as i64),
        feed: any_word(rng),
        radius: any_word(rng),
        mark: any_word(rng),
    }
}

/// A word of any size: small, a power of 2 or its neighbour, or noise.
pub fn any_word(rng: &mut Rng) -> u64 {
    match rng.below(4) {
        0 => rng.below(3),
        1 => (1u64 << rng.below(64)).wrapping_sub(rng.below(2)),
        2 => (1u64 << rng.below(64)).wrapping_neg(),
        _ => rng.word() >> rng.below(64),
    }
}

/// Feed, radius, mark, length, acceleration, entry, exit, peak, up, cruise,
/// down of a block given out.
pub fn given_words(given: &Given) -> [u64; GIVEN] {
    let Given { block, ramp, .. } = given;
    [
        block.feed,
        block.radius,
        block.mark,
        given.length,
        given.accel,
        given.entry,
        given.exit,
        ramp.peak,
        ramp.up,
        ramp.cruise,
        ramp.down,
    ]
}

/// The block given out of its moves and such words.
pub fn given_of(moves: &[i64], words: &[u64]) -> Given {
    Given {
        block: Block {
            moves: [moves[0], moves[1], moves[2]],
            feed: words[0],
            radius: words[1],
            mark: words[2],
        },
        length: words[3],
        accel: words[4],
        entry: words[5],
        exit: words[6],
        ramp: Ramp {
            peak: words[7],
            up: words[8],
            cruise: words[9],
            down: words[10],
        },
    }
}
