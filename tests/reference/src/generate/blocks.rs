//! Blocks: single ones, paths of several kinds, and faulty ones.

use super::raster::Raster;
use crate::machine::{range, Block};
use crate::rng::Rng;

/// Kinds of path.
#[derive(Clone, Copy)]
enum Kind {
    Short,
    Long,
    RightAngles,
    Reversals,
    Straight,
    NearlyStraight,
    Curve,
    Ends,
    Tiny,
}

const KINDS: [Kind; 9] = [
    Kind::Short,
    Kind::Long,
    Kind::RightAngles,
    Kind::Reversals,
    Kind::Straight,
    Kind::NearlyStraight,
    Kind::Curve,
    Kind::Ends,
    Kind::Tiny,
];

/// A block of any kind that passes checks 2 to 6.
pub fn block(rng: &mut Rng) -> Block {
    path(rng, 1)[0]
}

/// A path of `count` blocks that pass checks 2 to 6: one kind throughout, or
/// a kind for each stretch.
pub fn path(rng: &mut Rng, count: usize) -> Vec<Block> {
    let mut kind = rng.pick(&KINDS);
    let mixed = rng.once_in(3);
    let feed = rng.spread(*range::FEED.start(), *range::FEED.end());
    let mut blocks: Vec<Block> = Vec::new();
    while blocks.len() < count {
        if mixed && rng.once_in(4) {
            kind = rng.pick(&KINDS);
        }
        let moves = moves(rng, kind, blocks.last().map(|b| b.moves));
        blocks.push(dressed(rng, kind, moves, feed));
    }
    blocks
}

/// Moves of the next block of a path, µm.
fn moves(rng: &mut Rng, kind: Kind, last: Option<[i64; 3]>) -> [i64; 3] {
    let last = last.unwrap_or_else(|| first_moves(rng));
    let found = match kind {
        Kind::Short | Kind::Curve => [(); 3].map(|_| rng.signed(50)),
        Kind::Long => [(); 3].map(|_| rng.signed(1_000_000)),
        Kind::RightAngles => turned(rng, last),
        Kind::Reversals => last.map(|m| -m),
        Kind::Straight => run_on(rng, last),
        Kind::NearlyStraight => last.map(|m| m + rng.signed(2)),
        Kind::Ends => [(); 3].map(|_| rng.pick(&[-1_000_000, -1, 0, 0, 1, 1_000_000])),
        Kind::Tiny => [(); 3].map(|_| rng.signed(2)),
    };
    let inside = found.map(|m| m.clamp(*range::MOVE.start(), *range::MOVE.end()));
    if inside == [0; 3] {
        [1, 0, 0]
    } else {
        inside
    }
}

/// Moves of any size that a path takes its first direction from, µm.
fn first_moves(rng: &mut Rng) -> [i64; 3] {
    let size = rng.spread(1, 1_000_000) as i64;
    let moves = [(); 3].map(|_| rng.signed(size));
    if moves == [0; 3] {
        [size, 0, 0]
    } else {
        moves
    }
}

/// A move of any size along one axis, other than the last move's longest.
fn turned(rng: &mut Rng, last: [i64; 3]) -> [i64; 3] {
    let longest = (0..3).max_by_key(|k| last[*k].abs()).unwrap_or(0);
    let axis = (longest + rng.within(1, 2) as usize) % 3;
    let mut moves = [0; 3];
    moves[axis] = rng.spread(1, 1_000_000) as i64 * rng.pick(&[-1, 1]);
    moves
}

/// The last direction with another length; a new direction at times.
fn run_on(rng: &mut Rng, last: [i64; 3]) -> [i64; 3] {
    if rng.once_in(12) {
        return [(); 3].map(|_| rng.signed(5));
    }
    let divisor = last.iter().fold(0, |d, m| divisor(d, m.abs()));
    let longest = last.iter().map(|m| m.abs()).max().unwrap_or(1);
    let most = (1_000_000 * divisor / longest).max(1);
    let times = rng.spread(1, most.min(2_000) as u64) as i64;
    last.map(|m| m / divisor * times)
}

/// Greatest common divisor.
fn divisor(a: i64, b: i64) -> i64 {
    if b == 0 {
        a
    } else {
        divisor(b, a % b)
    }
}

/// The moves with feed, radius and mark.
fn dressed(rng: &mut Rng, kind: Kind, moves: [i64; 3], feed: u64) -> Block {
    let own_feed = rng.spread(*range::FEED.start(), *range::FEED.end());
    let radius = rng.spread(1, *range::RADIUS.end());
    let curved = matches!(kind, Kind::Curve) || rng.once_in(8);
    let slow = rng.within(1, 5);
    Block {
        moves,
        feed: match kind {
            Kind::Tiny => slow,
            _ if rng.once_in(4) => own_feed,
            _ => feed,
        },
        radius: if curved { radius } else { 0 },
        mark: rng.spread(*range::MARK.start(), *range::MARK.end()),
    }
}

/// A block so slow and short that its squared speeds can all be tried.
pub fn tiny_block(rng: &mut Rng) -> Block {
    let moves = [(); 3].map(|_| rng.signed(1));
    Block {
        moves: if moves == [0; 3] { [1, 0, 0] } else { moves },
        feed: rng.within(1, 4),
        radius: rng.pick(&[0, 0, 1]),
        mark: 0,
    }
}

/// Sets of refusals that one block can meet at once.
pub const BLOCK_FAULTS: [&[u64]; 15] = [
    &[2],
    &[3],
    &[4],
    &[5],
    &[6],
    &[2, 4],
    &[2, 5],
    &[2, 6],
    &[3, 4],
    &[3, 5],
    &[3, 6],
    &[4, 5],
    &[4, 6],
    &[5, 6],
    &[3, 4, 5, 6],
];

/// A block that meets each refusal of the set. On the tape 6 cannot occur;
/// the other values fit their fields if `on_tape`, else 32 bits.
pub fn faulty_block(rng: &mut Rng, faults: &[u64], on_tape: bool) -> Block {
    let mut block = block(rng);
    for fault in faults {
        spoil(rng, &mut block, *fault, on_tape);
    }
    block
}

/// Makes the block meet one refusal.
fn spoil(rng: &mut Rng, block: &mut Block, fault: u64, on_tape: bool) {
    let axis = rng.below(3) as usize;
    match fault {
        2 => block.moves = [0; 3],
        3 if on_tape => {
            block.moves[axis] = rng.pick(&[1_000_001, -1_000_001, 1_048_575, -1_048_576])
        }
        3 => block.moves[axis] = rng.pick(&[1_000_001, -1_000_001, 2_147_483_647, -2_147_483_648]),
        4 if on_tape => block.feed = rng.pick(&[0, 1_000_001, 1_048_575]),
        4 => block.feed = rng.pick(&[0, 1_000_001, 4_294_967_295]),
        5 if on_tape => block.radius = rng.pick(&[10_000_001, 16_777_215]),
        5 => block.radius = rng.pick(&[10_000_001, 4_294_967_295]),
        _ => block.mark = rng.pick(&[2_097_152, 4_294_967_295]),
    }
}

/// Random steps of 1 to 50 µm on each axis with corners, feed 50,000 µm/s.
pub fn short_steps(seed: u64, count: usize) -> Vec<Block> {
    let mut rng = Rng::new(seed);
    let mut step = || rng.within(1, 50) as i64 * rng.pick(&[-1, 1]);
    (0..count)
        .map(|k| marked_block([step(), step(), step()], 50_000, k))
        .collect()
}

/// Rows over a mould in steps of 1 to 36 µm along X, feed 50,000 µm/s.
pub fn mould_steps(seed: u64, count: usize) -> Vec<Block> {
    let mut rng = Rng::new(seed);
    let moves = Raster::begin(|most| rng.below(most)).take(count);
    let marked = |(place, moves)| marked_block(moves, 50_000, place);
    moves.enumerate().map(marked).collect()
}

/// Steps of 1 to 5 µm straight on along X, feed 500,000 µm/s, so that every
/// add moves the whole plan.
pub fn straight_steps(seed: u64, count: usize) -> Vec<Block> {
    let mut rng = Rng::new(seed);
    (0..count)
        .map(|k| marked_block([rng.within(1, 5) as i64, 0, 0], 500_000, k))
        .collect()
}

/// A block marked with its place.
fn marked_block(moves: [i64; 3], feed: u64, place: usize) -> Block {
    Block {
        moves,
        feed,
        radius: 0,
        mark: place as u64 % (*range::MARK.end() + 1),
    }
}
