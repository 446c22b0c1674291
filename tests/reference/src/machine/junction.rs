//! Caps at the junction between two blocks.

use super::kinds::{Block, Limits};
use super::numbers::{block_cap, length_of, parts, speed_of};
use crate::search::largest;

/// Corner cap between two checked blocks, (µm/s)², or None.
///
/// P is the product of the lengths and S the sum over the axes of the
/// products of the moves. None if S ≥ P, else the largest q with
/// q × 2 × (P − S) ≤ J × J × P. It can be near 10^24.
pub fn corner_cap(limits: &Limits, before: &Block, after: &Block) -> Option<u128> {
    let p = length_of(before) as i128 * length_of(after) as i128;
    let s = dot(before, after) * parts(1).pow(2) as i128;
    if s >= p {
        return None;
    }
    let turn = 2 * (p - s) as u128;
    let bound = (limits.jump as u128).pow(2) * p as u128;
    Some(largest(|q| q * turn <= bound))
}

/// Junction cap, (µm/s)²: smallest of the two block caps and the corner cap.
pub fn junction_cap(limits: &Limits, before: &Block, after: &Block) -> u64 {
    let smaller = own_cap(limits, before).min(own_cap(limits, after));
    match corner_cap(limits, before, after) {
        Some(corner) => corner.min(smaller as u128) as u64,
        None => smaller,
    }
}

/// Block cap of a checked block, (µm/s)².
fn own_cap(limits: &Limits, block: &Block) -> u64 {
    let speed = speed_of(limits, block, length_of(block));
    block_cap(limits, block, speed)
}

/// Sum over the axes of the products of the moves, µm².
fn dot(before: &Block, after: &Block) -> i128 {
    (0..3)
        .map(|axis| before.moves[axis] as i128 * after.moves[axis] as i128)
        .sum()
}
