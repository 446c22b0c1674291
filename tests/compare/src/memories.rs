//! Memories for a planner: left by calls, changed in some numbers, with stairs at
//! the ends of what a call compares, and noise.

use reference::generate::{calls, limits, steps};
use reference::line::LookAhead;
use reference::rng::Rng;
use reference::trace::Call;

use crate::library::NUMBERS;
use crate::proved::Planner;
use crate::ring::{ACCEL, CAP, COMMITTED, COUNT, FIRST, HEAD, LENGTH, PLACE, REACH, TORQUE};
use crate::ring::{FIRST_STAIR, GAP, STAIR, STAIRS_BEFORE, STAIRS_FROM, STAIR_CAP, TOTAL};
use crate::words::any_word;

/// Powers of 2 at which a number of the memory is cut or compared, and their
/// neighbours.
const POWERS: [u32; 13] = [20, 21, 22, 29, 30, 31, 32, 33, 50, 61, 62, 63, 64];

/// A memory of any kind.
pub fn any_memory(rng: &mut Rng) -> [u64; NUMBERS] {
    match rng.below(8) {
        0 => left_by_calls(rng),
        1 | 2 => changed(rng),
        3 => noise(rng, Rng::word),
        4 => noise(rng, any_word),
        5 => noise(rng, near_a_power),
        6 => noise(rng, |rng| rng.below(8)),
        _ => noise(rng, |rng| rng.below(1_000)),
    }
}

/// The memory of a planner, of loaded torque steps or none, after some calls.
pub fn left_by_calls(rng: &mut Rng) -> [u64; NUMBERS] {
    let (limits, steps) = (limits(rng), steps(rng));
    let mut planner = Planner::fresh(&limits, &steps).expect("limits and steps that pass");
    let count = rng.spread(0, 150) as usize;
    for call in calls(rng, count) {
        let _ = match call {
            Call::Add(block) => planner.add(&block),
            Call::Take => planner.take().map(drop),
        };
    }
    planner.memory().try_into().expect("848 numbers")
}

/// The memory of a planner with some of its numbers changed: in the head, the
/// torque, in the first place, in the head's numbers of stairs, in the stairs of
/// either end of the line, in any.
fn changed(rng: &mut Rng) -> [u64; NUMBERS] {
    let mut memory = left_by_calls(rng);
    let first = HEAD + PLACE * (memory[FIRST] as usize);
    let last = memory[STAIRS_BEFORE];
    for _ in 0..rng.within(1, 3) {
        let index = match rng.below(7) {
            0 => rng.below(HEAD as u64) as usize,
            1 => TORQUE,
            2 => first + rng.below(PLACE as u64) as usize,
            3 => rng.pick(&[FIRST_STAIR, STAIRS_BEFORE, TOTAL]),
            4 => stair(&memory, rng.below(2)) + rng.pick(&[GAP, STAIR_CAP]),
            5 => stair(&memory, last + 63 + rng.below(3)) + rng.pick(&[GAP, STAIR_CAP]),
            _ => rng.below(NUMBERS as u64) as usize,
        };
        memory[index] = word(rng);
    }
    if rng.once_in(3) {
        to_the_ends_of_a_ramp(rng, &mut memory);
    }
    memory
}

/// Where a memory has stair j, from 0.
fn stair(memory: &[u64; NUMBERS], j: u64) -> usize {
    let entry = (memory[FIRST_STAIR] % 64 + j % 64) % 64;
    STAIRS_FROM + STAIR * entry as usize
}

/// Puts the stairs that an add of a junction with a cap compares at the ends of
/// what it drops: each has a cap of what is seen from there, or beside that. Gaps
/// are of any size, so that their sum passes a word.
pub fn at_the_ends_of_a_drop(rng: &mut Rng, memory: &mut [u64; NUMBERS], cap: u64) {
    let (stairs, any) = (rng.spread(0, 63), rng.below(64));
    memory[FIRST_STAIR] = rng.pick(&[0, 1, 63, 64, u64::MAX, any]);
    memory[STAIRS_BEFORE] = rng.pick(&[stairs, stairs, stairs + 64, stairs.wrapping_sub(64)]);
    let kept_in_hundred = rng.pick(&[1, 10, 60]);
    let mut seen = cap;
    for j in (0..=stairs).rev() {
        let gap = match rng.below(8) {
            0 => word(rng),
            1 => seen.wrapping_neg().wrapping_add(rng.below(3)),
            2 => rng.below(2),
            _ => rng.below(1_000),
        };
        seen = seen.wrapping_add(gap);
        let at = stair(memory, j);
        memory[at + GAP] = gap;
        if j > 0 {
            let before = stair(memory, j - 1);
            let kept = rng.below(100) < kept_in_hundred;
            memory[before + STAIR_CAP] = match rng.below(4) {
                _ if kept => seen.wrapping_sub(1),
                0 => seen | rng.word(),
                _ => seen,
            };
        }
    }
}

/// Puts the first stair and the total at the ends of what a take compares: the
/// gap at the first block's reach, the total at the sum of gap and cap and at the
/// reach, each beside that, and sums that pass a word.
pub fn at_the_ends_of_a_take(rng: &mut Rng, memory: &mut [u64; NUMBERS]) {
    let first = HEAD + PLACE * (memory[FIRST] % 64) as usize;
    let reach = memory[first + REACH];
    let beside = |rng: &mut Rng, number: u64| number.wrapping_add(rng.below(3)).wrapping_sub(1);
    let gap = match rng.below(4) {
        0 => word(rng),
        _ => beside(rng, reach),
    };
    let cap = match rng.below(4) {
        0 => beside(rng, gap.wrapping_neg()),
        1 => word(rng),
        2 => rng.below(2),
        _ => rng.spread(0, 1_000_000_000_000),
    };
    let sum = gap.wrapping_add(cap);
    let near = rng.pick(&[sum, sum, reach, 0, u64::MAX]);
    let at = stair(memory, 0);
    memory[at + GAP] = gap;
    memory[at + STAIR_CAP] = cap;
    memory[TOTAL] = beside(rng, near);
    memory[STAIRS_BEFORE] = rng.pick(&[0, 1, memory[STAIRS_BEFORE]]);
    memory[COUNT] = memory[COUNT].max(1);
}

/// A memory of words of one kind. Most of them hold a number of blocks that can
/// be held, so that adds are not all refused by 7.
fn noise(rng: &mut Rng, word: impl Fn(&mut Rng) -> u64) -> [u64; NUMBERS] {
    let mut memory = [(); NUMBERS].map(|_| word(rng));
    if !rng.once_in(4) {
        memory[COUNT] = rng.spread(0, 66);
    }
    if rng.once_in(2) {
        memory[FIRST] = rng.spread(0, 200);
        memory[STAIRS_BEFORE] = rng.spread(0, 66);
    }
    if rng.once_in(3) {
        to_the_ends_of_a_ramp(rng, &mut memory);
    }
    memory
}

/// A word of any kind.
fn word(rng: &mut Rng) -> u64 {
    match rng.below(4) {
        0 => rng.word(),
        1 => any_word(rng),
        2 => near_a_power(rng),
        _ => rng.spread(0, 1_000_000_000_000),
    }
}

/// A word at most 2 from a power of 2.
fn near_a_power(rng: &mut Rng) -> u64 {
    let power = 1u128 << rng.pick(&POWERS);
    (power as u64)
        .wrapping_add(rng.within(0, 4))
        .wrapping_sub(2)
}

/// Puts what the first block's ramp is worked out from at the ends up to which
/// there is one: acceleration, cap and reach at their bounds, the entry at the
/// cap and at what the reach can brake from.
fn to_the_ends_of_a_ramp(rng: &mut Rng, memory: &mut [u64; NUMBERS]) {
    let first = HEAD + PLACE * (memory[FIRST] % 64) as usize;
    let accel = [0, 1, 2, 1 << 27, (1 << 32) - 1, 1 << 32];
    let cap = [0, 1, 1_000_000, 1 << 40, (1 << 50) - 1, 1 << 50];
    let reach = [0, 1, 999, 1 << 47, (1 << 62) - 1, 1 << 62];
    let (cap, reach) = (rng.pick(&cap), rng.pick(&reach));
    let exit = rng.pick(&[cap, cap / 2, cap + 1, 0]);
    let entry = [cap, cap + 1, cap / 3, exit, exit + reach, exit + reach + 1];
    memory[first + LENGTH] = word(rng);
    memory[first + ACCEL] = rng.pick(&accel);
    memory[first + REACH] = reach;
    memory[first + CAP] = cap;
    brake_to(rng, memory, reach, exit);
    memory[COMMITTED] = rng.pick(&entry);
    memory[COUNT] = memory[COUNT].max(1);
}

/// Has the blocks behind the first, which has a reach, brake from a squared speed:
/// by the first stair, at the first block's end or behind it, or by the total.
fn brake_to(rng: &mut Rng, memory: &mut [u64; NUMBERS], reach: u64, exit: u64) {
    let behind = rng.pick(&[0, exit / 2, exit]);
    let (cap, more) = match rng.below(3) {
        0 => (rng.pick(&[exit, u64::MAX]), 0),
        1 => (exit - behind, 1 << 40),
        _ => (exit - behind, 0),
    };
    let at = stair(memory, 0);
    memory[at + GAP] = reach + behind;
    memory[at + STAIR_CAP] = cap;
    memory[TOTAL] = reach + exit + more;
}
