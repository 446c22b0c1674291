//! The numbers of a block and a junction by division, for the benchmark, and the
//! plan and the figures of blocks from these.
//!
//! Each function gives what its namesake in `machine` or `report` finds by
//! search.

use crate::machine::{chord_bound, parts, torque_step};
use crate::machine::{Block, Limits, Machine, Numbers, Ramp};
use crate::plan::{highest, Course};
use crate::report::{Figures, HeldBy};

/// All numbers of a block that passes checks 2 to 6.
pub fn numbers_of(machine: &Machine, block: &Block) -> Numbers {
    let limits = &machine.limits;
    let sizes = block.moves.map(|m| parts(m.unsigned_abs()));
    let length = sizes.iter().map(|s| s * s).sum::<u64>().isqrt();
    let speed = block.feed.min(rate(&limits.speed, &sizes, length));
    let full = rate(&limits.accel, &sizes, length);
    let percent = machine.torque_percent(torque_step(speed));
    let accel = (full * percent / 100).max(1);
    Numbers {
        length,
        speed,
        accel,
        reach: 2 * accel * length / parts(1),
        cap: block_cap(limits, block, speed),
    }
}

/// Greatest rate along the block that keeps each moving axis within its
/// limit: limit × L / |move| rounded down, the least over the moving axes.
fn rate(axis_limits: &[u64; 3], sizes: &[u64; 3], length: u64) -> u64 {
    let axis = |k: usize| (axis_limits[k] * length).checked_div(sizes[k]);
    let rates = [axis(0), axis(1), axis(2)];
    rates.into_iter().flatten().min().unwrap_or(u64::MAX)
}

/// Block cap, (µm/s)²: v squared, with a radius also the chord cap.
fn block_cap(limits: &Limits, block: &Block, speed: u64) -> u64 {
    let squared = speed * speed;
    if block.radius == 0 {
        return squared;
    }
    let bound = chord_bound(limits, block.radius);
    capped_quotient(bound, limits.tick * limits.tick, squared)
}

/// A block with its numbers.
type Known<'a> = (&'a Block, &'a Numbers);

/// Junction cap, (µm/s)², of two blocks with their numbers.
pub fn junction_cap(limits: &Limits, before: Known, after: Known) -> u64 {
    under_corner(limits, before, after, before.1.cap.min(after.1.cap))
}

/// Smaller of `cap` and the corner cap, if there is one, of two blocks, (µm/s)².
fn under_corner(limits: &Limits, before: Known, after: Known, cap: u64) -> u64 {
    let p = (before.1.length * after.1.length) as i64;
    let s = dot(before.0, after.0) * parts(1).pow(2) as i64;
    if s >= p {
        return cap;
    }
    let bound = (limits.jump * limits.jump) as u128 * p as u128;
    capped_quotient(bound, 2 * (p - s) as u64, cap)
}

/// Sum over the axes of the products of the moves, µm².
fn dot(before: &Block, after: &Block) -> i64 {
    let [x, y, z] = before.moves;
    let [u, v, w] = after.moves;
    x * u + y * v + z * w
}

/// Smaller of `cap` and `bound` / `divisor` rounded down. Divides only where
/// the quotient is below the cap.
fn capped_quotient(bound: u128, divisor: u64, cap: u64) -> u64 {
    if cap as u128 * divisor as u128 <= bound {
        return cap;
    }
    (bound / divisor as u128) as u64
}

/// Ramp for a plan's entry and exit squared speeds, (µm/s)².
pub fn ramp_of(numbers: &Numbers, entry: u64, exit: u64) -> Ramp {
    let peak = numbers.cap.min((numbers.reach + entry + exit) / 2);
    let up = half_down(parts(peak - entry), numbers.accel);
    let down = half_up(parts(peak - exit), numbers.accel);
    Ramp {
        peak,
        up,
        cruise: numbers.length - up - down,
        down,
    }
}

/// Length, µm, over which the squared speed changes by `change` (µm/s)², to
/// the nearest whole number, an exact half down: with 1 less than the half of
/// 2 × a added, only more than a half reaches the next whole number.
fn half_down(change: u64, accel: u64) -> u64 {
    (change + accel - 1) / (2 * accel)
}

/// Length, µm, over which the squared speed changes by `change` (µm/s)², to
/// the nearest whole number, an exact half up: with the half of 2 × a added,
/// a half reaches the next whole number.
fn half_up(change: u64, accel: u64) -> u64 {
    (change + accel) / (2 * accel)
}

/// Plan of checked blocks from rest to rest, (µm/s)².
pub fn plan_of(machine: &Machine, blocks: &[Block]) -> Option<Vec<u64>> {
    plan_with(machine, blocks, &all_numbers(machine, blocks))
}

/// The numbers of each block.
fn all_numbers(machine: &Machine, blocks: &[Block]) -> Vec<Numbers> {
    blocks.iter().map(|b| numbers_of(machine, b)).collect()
}

/// The plan of blocks whose numbers are known.
fn plan_with(machine: &Machine, blocks: &[Block], numbers: &[Numbers]) -> Option<Vec<u64>> {
    let known = |k: usize| (&blocks[k], &numbers[k]);
    let cap = |k: usize| junction_cap(&machine.limits, known(k - 1), known(k));
    highest(&Course {
        committed: 0,
        caps: (1..blocks.len()).map(cap).collect(),
        reaches: numbers.iter().map(|n| n.reach).collect(),
    })
}

/// The figures of checked blocks planned from rest to rest.
pub fn figures_of(machine: &Machine, blocks: &[Block]) -> Option<Figures> {
    let numbers = all_numbers(machine, blocks);
    let plan = plan_with(machine, blocks, &numbers)?;
    let mut figures = Figures {
        blocks: blocks.len() as u64,
        ..Figures::default()
    };
    for (k, number) in numbers.iter().enumerate() {
        let ramp = ramp_of(number, plan[k], plan[k + 1]);
        figures.length += number.length;
        figures.peak = figures.peak.max(ramp.peak);
    }
    let known = |k: usize| (&blocks[k], &numbers[k]);
    for (k, plan) in plan.iter().enumerate().take(blocks.len()).skip(1) {
        match held_at(&machine.limits, known(k - 1), known(k), *plan) {
            HeldBy::Feed => figures.feed += 1,
            HeldBy::Corner => figures.corner += 1,
            HeldBy::Chord => figures.chord += 1,
            HeldBy::Reach => figures.reach += 1,
        }
    }
    Some(figures)
}

/// What holds a junction at a plan's squared speed, (µm/s)², which is at most
/// each of its caps: so the corner cap is that where it is below one more, and a
/// block cap that is not the feed's is a chord's.
fn held_at(limits: &Limits, before: Known, after: Known, plan: u64) -> HeldBy {
    let speed = before.1.speed.min(after.1.speed);
    if plan == speed * speed {
        HeldBy::Feed
    } else if plan == under_corner(limits, before, after, plan + 1) {
        HeldBy::Corner
    } else if plan == before.1.cap.min(after.1.cap) {
        HeldBy::Chord
    } else {
        HeldBy::Reach
    }
}
