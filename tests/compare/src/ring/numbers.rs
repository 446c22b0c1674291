//! A block's numbers, its corner and its ramp for a machine and memory of any
//! numbers, after crates/machine/specs/Numbers.antt alone.
//!
//! `reference::machine` has the scope document's rules, for limits within their
//! ranges. The definitions here go on beyond these: a limit may be 0.

use reference::machine::{Block, Limits, Ramp};

use super::torque::torque_percent;

/// What is kept of a block's numbers: µm, µm/s², and (µm/s)² twice.
#[derive(Clone, Copy, Debug)]
pub struct Numbers {
    pub length: u64,
    pub accel: u64,
    pub reach: u64,
    pub cap: u64,
}

/// Limits, and the torque: a percentage in a byte for each of eight speed steps,
/// the first step's most significant.
pub struct Machine {
    pub limits: Limits,
    pub torque: u64,
}

/// What no acceleration passes: twice the greatest limit, µm/s².
const MOST_ACCEL: u128 = 2 * 20_000_000;

/// The largest number not above `cap` whose product with `divisor` is not above
/// `bound`; the cap where the divisor is 0.
fn capped_quotient(cap: u128, bound: u128, divisor: u128) -> u128 {
    bound.checked_div(divisor).map_or(cap, |q| q.min(cap))
}

/// The largest number not above `cap` that the limit of every axis allows.
fn each_axis(cap: u128, limits: &[u64; 3], length: u128, sizes: &[u128; 3]) -> u128 {
    let axes = limits.iter().zip(sizes);
    axes.fold(cap, |cap, (limit, size)| {
        capped_quotient(cap, *limit as u128 * length, *size)
    })
}

/// A block's numbers.
pub fn numbers_of(machine: &Machine, block: &Block) -> Numbers {
    let Machine { limits, torque } = machine;
    let sizes = block.moves.map(|m| m.unsigned_abs() as u128);
    let length = sizes.iter().map(|s| s * s).sum::<u128>().isqrt();
    let speed = each_axis(block.feed as u128, &limits.speed, length, &sizes);
    let percent = torque_percent(*torque, speed);
    let most = each_axis(MOST_ACCEL, &limits.accel, length, &sizes);
    let accel = (most * percent / 100).max(1);
    Numbers {
        length: length as u64,
        accel: accel as u64,
        reach: (2 * accel * length) as u64,
        cap: block_cap(limits, block.radius as u128, speed) as u64,
    }
}

/// Block cap: the speed squared, on a curve under the chord rule too.
fn block_cap(limits: &Limits, radius: u128, speed: u128) -> u128 {
    if radius == 0 {
        return speed * speed;
    }
    let error = radius.min(limits.chord as u128);
    let bound = (8 * error * radius - 4 * error * error) * 1_000_000_000_000;
    let tick = limits.tick as u128;
    capped_quotient(speed * speed, bound, tick * tick)
}

/// A cap under the corner cap of two blocks, whose lengths have a product.
pub fn corner_under(cap: u64, jump: u64, product: u128, before: &Block, after: &Block) -> u64 {
    let axes = before.moves.iter().zip(after.moves);
    let sum: i128 = axes.map(|(a, b)| *a as i128 * b as i128).sum();
    let turn = (product as i128 - sum).max(0) as u128;
    let bound = (jump as u128).pow(2) * product;
    capped_quotient(cap as u128, bound, 2 * turn) as u64
}

/// The ramp between two squared speeds, or zeros where they are no plan's.
pub fn ramp_between(numbers: &Numbers, entry: u64, exit: u64) -> Ramp {
    let Numbers {
        length,
        accel,
        reach,
        cap,
    } = *numbers;
    if !rampable(numbers, entry, exit) {
        let [peak, up, cruise, down] = [0; 4];
        return Ramp {
            peak,
            up,
            cruise,
            down,
        };
    }
    let peak = cap.min((reach + entry + exit) / 2);
    let up = (peak.saturating_sub(entry) + accel - 1) / (2 * accel);
    let down = (peak.saturating_sub(exit) + accel) / (2 * accel);
    let cruise = length.saturating_sub(up).saturating_sub(down);
    Ramp {
        peak,
        up,
        cruise,
        down,
    }
}

/// Whether entry and exit are within a block's cap and reach, and its numbers
/// are of a block's size.
pub fn rampable(numbers: &Numbers, entry: u64, exit: u64) -> bool {
    let Numbers {
        accel, reach, cap, ..
    } = *numbers;
    let sized = 0 < accel && accel < 1 << 32 && cap < 1 << 50 && reach < 1 << 62;
    let capped = entry <= cap && exit <= cap;
    let within = entry as u128 <= exit as u128 + reach as u128
        && exit as u128 <= entry as u128 + reach as u128;
    sized && capped && within
}
