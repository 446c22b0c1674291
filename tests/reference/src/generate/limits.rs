//! Limits: ordinary, at the ends of their ranges, tiny, and outside.

use crate::machine::{range, Limits};
use crate::rng::Rng;

/// Document 01's machine M.
pub fn machine_m() -> Limits {
    Limits {
        accel: [200_000; 3],
        speed: [1_000_000; 3],
        jump: 2_000,
        chord: 1,
        tick: 2_000,
    }
}

/// Machine M with another chord tolerance, µm, and tick, microseconds.
pub fn with_chord(chord: u64, tick: u64) -> Limits {
    Limits {
        chord,
        tick,
        ..machine_m()
    }
}

/// Limits that pass check 1.
pub fn limits(rng: &mut Rng) -> Limits {
    match rng.below(6) {
        0 => machine_m(),
        1 => ends(rng),
        2 => tiny_limits(rng),
        _ => spread(rng),
    }
}

/// Limits so small that squared speeds stay within a few units, which makes
/// caps of 0 and exhaustive searches possible.
pub fn tiny_limits(rng: &mut Rng) -> Limits {
    Limits {
        accel: [(); 3].map(|_| rng.within(1, 3)),
        speed: [(); 3].map(|_| rng.within(1, 4)),
        jump: rng.within(1, 5),
        chord: 1,
        tick: 10_000,
    }
}

/// Each limit at one of the two ends of its range.
fn ends(rng: &mut Rng) -> Limits {
    Limits {
        accel: [(); 3].map(|_| rng.pick(&[*range::ACCEL.start(), *range::ACCEL.end()])),
        speed: [(); 3].map(|_| rng.pick(&[*range::SPEED.start(), *range::SPEED.end()])),
        jump: rng.pick(&[*range::JUMP.start(), *range::JUMP.end()]),
        chord: rng.pick(&[*range::CHORD.start(), *range::CHORD.end()]),
        tick: rng.pick(&[*range::TICK.start(), *range::TICK.end()]),
    }
}

/// Each limit anywhere in its range.
fn spread(rng: &mut Rng) -> Limits {
    Limits {
        accel: [(); 3].map(|_| rng.spread(*range::ACCEL.start(), *range::ACCEL.end())),
        speed: [(); 3].map(|_| rng.spread(*range::SPEED.start(), *range::SPEED.end())),
        jump: rng.spread(*range::JUMP.start(), *range::JUMP.end()),
        chord: rng.spread(*range::CHORD.start(), *range::CHORD.end()),
        tick: rng.spread(*range::TICK.start(), *range::TICK.end()),
    }
}

/// Limits of which at least one is outside its range; each still fits its
/// field on the tape.
pub fn faulty_limits(rng: &mut Rng) -> Limits {
    let mut limits = limits(rng);
    for _ in 0..rng.within(1, 2) {
        spoil(rng, &mut limits);
    }
    limits
}

/// Puts one limit outside its range.
fn spoil(rng: &mut Rng, limits: &mut Limits) {
    let axis = rng.below(3) as usize;
    match rng.below(5) {
        0 => limits.accel[axis] = rng.pick(&[0, 20_000_001, 33_554_431]),
        1 => limits.speed[axis] = rng.pick(&[0, 1_000_001, 1_048_575]),
        2 => limits.jump = rng.pick(&[0, 1_000_001, 1_048_575]),
        3 => limits.chord = rng.pick(&[0, 1_001, 1_023]),
        _ => limits.tick = rng.pick(&[0, 99, 10_001, 16_383]),
    }
}
