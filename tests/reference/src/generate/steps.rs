//! Lists of loaded torque steps: accepted ones of various shapes, and ones with
//! each fault.

use crate::machine::{BUILT_IN, PERCENT};
use crate::rng::Rng;

/// Torque steps, the bytes of an accepted list.
const STEPS: usize = BUILT_IN.len();

/// A list of steps that passes check 14: empty two times of three, else loaded.
pub fn steps(rng: &mut Rng) -> Vec<u8> {
    if rng.once_in(3) {
        loaded_steps(rng)
    } else {
        Vec::new()
    }
}

/// Eight bytes that pass check 14.
pub fn loaded_steps(rng: &mut Rng) -> Vec<u8> {
    match rng.below(8) {
        0 => vec![percent(rng); STEPS],
        1 => vec![rng.pick(&[*PERCENT.start(), *PERCENT.end()]); STEPS],
        2 => dropping(rng, *PERCENT.end()),
        3 => {
            let high = percent(rng);
            dropping(rng, high)
        }
        4 => BUILT_IN.to_vec(),
        5 => one_lower(rng),
        _ => falling(rng),
    }
}

/// A percentage of its range.
fn percent(rng: &mut Rng) -> u8 {
    rng.within(1, 100) as u8
}

/// The percentage `high` up to some step, and 1 after it.
fn dropping(rng: &mut Rng, high: u8) -> Vec<u8> {
    let place = rng.within(1, STEPS as u64 - 1) as usize;
    let mut steps = vec![high; STEPS];
    steps[place..].fill(*PERCENT.start());
    steps
}

/// The built-in percentages from some step on one lower.
fn one_lower(rng: &mut Rng) -> Vec<u8> {
    let place = rng.below(STEPS as u64) as usize;
    let mut steps = BUILT_IN.to_vec();
    steps[place..].iter_mut().for_each(|step| *step -= 1);
    steps
}

/// Percentages at random from the greatest down.
fn falling(rng: &mut Rng) -> Vec<u8> {
    let mut steps = [(); STEPS].map(|_| percent(rng)).to_vec();
    steps.sort_unstable_by(|a, b| b.cmp(a));
    steps
}

/// A list that check 14 refuses: for a length alone, for a single byte out of
/// range or a single rise in otherwise good ones, or for several of these.
pub fn faulty_steps(rng: &mut Rng) -> Vec<u8> {
    let mut steps = loaded_steps(rng);
    match rng.below(8) {
        0 => steps.truncate(rng.within(1, STEPS as u64 - 1) as usize),
        1 => lengthen(rng, &mut steps),
        2 => steps[STEPS - 1] = 0,
        3 => steps[rng.below(STEPS as u64) as usize] = 0,
        4 => steps[0] = rng.pick(&[101, 102, 127, 128, 228, 255]),
        5 => steps[rng.below(STEPS as u64) as usize] = rng.within(101, 255) as u8,
        6 => rise(rng, &mut steps),
        _ => steps = noise(rng),
    }
    steps
}

/// Repeats the last byte past the eighth. Some of the lengths leave 8 where
/// only their lowest byte is counted.
fn lengthen(rng: &mut Rng, steps: &mut Vec<u8>) {
    let last = steps[STEPS - 1];
    let length = rng.pick(&[9, 9, 10, 15, 16, 17, 64, 256, 264]);
    steps.resize(length, last);
}

/// Makes one step 1 higher than the step before it, all staying in range.
fn rise(rng: &mut Rng, steps: &mut [u8]) {
    let place = rng.within(1, STEPS as u64 - 1) as usize;
    for step in &mut steps[place - 1..] {
        *step = (*step).min(*PERCENT.end() - 1);
    }
    steps[place] = steps[place - 1] + 1;
}

/// Up to twenty bytes at random of which the first is 0, so that eight of them
/// are refused too.
fn noise(rng: &mut Rng) -> Vec<u8> {
    let length = rng.within(1, 20);
    let mut steps: Vec<u8> = (0..length).map(|_| rng.word() as u8).collect();
    steps[0] = 0;
    steps
}
