//! Torque steps, loaded and built in, and the torque that a machine has of them,
//! after crates/machine/specs/Torque.antt alone.

use reference::refusal::Refusal;

/// Percentages of the eight steps where none are loaded.
const BUILT_IN_STEPS: [u8; 8] = [100, 100, 90, 80, 70, 60, 50, 40];

/// The steps that serve: the built-in ones where none are loaded.
fn steps_in_force(loaded: &[u8]) -> &[u8] {
    match loaded {
        [] => &BUILT_IN_STEPS,
        _ => loaded,
    }
}

/// Whether each percentage is at least 1, and none exceeds the one before it;
/// the first does not exceed `most`.
fn falling(most: u8, steps: &[u8]) -> bool {
    match steps {
        [] => true,
        [percent, rest @ ..] => (1..=most).contains(percent) && falling(*percent, rest),
    }
}

/// Refusal 14 where steps are loaded that are not eight, or out of range, or
/// rising.
pub fn steps_refusal(loaded: &[u8]) -> Result<(), Refusal> {
    let fit = loaded.len() == 8 && falling(100, loaded);
    if loaded.is_empty() || fit {
        Ok(())
    } else {
        Err(Refusal::Steps)
    }
}

/// The torque of loaded steps that pass: a byte for each step in force, the
/// first most significant.
pub fn torque_of(loaded: &[u8]) -> u64 {
    let bytes = steps_in_force(loaded).iter();
    bytes.fold(0, |torque, percent| torque << 8 | *percent as u64)
}

/// Percent of the acceleration that a torque, of any steps or none, says for a
/// speed.
pub fn torque_percent(torque: u64, speed: u128) -> u128 {
    let step = speed.saturating_sub(1) / 125_000;
    (torque as u128 >> (8 * 7u128.saturating_sub(step))) % 256
}
