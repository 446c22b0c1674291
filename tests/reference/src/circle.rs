//! Source 000's chord on its circle, by which chord caps are judged apart from
//! the rule that finds them.

use crate::machine::Limits;

/// Square of the microseconds in a second.
pub const SQUARED_MICROS: u128 = 1_000_000_000_000;

/// True if the table at a squared speed q, (µm/s)², stays within the smaller of
/// E and R of a circle of radius R, µm.
///
/// In one tick it runs a chord of √q × T / 10^6 µm. With h half of that, the
/// chord's middle is √(R² − h²) from the centre, and is within e of the circle
/// if (R − e)² ≤ R² − h². Both sides are taken × 4 × 10^12, which makes h² the
/// whole number q × T².
pub fn middle_is_within(limits: &Limits, radius: u64, q: u64) -> bool {
    let to_centre = (radius - limits.chord.min(radius)) as u128;
    let [r, t] = [radius, limits.tick].map(u128::from);
    let run = u128::from(q) * t * t;
    4 * to_centre * to_centre * SQUARED_MICROS + run <= 4 * r * r * SQUARED_MICROS
}
