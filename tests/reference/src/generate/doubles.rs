//! Doubles of every class, by their bits: what is not finite, what is too small
//! or too great to matter, halves of a µm and what lies beside them, and the
//! ends of what is accepted. Lengths are in mm, speeds in mm/s.

use crate::rng::Rng;

/// The sign's bit, the bits of the infinity above 0 and of the fraction.
const SIGN: u64 = 1 << 63;
const INFINITY: u64 = 0x7ff << 52;
const FRACTION: u64 = (1 << 52) - 1;
/// Exponent of 1.0 in its place of the bits.
const ONE: u64 = 1023;

/// Ends of what is read: 1,000,000,000 µm, the half above it and the next whole
/// number, and the half below it.
const READ_ENDS: [f64; 5] = [
    1_000_000.0,
    1_000_000.000_5,
    1_000_000.000_6,
    1_000_000.001,
    999_999.999_5,
];
/// Halves of a µm near 0 and their neighbours.
const NEAR_ZERO: [f64; 6] = [0.000_4, 0.000_5, 0.000_6, 0.001, 0.001_5, 0.002_5];
/// Ends of a move and of a speed, and of a radius.
const MOVE_ENDS: [f64; 6] = [
    999.999_5,
    1_000.0,
    1_000.000_4,
    1_000.000_5,
    1_000.000_6,
    1_000.001,
];
const RADIUS_ENDS: [f64; 5] = [
    9_999.999_5,
    10_000.0,
    10_000.000_5,
    10_000.000_6,
    10_000.001,
];

/// A double of any class.
pub fn double(rng: &mut Rng) -> u64 {
    match rng.below(16) {
        0 => not_finite(rng),
        1 => tiny(rng),
        2 => huge(rng),
        3 => rng.word(),
        4 | 5 => of_size(rng, ONE - 20, ONE + 22),
        6 | 7 => {
            let half = exact_half(rng);
            beside(rng, half)
        }
        8 | 9 => {
            let half = decimal_half(rng);
            beside(rng, half)
        }
        10 => end(rng, &READ_ENDS),
        11 => end(rng, &MOVE_ENDS),
        12 => end(rng, &NEAR_ZERO),
        _ => decimal(rng.signed(10_000_000)),
    }
}

/// A number of ten-thousandths as the double nearest to it.
pub fn decimal(ten_thousandths: i64) -> u64 {
    (ten_thousandths as f64 / 10_000.0).to_bits()
}

/// An infinity, or a double that is no number, with any sign and payload.
pub fn not_finite(rng: &mut Rng) -> u64 {
    let sign = rng.pick(&[0, SIGN]);
    let payload = match rng.below(6) {
        0 | 1 => 0,
        2 => 1,
        3 => 1 << 51,
        4 => FRACTION,
        _ => rng.word() & FRACTION,
    };
    sign | INFINITY | payload
}

/// A zero, a subnormal or a double near the least that is none.
fn tiny(rng: &mut Rng) -> u64 {
    let size = match rng.below(6) {
        0 | 1 => 0,
        2 => rng.within(1, 3),
        3 => rng.word() & FRACTION,
        4 => FRACTION + 1 - rng.below(3),
        _ => FRACTION + 1 + rng.below(1 << 53),
    };
    rng.pick(&[0, SIGN]) | size
}

/// A double far beyond what is read, up to the greatest.
fn huge(rng: &mut Rng) -> u64 {
    match rng.below(4) {
        0 => rng.pick(&[0, SIGN]) | (INFINITY - 1 - rng.below(2)),
        1 => (1e308_f64 * rng.pick(&[-1.0, 1.0, 1.7])).to_bits(),
        _ => of_size(rng, ONE + 20, ONE + 1023),
    }
}

/// A double of any sign with an exponent of this range: its fraction at random,
/// or with few digits that are 1, or few that are 0.
fn of_size(rng: &mut Rng, low: u64, high: u64) -> u64 {
    let any = rng.word() & FRACTION;
    let fraction = match rng.below(4) {
        0 => any & rng.word() & rng.word() & rng.word(),
        1 => FRACTION & !(any & rng.word() & rng.word() & rng.word()),
        _ => any,
    };
    rng.pick(&[0, SIGN]) | rng.within(low, high) << 52 | fraction
}

/// An odd number of sixteenths of a mm: these alone are exact halves of a µm.
pub fn exact_half(rng: &mut Rng) -> u64 {
    let odd = 2 * rng.spread(0, 8_000_000) + 1;
    (odd as f64 / 16.0 * rng.pick(&[-1.0, 1.0])).to_bits()
}

/// The double nearest to an odd number of halves of a µm.
pub fn decimal_half(rng: &mut Rng) -> u64 {
    let odd = 2 * rng.spread(0, 1_000_000_000) + 1;
    (odd as f64 / 2_000.0 * rng.pick(&[-1.0, 1.0])).to_bits()
}

/// The double of these bits, or one of the two next to it on either side. It is
/// neither 0 nor beside it.
fn beside(rng: &mut Rng, bits: u64) -> u64 {
    bits.wrapping_add_signed(rng.pick(&[-2, -1, 0, 0, 0, 1, 2]))
}

/// One of the ends with either sign, or a double beside it.
fn end(rng: &mut Rng, ends: &[f64]) -> u64 {
    let signed = rng.pick(ends) * rng.pick(&[-1.0, 1.0]);
    beside(rng, signed.to_bits())
}

/// A speed of any class, at an end of what is accepted, or 0.
pub fn any_speed(rng: &mut Rng) -> u64 {
    match rng.below(6) {
        0 | 1 => end(rng, &MOVE_ENDS),
        2 => end(rng, &NEAR_ZERO),
        3 => rng.pick(&[0, SIGN]),
        _ => double(rng),
    }
}

/// A radius of any class or at an end of what is accepted.
pub fn any_radius(rng: &mut Rng) -> u64 {
    match rng.below(6) {
        0..3 => end(rng, &RADIUS_ENDS),
        3 => end(rng, &NEAR_ZERO),
        _ => double(rng),
    }
}

/// A target and an offset on one axis: of any classes; far apart in size; nearly
/// equal; half a µm apart; and such that the difference is a half of its last
/// digit, passes the greatest double, or is subnormal.
pub fn pair(rng: &mut Rng) -> [u64; 2] {
    let (one, other) = (double(rng), double(rng));
    match rng.below(10) {
        0 => [one, rng.pick(&[0, SIGN])],
        1 => [rng.pick(&[0, SIGN]), one],
        2 => [one, one ^ rng.pick(&[0, SIGN])],
        3 => [one, one.wrapping_add_signed(rng.signed(5))],
        4 => half_apart(rng, other),
        5 | 6 => apart(rng),
        7 => [huge(rng), huge(rng)],
        8 => [tiny(rng), tiny(rng)],
        _ => [one, other],
    }
}

/// An offset, and a target that is about half a µm beside a whole number from
/// it, by the sum of two doubles.
fn half_apart(rng: &mut Rng, offset: u64) -> [u64; 2] {
    let half = match rng.below(2) {
        0 => exact_half(rng),
        _ => decimal_half(rng),
    };
    let target = f64::from_bits(offset) + f64::from_bits(half);
    [target.to_bits(), offset]
}

/// Two doubles whose exponents differ by about as much as they have digits, in
/// either order: the smaller one is about half of the other's last digit. Some
/// are at the greatest exponent.
fn apart(rng: &mut Rng) -> [u64; 2] {
    let exponent = match rng.below(4) {
        0 => 2046,
        1 => rng.within(1, 120),
        _ => rng.within(ONE - 20, ONE + 22),
    };
    let less = exponent.saturating_sub(rng.within(50, 56)).max(1);
    let mut both = [of_size(rng, exponent, exponent), of_size(rng, less, less)];
    if rng.once_in(3) {
        both[0] |= FRACTION;
    }
    if rng.once_in(2) {
        both[1] &= !FRACTION;
    }
    if rng.once_in(2) {
        both.reverse();
    }
    both
}
