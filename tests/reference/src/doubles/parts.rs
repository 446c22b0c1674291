//! What the bits of a double denote, by IEEE 754's binary64: a sign, 11 bits of
//! exponent and 52 of fraction, from the highest on.

/// The sign's bit.
pub const SIGN: u64 = 1 << 63;
/// The bits of the infinity above 0.
pub const INFINITY: u64 = 0x7ff << FRACTION_BITS;
/// The bits of a double that is no number.
pub const NOT_A_NUMBER: u64 = INFINITY | 1 << (FRACTION_BITS - 1);

/// Bits of the fraction.
const FRACTION_BITS: u32 = 52;
/// Binary digits of a double that is not subnormal.
pub const DIGITS: u32 = FRACTION_BITS + 1;
/// 1.0 is 2^1074 least doubles.
pub const ONE: u32 = 1074;

/// What a double denotes.
#[derive(Clone, Copy, Debug, PartialEq, Eq)]
pub enum Double {
    NotANumber,
    /// One of the two infinities.
    Infinite,
    Finite(Finite),
}

/// A finite double: `digits` × 2^`shift` least doubles, below 0 if `negative`.
/// There is a 0 of either sign.
#[derive(Clone, Copy, Debug, PartialEq, Eq)]
pub struct Finite {
    pub negative: bool,
    /// Less than 2^53, and less than 2^52 only where the shift is 0.
    pub digits: u64,
    /// 0 to 2045.
    pub shift: u32,
}

impl Double {
    /// What 64 bits denote. An exponent of 0 has no digit before the fraction,
    /// one of 1 to 2046 has, and 2047 is for what is not finite.
    pub fn of(bits: u64) -> Double {
        let exponent = (bits & INFINITY) >> FRACTION_BITS;
        let fraction = bits & ((1 << FRACTION_BITS) - 1);
        let finite = |digits, shift| {
            Double::Finite(Finite {
                negative: bits & SIGN != 0,
                digits,
                shift,
            })
        };
        match exponent {
            0 => finite(fraction, 0),
            1..=2046 => finite(1 << FRACTION_BITS | fraction, exponent as u32 - 1),
            _ if fraction == 0 => Double::Infinite,
            _ => Double::NotANumber,
        }
    }
}

/// The bits of a double of `digits` × 2^`shift` least doubles, the infinity's
/// where that is 2^1024 or more.
///
/// The digits are less than 2^52 only where the shift is 0. Added to the shift
/// in the exponent's place, a first digit makes the exponent one more than the
/// shift, and digits that rounding has brought to 2^53 make it two more.
pub fn bits_of(negative: bool, digits: u64, shift: u32) -> u64 {
    let sign = if negative { SIGN } else { 0 };
    let size = (u64::from(shift) << FRACTION_BITS) + digits;
    sign | size.min(INFINITY)
}
