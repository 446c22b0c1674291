//! One double times 1,000, to the nearest whole number.

use super::parts::{Double, Finite, ONE};

/// Greatest whole number that is read, either way: µm of a length or µm/s of a
/// speed.
pub const MOST: u64 = 1_000_000_000;
/// µm in a millimetre.
const THOUSAND: u128 = 1_000;

/// What a double in mm or mm/s gives.
#[derive(Clone, Copy, Debug, PartialEq, Eq)]
pub enum Reading {
    /// It is no number, or infinite.
    NotFinite,
    /// The whole number is above 1,000,000,000 either way.
    Beyond,
    /// The whole number, µm or µm/s.
    At(i64),
}

/// The double of these bits times 1,000, to the nearest whole number, an exact
/// half to the even one.
pub fn reading(bits: u64) -> Reading {
    let Double::Finite(double) = Double::of(bits) else {
        return Reading::NotFinite;
    };
    match thousandfold(&double) {
        Some(whole) if whole <= u128::from(MOST) => {
            let whole = whole as i64;
            Reading::At(if double.negative { -whole } else { whole })
        }
        _ => Reading::Beyond,
    }
}

/// The whole number nearest to 1,000 times a double's size. None for a size of
/// 2^52 or more, none of whose digits stand behind the point.
fn thousandfold(double: &Finite) -> Option<u128> {
    let behind = ONE.checked_sub(double.shift).filter(|count| *count > 0)?;
    Some(nearest(THOUSAND * u128::from(double.digits), behind))
}

/// The whole number nearest to `number` / 2^`behind`, an exact half to the even
/// one. The number is less than 2^63, so with 64 digits or more behind the point
/// it is less than a half.
fn nearest(number: u128, behind: u32) -> u128 {
    if behind >= 64 {
        return 0;
    }
    let one = 1 << behind;
    let (whole, rest) = (number / one, number % one);
    let up = 2 * rest > one || (2 * rest == one && whole % 2 == 1);
    whole + u128::from(up)
}
