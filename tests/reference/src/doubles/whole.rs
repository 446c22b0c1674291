//! The double of a whole number.

use super::parts::{bits_of, DIGITS, ONE};

/// The bits of the double that is a whole number, of less than 2^53 either way:
/// nothing is lost. That of 0 is the one above 0.
pub fn double_of(whole: i64) -> u64 {
    let size = whole.unsigned_abs();
    let length = u64::BITS - size.leading_zeros();
    assert!(length <= DIGITS, "{whole} has more digits than a double");
    if size == 0 {
        return 0;
    }
    let behind = DIGITS - length;
    bits_of(whole < 0, size << behind, ONE - behind)
}
