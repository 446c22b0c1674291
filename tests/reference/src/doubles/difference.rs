//! The difference of two doubles in one operation: the double nearest to the
//! exact one, of two as near the one whose last digit is even (IEEE 754).

use std::cmp::Ordering;

use super::parts::{bits_of, Double, Finite, DIGITS, NOT_A_NUMBER, SIGN};
use super::wide::Wide;

/// The bits of target − offset, both given by theirs. Whatever is no number is
/// given by one pattern.
pub fn difference(target: u64, offset: u64) -> u64 {
    match (Double::of(target), Double::of(offset)) {
        (Double::NotANumber, _) | (_, Double::NotANumber) => NOT_A_NUMBER,
        (Double::Infinite, Double::Infinite) if target == offset => NOT_A_NUMBER,
        (Double::Infinite, _) => target,
        (_, Double::Infinite) => offset ^ SIGN,
        (Double::Finite(one), Double::Finite(other)) => finite_difference(&one, &other),
    }
}

/// The difference of two finite doubles. Where the signs differ the sizes add
/// up; 0 from two of one sign is the one above 0.
fn finite_difference(one: &Finite, other: &Finite) -> u64 {
    let (size, taken) = (Wide::of(one), Wide::of(other));
    if one.negative != other.negative {
        return nearest(one.negative, &size.plus(&taken));
    }
    match size.compare(&taken) {
        Ordering::Greater => nearest(one.negative, &size.minus(&taken)),
        Ordering::Less => nearest(!one.negative, &taken.minus(&size)),
        Ordering::Equal => nearest(false, &Wide::ZERO),
    }
}

/// The double nearest to a number of least doubles: its first 53 digits, with
/// one more in the last if what is behind them is above a half, or is a half
/// and the last digit odd.
fn nearest(negative: bool, number: &Wide) -> u64 {
    let shift = number.length().saturating_sub(DIGITS);
    let digits = number.digits(shift, DIGITS);
    let half = shift > 0 && number.digit(shift - 1) == 1;
    let up = half && (digits % 2 == 1 || number.any_below(shift - 1));
    bits_of(negative, digits + u64::from(up), shift)
}
