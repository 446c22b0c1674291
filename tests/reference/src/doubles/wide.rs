//! Whole numbers as great as the sum of two doubles, counted in least doubles.

use std::cmp::Ordering;

use super::parts::Finite;

/// Words of a number: the sum of two doubles is less than 2^1025, which is
/// 2^2099 least doubles.
const WORDS: usize = 33;
const WORD_BITS: u32 = u64::BITS;

/// A whole number of least doubles, its lowest word first.
#[derive(Clone, Debug, PartialEq, Eq)]
pub struct Wide([u64; WORDS]);

impl Wide {
    /// The number 0.
    pub const ZERO: Wide = Wide([0; WORDS]);

    /// The size of a finite double.
    pub fn of(double: &Finite) -> Wide {
        let mut words = [0; WORDS];
        let first = (double.shift / WORD_BITS) as usize;
        let two_words = u128::from(double.digits) << (double.shift % WORD_BITS);
        words[first] = two_words as u64;
        words[first + 1] = (two_words >> WORD_BITS) as u64;
        Wide(words)
    }

    /// The sum; it stays below 2^2112.
    pub fn plus(&self, other: &Wide) -> Wide {
        let (mut sum, mut carry) = (Wide::ZERO, 0);
        for k in 0..WORDS {
            let part = u128::from(self.0[k]) + u128::from(other.0[k]) + carry;
            sum.0[k] = part as u64;
            carry = part >> WORD_BITS;
        }
        assert_eq!(carry, 0);
        sum
    }

    /// What is left after a number that is not greater is taken away.
    pub fn minus(&self, other: &Wide) -> Wide {
        let (mut left, mut borrowed) = (Wide::ZERO, 0);
        for k in 0..WORDS {
            let part = i128::from(self.0[k]) - i128::from(other.0[k]) - borrowed;
            left.0[k] = part as u64;
            borrowed = i128::from(part < 0);
        }
        assert_eq!(borrowed, 0);
        left
    }

    /// Which of two is greater: the highest word in which they differ decides.
    pub fn compare(&self, other: &Wide) -> Ordering {
        self.0.iter().rev().cmp(other.0.iter().rev())
    }

    /// Binary digits, none of 0.
    pub fn length(&self) -> u32 {
        let highest = (0..WORDS).rev().find(|k| self.0[*k] != 0);
        highest.map_or(0, |k| {
            WORD_BITS * (k as u32 + 1) - self.0[k].leading_zeros()
        })
    }

    /// The binary digit of 2^`place`.
    pub fn digit(&self, place: u32) -> u64 {
        self.0[(place / WORD_BITS) as usize] >> (place % WORD_BITS) & 1
    }

    /// The `count` digits from that of 2^`place` on, as a number; at most 64.
    pub fn digits(&self, place: u32, count: u32) -> u64 {
        let upwards = (place..place + count).rev();
        upwards.fold(0, |number, k| number * 2 + self.digit(k))
    }

    /// True if a digit below that of 2^`place` is 1.
    pub fn any_below(&self, place: u32) -> bool {
        (0..place).any(|k| self.digit(k) == 1)
    }
}
