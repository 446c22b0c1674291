//! Roots: beside every square up to the greatest sum of squared moves, and of
//! numbers of every size.

use compare::{proved, report, same, seeds};
use reference::machine::root_of;
use reference::rng::Rng;

/// Greatest sum of three squared moves where they are counted in sixteenths of
/// a µm; in µm it is 3 × 10^12.
const GREATEST_SUM: u64 = 3 * 16_000_000 * 16_000_000;

/// Compares the roots of a number.
fn compare(seed: u64, n: u64) {
    same(seed, || n.to_string(), proved::root(n), root_of(n as u128));
}

/// Compares the roots of every second square and of the numbers beside it.
fn compare_beside_squares(first: u64) {
    let last = root_of(GREATEST_SUM as u128);
    let mut count = 0;
    for r in (first..=last).step_by(2) {
        for n in r * r - 1..=r * r + 1 {
            compare(0, n);
            count += 1;
        }
    }
    report(count, "roots beside squares");
}

#[test]
fn roots_beside_odd_squares_are_the_same() {
    compare_beside_squares(1);
}

#[test]
fn roots_beside_even_squares_are_the_same() {
    compare_beside_squares(2);
}

/// Beside the squares of the greatest roots of 64 bits, beside the powers of
/// two, and at both ends.
#[test]
fn roots_at_edges_are_the_same() {
    let powers = (1..64).map(|k| 1 << k);
    let squares = (1..2_000).map(|k| ((1u64 << 32) - k).pow(2));
    for edge in powers.chain(squares) {
        for n in edge - 1..=edge + 1 {
            compare(0, n);
        }
    }
    compare(0, 0);
    compare(0, u64::MAX);
}

/// Sums of squared moves, and any numbers.
#[test]
fn roots_of_any_numbers_are_the_same() {
    let mut count = 0;
    for seed in seeds(20_000) {
        let mut rng = Rng::new(seed);
        for _ in 0..100 {
            compare(seed, rng.spread(0, GREATEST_SUM));
            compare(seed, rng.word() >> rng.below(64));
            count += 2;
        }
    }
    report(count, "roots of any numbers");
}
