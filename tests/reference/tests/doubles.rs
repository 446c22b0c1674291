//! Doubles by their bits: readings, differences and whole numbers, each against
//! a second way.

use std::cmp::Ordering;

use reference::doubles::{difference, double_of, reading, Reading};
use reference::generate::{double, pair};
use reference::rng::Rng;

/// The sign's bit, and the double next below 0.0005.
const SIGN: u64 = 1 << 63;
const BELOW_HALF: u64 = 0x3f40_624d_d2f1_a9fb;

/// Sizes of every class, each taken with either sign.
const SIZES: [u64; 34] = [
    0,
    1,
    2,
    3,
    0x0007_ffff_ffff_ffff,
    0x0008_0000_0000_0000,
    0x000f_ffff_ffff_fffe,
    0x000f_ffff_ffff_ffff,
    0x0010_0000_0000_0000,
    0x0010_0000_0000_0001,
    0x001f_ffff_ffff_ffff,
    0x0020_0000_0000_0001,
    0x0350_0000_0000_0000,
    0x3fb9_9999_9999_999a,
    0x3fd3_3333_3333_3333,
    0x3fef_ffff_ffff_ffff,
    0x3ff0_0000_0000_0000,
    0x3ff0_0000_0000_0001,
    0x3ff8_0000_0000_0000,
    0x4000_0000_0000_0000,
    0x412e_8480_0000_0000,
    0x4330_0000_0000_0001,
    0x4340_0000_0000_0000,
    0x4340_0000_0000_0001,
    0x7c8f_ffff_ffff_ffff,
    0x7c90_0000_0000_0000,
    0x7c90_0000_0000_0001,
    0x7ca0_0000_0000_0000,
    0x7fe1_ccf3_85eb_c8a0,
    0x7fef_ffff_ffff_fffe,
    0x7fef_ffff_ffff_ffff,
    0x7ff0_0000_0000_0000,
    0x7ff0_0000_0000_0001,
    0x7fff_ffff_ffff_ffff,
];

#[test]
fn worked_readings() {
    for (millimetres, micrometres) in [
        (0.0625, 62),
        (0.1875, 188),
        (0.3125, 312),
        (0.4375, 438),
        (0.0005, 1),
        (0.0015, 2),
        (0.0025, 3),
        (5e-324, 0),
        (-0.0005, -1),
        (-0.0004, 0),
        (-0.0625, -62),
        (-0.1875, -188),
        (0.0, 0),
        (-0.0, 0),
        (1_000.000_5, 1_000_000),
        (1_000_000.0, 1_000_000_000),
        (1_000_000.000_5, 1_000_000_000),
        (-1_000_000.000_5, -1_000_000_000),
    ] {
        let bits = f64::to_bits(millimetres);
        assert_eq!(reading(bits), Reading::At(micrometres), "{millimetres}");
    }
    assert_eq!(BELOW_HALF, 0.0005_f64.to_bits() - 1);
    assert_eq!(reading(BELOW_HALF), Reading::At(0));
}

#[test]
fn beyond_and_not_finite() {
    for beyond in [1_000_000.000_6, 1_000_000.001, 4.5e15, 1e308, f64::MAX] {
        assert_eq!(reading(beyond.to_bits()), Reading::Beyond, "{beyond}");
        assert_eq!(reading((-beyond).to_bits()), Reading::Beyond, "{beyond}");
    }
    for size in [0, 1, 1 << 51, (1 << 52) - 1] {
        let bits = f64::INFINITY.to_bits() + size;
        assert_eq!(reading(bits), Reading::NotFinite);
        assert_eq!(reading(bits | SIGN), Reading::NotFinite);
    }
}

/// The double that is nearest to a half above the greatest µm lies below it;
/// the next one lies above it and is beyond.
#[test]
fn last_double_that_is_read() {
    let last = 1_000_000.000_5_f64.to_bits();
    assert_eq!(reading(last), Reading::At(1_000_000_000));
    assert_eq!(reading(last + 1), Reading::Beyond);
    assert_eq!(reading(last | SIGN), Reading::At(-1_000_000_000));
    assert_eq!(reading((last + 1) | SIGN), Reading::Beyond);
}

/// The reading by the double's decimals, of which 1,074 are all: the point is
/// moved by three places and the digits behind it decide.
fn by_decimals(bits: u64) -> Reading {
    let value = f64::from_bits(bits);
    if !value.is_finite() {
        return Reading::NotFinite;
    }
    let text = format!("{:.1074}", value.abs());
    let (before, behind) = text.split_once('.').unwrap();
    let (three, rest) = behind.split_at(3);
    let digits = format!("{before}{three}");
    let digits = digits.trim_start_matches('0');
    if digits.len() > 10 {
        return Reading::Beyond;
    }
    let down: i64 = format!("0{digits}").parse().unwrap();
    let half = format!("5{}", "0".repeat(rest.len() - 1));
    let size = match rest.cmp(&half) {
        Ordering::Less => down,
        Ordering::Equal => down + down % 2,
        Ordering::Greater => down + 1,
    };
    match size {
        ..=1_000_000_000 if value < 0.0 => Reading::At(-size),
        ..=1_000_000_000 => Reading::At(size),
        _ => Reading::Beyond,
    }
}

#[test]
fn readings_by_decimals() {
    for size in SIZES {
        assert_eq!(reading(size), by_decimals(size), "{size:#x}");
        assert_eq!(reading(size | SIGN), by_decimals(size | SIGN), "{size:#x}");
    }
    let mut rng = Rng::new(1);
    for _ in 0..20_000 {
        let bits = double(&mut rng);
        assert_eq!(reading(bits), by_decimals(bits), "{bits:#x}");
    }
}

/// Checks the reading of m / 2^s, s from 1 to 60, by its inequality: 1,000 × m /
/// 2^s is at most a half from the whole number, and less than a half if that is
/// odd. What is beyond is more than a half from 10^9.
fn is_nearest(bits: u64, m: i128, s: u32) -> bool {
    let one = 1_i128 << s;
    let most = 1_000_000_000;
    let twice_off = |whole: i64| (2 * (1_000 * m - i128::from(whole) * one)).abs();
    match reading(bits) {
        Reading::NotFinite => false,
        Reading::Beyond => 2 * (1_000 * m.abs() - most * one) > one,
        Reading::At(whole) if i128::from(whole).abs() > most => false,
        Reading::At(whole) if whole % 2 == 0 => twice_off(whole) <= one,
        Reading::At(whole) => twice_off(whole) < one,
    }
}

/// Random digits with each exponent, and exact halves with their neighbours.
#[test]
fn readings_by_inequality() {
    let mut rng = Rng::new(2);
    for round in 0..400_000 {
        let s = rng.within(1, 60);
        let any = rng.word() >> 12;
        let bits = match round % 4 {
            0 => (1_075 - s) << 52 | any,
            1 => (1_075 - s) << 52 | any & rng.word() & rng.word(),
            _ => double(&mut rng),
        };
        let exponent = bits >> 52 & 0x7ff;
        if !(1_015..1_075).contains(&exponent) {
            continue;
        }
        let m = i128::from(bits << 12 >> 12 | 1 << 52);
        let m = if bits & SIGN == 0 { m } else { -m };
        let s = 1_075 - exponent as u32;
        assert!(is_nearest(bits, m, s), "{bits:#x} {:?}", reading(bits));
    }
}

/// Checks a difference against the machine's own.
fn is_the_machines(target: u64, offset: u64) {
    let own = difference(target, offset);
    let machine = f64::from_bits(target) - f64::from_bits(offset);
    let same = own == machine.to_bits() || (machine.is_nan() && f64::from_bits(own).is_nan());
    assert!(same, "{target:#x} - {offset:#x}: {own:#x}, {machine:e}");
}

#[test]
fn differences_of_each_class() {
    for one in SIZES {
        for other in SIZES {
            for signs in [[0, 0], [0, SIGN], [SIGN, 0], [SIGN, SIGN]] {
                is_the_machines(one | signs[0], other | signs[1]);
            }
        }
    }
}

#[test]
fn differences_at_random() {
    let mut rng = Rng::new(3);
    for _ in 0..300_000 {
        let [target, offset] = pair(&mut rng);
        is_the_machines(target, offset);
        is_the_machines(rng.word(), rng.word());
        let near = rng.word();
        is_the_machines(near, near ^ rng.word() >> 12 ^ rng.word() << 63);
    }
}

/// Signs of 0, infinities that cancel, the first sum that is infinite, and a
/// difference that one rounding changes.
#[test]
fn differences_by_hand() {
    let of = |one: f64, other: f64| f64::from_bits(difference(one.to_bits(), other.to_bits()));
    let bits = |one: f64, other: f64| of(one, other).to_bits();
    assert_eq!(bits(0.0, 0.0), 0);
    assert_eq!(bits(-0.0, -0.0), 0);
    assert_eq!(bits(0.0, -0.0), 0);
    assert_eq!(bits(-0.0, 0.0), SIGN);
    assert_eq!(bits(2.5, 2.5), 0);
    assert_eq!(bits(-2.5, -2.5), 0);
    assert!(of(f64::INFINITY, f64::INFINITY).is_nan());
    assert_eq!(of(f64::INFINITY, f64::NEG_INFINITY), f64::INFINITY);
    assert_eq!(of(7.0, f64::INFINITY), f64::NEG_INFINITY);
    assert_eq!(of(1e308, -1e308), f64::INFINITY);
    let half_step = 2.0_f64.powi(970);
    assert_eq!(of(f64::MAX, -half_step), f64::INFINITY);
    assert_eq!(of(f64::MAX, -half_step.next_down()), f64::MAX);
    assert_eq!(of(0.3, 0.1), 0.19999999999999998);
}

/// Each power of two with its neighbours, the ends of 32 bits and of what an
/// order is read to, and numbers at random; 0 is not below 0.
#[test]
fn doubles_of_whole_numbers() {
    let powers = (0..53).flat_map(|k| [(1 << k) - 1, 1 << k, (1 << k) + 1]);
    let ends = [0, 1_000_000_000, 4_294_967_295, (1 << 53) - 1];
    let mut rng = Rng::new(4);
    let random: Vec<i64> = (0..10_000).map(|_| rng.signed(1 << 32)).collect();
    for size in powers.chain(ends).chain(random) {
        for whole in [size, -size] {
            assert_eq!(double_of(whole), (whole as f64).to_bits(), "{whole}");
            assert_eq!(f64::from_bits(double_of(whole)) as i64, whole);
        }
    }
    assert_eq!(double_of(0), 0);
    assert_eq!(double_of(62), 62.0_f64.to_bits());
    assert_eq!(
        double_of(i64::from(i32::MIN)),
        (-2_147_483_648.0_f64).to_bits()
    );
}
