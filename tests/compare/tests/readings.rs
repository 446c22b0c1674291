//! The doubles of orders one by one: what the library reads in each field,
//! against the reference's reading of the same bits.
//!
//! A coordinate goes with a rapid from a host that is one µm beside what should
//! be read, so that every reading within 1,000,000,000 is a legal move; the
//! host's point then tells what was read. Speed and radius come back with the
//! block.

use compare::library::{HOST, NUMBERS, POINT};
use compare::proved::{Host, Planner};
use compare::{report, same, seeds, Trying};
use reference::doubles::{difference, double_of, reading, Reading};
use reference::generate::{double, exact_half, machine_m, pair};
use reference::host::{Order, Point};
use reference::line::LookAhead;
use reference::machine::Block;
use reference::rng::Rng;

/// The sign's bit, those of the infinity above 0 and of the fraction.
const SIGN: u64 = 1 << 63;
const INFINITY: u64 = 0x7ff << 52;
const FRACTION: u64 = (1 << 52) - 1;

/// Fractions at the ends and about the middle.
const EDGES: [u64; 9] = [
    0,
    1,
    2,
    (1 << 51) - 1,
    1 << 51,
    (1 << 51) + 1,
    0x000f_4240_0000_0000,
    FRACTION - 1,
    FRACTION,
];

/// Doubles about which all are read: the ends of what is read, of moves, speeds
/// and radii, powers of two above and below them, and where a double's last
/// digit is a whole number.
const AROUND: [f64; 26] = [
    0.000_5,
    0.001,
    0.001_5,
    1.0,
    999.999_5,
    1_000.0,
    1_000.000_5,
    1_024.0,
    9_999.999_5,
    10_000.0,
    10_000.000_5,
    524_288.0,
    999_999.999,
    999_999.999_5,
    1_000_000.0,
    1_000_000.000_5,
    1_000_000.001,
    1_048_576.0,
    2_097_152.0,
    4_194_304.0,
    1_000_000_000.0,
    2_147_483.648,
    4_294_967.296,
    4_503_599_627_370_496.0,
    9_007_199_254_740_992.0,
    18_446_744_073_709_551_616.0,
];
/// Doubles on either side of each.
const BESIDE: i64 = 200;

/// What was read, or the number of the refusal.
type Read = Result<u64, u64>;

/// The memory of a fresh planner on machine M.
struct Fresh {
    memory: [u64; NUMBERS],
}

impl Fresh {
    fn new() -> Fresh {
        let planner = Planner::fresh(&machine_m(), &[]).expect("machine M passes");
        let memory = planner.memory().try_into().expect("848 numbers");
        Fresh { memory }
    }

    /// The point after a rapid from another that differs on one axis, by the
    /// bits of that axis's double.
    fn coordinate(&self, axis: usize, [target, offset]: [u64; 2], from: i64) -> Read {
        let mut numbers = [0; HOST];
        numbers[axis] = u64::from(from as u32);
        let on_axis = |bits: u64| {
            let mut point: Point = [0; POINT];
            point[axis] = bits;
            point
        };
        let mut planner = Planner::of_memory(&self.memory);
        let mut host = Host::of_numbers(&numbers);
        let answer = host.order(
            &mut planner,
            &Order::Rapid(on_axis(target)),
            &on_axis(offset),
        );
        let point = host.position();
        let others = (0..POINT).filter(|other| *other != axis);
        others.for_each(|other| assert_eq!(point[other], 0, "axis {other}"));
        answer
            .map(|()| point[axis])
            .map_err(|refusal| refusal.number())
    }

    /// The block of an order from the fresh host.
    fn block(&self, order: Order) -> Result<Block, u64> {
        let mut planner = Planner::of_memory(&self.memory);
        let answer = Host::fresh().order(&mut planner, &order, &[0; POINT]);
        answer.map_err(|refusal| refusal.number())?;
        Ok(planner.take().expect("a block held").block)
    }
}

/// What a reading on an axis must lead to: the double of the whole number.
fn expected_coordinate(reading: Reading) -> Read {
    match reading {
        Reading::NotFinite => Err(15),
        Reading::Beyond => Err(16),
        Reading::At(whole) => Ok(double_of(whole)),
    }
}

/// What the reading of a speed or a radius must lead to: the whole number,
/// where it is from `least` to `most`; where it is not, the number of the add's
/// refusal.
fn expected_amount(reading: Reading, [least, most]: [i64; 2], refusal: u64) -> Read {
    match reading {
        Reading::NotFinite => Err(15),
        Reading::Beyond | Reading::At(..=-1) => Err(16),
        Reading::At(whole) if (least..=most).contains(&whole) => Ok(whole as u64),
        Reading::At(_) => Err(refusal),
    }
}

/// Compares what is read of target − offset on an axis.
fn compare_coordinate(seed: u64, fresh: &Fresh, axis: usize, [target, offset]: [u64; 2]) {
    let reading = reading(difference(target, offset));
    let beside = if target & 1 == 0 { 1 } else { -1 };
    let from = match reading {
        Reading::At(whole) => whole + beside,
        _ => 0,
    };
    let found = fresh.coordinate(axis, [target, offset], from);
    let input = || format!("{target:#x} - {offset:#x} on axis {axis}, from {from}");
    same(seed, input, found, expected_coordinate(reading));
}

/// Compares what is read of a double as a speed and as a radius.
fn compare_amounts(seed: u64, fresh: &Fresh, bits: u64) {
    let there = [1.0_f64.to_bits(), 0, 0];
    let reading = reading(bits);
    let input = || format!("{bits:#x}");
    let block = fresh.block(Order::Feed(there, bits));
    let speed = expected_amount(reading, [1, 1_000_000], 4);
    same(seed, input, block.map(|block| block.feed), speed);
    let slow = 20.0_f64.to_bits();
    let block = fresh.block(Order::CurveChord(there, slow, bits));
    let radius = expected_amount(reading, [0, 10_000_000], 5);
    same(seed, input, block.map(|block| block.radius), radius);
}

/// Compares each double in the fields: on one axis after the other without an
/// offset, as an offset of 0, as a speed and as a radius.
fn compare_all(doubles: &[u64], what: &str) {
    let lists = doubles.chunks(1_000);
    let count = lists.len() as u64;
    for (seed, list) in seeds(count).zip(lists) {
        let _trying = Trying::seed(seed);
        let fresh = Fresh::new();
        for (place, bits) in list.iter().enumerate() {
            compare_coordinate(seed, &fresh, place % 3, [*bits, 0]);
            compare_coordinate(seed, &fresh, (place + 1) % 3, [0, *bits]);
            compare_amounts(seed, &fresh, *bits);
        }
    }
    report(doubles.len(), what);
}

/// Each size with both signs.
fn with_signs(sizes: impl Iterator<Item = u64>) -> Vec<u64> {
    sizes.flat_map(|size| [size, size | SIGN]).collect()
}

/// The doubles up to `beside` of them away from one above 0.
fn about(value: f64, beside: i64) -> impl Iterator<Item = u64> {
    let bits = value.to_bits();
    (-beside..=beside).map(move |by| bits.wrapping_add_signed(by))
}

/// Every exponent: 0 for zeros and subnormals, 2,047 for infinities and what is
/// no number, with payloads.
#[test]
fn every_exponent_is_read_alike() {
    let sizes = (0..2_048).flat_map(|exponent| EDGES.map(|fraction| exponent << 52 | fraction));
    compare_all(&with_signs(sizes), "doubles of every exponent");
}

/// The doubles nearest to odd numbers of halves of a µm, up to ten mm, and two
/// on either side of each.
#[test]
fn doubles_beside_halves_are_read_alike() {
    let halves = (0..10_000).map(|k| f64::from(2 * k + 1) / 2_000.0);
    let sizes = halves.flat_map(|half| about(half, 2));
    compare_all(&with_signs(sizes), "doubles beside halves of a µm");
}

/// Odd numbers of sixteenths of a mm, which are exact halves of a µm, and the
/// double on either side of each: the first ones, and some up to the greatest.
#[test]
fn exact_halves_are_read_alike() {
    let mut rng = Rng::new(5);
    let first = (0..4_000).map(|k| f64::from(2 * k + 1) / 16.0);
    let drawn = (0..4_000).map(|_| f64::from_bits(exact_half(&mut rng)).abs());
    let sizes = first.chain(drawn).flat_map(|half| about(half, 1));
    compare_all(
        &with_signs(sizes),
        "exact halves of a µm and their neighbours",
    );
}

#[test]
fn doubles_about_the_ends_are_read_alike() {
    let sizes = AROUND.into_iter().flat_map(|end| about(end, BESIDE));
    compare_all(&with_signs(sizes), "doubles about the ends");
}

/// Doubles of every class, and such as have all digits at random: of any
/// exponent, or of one that is read.
#[test]
fn drawn_doubles_are_read_alike() {
    let mut rng = Rng::new(compare::first_seed());
    let mut draw = |k: u32| match k % 4 {
        0 => rng.word(),
        1 => rng.pick(&[0, SIGN]) | rng.within(1_023 - 13, 1_023 + 20) << 52 | rng.word() >> 12,
        _ => double(&mut rng),
    };
    let doubles: Vec<u64> = (0..60_000).map(&mut draw).collect();
    compare_all(&doubles, "doubles at random");
}

/// What is no number or infinite, by its bits.
fn not_finite() -> Vec<u64> {
    let payloads = (0..52).flat_map(|k| [1 << k, (1 << k) - 1, FRACTION >> k]);
    with_signs(payloads.map(|payload| INFINITY | payload))
}

#[test]
fn every_payload_is_refused_alike() {
    let doubles = not_finite();
    let finite = doubles
        .iter()
        .filter(|bits| f64::from_bits(**bits).is_finite());
    assert_eq!(finite.count(), 0);
    compare_all(&doubles, "infinities and what is no number");
}

/// Sizes of every class.
const SIZES: [u64; 23] = [
    0,
    1,
    0x0008_0000_0000_0000,
    0x000f_ffff_ffff_ffff,
    0x0010_0000_0000_0000,
    0x3e45_798e_e230_8c3a,
    0x3f40_624d_d2f1_a9fb,
    0x3f40_624d_d2f1_a9fc,
    0x3fb0_0000_0000_0000,
    0x3fb9_9999_9999_999a,
    0x3fc8_0000_0000_0000,
    0x3ff0_0000_0000_0000,
    0x3ff0_0000_0000_0001,
    0x408f_4000_0000_0000,
    0x412e_8480_0000_0000,
    0x412e_8480_0041_8937,
    0x412e_8480_0041_8938,
    0x4340_0000_0000_0001,
    0x7fe1_ccf3_85eb_c8a0,
    0x7fef_ffff_ffff_ffff,
    INFINITY,
    INFINITY | 1,
    INFINITY | FRACTION,
];

/// Targets and offsets of every class with every other, on each axis.
#[test]
fn offsets_of_each_class_are_subtracted_alike() {
    let all = with_signs(SIZES.into_iter());
    let mut count = 0;
    for (seed, target) in seeds(all.len() as u64).zip(&all) {
        let _trying = Trying::seed(seed);
        let fresh = Fresh::new();
        for offset in &all {
            for axis in 0..POINT {
                compare_coordinate(seed, &fresh, axis, [*target, *offset]);
                count += 1;
            }
        }
    }
    report(count, "targets and offsets of each class");
}

/// A target, and an offset so small that their difference is rounded to the
/// target or to a double beside it: the exact difference would be read
/// otherwise where the target is an exact half of a µm.
fn half_and_less(rng: &mut Rng) -> [u64; 2] {
    let half = exact_half(rng);
    let exponent = half >> 52 & 0x7ff;
    let less = exponent - rng.within(50, 70);
    let offset = rng.pick(&[0, SIGN]) | less << 52 | rng.word() >> rng.within(12, 64).min(63);
    [half, offset]
}

#[test]
fn differences_are_read_alike() {
    let mut count = 0;
    for seed in seeds(60) {
        let _trying = Trying::seed(seed);
        let mut rng = Rng::new(seed);
        let fresh = Fresh::new();
        for axis in (0..POINT).cycle().take(1_800) {
            compare_coordinate(seed, &fresh, axis, pair(&mut rng));
            compare_coordinate(seed, &fresh, axis, half_and_less(&mut rng));
            count += 2;
        }
    }
    report(count, "differences of two doubles");
}

/// The readings of the rules' worked examples, by their own numbers.
#[test]
fn worked_readings() {
    let fresh = Fresh::new();
    let worked = [
        (0.0625, Ok(62.0)),
        (0.1875, Ok(188.0)),
        (-0.0625, Ok(-62.0)),
        (0.000_5, Ok(1.0)),
        (0.000_5_f64.next_down(), Ok(0.0)),
        (0.002_5, Ok(3.0)),
        (-0.000_4, Ok(0.0)),
        (1_000_000.000_5, Ok(1_000_000_000.0)),
        (-1_000_000.000_5, Ok(-1_000_000_000.0)),
        (1_000_000.000_5_f64.next_up(), Err(16)),
        (1_000_000.000_6, Err(16)),
        (f64::NAN, Err(15)),
        (f64::NEG_INFINITY, Err(15)),
    ];
    for (millimetres, expected) in worked {
        let from = expected.map_or(0, |whole: f64| whole as i64 - 1);
        let found = fresh.coordinate(0, [millimetres.to_bits(), 0], from);
        assert_eq!(found, expected.map(f64::to_bits), "{millimetres}");
    }
    report(worked.len(), "worked readings");
}
