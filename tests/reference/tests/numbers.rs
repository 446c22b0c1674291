//! The numbers found by search are the largest, and those by division agree.

use std::collections::BTreeMap;

use reference::generate::{block_of_speed, edge_speeds, limits, path, steps};
use reference::generate::{Cause, Way, CAUSES, WAYS};
use reference::machine::*;
use reference::quick;
use reference::rng::Rng;
use reference::search::largest;

/// A machine, one in three with loaded torque steps, and a pair of blocks for
/// each of many seeds.
fn pairs(count: u64) -> impl Iterator<Item = (Machine, [Block; 2])> {
    (0..count).flat_map(|seed| {
        let mut rng = Rng::new(seed);
        let limits = limits(&mut rng);
        let blocks = path(&mut rng, 12);
        let machine = Machine::of(&limits, &steps(&mut rng)).expect("good limits and steps");
        let pairs: Vec<_> = blocks.windows(2).map(|w| (machine, [w[0], w[1]])).collect();
        pairs
    })
}

#[test]
fn search_finds_the_largest() {
    for bound in 0..300u128 {
        assert_eq!(largest(|n| n <= bound), bound);
        let root = largest(|n| n * n <= bound);
        assert!(root * root <= bound && (root + 1) * (root + 1) > bound);
    }
}

/// v × |move| ≤ limit × L holds at v and on some axis, or by the feed, no
/// longer at v + 1; the same for a at 100 percent, of which a is the torque
/// step's percentage rounded down, or 1.
#[test]
fn speed_and_acceleration_are_the_largest() {
    for (machine, [block, _]) in pairs(2_000) {
        let limits = machine.limits;
        let numbers = Numbers::of(&machine, &block);
        let length = numbers.length as u128;
        let over = |rate: u64, axis_limits: &[u64; 3]| {
            let axes = block.moves.iter().zip(axis_limits);
            let mut products =
                axes.map(|(m, l)| (rate as u128 * m.unsigned_abs() as u128, *l as u128 * length));
            products.any(|(needed, allowed)| needed > allowed)
        };
        assert!(numbers.speed >= 1 && numbers.speed <= block.feed);
        assert!(!over(numbers.speed, &limits.speed));
        assert!(numbers.speed == block.feed || over(numbers.speed + 1, &limits.speed));
        let unreduced = Machine::of(&limits, &[100; 8]).unwrap();
        let full = Numbers::of(&unreduced, &block).accel;
        assert!(!over(full, &limits.accel) && over(full + 1, &limits.accel));
        let kept = full * u64::from(machine.percents[(numbers.speed as usize - 1) / 125_000]);
        assert!(100 * numbers.accel <= kept || numbers.accel == 1);
        assert!(100 * (numbers.accel + 1) > kept);
    }
}

/// Blocks made for a speed have it, on the axes and by the cause asked for.
#[test]
fn edge_speeds_are_met() {
    let mut rng = Rng::new(0);
    for speed in edge_speeds() {
        for (way, cause) in WAYS
            .iter()
            .flat_map(|way| CAUSES.map(|cause| (*way, cause)))
        {
            let (limits, block) = block_of_speed(&mut rng, speed, way, cause);
            let moving = block.moves.iter().filter(|m| **m != 0).count();
            assert_eq!(speed_of(&limits, &block, length_of(&block)), speed);
            assert_eq!(moving == 1, way == Way::Straight);
            assert!(cause == Cause::Feed || block.feed > speed || speed == 1_000_000);
            assert_eq!(check_limits(&limits), Ok(()));
        }
    }
}

#[test]
fn corner_cap_is_the_largest() {
    for (machine, [before, after]) in pairs(2_000) {
        let limits = machine.limits;
        let p = length_of(&before) as i128 * length_of(&after) as i128;
        let products = before.moves.iter().zip(after.moves);
        let s: i128 = products.map(|(a, b)| *a as i128 * b as i128).sum();
        let bound = (limits.jump * limits.jump) as i128 * p;
        match corner_cap(&limits, &before, &after) {
            None => assert!(s >= p),
            Some(q) => {
                let q = q as i128;
                assert!(s < p);
                assert!(q * 2 * (p - s) <= bound && (q + 1) * 2 * (p - s) > bound);
            }
        }
    }
}

#[test]
fn division_agrees_with_search() {
    for (machine, [before, after]) in pairs(4_000) {
        let limits = machine.limits;
        let [a, b] = [before, after].map(|block| Numbers::of(&machine, &block));
        assert_eq!(quick::numbers_of(&machine, &before), a);
        assert_eq!(quick::numbers_of(&machine, &after), b);
        assert_eq!(
            quick::junction_cap(&limits, (&before, &a), (&after, &b)),
            junction_cap(&limits, &before, &after)
        );
    }
}

/// Greatest products of the rules: no number wraps at the ends of the ranges.
#[test]
fn greatest_numbers() {
    let most = Limits {
        accel: [20_000_000; 3],
        speed: [1_000_000; 3],
        jump: 1_000_000,
        chord: 1_000,
        tick: 100,
    };
    let long = Block {
        moves: [1_000_000; 3],
        feed: 1,
        radius: 10_000_000,
        mark: 0,
    };
    let numbers = Numbers::of(&Machine::of(&most, &[]).unwrap(), &long);
    assert_eq!((numbers.length, numbers.accel), (1_732_050, 34_641_000));
    assert_eq!(numbers.reach, 2 * 34_641_000 * 1_732_050);
    let chord_only = block_cap(&most, &long, 4_000_000_000);
    assert_eq!(chord_only, 7_999_600_000_000_000_000);
    let near = Block {
        moves: [1_000_000, 1_000_000, 999_999],
        ..long
    };
    let corner = corner_cap(&most, &long, &near);
    assert!(corner.is_none_or(|q| q > 1_000_000_000_000));
}

/// Entry and exit squared speeds, (µm/s)², that a plan can give a block: at
/// rest, at the most from rest, and near the cap, half a µm below it and one
/// (µm/s)² to either side of that.
fn plan_speeds(numbers: &Numbers) -> Vec<(u64, u64)> {
    let (cap, most) = (numbers.cap, numbers.cap.min(numbers.reach));
    let half = cap.saturating_sub(numbers.accel);
    let mut speeds = vec![(0, 0), (most, 0), (0, most), (most, most), (most / 2, most)];
    for near in [half.saturating_sub(1), half, half + 1] {
        speeds.extend([(near, cap), (cap, near), (near, near)]);
    }
    speeds
}

/// Distances of the exact length change / (2 × a) from the whole number before
/// `length`, from `length` and from the one after it, each × 2 × a.
fn distances(change: u64, accel: u64, length: u64) -> [u128; 3] {
    let whole = |step: i128| (length as i128 + step) * 2 * accel as i128;
    [-1, 0, 1].map(|step| (parts(change) as i128).abs_diff(whole(step)))
}

/// Checks the lengths of a ramp: no whole number is nearer to the exact length
/// than up or down is, of two as near up is the lower and down the higher, both
/// are within the block, and cruise is the rest. Tells if up was an exact half,
/// if down was, and if the two exact lengths fill the block.
fn check_lengths(numbers: &Numbers, rise: u64, fall: u64, ramp: &Ramp) -> [bool; 3] {
    let [before, up, after] = distances(rise, numbers.accel, ramp.up);
    assert!(up < before && up <= after, "{numbers:?} {ramp:?}");
    let up_is_half = up == after;
    let [before, down, after] = distances(fall, numbers.accel, ramp.down);
    assert!(down <= before && down < after, "{numbers:?} {ramp:?}");
    let down_is_half = down == before;
    assert!(ramp.up + ramp.down <= numbers.length);
    assert_eq!(ramp.up + ramp.cruise + ramp.down, numbers.length);
    let full = parts(rise + fall) == 2 * numbers.accel * numbers.length;
    [up_is_half, down_is_half, full]
}

/// A peak is the largest within cap and reach, and the lengths are right. Up
/// is an exact half or not, down is or not, and the two fill the block or not:
/// each of these occurs but a single half in a full block, which cannot be.
#[test]
fn ramps() {
    let mut met = BTreeMap::new();
    for (machine, [block, _]) in pairs(2_000) {
        let numbers = Numbers::of(&machine, &block);
        for (entry, exit) in plan_speeds(&numbers) {
            let ramp = ramp_of(&numbers, entry, exit);
            assert_eq!(quick::ramp_of(&numbers, entry, exit), ramp);
            assert!(ramp.peak >= entry && ramp.peak >= exit && ramp.peak <= numbers.cap);
            let over = 2 * (ramp.peak + 1) > numbers.reach + entry + exit;
            assert!(ramp.peak == numbers.cap || over);
            let kind = check_lengths(&numbers, ramp.peak - entry, ramp.peak - exit, &ramp);
            *met.entry(kind).or_insert(0) += 1;
        }
    }
    let often = met.values().all(|times| *times > 1_000);
    assert!(met.len() == 6 && often, "{met:?}");
}
