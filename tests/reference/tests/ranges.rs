//! Both ends of each range and one beyond, and the order of the checks.

use std::collections::BTreeSet;

use reference::generate::{
    faulty_block, faulty_limits, faulty_steps, limits, limits_and_path, loaded_steps, machine_m,
    path, steps, BLOCK_FAULTS,
};
use reference::machine::*;
use reference::refusal::Refusal;
use reference::rng::Rng;

const GOOD: Block = Block {
    moves: [1, 2, 3],
    feed: 20_000,
    radius: 0,
    mark: 0,
};

/// Checks `low` and `high` accepted, and one beyond each refused by 1.
fn limit_ends(low: u64, high: u64, set: impl Fn(&mut Limits, u64)) {
    let answer = |value| {
        let mut limits = machine_m();
        set(&mut limits, value);
        check_limits(&limits)
    };
    assert_eq!(answer(low), Ok(()));
    assert_eq!(answer(high), Ok(()));
    assert_eq!(answer(low - 1), Err(Refusal::Limits));
    assert_eq!(answer(high + 1), Err(Refusal::Limits));
    assert_eq!(answer(u64::MAX), Err(Refusal::Limits));
}

#[test]
fn limits_at_their_ends() {
    for axis in 0..3 {
        limit_ends(1, 20_000_000, |limits, v| limits.accel[axis] = v);
        limit_ends(1, 1_000_000, |limits, v| limits.speed[axis] = v);
    }
    limit_ends(1, 1_000_000, |limits, v| limits.jump = v);
    limit_ends(1, 1_000, |limits, v| limits.chord = v);
    limit_ends(100, 10_000, |limits, v| limits.tick = v);
}

#[test]
fn moves_at_their_ends() {
    for axis in 0..3 {
        let answer = |value| {
            let mut block = GOOD;
            block.moves[axis] = value;
            check_block(&block)
        };
        for good in [-1_000_000, -1, 0, 1, 1_000_000] {
            assert_eq!(answer(good), Ok(()));
        }
        for bad in [-1_000_001, 1_000_001, i64::MIN, i64::MAX] {
            assert_eq!(answer(bad), Err(Refusal::Long));
        }
    }
    let still = Block {
        moves: [0; 3],
        ..GOOD
    };
    assert_eq!(check_block(&still), Err(Refusal::Still));
}

#[test]
fn feed_radius_and_mark_at_their_ends() {
    let fed = |feed| check_block(&Block { feed, ..GOOD });
    let curved = |radius| check_block(&Block { radius, ..GOOD });
    let marked = |mark| check_block(&Block { mark, ..GOOD });
    for good in [fed(1), fed(1_000_000), curved(0), curved(10_000_000)] {
        assert_eq!(good, Ok(()));
    }
    assert_eq!((marked(0), marked(2_097_151)), (Ok(()), Ok(())));
    for bad in [fed(0), fed(1_000_001), fed(u64::MAX)] {
        assert_eq!(bad, Err(Refusal::Feed));
    }
    for bad in [curved(10_000_001), curved(u64::MAX)] {
        assert_eq!(bad, Err(Refusal::Radius));
    }
    for bad in [marked(2_097_152), marked(u64::MAX)] {
        assert_eq!(bad, Err(Refusal::Mark));
    }
}

/// Where several refusals hold, the least number is given.
#[test]
fn first_of_several_faults() {
    let mut rng = Rng::new(1);
    for _ in 0..200 {
        for faults in BLOCK_FAULTS {
            let block = faulty_block(&mut rng, faults, false);
            let number = check_block(&block).unwrap_err().number();
            assert_eq!(Some(&number), faults.iter().min());
        }
    }
}

#[test]
fn generated_limits_and_paths_are_what_they_say() {
    let mut rng = Rng::new(2);
    for _ in 0..2_000 {
        assert_eq!(check_limits(&limits(&mut rng)), Ok(()));
        assert!(check_limits(&faulty_limits(&mut rng)).is_err());
        let (limits, mut blocks) = limits_and_path(&mut rng, 20);
        assert_eq!(check_limits(&limits), Ok(()));
        blocks.extend(path(&mut rng, 20));
        for block in blocks {
            assert_eq!(check_block(&block), Ok(()));
        }
    }
}

/// Loaded steps are accepted and have every shape; steps at large are loaded
/// one time of three.
#[test]
fn generated_steps_are_what_they_say() {
    let mut rng = Rng::new(3);
    let met: BTreeSet<Vec<u8>> = (0..4_000).map(|_| loaded_steps(&mut rng)).collect();
    for list in &met {
        assert_eq!(read_steps(list).unwrap()[..], *list);
    }
    let shape = |like: fn(u8, u8) -> bool| {
        let pairs = |list: &&Vec<u8>| list.windows(2).all(|pair| like(pair[0], pair[1]));
        met.iter().filter(pairs).count()
    };
    assert!(shape(|a, b| a == b) > 90 && shape(|a, b| a > b) > 500);
    for list in [[1; 8], [100; 8], BUILT_IN] {
        assert!(met.contains(&list[..]), "{list:?}");
    }
    for place in 1..8 {
        let mut drop = [100; 8];
        drop[place..].fill(1);
        assert!(met.contains(&drop[..]), "{place}");
    }
    let loaded = (0..3_000).filter(|_| !steps(&mut rng).is_empty()).count();
    assert!((900..1_100).contains(&loaded), "{loaded}");
}

/// The one fault of a list: its length, a first byte above 100, a last byte of
/// 0, or the place of a rise by 1; None if there are several.
fn single_fault(list: &[u8]) -> Option<(&'static str, usize)> {
    let rises: Vec<usize> = (1..list.len()).filter(|k| list[*k] > list[k - 1]).collect();
    let outside = list.iter().filter(|p| !(1..=100).contains(*p)).count();
    match (list.len(), outside, &rises[..]) {
        (8, 1, []) if list[0] > 100 => Some(("above", usize::from(list[0]))),
        (8, 1, []) => Some(("zero", 7)),
        (8, 0, [k]) => (list[*k] == list[k - 1] + 1).then_some(("rise", *k)),
        (8, _, _) => None,
        (length, 0, []) => Some(("length", length)),
        _ => None,
    }
}

/// Faulty steps are refused, and each fault occurs alone.
#[test]
fn generated_faulty_steps_are_what_they_say() {
    let mut rng = Rng::new(4);
    let mut met = BTreeSet::new();
    for _ in 0..8_000 {
        let list = faulty_steps(&mut rng);
        assert_eq!(read_steps(&list), Err(Refusal::Steps), "{list:?}");
        met.extend(single_fault(&list));
    }
    for length in [1, 2, 3, 4, 5, 6, 7, 9, 10, 16, 256, 264] {
        assert!(met.contains(&("length", length)), "{length}");
    }
    assert!((1..8).all(|place| met.contains(&("rise", place))));
    assert!(met.contains(&("zero", 7)) && met.contains(&("above", 101)));
    assert!(met.contains(&("above", 255)));
}
