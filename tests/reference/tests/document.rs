//! Document 01's proof cases.

use reference::generate::machine_m;
use reference::incremental::Planner;
use reference::line::{Line, LookAhead};
use reference::machine::*;
use reference::machine_cases::block;
use reference::plan::{highest, Course};
use reference::refusal::Refusal;

/// The machine of good limits with the built-in torque steps.
fn on(limits: Limits) -> Machine {
    Machine::of(&limits, &[]).unwrap()
}

fn plan(blocks: &[Block]) -> Option<Vec<u64>> {
    highest(&Course::of(&on(machine_m()), blocks, 0))
}

#[test]
fn lengths() {
    assert_eq!(length_of(&block(1, 0, 0)), 1);
    assert_eq!(length_of(&block(1, 1, 0)), 1);
    assert_eq!(length_of(&block(2, 2, 1)), 3);
    let longest = block(1_000_000, -1_000_000, 1_000_000);
    assert_eq!(length_of(&longest), 1_732_050);
}

#[test]
fn acceleration_and_reach() {
    let numbers = Numbers::of(&on(machine_m()), &block(3, 4, 0));
    assert_eq!((numbers.accel, numbers.reach), (250_000, 2_500_000));
}

#[test]
fn corners() {
    let along = block(1_000, 0, 0);
    let cap = |after| corner_cap(&machine_m(), &along, &after);
    assert_eq!(cap(block(0, 1_000, 0)), Some(2_000_000));
    assert_eq!(cap(block(-1_000, 0, 0)), Some(1_000_000));
    assert_eq!(cap(along), None);
}

/// Document 02's chord caps on machine M, at a speed that is above them.
#[test]
fn chord() {
    let limits = machine_m();
    let curved = |radius| Block {
        radius,
        ..block(1_000, 0, 0)
    };
    let chord_cap = |radius| block_cap(&limits, &curved(radius), 1_000_000);
    assert_eq!(chord_cap(1_000), 1_999_000_000);
    assert_eq!(chord_cap(1), 1_000_000);
    assert_eq!(Numbers::of(&on(limits), &curved(1_000)).cap, 400_000_000);
}

#[test]
fn one_block() {
    assert_eq!(plan(&[block(1_000, 0, 0)]), Some(vec![0, 0]));
    let ramp = given(&on(machine_m()), &block(1_000, 0, 0), 0, 0).ramp;
    assert_eq!(ramp.peak, 200_000_000);
    assert_eq!((ramp.up, ramp.cruise, ramp.down), (500, 0, 500));
}

/// From rest to rest along an odd length up and down are exact halves: that of
/// up goes down and that of down goes up.
#[test]
fn odd_lengths() {
    let ramp = |length| {
        let ramp = given(&on(machine_m()), &block(length, 0, 0), 0, 0).ramp;
        (ramp.up, ramp.cruise, ramp.down)
    };
    assert_eq!(ramp(1), (0, 0, 1));
    assert_eq!(ramp(3), (1, 0, 2));
    assert_eq!(ramp(5), (2, 0, 3));
    assert_eq!(ramp(1_001), (500, 0, 501));
}

#[test]
fn two_blocks() {
    let two = [block(1_000, 0, 0); 2];
    assert_eq!(plan(&two), Some(vec![0, 400_000_000, 0]));
}

fn sixty_four_places<P: LookAhead>() {
    let mut planner = P::fresh(&machine_m(), &[]).unwrap();
    for _ in 0..64 {
        assert_eq!(planner.add(&block(1_000, 0, 0)), Ok(()));
    }
    assert_eq!(planner.add(&block(1_000, 0, 0)), Err(Refusal::Full));
    assert_eq!(planner.told(), 64);
    assert!(planner.take().is_ok());
    assert_eq!(planner.add(&block(1_000, 0, 0)), Ok(()));
}

#[test]
fn add_65_is_refused_until_a_take() {
    sixty_four_places::<Line>();
    sixty_four_places::<Planner>();
}

#[test]
fn move_and_feed_ends() {
    let fed = |feed| Block {
        feed,
        ..block(1, 0, 0)
    };
    assert_eq!(check_block(&block(1_000_000, 0, 0)), Ok(()));
    assert_eq!(check_block(&block(1_000_001, 0, 0)), Err(Refusal::Long));
    assert_eq!(check_block(&fed(1_000_000)), Ok(()));
    assert_eq!(check_block(&fed(1_000_001)), Err(Refusal::Feed));
    assert_eq!(check_block(&fed(0)), Err(Refusal::Feed));
}

/// The step follows the block speed, not the feed, and changes at 125,001.
#[test]
fn torque_steps() {
    let accel = |feed| {
        let fast = Block {
            feed,
            ..block(1_000, 0, 0)
        };
        Numbers::of(&on(machine_m()), &fast).accel
    };
    let percents = [100, 100, 90, 80, 70, 60, 50, 40];
    for (step, percent) in percents.iter().enumerate() {
        let first = 125_000 * step as u64;
        assert_eq!(accel(first + 1), 2_000 * percent);
        assert_eq!(accel(first + 125_000), 2_000 * percent);
    }
    let held_back = Limits {
        speed: [100_000; 3],
        ..machine_m()
    };
    let fast = Block {
        feed: 1_000_000,
        ..block(1_000, 0, 0)
    };
    assert_eq!(Numbers::of(&on(held_back), &fast).accel, 200_000);
}

/// An acceleration that the percentage rounds to 0 stays 1.
#[test]
fn acceleration_is_at_least_one() {
    let weak = Limits {
        accel: [1; 3],
        ..machine_m()
    };
    let fast = Block {
        feed: 1_000_000,
        ..block(1_000, 0, 0)
    };
    assert_eq!(Numbers::of(&on(weak), &fast).accel, 1);
}

/// Lengths rounded down: some tiny turns have no corner cap, a reversal of
/// (1,1,1) has J × J / 8, and J = 1 has cap 0 at a right angle.
#[test]
fn tiny_corners() {
    let limits = machine_m();
    let cap = |a, b| corner_cap(&limits, &a, &b);
    assert_eq!(cap(block(1, 1, 1), block(1, 1, -1)), None);
    let back = cap(block(1, 1, 1), block(-1, -1, -1));
    assert_eq!(back, Some(500_000));
    let slow = Limits { jump: 1, ..limits };
    let right = corner_cap(&slow, &block(9, 0, 0), &block(0, 9, 0));
    assert_eq!(right, Some(0));
}
