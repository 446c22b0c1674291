//! What the seeded doubles and events are like.

use std::collections::BTreeMap;

use reference::doubles::{difference, reading, Reading};
use reference::generate::{double, event, events, machine_m, pair};
use reference::host::Host;
use reference::incremental::Planner;
use reference::line::LookAhead;
use reference::orders::Event;
use reference::rng::Rng;

/// Doubles and events that are drawn.
const DRAWN: usize = 40_000;

/// A class of doubles: its name, once in how many it must be drawn, and what
/// holds of their bits.
type Class = (&'static str, usize, fn(u64) -> bool);

/// Checks that each class is drawn often enough.
fn frequent(doubles: &[u64], conditions: &[Class]) {
    for (name, once_in, holds) in conditions {
        let count = doubles.iter().filter(|bits| holds(**bits)).count();
        assert!(count * once_in > doubles.len(), "{name}: {count}");
    }
}

/// True of an exact half of a µm, an odd number of sixteenths of a mm.
fn is_half(bits: u64) -> bool {
    let sixteenths = f64::from_bits(bits) * 16.0;
    sixteenths.rem_euclid(2.0) == 1.0 && reading(bits) != Reading::Beyond
}

#[test]
fn every_class_is_drawn() {
    let mut rng = Rng::new(1);
    let doubles: Vec<u64> = (0..DRAWN).map(|_| double(&mut rng)).collect();
    frequent(
        &doubles,
        &[
            ("below 0", 3, |bits| bits >> 63 == 1),
            ("no number", 60, |bits| f64::from_bits(bits).is_nan()),
            ("signalling", 120, |bits| {
                f64::from_bits(bits).is_nan() && bits >> 51 & 1 == 0
            }),
            ("infinite", 120, |bits| f64::from_bits(bits).is_infinite()),
            ("subnormal", 60, |bits| f64::from_bits(bits).is_subnormal()),
            ("0", 200, |bits| bits == 0),
            ("-0", 200, |bits| bits == 1 << 63),
            ("half", 25, is_half),
            ("next to a half", 60, |bits| is_half(bits.wrapping_sub(1))),
            ("next to a half", 60, |bits| is_half(bits.wrapping_add(1))),
            ("beyond", 8, |bits| reading(bits) == Reading::Beyond),
            ("greatest", 2_000, |bits| {
                bits << 1 == f64::MAX.to_bits() << 1
            }),
            ("last", 800, |bits| {
                matches!(reading(bits), Reading::At(1_000_000_000 | -1_000_000_000))
            }),
            ("to 1", 120, |bits| {
                matches!(reading(bits), Reading::At(1 | -1))
            }),
        ],
    );
}

/// Differences are of each class, some of finite doubles are infinite, and many
/// are rounded.
#[test]
fn pairs_belong_together() {
    let mut rng = Rng::new(2);
    let pairs: Vec<[u64; 2]> = (0..DRAWN).map(|_| pair(&mut rng)).collect();
    let differences: Vec<u64> = pairs.iter().map(|[t, o]| difference(*t, *o)).collect();
    frequent(
        &differences,
        &[
            ("0", 20, |bits| bits == 0),
            ("-0", 2_000, |bits| bits == 1 << 63),
            ("subnormal", 20, |bits| f64::from_bits(bits).is_subnormal()),
            ("half", 40, is_half),
            ("read", 4, |bits| matches!(reading(bits), Reading::At(_))),
        ],
    );
    let finite = |bits: u64| f64::from_bits(bits).is_finite();
    let passing = |[t, o]: &&[u64; 2]| finite(*t) && finite(*o) && !finite(difference(*t, *o));
    assert!(pairs.iter().filter(passing).count() * 100 > DRAWN);
    let inexact = |[t, o]: &&[u64; 2]| {
        let found = difference(*t, *o);
        finite(found) && difference(*t, found) << 1 != *o << 1
    };
    assert!(pairs.iter().filter(inexact).count() * 10 > DRAWN);
}

/// An order that was accepted: its moves, µm, and whether a coordinate was an
/// exact half of a µm.
struct Accepted {
    moves: [i64; 3],
    half: bool,
}

/// Runs events on machine M and counts each answer, 0 for an accepted order and
/// 100 for a block given out; gives the accepted orders.
fn answers(events: &[Event], counts: &mut BTreeMap<u64, usize>) -> Vec<Accepted> {
    let mut planner = Planner::fresh(&machine_m(), &[]).unwrap();
    let (mut host, mut accepted) = (Host::default(), Vec::new());
    for event in events {
        let from = host.point();
        let answer = match event.order() {
            None => planner.take().map(|_| 100),
            Some(order) => host.order(&mut planner, &order, &event.offset).map(|()| 0),
        };
        if answer == Ok(0) {
            let left = |axis: usize| difference(event.target[axis], event.offset[axis]);
            accepted.push(Accepted {
                moves: [0, 1, 2].map(|axis| host.point()[axis] - from[axis]),
                half: (0..3).any(|axis| is_half(left(axis))),
            });
        }
        let key = answer.unwrap_or_else(|refusal| refusal.number());
        *counts.entry(key).or_insert(0) += 1;
    }
    accepted
}

/// Checks that an answer comes once in so many of all.
fn often(counts: &BTreeMap<u64, usize>, least: &[(u64, usize)]) {
    let all: usize = counts.values().sum();
    for (key, once_in) in least {
        let count = counts.get(key).copied().unwrap_or(0);
        assert!(count * once_in > all, "{key}: {counts:?}");
    }
}

#[test]
fn lists_meet_every_answer() {
    let (mut counts, mut accepted) = (BTreeMap::new(), Vec::new());
    for seed in 0..600 {
        let list = events(&mut Rng::new(seed), 200);
        accepted.extend(answers(&list, &mut counts));
    }
    often(&counts, &[(0, 3), (100, 5), (2, 30), (3, 100), (4, 200)]);
    often(&counts, &[(5, 1_000), (7, 30), (8, 10), (15, 60), (16, 40)]);
    let by = |size: i64| {
        let as_long = |one: &&Accepted| one.moves.iter().any(|m| m.abs() == size);
        accepted.iter().filter(as_long).count()
    };
    assert!(by(1) * 20 > accepted.len() && by(1_000_000) * 400 > accepted.len());
    let halves = accepted.iter().filter(|one| one.half).count();
    assert!(halves * 20 > accepted.len(), "{halves}");
}

#[test]
fn single_events_are_refused_by_each_field() {
    let mut rng = Rng::new(3);
    let mut counts = BTreeMap::new();
    for _ in 0..DRAWN {
        answers(&[event(&mut rng)], &mut counts);
    }
    often(&counts, &[(0, 60), (3, 20), (8, 10), (15, 10), (16, 4)]);
    often(&counts, &[(2, 100), (4, 100), (5, 1_000)]);
}
