//! The events that the program `planorders` is run with: worked ones, one for
//! each refusal, the line filled and run empty, and a host at work.

use crate::generate::{events, machine_m};
use crate::orders::{pack_orders, Event};
use crate::rng::Rng;

/// Seed and number of the events of the host at work.
const SEED: u64 = 36;
const AT_WORK: usize = 240;
/// Bytes that are missing from the last event.
const MISSING: usize = 1;

/// The bytes of the events on machine M; the last event is cut.
pub fn order_cases() -> Vec<u8> {
    let mut all = worked();
    all.extend(refused());
    all.extend([Event::take(); 3]);
    all.extend(filled());
    all.extend(events(&mut Rng::new(SEED), AT_WORK));
    let mut bytes = pack_orders(&machine_m(), &all);
    bytes.truncate(bytes.len() - MISSING);
    bytes
}

/// A right angle, the same point again, a point that is no number, and a way
/// back over exact halves of a µm, with two takes. Two blocks stay held.
pub fn worked() -> Vec<Event> {
    vec![
        Event::feed([1.0, 0.0, 0.0], 20.0),
        Event::feed([1.0, 1.0, 0.0], 20.0),
        Event::feed([1.0, 1.0, 0.0], 20.0),
        Event::rapid([f64::NAN, 0.0, 0.0]),
        Event::take(),
        Event::rapid([0.0625, 0.1875, 0.0]),
        Event::curve_chord([0.5, 0.5, -0.25], 20.0, 1.0),
        Event::take(),
    ]
}

/// Orders that are refused, for each number that an order can have but 6 and 7,
/// and for fields that are faulty together.
fn refused() -> Vec<Event> {
    let there = [1.0, 2.0, 3.0];
    vec![
        Event::rapid([0.5, 0.5, -0.25]),
        Event::rapid([1_000.501, 0.5, -0.25]),
        Event::feed(there, -0.0004),
        Event::feed(there, 1_000.000_6),
        Event::curve_chord(there, 20.0, 10_000.001),
        Event::rapid([f64::NAN, f64::INFINITY, 0.0]),
        Event::rapid([2e6, f64::NAN, 0.0]),
        Event::rapid([1e308, 0.0, 0.0]).under([-1e308, 0.0, 0.0]),
        Event::rapid([f64::INFINITY, 0.0, 0.0]).under([f64::INFINITY, 0.0, 0.0]),
        Event::rapid([0.0, 1_000_000.000_6, f64::NAN]),
        Event::rapid([0.0, 0.0, -1_000_000.000_6]),
        Event::feed(there, -0.0005),
        Event::feed(there, f64::NEG_INFINITY),
        Event::curve_chord(there, 20.0, -0.0005),
        Event::curve_chord(there, -1.0, f64::NAN),
        Event::curve_chord(there, 20.0, f64::NAN),
    ]
}

/// Orders up to one that finds 64 blocks held, a faulty one then, and takes.
fn filled() -> Vec<Event> {
    let to = |k: u32| Event::feed([0.0625 * f64::from(k), 0.0, 0.0], 100.0);
    let mut all: Vec<Event> = (1..=65).map(to).collect();
    all.push(Event::rapid([f64::NAN, 0.0, 0.0]));
    all.extend([Event::take(); 40]);
    all.push(to(66));
    all
}
