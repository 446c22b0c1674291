//! A host's orders: what planorders writes for the stored events, by the same events through the
//! binding; and the example of a CAM host.

mod common;

use common::{bytes, given_line, joined, lines, planner, refused_line};
use fullerecru::{read_limits, Host, Planner, Point, Refusal, Steps, LIMITS_BYTES};

/// Bytes of an event: its kind, and eight doubles.
const EVENT_BYTES: usize = 68;

/// A take, or an order with target and offset, mm, speed, mm/s, and radius, mm.
struct Event {
    kind: u32,
    target: Point,
    offset: Point,
    speed: f64,
    radius: f64,
}

fn event(bytes: &[u8]) -> Event {
    let (kind, doubles) = bytes.split_at(4);
    let doubles: Vec<f64> = doubles
        .chunks(8)
        .map(|bits| f64::from_be_bytes(bits.try_into().unwrap()))
        .collect();
    Event {
        kind: u32::from_be_bytes(kind.try_into().unwrap()),
        target: [doubles[0], doubles[1], doubles[2]],
        offset: [doubles[3], doubles[4], doubles[5]],
        speed: doubles[6],
        radius: doubles[7],
    }
}

/// Carries out an event and gives the line of planorders for it.
fn event_line(planner: &mut Planner, host: &mut Host, event: &Event) -> String {
    let Event {
        kind,
        target,
        offset,
        speed,
        radius,
    } = *event;
    let answer = match kind {
        0 => {
            return planner
                .take()
                .map_or_else(refused_line, |given| given_line(&given))
        }
        1 => host.rapid(planner, target, offset),
        2 => host.feed(planner, target, offset, speed),
        _ => host.curve_chord(planner, target, offset, speed, radius),
    };
    answer.map_or_else(refused_line, |()| "added".to_string())
}

#[test]
fn answers_are_what_planorders_writes() {
    let stored_events = bytes("crates/planorders/stdin");
    let limits = read_limits(&stored_events).unwrap();
    let (mut planner, mut host) = (
        Planner::fresh(&limits, &Steps::BuiltIn).unwrap(),
        Host::fresh(),
    );
    let events = stored_events[LIMITS_BYTES..].chunks_exact(EVENT_BYTES);
    let mut ours: Vec<String> = events
        .map(|bytes| event_line(&mut planner, &mut host, &event(bytes)))
        .collect();
    // The last event is cut, which only planorders answers.
    ours.push(format!("refused 9 at {}", ours.len() + 1));
    ours.push(format!("held {}", planner.told()));
    ours.push(format!("plan {}", joined(&planner.shown())));
    ours.push(format!(
        "point {}",
        joined(&host.position().map(f64::to_bits))
    ));
    assert_eq!(ours, lines("crates/planorders/stdout"));
}

/// The host's position is where the moves of its blocks lead, also while blocks are taken between the
/// orders.
#[test]
fn position_is_where_the_blocks_lead() {
    let stored_events = bytes("examples/orders/cam-host.orders");
    let limits = read_limits(&stored_events).unwrap();
    let (mut planner, mut host) = (
        Planner::fresh(&limits, &Steps::BuiltIn).unwrap(),
        Host::fresh(),
    );
    let mut reached = [0; 3];
    let mut run = |planner: &mut Planner| {
        let taken = planner.take().map(|given| given.block.moves());
        taken
            .map(|moves| (0..3).for_each(|axis| reached[axis] += moves[axis]))
            .is_ok()
    };
    for bytes in stored_events[LIMITS_BYTES..].chunks_exact(EVENT_BYTES) {
        let event = event(bytes);
        if event.kind == 0 {
            run(&mut planner);
        } else {
            event_line(&mut planner, &mut host, &event);
        }
    }
    while run(&mut planner) {}
    assert_eq!(host.position(), reached.map(|way| way as f64));
    assert_ne!(reached, [0; 3]);
}

#[test]
fn halves_of_a_micrometre_go_to_the_even_one() {
    let (mut planner, mut host) = (planner(), Host::fresh());
    host.rapid(&mut planner, [0.0625, 0.1875, 0.0025], [0.0; 3])
        .unwrap();
    assert_eq!(host.position(), [62.0, 188.0, 3.0]);
    let doubled = host.feed(&mut planner, [0.0625, 0.1875, 0.0025], [0.0; 3], 20.0);
    assert_eq!(doubled, Err(Refusal::Still));
    let slow = host.feed(&mut planner, [1.0, 0.0, 0.0], [0.0; 3], -0.0004);
    assert_eq!(slow, Err(Refusal::Feed));
    let backwards = host.feed(&mut planner, [1.0, 0.0, 0.0], [0.0; 3], -0.0005);
    assert_eq!(backwards, Err(Refusal::Beyond));
    let both = host.rapid(&mut planner, [2e6, f64::NAN, 0.0], [0.0; 3]);
    assert_eq!(both, Err(Refusal::Beyond)); // X comes before Y
}
