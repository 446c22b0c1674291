//! The example of a host's orders: the outline of a plate of 40 × 30 mm with
//! corners of 6 mm radius, 2 mm deep, milled with a tool of 6 mm.
//!
//! The host orders the centre of the tool in the coordinates of its drawing; the
//! work offset is the middle of the plate there, so that the table's zero lies
//! in it. Each corner is ordered as six curve chords.

use crate::orders::Event;
use crate::pocket::{directions, UNIT};

/// Middle of the plate on the drawing, mm.
pub const MIDDLE: [f64; 3] = [61.3, 42.85, 0.1];
/// Centres of the corners, either way from the middle, mm.
pub const CORNER: [f64; 2] = [14.0, 9.0];
/// Radius of the tool's way around a corner: the corner's and the tool's, mm.
pub const AROUND: f64 = 9.0;
/// Heights of the tool: where it travels, just above the plate, and milling, mm.
const SAFE: f64 = 5.0;
const ABOVE: f64 = 0.5;
const DEPTH: f64 = -2.0;
/// Speeds into the plate, along its sides and around its corners, mm/s.
const DOWN: f64 = 4.0;
const ALONG: f64 = 20.0;
const ROUND: f64 = 12.5;
/// Chords of a corner, a quarter of a turn.
pub const CHORDS: usize = 6;

/// Orders before the table begins to move.
pub const AHEAD: usize = 16;

/// The host's events. The table asks once before there is a block, and takes one
/// before each order past the sixteenth; the last blocks stay held. Three orders
/// are refused: one to the point that it is at, one whose height is no number
/// and one at a speed below 0; the last two come again as they should be.
pub fn cam_host() -> Vec<Event> {
    let mut orders = approach();
    orders.push(orders[orders.len() - 1]);
    for quarter in [1, 2, 3, 0] {
        orders.extend(corner(quarter));
    }
    orders.extend(way_back());
    insert_faulty(&mut orders, 9, |order| order.target[2] = f64::NAN.to_bits());
    insert_faulty(&mut orders, 18, |order| order.speed = (-ROUND).to_bits());
    with_takes(&orders)
}

/// Puts a spoiled order before the one at a place.
fn insert_faulty(orders: &mut Vec<Event>, place: usize, spoil: impl Fn(&mut Event)) {
    let mut faulty = orders[place];
    spoil(&mut faulty);
    orders.insert(place, faulty);
}

/// A point of the table as a point of the drawing, mm.
fn on_drawing(point: [f64; 3]) -> [f64; 3] {
    [0, 1, 2].map(|axis| point[axis] + MIDDLE[axis])
}

/// To the middle of the upper side and down into the plate.
fn approach() -> Vec<Event> {
    let at = |height| on_drawing([0.0, CORNER[1] + AROUND, height]);
    vec![
        Event::rapid(at(SAFE)),
        Event::rapid(at(ABOVE)),
        Event::feed(at(DEPTH), DOWN),
    ]
}

/// Along a side to a corner and around it, against the clock; quarter 0 has the
/// corner between the axes X and Y.
fn corner(quarter: usize) -> Vec<Event> {
    let ends = directions(4 * CHORDS);
    let to = |place: usize| {
        let end = ends[place % ends.len()].map(|part| part as f64 / UNIT as f64);
        let [x, y] = centre(quarter);
        on_drawing([x + AROUND * end[0], y + AROUND * end[1], DEPTH])
    };
    let first = quarter * CHORDS;
    let mut orders = vec![Event::feed(to(first), ALONG)];
    orders.extend((1..=CHORDS).map(|k| Event::curve_chord(to(first + k), ROUND, AROUND)));
    orders
}

/// Centre of a corner, mm.
fn centre(quarter: usize) -> [f64; 2] {
    let [x, y] = CORNER;
    [[x, y], [-x, y], [-x, -y], [x, -y]][quarter]
}

/// To where the outline began, up and home.
fn way_back() -> Vec<Event> {
    let at = |height| on_drawing([0.0, CORNER[1] + AROUND, height]);
    vec![
        Event::feed(at(DEPTH), ALONG),
        Event::rapid(at(SAFE)),
        Event::rapid(on_drawing([0.0, 0.0, SAFE])),
    ]
}

/// The orders under the work offset, with the table's takes.
fn with_takes(orders: &[Event]) -> Vec<Event> {
    let mut events = vec![Event::take()];
    for (before, order) in orders.iter().enumerate() {
        if before >= AHEAD {
            events.push(Event::take());
        }
        events.push(order.under(MIDDLE));
    }
    events
}
