//! A host's orders: their blocks, their refusals and what the host keeps.

use reference::generate::machine_m;
use reference::host::{Host, Order};
use reference::incremental::Planner;
use reference::line::{Line, LookAhead};
use reference::machine::Block;
use reference::orders::Event;
use reference::refusal::Refusal;

const NAN: f64 = f64::NAN;
const INF: f64 = f64::INFINITY;

/// A host with its line of blocks on machine M.
#[derive(Clone, Debug, PartialEq)]
struct Shop {
    line: Line,
    host: Host,
}

impl Shop {
    fn fresh() -> Shop {
        Shop::at([0; 3], 0)
    }

    /// A host at a point in µm with orders accepted, and an empty line.
    fn at(point: [i64; 3], accepted: u64) -> Shop {
        let line = Line::fresh(&machine_m(), &[]).unwrap();
        let host = Host::at(point, accepted);
        Shop { line, host }
    }

    /// Sends an order: gives the block that it has added, or the number of the
    /// refusal, which changes nothing.
    fn send(&mut self, event: Event) -> Result<Block, u64> {
        let before = self.clone();
        let order = event.order().unwrap();
        let answer = self.host.order(&mut self.line, &order, &event.offset);
        match answer {
            Ok(()) => {
                assert_eq!(self.line.told(), before.line.told() + 1);
                assert_eq!(self.host.accepted(), before.host.accepted() + 1);
                Ok(*self.line.blocks().last().unwrap())
            }
            Err(refusal) => {
                assert_eq!(*self, before);
                Err(refusal.number())
            }
        }
    }
}

fn block(moves: [i64; 3], feed: u64, radius: u64, mark: u64) -> Block {
    Block {
        moves,
        feed,
        radius,
        mark,
    }
}

#[test]
fn worked_orders() {
    let mut shop = Shop::fresh();
    let fast = 1_000_000;
    let first = shop.send(Event::rapid([0.0625, 0.0, 0.0]));
    assert_eq!(first, Ok(block([62, 0, 0], fast, 0, 1)));
    let second = shop.send(Event::rapid([0.1875, 0.0, 0.0]));
    assert_eq!(second, Ok(block([126, 0, 0], fast, 0, 2)));
    let third = shop.send(Event::feed([1.0, 0.0, 0.0], 20.0));
    assert_eq!(third, Ok(block([812, 0, 0], 20_000, 0, 3)));
    let fourth = shop.send(Event::feed([1.0, 1.0, 0.0], 20.0));
    assert_eq!(fourth, Ok(block([0, 1_000, 0], 20_000, 0, 4)));
    let chord = Event::curve_chord([2.0, 1.0, 0.0], 20.0, 1.0);
    let fifth = shop.send(chord);
    assert_eq!(fifth, Ok(block([1_000, 0, 0], 20_000, 1_000, 5)));
    assert_eq!(shop.send(chord), Err(2));
    assert_eq!(shop.host.point(), [2_000, 1_000, 0]);
    assert_eq!(
        shop.host.position(),
        [2_000.0, 1_000.0, 0.0].map(f64::to_bits)
    );
}

/// Refused one after the other where the worked orders end; then two more are
/// accepted.
#[test]
fn worked_refusals() {
    let mut shop = Shop::at([2_000, 1_000, 0], 5);
    let near = [2.0, 2.0, 0.0];
    let far_offset = [-1e308, 0.0, 0.0];
    for (event, number) in [
        (Event::rapid([NAN, INF, 0.0]), 15),
        (Event::rapid([2e6, NAN, 0.0]), 16),
        (Event::rapid([1e308, 0.0, 0.0]).under(far_offset), 15),
        (Event::feed(near, -0.0004), 4),
        (Event::feed(near, -0.0005), 16),
        (Event::rapid([1_003.000_5, 1.0, 0.0]), 3),
    ] {
        assert_eq!(shop.send(event), Err(number), "{event:?}");
    }
    let fast = shop.send(Event::feed(near, 1_000.000_5));
    assert_eq!(fast, Ok(block([0, 1_000, 0], 1_000_000, 0, 6)));
    let offset = Event::rapid([3.0, 1.0, 0.0]).under([0.1, 0.2, -0.0]);
    let moved = shop.send(offset);
    assert_eq!(moved, Ok(block([900, -1_200, 0], 1_000_000, 0, 7)));
    assert_eq!(shop.host.point(), [2_900, 800, 0]);
}

#[test]
fn worked_offset() {
    let mut shop = Shop::fresh();
    let order = Event::rapid([0.1, 0.2, 0.3]).under([0.3, 0.1, 0.3]);
    let answer = shop.send(order);
    assert_eq!(answer, Ok(block([-200, 100, 0], 1_000_000, 0, 1)));
    assert_eq!(shop.host.position(), [-200.0, 100.0, 0.0].map(f64::to_bits));
}

/// The difference is rounded to a double before it is read: an offset of 2^−60
/// is lost in it, and the exact half of a µm stays one, where the exact
/// differences lie below 187.5 and above 62.5 µm.
#[test]
fn one_double_operation() {
    let small = 2.0_f64.powi(-60);
    let order = Event::rapid([0.1875, 0.0625, 0.0]).under([small, -small, 0.0]);
    let moves = Shop::fresh().send(order).map(|block| block.moves);
    assert_eq!(moves, Ok([188, 62, 0]));
}

/// A fresh host is at zero and has no order; its point is never below 0 by its
/// sign alone.
#[test]
fn fresh_host() {
    let mut shop = Shop::fresh();
    assert_eq!(shop.host, Host::default());
    assert_eq!((shop.host.point(), shop.host.accepted()), ([0; 3], 0));
    assert_eq!(shop.host.position(), [0; 3]);
    shop.send(Event::rapid([-0.0, -0.0001, -1.0])).unwrap();
    assert_eq!(shop.host.position(), [0.0, 0.0, -1_000.0].map(f64::to_bits));
}

/// A curve chord of which one field is spoiled: 0, 1 and 2 are axes, 3 is the
/// speed and 4 the radius.
fn spoiled(event: Event, field: usize, value: f64) -> Event {
    let mut event = event;
    match field {
        0..3 => event.target[field] = value.to_bits(),
        3 => event.speed = value.to_bits(),
        _ => event.radius = value.to_bits(),
    }
    event
}

/// Field by field: the first faulty one decides, by 15 or 16, before any other
/// refusal and at a full line too.
#[test]
fn first_faulty_field_decides() {
    let mut full = Shop::fresh();
    for k in 1..=64 {
        full.send(Event::rapid([f64::from(k), 0.0, 0.0])).unwrap();
    }
    let good = Event::curve_chord([64.0, 0.0, 0.0], 0.0, 20_000.0);
    let faults = [(NAN, 15), (INF, 15), (-INF, 15), (-1e7, 16), (1e7, 16)];
    for shop in [&mut Shop::fresh(), &mut full] {
        for first in 0..5 {
            for (value, number) in faults {
                let event = spoiled(good, first, value);
                assert_eq!(shop.send(event), Err(number), "{first} {value}");
                for second in first + 1..5 {
                    for (other, _) in faults {
                        let event = spoiled(event, second, other);
                        assert_eq!(shop.send(event), Err(number), "{first} {second}");
                    }
                }
            }
        }
    }
    assert_eq!(full.send(good), Err(2));
    assert_eq!(full.send(spoiled(good, 0, 1_065.0)), Err(3));
    assert_eq!(full.send(spoiled(good, 0, 65.0)), Err(4));
    let fed = spoiled(spoiled(good, 0, 65.0), 3, 1.0);
    assert_eq!(full.send(fed), Err(5));
    assert_eq!(full.send(spoiled(fed, 4, 1.0)), Err(7));
    full.line.take().unwrap();
    let again = full.send(spoiled(fed, 4, 1.0));
    assert_eq!(again, Ok(block([1_000, 0, 0], 1_000, 1_000, 65)));
}

/// Only the offset of its own axis is taken from a coordinate, and none from
/// speed and radius; an offset that is not finite is refused.
#[test]
fn offset_of_each_axis() {
    let order = Event::curve_chord([1.0, 2.0, 3.0], 4.0, 5.0);
    let answer = Shop::fresh().send(order.under([0.25, 0.5, 0.125]));
    let moves = [750, 1_500, 2_875];
    assert_eq!(answer, Ok(block(moves, 4_000, 5_000, 1)));
    for axis in 0..3 {
        for (value, number) in [(NAN, 15), (INF, 15), (-INF, 15), (1e7, 16), (-1e7, 16)] {
            let mut offset = [0.0; 3];
            offset[axis] = value;
            assert_eq!(Shop::fresh().send(order.under(offset)), Err(number));
        }
        let mut both = order.under([0.0; 3]);
        (both.target[axis], both.offset[axis]) = (INF.to_bits(), INF.to_bits());
        assert_eq!(Shop::fresh().send(both), Err(15));
    }
}

/// Ends of the fields: the rounded value decides.
#[test]
fn ends_of_the_fields() {
    let fed = |speed| Shop::fresh().send(Event::feed([1.0, 0.0, 0.0], speed));
    let feed = |speed| fed(speed).map(|block| block.feed);
    assert_eq!(feed(0.0), Err(4));
    assert_eq!(feed(-0.0), Err(4));
    assert_eq!(feed(0.0005), Ok(1));
    assert_eq!(feed(-0.0005), Err(16));
    assert_eq!(feed(1_000.000_5), Ok(1_000_000));
    assert_eq!(feed(1_000.000_6), Err(4));
    assert_eq!(feed(1_000_000.000_5), Err(4));
    assert_eq!(feed(1_000_000.000_6), Err(16));
    let curved = |radius| Shop::fresh().send(Event::curve_chord([1.0, 0.0, 0.0], 1.0, radius));
    let radius = |radius| curved(radius).map(|block| block.radius);
    assert_eq!(radius(0.0), Ok(0));
    assert_eq!(radius(-0.0004), Ok(0));
    assert_eq!(radius(-0.0005), Err(16));
    assert_eq!(radius(10_000.000_4), Ok(10_000_000));
    assert_eq!(radius(10_000.001), Err(5));
    assert_eq!(radius(1_000_000.000_6), Err(16));
}

/// A point may be as far as 1,000,000,000 µm, where moves lead to it.
#[test]
fn ends_of_the_point() {
    for sign in [1, -1] {
        let mut shop = Shop::at([0, sign * 999_500_000, 0], 7);
        let to = |y: f64| Event::rapid([0.0, f64::from(sign as i32) * y, 0.0]);
        assert_eq!(shop.send(to(1_000_000.000_6)), Err(16));
        let last = shop.send(to(1_000_000.000_5)).unwrap();
        assert_eq!((last.moves, last.mark), ([0, sign * 500_000, 0], 8));
        assert_eq!(shop.host.point(), [0, sign * 1_000_000_000, 0]);
        assert_eq!(shop.send(to(1_000_000.0)), Err(2));
        assert_eq!(shop.send(to(998_999.999)), Err(3));
        assert!(shop.send(to(999_000.0)).is_ok());
    }
}

/// A host of any 32 bits: the move is measured from its point, and the mark is
/// one more than its count.
#[test]
fn any_host() {
    let mut shop = Shop::at([i32::MAX, i32::MIN, 5].map(i64::from), 0);
    let position = [2_147_483_647.0, -2_147_483_648.0, 5.0].map(f64::to_bits);
    assert_eq!(shop.host.position(), position);
    assert_eq!(shop.send(Event::rapid([0.0; 3])), Err(3));
    let mut shop = Shop::at([0; 3], u64::from(u32::MAX));
    assert_eq!(shop.send(Event::rapid([1.0, 0.0, 0.0])), Err(6));
}

/// An order to one of two points in turn.
fn to_and_fro(place: u64) -> Order {
    let x = if place % 2 == 1 { 1.0 } else { 0.0 };
    Event::rapid([x, 0.0, 0.0]).order().unwrap()
}

/// 2,097,151 orders are accepted, with a take after each; each further one is
/// refused by 6, and by another refusal where that comes first.
#[test]
fn marks_run_out() {
    let mut planner = Planner::fresh(&machine_m(), &[]).unwrap();
    let mut host = Host::default();
    for place in 1..=2_097_151 {
        let answer = host.order(&mut planner, &to_and_fro(place), &[0; 3]);
        assert_eq!(answer, Ok(()), "{place}");
        assert_eq!(planner.take().unwrap().block.mark, place);
    }
    let last = host.clone();
    for _ in 0..2 {
        let answer = host.order(&mut planner, &to_and_fro(2_097_152), &[0; 3]);
        assert_eq!(answer, Err(Refusal::Mark));
    }
    let mut refusal = |event: Event| {
        let order = event.order().unwrap();
        host.order(&mut planner, &order, &[0; 3]).unwrap_err()
    };
    assert_eq!(refusal(Event::rapid([1.0, 0.0, 0.0])), Refusal::Still);
    assert_eq!(refusal(Event::rapid([NAN, 0.0, 0.0])), Refusal::NotFinite);
    assert_eq!(refusal(Event::rapid([1e7, 0.0, 0.0])), Refusal::Beyond);
    assert_eq!(refusal(Event::feed([0.0; 3], 0.0)), Refusal::Feed);
    assert_eq!(planner.told(), 0);
    assert_eq!((host.accepted(), host.point()), (2_097_151, [1_000, 0, 0]));
    assert_eq!(host, last);
}

/// The last marks by the line of blocks; 6 comes before 7.
#[test]
fn last_marks_of_a_line() {
    let mut shop = Shop::at([0; 3], 2_097_151 - 64);
    for k in 1..=64 {
        let answer = shop.send(Event::rapid([f64::from(k), 0.0, 0.0]));
        assert_eq!(answer.unwrap().mark, 2_097_151 - 64 + k as u64);
    }
    for _ in 0..2 {
        assert_eq!(shop.send(Event::rapid([0.0; 3])), Err(6));
    }
    shop.line.take().unwrap();
    assert_eq!(shop.send(Event::rapid([0.0; 3])), Err(6));
}

#[test]
fn numbers_and_words() {
    let told = |refusal: Refusal| (refusal.number(), refusal.word());
    assert_eq!(told(Refusal::NotFinite), (15, "not finite"));
    assert_eq!(told(Refusal::Beyond), (16, "beyond"));
}
