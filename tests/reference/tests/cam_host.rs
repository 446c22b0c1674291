//! The example of a host's orders: its outline, its refusals and its takes.

use reference::cam_host::*;
use reference::examples::example_orders;
use reference::generate::machine_m;
use reference::host::{Host, Order};
use reference::line::{Line, LookAhead};
use reference::machine::{length_of, Block};
use reference::order_listing::planorders;
use reference::refusal::Refusal;

/// Points are off by no more than this from the outline, µm.
const NEAR: f64 = 1.0;

/// An accepted order with its block and the point that it leads to, µm.
struct Way {
    order: Order,
    block: Block,
    to: [i64; 3],
}

/// The ways of the accepted orders, and the refusals. Nothing is taken, as the
/// line has room for them all.
fn sent() -> (Vec<Way>, Vec<Refusal>) {
    let mut line = Line::fresh(&machine_m(), &[]).unwrap();
    let (mut host, mut ways, mut refusals) = (Host::default(), Vec::new(), Vec::new());
    for event in cam_host() {
        let Some(order) = event.order() else { continue };
        match host.order(&mut line, &order, &event.offset) {
            Ok(()) => ways.push(Way {
                order,
                block: *line.blocks().last().unwrap(),
                to: host.point(),
            }),
            Err(refusal) => refusals.push(refusal),
        }
    }
    (ways, refusals)
}

/// Orders of each sort, and one refused by each of 2, 15 and 16.
#[test]
fn sorts_and_refusals() {
    let count = cam_host().len();
    assert!((30..=60).contains(&count), "{count}");
    let (ways, refusals) = sent();
    assert_eq!(
        refusals,
        [Refusal::Still, Refusal::NotFinite, Refusal::Beyond]
    );
    let of_sort = |is: fn(&Order) -> bool| ways.iter().filter(|way| is(&way.order)).count();
    assert_eq!(of_sort(|order| matches!(order, Order::Rapid(_))), 4);
    assert_eq!(of_sort(|order| matches!(order, Order::Feed(..))), 6);
    assert_eq!(
        of_sort(|order| matches!(order, Order::CurveChord(..))),
        4 * CHORDS
    );
}

/// Milling keeps to the outline: each point lies on a side or on the round of a
/// corner. It ends where it began, and rapids travel above the plate. A chord has
/// the radius of the round and the length of a sixth of a corner, 2 × 9,000 ×
/// sin 7.5° µm.
#[test]
fn outline_is_kept() {
    let (ways, _) = sent();
    let mut from = [0; 3];
    for Way { order, block, to } in &ways {
        let [x, y] = [0, 1].map(|axis| to[axis].abs() as f64 - 1_000.0 * CORNER[axis]);
        let deep = to[2] < 0;
        let chord = matches!(order, Order::CurveChord(..));
        if deep {
            let around = x.max(0.0).hypot(y.max(0.0));
            assert!((around - 1_000.0 * AROUND).abs() <= NEAR, "{to:?}");
            assert_eq!(to[2], -2_000);
        }
        if matches!(order, Order::Rapid(_)) {
            assert!(!deep && block.feed == 1_000_000);
        }
        assert_eq!(block.radius, if chord { 9_000 } else { 0 });
        assert!(!chord || (2_348..=2_350).contains(&length_of(block)));
        assert_eq!([0, 1, 2].map(|axis| from[axis] + block.moves[axis]), *to);
        from = *to;
    }
    assert_eq!(from, [0, 0, 5_000]);
    let milled: Vec<[i64; 3]> = ways
        .iter()
        .map(|way| way.to)
        .filter(|to| to[2] < 0)
        .collect();
    assert_eq!(milled.first(), milled.last());
}

/// The text has a line for each event, one of each refusal, and blocks held.
#[test]
fn text_of_the_example() {
    let text = planorders(&example_orders("cam-host").unwrap(), &[]);
    let count = |whole: &str| text.lines().filter(|line| *line == whole).count();
    assert_eq!(text.lines().count(), cam_host().len() + 3);
    for number in [2, 8, 15, 16] {
        assert_eq!(count(&format!("refused {number}")), 1, "{number}");
    }
    assert_eq!(text.matches("refused").count(), 4);
    assert_eq!(count("added"), 10 + 4 * CHORDS);
    assert!(text.contains("\nheld 13\n"), "{text}");
}
