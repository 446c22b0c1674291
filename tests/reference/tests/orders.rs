//! A host's events in bytes, and the text that `planorders` writes of them.

use std::collections::BTreeSet;

use reference::generate::{double, events, faulty_steps, machine_m, orders, steps};
use reference::host::Order;
use reference::incremental::Planner;
use reference::order_cases::worked;
use reference::order_listing::{planorders, planorders_by};
use reference::orders::{pack_orders, Event, EVENT_BYTES};
use reference::rng::Rng;
use reference::stairs;

/// What the worked events give.
const WORKED: &str = "\
added
added
refused 2
refused 15
1 1000 200000 0 201000000 2000000 502 0 498
added
added
2 1000 200000 2000000 201604288 1208576 499 0 501
held 2
plan 1208576 1050826 0
point 4647503709213818880 4647503709213818880 13866372146441224192
";

#[test]
fn worked_events() {
    assert_eq!(
        planorders(&pack_orders(&machine_m(), &worked()), &[]),
        WORKED
    );
}

/// The three doubles of the point are 500, 500 and −250 µm.
#[test]
fn worked_point() {
    let point = [500.0, 500.0, -250.0].map(|part: f64| part.to_bits().to_string());
    assert!(WORKED.ends_with(&format!("\npoint {}\n", point.join(" "))));
}

#[test]
fn short_and_faulty_orders() {
    let bytes = pack_orders(
        &machine_m(),
        &[Event::take(), Event::rapid([1.0, 0.0, 0.0])],
    );
    assert_eq!(planorders(&[], &[]), "refused 9 at 0\n");
    assert_eq!(planorders(&bytes[..23], &[]), "refused 9 at 0\n");
    assert_eq!(planorders(&[0; 24], &[]), "refused 1 at 0\n");
    assert_eq!(
        planorders(&bytes[..24], &[]),
        "held 0\nplan 0\npoint 0 0 0\n"
    );
    let cut = "refused 8\nrefused 9 at 2\nheld 0\nplan 0\npoint 0 0 0\n";
    assert_eq!(planorders(&bytes[..93], &[]), cut);
    assert_eq!(planorders(&bytes[..159], &[]), cut);
    let first = "refused 9 at 1\nheld 0\nplan 0\npoint 0 0 0\n";
    assert_eq!(planorders(&bytes[..25], &[]), first);
    assert_eq!(planorders(&bytes[..91], &[]), first);
    let thousand = 1_000.0_f64.to_bits();
    let whole = format!("refused 8\nadded\nheld 1\nplan 0 0\npoint {thousand} 0 0\n");
    assert_eq!(planorders(&bytes, &[]), whole);
}

/// 9 and 1 of the limits come before 14, and 14 before any event.
#[test]
fn refused_heads() {
    let bytes = pack_orders(&machine_m(), &worked());
    let seven = [50; 7];
    assert_eq!(planorders(&bytes[..23], &seven), "refused 9 at 0\n");
    assert_eq!(planorders(&[0; 24], &seven), "refused 1 at 0\n");
    assert_eq!(planorders(&bytes, &seven), "refused 14 at 0\n");
    assert_eq!(planorders(&bytes[..25], &seven), "refused 14 at 0\n");
    let mut last_bit = bytes.clone();
    last_bit[23] = 1;
    assert_eq!(planorders(&last_bit, &seven), "refused 1 at 0\n");
}

/// The torque steps of the call are in force: at half of the acceleration the
/// first block has half of the reach.
#[test]
fn loaded_steps() {
    let bytes = pack_orders(&machine_m(), &worked());
    let text = planorders(&bytes, &[50; 8]);
    let given = "1 1000 100000 0 101000000 2000000 505 0 495";
    assert_eq!(text.lines().nth(4), Some(given));
}

/// The fields follow one another from the kind on, most significant byte first.
#[test]
fn events_as_bytes() {
    let numbered = |first: u64| [first, first + 1, first + 2];
    let event = Event {
        kind: 0x0102_0304,
        target: numbered(0x1112_1314_1516_1718),
        offset: numbered(0x2122_2324_2526_2728),
        speed: 0x3132_3334_3536_3738,
        radius: 0x4142_4344_4546_4748,
    };
    let bytes: [u8; EVENT_BYTES] = event.bytes().try_into().unwrap();
    assert_eq!(EVENT_BYTES, 68);
    assert_eq!(bytes[..5], [1, 2, 3, 4, 0x11]);
    assert_eq!(bytes[11..13], [0x18, 0x11]);
    assert_eq!((bytes[27], bytes[28], bytes[35]), (0x1a, 0x21, 0x28));
    assert_eq!(
        (bytes[51], bytes[52], bytes[60], bytes[67]),
        (0x2a, 0x31, 0x41, 0x48)
    );
    assert_eq!(Event::read(&bytes), event);
}

#[test]
fn kinds_of_events() {
    let event = Event {
        kind: 0,
        target: [1, 2, 3],
        offset: [4, 5, 6],
        speed: 7,
        radius: 8,
    };
    let of = |kind: u32| Event { kind, ..event }.order();
    assert_eq!(of(0), None);
    assert_eq!(of(1), Some(Order::Rapid([1, 2, 3])));
    assert_eq!(of(2), Some(Order::Feed([1, 2, 3], 7)));
    for kind in [3, 4, 256, 257, 0x0100_0000, 0x0200_0000, u32::MAX] {
        let chord = Some(Order::CurveChord([1, 2, 3], 7, 8));
        assert_eq!(of(kind), chord, "{kind}");
    }
}

/// Other doubles in the fields that a kind does not use give the same text.
#[test]
fn unused_fields_play_no_part() {
    for seed in 0..60 {
        let mut rng = Rng::new(seed);
        let list = events(&mut rng, 120);
        let mut other = list.clone();
        for event in &mut other {
            let mut any = || double(&mut rng);
            if event.kind == 0 {
                event.target = [any(), any(), any()];
                event.offset = [any(), any(), any()];
            }
            if event.kind < 2 {
                event.speed = any();
            }
            if event.kind < 3 {
                event.radius = any();
            }
        }
        assert_ne!(list, other);
        let text = |events: &[Event]| planorders(&pack_orders(&machine_m(), events), &[]);
        assert_eq!(text(&list), text(&other), "seed {seed}");
    }
}

/// Each planner writes the same text on generated orders and torque
/// steps, which meet each refusal of their heads and of an event but 6.
#[test]
fn orders_by_each_planner() {
    let mut met = BTreeSet::new();
    for seed in 0..400 {
        let mut rng = Rng::new(seed);
        let bytes = orders(&mut rng);
        let loaded = match seed % 16 {
            0 => faulty_steps(&mut rng),
            _ => steps(&mut rng),
        };
        let text = planorders(&bytes, &loaded);
        let kept = planorders_by::<Planner>(&bytes, &loaded);
        let limiting = planorders_by::<stairs::Planner>(&bytes, &loaded);
        assert_eq!([&kept, &limiting], [&text; 2], "{seed}");
        let refused = text.lines().filter(|line| line.starts_with("refused"));
        met.extend(refused.map(str::to_string));
    }
    for number in [2, 3, 4, 5, 7, 8, 15, 16] {
        assert!(met.remove(&format!("refused {number}")), "{number}");
    }
    for number in [1, 9, 14] {
        assert!(met.remove(&format!("refused {number} at 0")), "{number}");
    }
    assert!(met.len() > 3 && met.iter().all(|line| line.starts_with("refused 9 at ")));
}
