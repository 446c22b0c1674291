//! The program planorders writes what the reference writes: a line for each
//! event of a host, the number held, the plan and the host's point.
//!
//! Its arguments are in arguments.rs, inputs that break off in broken_input.rs.

use std::collections::BTreeSet;
use std::fs::{self, File};
use std::path::PathBuf;
use std::process::{Command, Stdio};

use compare::programs::*;
use compare::words::some_steps;
use compare::{hex, report, same, seeds};
use reference::examples::{example_orders, ORDER_NAMES};
use reference::generate::*;
use reference::incremental::Planner;
use reference::machine::Limits;
use reference::order_cases::{order_cases, worked};
use reference::order_listing::{self, planorders_by};
use reference::orders::{pack_orders, Event, CURVE_CHORD, EVENT_BYTES, FEED, RAPID, TAKE};
use reference::rng::Rng;
use reference::tape::{pack_limits, LIMITS_BYTES};

/// Events that planorders reads and runs at a time.
const CHUNK_EVENTS: usize = 300;

/// Compares the texts of limits and events under loaded torque steps.
fn compare(seed: u64, orders: &[u8], steps: &[u8]) -> String {
    let text = run_under(seed, &planorders(), steps, orders);
    let input = || format!("{} under {}", hex(orders), hex(steps));
    let expected = order_listing::planorders(orders, steps);
    same(seed, input, &text, &expected);
    text
}

/// Whole streams, cut ones, such with faulty limits and noise, under steps that
/// pass and such that do not.
#[test]
fn planorders_answers_streams() {
    let mut met = BTreeSet::new();
    for seed in seeds(700) {
        let mut rng = Rng::new(seed);
        let (orders, steps) = (orders(&mut rng), some_steps(&mut rng));
        let text = compare(seed, &orders, &steps);
        let refused = text
            .lines()
            .filter_map(|line| line.strip_prefix("refused "));
        met.extend(refused.map(|rest| rest.split(' ').next().unwrap_or("").to_string()));
    }
    let numbers = [1, 2, 3, 4, 5, 7, 8, 9, 14, 15, 16];
    assert_eq!(met, numbers.iter().map(u64::to_string).collect());
    report(700, "streams of orders");
}

/// The examples as they are stored, and as they are made.
#[test]
fn planorders_answers_the_examples() {
    let folder = PathBuf::from(env!("CARGO_MANIFEST_DIR")).join("../../examples/orders");
    let stored = fs::read_dir(folder).expect("a folder of examples");
    let stored = stored.map(|file| fs::read(file.expect("a file").path()).expect("bytes"));
    let made = ORDER_NAMES.map(|name| example_orders(name).expect("an example"));
    let mut rng = Rng::new(2);
    let mut count = 0;
    for orders in stored.chain(made).chain([order_cases()]) {
        for steps in [Vec::new(), loaded_steps(&mut rng)] {
            compare(count, &orders, &steps);
            count += 1;
        }
    }
    assert!(count > 2 * 2);
    report(count as usize, "examples of orders");
}

/// Feeds to two points at a right angle, the second once more, a rapid to what
/// is no number, and a take.
#[test]
fn worked_orders_have_these_lines() {
    let text = compare(0, &pack_orders(&machine_m(), &worked()[..5]), &[]);
    let millimetre = 1_000_f64.to_bits();
    let expected = [
        "added",
        "added",
        "refused 2",
        "refused 15",
        "1 1000 200000 0 201000000 2000000 502 0 498",
        "held 1",
        "plan 2000000 0",
        &format!("point {millimetre} {millimetre} 0"),
    ];
    assert_eq!(text.lines().collect::<Vec<_>>(), expected);
    report(5, "worked events");
}

/// A small input cut at every byte: inside the limits, at their end, and inside
/// each field of an event.
#[test]
fn planorders_answers_an_input_cut_at_every_byte() {
    let whole = pack_orders(&machine_m(), &worked()[..5]);
    for length in 0..=whole.len() {
        compare(length as u64, &whole[..length], &[]);
    }
    report(whole.len() + 1, "inputs cut at every byte");
}

/// Limits of every length with limits and steps that do not pass: 9, then 1,
/// then 14, and nothing of the events.
#[test]
fn refused_limits_and_steps_come_first() {
    let mut count = 0;
    let events = [&Event::take().bytes()[..], &[7; 30]].concat();
    for limits in [
        machine_m(),
        Limits {
            tick: 99,
            ..machine_m()
        },
    ] {
        let whole = [pack_limits(&limits, 0), events.clone()].concat();
        for length in 0..=LIMITS_BYTES + EVENT_BYTES + 30 {
            for steps in [&[][..], &[100; 8], &[100; 7]] {
                compare(length as u64, &whole[..length], steps);
                count += 1;
            }
        }
    }
    report(count, "limits of every length");
}

/// Inputs that end at the borders of the chunks, 300 events each, that
/// planorders reads, and inputs of no event; then 0, 1 and 67 bytes of one that
/// is cut short.
#[test]
fn planorders_answers_at_the_borders_of_its_chunks() {
    let mut rng = Rng::new(4);
    let limits = limits(&mut rng);
    let whole = pack_orders(&limits, &events(&mut rng, 3 * CHUNK_EVENTS + 2));
    let mut count = 0;
    for chunks in 0..=3 {
        let border = chunks * CHUNK_EVENTS;
        for events in border.saturating_sub(1)..=border + 1 {
            for more in [0, 1, EVENT_BYTES - 1] {
                let length = LIMITS_BYTES + events * EVENT_BYTES + more;
                compare(length as u64, &whole[..length], &steps(&mut rng));
                count += 1;
            }
        }
    }
    report(count, "inputs that end at a chunk's border");
}

/// Pieces that end inside events and at and beside the borders of chunks.
#[test]
fn planorders_takes_input_in_pieces() {
    let mut rng = Rng::new(8);
    let bytes = pack_orders(&machine_m(), &events(&mut rng, 2 * CHUNK_EVENTS + 9));
    let small = example_orders("cam-host").expect("an example");
    let chunk = CHUNK_EVENTS * EVENT_BYTES;
    let pieces = [
        100,
        4_096,
        chunk - 1,
        chunk,
        chunk + 1,
        LIMITS_BYTES + chunk,
    ];
    for piece in pieces {
        let text = run_in_pieces(&planorders(), &bytes, piece);
        let expected = order_listing::planorders(&bytes, &[]);
        assert!(text == expected, "pieces of {piece}");
    }
    for piece in [1, 7, LIMITS_BYTES, EVENT_BYTES] {
        let text = run_in_pieces(&planorders(), &small, piece);
        let expected = order_listing::planorders(&small, &[]);
        assert_eq!(text, expected, "pieces of {piece}");
    }
    report(pieces.len() + 4, "inputs in pieces");
}

/// Words that name a sort of event: each of the four, and many with a single
/// byte that is not 0, which are curve chords.
fn kinds() -> Vec<u32> {
    let mut kinds = vec![
        TAKE,
        RAPID,
        FEED,
        CURVE_CHORD,
        u32::MAX,
        0x0100_0001,
        0x0200_0002,
    ];
    kinds.extend((0..32).map(|bit| 1 << bit));
    kinds.extend((0..4).flat_map(|byte| [4, 255].map(|value| value << (8 * byte))));
    kinds
}

/// Every kind of event, and doubles of any class where it uses none: these play
/// no part.
#[test]
fn unused_fields_play_no_part() {
    let mut count = 0;
    for seed in seeds(4) {
        let mut rng = Rng::new(seed);
        let mut plain = vec![Event::rapid([1.0, 0.0, 0.0]), Event::rapid([2.0, 1.0, 0.0])];
        for (place, kind) in (3..).zip(kinds()) {
            let event = Event::curve_chord([f64::from(place), 0.0, 1.0], 20.0, 1.5);
            plain.push(Event { kind, ..event });
        }
        let mut blurred = plain.clone();
        blurred.iter_mut().for_each(|event| blur(&mut rng, event));
        assert_ne!(plain, blurred);
        let [first, second] = [plain, blurred].map(|list| pack_orders(&machine_m(), &list));
        let text = compare(seed, &first, &[]);
        assert_eq!(compare(seed, &second, &[]), text, "seed {seed}");
        assert!(text.lines().filter(|line| *line == "added").count() > 40);
        count += kinds().len() + 2;
    }
    report(2 * count, "events of every kind");
}

/// Puts doubles of any class where the event's kind uses none.
fn blur(rng: &mut Rng, event: &mut Event) {
    if event.kind == TAKE {
        event.target = event.target.map(|_| double(rng));
        event.offset = event.offset.map(|_| double(rng));
    }
    if matches!(event.kind, TAKE | RAPID) {
        event.speed = double(rng);
    }
    if matches!(event.kind, TAKE | RAPID | FEED) {
        event.radius = double(rng);
    }
}

/// The last line has the patterns of the point's doubles, of which that of a
/// coordinate below 0 has its highest bit, and none is that of −0.0.
#[test]
fn the_point_is_written_by_its_patterns() {
    let point = |events: &[Event]| {
        let text = compare(0, &pack_orders(&machine_m(), events), &[]);
        let last = text.lines().next_back();
        last.expect("a line").to_string()
    };
    assert_eq!(point(&[]), "point 0 0 0");
    // the patterns of 62.0, −188.0 and 0.0
    let halves = Event::rapid([0.0625, -0.1875, -0.0001]);
    assert_eq!(
        point(&[halves]),
        "point 4633922541587529728 13864190715371716608 0"
    );
    let there = Event::rapid([-0.001, 0.0, 0.0]);
    let back = Event::rapid([-0.0, -0.0, -0.000_4]);
    assert_eq!(point(&[there, back]), "point 0 0 0");
    report(3, "points by their patterns");
}

/// An input far longer than any buffer, under built-in steps and loaded ones.
#[test]
fn planorders_runs_a_long_input() {
    let mut rng = Rng::new(9);
    let (limits, steps) = (limits(&mut rng), loaded_steps(&mut rng));
    let orders = pack_orders(&limits, &events(&mut rng, 60_000));
    let text = run(&planorders(), &orders);
    assert!(text == planorders_by::<Planner>(&orders, &[]));
    let text = run_with_steps(&planorders(), &steps, &orders, usize::MAX);
    assert!(text == planorders_by::<Planner>(&orders, &steps));
    report(120_000, "events of a long input");
}

/// Events of noise alone: the doubles are of any bits.
#[test]
fn planorders_answers_noise() {
    for seed in seeds(60) {
        let mut rng = Rng::new(seed);
        let count = rng.spread(0, 30_000);
        let mut bytes = pack_limits(&limits(&mut rng), 0);
        bytes.extend((0..count).map(|_| rng.word() as u8));
        compare(seed, &bytes, &some_steps(&mut rng));
    }
    report(60, "inputs of noise");
}

/// What is told on standard error where a text cannot be written.
fn expect_untaken(what: &str, errors: &str) {
    let told = errors.lines().count() == 1 && errors.contains("did not take");
    assert!(
        told && errors.starts_with("planorders: "),
        "{what}: {errors:?}"
    );
}

/// Every write to /dev/full fails, and to an output that is closed: told once,
/// whether the text is a refusal, short or longer than any buffer.
#[test]
fn a_failed_write_is_told_on_standard_error() {
    let short = example_orders("cam-host").expect("an example");
    let long = pack_orders(&machine_m(), &events(&mut Rng::new(3), 5_000));
    let inputs = [&[][..], &short, &long];
    for orders in inputs {
        let full = File::create("/dev/full").expect("/dev/full");
        let errors = complaint(&planorders(), orders, Stdio::from(full));
        expect_untaken("/dev/full", &errors);
        let input = OwnFile::of(orders);
        let child = Command::new("sh")
            .args(["-c", "exec \"$0\" < \"$1\" >&-"])
            .args([planorders(), input.path.clone()])
            .stderr(Stdio::piped())
            .spawn();
        expect_untaken("closed", &output_of(child.expect("sh")).errors);
    }
    report(2 * inputs.len(), "texts that could not be written");
}
