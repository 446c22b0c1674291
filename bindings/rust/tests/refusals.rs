//! Every number on the display, 1 to 16, is provoked, and what was lent is as it was before.

mod common;

use common::{block, planner, planner_with_pair, MACHINE};
use fullerecru::{
    held_by, list_tape, plan_tape, read_limits, read_record, replay, text_records,
    text_records_into, text_tape, write_limits, write_record, write_tape, Block, Fault, Host,
    Limits, Planner, Refusal, Report, Steps, LIMITS_BYTES, MOST_BLOCKS, MOST_TAPE, MOST_TAPES,
    PLACES, RECORD_BYTES,
};

/// Fills bytes that must stay as they are.
const UNTOUCHED: u8 = 0xA5;

/// Moves, µm, feed, µm/s, radius, µm, and mark that are out of range, with the refusal; for the last
/// two several hold, and the first in order is given.
const FAULTY: [([i64; 3], u64, u64, u64, Refusal); 10] = [
    ([0, 0, 0], 20_000, 0, 0, Refusal::Still),
    ([1_000_001, 0, 0], 20_000, 0, 0, Refusal::Long),
    ([0, 0, i64::MIN], 20_000, 0, 0, Refusal::Long),
    ([1_000, 0, 0], 0, 0, 0, Refusal::Feed),
    ([1_000, 0, 0], 1_000_001, 0, 0, Refusal::Feed),
    ([1_000, 0, 0], 20_000, 10_000_001, 0, Refusal::Radius),
    ([1_000, 0, 0], 20_000, 0, 2_097_152, Refusal::Mark),
    ([1_000, 0, 0], 20_000, 0, u64::MAX, Refusal::Mark),
    ([1_000, 0, 0], 0, u64::MAX, 0, Refusal::Feed),
    ([0, i64::MAX, 0], 0, 0, u64::MAX, Refusal::Long),
];

/// Sets one of the limits.
type Set = fn(&mut Limits, u64);

/// Each of the limits with the numbers just below and just above its range.
const OUTSIDE: [(Set, [u64; 2]); 9] = [
    (|limits, number| limits.accel_x = number, [0, 20_000_001]),
    (|limits, number| limits.accel_y = number, [0, 20_000_001]),
    (|limits, number| limits.accel_z = number, [0, 20_000_001]),
    (|limits, number| limits.speed_x = number, [0, 1_000_001]),
    (|limits, number| limits.speed_y = number, [0, 1_000_001]),
    (|limits, number| limits.speed_z = number, [0, 1_000_001]),
    (|limits, number| limits.corner_jump = number, [0, 1_000_001]),
    (|limits, number| limits.chord_tolerance = number, [0, 1_001]),
    (|limits, number| limits.tick = number, [99, 10_001]),
];

/// Limits with one of them out of its range.
fn faulty_limits() -> Vec<Limits> {
    let sets = OUTSIDE
        .iter()
        .flat_map(|(set, numbers)| numbers.map(|number| (set, number)));
    sets.map(|(set, number)| {
        let mut limits = MACHINE;
        set(&mut limits, number);
        limits
    })
    .collect()
}

#[test]
fn by_1_limits() {
    for limits in faulty_limits() {
        assert_eq!(
            Planner::fresh(&limits, &Steps::BuiltIn),
            Err(Refusal::Limits)
        );
        assert_eq!(
            Planner::fresh(&limits, &Steps::Loaded(&[0])),
            Err(Refusal::Limits)
        );
        let mut bytes = [UNTOUCHED; LIMITS_BYTES];
        assert_eq!(write_limits(&limits, &mut bytes), Err(Refusal::Limits));
        assert_eq!(bytes, [UNTOUCHED; LIMITS_BYTES]);
        assert_eq!(text_tape(b"M", &limits), Err(Refusal::Limits.into()));
        assert_eq!(
            write_tape(&limits, &[block(0, 0, 0)]),
            Err(Refusal::Limits.into())
        );
    }
    assert_eq!(read_limits(&[0; LIMITS_BYTES]), Err(Refusal::Limits));
}

#[test]
fn by_2_to_6_the_block() {
    let mut planner = planner_with_pair();
    for ([x, y, z], feed, radius, mark, refusal) in FAULTY {
        let faulty = Block {
            x,
            y,
            z,
            feed,
            radius,
            mark,
        };
        let before = planner.clone();
        assert_eq!(planner.add(&faulty), Err(refusal));
        assert_eq!(planner, before);
        let mut bytes = [UNTOUCHED; RECORD_BYTES];
        assert_eq!(write_record(&faulty, &mut bytes), Err(refusal));
        assert_eq!(write_record(&faulty, &mut []), Err(refusal));
        assert_eq!(bytes, [UNTOUCHED; RECORD_BYTES]);
        let blocks = [block(1, 0, 0), block(2, 0, 0), faulty];
        assert_eq!(
            write_tape(&MACHINE, &blocks),
            Err(Fault { refusal, place: 3 })
        );
    }
}

#[test]
fn by_7_full() {
    let mut planner = planner();
    for _ in 0..PLACES {
        planner.add(&block(1_000, 0, 0)).unwrap();
    }
    let before = planner.clone();
    assert_eq!(planner.add(&block(1_000, 0, 0)), Err(Refusal::Full));
    assert_eq!(planner.add(&block(0, 0, 0)), Err(Refusal::Still));
    let mut host = Host::fresh();
    assert_eq!(
        host.rapid(&mut planner, [1.0; 3], [0.0; 3]),
        Err(Refusal::Full)
    );
    assert_eq!((planner.told(), host), (PLACES, Host::fresh()));
    assert_eq!(planner, before);
}

#[test]
fn by_8_empty() {
    let mut planner = planner();
    let before = planner.clone();
    assert_eq!(planner.take(), Err(Refusal::Empty));
    assert_eq!(planner, before);
}

#[test]
fn by_9_ragged() {
    let tape = write_tape(&MACHINE, &[block(1_000, 0, 0)]).unwrap();
    let ragged = Refusal::Ragged;
    for count in [0, 23, 25, 39] {
        assert_eq!(
            plan_tape(&tape[..count], &Steps::BuiltIn),
            Err(ragged.into())
        );
        assert_eq!(
            list_tape(&tape[..count], &Steps::BuiltIn),
            Err(ragged.into())
        );
        assert_eq!(held_by(&tape[..count], &Steps::BuiltIn), Err(ragged.into()));
        assert_eq!(replay(&tape[..count], &Steps::BuiltIn), Err(ragged));
    }
    assert_eq!(read_limits(&[]), Err(ragged));
    assert_eq!(read_limits(&tape[..23]), Err(ragged));
    assert_eq!(read_record(&[]), Err(ragged));
    assert_eq!(read_record(&tape[25..]), Err(ragged));
    let mut bytes = [UNTOUCHED; 23];
    assert_eq!(write_limits(&MACHINE, &mut bytes), Err(ragged));
    assert_eq!(write_record(&block(1, 0, 0), &mut bytes[..15]), Err(ragged));
    assert_eq!(
        text_records_into(b"F60X1", &mut bytes[..15]),
        Err(ragged.into())
    );
    assert_eq!(bytes, [UNTOUCHED; 23]);
}

#[test]
fn by_10_many() {
    let mut tape = write_tape(&MACHINE, &vec![block(1_000, 0, 0); MOST_BLOCKS]).unwrap();
    assert_eq!(tape.len(), MOST_TAPE);
    assert_eq!(
        plan_tape(&tape, &Steps::BuiltIn).unwrap().len(),
        MOST_BLOCKS + 1
    );
    tape.push(0);
    let many = Refusal::Many;
    assert_eq!(plan_tape(&tape, &Steps::BuiltIn), Err(many.into()));
    assert_eq!(list_tape(&tape, &Steps::BuiltIn), Err(many.into()));
    assert_eq!(held_by(&tape, &Steps::BuiltIn), Err(many.into()));
    assert_eq!(
        Report::fresh().add(&tape, &Steps::BuiltIn),
        Err(many.into())
    );
    let blocks = vec![block(0, 0, 0); MOST_BLOCKS + 1];
    assert_eq!(write_tape(&MACHINE, &blocks), Err(many.into()));
}

/// The hundredth tape is the last that a report accepts; then 10 comes before anything of the tape.
#[test]
fn by_10_many_tapes() {
    let tape = write_tape(&MACHINE, &[block(1_000, 0, 0), block(0, 1_000, 0)]).unwrap();
    let mut report = Report::fresh();
    for _ in 1..MOST_TAPES {
        report.add(&tape, &Steps::BuiltIn).unwrap();
    }
    let before = report.clone();
    assert_eq!(
        report.add(&tape[..5], &Steps::BuiltIn),
        Err(Refusal::Ragged.into())
    );
    assert_eq!(report, before);
    report.add(&tape, &Steps::BuiltIn).unwrap();
    let before = report.clone();
    assert_eq!(
        report.add(&tape[..5], &Steps::BuiltIn),
        Err(Refusal::Many.into())
    );
    assert_eq!((report.tapes(), report.all().corner), (100, 100));
    assert_eq!(report, before);
}

#[test]
fn by_11_list() {
    let planner = planner_with_pair();
    let mut list = [7; 5];
    for count in [0, 2, 4, 5] {
        assert_eq!(planner.shown_into(&mut list[..count]), Err(Refusal::List));
    }
    assert_eq!(list, [7; 5]);
    assert_eq!(planner.shown_into(&mut list[..3]), Ok(()));
    assert_eq!(list, [0, 2_000_000, 0, 7, 7]);
}

#[test]
fn by_12_and_13_in_a_text() {
    let mut bytes = [UNTOUCHED; 4 * RECORD_BYTES];
    for (text, refusal, place) in [
        (&b"F60 X1\nM3\n"[..], Refusal::Word, 2),
        (b"F60 X1\r\n", Refusal::Word, 1),
        (b"F60\n\n\nX1 X2", Refusal::Word, 4),
        (b"F60 X1\nM", Refusal::Number, 2),
        (b"F60 X1.23456", Refusal::Number, 1),
        (b"F60 X1\nX99999", Refusal::Long, 2),
        (b"F60 X1\nF0 X2", Refusal::Feed, 2),
        (b"\xFF", Refusal::Word, 1),
    ] {
        let fault = Fault { refusal, place };
        assert_eq!(text_records(text), Err(fault));
        assert_eq!(text_records_into(text, &mut bytes), Err(fault));
        assert_eq!(text_tape(text, &MACHINE), Err(fault));
    }
    assert_eq!(bytes, [UNTOUCHED; 4 * RECORD_BYTES]);
}

#[test]
fn by_14_steps() {
    let tape = write_tape(&MACHINE, &[block(0, 0, 1_000)]).unwrap();
    let short = [100; 7];
    let long = [100; 9];
    let zero = [100, 100, 100, 100, 100, 100, 100, 0];
    let above = [101, 100, 100, 100, 100, 100, 100, 100];
    let rising = [50, 51, 50, 50, 50, 50, 50, 50];
    for bytes in [&short[..], &long, &zero, &above, &rising] {
        let steps = Steps::Loaded(bytes);
        let fault = Fault {
            refusal: Refusal::Steps,
            place: 0,
        };
        assert_eq!(Planner::fresh(&MACHINE, &steps), Err(Refusal::Steps));
        assert_eq!(plan_tape(&tape, &steps), Err(fault));
        assert_eq!(list_tape(&tape, &steps), Err(fault));
        assert_eq!(held_by(&tape, &steps), Err(fault));
        assert_eq!(replay(&tape[..LIMITS_BYTES], &steps), Err(Refusal::Steps));
        let mut report = Report::fresh();
        assert_eq!(report.add(&tape, &steps), Err(fault));
        assert_eq!(report, Report::fresh());
    }
    assert!(Planner::fresh(&MACHINE, &Steps::Loaded(&[])) == Ok(planner()));
}

#[test]
fn by_15_and_16_in_an_order() {
    let (mut planner, mut host) = (planner_with_pair(), Host::fresh());
    host.rapid(&mut planner, [1.0, 2.0, 3.0], [0.0; 3]).unwrap();
    let before = (planner.clone(), host.clone());
    let (near, none) = ([1.0; 3], [0.0; 3]);
    for strange in [f64::NAN, f64::INFINITY, f64::NEG_INFINITY] {
        let answers = [
            host.rapid(&mut planner, [1.0, 1.0, strange], none),
            host.rapid(&mut planner, near, [strange, 0.0, 0.0]),
            host.feed(&mut planner, near, none, strange),
            host.curve_chord(&mut planner, near, none, 20.0, strange),
        ];
        assert_eq!(answers, [Err(Refusal::NotFinite); 4]);
    }
    let answers = [
        host.rapid(&mut planner, [f64::MAX, 0.0, 0.0], [-f64::MAX, 0.0, 0.0]),
        host.rapid(&mut planner, [0.0, 1_000_000.000_6, 0.0], none),
        host.feed(&mut planner, near, none, -1.0),
        host.curve_chord(&mut planner, near, none, 20.0, -1.0),
    ];
    assert_eq!(answers[0], Err(Refusal::NotFinite));
    assert_eq!(answers[1..], [Err(Refusal::Beyond); 3]);
    assert_eq!((planner, host.clone()), before);
    assert_eq!(host.position(), [1_000.0, 2_000.0, 3_000.0]);
}

/// The place of a tape's fault is that of the first record at fault.
#[test]
fn a_tape_is_refused_at_its_first_record_at_fault() {
    let mut tape = write_tape(&MACHINE, &vec![block(1_000, 0, 0); 100]).unwrap();
    for record in [90, 40] {
        let at = LIMITS_BYTES + RECORD_BYTES * record;
        tape[at..at + RECORD_BYTES].fill(0);
        let fault = Fault {
            refusal: Refusal::Still,
            place: record as u64 + 1,
        };
        assert_eq!(plan_tape(&tape, &Steps::BuiltIn), Err(fault));
        assert_eq!(list_tape(&tape, &Steps::BuiltIn), Err(fault));
        assert_eq!(held_by(&tape, &Steps::BuiltIn), Err(fault));
        assert_eq!(Report::fresh().add(&tape, &Steps::BuiltIn), Err(fault));
    }
}
