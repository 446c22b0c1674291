//! Each number on the display from each function that can give it, each field of
//! limits and blocks at both ends of its range and one beyond, and the constants
//! of the header.
//!
//! The numbers stand here as the README's table and the header have them: they
//! are not the reference's.

use std::collections::BTreeSet;

use compare::library::{FIGURES, HOST, LISTED, NUMBERS, PLAN, POINT, REPORT, ROW, VERSION};
use compare::proved::{self, Host, Planner, Report};
use compare::{first_seed, report, seeds, Trying};
use reference::generate::{block, limits, machine_m, steps, straight_steps};
use reference::host::Order;
use reference::line::LookAhead;
use reference::machine::{Block, Limits};
use reference::refusal::Refusal;
use reference::rng::Rng;
use reference::tape::{
    pack_limits, pack_record, LIMITS_BYTES, MOST_BLOCKS, MOST_BYTES, RECORD_BYTES,
};
use reference::trace::{pack_trace, Call, CALL_BYTES};

/// A field of the limits and its ends.
type LimitEnds = (fn(&mut Limits) -> &mut u64, u64, u64);

/// The limits in their order.
const LIMITS: [LimitEnds; 9] = [
    (|l| &mut l.accel[0], 1, 20_000_000),
    (|l| &mut l.accel[1], 1, 20_000_000),
    (|l| &mut l.accel[2], 1, 20_000_000),
    (|l| &mut l.speed[0], 1, 1_000_000),
    (|l| &mut l.speed[1], 1, 1_000_000),
    (|l| &mut l.speed[2], 1, 1_000_000),
    (|l| &mut l.jump, 1, 1_000_000),
    (|l| &mut l.chord, 1, 1_000),
    (|l| &mut l.tick, 100, 10_000),
];

/// A field of a block, values at the ends of its range, values beyond, and the
/// number that these give.
type FieldEnds = (fn(&mut Block, i64), &'static [i64], &'static [i64], u64);

/// Values at the ends of each field's range, and beyond it, up to the greatest
/// number that the field has on tape; a mark's beyond is none of the tape's.
const MOVE: &[i64] = &[-1_000_000, 1_000_000];
const LONG: &[i64] = &[-1_000_001, 1_000_001, -1_048_576, 1_048_575];
const FEED: &[i64] = &[1, 2, 999_999, 1_000_000];
const NO_FEED: &[i64] = &[0, 1_000_001, 1_048_575];
const RADIUS: &[i64] = &[0, 1, 9_999_999, 10_000_000];
const NO_RADIUS: &[i64] = &[10_000_001, 16_777_215];
const MARK: &[i64] = &[0, 1, 2_097_150, 2_097_151];
const NO_MARK: &[i64] = &[2_097_152, 4_294_967_295];

/// The fields of a block.
const FIELDS: [FieldEnds; 6] = [
    (|b, v| b.moves[0] = v, MOVE, LONG, 3),
    (|b, v| b.moves[1] = v, MOVE, LONG, 3),
    (|b, v| b.moves[2] = v, MOVE, LONG, 3),
    (|b, v| b.feed = v as u64, FEED, NO_FEED, 4),
    (|b, v| b.radius = v as u64, RADIUS, NO_RADIUS, 5),
    (|b, v| b.mark = v as u64, MARK, NO_MARK, 6),
];

/// The number of an answer; 0 says accepted.
fn number<T>(answer: Result<T, Refusal>) -> u64 {
    answer.map_or_else(|refusal| refusal.number(), |_| 0)
}

/// The number and the place of a tape, planned under steps in a list of a
/// length.
fn tape_number(bytes: &[u8], steps: &[u8], junctions: usize) -> (u64, u64) {
    let mut list = vec![77; junctions];
    match proved::plan_tape(bytes, steps, &mut list) {
        Ok(()) => (0, 0),
        Err(fault) => (fault.refusal.number(), fault.place),
    }
}

/// The number and the place of a tape under steps that a report of so many tapes
/// gives.
fn report_number(tapes: u64, bytes: &[u8], steps: &[u8]) -> (u64, u64) {
    let mut own = Report::of_numbers(&[tapes, 1, 2, 3, 4, 5, 6, 7]);
    match own.add(bytes, steps) {
        Ok(_) => (0, 0),
        Err(fault) => (fault.refusal.number(), fault.place),
    }
}

/// The number and the place of a tape under steps, of which it is told what held
/// it in a list of a length.
fn held_number(bytes: &[u8], steps: &[u8], junctions: usize) -> (u64, u64) {
    match proved::held_by(bytes, steps, &mut vec![77; junctions]) {
        Ok(()) => (0, 0),
        Err(fault) => (fault.refusal.number(), fault.place),
    }
}

/// The number and the place of a tape under steps, listed in so many numbers.
fn list_number(bytes: &[u8], steps: &[u8], numbers: usize) -> (u64, u64) {
    match proved::list_tape(bytes, steps, &mut vec![77; numbers]) {
        Ok(()) => (0, 0),
        Err(fault) => (fault.refusal.number(), fault.place),
    }
}

/// The number and the place of a text whose records go into a list of a length.
fn text_number(text: &[u8], room: usize) -> (u64, u64) {
    match proved::text_records(text, &mut vec![77; room]) {
        Ok(_) => (0, 0),
        Err(fault) => (fault.refusal.number(), fault.place),
    }
}

/// The number of a trace run under steps, and those of its rows.
fn trace_numbers(bytes: &[u8], steps: &[u8], numbers: usize, junctions: usize) -> (u64, Vec<u64>) {
    let mut rows = vec![77; numbers];
    let answer = proved::replay(bytes, steps, &mut rows, &mut vec![88; junctions]);
    (number(answer), rows.iter().step_by(ROW).copied().collect())
}

/// The numbers that the functions which take limits give, with steps where they
/// take these too: fresh, a writer, a reader, a tape planned, reported, told what
/// held it and listed, and a trace.
fn limits_numbers(limits: &Limits, steps: &[u8]) -> [u64; 8] {
    let bytes = pack_limits(limits, 0);
    [
        number(Planner::fresh(limits, steps)),
        number(proved::write_limits(limits, &mut [7; LIMITS_BYTES])),
        number(proved::read_limits(&bytes)),
        tape_number(&bytes, steps, 1).0,
        report_number(0, &bytes, steps).0,
        held_number(&bytes, steps, 0).0,
        list_number(&bytes, steps, 0).0,
        trace_numbers(&bytes, steps, 0, PLAN).0,
    ]
}

#[test]
fn each_limit_is_accepted_at_its_ends_and_refused_beyond() {
    let mut count = 0;
    for seed in seeds(50) {
        let _trying = Trying::seed(seed);
        let mut rng = Rng::new(seed);
        for (field, low, high) in LIMITS {
            let passing = [(low, 0), (low + 1, 0), (high - 1, 0), (high, 0)];
            for (value, expected) in passing.into_iter().chain([(low - 1, 1), (high + 1, 1)]) {
                let (mut limits, steps) = (limits(&mut rng), steps(&mut rng));
                *field(&mut limits) = value;
                let numbers = limits_numbers(&limits, &steps);
                assert_eq!(numbers, [expected; 8], "{limits:?} {steps:?}");
                count += 8;
            }
        }
    }
    report(count, "limits at their ends");
}

/// The number that a block gives to an add, a writer and a trace; and to a
/// reader and a tape planned, reported, told what held it and listed, which have
/// no mark that is too large.
fn block_numbers(block: &Block, steps: &[u8]) -> ([u64; 3], Option<[u64; 5]>) {
    let mut planner = Planner::fresh(&machine_m(), steps).expect("steps that pass");
    let record = pack_record(block);
    let tape = [pack_limits(&machine_m(), 0), record.clone()].concat();
    let trace = pack_trace(&machine_m(), &[Call::Add(*block)]);
    let numbers = [
        number(planner.add(block)),
        number(proved::write_record(block, &mut [7; RECORD_BYTES])),
        trace_numbers(&trace, steps, ROW, PLAN).1[0],
    ];
    let (of_tape, place) = tape_number(&tape, steps, 2);
    assert_eq!(place, u64::from(of_tape != 0), "{block:?}");
    let others = [
        report_number(99, &tape, steps),
        held_number(&tape, steps, 0),
        list_number(&tape, steps, LISTED),
    ];
    assert_eq!(others, [(of_tape, place); 3], "{block:?}");
    let [reported, held, listed] = others.map(|(number, _)| number);
    let read = number(proved::read_record(&record));
    let on_tape = [read, of_tape, reported, held, listed];
    (numbers, (block.mark < 1 << 21).then_some(on_tape))
}

#[test]
fn each_field_is_accepted_at_its_ends_and_refused_beyond() {
    let mut count = 0;
    for seed in seeds(50) {
        let _trying = Trying::seed(seed);
        let mut rng = Rng::new(seed);
        for (set, within, beyond, refusal) in FIELDS {
            let beyond = beyond.iter().map(|value| (*value, refusal));
            for (value, expected) in within.iter().map(|value| (*value, 0)).chain(beyond) {
                let mut block = block(&mut rng);
                set(&mut block, value);
                let (numbers, on_tape) = block_numbers(&block, &steps(&mut rng));
                assert_eq!(numbers, [expected; 3], "{block:?}");
                let on_tape = on_tape.unwrap_or([expected; 5]);
                assert_eq!(on_tape, [expected; 5], "{block:?}");
                count += 8;
            }
        }
        let still = Block {
            moves: [0; 3],
            ..block(&mut rng)
        };
        let numbers = block_numbers(&still, &steps(&mut rng));
        assert_eq!(numbers, ([2; 3], Some([2; 5])), "{still:?}");
    }
    report(count, "fields at their ends");
}

/// A block that passes is given out with its fields as they came, at both ends
/// of their ranges.
#[test]
fn fields_come_back_as_they_were() {
    let mut count = 0;
    for seed in seeds(50) {
        let _trying = Trying::seed(seed);
        let mut rng = Rng::new(seed);
        for (set, within, _, _) in FIELDS {
            for value in within {
                let mut block = block(&mut rng);
                set(&mut block, *value);
                let (limits, steps) = (limits(&mut rng), steps(&mut rng));
                let mut planner = Planner::fresh(&limits, &steps).expect("both pass");
                planner.add(&block).expect("a block that passes");
                let given = planner.take().expect("a block held");
                assert_eq!(given.block, block, "seed {seed}");
                let mut record = [7; RECORD_BYTES];
                proved::write_record(&block, &mut record).expect("room");
                assert_eq!(proved::read_record(&record), Ok(block), "seed {seed}");
                count += 1;
            }
        }
    }
    report(count, "fields at their ends, given out and read back");
}

/// The constants of the header, which is written by hand.
const HEADER_NUMBERS: [(&str, u64); 77] = [
    ("NUMBERS", NUMBERS as u64),
    ("PLACES", 64),
    ("LIMITS", 9),
    ("STEPS", 8),
    ("MOVES", 3),
    ("GIVEN", 11),
    ("RECORD", 3),
    ("HOST", HOST as u64),
    ("POINT", POINT as u64),
    ("REPORT", REPORT as u64),
    ("FIGURES", FIGURES as u64),
    ("MOST_TAPES", 100),
    ("LISTED", LISTED as u64),
    ("LIMITS_BYTES", LIMITS_BYTES as u64),
    ("RECORD_BYTES", RECORD_BYTES as u64),
    ("MOST_BLOCKS", MOST_BLOCKS as u64),
    ("MOST_TAPE", MOST_BYTES as u64),
    ("CALL_BYTES", CALL_BYTES as u64),
    ("ROW", ROW as u64),
    ("PLAN", PLAN as u64),
    ("LIMIT_ACCEL_X", 0),
    ("LIMIT_ACCEL_Y", 1),
    ("LIMIT_ACCEL_Z", 2),
    ("LIMIT_SPEED_X", 3),
    ("LIMIT_SPEED_Y", 4),
    ("LIMIT_SPEED_Z", 5),
    ("LIMIT_CORNER_JUMP", 6),
    ("LIMIT_CHORD_TOLERANCE", 7),
    ("LIMIT_TICK", 8),
    ("GIVEN_FEED", 0),
    ("GIVEN_RADIUS", 1),
    ("GIVEN_MARK", 2),
    ("GIVEN_LENGTH", 3),
    ("GIVEN_ACCEL", 4),
    ("GIVEN_ENTRY", 5),
    ("GIVEN_EXIT", 6),
    ("GIVEN_PEAK", 7),
    ("GIVEN_UP", 8),
    ("GIVEN_CRUISE", 9),
    ("GIVEN_DOWN", 10),
    ("LISTED_CAP", 11),
    ("LISTED_JUNCTION_CAP", 12),
    ("ANSWER_NUMBER", 0),
    ("ANSWER_MOVE_X", 1),
    ("ANSWER_MOVE_Y", 2),
    ("ANSWER_MOVE_Z", 3),
    ("ANSWER_GIVEN", 4),
    ("FIGURE_BLOCKS", 0),
    ("FIGURE_LENGTH", 1),
    ("FIGURE_PEAK", 2),
    ("FIGURE_FEED", 3),
    ("FIGURE_CORNER", 4),
    ("FIGURE_CHORD", 5),
    ("FIGURE_REACH", 6),
    ("REPORT_TAPES", 0),
    ("REPORT_ALL", 1),
    ("HELD_BY_FEED", 0),
    ("HELD_BY_CORNER", 1),
    ("HELD_BY_CHORD", 2),
    ("HELD_BY_REACH", 3),
    ("ACCEPTED", 0),
    ("REFUSED_LIMITS", 1),
    ("REFUSED_STILL", 2),
    ("REFUSED_LONG", 3),
    ("REFUSED_FEED", 4),
    ("REFUSED_RADIUS", 5),
    ("REFUSED_MARK", 6),
    ("REFUSED_FULL", 7),
    ("REFUSED_EMPTY", 8),
    ("REFUSED_RAGGED", 9),
    ("REFUSED_MANY", 10),
    ("REFUSED_LIST", 11),
    ("REFUSED_WORD", 12),
    ("REFUSED_NUMBER", 13),
    ("REFUSED_STEPS", 14),
    ("REFUSED_NOT_FINITE", 15),
    ("REFUSED_BEYOND", 16),
];

/// The functions that a text declares, by their names.
fn functions(text: &str) -> BTreeSet<&str> {
    let before = [
        "uint64_t fullerecru_",
        "void fullerecru_",
        "pub fn fullerecru_",
    ];
    let calls = before.into_iter().flat_map(|word| text.split(word));
    let names = calls.filter_map(|rest| rest.split_once('(').map(|(name, _)| name));
    names
        .filter(|name| name.chars().all(|c| c.is_ascii_lowercase() || c == '_'))
        .collect()
}

/// The header has the constants that the tests lend lists by, declares the
/// functions that they call, and says its version as a number and as a text.
#[test]
fn the_header_has_these_numbers_and_functions() {
    let header = include_str!("../../../include/fullerecru.h");
    let lines = header
        .lines()
        .filter_map(|line| line.trim().strip_prefix("FULLERECRU_"));
    let pairs = lines.filter_map(|line| line.trim_end_matches(',').split_once(" = "));
    let found: Vec<(&str, u64)> = pairs
        .map(|(name, number)| (name, number.parse().expect("a number")))
        .collect();
    assert_eq!(found, HEADER_NUMBERS);
    let called = functions(include_str!("../src/library.rs"));
    assert_eq!(functions(header), called);
    assert_eq!(called.len(), 22);
    assert!(header.contains(&format!("#define FULLERECRU_VERSION {VERSION}\n")));
    let text = [1_000_000, 1_000, 1].map(|part| (VERSION / part % 1_000).to_string());
    let text = format!("FULLERECRU_VERSION_TEXT \"{}\"", text.join("."));
    assert!(header.contains(&text), "{text}");
    report(
        HEADER_NUMBERS.len() + 22 + 2,
        "constants and functions of the header",
    );
}

/// The numbers of a call for each of three lengths of what it is lent.
fn by_length<T>(lengths: [usize; 3], call: impl Fn(usize) -> Result<T, Refusal>) -> [u64; 3] {
    lengths.map(|length| number(call(length)))
}

/// 7, 8 and 11 from a planner that is empty, and that is full.
#[test]
fn empty_and_full_planners_give_their_numbers() {
    let blocks = straight_steps(first_seed(), 65);
    let mut planner = Planner::fresh(&machine_m(), &[]).expect("machine M passes");
    let shown = |planner: &Planner, n| planner.shown(&mut vec![7; n]);
    assert_eq!(number(planner.take()), 8);
    assert_eq!(by_length([0, 1, 2], |n| shown(&planner, n)), [11, 0, 11]);
    let added: Vec<u64> = blocks.iter().map(|b| number(planner.add(b))).collect();
    assert_eq!(added, [vec![0; 64], vec![7]].concat());
    assert_eq!(by_length([64, 65, 66], |n| shown(&planner, n)), [11, 0, 11]);
    report(1 + 3 + 65 + 3, "numbers of empty and full planners");
}

/// 9 from readers, before the limits' 1, and from writers, after the fields'
/// numbers.
#[test]
fn readers_and_writers_give_their_numbers() {
    let good = machine_m();
    let bad = Limits { tick: 99, ..good };
    let bytes = pack_limits(&bad, 0);
    let write = |limits, n| proved::write_limits(limits, &mut vec![7; n]);
    let lengths = [0, 23, 24];
    assert_eq!(
        by_length(lengths, |n| proved::read_limits(&bytes[..n])),
        [9, 9, 1]
    );
    assert_eq!(by_length(lengths, |n| write(&good, n)), [9, 9, 0]);
    assert_eq!(by_length(lengths, |n| write(&bad, n)), [1, 1, 1]);
    let block = straight_steps(first_seed(), 1)[0];
    let slow = Block { feed: 0, ..block };
    let record = pack_record(&slow);
    let write = |block, n| proved::write_record(block, &mut vec![7; n]);
    let lengths = [0, 15, 16];
    assert_eq!(
        by_length(lengths, |n| proved::read_record(&record[..n])),
        [9, 9, 4]
    );
    assert_eq!(by_length(lengths, |n| write(&block, n)), [9, 9, 0]);
    assert_eq!(by_length(lengths, |n| write(&slow, n)), [4, 4, 4]);
    report(6 * 3, "numbers of readers and writers");
}

/// The order of a tape's checks, of a trace's and of a fresh planner's: 10, 9, 1,
/// 14, each record, 11; 9, 1, 14, 11; and 1, 14.
#[test]
fn tapes_traces_and_planners_give_their_numbers() {
    let (good, bad) = (pack_limits(&machine_m(), 0), pack_limits(&machine_m(), 1));
    let record = pack_record(&straight_steps(first_seed(), 1)[0]);
    let still = [0; RECORD_BYTES];
    let whole = |limits: &[u8], last: &[u8]| [limits, &record, &record, last].concat();
    let long = |limits: &[u8]| [limits, &still.repeat(2_049)].concat();
    // eight steps that pass, and one too few
    let (fit, few) = (&[100, 90, 80, 70, 60, 50, 40, 30][..], &[100; 7][..]);
    assert_eq!(tape_number(&long(&bad), few, 0), (10, 0));
    assert_eq!(tape_number(&long(&bad)[..32_792], few, 0), (1, 0));
    assert_eq!(tape_number(&long(&bad)[..32_791], few, 0), (9, 0));
    assert_eq!(tape_number(&long(&good)[..32_792], few, 0), (14, 0));
    assert_eq!(tape_number(&long(&good)[..32_792], fit, 0), (2, 1));
    assert_eq!(tape_number(&whole(&bad, &still[1..]), few, 0), (9, 0));
    assert_eq!(tape_number(&whole(&bad, &still), few, 0), (1, 0));
    assert_eq!(tape_number(&whole(&good, &still), few, 0), (14, 0));
    assert_eq!(tape_number(&whole(&good, &still), &[], 0), (2, 3));
    assert_eq!(tape_number(&whole(&good, &record), few, 3), (14, 0));
    assert_eq!(tape_number(&whole(&good, &record), fit, 3), (11, 0));
    assert_eq!(tape_number(&whole(&good, &record), fit, 4), (0, 0));
    assert_eq!(tape_number(&whole(&good, &record), &[], 4), (0, 0));
    let blocks = straight_steps(first_seed(), 65);
    let calls: Vec<Call> = blocks
        .iter()
        .map(|b| Call::Add(*b))
        .chain([Call::Take; 65])
        .collect();
    let trace = pack_trace(&machine_m(), &calls);
    let faulty = [&bad, &trace[LIMITS_BYTES..]].concat();
    let rows = 130 * ROW;
    assert_eq!(trace_numbers(&faulty[1..], few, 0, 0).0, 9);
    assert_eq!(trace_numbers(&faulty, few, 0, 0).0, 1);
    assert_eq!(trace_numbers(&trace, few, rows - ROW, PLAN).0, 14);
    assert_eq!(trace_numbers(&trace, fit, rows - ROW, PLAN).0, 11);
    assert_eq!(trace_numbers(&trace, &[], rows, PLAN - 1).0, 11);
    let expected = [vec![0; 64], vec![7], vec![0; 64], vec![8]].concat();
    assert_eq!(trace_numbers(&trace, fit, rows, PLAN), (0, expected));
    let slow = Limits {
        tick: 99,
        ..machine_m()
    };
    assert_eq!(number(Planner::fresh(&slow, few)), 1);
    assert_eq!(number(Planner::fresh(&machine_m(), few)), 14);
    assert_eq!(number(Planner::fresh(&machine_m(), fit)), 0);
    report(13 + 6 + 3, "numbers of tapes, traces and fresh planners");
}

/// The order of a report's checks, 10 after 100 tapes, 10, 9, 1, 14, each record
/// and never 11; and of a list's that is told what held a tape, those of the tape,
/// then 11 where it has not a number for each inner junction.
#[test]
fn reports_give_their_numbers() {
    let (good, bad) = (pack_limits(&machine_m(), 0), pack_limits(&machine_m(), 1));
    let record = pack_record(&straight_steps(first_seed(), 1)[0]);
    let still = [0; RECORD_BYTES];
    let whole = |limits: &[u8], last: &[u8]| [limits, &record, &record, last].concat();
    let long = |limits: &[u8]| [limits, &still.repeat(2_049)].concat();
    // eight steps that pass, and one too few
    let (fit, few) = (&[100, 90, 80, 70, 60, 50, 40, 30][..], &[100; 7][..]);
    let cases = [
        (long(&bad), few, (10, 0)),
        (long(&bad)[..32_792].to_vec(), few, (1, 0)),
        (long(&bad)[..32_791].to_vec(), few, (9, 0)),
        (long(&good)[..32_792].to_vec(), few, (14, 0)),
        (long(&good)[..32_792].to_vec(), fit, (2, 1)),
        (whole(&bad, &still[1..]), few, (9, 0)),
        (whole(&bad, &still), few, (1, 0)),
        (whole(&good, &still), few, (14, 0)),
        (whole(&good, &still), &[], (2, 3)),
        (whole(&good, &record), few, (14, 0)),
        (whole(&good, &record), fit, (0, 0)),
        (whole(&good, &record), &[], (0, 0)),
        (good.clone(), fit, (0, 0)),
    ];
    for (tape, steps, expected) in &cases {
        let inner = (tape.len().saturating_sub(24) / 16).saturating_sub(1);
        assert_eq!(report_number(0, tape, steps), *expected);
        assert_eq!(report_number(99, tape, steps), *expected);
        for tapes in [100, 101, 1 << 32, u64::MAX] {
            assert_eq!(report_number(tapes, tape, steps), (10, 0), "{tapes}");
        }
        assert_eq!(held_number(tape, steps, inner), *expected);
        let other = if expected.0 == 0 { (11, 0) } else { *expected };
        assert_eq!(held_number(tape, steps, inner + 1), other);
        assert_eq!(held_number(tape, steps, inner + 2), other);
    }
    report(9 * cases.len(), "numbers of reports");
}

/// Lines that are accepted behind a line that sets a feed, and such that are not,
/// with the number of each: 12 and 13 by the first place at fault, 13 before 12
/// in one word, both before the fields' numbers.
const LINES: [(&str, u64); 40] = [
    ("", 0),
    ("N1 G1 G21 G90 X1 Y1 Z1 F60", 0),
    (" G00 X-1000 ", 0),
    ("X+1000.0004", 0),
    ("F60000 X1", 0),
    ("F0.06 X1", 0),
    ("G20 X39.37", 0),
    ("G91 X0.0004", 0),
    ("X1000.0005", 3),
    ("G0 Y-1001", 3),
    ("G20 Z39.3701", 3),
    ("F0 X2000", 3),
    ("F-1 X1", 4),
    ("F0.0599 X1", 4),
    ("F60000.06 X1", 4),
    ("G0 F60001 X1", 0),
    ("F0", 0),
    ("x1", 12),
    ("X1;", 12),
    ("X1\r", 12),
    ("\tX1", 12),
    ("X1 1", 12),
    ("M30", 12),
    ("G2", 12),
    ("G-1", 12),
    ("G1.5", 12),
    ("G0 X1 G1", 12),
    ("X1 Y1 X1", 12),
    ("N1 N1", 12),
    ("X", 13),
    ("X 1", 13),
    ("X.5", 13),
    ("X5.", 13),
    ("X123456", 13),
    ("X1.23456", 13),
    ("X--1", 13),
    ("M", 13),
    ("? X", 12),
    ("X ?", 13),
    ("X2000 M1", 12),
];

/// Each line behind one that sets a feed, and behind one more that is at fault or
/// has a block more; a list that is too short decides after all lines.
#[test]
fn texts_give_their_numbers() {
    for (line, expected) in LINES {
        let at = |place| {
            if expected == 0 {
                (0, 0)
            } else {
                (expected, place)
            }
        };
        let text = |before: &str| format!("F600\n{before}{line}").into_bytes();
        assert_eq!(text_number(&text(""), 64), at(2), "{line:?}");
        assert_eq!(text_number(&text("\n\n"), 64), at(4), "{line:?}");
        assert_eq!(text_number(&text("M\n"), 64), (13, 2), "{line:?}");
        let short = if expected == 0 { (9, 0) } else { (expected, 3) };
        assert_eq!(text_number(&text("Z-0.0005\n"), 15), short, "{line:?}");
    }
    for (text, expected) in [
        ("X1", (4, 1)),
        ("\nX1F60\nF-1\nX2", (4, 4)),
        ("G0X1", (0, 0)),
    ] {
        assert_eq!(text_number(text.as_bytes(), 32), expected, "{text:?}");
    }
    report(4 * LINES.len() + 3, "numbers of texts");
}

/// 10 and 6 at their lines, 6 before 10, and 9 after both.
#[test]
fn long_texts_give_their_numbers() {
    let blocks = |count: usize| [&b"G0"[..], &b"\nX1\nX0".repeat(1_025)[..3 * count]].concat();
    let most = blocks(MOST_BLOCKS);
    let late = |count, lines| [blocks(count), vec![b'\n'; lines - count], b"Y1".to_vec()].concat();
    assert_eq!(text_number(&most, 32_768), (0, 0));
    assert_eq!(text_number(&most, 32_767), (9, 0));
    assert_eq!(text_number(&blocks(MOST_BLOCKS + 1), 32_784), (10, 2_050));
    assert_eq!(text_number(&blocks(MOST_BLOCKS + 1), 0), (10, 2_050));
    assert_eq!(text_number(&late(2, 2_097_150), 48), (0, 0));
    assert_eq!(text_number(&late(2, 2_097_150), 47), (9, 0));
    assert_eq!(text_number(&late(2, 2_097_151), 0), (6, 2_097_152));
    assert_eq!(text_number(&late(2_048, 2_097_151), 0), (6, 2_097_152));
    assert_eq!(text_number(&late(2_048, 2_097_150), 0), (10, 2_097_151));
    report(9, "numbers of long texts");
}

const NAN: f64 = f64::NAN;
const INF: f64 = f64::INFINITY;

/// Fields of an order that passes, X, Y, Z, speed, radius: a rapid has the
/// first three of them, a feed four, a curve chord all.
const ORDER: [f64; 5] = [1.0, 2.0, 3.0, 20.0, 1.5];
const SORTS: [usize; 3] = [3, 4, 5];

/// Values of a coordinate, of a speed and of a radius, each alone in an order,
/// with the number that the order gives.
const COORDINATES: &[(f64, u64)] = &[
    (0.0, 0),
    (-0.0, 0),
    (999.999, 0),
    (1_000.000_4, 0),
    (-1_000.000_5, 0),
    (1_000.000_6, 3),
    (-1_000_000.000_5, 3),
    (1_000_000.000_6, 16),
    (-1_000_000.000_6, 16),
    (1e308, 16),
    (INF, 15),
    (-INF, 15),
    (NAN, 15),
    (-NAN, 15),
];
const SPEEDS: &[(f64, u64)] = &[
    (0.000_5, 0),
    (1_000.0, 0),
    (1_000.000_5, 0),
    (0.0, 4),
    (-0.0, 4),
    (-0.000_4, 4),
    (1_000.000_6, 4),
    (1_000_000.0, 4),
    (-0.000_5, 16),
    (-1.0, 16),
    (1_000_000.000_6, 16),
    (INF, 15),
    (-INF, 15),
    (NAN, 15),
];
const RADII: &[(f64, u64)] = &[
    (0.0, 0),
    (-0.0, 0),
    (-0.000_4, 0),
    (10_000.000_4, 0),
    (10_000.001, 5),
    (1_000_000.0, 5),
    (-0.000_5, 16),
    (-1.0, 16),
    (1_000_000.000_6, 16),
    (INF, 15),
    (-INF, 15),
    (NAN, 15),
];
const FIELD_VALUES: [&[(f64, u64)]; 5] = [COORDINATES, COORDINATES, COORDINATES, SPEEDS, RADII];

/// A planner and a host: fresh, or with 64 blocks held and no mark left.
fn planner_and_host(full: bool) -> (Planner, Host) {
    let mut planner = Planner::fresh(&machine_m(), &[]).expect("machine M passes");
    if !full {
        return (planner, Host::fresh());
    }
    for block in straight_steps(first_seed(), 64) {
        planner.add(&block).expect("room");
    }
    (planner, Host::of_numbers(&[0, 0, 0, 2_097_151]))
}

/// The number of the order that has these fields, under an offset.
fn order_number((planner, host): &mut (Planner, Host), fields: &[f64], offset: [f64; 3]) -> u64 {
    let bits: Vec<u64> = fields.iter().map(|field| field.to_bits()).collect();
    let order = match bits[..] {
        [x, y, z] => Order::Rapid([x, y, z]),
        [x, y, z, speed] => Order::Feed([x, y, z], speed),
        [x, y, z, speed, radius] => Order::CurveChord([x, y, z], speed, radius),
        _ => panic!("{fields:?} are no order's"),
    };
    number(host.order(planner, &order, &offset.map(f64::to_bits)))
}

/// Each field of each sort of order, and each coordinate by its offset alone.
#[test]
fn each_field_of_an_order_gives_its_numbers() {
    let mut count = 0;
    for fields in SORTS {
        for (field, values) in FIELD_VALUES.iter().enumerate().take(fields) {
            for (value, expected) in *values {
                let mut order = ORDER;
                order[field] = *value;
                let found = order_number(&mut planner_and_host(false), &order[..fields], [0.0; 3]);
                assert_eq!(found, *expected, "{order:?}, {fields} fields");
                count += 1;
                if field < POINT {
                    let mut offset = [0.0; 3];
                    (order[field], offset[field]) = (0.0, -*value);
                    let both = &mut planner_and_host(false);
                    let found = order_number(both, &order[..fields], offset);
                    assert_eq!(found, *expected, "{order:?} less {offset:?}");
                    count += 1;
                }
            }
        }
    }
    report(count, "numbers of the fields of orders");
}

/// 15 or 16 of the first field at fault, whatever the later ones are, before
/// any number of an add.
#[test]
fn the_first_field_at_fault_decides() {
    let faults = [(NAN, 15), (INF, 15), (-INF, 15), (1e7, 16), (-1e7, 16)];
    let mut count = 0;
    for (full, fields) in [false, true]
        .into_iter()
        .flat_map(|full| SORTS.map(|n| (full, n)))
    {
        let both = &mut planner_and_host(full);
        for (first, later) in (0..fields).flat_map(|k| (k + 1..fields).map(move |n| (k, n))) {
            for (value, expected) in faults {
                for (other, _) in faults {
                    // of the other fields none passes: still, no feed, too wide
                    let mut order = [0.0, 0.0, 0.0, 0.0, 20_000.0];
                    (order[first], order[later]) = (value, other);
                    let found = order_number(both, &order[..fields], [0.0; 3]);
                    assert_eq!(found, expected, "{order:?}, {fields} fields");
                    count += 1;
                }
            }
        }
    }
    report(count, "orders with two fields at fault");
}

/// 2 to 7 of the block in their order, from each sort of order that has them,
/// at a planner that is full and a host that has no mark left.
#[test]
fn orders_give_the_numbers_of_adds() {
    let long = 1_000.001;
    let orders: [(&[f64], u64); 9] = [
        (&[0.0, 0.0, 0.0, 0.0, 20_000.0], 2),
        (&[0.0, 0.0, long, 0.0, 20_000.0], 3),
        (&[0.0, 0.0, 1.0, 0.0, 20_000.0], 4),
        (&[0.0, 0.0, 1.0, 20.0, 20_000.0], 5),
        (&[0.0, 0.0, 1.0, 20.0, 1.0], 6),
        (&[0.0, 0.0, 0.0, 0.0], 2),
        (&[0.0, 0.0, 1.0, 0.0], 4),
        (&[0.0, long, 0.0], 3),
        (&[0.0, 0.0, 1.0], 6),
    ];
    let both = &mut planner_and_host(true);
    for (fields, expected) in orders {
        assert_eq!(order_number(both, fields, [0.0; 3]), expected, "{fields:?}");
    }
    both.1.freshen();
    for fields in SORTS {
        assert_eq!(order_number(both, &ORDER[..fields], [0.0; 3]), 7);
    }
    both.0.take().expect("64 are held");
    assert_eq!(order_number(both, &ORDER, [0.0; 3]), 0);
    report(orders.len() + 4, "orders with the numbers of adds");
}
