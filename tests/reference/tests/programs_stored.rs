//! The stored inputs of the programs `planlist`, `planreplay`, `planorders` and
//! `planreport`, and the texts that they must write.

use std::collections::BTreeSet;
use std::fs;
use std::path::PathBuf;

use reference::examples::{right_angle, to_and_fro, what_held};
use reference::listing::{planlist, planreplay};
use reference::order_cases::{order_cases, worked};
use reference::order_listing::planorders;
use reference::orders::EVENT_BYTES;
use reference::report::planreport;
use reference::tape::LIMITS_BYTES;
use reference::trace::CALL_BYTES;

const TAPE: &[u8] = include_bytes!("../../../crates/planlist/stdin");
const LISTING: &str = include_str!("../../../crates/planlist/stdout");
const TRACE: &[u8] = include_bytes!("../../../crates/planreplay/stdin");
const ANSWERS: &str = include_str!("../../../crates/planreplay/stdout");
const ORDERS: &[u8] = include_bytes!("../../../crates/planorders/stdin");
const ORDERED: &str = include_str!("../../../crates/planorders/stdout");
const NAMES: &str = include_str!("../../../crates/planreport/args");
const REPORT: &str = include_str!("../../../crates/planreport/stdout");
/// Calls that planreplay runs at a time.
const CHUNK_CALLS: usize = 300;

/// The tape is the right-angle pair, whose listing documents 01 and 02 give.
#[test]
fn stored_listing_is_that_of_the_tape() {
    assert!(TAPE == right_angle().pack());
    assert_eq!(LISTING, planlist(TAPE, &[]));
}

#[test]
fn stored_answers_are_those_of_the_trace() {
    assert!(ANSWERS == planreplay(TRACE, &[]));
}

/// The numbers of the refusals in a text.
fn refusals(text: &str) -> BTreeSet<u64> {
    let refused = text
        .lines()
        .filter_map(|line| line.strip_prefix("refused "));
    refused
        .map(|rest| rest.split(' ').next().unwrap().parse().unwrap())
        .collect()
}

/// Every number by which a call can be refused occurs, and the trace ends
/// inside a call of the second chunk.
#[test]
fn stored_trace_tells() {
    assert_eq!(refusals(ANSWERS), (2..=9).collect());
    let calls = TRACE.len() - LIMITS_BYTES;
    assert!(calls / CALL_BYTES > CHUNK_CALLS && !calls.is_multiple_of(CALL_BYTES));
}

#[test]
fn stored_answers_are_those_of_the_orders() {
    assert!(ORDERS == order_cases());
    assert!(ORDERED == planorders(ORDERS, &[]));
}

/// The worked events come first. Every number by which an event can be refused
/// occurs but 6, for which too many orders would be needed; so do lines of adds
/// and of blocks given out, and the orders end inside an event.
#[test]
fn stored_orders_tell() {
    let first: Vec<u8> = worked().iter().flat_map(|event| event.bytes()).collect();
    assert!(ORDERS[LIMITS_BYTES..].starts_with(&first));
    let numbers = [2, 3, 4, 5, 7, 8, 9, 15, 16];
    assert_eq!(refusals(ORDERED), BTreeSet::from(numbers));
    let given = |line: &&str| line.split(' ').count() == 9 && !line.starts_with("plan");
    assert!(ORDERED.lines().filter(given).count() > 50);
    assert!(ORDERED.lines().filter(|line| *line == "added").count() > 100);
    let events = ORDERS.len() - LIMITS_BYTES;
    assert!(events / EVENT_BYTES > CHUNK_CALLS && !events.is_multiple_of(EVENT_BYTES));
    let last: Vec<&str> = ORDERED.lines().rev().take(4).collect();
    assert!(last[0].starts_with("point ") && last[1].starts_with("plan "));
    assert!(last[2].starts_with("held ") && last[3].starts_with("refused 9 at "));
}

/// The tapes that planreport is run with: the right-angle pair, one held in each
/// of the four ways, one that is cut inside its limits, and a line to and fro.
#[test]
fn stored_report_is_that_of_the_tapes() {
    let pair = right_angle().pack();
    let tapes = [
        ("right-angle.tape", pair.clone()),
        ("what-held.tape", what_held().pack()),
        ("cut.tape", pair[..LIMITS_BYTES - 1].to_vec()),
        ("to-and-fro.tape", to_and_fro().pack()),
    ];
    let folder = PathBuf::from(env!("CARGO_MANIFEST_DIR")).join("../../crates/planreport/data");
    for (name, tape) in &tapes {
        assert!(fs::read(folder.join(name)).unwrap() == *tape, "{name}");
    }
    assert_eq!(fs::read_dir(folder).unwrap().count(), tapes.len());
    assert_eq!(
        NAMES.lines().collect::<Vec<_>>(),
        tapes.each_ref().map(|tape| tape.0)
    );
    let files = tapes
        .each_ref()
        .map(|(name, tape)| (name.as_bytes(), &tape[..]));
    assert_eq!(REPORT.as_bytes(), planreport(&files, &[]));
}

/// Each of the four counts and a refusal occur in it.
#[test]
fn stored_report_tells() {
    assert_eq!(refusals(REPORT), BTreeSet::from([9]));
    let all = REPORT.lines().next_back().unwrap();
    assert_eq!(all, "19 9677 400000000 3 3 3 7 all");
}
