//! The cases of the test program `calls_run` and its stored files.

use std::collections::BTreeSet;

use reference::call_cases::{answers, bytes_of, cases, cases_of, Case, Kind, BUFFER_BYTES};

const STORED_CASES: &[u8] = include_bytes!("../../../crates/calls_run/stdin");
const STORED_ANSWERS: &str = include_str!("../../../crates/calls_run/stdout");

/// The stored answers to calls of a kind.
fn answers_to(kind: Kind) -> Vec<&'static str> {
    let both = cases_of(STORED_CASES)
        .into_iter()
        .zip(STORED_ANSWERS.lines());
    let of_kind = both.filter(|(case, _)| case.kind == kind);
    of_kind.map(|(_, line)| line).collect()
}

/// Numbers by which answers, or parts of them, are refused.
fn refusals<'a>(lines: impl IntoIterator<Item = &'a str>) -> BTreeSet<u64> {
    let refused = lines
        .into_iter()
        .filter_map(|line| line.strip_prefix("refused "));
    refused
        .map(|rest| rest.split(' ').next().unwrap().parse().unwrap())
        .collect()
}

#[test]
fn bytes_denote_their_cases() {
    let all = cases();
    assert_eq!(cases_of(&bytes_of(&all)), all);
    for case in all {
        assert!(case.stored.len() <= case.lent && case.lent <= BUFFER_BYTES);
    }
}

/// 835 calls of the tape and 640 of a machine.
#[test]
fn stored_cases_are_these() {
    assert!(STORED_CASES == bytes_of(&cases()));
    let of_machine = |case: &Case| case.kind == Kind::Machine;
    let (machine, tape): (Vec<Case>, Vec<Case>) = cases().into_iter().partition(of_machine);
    assert_eq!([tape.len(), machine.len()], [835, 640]);
}

#[test]
fn stored_answers_are_these() {
    assert!(STORED_ANSWERS == answers(STORED_CASES));
    assert_eq!(STORED_ANSWERS.lines().count(), cases().len());
}

/// A mark on the tape has no room to be too large, so only a write meets 6.
#[test]
fn every_refusal_of_each_call_of_the_tape_occurs() {
    let rows: [(Kind, &[u64]); 6] = [
        (Kind::ReadLimits, &[1, 9]),
        (Kind::ReadRecord, &[2, 3, 4, 5, 9]),
        (Kind::WriteLimits, &[1, 9]),
        (Kind::WriteRecord, &[2, 3, 4, 5, 6, 9]),
        (Kind::WriteRecordAt, &[2, 3, 4, 5, 6, 9]),
        (Kind::Check, &[1, 2, 3, 4, 5, 9, 10]),
    ];
    for (kind, numbers) in rows {
        let met: Vec<u64> = refusals(answers_to(kind)).into_iter().collect();
        assert_eq!(met, numbers, "{kind:?}");
    }
}

/// Numbers by which the part of a machine's answers at a place, from 0, is
/// refused: the first block's numbers, the second's, the junction cap.
fn refusals_at(place: usize) -> BTreeSet<u64> {
    let lines = answers_to(Kind::Machine).into_iter();
    refusals(lines.map(|line| line.split(" | ").nth(place).unwrap()))
}

/// A junction cap knows no acceleration, so torque steps never refuse it.
#[test]
fn every_refusal_of_each_answer_of_a_machine_occurs() {
    let of_numbers = BTreeSet::from([1, 2, 3, 4, 5, 6, 14]);
    assert_eq!([0, 1].map(refusals_at), [of_numbers.clone(), of_numbers]);
    assert_eq!(refusals_at(2), (1..=6).collect());
}

#[test]
fn the_longest_tape_is_accepted_and_refused_at_its_ends() {
    for line in [
        "accepted 0",
        "accepted 2048",
        "refused 2 at 2048",
        "refused 5 at 1",
    ] {
        assert!(answers_to(Kind::Check).contains(&line), "{line}");
    }
}
