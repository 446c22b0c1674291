//! Traces: what planreplay writes for the stored one, and a trace's answers against a planner that
//! carries out its calls one by one.

mod common;

use common::{bytes, given_line, joined, lines, refused_line, SOFT_MOTORS};
use fullerecru::{
    read_limits, replay, Answer, Block, Planner, Refusal, Replayed, Steps, CALL_BYTES, LIMITS_BYTES,
};

/// The lines of planreplay for what a trace gave, without that of a call that is cut.
fn replayed_lines(replayed: &Replayed) -> Vec<String> {
    let answers = replayed.answers.iter().map(|answer| match answer {
        Answer::Added => "added".to_string(),
        Answer::Given(given) => given_line(given),
        Answer::Refused(refusal) => refused_line(*refusal),
    });
    let mut lines: Vec<String> = answers.collect();
    lines.push(format!("held {}", replayed.told));
    lines.push(format!("plan {}", joined(&replayed.plan)));
    lines
}

/// The stored trace ends in a call that is cut: planreplay runs those before it, while the library
/// refuses the trace whole.
#[test]
fn answers_are_what_planreplay_writes() {
    let trace = bytes("crates/planreplay/stdin");
    assert_eq!(replay(&trace, &Steps::BuiltIn), Err(Refusal::Ragged));
    let cut = (trace.len() - LIMITS_BYTES) % CALL_BYTES;
    let replayed = replay(&trace[..trace.len() - cut], &Steps::BuiltIn).unwrap();
    let mut stored = lines("crates/planreplay/stdout");
    let cut_line = format!("refused 9 at {}", replayed.answers.len() + 1);
    assert_eq!(stored.remove(replayed.answers.len()), cut_line);
    assert_eq!(replayed_lines(&replayed), stored);
}

/// A word of a call, most significant byte first.
fn word(call: &[u8], position: usize) -> u32 {
    let bytes = &call[4 * position..4 * position + 4];
    u32::from_be_bytes(bytes.try_into().unwrap())
}

/// A call of a trace, carried out by a planner.
fn called(planner: &mut Planner, call: &[u8]) -> Answer {
    if word(call, 0) == 0 {
        return planner.take().map_or_else(Answer::Refused, Answer::Given);
    }
    let moved = |position| i64::from(word(call, position) as i32);
    let block = Block {
        x: moved(1),
        y: moved(2),
        z: moved(3),
        feed: word(call, 4).into(),
        radius: word(call, 5).into(),
        mark: word(call, 6).into(),
    };
    planner
        .add(&block)
        .map_or_else(Answer::Refused, |()| Answer::Added)
}

#[test]
fn a_planner_answers_as_the_trace() {
    let trace = bytes("examples/traces/shop-traffic.trace");
    let soft = bytes(SOFT_MOTORS);
    for steps in [Steps::BuiltIn, Steps::Loaded(&soft)] {
        let replayed = replay(&trace, &steps).unwrap();
        assert_eq!(replayed.answers.len(), 324);
        let mut planner = Planner::fresh(&read_limits(&trace).unwrap(), &steps).unwrap();
        let calls = trace[LIMITS_BYTES..].chunks_exact(CALL_BYTES);
        let answers: Vec<Answer> = calls.map(|call| called(&mut planner, call)).collect();
        assert_eq!(answers, replayed.answers);
        assert_eq!(
            (planner.told(), planner.shown()),
            (replayed.told, replayed.plan)
        );
        let is_backwards = |answer: &Answer| match answer {
            Answer::Given(given) => given.block.moves().iter().any(|way| *way < 0),
            _ => false,
        };
        assert!(
            answers.iter().any(is_backwards),
            "moves below 0 are among those given out"
        );
    }
}

#[test]
fn limits_alone_are_a_trace() {
    let trace = bytes("examples/traces/shop-traffic.trace");
    let replayed = replay(&trace[..LIMITS_BYTES], &Steps::BuiltIn).unwrap();
    assert_eq!(
        replayed,
        Replayed {
            answers: vec![],
            told: 0,
            plan: vec![0]
        }
    );
}
