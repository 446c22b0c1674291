//! A trace run on the reference's line of blocks, as one call of the library
//! runs it.

use reference::line::{Line, LookAhead};
use reference::refusal::Refusal;
use reference::tape::{read_limits, LIMITS_BYTES};
use reference::trace::{read_call, Call, CALL_BYTES};

use crate::library::{PLAN, ROW};
use crate::words::given_words;

/// The row of a call: the number, and the block given out or zeros.
fn row(line: &mut Line, call: &Call) -> [u64; ROW] {
    let mut row = [0; ROW];
    let answer = match call {
        Call::Add(block) => line.add(block).map(|()| None),
        Call::Take => line.take().map(Some),
    };
    match answer {
        Err(refusal) => row[0] = refusal.number(),
        Ok(None) => {}
        Ok(Some(given)) => {
            let moves = given.block.moves.map(|m| m as u32 as u64);
            row[1..4].copy_from_slice(&moves);
            row[4..].copy_from_slice(&given_words(&given));
        }
    }
    row
}

/// Runs the trace under loaded torque steps: 9, 1, 14, 11, then the calls in
/// turn, each into its row of `answers`; the plan at the end goes into the first
/// numbers of `plan`. Gives the number told.
pub fn replay(
    trace: &[u8],
    steps: &[u8],
    answers: &mut [u64],
    plan: &mut [u64],
) -> Result<u64, Refusal> {
    let calls = trace.get(LIMITS_BYTES..).ok_or(Refusal::Ragged)?;
    if !calls.len().is_multiple_of(CALL_BYTES) {
        return Err(Refusal::Ragged);
    }
    let mut line = Line::fresh(&read_limits(trace)?, steps)?;
    if answers.len() != rows(trace) || plan.len() != PLAN {
        return Err(Refusal::List);
    }
    for (bytes, own) in calls.chunks(CALL_BYTES).zip(answers.chunks_mut(ROW)) {
        let call = read_call(bytes.try_into().expect("28 bytes"));
        own.copy_from_slice(&row(&mut line, &call));
    }
    let shown = line.profile();
    plan[..shown.len()].copy_from_slice(&shown);
    Ok(line.told() as u64)
}

/// Numbers of the rows of a trace.
pub fn rows(trace: &[u8]) -> usize {
    trace.len().saturating_sub(LIMITS_BYTES) / CALL_BYTES * ROW
}
