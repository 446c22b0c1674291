//! Traces: recorded calls, run again.

use crate::block::Given;
use crate::machine::Steps;
use crate::numbers::{
    ANSWER_GIVEN, ANSWER_MOVE_X, ANSWER_MOVE_Y, ANSWER_MOVE_Z, ANSWER_NUMBER, CALL_BYTES,
    LIMITS_BYTES, PLAN, ROW,
};
use crate::refusal::Refusal;
use crate::sys;

/// Bytes of the word that says which kind a call is.
const KIND_BYTES: usize = 4;

/// What a call of a trace was answered.
#[derive(Clone, Copy, Debug, PartialEq, Eq, Hash)]
pub enum Answer {
    /// An add that was accepted.
    Added,
    /// A take that was accepted, with the block given out.
    Given(Given),
    /// An add or a take that was refused. It is no refusal of the trace.
    Refused(Refusal),
}

/// What a trace gave.
#[derive(Clone, Debug, PartialEq, Eq)]
pub struct Replayed {
    /// The answer to each call, in order.
    pub answers: Vec<Answer>,
    /// How many blocks are held at the end, 0 to 64.
    pub told: usize,
    /// The plan of the blocks still held: a squared speed, (µm/s)², at each junction, told + 1.
    pub plan: Vec<u64>,
}

/// Runs a trace on a planner of its own. Needs under 8 kB of stack.
///
/// A trace is 24 bytes of limits as on tape, then 28 bytes for each call: seven words of 32 bits, most
/// significant byte first: kind (0 is a take, any other an add), moves X, Y, Z in two's complement, µm,
/// feed, µm/s, radius, µm, mark. A take's other words play no part.
///
/// # Errors
///
/// Refuses by 9 (ragged), 1 (limits), 14 (steps), in that order.
///
/// ```
/// use fullerecru::{replay, write_limits, Answer, Limits, Refusal, Steps, LIMITS_BYTES};
/// # let limits = Limits {
/// #     accel_x: 200_000, accel_y: 200_000, accel_z: 200_000,
/// #     speed_x: 1_000_000, speed_y: 1_000_000, speed_z: 1_000_000,
/// #     corner_jump: 2_000, chord_tolerance: 1, tick: 2_000,
/// # };
/// let mut trace = vec![0; LIMITS_BYTES];
/// write_limits(&limits, &mut trace)?;
/// let calls: [[u32; 7]; 4] = [
///     [0; 7], // a take too early
///     [1, 1_000, 0, 0, 20_000, 0, 7],
///     [1, 0, 1_000, 0, 20_000, 0, 8],
///     [0; 7],
/// ];
/// trace.extend(calls.iter().flatten().flat_map(|word| word.to_be_bytes()));
///
/// let weak = [50, 50, 45, 40, 35, 30, 25, 20];
/// let replayed = replay(&trace, &Steps::Loaded(&weak))?;
/// assert_eq!(replayed.answers[0], Answer::Refused(Refusal::Empty));
/// assert_eq!(replayed.answers[1..3], [Answer::Added, Answer::Added]);
/// match replayed.answers[3] {
///     Answer::Given(given) => assert_eq!((given.accel, given.peak), (100_000, 101_000_000)),
///     answer => panic!("{answer:?}"),
/// }
/// assert_eq!((replayed.told, replayed.plan), (1, vec![2_000_000, 0]));
/// # Ok::<(), Refusal>(())
/// ```
pub fn replay(trace: &[u8], steps: &Steps<'_>) -> Result<Replayed, Refusal> {
    let calls = trace.len().saturating_sub(LIMITS_BYTES) / CALL_BYTES;
    let mut rows = vec![0; ROW * calls];
    let (mut plan, mut told) = ([0; PLAN], [0]);
    let number = sys::replay(trace, steps.bytes(), &mut rows, &mut plan, &mut told);
    Refusal::judged(number)?;
    let told = told[0] as usize;
    let calls = trace[LIMITS_BYTES..].chunks_exact(CALL_BYTES);
    let answered = calls.zip(rows.chunks_exact(ROW));
    Ok(Replayed {
        answers: answered.map(|(call, row)| answer(call, row)).collect(),
        told,
        plan: plan[..=told].to_vec(),
    })
}

/// What the row of a call says; whether the call is a take is told by the call itself.
fn answer(call: &[u8], row: &[u64]) -> Answer {
    if let Some(refusal) = Refusal::from_number(row[ANSWER_NUMBER]) {
        return Answer::Refused(refusal);
    }
    if call[..KIND_BYTES] != [0; KIND_BYTES] {
        return Answer::Added;
    }
    // The moves are in two's complement of 32 bits.
    let moves = [ANSWER_MOVE_X, ANSWER_MOVE_Y, ANSWER_MOVE_Z];
    let moves = moves.map(|position| i64::from(row[position] as u32 as i32));
    Answer::Given(Given::of(moves, &row[ANSWER_GIVEN..]))
}
