//! Runs cases: those of a file by the library, for callgrind, and one by both
//! sides.

use std::hint::black_box;
use std::io::Read;

use compare::library::*;
use compare::proved;
use compare::words::limit_words;
use reference::line::LookAhead;
use reference::machine::Given;
use reference::stairs;
use reference::tape::{read_limits, LIMITS_BYTES};
use reference::trace::{pack_trace, read_call, Call, CALL_BYTES};

use super::case::Case;
use super::Goal;

/// Name of the function that makes a case's last call, whose instructions are
/// counted.
pub const LAST_CALL: &str = "bench_last_call";

/// The bytes of a case: the number of steps, a byte; that of the calls, two; the
/// steps; limits and calls as a trace.
pub fn bytes_of(case: &Case, goal: Goal) -> Vec<u8> {
    let calls = case.calls(goal);
    let count = (calls.len() as u16).to_be_bytes();
    let trace = pack_trace(&case.limits, &calls);
    [&[case.steps.len() as u8][..], &count, &case.steps, &trace].concat()
}

/// Runs all cases of the input by the library, each on a fresh planner.
pub fn run_cases(input: &mut impl Read) {
    let mut bytes = Vec::new();
    input.read_to_end(&mut bytes).expect("cases");
    let mut rest = &bytes[..];
    while let [steps, high, low, behind @ ..] = rest {
        let count = u16::from_be_bytes([*high, *low]) as usize;
        let (steps, behind) = behind.split_at(*steps as usize);
        let (trace, behind) = behind.split_at(LIMITS_BYTES + CALL_BYTES * count);
        run_case(steps, trace);
        rest = behind;
    }
}

/// Runs one case: its steps, and its limits and calls.
fn run_case(steps: &[u8], trace: &[u8]) {
    let limits = limit_words(&read_limits(trace).expect("limits that pass"));
    let mut memory = [0; NUMBERS];
    let (lent, bytes) = (memory.as_mut_ptr(), steps.as_ptr());
    let mut number = unsafe { fullerecru_fresh(lent, limits.as_ptr(), bytes, steps.len()) };
    let call = |bytes: &[u8]| read_call(bytes.try_into().expect("28 bytes"));
    let calls = trace[LIMITS_BYTES..].chunks(CALL_BYTES).map(call);
    let calls: Vec<Call> = calls.collect();
    let (last, first) = calls.split_last().expect("a call");
    for call in first {
        number |= make(&mut memory, call);
    }
    number |= bench_last_call(&mut memory, last);
    assert_eq!(number, 0, "calls that are accepted");
}

#[inline(always)]
fn make(memory: &mut [u64; NUMBERS], call: &Call) -> u64 {
    let memory = memory.as_mut_ptr();
    match call {
        Call::Add(block) => {
            let ([x, y, z], radius) = (block.moves, block.radius);
            unsafe { fullerecru_add(memory, x, y, z, block.feed, radius, block.mark) }
        }
        Call::Take => {
            let (mut moves, mut numbers) = ([0; 3], [0; 11]);
            unsafe { fullerecru_take(memory, moves.as_mut_ptr(), numbers.as_mut_ptr()) }
        }
    }
}

/// The last call of a case. It has a name of its own, and does not end in a jump
/// to the library, which would hide its end from callgrind.
#[no_mangle]
#[inline(never)]
fn bench_last_call(memory: &mut [u64; NUMBERS], call: &Call) -> u64 {
    black_box(make(memory, call))
}

/// True if both sides give out the same blocks and are left with the same plan.
pub fn alike(case: &Case, goal: Goal) -> bool {
    let found = ran::<proved::Planner>(case, goal);
    let alike = found == ran::<stairs::Planner>(case, goal);
    if !alike {
        eprintln!("the two planners differ on\n{}", case.words());
    }
    alike
}

/// What a planner gives out in a case, and its plan at the end, (µm/s)².
fn ran<P: LookAhead>(case: &Case, goal: Goal) -> (Vec<Given>, Vec<u64>) {
    let fresh = P::fresh(&case.limits, &case.steps);
    let mut planner = fresh.unwrap_or_else(|_| panic!("limits and steps that pass"));
    let mut given = Vec::new();
    for call in case.calls(goal) {
        match call {
            Call::Add(block) => planner.add(&block).expect("a block that passes"),
            Call::Take => given.push(planner.take().expect("a block held")),
        }
    }
    let mut plan = vec![0; planner.told() + 1];
    planner.shown(&mut plan).expect("a list of its length");
    (given, plan)
}

#[cfg(test)]
mod tests {
    use super::*;
    use reference::rng::Rng;

    /// Cases one behind the other are read back whole, and each call is accepted.
    #[test]
    fn packed_cases_run() {
        let mut rng = Rng::new(3);
        for goal in [Goal::Add, Goal::Take] {
            let cases: Vec<Case> = (0..50).map(|_| Case::drawn(&mut rng)).collect();
            let bytes: Vec<u8> = cases.iter().flat_map(|case| bytes_of(case, goal)).collect();
            run_cases(&mut &bytes[..]);
            assert!(cases.iter().all(|case| alike(case, goal)));
        }
    }
}
