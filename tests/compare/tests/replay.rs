//! A trace run by one call.

use std::collections::BTreeSet;

use compare::library::{PLAN, ROW};
use compare::traces::{self, rows};
use compare::words::some_steps;
use compare::{hex, proved, report, same, seeds, Trying};
use reference::examples::{example_trace, TRACE_NAMES};
use reference::generate::{loaded_steps, trace};
use reference::refusal::Refusal;
use reference::rng::Rng;

/// What is answered, and what the two lists hold after it.
type Replayed = (Result<u64, Refusal>, Vec<u64>, Vec<u64>);

fn replayed(
    run: impl Fn(&[u8], &[u8], &mut [u64], &mut [u64]) -> Result<u64, Refusal>,
    (trace, steps): (&[u8], &[u8]),
    [numbers, junctions]: [usize; 2],
) -> Replayed {
    let (mut answers, mut plan) = (vec![77; numbers], vec![88; junctions]);
    let answer = run(trace, steps, &mut answers, &mut plan);
    (answer, answers, plan)
}

/// Compares both under the steps in lists of these lengths; gives the number on
/// the display.
fn compare_in(seed: u64, trace: &[u8], steps: &[u8], lengths: [usize; 2]) -> u64 {
    let expected = replayed(traces::replay, (trace, steps), lengths);
    let number = expected.0.map_or_else(|refusal| refusal.number(), |_| 0);
    let input = || format!("{} under {} in {lengths:?}", hex(trace), hex(steps));
    let found = replayed(proved::replay, (trace, steps), lengths);
    same(seed, input, found, expected);
    number
}

#[test]
fn traces_are_run_as_the_line_of_blocks_says() {
    let (mut met, mut count) = (BTreeSet::new(), 0);
    for seed in seeds(3_000) {
        let _trying = Trying::seed(seed);
        let mut rng = Rng::new(seed);
        let (bytes, steps) = (trace(&mut rng), some_steps(&mut rng));
        let right = rows(&bytes);
        met.insert(compare_in(seed, &bytes, &steps, [right, PLAN]));
        let wrong = [
            [right + 1, PLAN],
            [right.saturating_sub(1), PLAN],
            [right + ROW, PLAN],
            [right, PLAN - 1],
            [right, PLAN + 1],
            [right + 1, 0],
            [right, 0],
        ];
        met.insert(compare_in(seed, &bytes, &steps, rng.pick(&wrong)));
        count += 2;
    }
    assert_eq!(met, BTreeSet::from([0, 1, 9, 11, 14]));
    report(count, "traces");
}

#[test]
fn example_traces_are_run_alike() {
    let mut count = 0;
    for (name, seed) in TRACE_NAMES.iter().zip(seeds(TRACE_NAMES.len() as u64)) {
        let _trying = Trying::seed(seed);
        let mut rng = Rng::new(seed);
        let bytes = example_trace(name).expect("an example of this name");
        for steps in [Vec::new(), loaded_steps(&mut rng)] {
            let number = compare_in(seed, &bytes, &steps, [rows(&bytes), PLAN]);
            assert_eq!(number, 0, "{name}");
            count += 1;
        }
        for length in 0..bytes.len().min(200) {
            let (cut, steps) = (&bytes[..length], some_steps(&mut rng));
            compare_in(seed, cut, &steps, [rows(cut), PLAN]);
            count += 1;
        }
    }
    report(count, "example traces, whole and cut");
}
