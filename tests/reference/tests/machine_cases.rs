//! The calls of a machine among the cases of the test program `calls_run`.

use reference::generate::machine_m;
use reference::machine::Limits;
use reference::machine_cases::{block, cases, Case};

#[test]
fn a_call_denotes_its_case() {
    for case in cases() {
        let call = case.call();
        assert_eq!(Case::of_call(&call.values, &call.stored), case);
    }
}

/// The answer to a block of a move along X and one of 1,000 µm on machine M with
/// another tick, microseconds, and loaded steps.
fn answer(tick: u64, x: i64, steps: &[u8]) -> String {
    let limits = Limits {
        tick,
        ..machine_m()
    };
    let case = Case {
        limits,
        before: block(x, 0, 0),
        after: block(1_000, 0, 0),
        steps: steps.to_vec(),
    };
    case.answer()
}

/// Numbers of a block are refused by 1, then 14, then 2 to 6; a junction cap by
/// 1, then 2 to 6, and steps play no part in it.
#[test]
fn order_of_refusals() {
    let known = "1000 100000 200000000 400000000";
    let rows: [(u64, i64, &[u8], [&str; 3]); 6] = [
        (99, 0, &[0], ["refused 1"; 3]),
        (99, 0, &[50; 8], ["refused 1"; 3]),
        (100, 0, &[0], ["refused 14", "refused 14", "refused 2"]),
        (100, 1_000, &[0], ["refused 14", "refused 14", "400000000"]),
        (100, 0, &[50; 8], ["refused 2", known, "refused 2"]),
        (100, 1_000, &[50; 8], [known, known, "400000000"]),
    ];
    for (tick, x, steps, parts) in rows {
        assert_eq!(answer(tick, x, steps), parts.join(" | "));
    }
}

/// The loaded steps follow the bytes of the two blocks, one by one.
#[test]
fn steps_follow_the_blocks() {
    let case = cases().pop().unwrap();
    let unloaded = Case {
        steps: Vec::new(),
        ..case.clone()
    };
    let blocks = unloaded.call().stored;
    assert_eq!(blocks.len(), 2 * 6 * 8);
    for steps in [vec![0], vec![255, 1, 100], (1..=9).collect()] {
        let loaded = Case {
            steps: steps.clone(),
            ..case.clone()
        };
        let call = loaded.call();
        assert_eq!(call.stored, [blocks.clone(), steps].concat());
        assert_eq!(Case::of_call(&call.values, &call.stored), loaded);
    }
}
