//! The programs planlist and planreplay write what the reference writes, and
//! all programs take their files in pieces. ngctape.rs has the rest of ngctape,
//! planorders.rs that of planorders, planreport.rs all of planreport.

use std::fs::{self, File};
use std::io::Write;
use std::path::{Path, PathBuf};
use std::process::Stdio;
use std::thread;
use std::time::Duration;

use compare::devices;
use compare::programs::*;
use compare::words::some_steps;
use compare::{hex, report, same, seeds};
use reference::examples::{example, example_orders, example_trace, NAMES, TRACE_NAMES};
use reference::generate::*;
use reference::incremental::Planner;
use reference::listing;
use reference::machine::{Block, Limits};
use reference::order_listing;
use reference::rng::Rng;
use reference::tape::{Tape, LIMITS_BYTES, MOST_BLOCKS, MOST_BYTES};
use reference::text;
use reference::trace::{pack_trace, Call, CALL_BYTES};

/// Calls that planreplay reads and runs at a time.
const CHUNK_CALLS: usize = 300;

/// Limits at the ends of their ranges: everything slowest, everything fastest.
const ENDS: [Limits; 2] = [
    Limits {
        accel: [1; 3],
        speed: [1; 3],
        jump: 1,
        chord: 1,
        tick: 10_000,
    },
    Limits {
        accel: [20_000_000; 3],
        speed: [1_000_000; 3],
        jump: 1_000_000,
        chord: 1_000,
        tick: 100,
    },
];

/// Torque steps: none loaded, and all percentages at an end of their range.
const END_STEPS: [&[u8]; 3] = [&[], &[1; 8], &[100; 8]];

/// Compares the listings of a tape under loaded torque steps.
fn compare_list(seed: u64, tape: &[u8], steps: &[u8]) {
    let text = run_under(seed, &planlist(), steps, tape);
    let input = || format!("{} under {}", hex(tape), hex(steps));
    same(seed, input, text, listing::planlist(tape, steps));
}

/// Compares the texts of a trace under loaded torque steps.
fn compare_replay(seed: u64, trace: &[u8], steps: &[u8]) {
    let text = run_under(seed, &planreplay(), steps, trace);
    let input = || format!("{} under {}", hex(trace), hex(steps));
    same(seed, input, text, listing::planreplay(trace, steps));
}

/// The longest moves in every direction, fastest, the radius at both ends.
fn far_blocks(count: usize) -> Vec<Block> {
    let side = |k: usize, axis: u32| 1_000_000 * (k / 3usize.pow(axis) % 3) as i64 - 1_000_000;
    let block = |k: usize| Block {
        moves: [
            side(k, 0),
            side(k, 1),
            if k % 27 == 13 { 1 } else { side(k, 2) },
        ],
        feed: 1_000_000,
        radius: [0, 1, 10_000_000][k % 3],
        mark: 2_097_151 - k as u64,
    };
    (0..count).map(block).collect()
}

#[test]
fn planlist_lists_accepted_tapes() {
    for seed in seeds(400) {
        let mut rng = Rng::new(seed);
        let (tape, steps) = (tape(&mut rng), steps(&mut rng));
        compare_list(seed, &tape, &steps);
    }
    let mut rng = Rng::new(2);
    for name in NAMES {
        let tape = example(name).expect("an example").pack();
        for steps in [Vec::new(), loaded_steps(&mut rng)] {
            compare_list(0, &tape, &steps);
        }
    }
    report(400 + 2 * NAMES.len(), "tapes listed");
}

#[test]
fn planlist_refuses_faulty_tapes() {
    for seed in seeds(600) {
        let mut rng = Rng::new(seed);
        let (tape, steps) = (faulty_tape(&mut rng), some_steps(&mut rng));
        compare_list(seed, &tape, &steps);
    }
    report(600, "faulty tapes");
}

#[test]
fn planlist_answers_extreme_machines() {
    let mut count = 0;
    for limits in ENDS {
        for blocks in [
            far_blocks(MOST_BLOCKS),
            straight_steps(3, MOST_BLOCKS),
            short_steps(3, 100),
            vec![],
        ] {
            let tape = Tape { limits, blocks }.pack();
            for steps in END_STEPS {
                compare_list(count, &tape, steps);
                count += 1;
            }
        }
    }
    report(count as usize, "tapes of extreme machines");
}

#[test]
fn planlist_answers_empty_ragged_and_noisy_input() {
    let whole = example("to-and-fro").expect("an example").pack();
    let mut rng = Rng::new(5);
    for length in 0..60 {
        compare_list(length, &whole[..length as usize], &some_steps(&mut rng));
    }
    for seed in seeds(100) {
        let mut rng = Rng::new(seed);
        let count = rng.spread(0, 40_000);
        let noise: Vec<u8> = (0..count).map(|_| rng.word() as u8).collect();
        compare_list(seed, &noise, &some_steps(&mut rng));
    }
    for length in [
        MOST_BYTES - 1,
        MOST_BYTES,
        MOST_BYTES + 1,
        MOST_BYTES + 16,
        300_000,
    ] {
        compare_list(length as u64, &vec![0; length], &some_steps(&mut rng));
    }
    report(165, "empty, ragged and noisy inputs");
}

/// A tape too long is refused without reading it to its end.
#[test]
fn planlist_ends_on_endless_input() {
    let zeros = File::open("/dev/zero").expect("/dev/zero");
    let text = text_of(start(&planlist(), Stdio::from(zeros), Stdio::piped()));
    assert_eq!(text, "refused 10 at 0\n");
    let mut child = start(&planlist(), Stdio::piped(), Stdio::piped());
    let mut pipe = child.stdin.take().expect("piped");
    let tape = example("mould-row").expect("an example").pack();
    // until planlist has closed the pipe, which stays open on this side
    let taken = (0..2_000).take_while(|_| pipe.write_all(&tape).is_ok());
    assert!(taken.count() < 2_000, "planlist does not stop reading");
    assert_eq!(text_of(child), "refused 10 at 0\n");
    report(2, "endless inputs");
}

#[test]
fn programs_take_input_in_pieces() {
    let tape = example("mould-row").expect("an example").pack();
    let trace = example_trace("shop-traffic").expect("an example");
    let steps = loaded_steps(&mut Rng::new(7));
    for piece in [1, 7, 100, 4_096] {
        let text = run_in_pieces(&planlist(), &tape, piece);
        assert_eq!(text, listing::planlist(&tape, &[]), "pieces of {piece}");
        let text = run_in_pieces(&planreplay(), &trace, piece);
        assert_eq!(text, listing::planreplay(&trace, &[]), "pieces of {piece}");
        let text = run_with_steps(&planlist(), &steps, &tape, piece);
        assert_eq!(text, listing::planlist(&tape, &steps), "pieces of {piece}");
        let text = run_with_steps(&planreplay(), &steps, &trace, piece);
        assert_eq!(
            text,
            listing::planreplay(&trace, &steps),
            "pieces of {piece}"
        );
    }
    report(16, "inputs in pieces");
}

/// A new pipe with a name.
fn named_pipe(name: &str) -> PathBuf {
    let path = PathBuf::from(env!("CARGO_TARGET_TMPDIR")).join(name);
    devices::named_pipe(&path);
    path
}

/// Writes each byte into a pipe when the one before it is likely to be read.
fn write_bytes(pipe: &Path, bytes: &[u8]) {
    let mut pipe = File::options().write(true).open(pipe).expect("a reader");
    for byte in bytes {
        pipe.write_all(&[*byte]).expect("a reader");
        thread::sleep(Duration::from_millis(3));
    }
}

/// Steps that come byte by byte, eight that pass, one less, and one more: all of
/// them are read.
#[test]
fn programs_take_steps_in_pieces() {
    let tape = example("mould-row").expect("an example").pack();
    let trace = example_trace("shop-traffic").expect("an example");
    let orders = example_orders("cam-host").expect("an example");
    for steps in [&[90; 7][..], &[90; 8], &[90; 9]] {
        let ordered = order_listing::planorders(&orders, steps);
        let runs = [
            (planlist(), &tape, listing::planlist(&tape, steps)),
            (planreplay(), &trace, listing::planreplay(&trace, steps)),
            (planorders(), &orders, ordered),
        ];
        for (program, input, expected) in runs {
            let pipe = named_pipe("steps.pipe");
            let (path, bytes) = (pipe.clone(), steps.to_vec());
            let writer = thread::spawn(move || write_bytes(&path, &bytes));
            let text = run_with(&program, &steps_words(&pipe), input, usize::MAX);
            assert_eq!(text, expected, "{steps:?}");
            writer.join().expect("no panic");
            let _ = fs::remove_file(&pipe);
        }
    }
    report(9, "steps in pieces");
}

/// Limits that come byte by byte, all of them and one byte less.
#[test]
fn ngctape_takes_limits_in_pieces() {
    let tape = example("mould-row").expect("an example").pack();
    for length in [LIMITS_BYTES - 1, LIMITS_BYTES] {
        let limits = &tape[..length];
        let pipe = named_pipe("limits.pipe");
        let (path, bytes) = (pipe.clone(), limits.to_vec());
        let writer = thread::spawn(move || write_bytes(&path, &bytes));
        let words = [pipe.as_os_str()];
        let output = output_for(&ngctape(), &words, (b"G0X1", usize::MAX), Stdio::piped());
        assert_eq!(output.errors, "", "{length} bytes");
        assert_eq!(
            output.bytes,
            text::ngctape(limits, b"G0X1"),
            "{length} bytes"
        );
        writer.join().expect("no panic");
        let _ = fs::remove_file(&pipe);
    }
    report(2, "limits in pieces");
}

#[test]
fn planreplay_answers_traces() {
    for seed in seeds(600) {
        let mut rng = Rng::new(seed);
        let (trace, steps) = (trace(&mut rng), some_steps(&mut rng));
        compare_replay(seed, &trace, &steps);
    }
    let mut rng = Rng::new(2);
    for name in TRACE_NAMES {
        let trace = example_trace(name).expect("an example");
        for steps in [Vec::new(), loaded_steps(&mut rng)] {
            compare_replay(0, &trace, &steps);
        }
    }
    report(600 + 2 * TRACE_NAMES.len(), "traces replayed");
}

#[test]
fn planreplay_answers_extreme_machines() {
    let mut count = 0;
    for limits in ENDS {
        for blocks in [far_blocks(200), straight_steps(3, 200), short_steps(3, 200)] {
            let mut calls: Vec<Call> = blocks[..70].iter().map(|b| Call::Add(*b)).collect();
            let rest = blocks[70..].iter();
            calls.extend(rest.flat_map(|b| [Call::Take, Call::Add(*b)]));
            let trace = pack_trace(&limits, &calls);
            for steps in END_STEPS {
                compare_replay(count, &trace, steps);
                count += 1;
            }
        }
    }
    report(count as usize, "traces of extreme machines");
}

#[test]
fn planreplay_answers_empty_and_ragged_input() {
    let whole = example_trace("shop-traffic").expect("an example");
    let mut rng = Rng::new(6);
    for length in 0..110 {
        compare_replay(length, &whole[..length as usize], &some_steps(&mut rng));
    }
    compare_replay(0, &[0; 24], &[]);
    report(111, "empty and ragged traces");
}

/// Traces that end at the borders of the chunks, 300 calls each, that
/// planreplay reads, and traces of no call; then 0, 1 and 27 bytes of a call
/// that is cut short.
#[test]
fn planreplay_answers_at_the_borders_of_its_chunks() {
    let mut rng = Rng::new(4);
    let limits = limits(&mut rng);
    let whole = pack_trace(&limits, &calls(&mut rng, 2 * CHUNK_CALLS + 2));
    let mut count = 0;
    for chunks in 0..=2 {
        let border = chunks * CHUNK_CALLS;
        for calls in border.saturating_sub(1)..=border + 1 {
            for more in [0, 1, CALL_BYTES - 1] {
                let length = LIMITS_BYTES + calls * CALL_BYTES + more;
                compare_replay(length as u64, &whole[..length], &steps(&mut rng));
                count += 1;
            }
        }
    }
    report(count, "traces that end at a chunk's border");
}

/// A trace far longer than any buffer, under built-in steps and loaded ones.
#[test]
fn planreplay_runs_a_long_trace() {
    let mut rng = Rng::new(9);
    let (limits, steps) = (limits(&mut rng), loaded_steps(&mut rng));
    let trace = pack_trace(&limits, &calls(&mut rng, 100_000));
    let text = run(&planreplay(), &trace);
    assert!(text == listing::planreplay_by::<Planner>(&trace, &[]));
    let text = run_with_steps(&planreplay(), &steps, &trace, usize::MAX);
    assert!(text == listing::planreplay_by::<Planner>(&trace, &steps));
    report(200_000, "calls of a long trace");
}

/// Every write to /dev/full fails. A program that could not write its text says
/// so once on standard error and ends, whether the text is a refusal, short or
/// longer than any buffer.
#[test]
fn a_failed_write_is_told_on_standard_error() {
    let limits = machine_m();
    let blocks = short_steps(5, MOST_BLOCKS);
    let adds: Vec<Call> = blocks.iter().map(|b| Call::Add(*b)).collect();
    let (long_trace, long_tape) = (pack_trace(&limits, &adds), Tape { limits, blocks }.pack());
    let short_tape = example("right-angle").expect("an example").pack();
    let short_trace = example_trace("shop-traffic").expect("an example");
    let runs = [
        (planlist(), [&[][..], &short_tape, &long_tape]),
        (planreplay(), [&[][..], &short_trace, &long_trace]),
    ];
    for (program, inputs) in runs {
        for input in inputs {
            let full = File::create("/dev/full").expect("/dev/full");
            let text = complaint(&program, input, Stdio::from(full));
            let told = text.lines().count() == 1 && text.contains("did not take");
            let name = program.display();
            assert!(told, "{name}, {} bytes: {text:?}", input.len());
        }
    }
    report(6, "texts that could not be written");
}
