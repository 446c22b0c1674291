//! The texts of planlist and planreplay.

use std::collections::BTreeSet;

use reference::examples::*;
use reference::generate::{faulty_steps, machine_m, steps, trace};
use reference::incremental::Planner;
use reference::listing::{planlist, planreplay, planreplay_by, HEADER};
use reference::machine::{Block, Machine};
use reference::plan::from_rest;
use reference::rng::Rng;
use reference::stairs;
use reference::tape::{read_tape, Tape};
use reference::trace::{pack_call, pack_trace, read_call, Call};

const RIGHT_ANGLE: &str = "\
mark length accel entry peak exit up cruise down
7 1000 200000 0 201000000 2000000 502 0 498
8 1000 200000 2000000 201000000 0 497 0 503
";

#[test]
fn right_angle_pair() {
    assert_eq!(planlist(&right_angle().pack(), &[]), RIGHT_ANGLE);
}

#[test]
fn limits_only_and_refusals() {
    let tape = right_angle().pack();
    assert_eq!(planlist(&tape[..24], &[]), format!("{HEADER}\n"));
    assert_eq!(planlist(&[], &[]), "refused 9 at 0\n");
    assert_eq!(planlist(&[0; 24], &[]), "refused 1 at 0\n");
    assert_eq!(planlist(&[0; 32_793], &[]), "refused 10 at 0\n");
    let mut still = tape.clone();
    still[40..].fill(0);
    assert_eq!(planlist(&still, &[]), "refused 2 at 2\n");
}

/// The examples are accepted, run to rest, and list one line a block.
#[test]
fn examples_are_listed() {
    for name in NAMES {
        let tape = example(name).unwrap();
        let bytes = tape.pack();
        assert_eq!(read_tape(&bytes).as_ref(), Ok(&tape), "{name}");
        let listing = planlist(&bytes, &[]);
        assert_eq!(listing.lines().count(), tape.blocks.len() + 1);
    }
    assert_eq!(example("none"), None);
}

/// The turning point of the to-and-fro line has a cap slightly below J² / 4,
/// since the lengths there are rounded down to 290 and 223: P = 64,670 and
/// S = −65,000. The line closes, and it starts and ends at rest.
#[test]
fn to_and_fro_turns_at_half_the_jump() {
    let Tape { limits, blocks } = to_and_fro();
    let plan = from_rest(&Machine::of(&limits, &[]).unwrap(), &blocks);
    assert_eq!((plan[0], plan[10]), (0, 0));
    assert_eq!(plan[5], 4_000_000 * 64_670 / (2 * 129_670));
    let closed: [i64; 3] = blocks.iter().fold([0; 3], |sum, block| {
        [0, 1, 2].map(|axis| sum[axis] + block.moves[axis])
    });
    assert_eq!(closed, [0; 3]);
}

/// Right-angle pair through the planner, both blocks added before the takes.
#[test]
fn replay_of_the_pair() {
    let [first, second] = right_angle().blocks[..] else {
        panic!("two blocks")
    };
    let still = Block {
        moves: [0; 3],
        ..first
    };
    let mut calls = vec![Call::Add(first), Call::Add(still), Call::Add(second)];
    let open = pack_trace(&machine_m(), &calls);
    let text = "added\nrefused 2\nadded\nheld 2\nplan 0 2000000 0\n";
    assert_eq!(planreplay(&open, &[]), text);
    calls.extend([Call::Take, Call::Take, Call::Take]);
    let whole = pack_trace(&machine_m(), &calls);
    let given: Vec<&str> = RIGHT_ANGLE.lines().skip(1).collect();
    let text = format!(
        "added\nrefused 2\nadded\n{}\n{}\nrefused 8\nheld 0\nplan 0\n",
        given[0], given[1]
    );
    assert_eq!(planreplay(&whole, &[]), text);
}

#[test]
fn replay_of_short_and_faulty_traces() {
    let trace = pack_trace(&machine_m(), &[Call::Take, Call::Take]);
    assert_eq!(planreplay(&trace[..23], &[]), "refused 9 at 0\n");
    assert_eq!(planreplay(&[0; 24], &[]), "refused 1 at 0\n");
    assert_eq!(planreplay(&trace[..24], &[]), "held 0\nplan 0\n");
    let cut = "refused 8\nrefused 9 at 2\nheld 0\nplan 0\n";
    assert_eq!(planreplay(&trace[..79], &[]), cut);
    assert_eq!(planreplay(&trace[..53], &[]), cut);
}

/// Words of a call: any kind but 0 adds, moves are two's complement.
#[test]
fn calls_as_words() {
    let block = Block {
        moves: [-1, i32::MIN as i64, 7],
        feed: 4_294_967_295,
        radius: 5,
        mark: 6,
    };
    let mut bytes: [u8; 28] = pack_call(&Call::Add(block)).try_into().unwrap();
    assert_eq!(bytes[..8], [0, 0, 0, 1, 255, 255, 255, 255]);
    assert_eq!(read_call(&bytes), Call::Add(block));
    bytes[..4].copy_from_slice(&[0x80, 0, 0, 0]);
    assert_eq!(read_call(&bytes), Call::Add(block));
    bytes[0] = 0;
    assert_eq!(read_call(&bytes), Call::Take);
}

/// Each planner writes the same text on generated traces and torque
/// steps, which meet each refusal of a trace and of its calls.
#[test]
fn replay_by_each_planner() {
    let mut met = BTreeSet::new();
    for seed in 0..400 {
        let mut rng = Rng::new(seed);
        let bytes = trace(&mut rng);
        let loaded = match seed % 16 {
            0 => faulty_steps(&mut rng),
            _ => steps(&mut rng),
        };
        let text = planreplay(&bytes, &loaded);
        let kept = planreplay_by::<Planner>(&bytes, &loaded);
        let limiting = planreplay_by::<stairs::Planner>(&bytes, &loaded);
        assert_eq!([&kept, &limiting], [&text; 2], "{seed}");
        let refused = text.lines().filter(|line| line.starts_with("refused"));
        met.extend(refused.map(str::to_string));
    }
    for number in 2..=8 {
        assert!(met.remove(&format!("refused {number}")));
    }
    for number in [1, 9, 14] {
        assert!(met.remove(&format!("refused {number} at 0")));
    }
    assert!(met.len() > 3 && met.iter().all(|line| line.starts_with("refused 9 at ")));
}
