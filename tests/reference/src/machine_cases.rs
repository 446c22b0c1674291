//! Cases for the machine's calls: limits, two blocks and loaded torque steps,
//! and what is answered.

use std::fmt::Display;
use std::ops::RangeInclusive;

use crate::call_cases::{
    self, block_of, block_words, limit_words, limits_of, word_bytes, words_of, Kind, BLOCK_WORDS,
    LIMIT_WORDS, WORD_BYTES,
};
use crate::generate::{
    faulty_block, faulty_limits, limits, machine_m, path, tight_path, tiny_limits, BLOCK_FAULTS,
};
use crate::machine::{check_block, check_limits, junction_cap, range};
use crate::machine::{Block, Limits, Machine, Numbers};
use crate::refusal::Refusal;
use crate::rng::Rng;
use crate::step_cases;

/// Limits, two blocks, one after the other, and the list of loaded torque
/// steps, empty if none are.
#[derive(Clone, Debug, PartialEq, Eq)]
pub struct Case {
    pub limits: Limits,
    pub before: Block,
    pub after: Block,
    pub steps: Vec<u8>,
}

impl Case {
    /// A case without loaded steps.
    fn of(limits: Limits, before: Block, after: Block) -> Case {
        Case {
            limits,
            before,
            after,
            steps: Vec::new(),
        }
    }

    /// The case with this list of loaded steps.
    pub(crate) fn with(self, steps: &[u8]) -> Case {
        let steps = steps.to_vec();
        Case { steps, ..self }
    }

    /// The case as a call: the limits are its values, the two blocks' words and
    /// then the loaded steps are the bytes that it lends.
    pub fn call(&self) -> call_cases::Case {
        let blocks = [&self.before, &self.after].map(block_words);
        let mut stored = word_bytes(&blocks.concat());
        stored.extend(&self.steps);
        call_cases::Case {
            values: limit_words(&self.limits),
            ..call_cases::Case::reading(Kind::Machine, &stored)
        }
    }

    /// The case of a call's values and lent bytes.
    pub fn of_call(values: &[u64; LIMIT_WORDS], lent: &[u8]) -> Case {
        let (blocks, steps) = lent.split_at(2 * BLOCK_WORDS * WORD_BYTES);
        let words = words_of(blocks);
        Case {
            limits: limits_of(values),
            before: block_of(&words),
            after: block_of(&words[BLOCK_WORDS..]),
            steps: steps.to_vec(),
        }
    }

    /// The answer as a line: the numbers of the first block, those of the
    /// second, and the junction cap between them, or each one's refusal.
    pub fn answer(&self) -> String {
        let numbers = |block| shown(self.numbers(block));
        let parts = [
            numbers(&self.before),
            numbers(&self.after),
            shown(self.cap()),
        ];
        parts.join(" | ")
    }

    /// Length, acceleration, reach and cap of a block, or the first refusal of
    /// 1, 14 and 2 to 6.
    fn numbers(&self, block: &Block) -> Result<String, Refusal> {
        let machine = Machine::of(&self.limits, &self.steps)?;
        check_block(block)?;
        let numbers = Numbers::of(&machine, block);
        let told = [numbers.length, numbers.accel, numbers.reach, numbers.cap];
        Ok(spaced(&told))
    }

    /// Junction cap between the blocks, (µm/s)², or the first refusal of 1 and
    /// 2 to 6 of each block in turn. It knows no acceleration, so loaded steps
    /// play no part.
    fn cap(&self) -> Result<u64, Refusal> {
        check_limits(&self.limits)?;
        check_block(&self.before)?;
        check_block(&self.after)?;
        Ok(junction_cap(&self.limits, &self.before, &self.after))
    }
}

/// Numbers with one space between.
pub(crate) fn spaced<T: Display>(numbers: &[T]) -> String {
    let texts: Vec<String> = numbers.iter().map(T::to_string).collect();
    texts.join(" ")
}

/// What is answered, or the refusal.
fn shown<T: Display>(answer: Result<T, Refusal>) -> String {
    match answer {
        Ok(value) => value.to_string(),
        Err(refusal) => format!("refused {}", refusal.number()),
    }
}

/// All cases, in the order of the groups below, then those with loaded steps.
pub fn cases() -> Vec<Case> {
    let mut rng = Rng::new(3);
    let mut all = document();
    all.extend(limit_ends());
    all.extend(block_ends());
    all.extend(torque_steps());
    all.extend(torque_edges());
    all.extend(tight_curves());
    all.extend(small_blocks());
    all.extend(faults(&mut rng));
    all.extend((0..150).map(|_| along_a_path(&mut rng)));
    all.extend((0..100).map(|_| anywhere(&mut rng)));
    all.extend((0..60).map(|_| along_tight_curves(&mut rng)));
    all.extend(step_cases::cases());
    all
}

/// A block of document 01's proof cases: feed 20,000, no radius, no mark.
pub fn block(x: i64, y: i64, z: i64) -> Block {
    Block {
        moves: [x, y, z],
        feed: 20_000,
        radius: 0,
        mark: 0,
    }
}

/// The first block of every pair of which only the second matters.
pub(crate) fn east() -> Block {
    block(1_000, 0, 0)
}

/// A pair on machine M.
pub(crate) fn on_m(before: Block, after: Block) -> Case {
    Case::of(machine_m(), before, after)
}

/// Document 01's proof cases, with document 02's chord caps.
fn document() -> Vec<Case> {
    let with_feed = |feed| Block { feed, ..east() };
    let curved = |feed, radius| Block {
        feed,
        radius,
        ..east()
    };
    vec![
        on_m(block(1, 0, 0), block(1, 1, 0)),
        on_m(block(2, 2, 1), block(1_000_000, 1_000_000, 1_000_000)),
        on_m(block(3, 4, 0), block(3, 4, 0)),
        on_m(east(), block(0, 1_000, 0)),
        on_m(east(), block(-1_000, 0, 0)),
        on_m(east(), east()),
        on_m(curved(20_000, 1_000), east()),
        on_m(curved(1_000_000, 1_000), curved(1_000_000, 1)),
        on_m(block(1_000_000, 0, 0), block(1_000_001, 0, 0)),
        on_m(with_feed(1_000_000), with_feed(1_000_001)),
        on_m(with_feed(0), east()),
    ]
}

/// The ends of a range, one beyond each, and the greatest word.
fn ends(range: RangeInclusive<u64>) -> [u64; 5] {
    let (low, high) = (*range.start(), *range.end());
    [low.saturating_sub(1), low, high, high + 1, u64::MAX]
}

/// A field of the limits, and one of a block.
type LimitField = fn(&mut Limits) -> &mut u64;
type BlockField = fn(&mut Block) -> &mut u64;

/// Each limit at its ends and beyond, the others being machine M's.
fn limit_ends() -> Vec<Case> {
    let fields: [(LimitField, _); 9] = [
        (|l| &mut l.accel[0], range::ACCEL),
        (|l| &mut l.accel[1], range::ACCEL),
        (|l| &mut l.accel[2], range::ACCEL),
        (|l| &mut l.speed[0], range::SPEED),
        (|l| &mut l.speed[1], range::SPEED),
        (|l| &mut l.speed[2], range::SPEED),
        (|l| &mut l.jump, range::JUMP),
        (|l| &mut l.chord, range::CHORD),
        (|l| &mut l.tick, range::TICK),
    ];
    let mut cases = Vec::new();
    for (field, range) in fields {
        for value in ends(range) {
            let mut case = on_m(block(3, 4, 5), block(-5, 4, 3));
            case.after.radius = 10;
            *field(&mut case.limits) = value;
            cases.push(case);
        }
    }
    cases
}

/// Each field of a block at its ends and beyond.
fn block_ends() -> Vec<Case> {
    let mut cases = Vec::new();
    let moves = [
        -1_000_000,
        1_000_000,
        -1_000_001,
        1_000_001,
        -1_048_576,
        1_048_575,
        i64::MIN,
        i64::MAX,
    ];
    for axis in 0..3 {
        for value in moves {
            let mut case = on_m(block(3, 4, 5), east());
            case.before.moves[axis] = value;
            cases.push(case);
        }
    }
    let fields: [(BlockField, _); 3] = [
        (|b| &mut b.feed, range::FEED),
        (|b| &mut b.radius, range::RADIUS),
        (|b| &mut b.mark, range::MARK),
    ];
    for (field, range) in fields {
        for value in ends(range) {
            let mut case = on_m(east(), block(3, 4, 5));
            *field(&mut case.after) = value;
            cases.push(case);
        }
    }
    cases
}

/// The last speed of each torque step and the first of the next.
fn torque_steps() -> Vec<Case> {
    let fast = |feed| Block { feed, ..east() };
    let step = |k: u64| on_m(fast(125_000 * k), fast((125_000 * k + 1).min(1_000_000)));
    (1..=8).map(step).collect()
}

/// The two last speeds of each torque step and the two first of the next:
/// oblique by the feed, and straight by the limit of an axis.
fn torque_edges() -> Vec<Case> {
    let oblique = |feed| Block {
        feed,
        ..block(300, -400, 1_200)
    };
    let along = |axis: usize, feed| {
        let mut straight = Block {
            feed,
            ..block(0, 0, 0)
        };
        straight.moves[axis] = -2_500;
        straight
    };
    let limited = |limit, before, after| {
        let mut case = on_m(along(1, before), along(0, after));
        case.limits.speed[1] = limit;
        case
    };
    let edge = |last: u64| {
        [
            on_m(oblique(last - 1), oblique(last + 2)),
            on_m(oblique(last), oblique(last + 1)),
            limited(last, last + 1, last + 1),
            limited(last + 1, 1_000_000, last - 1),
        ]
    };
    (1..8).flat_map(|step| edge(125_000 * step)).collect()
}

/// Fast chords of curves with radii near the chord tolerance and of 1 µm, for
/// tolerances and ticks that let the chord rule hold some of them back. One less
/// than a tolerance of 1 µm is a radius of 0, no curve.
fn tight_curves() -> Vec<Case> {
    let fast = |radius| Block {
        feed: 1_000_000,
        radius,
        ..east()
    };
    let machines = [
        (1, 100),
        (1, 2_000),
        (1, 10_000),
        (10, 100),
        (500, 3_000),
        (1_000, 100),
        (1_000, 10_000),
    ];
    let mut cases = Vec::new();
    for (chord, tick) in machines {
        for (first, second) in [(1, 2), (chord - 1, chord), (chord + 1, 2 * chord)] {
            let mut case = on_m(fast(first), fast(second));
            case.limits.chord = chord;
            case.limits.tick = tick;
            cases.push(case);
        }
    }
    cases
}

/// Blocks so short that a dropped fraction decides, and a corner cap of 0.
fn small_blocks() -> Vec<Case> {
    let mut slow = on_m(block(1, 0, 0), block(0, 1, 0));
    slow.limits.jump = 1;
    let mut weak = on_m(block(1, 1, 1), block(1, 0, 0));
    weak.limits.accel = [1; 3];
    weak.before.feed = 1_000_000;
    vec![
        on_m(block(1, 1, 1), block(1, 1, -1)),
        on_m(block(1, 1, 1), block(-1, -1, -1)),
        slow,
        weak,
    ]
}

/// Every single fault and pairs that hold at once: in the first block, in the
/// second, in both, and with limits at fault too.
fn faults(rng: &mut Rng) -> Vec<Case> {
    let mut cases = Vec::new();
    for (k, faults) in BLOCK_FAULTS.iter().enumerate() {
        let bad = faulty_block(rng, faults, false);
        let other = faulty_block(rng, BLOCK_FAULTS[(k + 1) % BLOCK_FAULTS.len()], false);
        cases.push(on_m(bad, east()));
        cases.push(on_m(east(), bad));
        cases.push(on_m(bad, other));
        cases.push(Case::of(faulty_limits(rng), bad, east()));
    }
    cases
}

/// Two blocks that follow each other on a path.
pub(crate) fn along_a_path(rng: &mut Rng) -> Case {
    let limits = limits(rng);
    let blocks = path(rng, 2);
    Case::of(limits, blocks[0], blocks[1])
}

/// Two blocks that follow each other on a path over tight curves.
fn along_tight_curves(rng: &mut Rng) -> Case {
    let (limits, blocks) = tight_path(rng, 2);
    Case::of(limits, blocks[0], blocks[1])
}

/// Limits and blocks with each field anywhere in its range.
fn anywhere(rng: &mut Rng) -> Case {
    let limits = if rng.once_in(8) {
        tiny_limits(rng)
    } else {
        limits(rng)
    };
    let before = any_block(rng);
    Case::of(limits, before, any_block(rng))
}

/// A block with each field anywhere in its range.
fn any_block(rng: &mut Rng) -> Block {
    let mut field = |range: RangeInclusive<u64>| rng.spread(*range.start(), *range.end());
    let (feed, radius, mark) = (field(range::FEED), field(range::RADIUS), field(range::MARK));
    let mut moves = [(); 3].map(|_| rng.spread(0, 1_000_000) as i64 * rng.pick(&[-1, 1]));
    if moves == [0; 3] {
        moves[rng.below(3) as usize] = 1;
    }
    Block {
        moves,
        feed,
        radius,
        mark,
    }
}
