//! What the seeded texts are like.

use std::collections::BTreeMap;

use reference::generate::*;
use reference::machine::Block;
use reference::rng::Rng;
use reference::text::{lines, text_blocks, MOST_TEXT_BYTES};

/// Seeds that are tried.
const SEEDS: u64 = 3_000;

/// How many of the texts are refused by each number; 0 stands for accepted with
/// blocks, 100 for accepted without.
fn shares(texts: impl Fn(&mut Rng) -> Vec<u8>) -> BTreeMap<u64, u64> {
    let mut counts = BTreeMap::new();
    for seed in 0..SEEDS {
        let key = match text_blocks(&texts(&mut Rng::new(seed))) {
            Ok(blocks) if blocks.is_empty() => 100,
            Ok(_) => 0,
            Err(fault) => fault.refusal.number(),
        };
        *counts.entry(key).or_insert(0) += 1;
    }
    counts
}

/// Checks that a share is at least so many in a hundred.
fn at_least(counts: &BTreeMap<u64, u64>, least: &[(u64, u64)]) {
    for (key, percent) in least {
        let count = counts.get(key).copied().unwrap_or(0);
        assert!(count * 100 >= percent * SEEDS, "{key}: {counts:?}");
    }
}

#[test]
fn every_answer_is_frequent() {
    let counts = shares(any_text);
    at_least(&counts, &[(0, 20), (100, 5), (3, 7), (4, 8), (10, 5)]);
    at_least(&counts, &[(12, 15), (13, 12)]);
}

#[test]
fn faults_are_frequent_in_faulty_texts() {
    let counts = shares(faulty_text);
    at_least(&counts, &[(3, 12), (4, 15), (12, 20), (13, 15)]);
}

#[test]
fn noise_is_at_times_accepted() {
    let counts = shares(noisy_text);
    at_least(&counts, &[(0, 8), (100, 8), (12, 20), (13, 15)]);
}

#[test]
fn many_blocks_are_accepted_and_refused() {
    let mut counts = BTreeMap::new();
    for seed in 0..400 {
        let text = many_text(&mut Rng::new(seed));
        assert!(text.len() <= MOST_TEXT_BYTES, "seed {seed}");
        let key = match text_blocks(&text) {
            Ok(blocks) => blocks.len() as u64,
            Err(fault) => fault.refusal.number(),
        };
        *counts.entry(key).or_insert(0) += 1;
    }
    for (key, least) in [
        (2_047, 30),
        (2_048, 30),
        (10, 100),
        (3, 5),
        (4, 5),
        (12, 5),
        (13, 5),
    ] {
        assert!(
            counts.get(&key).is_some_and(|count| *count >= least),
            "{key}: {counts:?}"
        );
    }
}

/// Faults are met on early and late lines, and accepted texts have moves of 1 µm,
/// of 1,000,000 µm and of several axes, feeds at both ends, and no line feed at
/// their end.
#[test]
fn texts_are_varied() {
    let (mut early, mut late, mut open, mut blocks) = (0, 0, 0, Vec::new());
    for seed in 0..SEEDS {
        let rng = &mut Rng::new(seed);
        match text_blocks(&any_text(rng)) {
            Ok(_) => {}
            Err(fault) if fault.place <= 2 => early += 1,
            Err(_) => late += 1,
        }
        let text = text(rng);
        open += u64::from(!text.is_empty() && !text.ends_with(b"\n"));
        blocks.extend(text_blocks(&text).unwrap());
    }
    assert!(early > SEEDS / 10 && late > SEEDS / 5, "{early} {late}");
    assert!(open > SEEDS / 10, "{open}");
    let once_in = |many: usize, holds: &dyn Fn(&Block) -> bool| {
        let count = blocks.iter().filter(|block| holds(block)).count();
        count * many > blocks.len()
    };
    let moving = |m: &[i64; 3]| m.iter().filter(|part| **part != 0).count();
    let by = |size: i64| move |b: &Block| b.moves.iter().any(|m| m.abs() == size);
    assert!((1..=3).all(|axes| once_in(20, &|b| moving(&b.moves) == axes)));
    assert!(once_in(20, &by(1)) && once_in(200, &by(1_000_000)));
    assert!(once_in(20, &|b| b.feed == 1_000_000) && once_in(60, &|b| b.feed == 1));
    assert!(once_in(200, &|b| b.feed == 999_999));
}

/// Lines of late texts reach past the greatest mark.
#[test]
fn late_texts_are_late() {
    let counts: Vec<usize> = (0..4)
        .map(|seed| lines(&late_text(&mut Rng::new(seed))).count())
        .collect();
    assert!(counts.iter().all(|count| *count > 2_097_140), "{counts:?}");
    assert!(counts.iter().any(|count| *count > 2_097_151), "{counts:?}");
}
