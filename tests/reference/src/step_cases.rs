//! Cases for the machine's calls with loaded torque steps.

use crate::generate::{faulty_block, faulty_limits, loaded_steps, machine_m};
use crate::machine::{Block, Limits, BUILT_IN};
use crate::machine_cases::{along_a_path, block, east, on_m, Case};
use crate::rng::Rng;

/// Speeds of one torque step, µm/s.
const STEP: u64 = 125_000;
/// Greatest feed, µm/s, and greatest percentage.
const FASTEST: u64 = 1_000_000;
const MOST: u8 = 100;

/// Steps whose percentages fall by 10 from 100.
const TENS: [u8; 8] = [100, 90, 80, 70, 60, 50, 40, 30];
/// Steps of which each has a percentage of its own, so that each speed's
/// acceleration tells its step.
const PRIMES: [u8; 8] = [97, 89, 83, 71, 59, 43, 29, 13];

/// All cases with loaded steps, in the order of the groups below.
pub fn cases() -> Vec<Case> {
    let mut rng = Rng::new(14);
    let mut all = document();
    all.extend(accepted_ends());
    all.extend(single_faults());
    all.extend(orders(&mut rng));
    all.extend(edges());
    all.extend(drops());
    all.extend(small_and_great());
    all.extend((0..30).map(|_| {
        let steps = loaded_steps(&mut rng);
        along_a_path(&mut rng).with(&steps)
    }));
    all
}

/// The first block of a pair with a feed, µm/s.
fn fast(feed: u64) -> Block {
    Block { feed, ..east() }
}

/// Blocks of 100 mm at 300,000 µm/s, in step 2, without and with loaded steps.
fn document() -> Vec<Case> {
    let long = Block {
        feed: 300_000,
        ..block(100_000, 0, 0)
    };
    let lists: [&[u8]; 4] = [&[], &[MOST; 8], &TENS, &[1; 8]];
    lists.map(|steps| on_m(long, long).with(steps)).to_vec()
}

/// Accepted steps at the ends of what is accepted, for a block in the first
/// step and one in the last.
fn accepted_ends() -> Vec<Case> {
    let mut only_last_falls = [MOST; 8];
    only_last_falls[7] = 1;
    let lists = [
        BUILT_IN,
        PRIMES,
        [MOST, 1, 1, 1, 1, 1, 1, 1],
        only_last_falls,
        [100, 99, 98, 97, 96, 95, 94, 93],
    ];
    let ends = on_m(fast(1), fast(FASTEST));
    lists.map(|steps| ends.clone().with(&steps)).to_vec()
}

/// The steps with another percentage at one place.
fn changed(place: usize, percent: u8) -> Vec<u8> {
    let mut steps = PRIMES.to_vec();
    steps[place] = percent;
    steps
}

/// Lists of good bytes that are not eight, a byte of 0 at each place, bytes
/// above 100, and a rise by 1 at each place.
fn single_faults() -> Vec<Case> {
    let longer = [&PRIMES[..], &[7]].concat();
    let mut lists: Vec<Vec<u8>> = (1..8).map(|count| PRIMES[..count].to_vec()).collect();
    lists.push(longer);
    lists.push(vec![0]);
    lists.extend((0..8).map(|place| changed(place, 0)));
    lists.extend([MOST + 1, u8::MAX].map(|percent| changed(0, percent)));
    lists.extend([0, MOST + 1, u8::MAX].map(|percent| vec![percent; 8]));
    lists.extend((1..8).map(|place| changed(place, PRIMES[place - 1] + 1)));
    let refused = lists.iter().map(|steps| on_m(east(), east()).with(steps));
    refused.collect()
}

/// Steps at fault with limits at fault and with blocks at fault, and good steps
/// with these: 1, then 14, then 2 to 6.
fn orders(rng: &mut Rng) -> Vec<Case> {
    let faulty = changed(7, 0);
    let bad_limits = |rng: &mut Rng, before| Case {
        limits: faulty_limits(rng),
        ..on_m(before, east())
    };
    let still = block(0, 0, 0);
    let mut cases = vec![
        bad_limits(rng, east()).with(&faulty),
        bad_limits(rng, still).with(&faulty),
        bad_limits(rng, east()).with(&PRIMES),
    ];
    for fault in 2..=6 {
        let bad = faulty_block(rng, &[fault], false);
        cases.push(on_m(bad, east()).with(&faulty));
        cases.push(on_m(east(), bad).with(&PRIMES));
    }
    cases
}

/// The last speed of each torque step and the first of the next, straight by
/// the feed, and with the first of them by the limit of an axis.
fn edges() -> Vec<Case> {
    let by_feed = |last: u64| on_m(fast(last), fast((last + 1).min(FASTEST)));
    let by_axis = |last: u64| {
        let oblique = Block {
            feed: last + 1,
            ..block(0, 300, -400)
        };
        let mut case = on_m(fast(FASTEST), oblique);
        case.limits.speed[0] = last;
        case
    };
    let fed = (1..=8).map(|step| by_feed(STEP * step));
    let limited = (1..8).map(|step| by_axis(STEP * step));
    fed.chain(limited).map(|case| case.with(&PRIMES)).collect()
}

/// Steps that fall from 100 to 1 at one place, at the speeds to either side.
fn drops() -> Vec<Case> {
    let at = |place: usize| {
        let last = STEP * place as u64;
        let mut steps = [MOST; 8];
        steps[place..].fill(1);
        on_m(fast(last), fast(last + 1)).with(&steps)
    };
    (1..8).map(at).collect()
}

/// Accelerations of which a percentage is near a whole number or below 1, and
/// the greatest.
fn small_and_great() -> Vec<Case> {
    let under = |accel, blocks: Block, percent| {
        let limits = Limits {
            accel: [accel; 3],
            ..machine_m()
        };
        let case = on_m(blocks, blocks);
        Case { limits, ..case }.with(&[percent; 8])
    };
    let diagonal = Block {
        feed: FASTEST,
        ..block(1_000_000, -1_000_000, 1_000_000)
    };
    let one_percent = [1, 99, 100, 101, 199, 200];
    let mut cases = one_percent.map(|accel| under(accel, east(), 1)).to_vec();
    cases.extend([1, 2].map(|accel| under(accel, east(), 99)));
    cases.extend([1, 37, MOST].map(|percent| under(20_000_000, diagonal, percent)));
    cases
}
