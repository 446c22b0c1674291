//! What held tapes back: the figures of a tape and of all, and what held each
//! inner junction.

use std::collections::BTreeSet;

use reference::examples::{example, right_angle, what_held, NAMES};
use reference::generate::*;
use reference::listing::planlist;
use reference::machine::{chord_bound, junction_cap, length_of, Block, Limits, Machine, Numbers};
use reference::plan::{every_lawful, from_rest, Course};
use reference::quick;
use reference::refusal::{Fault, Refusal};
use reference::report::*;
use reference::rng::Rng;
use reference::tape::{pack_limits, read_to_plan, Tape, MOST_BLOCKS, MOST_BYTES};

/// A block on machine M without curve or mark, feed 20,000 µm/s.
fn block(moves: [i64; 3]) -> Block {
    Block {
        moves,
        feed: 20_000,
        radius: 0,
        mark: 0,
    }
}

/// A tape of blocks on machine M.
fn on_m(blocks: &[Block]) -> Vec<u8> {
    let (limits, blocks) = (machine_m(), blocks.to_vec());
    Tape { limits, blocks }.pack()
}

/// The figures of a tape that a fresh report accepts.
fn figures(tape: &[u8], steps: &[u8]) -> [u64; 7] {
    let mut report = Report::fresh();
    let figures = report.add(tape, steps).expect("a tape that passes");
    assert_eq!((report.tapes, report.all), (1, figures));
    figures.numbers()
}

/// What held the inner junctions of a tape of so many blocks.
fn held(tape: &[u8], steps: &[u8], blocks: usize) -> Vec<u64> {
    let mut list = vec![77; blocks.saturating_sub(1)];
    held_by(tape, steps, &mut list).expect("a tape that passes");
    list
}

/// The number and place by which a tape is refused.
fn refused(answer: Result<Figures, Fault>) -> (u64, u64) {
    let fault = answer.expect_err("a refusal");
    (fault.refusal.number(), fault.place)
}

fn pair() -> Vec<u8> {
    right_angle().pack()
}

/// (1000,0,0) there and back with a feed, µm/s, and a radius, µm.
fn to_and_fro(feed: u64, radius: u64) -> Vec<u8> {
    let along = |moves| Block {
        feed,
        radius,
        ..block(moves)
    };
    on_m(&[along([1_000, 0, 0]), along([-1_000, 0, 0])])
}

#[test]
fn worked_tapes() {
    let east = block([1_000, 0, 0]);
    let short = block([10, 0, 0]);
    let curved = Block { radius: 1, ..short };
    let slow = Block {
        feed: 1_000,
        radius: 1,
        ..east
    };
    let cases = [
        (pair(), [2, 2_000, 201_000_000, 0, 1, 0, 0]),
        (on_m(&[east; 2]), [2, 2_000, 400_000_000, 1, 0, 0, 0]),
        (on_m(&[short; 3]), [3, 30, 6_000_000, 0, 0, 0, 2]),
        (
            on_m(&[curved, curved, short]),
            [3, 30, 2_500_000, 0, 0, 2, 0],
        ),
        (what_held().pack(), [7, 3_210, 400_000_000, 1, 1, 3, 1]),
        (on_m(&[east]), [1, 1_000, 200_000_000, 0, 0, 0, 0]),
        (on_m(&[slow; 2]), [2, 2_000, 1_000_000, 1, 0, 0, 0]),
        (on_m(&[]), [0; 7]),
    ];
    for (tape, expected) in cases {
        assert_eq!(figures(&tape, &[]), expected);
    }
    let half = figures(&pair(), &[50; 8]);
    assert_eq!(half, [2, 2_000, 101_000_000, 0, 1, 0, 0]);
}

/// Every corner cap there and back on machine M is 1,000,000 (µm/s)², as is the
/// feed's of 1,000 µm/s and the chord's of radius 1 µm.
#[test]
fn worked_ties() {
    for (feed, radius, by) in [
        (1_000, 0, HeldBy::Feed),
        (1_000, 1, HeldBy::Feed),
        (1_001, 1, HeldBy::Corner),
        (20_000, 1, HeldBy::Corner),
        (20_000, 0, HeldBy::Corner),
        (999, 1, HeldBy::Feed),
    ] {
        let tape = to_and_fro(feed, radius);
        assert_eq!(held(&tape, &[], 2), [by.number()], "{feed} {radius}");
    }
    let peak = |feed| figures(&to_and_fro(feed, 1), &[])[2];
    assert_eq!([peak(1_000), peak(20_000)], [1_000_000; 2]);
}

#[test]
fn the_mixed_tape() {
    let Tape { limits, blocks } = what_held();
    let machine = Machine::of(&limits, &[]).unwrap();
    let million = 1_000_000;
    let plan = [0, 400, 2, 1, 1, 1, 2, 0].map(|number| number * million);
    assert_eq!(from_rest(&machine, &blocks), plan);
    let marks: Vec<u64> = blocks.iter().map(|block| block.mark).collect();
    assert_eq!(marks, [1, 2, 3, 4, 5, 6, 7]);
    assert_eq!(held(&what_held().pack(), &[], 7), [0, 1, 2, 2, 2, 3]);
    let by = [HeldBy::Feed, HeldBy::Corner, HeldBy::Chord, HeldBy::Reach];
    assert_eq!(by.map(HeldBy::number), [0, 1, 2, 3]);
}

#[test]
fn example_tapes() {
    let known = [
        ("right-angle", [2, 2_000, 201_000_000, 0, 1, 0, 0]),
        ("mould-row", [325, 107_636, 29_999_000_000, 0, 6, 282, 36]),
        ("square-pocket", [20, 104_000, 40_000_000_000, 0, 19, 0, 0]),
        ("to-and-fro", [10, 4_467, 400_000_000, 2, 1, 0, 6]),
        ("what-held", [7, 3_210, 400_000_000, 1, 1, 3, 1]),
    ];
    assert_eq!(known.map(|(name, _)| name), NAMES);
    for (name, expected) in known {
        let tape = example(name).unwrap().pack();
        assert_eq!(figures(&tape, &[]), expected, "{name}");
    }
}

/// A tape whose first record does not move.
fn still() -> Vec<u8> {
    [pack_limits(&machine_m(), 0), vec![0; 16]].concat()
}

/// A tape and steps, and the number and place by which they are refused.
type Faulty<'a> = (&'a [u8], &'a [u8], (u64, u64));

/// 10, 9, 1, 14 and the records, each before those behind it.
#[test]
fn refusals_in_their_order() {
    let bad = pack_limits(&machine_m(), 1);
    let many = vec![0; MOST_BYTES + 1];
    let seven = &[100; 7][..];
    let mut behind = what_held().pack();
    behind[24 + 16 * 4..24 + 16 * 5].fill(0);
    behind[24 + 16 * 6..].fill(0);
    let cases: [Faulty; 9] = [
        (&many, seven, (10, 0)),
        (&bad[..23], seven, (9, 0)),
        (&[&bad[..], &[0; 15]].concat(), seven, (9, 0)),
        (&[], &[], (9, 0)),
        (&[&bad[..], &[0; 16]].concat(), seven, (1, 0)),
        (&still(), seven, (14, 0)),
        (&still(), &[], (2, 1)),
        (&behind, &[], (2, 5)),
        (&pair(), seven, (14, 0)),
    ];
    let before = Report::of_numbers([7, 1, 2, 3, 4, 5, 6, 9]);
    for (tape, steps, expected) in cases {
        let mut report = before;
        assert_eq!(refused(report.add(tape, steps)), expected);
        assert_eq!(report, before);
        let mut list = [77; 3];
        let answer = held_by(tape, steps, &mut list);
        assert_eq!(refused(answer.map(|()| Figures::default())), expected);
        assert_eq!(list, [77; 3]);
    }
}

/// After 100 accepted tapes 10 comes before all else, and nothing is added.
#[test]
fn a_report_of_100_tapes_is_closed() {
    let mut report = Report::fresh();
    for _ in 0..100 {
        report.add(&pair(), &[]).expect("room for a tape");
    }
    let full = report;
    assert_eq!(
        full.numbers(),
        [100, 200, 200_000, 201_000_000, 0, 100, 0, 0]
    );
    let seven = &[100; 7][..];
    for (tape, steps) in [
        (pair(), &[][..]),
        (vec![0; 5], &[]),
        (on_m(&[]), &[]),
        (still(), seven),
        (vec![0; 24], seven),
    ] {
        assert_eq!(refused(report.add(&tape, steps)), (10, 0));
        assert_eq!(report, full);
    }
}

/// 101 tapes with refused ones between: these are not counted.
#[test]
fn refused_tapes_take_no_place() {
    let mut report = Report::fresh();
    let mixed = what_held().pack();
    for k in 0..100 {
        assert_eq!(refused(report.add(&still(), &[])), (2, 1));
        assert_eq!(refused(report.add(&mixed[..k % 24], &[])), (9, 0));
        let tape = if k % 2 == 0 { &mixed } else { &pair() };
        report.add(tape, &[]).expect("room for a tape");
        assert_eq!(report.tapes, k as u64 + 1);
    }
    assert_eq!(refused(report.add(&pair(), &[])), (10, 0));
    let all = [100, 450, 260_500, 400_000_000, 50, 100, 150, 50];
    assert_eq!(report.numbers(), all);
}

/// Sums begin at 0 again past 64 bits, the peak is the greater, the count of
/// tapes grows by one or refuses.
#[test]
fn any_content_of_a_report_is_answered() {
    let full = u64::MAX;
    let mut report = Report::of_numbers([99, full, full - 3_209, full, full, 7, full - 2, full]);
    report.add(&what_held().pack(), &[]).expect("room");
    assert_eq!(report.numbers(), [100, 6, 0, full, 0, 8, 0, 0]);
    let mut report = Report::of_numbers([0, 0, 0, 400_000_001, 0, 0, 0, 0]);
    report.add(&what_held().pack(), &[]).expect("room");
    assert_eq!(report.numbers(), [1, 7, 3_210, 400_000_001, 1, 1, 3, 1]);
    for tapes in [100, 101, full] {
        let numbers = [tapes, 1, 2, 3, 4, 5, 6, 7];
        let mut report = Report::of_numbers(numbers);
        assert_eq!(refused(report.add(&pair(), &[])), (10, 0));
        assert_eq!(report.numbers(), numbers);
    }
}

#[test]
fn the_worked_list_as_text() {
    let (pair, mixed, limits) = (pair(), what_held().pack(), on_m(&[]));
    let files: [(&[u8], &[u8]); 7] = [
        (b"pair", &pair),
        (b"mixed", &mixed),
        (b"cut", &pair[..23]),
        (b"still", &still()),
        (b"limits only", &limits),
        (b"\xff\n-", &pair[..39]),
        (b"", &[0; MOST_BYTES + 1]),
    ];
    let text = b"\
blocks length peak feed corner chord reach tape
2 2000 201000000 0 1 0 0 pair
7 3210 400000000 1 1 3 1 mixed
refused 9 at 0 cut
refused 2 at 1 still
0 0 0 0 0 0 0 limits only
refused 9 at 0 \xff\n-
refused 10 at 0 \n\
9 5210 400000000 1 2 3 1 all
";
    assert_eq!(
        String::from_utf8_lossy(&planreport(&files, &[])),
        String::from_utf8_lossy(text)
    );
    assert_eq!(planreport(&files, &[]), text);
    let none = format!("{HEADER}\n0 0 0 0 0 0 0 all\n");
    assert_eq!(planreport(&[], &[]), none.as_bytes());
    let refused = format!("{HEADER}\nrefused 14 at 0 pair\n0 0 0 0 0 0 0 all\n");
    assert_eq!(planreport(&files[..1], &[101; 8]), refused.as_bytes());
}

/// Pair, mixed, pair under half the torque, two refused, limits only, two more
/// refused: steps belong to each tape.
#[test]
fn the_worked_list_under_steps_of_each_tape() {
    let mut report = Report::fresh();
    let seven: &[u8] = &[100; 7];
    let (pair, mixed) = (pair(), what_held().pack());
    for (tape, steps, accepted) in [
        (&pair[..], &[][..], true),
        (&mixed, &[], true),
        (&pair, &[50; 8], true),
        (&pair, seven, false),
        (&pair[..23], &[], false),
        (&pair[..24], &[], true),
        (&still(), &[], false),
        (&[], &[], false),
    ] {
        assert_eq!(report.add(tape, steps).is_ok(), accepted);
    }
    let all = [4, 11, 7_210, 400_000_000, 1, 3, 3, 1];
    assert_eq!(report.numbers(), all);
}

/// A list of any other length than the inner junctions have is refused by 11 and
/// stays as it was; a tape of no block or one has no inner junction.
#[test]
fn lists_of_other_lengths() {
    for blocks in 0..5 {
        let tape = on_m(&vec![block([10, 0, 0]); blocks]);
        for length in 0..7 {
            let mut list = vec![77; length];
            let answer = held_by(&tape, &[], &mut list);
            if length == blocks.saturating_sub(1) {
                assert_eq!((answer, list), (Ok(()), vec![3; length]));
            } else {
                let fault = Refusal::List.at_no_record();
                assert_eq!((answer, list), (Err(fault), vec![77; length]));
            }
        }
    }
}

/// True if a squared speed, (µm/s)², does not pass the block's feed and the speed
/// limits of its axes: the least whole speed that is not below its root does.
fn feed_allows(limits: &Limits, block: &Block, squared: u64) -> bool {
    let root = squared.isqrt();
    let speed = root + u64::from(root * root < squared);
    let length = length_of(block);
    let axis = |k: usize| speed * block.moves[k].unsigned_abs() <= limits.speed[k] * length;
    speed <= block.feed && (0..3).all(axis)
}

/// True if a squared speed keeps to the corner rule between two blocks.
fn corner_allows(limits: &Limits, pair: &[Block], squared: u64) -> bool {
    let p = length_of(&pair[0]) as i128 * length_of(&pair[1]) as i128;
    let product = |k: usize| (pair[0].moves[k] * pair[1].moves[k]) as i128;
    let s = product(0) + product(1) + product(2);
    squared as i128 * 2 * (p - s) <= (limits.jump as i128).pow(2) * p
}

/// True if a squared speed keeps to the chord rule of a block, if it has one.
fn chord_allows(limits: &Limits, block: &Block, squared: u64) -> bool {
    let ticks = (limits.tick as u128).pow(2);
    block.radius == 0 || squared as u128 * ticks <= chord_bound(limits, block.radius)
}

/// What holds a junction by the inequalities alone: the first rule that a squared
/// speed greater by 1 than the plan's would break, else the reach.
fn broken_by_one_more(limits: &Limits, pair: &[Block], plan: u64) -> u64 {
    let allowed = |squared: u64| {
        [
            pair.iter().all(|block| feed_allows(limits, block, squared)),
            corner_allows(limits, pair, squared),
            pair.iter()
                .all(|block| chord_allows(limits, block, squared)),
        ]
    };
    assert_eq!(allowed(plan), [true; 3]);
    let broken = allowed(plan + 1).iter().position(|allowed| !allowed);
    broken.unwrap_or(3) as u64
}

/// The figures of an accepted tape as its listing and the inequalities have
/// them; the plan is handed in.
fn figures_by_listing(tape: &[u8], steps: &[u8], plan: &[u64]) -> ([u64; 7], Vec<u64>) {
    let (machine, blocks) = read_to_plan(tape, steps).expect("a tape that passes");
    let listing = planlist(tape, steps);
    let column = |place: usize| -> Vec<u64> {
        let rows = listing.lines().skip(1);
        let word = rows.map(|row| row.split(' ').nth(place).unwrap());
        word.map(|word| word.parse().unwrap()).collect()
    };
    let judge = |k: usize| broken_by_one_more(&machine.limits, &blocks[k - 1..=k], plan[k]);
    let held: Vec<u64> = (1..blocks.len()).map(judge).collect();
    let count = |by: u64| held.iter().filter(|held| **held == by).count() as u64;
    let (lengths, peaks) = (column(1), column(4));
    let figures = [
        lengths.len() as u64,
        lengths.iter().sum(),
        peaks.into_iter().max().unwrap_or(0),
        count(0),
        count(1),
        count(2),
        count(3),
    ];
    (figures, held)
}

/// Compares both ways of judging on a tape, and the figures by division; the four
/// counts add up to the inner junctions. Gives what held these.
fn judge_both(tape: &[u8], steps: &[u8]) -> Vec<u64> {
    let (machine, blocks) = read_to_plan(tape, steps).expect("a tape that passes");
    let plan = from_rest(&machine, &blocks);
    let (expected, judged) = figures_by_listing(tape, steps, &plan);
    let found = figures(tape, steps);
    assert_eq!(found, expected);
    assert_eq!(held(tape, steps, blocks.len()), judged);
    let four: u64 = found[3..].iter().sum();
    assert_eq!(four, found[0].saturating_sub(1));
    let quick = quick::figures_of(&machine, &blocks).map(|figures| figures.numbers());
    assert_eq!(quick, Some(expected));
    judged
}

/// Tapes of every kind, with loaded torque steps and without: each of the four
/// is met often.
#[test]
fn generated_tapes_are_judged_by_the_inequalities() {
    let mut met = [0; 4];
    for seed in 0..500 {
        let mut rng = Rng::new(seed);
        let count = rng.spread(0, 60) as usize;
        let (limits, blocks) = match seed % 4 {
            0 => tight_path(&mut rng, count),
            1 => path_at_edges(&mut rng, count),
            _ => limits_and_path(&mut rng, count),
        };
        let tape = Tape { limits, blocks }.pack();
        let held = judge_both(&tape, &steps(&mut rng));
        held.iter().for_each(|by| met[*by as usize] += 1);
    }
    println!("{met:?}");
    assert!(met.iter().all(|count| *count > 300), "{met:?}");
}

/// The longest tapes.
#[test]
fn the_longest_tapes_are_judged_by_the_inequalities() {
    for blocks in [short_steps(1, MOST_BLOCKS), straight_steps(1, MOST_BLOCKS)] {
        let held = judge_both(&on_m(&blocks), &[]);
        assert_eq!(held.len(), MOST_BLOCKS - 1);
    }
}

/// Which of a junction's three caps are its least, as bits 1, 2 and 4, and
/// whether the plan is that.
fn tied(caps: &JunctionCaps, plan: u64) -> (u64, bool) {
    let least = caps.least();
    let equal = [Some(caps.feed), caps.corner, caps.chord].map(|cap| cap == Some(least));
    let bits = (0..3).map(|k| u64::from(equal[k]) << k).sum();
    (bits, plan as u128 == least)
}

/// At paths about ties every set of the three is the least cap at some junction
/// that the plan reaches, and at some that it does not reach.
#[test]
fn ties_of_every_sort_are_judged_by_the_inequalities() {
    let mut met = BTreeSet::new();
    for seed in 0..600 {
        let mut rng = Rng::new(seed);
        let tape = tied_tape(&mut rng);
        let loaded = steps(&mut rng);
        judge_both(&tape, &loaded);
        let (machine, blocks) = read_to_plan(&tape, &loaded).unwrap();
        let plan = from_rest(&machine, &blocks);
        for k in 1..blocks.len() {
            let caps = JunctionCaps::of(&machine.limits, &blocks[k - 1], &blocks[k]);
            met.insert(tied(&caps, plan[k]));
        }
    }
    let every = (1..8).flat_map(|bits| [(bits, false), (bits, true)]);
    assert_eq!(met, every.collect());
}

/// The cap of a junction is the least of its three caps.
#[test]
fn the_three_caps_make_the_junction_cap() {
    for seed in 0..2_000 {
        let mut rng = Rng::new(seed);
        let (limits, blocks) = match seed % 2 {
            0 => tied_path(&mut rng, 2),
            _ => limits_and_path(&mut rng, 2),
        };
        let caps = JunctionCaps::of(&limits, &blocks[0], &blocks[1]);
        let known = junction_cap(&limits, &blocks[0], &blocks[1]);
        assert_eq!(caps.least(), known as u128, "{seed}");
        let machine = Machine::of(&limits, &[]).unwrap();
        let speeds = [0, 1].map(|k| Numbers::of(&machine, &blocks[k]).speed as u128);
        assert_eq!(caps.feed, speeds[0].min(speeds[1]).pow(2), "{seed}");
    }
}

/// On tiny tapes the plan is found among all lawful profiles: none of these has
/// more at a junction that a cap holds, and one more breaks none of the three at
/// a junction that the reach holds.
#[test]
fn tiny_tapes_are_judged_by_every_profile() {
    let mut met = [0; 4];
    for seed in 0..400 {
        let mut rng = Rng::new(seed);
        let limits = tiny_limits(&mut rng);
        let blocks: Vec<Block> = (0..rng.within(0, 5))
            .map(|_| tiny_block(&mut rng))
            .collect();
        let machine = Machine::of(&limits, &[]).unwrap();
        let profiles = every_lawful(&Course::of(&machine, &blocks, 0));
        let top = |i: usize| profiles.iter().map(|profile| profile[i]).max().unwrap();
        let plan: Vec<u64> = (0..=blocks.len()).map(top).collect();
        let tape = Tape { limits, blocks }.pack();
        let (expected, judged) = figures_by_listing(&tape, &[], &plan);
        assert_eq!(figures(&tape, &[]), expected, "{seed}");
        judged.iter().for_each(|by| met[*by as usize] += 1);
    }
    // radii are too wide for these speeds
    assert!(
        met[0] > 50 && met[1] > 50 && met[2] == 0 && met[3] > 50,
        "{met:?}"
    );
}

/// Lists of generated tapes, faulty ones among them, until past 100 accepted: the
/// report has the sums of the tapes' own figures, and the greatest peak.
#[test]
fn reports_are_the_sums_of_their_tapes() {
    for seed in 0..4 {
        let mut rng = Rng::new(seed);
        let mut report = Report::fresh();
        let (mut sums, mut peak, mut accepted) = ([0; 7], 0, 0);
        for _ in 0..260 {
            let (tape, steps) = match rng.below(4) {
                0 => (faulty_tape(&mut rng), steps(&mut rng)),
                1 => (tied_tape(&mut rng), faulty_steps(&mut rng)),
                _ => (tied_tape(&mut rng), steps(&mut rng)),
            };
            let alone = Report::fresh().add(&tape, &steps);
            let closed = Err(Refusal::Many.at_no_record());
            let expected = if accepted < 100 { alone } else { closed };
            assert_eq!(report.add(&tape, &steps), expected);
            if let Ok(figures) = expected {
                let own = figures.numbers();
                sums = [0, 1, 2, 3, 4, 5, 6].map(|k| sums[k] + own[k]);
                peak = peak.max(own[2]);
                accepted += 1;
            }
            sums[2] = peak;
            assert_eq!(report.tapes, accepted);
            assert_eq!(report.all.numbers(), sums);
        }
        assert_eq!(accepted, 100);
    }
}
