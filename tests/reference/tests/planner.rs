//! The planners that keep what a take needs, and the one that plans anew, answer
//! as the line of blocks does.

use std::collections::BTreeSet;

use reference::generate::*;
use reference::line::{Line, LookAhead};
use reference::listing::{answer_line, closing_lines};
use reference::machine::{Block, Given, Limits};
use reference::refusal::Refusal;
use reference::rng::Rng;
use reference::trace::Call;
use reference::{anew, incremental, stairs};

/// Runs the calls through the line of blocks and a planner, made fresh with the
/// same torque steps, and compares every answer, number told and plan shown; gives
/// the refusals met.
fn compare<P: LookAhead>(limits: &Limits, steps: &[u8], calls: &[Call]) -> BTreeSet<String> {
    let mut line = Line::fresh(limits, steps).unwrap();
    let mut planner = P::fresh(limits, steps).unwrap();
    let mut refusals = BTreeSet::new();
    for (place, call) in calls.iter().enumerate() {
        let answer = answer_line(&mut line, call);
        assert_eq!(answer_line(&mut planner, call), answer, "call {place}");
        assert_eq!(planner.told(), line.told());
        if place % 16 == 0 || place + 1 == calls.len() {
            assert_eq!(closing_lines(&planner), closing_lines(&line));
        }
        if answer.starts_with("refused") {
            refusals.insert(answer);
        }
    }
    refusals
}

/// Random lists of calls meet every refusal, and are answered alike.
fn compare_on_random_calls<P: LookAhead>() {
    let mut refusals = BTreeSet::new();
    for seed in 0..400 {
        let mut rng = Rng::new(seed);
        let limits = limits(&mut rng);
        let count = rng.within(1, 300) as usize;
        let steps = steps(&mut rng);
        refusals.extend(compare::<P>(&limits, &steps, &calls(&mut rng, count)));
    }
    let expected = (2..=8).map(|number| format!("refused {number}\n"));
    assert_eq!(refusals, expected.collect());
}

#[test]
fn random_call_lists() {
    compare_on_random_calls::<incremental::Planner>();
    compare_on_random_calls::<stairs::Planner>();
    compare_on_random_calls::<anew::Planner>();
}

/// Paths of the bench's kinds with the line kept full.
#[test]
fn bench_paths() {
    for blocks in [
        short_steps(1, 300),
        straight_steps(1, 300),
        mould_steps(1, 300),
    ] {
        let mut list: Vec<Call> = blocks[..64].iter().map(|b| Call::Add(*b)).collect();
        for block in &blocks[64..] {
            list.extend([Call::Take, Call::Add(*block)]);
        }
        for steps in [&[][..], &[9; 8]] {
            let machine = machine_m();
            assert!(compare::<incremental::Planner>(&machine, steps, &list).is_empty());
            assert!(compare::<stairs::Planner>(&machine, steps, &list).is_empty());
            assert!(compare::<anew::Planner>(&machine, steps, &list).is_empty());
        }
    }
}

/// What a call answers: the block that a take gives out, else nothing.
fn answer<P: LookAhead>(planner: &mut P, call: &Call) -> Result<Option<Given>, Refusal> {
    match call {
        Call::Take => planner.take().map(Some),
        Call::Add(block) => planner.add(block).map(|()| None),
    }
}

fn plan<P: LookAhead>(planner: &P) -> Vec<u64> {
    let mut list = vec![77; planner.told() + 1];
    planner.shown(&mut list).unwrap();
    list
}

/// Runs a long list of calls through the planner that plans anew and those that
/// keep what a take needs; gives the refusals met.
fn compare_on_a_long_list(limits: &Limits, steps: &[u8], calls: &[Call]) -> BTreeSet<u64> {
    let mut refusals = BTreeSet::new();
    let mut anew = anew::Planner::fresh(limits, steps).unwrap();
    let mut incremental = incremental::Planner::fresh(limits, steps).unwrap();
    let mut stairs = stairs::Planner::fresh(limits, steps).unwrap();
    for (place, call) in calls.iter().enumerate() {
        let expected = answer(&mut anew, call);
        assert_eq!(answer(&mut stairs, call), expected, "call {place}");
        assert_eq!(answer(&mut incremental, call), expected, "call {place}");
        assert_eq!(stairs.told(), anew.told());
        if place % 16 == 0 {
            let expected = plan(&anew);
            assert_eq!(plan(&stairs), expected, "after call {place}");
            assert_eq!(plan(&incremental), expected, "after call {place}");
        }
        refusals.extend(expected.err().map(Refusal::number));
    }
    refusals
}

/// A million calls, by which the places and the stairs go round thousands of times.
#[test]
fn a_million_calls() {
    let calls = traffic(&mut Rng::new(6), 1_000_000, work(Rng::new(7)));
    let refusals = compare_on_a_long_list(&machine_m(), &[], &calls);
    assert_eq!(refusals, BTreeSet::from([2, 3, 4, 5, 6, 7, 8]));
}

fn lists_of_other_lengths<P: LookAhead>() {
    let mut planner = P::fresh(&machine_m(), &[]).unwrap();
    for block in straight_steps(3, 5) {
        planner.add(&block).unwrap();
    }
    for length in [0, 1, 5, 7, 100] {
        let mut list = vec![77; length];
        assert_eq!(planner.shown(&mut list), Err(Refusal::List));
        assert_eq!(list, vec![77; length]);
    }
    assert_eq!(planner.shown(&mut [77; 6]), Ok(()));
}

#[test]
fn shown_needs_exactly_one_more() {
    lists_of_other_lengths::<Line>();
    lists_of_other_lengths::<incremental::Planner>();
    lists_of_other_lengths::<stairs::Planner>();
    lists_of_other_lengths::<anew::Planner>();
}

/// A fresh planner shows the one number 0 and is made only from limits that
/// pass check 1.
#[test]
fn fresh() {
    let line = Line::fresh(&machine_m(), &[]).unwrap();
    assert_eq!(line.profile(), [0]);
    let faulty = Limits {
        tick: 99,
        ..machine_m()
    };
    assert_eq!(Line::fresh(&faulty, &[]), Err(Refusal::Limits));
    let refused = Some(Refusal::Limits);
    assert_eq!(incremental::Planner::fresh(&faulty, &[]).err(), refused);
    assert_eq!(stairs::Planner::fresh(&faulty, &[]).err(), refused);
    assert_eq!(anew::Planner::fresh(&faulty, &[]).err(), refused);
}

/// Refused calls leave the line as it is, also a faulty block at a full line,
/// which is refused by its own fault and not by 7.
#[test]
fn refused_calls_change_nothing() {
    let mut rng = Rng::new(5);
    let mut line = Line::fresh(&machine_m(), &[]).unwrap();
    assert_eq!(line.take(), Err(Refusal::Empty));
    for block in short_steps(4, 64) {
        line.add(&block).unwrap();
    }
    line.take().unwrap();
    line.add(&straight_steps(4, 1)[0]).unwrap();
    let before = line.clone();
    for faults in BLOCK_FAULTS {
        let block: Block = faulty_block(&mut rng, faults, false);
        let number = line.add(&block).unwrap_err().number();
        assert_eq!(number, faults[0]);
    }
    assert_eq!(line.add(&straight_steps(5, 1)[0]), Err(Refusal::Full));
    assert_eq!(line, before);
}
