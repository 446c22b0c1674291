//! Where the binding may be called: types that go between threads, calls at the same time, and the
//! stack that they need.

mod common;

use std::env;
use std::process::Command;
use std::thread;

use common::{bytes, planner_with_pair, TAPES};
use fullerecru::{
    held_by, list_tape, plan_tape, Answer, Block, Fault, Figures, Given, HeldBy, Host, Limits,
    Listed, Planner, Refusal, Replayed, Report, Steps,
};

fn goes_between_threads<T: Send + Sync>() {}

#[test]
fn every_type_goes_between_threads() {
    goes_between_threads::<(
        Planner,
        Host,
        Report,
        Limits,
        Steps<'_>,
        Block,
        Given,
        Listed,
    )>();
    goes_between_threads::<(Refusal, Fault, Figures, HeldBy, Answer, Replayed)>();
}

/// A planner that is cloned to several threads goes on in each by itself, and all read one plan.
#[test]
fn planners_on_several_threads() {
    let shared = planner_with_pair();
    thread::scope(|scope| {
        for _ in 0..4 {
            scope.spawn(|| {
                let mut planner = shared.clone();
                for _ in 0..1_000 {
                    assert_eq!(shared.shown(), [0, 2_000_000, 0]);
                    let given = planner.take().unwrap();
                    planner.add(&given.block).unwrap();
                }
            });
        }
    });
}

/// Bytes of stack that are enough for every call, as the header says, and that the thread and the
/// binding have beside them.
const STACK: usize = 180 * 1_000;
const BESIDE: usize = 8 * 1_024;

#[test]
fn calls_need_no_more_stack_than_the_header_says() {
    let run = || {
        let tape = bytes(TAPES[0]);
        plan_tape(&tape, &Steps::BuiltIn).unwrap();
        list_tape(&tape, &Steps::BuiltIn).unwrap();
        held_by(&tape, &Steps::BuiltIn).unwrap();
        Report::fresh().add(&tape, &Steps::BuiltIn).unwrap();
    };
    let small = thread::Builder::new().stack_size(STACK + BESIDE).spawn(run);
    small.unwrap().join().unwrap();
}

/// Set in the process that is meant to die.
const TOO_SMALL: &str = "FULLERECRU_TEST_SMALL_STACK";

/// On a stack that is too small the process ends at the guard page, before anything beyond the stack is
/// written.
#[test]
fn a_stack_too_small_ends_the_process() {
    if env::var_os(TOO_SMALL).is_some() {
        let tape = bytes(TAPES[0]);
        let run = move || held_by(&tape, &Steps::BuiltIn).map(|_| ());
        let small = thread::Builder::new().stack_size(64 * 1_024).spawn(run);
        let _ = small.unwrap().join();
        return;
    }
    let mut child = Command::new(env::current_exe().unwrap());
    child
        .args(["--exact", "a_stack_too_small_ends_the_process"])
        .env(TOO_SMALL, "1");
    let output = child.output().unwrap();
    assert!(
        !output.status.success(),
        "the call was answered on 64 kB of stack"
    );
    assert_eq!(output.status.code(), None, "ended by a signal");
}
