//! Tapes against what the repository stores of them: planlist's listing and planreport's figures; and
//! the functions for tapes against each other and against the planner, on all example tapes.

mod common;

use common::{blocks_of, bytes, given_line, joined, lines, SOFT_MOTORS, TAPES};
use fullerecru::{
    held_by, list_tape, plan_tape, read_limits, write_tape, Figures, HeldBy, Listed, Planner,
    Report, Steps, PLACES,
};

/// Runs a check on every example tape, with the built-in steps and with those of examples/steps.
fn on_all_tapes(check: impl Fn(&str, &[u8], &Steps<'_>)) {
    let soft = bytes(SOFT_MOTORS);
    for name in TAPES {
        let tape = bytes(name);
        for steps in [Steps::BuiltIn, Steps::Loaded(&soft)] {
            check(name, &tape, &steps);
        }
    }
}

#[test]
fn list_is_what_planlist_writes() {
    let rows = list_tape(&bytes("crates/planlist/stdin"), &Steps::BuiltIn).unwrap();
    let stored = lines("crates/planlist/stdout");
    assert_eq!(
        stored[0],
        "mark length accel entry peak exit up cruise down"
    );
    assert!(!rows.is_empty());
    let ours: Vec<String> = rows.iter().map(|row| given_line(&row.given)).collect();
    assert_eq!(ours, stored[1..]);
}

/// Figures as planreport writes them.
fn figures_text(figures: Figures) -> String {
    let Figures {
        blocks,
        length,
        peak,
        feed,
        corner,
        chord,
        reach,
    } = figures;
    joined(&[blocks, length, peak, feed, corner, chord, reach])
}

#[test]
fn figures_are_what_planreport_writes() {
    let mut report = Report::fresh();
    let mut ours = vec!["blocks length peak feed corner chord reach tape".to_string()];
    for name in lines("crates/planreport/args") {
        let tape = bytes(&format!("crates/planreport/data/{name}"));
        ours.push(match report.add(&tape, &Steps::BuiltIn) {
            Ok(figures) => format!("{} {name}", figures_text(figures)),
            Err(fault) => format!(
                "refused {} at {} {name}",
                fault.refusal.number(),
                fault.place
            ),
        });
    }
    ours.push(format!("{} all", figures_text(report.all())));
    assert_eq!(ours, lines("crates/planreport/stdout"));
    assert_eq!(report.tapes(), 3);
}

#[test]
fn what_held_each_junction() {
    let held = held_by(&bytes("examples/tapes/what-held.tape"), &Steps::BuiltIn).unwrap();
    let chord = HeldBy::Chord;
    assert_eq!(
        held,
        [
            HeldBy::Feed,
            HeldBy::Corner,
            chord,
            chord,
            chord,
            HeldBy::Reach
        ]
    );
}

/// A tape that is read block by block and written again has the same bytes.
#[test]
fn tapes_are_written_as_they_were_read() {
    for name in TAPES {
        let tape = bytes(name);
        let again = write_tape(&read_limits(&tape).unwrap(), &blocks_of(&tape)).unwrap();
        assert_eq!(again, tape, "{name}");
    }
}

/// Rows have the blocks of the tape, the plan's speeds at their ends, ramps that make up their length,
/// and no speed above a cap.
#[test]
fn list_agrees_with_plan() {
    on_all_tapes(|name, tape, steps| {
        let (rows, plan) = (
            list_tape(tape, steps).unwrap(),
            plan_tape(tape, steps).unwrap(),
        );
        let blocks: Vec<_> = rows.iter().map(|row| row.given.block).collect();
        assert!(blocks == blocks_of(tape), "{name}");
        let entries = rows.iter().map(|row| row.given.entry);
        assert!(entries.eq(plan[..rows.len()].iter().copied()), "{name}");
        let exits = rows.iter().map(|row| row.given.exit);
        assert!(exits.eq(plan[1..].iter().copied()), "{name}");
        for Listed {
            given,
            cap,
            junction_cap,
        } in rows
        {
            assert_eq!(given.up + given.cruise + given.down, given.length, "{name}");
            assert!(given.entry <= junction_cap && given.peak <= cap, "{name}");
        }
    });
}

/// A report's figures are sums over the list, and counts of what held each junction.
#[test]
fn figures_agree_with_list() {
    on_all_tapes(|name, tape, steps| {
        let (rows, held) = (
            list_tape(tape, steps).unwrap(),
            held_by(tape, steps).unwrap(),
        );
        let count = |by| held.iter().filter(|one| **one == by).count() as u64;
        let ours = Figures {
            blocks: rows.len() as u64,
            length: rows.iter().map(|row| row.given.length).sum(),
            peak: rows.iter().map(|row| row.given.peak).max().unwrap_or(0),
            feed: count(HeldBy::Feed),
            corner: count(HeldBy::Corner),
            chord: count(HeldBy::Chord),
            reach: count(HeldBy::Reach),
        };
        assert_eq!(Report::fresh().add(tape, steps), Ok(ours), "{name}");
    });
}

/// A junction that is held by a cap has the cap of its row, and one held by the reach is below it.
#[test]
fn junction_caps_agree_with_what_held() {
    on_all_tapes(|name, tape, steps| {
        let (rows, held) = (
            list_tape(tape, steps).unwrap(),
            held_by(tape, steps).unwrap(),
        );
        assert_eq!(rows[0].junction_cap, 0, "{name}");
        for (row, by) in rows[1..].iter().zip(held) {
            let at_cap = row.given.entry == row.junction_cap;
            assert_eq!(
                at_cap,
                by != HeldBy::Reach,
                "{name}: mark {}",
                row.given.block.mark
            );
        }
    });
}

/// A tape that a planner can hold as a whole is planned and given out by it in the same way.
#[test]
fn planner_gives_out_what_is_listed() {
    on_all_tapes(|name, tape, steps| {
        let rows = list_tape(tape, steps).unwrap();
        if rows.len() > PLACES {
            return;
        }
        let mut planner = Planner::fresh(&read_limits(tape).unwrap(), steps).unwrap();
        for row in &rows {
            planner.add(&row.given.block).unwrap();
        }
        assert_eq!(planner.shown(), plan_tape(tape, steps).unwrap(), "{name}");
        for row in rows {
            assert_eq!(planner.take(), Ok(row.given), "{name}");
        }
    });
}

/// Limits alone are a tape: its plan is the rest where it begins and ends.
#[test]
fn tape_without_blocks() {
    let tape = write_tape(&common::MACHINE, &[]).unwrap();
    assert_eq!(plan_tape(&tape, &Steps::BuiltIn), Ok(vec![0]));
    assert_eq!(list_tape(&tape, &Steps::BuiltIn), Ok(vec![]));
    assert_eq!(held_by(&tape, &Steps::BuiltIn), Ok(vec![]));
    assert_eq!(
        Report::fresh().add(&tape, &Steps::BuiltIn),
        Ok(Figures::default())
    );
}
