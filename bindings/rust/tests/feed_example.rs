//! The binding gives the numbers of examples/c/expected.txt, which examples/c/feed.c writes: each part
//! of that program is done here through the binding, and its lines must stand in that file one behind
//! the other.

mod common;

use common::{block, joined, lines, planner, MACHINE};
use fullerecru::{
    held_by, plan_tape, read_limits, read_record, replay, text_records, text_tape, write_limits,
    write_tape, Answer, Block, Fault, Figures, Given, HeldBy, Host, Limits, Planner, Refusal,
    Report, Steps, LIMITS_BYTES, RECORD_BYTES,
};

/// Blocks held ahead.
const AHEAD: usize = 5;

/// A row over a mould and a step sideways: moves X, Y, Z, and radius of the curve, µm.
const ROW: [(i64, i64, i64, u64); 9] = [
    (2_000, 0, 0, 0),
    (500, 0, 230, 3_000),
    (500, 0, 140, 3_000),
    (500, 0, 45, 3_000),
    (500, 0, -45, 3_000),
    (500, 0, -140, 3_000),
    (500, 0, -230, 3_000),
    (2_000, 0, 0, 0),
    (0, 200, 0, 0),
];

/// The row's blocks at the feed of 20,000 µm/s, marked from 1.
fn row() -> Vec<Block> {
    let marked = (1..).zip(ROW);
    marked
        .map(|(mark, (x, y, z, radius))| Block {
            radius,
            mark,
            ..block(x, y, z)
        })
        .collect()
}

/// Two blocks at a right angle, marks 7 and 8.
fn pair() -> [Block; 2] {
    [
        Block {
            mark: 7,
            ..block(1_000, 0, 0)
        },
        Block {
            mark: 8,
            ..block(0, 1_000, 0)
        },
    ]
}

/// The lines of a part must stand in expected.txt, one behind the other.
fn assert_stand(part: &[String]) {
    let expected = lines("examples/c/expected.txt");
    let stand = expected.windows(part.len()).any(|window| window == part);
    assert!(
        stand,
        "these lines do not stand there:\n{}",
        part.join("\n")
    );
}

/// The line for what a take gave.
fn take_line(taken: Result<Given, Refusal>) -> String {
    let given = match taken {
        Ok(given) => given,
        Err(refusal) => return format!("take refused by {}", refusal.number()),
    };
    let [x, y, z] = given.block.moves();
    let Given {
        length,
        accel,
        entry,
        exit,
        peak,
        up,
        cruise,
        down,
        ..
    } = given;
    format!(
        "mark {} move {x} {y} {z} length {length} accel {accel} entry {entry} peak {peak} exit {exit} \
         up {up} cruise {cruise} down {down}",
        given.block.mark
    )
}

/// The line for the plan of the blocks held.
fn plan_line(planner: &Planner) -> String {
    format!("held {}, plan {}", planner.told(), joined(&planner.shown()))
}

/// Takes every block held, with a line for each.
fn take_all(planner: &mut Planner) -> Vec<String> {
    (0..planner.told())
        .map(|_| take_line(planner.take()))
        .collect()
}

#[test]
fn row_held_ahead() {
    let mut planner = planner();
    let mut part = Vec::new();
    for block in row() {
        if planner.told() == AHEAD {
            part.push(take_line(planner.take()));
        }
        planner.add(&block).unwrap();
    }
    part.push(plan_line(&planner));
    let still = planner.add(&block(0, 0, 0)).unwrap_err();
    part.push(format!(
        "a block that does not move: refused by {}",
        still.number()
    ));
    part.push(plan_line(&planner));
    part.extend(take_all(&mut planner));
    part.push(take_line(planner.take()));
    assert_eq!(part.len(), 4 + 3 + 5 + 1);
    assert_stand(&part);
}

/// The lines for a tape that is read back: its limits and each block.
fn tape_lines(tape: &[u8]) -> Vec<String> {
    let Limits {
        accel_x,
        accel_y,
        accel_z,
        speed_x,
        speed_y,
        speed_z,
        ..
    } = read_limits(tape).unwrap();
    let Limits {
        corner_jump,
        chord_tolerance,
        tick,
        ..
    } = read_limits(tape).unwrap();
    let axes = [accel_x, accel_y, accel_z, speed_x, speed_y, speed_z];
    let rest = [corner_jump, chord_tolerance, tick];
    let mut part = vec![format!("limits {} {}", joined(&axes), joined(&rest))];
    for record in tape[LIMITS_BYTES..].chunks(RECORD_BYTES) {
        let Block {
            x,
            y,
            z,
            feed,
            radius,
            mark,
        } = read_record(record).unwrap();
        part.push(format!(
            "record move {x} {y} {z} feed {feed} radius {radius} mark {mark}"
        ));
    }
    part
}

/// The line for a tape that is planned.
fn planned_line(tape: &[u8]) -> String {
    match plan_tape(tape, &Steps::BuiltIn) {
        Ok(plan) => format!("tape of {} blocks, plan {}", plan.len() - 1, joined(&plan)),
        Err(fault) => fault_line("tape", fault),
    }
}

fn fault_line(name: &str, Fault { refusal, place }: Fault) -> String {
    format!("{name} refused by {} at {place}", refusal.number())
}

#[test]
fn tape_written_read_and_planned() {
    let mut tape = write_tape(&MACHINE, &pair()).unwrap();
    let mut part = tape_lines(&tape);
    part.push(planned_line(&tape));
    let second = tape.len() - RECORD_BYTES;
    tape[second..].fill(0);
    part.push(planned_line(&tape));
    assert_stand(&part);
}

fn figures_line(figures: Figures) -> String {
    let Figures {
        blocks,
        length,
        peak,
        feed,
        corner,
        chord,
        reach,
    } = figures;
    format!(
        "figures {}",
        joined(&[blocks, length, peak, feed, corner, chord, reach])
    )
}

/// The line for a tape that is added to a report.
fn report_line(report: &mut Report, tape: &[u8]) -> String {
    match report.add(tape, &Steps::BuiltIn) {
        Ok(figures) => figures_line(figures),
        Err(fault) => fault_line("tape", fault),
    }
}

#[test]
fn tapes_reported() {
    let mut report = Report::fresh();
    let tape = write_tape(&MACHINE, &row()).unwrap();
    let mut part = vec![report_line(&mut report, &tape)];
    let held = held_by(&tape, &Steps::BuiltIn).unwrap();
    let held: Vec<u64> = held.into_iter().map(HeldBy::number).collect();
    part.push(format!("held by {}", joined(&held)));
    let mut tape = write_tape(&MACHINE, &pair()).unwrap();
    part.push(report_line(&mut report, &tape));
    let second = tape.len() - RECORD_BYTES;
    tape[second..].fill(0);
    part.push(report_line(&mut report, &tape));
    part.push(format!(
        "{} tapes, {}",
        report.tapes(),
        figures_line(report.all())
    ));
    assert_stand(&part);
}

/// The row that answers a call.
fn answer_line(answer: &Answer) -> String {
    let mut numbers = [0; 15];
    match answer {
        Answer::Added => {}
        Answer::Refused(refusal) => numbers[0] = refusal.number(),
        Answer::Given(given) => {
            let [x, y, z] = given.block.moves().map(|way| u64::try_from(way).unwrap());
            let Block {
                feed, radius, mark, ..
            } = given.block;
            let Given {
                length,
                accel,
                entry,
                exit,
                peak,
                up,
                cruise,
                down,
                ..
            } = *given;
            numbers = [
                0, x, y, z, feed, radius, mark, length, accel, entry, exit, peak, up, cruise, down,
            ];
        }
    }
    format!("answer {}", joined(&numbers))
}

#[test]
fn trace_replayed_with_other_motors() {
    let mut trace = vec![0; LIMITS_BYTES];
    write_limits(&MACHINE, &mut trace).unwrap();
    let (take, first, second) = (
        [0; 7],
        [1, 1_000, 0, 0, 20_000, 0, 7],
        [1, 0, 1_000, 0, 20_000, 0, 8],
    );
    let calls: [[u32; 7]; 4] = [take, first, second, take];
    trace.extend(calls.iter().flatten().flat_map(|word| word.to_be_bytes()));
    let motors = [50, 50, 45, 40, 35, 30, 25, 20];
    let replayed = replay(&trace, &Steps::Loaded(&motors)).unwrap();
    let mut part: Vec<String> = replayed.answers.iter().map(answer_line).collect();
    part.push(format!(
        "held {}, plan {}",
        replayed.told,
        joined(&replayed.plan)
    ));
    let fewer = replay(&trace, &Steps::Loaded(&motors[1..])).unwrap_err();
    part.push(format!(
        "a torque step too few: refused by {}",
        fewer.number()
    ));
    assert_stand(&part);
}

#[test]
fn text_made_a_tape() {
    let tape = text_tape(b"N1 F1200 X1\nN2 Y1\nN3 G0 G20 Z0.25\n", &MACHINE).unwrap();
    let mut part = tape_lines(&tape);
    part.push(planned_line(&tape));
    part.push(fault_line(
        "text",
        text_records(b"F60\nX1\nY 2\n").unwrap_err(),
    ));
    assert_stand(&part);
}

/// The line for an order's answer and the host's position, µm.
fn order_line(name: &str, answer: Result<(), Refusal>, host: &Host) -> String {
    let [x, y, z] = host.position();
    let number = answer.map_or_else(Refusal::number, |()| 0);
    format!("{name} {number}, host at {x:.1} {y:.1} {z:.1}")
}

#[test]
fn orders_of_a_host() {
    let (mut planner, mut host) = (planner(), Host::fresh());
    let offset = [0.3, 0.1, 0.3];
    let rapid = host.rapid(&mut planner, [0.1, 0.2, 0.3], offset);
    let mut part = vec![order_line("rapid", rapid, &host)];
    let feed = host.feed(&mut planner, [1.1, 0.2, 0.3], offset, 20.0);
    part.push(order_line("feed", feed, &host));
    let chord = host.curve_chord(&mut planner, [2.1, 0.6, 0.3], offset, 20.0, 1.5);
    part.push(order_line("curve chord", chord, &host));
    let far = host.feed(&mut planner, [2.1, 2e6, 0.3], offset, 20.0);
    part.push(order_line("feed", far, &host));
    part.push(plan_line(&planner));
    part.extend(take_all(&mut planner));
    assert_stand(&part);
}
