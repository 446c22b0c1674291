//! What the example programs in C and in Rust must print, worked out here.

use reference::examples::right_angle;
use reference::generate::machine_m;
use reference::host::Host;
use reference::line::{Line, LookAhead};
use reference::machine::{Block, Given, Limits, Ramp};
use reference::orders::Event;
use reference::report::{held_by, Report};
use reference::tape::{plan_tape, read_limits, read_record, LIMITS_BYTES, RECORD_BYTES};
use reference::tape_list::{list_tape, LISTED};
use reference::text::{text_blocks, text_tape};

const FEED_TEXT: &str = include_str!("../../../examples/c/expected.txt");
const SERVO_TEXT: &str = include_str!("../../../examples/c/servo-expected.txt");
const PAIR_TEXT: &str = include_str!("../../../examples/rust/expected.txt");

/// feed.c's row: moves X, Y, Z and radius, µm; and how many it holds ahead.
const ROW: [[i64; 4]; 9] = [
    [2000, 0, 0, 0],
    [500, 0, 230, 3000],
    [500, 0, 140, 3000],
    [500, 0, 45, 3000],
    [500, 0, -45, 3000],
    [500, 0, -140, 3000],
    [500, 0, -230, 3000],
    [2000, 0, 0, 0],
    [0, 200, 0, 0],
];
const AHEAD: usize = 5;
/// feed.c's torque steps of other motors, percent.
const MOTORS: [u8; 8] = [50, 50, 45, 40, 35, 30, 25, 20];
/// feed.c's work offset, mm.
const OFFSET: [f64; 3] = [0.3, 0.1, 0.3];

/// A name and numbers, parted by spaces.
fn list(name: &str, numbers: &[u64]) -> String {
    let text: String = numbers.iter().map(|n| format!(" {n}")).collect();
    format!("{name}{text}\n")
}

/// A take as feed.c prints it.
fn taken(line: &mut Line) -> String {
    let given = match line.take() {
        Ok(given) => given,
        Err(refusal) => return format!("take refused by {}\n", refusal.number()),
    };
    let Given { block, ramp, .. } = &given;
    let [x, y, z] = block.moves;
    let Ramp {
        peak,
        up,
        cruise,
        down,
    } = ramp;
    format!(
        "mark {} move {x} {y} {z} length {} accel {} entry {} peak {peak} exit {} \
         up {up} cruise {cruise} down {down}\n",
        block.mark, given.length, given.accel, given.entry, given.exit
    )
}

/// The number held and the plan as feed.c prints them.
fn held(line: &Line) -> String {
    format!("held {}, {}", line.told(), list("plan", &line.profile()))
}

/// The blocks of feed.c's row.
fn row_blocks() -> Vec<Block> {
    let block = |([x, y, z, radius], mark): ([i64; 4], u64)| Block {
        moves: [x, y, z],
        feed: 20_000,
        radius: radius as u64,
        mark,
    };
    ROW.into_iter().zip(1..).map(block).collect()
}

/// feed.c's row, block by block, with a block that does not move.
fn row_text() -> String {
    let mut text = String::new();
    let mut line = Line::fresh(&machine_m(), &[]).unwrap();
    for block in row_blocks() {
        if line.told() == AHEAD {
            text += &taken(&mut line);
        }
        line.add(&block).unwrap();
    }
    text += &held(&line);
    let still = Block {
        moves: [0; 3],
        feed: 20_000,
        radius: 0,
        mark: 0,
    };
    let refusal = line.add(&still).unwrap_err().number();
    text += &format!("a block that does not move: refused by {refusal}\n");
    text += &held(&line);
    while line.told() != 0 {
        text += &taken(&mut line);
    }
    text + &taken(&mut line)
}

/// A tape of whole records as feed.c prints it: its limits, each block, its plan.
fn printed_tape(tape: &[u8]) -> String {
    let Limits {
        accel,
        speed,
        jump,
        chord,
        tick,
    } = read_limits(tape).unwrap();
    let mut text = list(
        "limits",
        &[&accel[..], &speed, &[jump, chord, tick]].concat(),
    );
    for record in tape[LIMITS_BYTES..].chunks(RECORD_BYTES) {
        let block = read_record(record).unwrap();
        let [x, y, z] = block.moves;
        text += &format!("record move {x} {y} {z} feed {}", block.feed);
        text += &format!(" radius {} mark {}\n", block.radius, block.mark);
    }
    let blocks = (tape.len() - LIMITS_BYTES) / RECORD_BYTES;
    let mut plan = vec![0; blocks + 1];
    plan_tape(tape, &[], &mut plan).unwrap();
    text + &list(&format!("tape of {blocks} blocks, plan"), &plan)
}

/// The right-angle pair's tape, read back and planned, then spoiled.
fn tape_text() -> String {
    let mut tape = right_angle().pack();
    let text = printed_tape(&tape);
    tape[LIMITS_BYTES + RECORD_BYTES..].fill(0);
    let fault = plan_tape(&tape, &[], &mut [0; 3]).unwrap_err();
    let (number, place) = (fault.refusal.number(), fault.place);
    text + &format!("tape refused by {number} at {place}\n")
}

/// feed.c's row as a tape.
fn row_tape() -> Vec<u8> {
    let mut tape = right_angle();
    tape.blocks = row_blocks();
    tape.pack()
}

/// A tape added to a report, as feed.c prints it.
fn reported(report: &mut Report, tape: &[u8]) -> String {
    match report.add(tape, &[]) {
        Ok(figures) => list("figures", &figures.numbers()),
        Err(fault) => format!(
            "tape refused by {} at {}\n",
            fault.refusal.number(),
            fault.place
        ),
    }
}

/// The report over the row, the pair, and the pair with a block that does not move.
fn report_text() -> String {
    let mut report = Report::fresh();
    let row = row_tape();
    let mut text = reported(&mut report, &row);
    let mut held = [0; ROW.len() - 1];
    held_by(&row, &[], &mut held).unwrap();
    text += &list("held by", &held);
    let mut pair = right_angle().pack();
    text += &reported(&mut report, &pair);
    pair[LIMITS_BYTES + RECORD_BYTES..].fill(0);
    text += &reported(&mut report, &pair);
    let numbers = report.numbers();
    text + &format!("{} tapes, ", numbers[0]) + &list("figures", &numbers[1..])
}

/// feed.c's text as a tape of the same machine, and its text that is refused.
fn text_text() -> String {
    let limits = &right_angle().pack()[..LIMITS_BYTES];
    let tape = text_tape(limits, b"N1 F1200 X1\nN2 Y1\nN3 G0 G20 Z0.25\n").unwrap();
    let fault = text_blocks(b"F60\nX1\nY 2\n").unwrap_err();
    let (number, line) = (fault.refusal.number(), fault.place);
    printed_tape(&tape) + &format!("text refused by {number} at {line}\n")
}

/// Feed, radius, mark, length, acceleration, entry, exit, peak and ramp.
fn given_numbers(given: &Given) -> [u64; 11] {
    let Given {
        block: b, ramp: r, ..
    } = given;
    let [length, accel, entry, exit] = [given.length, given.accel, given.entry, given.exit];
    [
        b.feed, b.radius, b.mark, length, accel, entry, exit, r.peak, r.up, r.cruise, r.down,
    ]
}

/// feed.c's trace with the other motors: a take too early, the pair's two adds,
/// and a take; then with a step too few.
fn trace_text() -> String {
    let pair = right_angle();
    let mut line = Line::fresh(&pair.limits, &MOTORS).unwrap();
    let mut rows = [[0; 15]; 4];
    rows[0][0] = line.take().unwrap_err().number();
    pair.blocks.iter().for_each(|b| line.add(b).unwrap());
    let given = line.take().unwrap();
    rows[3][1..4].copy_from_slice(&given.block.moves.map(|m| m as u32 as u64));
    rows[3][4..].copy_from_slice(&given_numbers(&given));
    let text: String = rows.iter().map(|row| list("answer", row)).collect();
    let refusal = Line::fresh(&pair.limits, &MOTORS[..7]).unwrap_err();
    text + &held(&line) + &format!("a torque step too few: refused by {}\n", refusal.number())
}

/// feed.c's orders by the names that it prints; the last goes too far.
fn orders() -> [(&'static str, Event); 4] {
    let chord = Event::curve_chord([2.1, 0.6, 0.3], 20.0, 1.5);
    [
        ("rapid", Event::rapid([0.1, 0.2, 0.3])),
        ("feed", Event::feed([1.1, 0.2, 0.3], 20.0)),
        ("curve chord", chord),
        ("feed", Event::feed([2.1, 2e6, 0.3], 20.0)),
    ]
}

/// Each order's answer with the host's point, µm, then the plan and the blocks.
fn orders_text() -> String {
    let mut line = Line::fresh(&machine_m(), &[]).unwrap();
    let mut host = Host::default();
    let mut text = String::new();
    for (name, event) in orders() {
        let event = event.under(OFFSET);
        let answer = host.order(&mut line, &event.order().unwrap(), &event.offset);
        let refused = answer.map_or_else(|refusal| refusal.number(), |()| 0);
        let [x, y, z] = host.position().map(f64::from_bits);
        text += &format!("{name} {refused}, host at {x:.1} {y:.1} {z:.1}\n");
    }
    text += &held(&line);
    while line.told() != 0 {
        text += &taken(&mut line);
    }
    text
}

/// The pair's list, and the refusal of one with too little room.
fn list_text() -> String {
    let tape = right_angle().pack();
    let mut rows = [0; 2 * LISTED];
    list_tape(&tape, &[], &mut rows).unwrap();
    let mut text = String::new();
    for row in rows.chunks(LISTED) {
        let [mark, peak, cap, junction] = [2, 7, 11, 12].map(|k| row[k]);
        text += &format!("listed mark {mark} peak {peak} cap {cap} junction cap {junction}\n");
    }
    let fault = list_tape(&tape, &[], &mut rows[..LISTED]).unwrap_err();
    let number = fault.refusal.number();
    text + &format!("listed with too little room: refused by {number}, list\n")
}

/// servo.c's path: moves X, Y, Z, µm, and feed, µm/s; it prints each tenth tick.
const PATH: [([i64; 3], u64); 4] = [
    ([1000, 0, 0], 20_000),
    ([0, 1000, 0], 20_000),
    ([300, 300, 5], 8_000),
    ([2000, -700, 0], 20_000),
];
const EACH: u32 = 10;

/// Way along a block t seconds behind its begin, µm, and how long it takes, s: under
/// the least of the three squared speeds that the header names.
fn way(given: &Given, t: f64) -> (f64, f64) {
    let [entry, peak, exit] =
        [given.entry, given.ramp.peak, given.exit].map(|squared| (squared as f64).sqrt());
    let accel = given.accel as f64;
    let (up, down) = ((peak - entry) / accel, (peak - exit) / accel);
    let risen = (peak * peak - entry * entry) / (2.0 * accel);
    let fallen = (peak * peak - exit * exit) / (2.0 * accel);
    let cruise = (given.length as f64 - risen - fallen).max(0.0) / peak;
    let all = up + cruise + down;
    let left = all - t;
    let s = if t < up {
        entry * t + accel * t * t / 2.0
    } else if left > down {
        risen + peak * (t - up)
    } else {
        given.length as f64 - exit * left - accel * left * left / 2.0
    };
    (s, all)
}

/// What servo.c prints: where the table is at each tenth tick, and where it ends.
fn servo_text() -> String {
    let limits = machine_m();
    let mut line = Line::fresh(&limits, &[]).unwrap();
    for ((moves, feed), mark) in PATH.into_iter().zip(1..) {
        let block = Block {
            moves,
            feed,
            radius: 0,
            mark,
        };
        line.add(&block).unwrap();
    }
    let tick = limits.tick as f64 * 1e-6;
    let (mut text, mut start, mut begun, mut ticks) = (String::new(), [0.0; 3], 0.0, 0);
    while let Ok(given) = line.take() {
        let lasts = way(&given, 0.0).1;
        while f64::from(ticks) * tick - begun < lasts {
            let now = f64::from(ticks) * tick;
            let part = way(&given, now - begun).0 / given.length as f64;
            let at = |axis: usize| start[axis] + given.block.moves[axis] as f64 * part;
            if ticks % EACH == 0 {
                text += &format!("{now:.3} s {:.1} {:.1} {:.1}\n", at(0), at(1), at(2));
            }
            ticks += 1;
        }
        begun += lasts;
        (0..3).for_each(|axis| start[axis] += given.block.moves[axis] as f64);
    }
    let [x, y, z] = start;
    text + &format!("at rest at {x:.1} {y:.1} {z:.1} µm\n")
}

/// What pair.rs prints: the pair's plan, its blocks, and a take too many.
fn pair_text() -> String {
    let pair = right_angle();
    let mut line = Line::fresh(&pair.limits, &[]).unwrap();
    pair.blocks.iter().for_each(|b| line.add(b).unwrap());
    let mut text = format!("plan {:?}\n", line.profile());
    for _ in 0..3 {
        text += &match line.take() {
            Ok(given) => format!("{:?} {:?}\n", given.block.moves, given_numbers(&given)),
            Err(refusal) => format!("refused {}\n", refusal.number()),
        };
    }
    text
}

#[test]
fn c_example_prints_these_numbers() {
    assert_eq!(
        FEED_TEXT,
        row_text()
            + &tape_text()
            + &list_text()
            + &report_text()
            + &trace_text()
            + &text_text()
            + &orders_text()
    );
}

#[test]
fn servo_example_prints_these_places() {
    assert_eq!(SERVO_TEXT, servo_text());
}

#[test]
fn rust_example_prints_these_numbers() {
    assert_eq!(PAIR_TEXT, pair_text());
}
