//! Every function of include/fullerecru.h with every list that it is lent lying
//! flush against a page that can be neither read nor written: the page behind
//! its end in one run, the page before its beginning in the other. Lists have
//! every length, 0 among them.
//!
//! A read or a write beside a list ends the process by SIGSEGV, after a line that
//! begins with GUARD and says which byte beside lent memory it was; cargo then
//! names this file.

use compare::guarded::{lend_at, Side, SIDES};
use compare::hosts::{any_host, Kept};
use compare::library::{HOST, LISTED, PLAN, REPORT, ROW};
use compare::proved::{self, Host, Planner, Report};
use compare::texts::{bytes_of, compare_text};
use compare::traces::{self, rows};
use compare::words::{any_word, some_steps};
use compare::{hex, report, same, seeds, Trying};
use reference::generate::*;
use reference::host;
use reference::line::{Line, LookAhead, PLACES};
use reference::machine::{Block, Limits, Machine};
use reference::quick;
use reference::refusal::Refusal;
use reference::report as known;
use reference::rng::Rng;
use reference::tape::{self, pack_limits, pack_record, Tape, LIMITS_BYTES, MOST_BLOCKS};
use reference::tape_list;
use reference::text::text_blocks;
use reference::trace::{pack_trace, CALL_BYTES};

/// Runs once at each side, with a seed and numbers of its own.
fn at_both_sides(run: impl Fn(u64, &mut Rng, Side)) {
    for seed in seeds(1) {
        let _trying = Trying::seed(seed);
        for side in SIDES {
            lend_at(side);
            run(seed, &mut Rng::new(seed), side);
        }
    }
}

/// Told, and shown in lists of each length from 0 to 66.
fn compare_held(seed: u64, proved: &Planner, line: &Line, side: Side) {
    let input = || format!("{side:?} {line:?}");
    same(seed, input, proved.told(), line.told());
    for length in 0..=PLACES + 2 {
        let (mut plan, mut expected) = (vec![77; length], vec![77; length]);
        let answers = (proved.shown(&mut plan), line.shown(&mut expected));
        same(seed, input, answers.0, answers.1);
        same(seed, input, plan, expected);
    }
}

/// A planner filled past its 64 places, block by block with a faulty one
/// between, then emptied, with each number of blocks held on the way.
#[test]
fn a_planner_stays_in_its_memory() {
    at_both_sides(|seed, rng, side| {
        let (limits, steps) = (limits(rng), loaded_steps(rng));
        let mut proved = Planner::fresh(&limits, &steps).expect("limits and steps that pass");
        let mut line = Line::fresh(&limits, &steps).expect("limits and steps that pass");
        let refused = proved.freshen(&faulty_limits(rng), &steps);
        assert_eq!(refused, Err(Refusal::Limits), "{side:?}");
        let refused = proved.freshen(&limits, &faulty_steps(rng));
        assert_eq!(refused, Err(Refusal::Steps), "{side:?}");
        compare_held(seed, &proved, &line, side);
        for block in path(rng, PLACES + 1) {
            let faults = rng.pick(&BLOCK_FAULTS);
            let faulty = faulty_block(rng, faults, false);
            same(seed, String::new, proved.add(&faulty), line.add(&faulty));
            same(seed, String::new, proved.add(&block), line.add(&block));
            compare_held(seed, &proved, &line, side);
        }
        for _ in 0..=PLACES {
            same(seed, String::new, proved.take(), line.take());
            compare_held(seed, &proved, &line, side);
        }
    });
    report(2 * 131 * 67, "plans shown in lists of 0 to 66 numbers");
}

/// Limits that pass, that are refused, and noise, as many bytes as are lent.
fn some_bytes(rng: &mut Rng, pack: impl Fn(&mut Rng) -> Vec<u8>, length: usize) -> Vec<u8> {
    let mut bytes = match rng.below(4) {
        0 => Vec::new(),
        _ => pack(rng),
    };
    bytes.extend((0..length).map(|_| rng.word() as u8));
    bytes.truncate(length);
    bytes
}

/// Limits that pass, and such that do not.
fn some_limits(rng: &mut Rng) -> Limits {
    match rng.below(3) {
        0 => faulty_limits(rng),
        _ => limits(rng),
    }
}

/// A block that passes, and one that does not.
fn some_block(rng: &mut Rng) -> Block {
    let faults = rng.pick(&BLOCK_FAULTS);
    match rng.below(3) {
        0 => faulty_block(rng, faults, false),
        _ => block(rng),
    }
}

/// Limits and records read and written in 0 to 64 bytes.
#[test]
fn readers_and_writers_stay_in_their_bytes() {
    at_both_sides(|seed, rng, side| {
        for length in (0..=64).cycle().take(65 * 12) {
            let input = |bytes: &[u8]| format!("{side:?} {}", hex(bytes));
            let bytes = some_bytes(rng, |rng| pack_limits(&some_limits(rng), 0), length);
            let (found, known) = (proved::read_limits(&bytes), tape::read_limits(&bytes));
            same(seed, || input(&bytes), found, known);
            let bytes = some_bytes(rng, |rng| pack_record(&some_block(rng)), length);
            let (found, known) = (proved::read_record(&bytes), tape::read_record(&bytes));
            same(seed, || input(&bytes), found, known);
            let (limits, block) = (some_limits(rng), some_block(rng));
            let (mut part, mut expected) = (bytes.clone(), bytes.clone());
            let found = proved::write_limits(&limits, &mut part);
            let known = tape::write_limits(&limits, &mut expected);
            same(seed, || input(&bytes), (found, &part), (known, &expected));
            let found = proved::write_record(&block, &mut part);
            let known = tape::write_record(&block, &mut expected);
            same(seed, || input(&bytes), (found, part), (known, expected));
        }
    });
    report(2 * 4 * 65 * 12, "parts of a tape of 0 to 64 bytes");
}

/// Tapes of each length in bytes up to some records, and lists of 0 to 14
/// numbers.
#[test]
fn a_tape_of_each_length_stays_in_its_bytes_and_list() {
    at_both_sides(|seed, rng, side| {
        let limits = limits(rng);
        let blocks = path(rng, 12);
        let whole = Tape { limits, blocks }.pack();
        for (length, n) in (0..=whole.len()).flat_map(|length| (0..=14).map(move |n| (length, n))) {
            let (bytes, steps) = (&whole[..length], some_steps(rng));
            let (mut plan, mut expected) = (vec![77; n], vec![77; n]);
            let found = proved::plan_tape(bytes, &steps, &mut plan);
            let known = tape::plan_tape(bytes, &steps, &mut expected);
            let input = || format!("{side:?} {} under {} in {n}", hex(bytes), hex(&steps));
            same(seed, input, (found, plan), (known, expected));
        }
    });
    report(
        2 * 217 * 15,
        "tapes of 0 to 216 bytes in lists of 0 to 14 numbers",
    );
}

/// Whole tapes of 0 to 2,048 records, and what is one too long.
#[test]
fn a_tape_of_each_number_of_records_stays_in_its_bytes_and_list() {
    at_both_sides(|seed, rng, side| {
        let limits = limits(rng);
        let blocks = path(rng, MOST_BLOCKS + 1);
        let whole = Tape {
            limits,
            blocks: blocks.clone(),
        }
        .pack();
        for records in 0..=MOST_BLOCKS {
            let steps = steps(rng);
            let machine = Machine::of(&limits, &steps).expect("limits and steps that pass");
            let mut plan = vec![77; records + 1];
            let bytes = &whole[..LIMITS_BYTES + 16 * records];
            let found = proved::plan_tape(bytes, &steps, &mut plan);
            let known = quick::plan_of(&machine, &blocks[..records]);
            let input = || format!("{side:?} {} under {}", hex(bytes), hex(&steps));
            same(seed, input, (found, Some(plan)), (Ok(()), known));
        }
        let many = proved::plan_tape(&whole, &[], &mut [77; 3]);
        let number = many.map_or_else(|fault| fault.refusal.number(), |()| 0);
        assert_eq!(number, 10, "{side:?}");
    });
    report(2 * 2_050, "tapes of 0 to 2049 records");
}

/// Compares a tape under the steps, added to a report of any numbers and told in
/// a list of `n`.
fn compare_reported(seed: u64, rng: &mut Rng, side: Side, (tape, steps): (&[u8], &[u8]), n: usize) {
    let input = || format!("{side:?} {} under {} in {n}", hex(tape), hex(steps));
    let mut numbers = [(); REPORT].map(|_| any_word(rng));
    numbers[0] = rng.spread(0, 101);
    let mut own = Report::of_numbers(&numbers);
    let mut expected = known::Report::of_numbers(numbers);
    same(seed, input, own.add(tape, steps), expected.add(tape, steps));
    same(seed, input, own.numbers(), expected.numbers());
    let (mut list, mut expected) = (vec![77; n], vec![77; n]);
    let found = proved::held_by(tape, steps, &mut list);
    let known = known::held_by(tape, steps, &mut expected);
    same(seed, input, (found, list), (known, expected));
}

/// Tapes of each length in bytes up to some records, added to a report, and what
/// held them in lists of 0 to 12 numbers; then a report made fresh.
#[test]
fn a_reported_tape_of_each_length_stays_in_its_bytes_and_lists() {
    at_both_sides(|seed, rng, side| {
        let (limits, blocks) = tied_path(rng, 11);
        let whole = Tape { limits, blocks }.pack();
        for (length, n) in (0..=whole.len()).flat_map(|length| (0..=12).map(move |n| (length, n))) {
            let steps = some_steps(rng);
            compare_reported(seed, rng, side, (&whole[..length], &steps), n);
        }
        let mut own = Report::of_numbers(&[(); REPORT].map(|_| any_word(rng)));
        own.freshen();
        assert_eq!(own.numbers(), [0; REPORT], "{side:?}");
    });
    report(
        2 * (201 * 13 + 1),
        "reports of tapes of 0 to 200 bytes in lists of 0 to 12 numbers",
    );
}

/// Whole tapes of 0 to 2,048 records, many of them, and what is one too long.
#[test]
fn a_reported_tape_of_many_records_stays_in_its_bytes_and_lists() {
    let counts = || {
        (0..100)
            .chain((100..MOST_BLOCKS).step_by(37))
            .chain([2_047, 2_048])
    };
    at_both_sides(|seed, rng, side| {
        let (limits, blocks) = tied_path(rng, MOST_BLOCKS + 1);
        let whole = Tape {
            limits,
            blocks: blocks.clone(),
        }
        .pack();
        for records in counts() {
            let steps = steps(rng);
            let machine = Machine::of(&limits, &steps).expect("limits and steps that pass");
            let bytes = &whole[..LIMITS_BYTES + 16 * records];
            let input = || format!("{side:?} {} under {}", hex(bytes), hex(&steps));
            let known = quick::figures_of(&machine, &blocks[..records]);
            let found = Report::fresh().add(bytes, &steps);
            same(seed, input, found.ok(), known);
            let mut list = vec![77; records.saturating_sub(1)];
            let answer = proved::held_by(bytes, &steps, &mut list);
            same(seed, input, answer, Ok(()));
            let count = |by: u64| list.iter().filter(|held| **held == by).count() as u64;
            let four = known.map(|known| [known.feed, known.corner, known.chord, known.reach]);
            same(seed, input, Some([0, 1, 2, 3].map(count)), four);
        }
        let many = Report::fresh().add(&whole, &[]);
        let number = many.map_or_else(|fault| fault.refusal.number(), |_| 0);
        assert_eq!(number, 10, "{side:?}");
    });
    report(
        2 * (counts().count() + 1),
        "reports of tapes of 0 to 2049 records",
    );
}

/// Compares the rows of a tape under the steps in a list of `n` numbers; gives the
/// number on the display.
fn compare_listed(seed: u64, side: Side, (tape, steps): (&[u8], &[u8]), n: usize) -> u64 {
    let input = || format!("{side:?} {} under {} in {n}", hex(tape), hex(steps));
    let (mut rows, mut expected) = (vec![77; n], vec![77; n]);
    let found = proved::list_tape(tape, steps, &mut rows);
    let known = tape_list::list_tape(tape, steps, &mut expected);
    same(seed, input, (found, rows), (known, expected));
    found.map_or_else(|fault| fault.refusal.number(), |()| 0)
}

/// Tapes of each length in bytes up to three records, listed in 0 to 40 numbers.
#[test]
fn a_listed_tape_of_each_length_stays_in_its_bytes_and_rows() {
    at_both_sides(|seed, rng, side| {
        let (limits, blocks) = tied_path(rng, 3);
        let whole = Tape { limits, blocks }.pack();
        for (length, n) in (0..=whole.len()).flat_map(|length| (0..=40).map(move |n| (length, n))) {
            let steps = some_steps(rng);
            compare_listed(seed, side, (&whole[..length], &steps), n);
        }
    });
    report(
        2 * 73 * 41,
        "lists of tapes of 0 to 72 bytes in 0 to 40 numbers",
    );
}

/// Whole tapes of 0 to 2,048 records, many of them, and what is one too long.
#[test]
fn a_listed_tape_of_many_records_stays_in_its_bytes_and_rows() {
    let counts = || {
        (0..100)
            .chain((100..MOST_BLOCKS).step_by(37))
            .chain([2_048])
    };
    at_both_sides(|seed, rng, side| {
        let (limits, blocks) = tied_path(rng, MOST_BLOCKS + 1);
        let whole = Tape { limits, blocks }.pack();
        for records in counts() {
            let (bytes, steps) = (&whole[..LIMITS_BYTES + 16 * records], steps(rng));
            let number = compare_listed(seed, side, (bytes, &steps), LISTED * records);
            assert_eq!(number, 0, "{side:?} {records}");
        }
        let n = LISTED * (MOST_BLOCKS + 1);
        assert_eq!(compare_listed(seed, side, (&whole, &[]), n), 10, "{side:?}");
    });
    report(
        2 * (counts().count() + 1),
        "lists of tapes of 0 to 2049 records",
    );
}

/// Compares a trace under the steps in lists of these lengths.
fn compare_trace(
    seed: u64,
    side: Side,
    (trace, steps): (&[u8], &[u8]),
    [numbers, junctions]: [usize; 2],
) {
    let lists = || (vec![77; numbers], vec![88; junctions]);
    let (mut found, mut known) = (lists(), lists());
    let told = proved::replay(trace, steps, &mut found.0, &mut found.1);
    let expected = traces::replay(trace, steps, &mut known.0, &mut known.1);
    let both = || format!("{} under {}", hex(trace), hex(steps));
    let input = || format!("{side:?} {} in {numbers} {junctions}", both());
    same(seed, input, (told, found), (expected, known));
}

/// Traces of each length in bytes up to some calls, whole traces of 0 to 200
/// calls, and lists of other lengths.
#[test]
fn a_trace_of_each_length_stays_in_its_bytes_and_lists() {
    at_both_sides(|seed, rng, side| {
        let limits = limits(rng);
        let whole = pack_trace(&limits, &calls(rng, 200));
        for length in 0..=LIMITS_BYTES + 8 * CALL_BYTES {
            let (bytes, steps) = (&whole[..length], some_steps(rng));
            compare_trace(seed, side, (bytes, &steps), [rows(bytes), PLAN]);
        }
        for count in 0..=200 {
            let bytes = &whole[..LIMITS_BYTES + CALL_BYTES * count];
            compare_trace(seed, side, (bytes, &steps(rng)), [rows(bytes), PLAN]);
        }
        let bytes = &whole[..LIMITS_BYTES + 3 * CALL_BYTES];
        for numbers in 0..=4 * ROW {
            compare_trace(seed, side, (bytes, &some_steps(rng)), [numbers, PLAN]);
        }
        for junctions in 0..=PLAN + 2 {
            let lengths = [rows(bytes), junctions];
            compare_trace(seed, side, (bytes, &some_steps(rng)), lengths);
        }
    });
    report(2 * (249 + 201 + 61 + 68), "traces in lists of many lengths");
}

/// Texts of each length in bytes up to some lines, and lists of each length up to
/// one byte more than a record beyond what all of them need.
#[test]
fn a_text_of_each_length_stays_in_its_bytes_and_list() {
    let whole = b"F600 X1\nG91Y2.5\n\nG0 Z-1\nG20 X0.1 Y0.1";
    at_both_sides(|seed, _, _| {
        for length in 0..=whole.len() {
            for room in 0..=bytes_of(5) + 1 {
                let _ = compare_text(seed, &whole[..length], room);
            }
        }
    });
    report(
        2 * (whole.len() + 1) * (bytes_of(5) + 2),
        "texts of 0 to 40 bytes in lists of 0 to 81 bytes",
    );
}

/// Texts that end at and near the borders of pages, whose last word is cut there,
/// in lists of no byte, of a byte too few, and as long as they need.
#[test]
fn a_text_that_ends_at_a_page_stays_in_its_bytes_and_list() {
    let whole = [&b"G0"[..], &b"\nX10\nX-1.5".repeat(1_000)].concat();
    let lengths = || [4_096, 8_192].into_iter().flat_map(|n| n - 12..=n + 12);
    at_both_sides(|seed, _, _| {
        for length in lengths() {
            let text = &whole[..length];
            let exact = bytes_of(text_blocks(text).map_or(0, |blocks| blocks.len()));
            for room in [0, exact.saturating_sub(1), exact] {
                let _ = compare_text(seed, text, room);
            }
        }
    });
    report(
        2 * lengths().count() * 3,
        "texts that end near a page's end",
    );
}

/// So many percentages of which none exceeds the one before it: eight pass.
fn falling(rng: &mut Rng, length: usize) -> Vec<u8> {
    let mut steps: Vec<u8> = (0..length).map(|_| rng.within(1, 100) as u8).collect();
    steps.sort_unstable_by(|a, b| b.cmp(a));
    steps
}

/// So many bytes of noise.
fn noise(rng: &mut Rng, length: usize) -> Vec<u8> {
    (0..length).map(|_| rng.word() as u8).collect()
}

/// Steps of 0 to 300 bytes, lent to a fresh planner, with a tape to be planned,
/// reported and listed, and with a trace. An empty list begins, at the one side,
/// where the page begins that cannot be read.
#[test]
fn steps_of_each_length_stay_in_their_bytes() {
    at_both_sides(|seed, rng, side| {
        let (limits, blocks) = (limits(rng), path(rng, 3));
        let trace = pack_trace(&limits, &calls(rng, 5));
        let tape = Tape { limits, blocks }.pack();
        for length in 0..=300 {
            for steps in [falling(rng, length), noise(rng, length)] {
                let input = || format!("{side:?} {limits:?} {}", hex(&steps));
                let known = Line::fresh(&limits, &steps).map(|line| line.told());
                let found = Planner::fresh(&limits, &steps).map(|planner| planner.told());
                same(seed, input, found, known);
                let (mut plan, mut expected) = ([77; 4], [77; 4]);
                let known = tape::plan_tape(&tape, &steps, &mut expected);
                let found = proved::plan_tape(&tape, &steps, &mut plan);
                same(seed, input, (found, plan), (known, expected));
                compare_trace(seed, side, (&trace, &steps), [rows(&trace), PLAN]);
                compare_reported(seed, rng, side, (&tape, &steps), 2);
                compare_listed(seed, side, (&tape, &steps), 3 * LISTED);
            }
        }
    });
    report(2 * 301 * 2 * 6, "calls with 0 to 300 bytes of steps");
}

/// Orders of every sort with takes between, accepted and refused, from a fresh
/// host on used numbers, with its point after each; then points of hosts of any
/// numbers.
#[test]
fn orders_stay_in_their_memory_and_points() {
    at_both_sides(|seed, rng, side| {
        let (limits, steps) = (limits(rng), steps(rng));
        let mut planner = Planner::fresh(&limits, &steps).expect("limits and steps that pass");
        let mut line = Line::fresh(&limits, &steps).expect("limits and steps that pass");
        let mut proved = Host::of_numbers(&any_host(rng));
        proved.freshen();
        assert_eq!(proved.numbers(), [0; HOST], "{side:?}");
        let mut known = host::Host::default();
        for event in events(rng, 3_000) {
            let input = || format!("{side:?} {event:x?}");
            let Some(order) = event.order() else {
                same(seed, input, planner.take(), line.take());
                continue;
            };
            let found = proved.order(&mut planner, &order, &event.offset);
            let expected = known.order(&mut line, &order, &event.offset);
            same(seed, input, found, expected);
            same(seed, input, proved.position(), known.position());
        }
        for _ in 0..1_000 {
            let numbers = any_host(rng);
            let found = Host::of_numbers(&numbers).position();
            let expected = Kept::of_numbers(&numbers).position();
            same(seed, || format!("{side:?} {numbers:x?}"), found, expected);
        }
    });
    report(2 * 4_000, "orders, takes and points of a host");
}
