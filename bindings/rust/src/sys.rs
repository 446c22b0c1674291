//! The functions of libfullerecru.a and a thin safe function over each: the only unsafe code.
//!
//! Arrays of a fixed size are declared as references to arrays of that size, so the compiler sees to
//! what the header asks of a pointer: not null, aligned, as many items behind it as are named, and no
//! overlap where one of them is written. A slice's pointer and length are handed over together; that
//! of an empty slice is aligned and not null, and nothing is behind it to read. The library keeps no
//! pointer, answers any numbers, doubles and bytes, and never unwinds. It touches every page of a
//! large frame in turn, so a stack that is too small ends the process at its guard page.

use crate::numbers::{FIGURES, GIVEN, HOST, LIMITS, MOVES, NUMBERS, PLAN, POINT, RECORD, REPORT};

extern "C" {
    fn fullerecru_version() -> u64;
    fn fullerecru_fresh(
        memory: &mut [u64; NUMBERS],
        limits: &[u64; LIMITS],
        steps: *const u8,
        steps_count: usize,
    ) -> u64;
    fn fullerecru_add(
        memory: &mut [u64; NUMBERS],
        x: i64,
        y: i64,
        z: i64,
        feed: u64,
        radius: u64,
        mark: u64,
    ) -> u64;
    fn fullerecru_take(
        memory: &mut [u64; NUMBERS],
        moves: &mut [i64; MOVES],
        numbers: &mut [u64; GIVEN],
    ) -> u64;
    fn fullerecru_told(memory: &[u64; NUMBERS]) -> u64;
    fn fullerecru_shown(memory: &[u64; NUMBERS], list: *mut u64, count: usize) -> u64;
    fn fullerecru_read_limits(bytes: *const u8, count: usize, limits: &mut [u64; LIMITS]) -> u64;
    fn fullerecru_write_limits(limits: &[u64; LIMITS], bytes: *mut u8, count: usize) -> u64;
    fn fullerecru_read_record(
        bytes: *const u8,
        count: usize,
        moves: &mut [i64; MOVES],
        numbers: &mut [u64; RECORD],
    ) -> u64;
    fn fullerecru_write_record(
        x: i64,
        y: i64,
        z: i64,
        feed: u64,
        radius: u64,
        mark: u64,
        bytes: *mut u8,
        count: usize,
    ) -> u64;
    fn fullerecru_plan_tape(
        tape: *const u8,
        count: usize,
        steps: *const u8,
        steps_count: usize,
        list: *mut u64,
        junctions: usize,
        place: &mut [u64; 1],
    ) -> u64;
    fn fullerecru_list_tape(
        tape: *const u8,
        count: usize,
        steps: *const u8,
        steps_count: usize,
        rows: *mut u64,
        numbers: usize,
        place: &mut [u64; 1],
    ) -> u64;
    fn fullerecru_report_fresh(report: &mut [u64; REPORT]);
    fn fullerecru_report_add(
        report: &mut [u64; REPORT],
        tape: *const u8,
        count: usize,
        steps: *const u8,
        steps_count: usize,
        figures: &mut [u64; FIGURES],
        place: &mut [u64; 1],
    ) -> u64;
    fn fullerecru_held_by(
        tape: *const u8,
        count: usize,
        steps: *const u8,
        steps_count: usize,
        list: *mut u64,
        junctions: usize,
        place: &mut [u64; 1],
    ) -> u64;
    fn fullerecru_replay(
        trace: *const u8,
        count: usize,
        steps: *const u8,
        steps_count: usize,
        answers: *mut u64,
        numbers: usize,
        plan: *mut u64,
        junctions: usize,
        told: &mut [u64; 1],
    ) -> u64;
    fn fullerecru_text(
        text: *const u8,
        count: usize,
        records: *mut u8,
        size: usize,
        blocks: &mut [u64; 1],
        place: &mut [u64; 1],
    ) -> u64;
    fn fullerecru_host_fresh(host: &mut [u64; HOST]);
    fn fullerecru_rapid(
        memory: &mut [u64; NUMBERS],
        host: &mut [u64; HOST],
        target: &[f64; POINT],
        offset: &[f64; POINT],
    ) -> u64;
    fn fullerecru_feed(
        memory: &mut [u64; NUMBERS],
        host: &mut [u64; HOST],
        target: &[f64; POINT],
        offset: &[f64; POINT],
        speed: f64,
    ) -> u64;
    fn fullerecru_curve_chord(
        memory: &mut [u64; NUMBERS],
        host: &mut [u64; HOST],
        target: &[f64; POINT],
        offset: &[f64; POINT],
        speed: f64,
        radius: f64,
    ) -> u64;
    fn fullerecru_position(host: &[u64; HOST], point: &mut [f64; POINT]);
}

pub(crate) fn version() -> u64 {
    // SAFETY: nothing is lent.
    unsafe { fullerecru_version() }
}

pub(crate) fn fresh(memory: &mut [u64; NUMBERS], limits: &[u64; LIMITS], steps: &[u8]) -> u64 {
    // SAFETY: the arrays have the header's sizes, and `steps.len()` bytes are behind its pointer.
    unsafe { fullerecru_fresh(memory, limits, steps.as_ptr(), steps.len()) }
}

pub(crate) fn add(
    memory: &mut [u64; NUMBERS],
    [x, y, z]: [i64; MOVES],
    feed: u64,
    radius: u64,
    mark: u64,
) -> u64 {
    // SAFETY: the memory has the header's size, and any numbers are answered.
    unsafe { fullerecru_add(memory, x, y, z, feed, radius, mark) }
}

pub(crate) fn take(
    memory: &mut [u64; NUMBERS],
    moves: &mut [i64; MOVES],
    numbers: &mut [u64; GIVEN],
) -> u64 {
    // SAFETY: the arrays have the header's sizes and are borrowed for this call alone.
    unsafe { fullerecru_take(memory, moves, numbers) }
}

pub(crate) fn told(memory: &[u64; NUMBERS]) -> u64 {
    // SAFETY: the memory has the header's size and is only read.
    unsafe { fullerecru_told(memory) }
}

pub(crate) fn shown(memory: &[u64; NUMBERS], list: &mut [u64]) -> u64 {
    // SAFETY: the memory has the header's size and is only read; `list.len()` numbers are behind
    // the list's pointer, and no more are written.
    unsafe { fullerecru_shown(memory, list.as_mut_ptr(), list.len()) }
}

pub(crate) fn read_limits(bytes: &[u8], limits: &mut [u64; LIMITS]) -> u64 {
    // SAFETY: `bytes.len()` bytes are behind the pointer; the limits have the header's size.
    unsafe { fullerecru_read_limits(bytes.as_ptr(), bytes.len(), limits) }
}

pub(crate) fn write_limits(limits: &[u64; LIMITS], bytes: &mut [u8]) -> u64 {
    // SAFETY: `bytes.len()` bytes are behind the pointer; the limits have the header's size.
    unsafe { fullerecru_write_limits(limits, bytes.as_mut_ptr(), bytes.len()) }
}

pub(crate) fn read_record(
    bytes: &[u8],
    moves: &mut [i64; MOVES],
    numbers: &mut [u64; RECORD],
) -> u64 {
    // SAFETY: `bytes.len()` bytes are behind the pointer; the arrays have the header's sizes.
    unsafe { fullerecru_read_record(bytes.as_ptr(), bytes.len(), moves, numbers) }
}

pub(crate) fn write_record(
    [x, y, z]: [i64; MOVES],
    feed: u64,
    radius: u64,
    mark: u64,
    bytes: &mut [u8],
) -> u64 {
    let (lent, count) = (bytes.as_mut_ptr(), bytes.len());
    // SAFETY: `count` bytes are behind the pointer, and any numbers are answered.
    unsafe { fullerecru_write_record(x, y, z, feed, radius, mark, lent, count) }
}

pub(crate) fn plan_tape(tape: &[u8], steps: &[u8], list: &mut [u64], place: &mut [u64; 1]) -> u64 {
    // SAFETY: each pointer goes with its slice's length, and the place has the header's size.
    unsafe {
        fullerecru_plan_tape(
            tape.as_ptr(),
            tape.len(),
            steps.as_ptr(),
            steps.len(),
            list.as_mut_ptr(),
            list.len(),
            place,
        )
    }
}

pub(crate) fn list_tape(tape: &[u8], steps: &[u8], rows: &mut [u64], place: &mut [u64; 1]) -> u64 {
    // SAFETY: each pointer goes with its slice's length, and the place has the header's size.
    unsafe {
        fullerecru_list_tape(
            tape.as_ptr(),
            tape.len(),
            steps.as_ptr(),
            steps.len(),
            rows.as_mut_ptr(),
            rows.len(),
            place,
        )
    }
}

pub(crate) fn report_fresh(report: &mut [u64; REPORT]) {
    // SAFETY: the report has the header's size.
    unsafe { fullerecru_report_fresh(report) }
}

pub(crate) fn report_add(
    report: &mut [u64; REPORT],
    tape: &[u8],
    steps: &[u8],
    figures: &mut [u64; FIGURES],
    place: &mut [u64; 1],
) -> u64 {
    let (tape_lent, count) = (tape.as_ptr(), tape.len());
    let (steps_lent, steps_count) = (steps.as_ptr(), steps.len());
    // SAFETY: each pointer goes with its slice's length, and the arrays have the header's sizes.
    unsafe {
        fullerecru_report_add(
            report,
            tape_lent,
            count,
            steps_lent,
            steps_count,
            figures,
            place,
        )
    }
}

pub(crate) fn held_by(tape: &[u8], steps: &[u8], list: &mut [u64], place: &mut [u64; 1]) -> u64 {
    // SAFETY: each pointer goes with its slice's length, and the place has the header's size.
    unsafe {
        fullerecru_held_by(
            tape.as_ptr(),
            tape.len(),
            steps.as_ptr(),
            steps.len(),
            list.as_mut_ptr(),
            list.len(),
            place,
        )
    }
}

pub(crate) fn replay(
    trace: &[u8],
    steps: &[u8],
    answers: &mut [u64],
    plan: &mut [u64; PLAN],
    told: &mut [u64; 1],
) -> u64 {
    // SAFETY: each pointer goes with the length of its slice or array, and the number told has the
    // header's size.
    unsafe {
        fullerecru_replay(
            trace.as_ptr(),
            trace.len(),
            steps.as_ptr(),
            steps.len(),
            answers.as_mut_ptr(),
            answers.len(),
            plan.as_mut_ptr(),
            plan.len(),
            told,
        )
    }
}

pub(crate) fn text(
    text: &[u8],
    records: &mut [u8],
    blocks: &mut [u64; 1],
    place: &mut [u64; 1],
) -> u64 {
    let (lent, size) = (records.as_mut_ptr(), records.len());
    // SAFETY: each pointer goes with its slice's length, and the two numbers have the header's size.
    unsafe { fullerecru_text(text.as_ptr(), text.len(), lent, size, blocks, place) }
}

pub(crate) fn host_fresh(host: &mut [u64; HOST]) {
    // SAFETY: the host has the header's size.
    unsafe { fullerecru_host_fresh(host) }
}

pub(crate) fn rapid(
    memory: &mut [u64; NUMBERS],
    host: &mut [u64; HOST],
    target: &[f64; POINT],
    offset: &[f64; POINT],
) -> u64 {
    // SAFETY: the arrays have the header's sizes, and any doubles are answered. That the processor
    // rounds to nearest with exceptions masked is what Rust itself asks of it.
    unsafe { fullerecru_rapid(memory, host, target, offset) }
}

pub(crate) fn feed(
    memory: &mut [u64; NUMBERS],
    host: &mut [u64; HOST],
    target: &[f64; POINT],
    offset: &[f64; POINT],
    speed: f64,
) -> u64 {
    // SAFETY: as for `rapid`.
    unsafe { fullerecru_feed(memory, host, target, offset, speed) }
}

pub(crate) fn curve_chord(
    memory: &mut [u64; NUMBERS],
    host: &mut [u64; HOST],
    target: &[f64; POINT],
    offset: &[f64; POINT],
    speed: f64,
    radius: f64,
) -> u64 {
    // SAFETY: as for `rapid`.
    unsafe { fullerecru_curve_chord(memory, host, target, offset, speed, radius) }
}

pub(crate) fn position(host: &[u64; HOST], point: &mut [f64; POINT]) {
    // SAFETY: the arrays have the header's sizes, and the host is only read.
    unsafe { fullerecru_position(host, point) }
}
