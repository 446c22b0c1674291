//! The texts that `planlist` and `planreplay` write, and the lines that other
//! programs write as these do.

use std::io::{self, Read, Write};

use crate::line::{Line, LookAhead};
use crate::machine::{given, Block, Given, Machine};
use crate::plan::from_rest;
use crate::records::{run_records, Records};
use crate::refusal::{Fault, Refusal};
use crate::tape::read_to_plan;
use crate::trace::{read_call, Call, CALL_BYTES};

/// First line of a listing, without its line feed.
pub const HEADER: &str = "mark length accel entry peak exit up cruise down";

/// Text of `planlist` for a tape under loaded torque steps, none if the list is
/// empty: the listing, or the one refusal line.
pub fn planlist(tape: &[u8], steps: &[u8]) -> String {
    match read_to_plan(tape, steps) {
        Ok((machine, blocks)) => listing(&machine, &blocks),
        Err(fault) => fault_line(&fault),
    }
}

/// Header and one line for each block of an accepted tape, in tape order.
fn listing(machine: &Machine, blocks: &[Block]) -> String {
    let plan = from_rest(machine, blocks);
    let line = |k: usize| given_line(&given(machine, &blocks[k], plan[k], plan[k + 1]));
    let lines: String = (0..blocks.len()).map(line).collect();
    format!("{HEADER}\n{lines}")
}

/// The nine numbers of a block given out: squared speeds in (µm/s)², lengths
/// in µm.
pub fn given_line(given: &Given) -> String {
    let Given { block, ramp, .. } = given;
    format!(
        "{} {} {} {} {} {} {} {} {}\n",
        block.mark,
        given.length,
        given.accel,
        given.entry,
        ramp.peak,
        given.exit,
        ramp.up,
        ramp.cruise,
        ramp.down
    )
}

/// The refusal line with number and place.
pub fn fault_line(fault: &Fault) -> String {
    format!("refused {} at {}\n", fault.refusal.number(), fault.place)
}

/// Text of `planreplay` for a whole trace under loaded torque steps, none if
/// the list is empty, by the line of blocks.
pub fn planreplay(trace: &[u8], steps: &[u8]) -> String {
    planreplay_by::<Line>(trace, steps)
}

/// Text of `planreplay` for a whole trace under loaded steps, by any planner.
pub fn planreplay_by<P: LookAhead>(trace: &[u8], steps: &[u8]) -> String {
    text_of(|text| replay::<P>(&mut { trace }, steps, text))
}

/// Reads a trace of any length and writes a line for each call, then the number
/// held and the plan, or the refusal line alone.
pub fn replay<P: LookAhead>(
    input: &mut impl Read,
    steps: &[u8],
    output: &mut impl Write,
) -> io::Result<()> {
    run_records::<P>(Calls, input, steps, output)
}

/// The calls of a trace. They keep nothing beside the planner.
struct Calls;

impl Records for Calls {
    const BYTES: usize = CALL_BYTES;

    fn answer_line<P: LookAhead>(&mut self, planner: &mut P, record: &[u8]) -> String {
        let call = record.try_into().expect("the bytes of one call");
        answer_line(planner, &read_call(call))
    }

    fn last_lines(&self) -> String {
        String::new()
    }
}

/// Runs one call and gives the line that answers it.
pub fn answer_line<P: LookAhead>(planner: &mut P, call: &Call) -> String {
    match call {
        Call::Take => taken_line(planner),
        Call::Add(block) => added_line(planner.add(block)),
    }
}

/// Takes a block and gives the line that answers it.
pub fn taken_line<P: LookAhead>(planner: &mut P) -> String {
    let answer = planner.take().map(|given| given_line(&given));
    answer.unwrap_or_else(refused_line)
}

/// The line of an add, or of an order that is one.
pub fn added_line(answer: Result<(), Refusal>) -> String {
    answer.map_or_else(refused_line, |()| "added\n".to_string())
}

/// The line of a refused call.
fn refused_line(refusal: Refusal) -> String {
    format!("refused {}\n", refusal.number())
}

/// The two closing lines: number held, and the plan shown.
pub fn closing_lines<P: LookAhead>(planner: &P) -> String {
    let mut plan = vec![0; planner.told() + 1];
    planner.shown(&mut plan).expect("list of the right length");
    let numbers: String = plan.iter().map(|number| format!(" {number}")).collect();
    format!("held {}\nplan{numbers}\n", planner.told())
}

/// What is written into a list of bytes, as text.
pub fn text_of(write: impl FnOnce(&mut Vec<u8>) -> io::Result<()>) -> String {
    let mut text = Vec::new();
    write(&mut text).expect("a list of bytes takes every write");
    String::from_utf8(text).expect("digits, letters and spaces")
}

/// Fills the buffer as far as the input goes; gives the number of bytes read.
pub fn read_most(input: &mut impl Read, buffer: &mut [u8]) -> io::Result<usize> {
    let mut got = 0;
    while got < buffer.len() {
        match input.read(&mut buffer[got..]) {
            Ok(0) => break,
            Ok(more) => got += more,
            Err(error) if error.kind() == io::ErrorKind::Interrupted => {}
            Err(error) => return Err(error),
        }
    }
    Ok(got)
}
