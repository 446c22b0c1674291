//! The calls of libfullerecru.a. Each lends copies between guards, and sees
//! that what is lent to be read stays as it was, and after a refusal every
//! lent number and byte. The root and the version are lent nothing. `host` has a
//! host's orders, `reports` what held tapes back.

mod host;
mod reports;

use std::cell::Cell;
use std::fmt::Debug;

use reference::line::LookAhead;
use reference::machine::{Block, Given, Limits};
use reference::refusal::{Fault, Refusal};
use reference::rng::Rng;

use crate::guarded::Guarded;
use crate::library::*;
use crate::words::{answer_of, given_of, limit_words, limits_of};
pub use host::Host;
pub use reports::{held_by, Report};

/// What the guards beside lent numbers and bytes hold.
const GUARD: u64 = 0x5eed_0000_dead_5eed;
const BYTE_GUARD: u8 = 0xc3;

thread_local! {
    /// What lent numbers that a call may write hold before it.
    static FILLER: Cell<u64> = const { Cell::new(0xa5a5_5a5a_0ff0_f00f) };
}

/// Has the lists that this thread lends from now on hold what a seed says: an
/// end of the numbers, or noise.
pub fn fill_with(seed: u64) {
    let mut rng = Rng::new(!seed);
    let noise = rng.word();
    FILLER.set(rng.pick(&[0, 1, u64::MAX, noise, noise]));
}

/// A lent list of `count` numbers.
fn numbers(count: usize) -> Guarded<u64> {
    Guarded::new(&vec![FILLER.get(); count], GUARD)
}

/// A lent list of three moves.
fn three_moves() -> Guarded<i64> {
    Guarded::new(&[FILLER.get() as i64; MOVES], GUARD as i64)
}

/// Sees that the guards stand and that a refused call changed nothing.
fn confirm<T: Copy + PartialEq + Debug>(number: u64, before: &[T], after: &Guarded<T>) {
    after.confirm();
    if number != 0 {
        assert!(after.list() == before, "refused by {number}, yet it wrote");
    }
}

/// The version that the library says it has.
pub fn version() -> u64 {
    unsafe { fullerecru_version() }
}

/// The root of a number, from libarith_c.a.
pub fn root(n: u64) -> u64 {
    unsafe { arith_root(n) }
}

/// Limits read from the bytes.
pub fn read_limits(bytes: &[u8]) -> Result<Limits, Refusal> {
    let mut source = Guarded::new(bytes, BYTE_GUARD);
    let mut limits = numbers(LIMITS);
    let before = limits.list().to_vec();
    let number = unsafe { fullerecru_read_limits(source.lend(), bytes.len(), limits.lend()) };
    source.confirm_only_read(bytes);
    confirm(number, &before, &limits);
    answer_of(number).map(|()| limits_of(limits.list()))
}

/// Limits written into the bytes.
pub fn write_limits(limits: &Limits, bytes: &mut [u8]) -> Result<(), Refusal> {
    let mut part = Guarded::new(bytes, BYTE_GUARD);
    let words = limit_words(limits);
    let mut source = Guarded::new(&words, GUARD);
    let number = unsafe { fullerecru_write_limits(source.lend(), part.lend(), bytes.len()) };
    source.confirm_only_read(&words);
    confirm(number, bytes, &part);
    bytes.copy_from_slice(part.list());
    answer_of(number)
}

/// A record read from the bytes.
pub fn read_record(bytes: &[u8]) -> Result<Block, Refusal> {
    let mut source = Guarded::new(bytes, BYTE_GUARD);
    let (mut moves, mut rest) = (three_moves(), numbers(RECORD));
    let before = (moves.list().to_vec(), rest.list().to_vec());
    let count = bytes.len();
    let number = unsafe { fullerecru_read_record(source.lend(), count, moves.lend(), rest.lend()) };
    source.confirm_only_read(bytes);
    confirm(number, &before.0, &moves);
    confirm(number, &before.1, &rest);
    answer_of(number)?;
    Ok(Block {
        moves: [0, 1, 2].map(|axis| moves.list()[axis]),
        feed: rest.list()[0],
        radius: rest.list()[1],
        mark: rest.list()[2],
    })
}

/// A record written into the bytes.
pub fn write_record(block: &Block, bytes: &mut [u8]) -> Result<(), Refusal> {
    let mut part = Guarded::new(bytes, BYTE_GUARD);
    let [x, y, z] = block.moves;
    let Block {
        feed, radius, mark, ..
    } = *block;
    let count = bytes.len();
    let number =
        unsafe { fullerecru_write_record(x, y, z, feed, radius, mark, part.lend(), count) };
    confirm(number, bytes, &part);
    bytes.copy_from_slice(part.list());
    answer_of(number)
}

/// A call of the library on a tape, torque steps, a list and a place.
type OnTape =
    unsafe extern "C" fn(*const u8, usize, *const u8, usize, *mut u64, usize, *mut u64) -> u64;

/// Such a call under loaded torque steps, none if the list of them is empty; what
/// it leaves in the list. The place is written by every call.
fn on_tape(call: OnTape, tape: &[u8], steps: &[u8], list: &mut [u64]) -> Result<(), Fault> {
    let mut source = Guarded::new(tape, BYTE_GUARD);
    let mut loaded = Guarded::new(steps, BYTE_GUARD);
    let mut lent = Guarded::new(list, GUARD);
    let mut place = numbers(1);
    let number = unsafe {
        call(
            source.lend(),
            tape.len(),
            loaded.lend(),
            steps.len(),
            lent.lend(),
            list.len(),
            place.lend(),
        )
    };
    source.confirm_only_read(tape);
    loaded.confirm_only_read(steps);
    confirm(number, list, &lent);
    list.copy_from_slice(lent.list());
    answer_at(number, &place)
}

/// What a number on the display says with the place that was written, which is 0
/// where nothing is at fault.
fn answer_at(number: u64, place: &Guarded<u64>) -> Result<(), Fault> {
    place.confirm();
    let place = place.list()[0];
    answer_of(number).map_err(|refusal| Fault { refusal, place })?;
    assert_eq!(place, 0, "an accepted tape has no place at fault");
    Ok(())
}

/// The plan of a whole tape in the list.
pub fn plan_tape(tape: &[u8], steps: &[u8], list: &mut [u64]) -> Result<(), Fault> {
    on_tape(fullerecru_plan_tape, tape, steps, list)
}

/// The rows of a whole tape's blocks in the list.
pub fn list_tape(tape: &[u8], steps: &[u8], rows: &mut [u64]) -> Result<(), Fault> {
    on_tape(fullerecru_list_tape, tape, steps, rows)
}

/// A trace run under loaded torque steps, none if the list of them is empty:
/// rows in `answers`, plan in `plan`; gives the number told.
pub fn replay(
    trace: &[u8],
    steps: &[u8],
    answers: &mut [u64],
    plan: &mut [u64],
) -> Result<u64, Refusal> {
    let mut source = Guarded::new(trace, BYTE_GUARD);
    let mut loaded = Guarded::new(steps, BYTE_GUARD);
    let mut rows = Guarded::new(answers, GUARD);
    let mut shown = Guarded::new(plan, GUARD);
    let mut told = numbers(1);
    let before = told.list().to_vec();
    let number = unsafe {
        fullerecru_replay(
            source.lend(),
            trace.len(),
            loaded.lend(),
            steps.len(),
            rows.lend(),
            answers.len(),
            shown.lend(),
            plan.len(),
            told.lend(),
        )
    };
    source.confirm_only_read(trace);
    loaded.confirm_only_read(steps);
    confirm(number, answers, &rows);
    confirm(number, plan, &shown);
    confirm(number, &before, &told);
    answers.copy_from_slice(rows.list());
    plan.copy_from_slice(shown.list());
    answer_of(number).map(|()| told.list()[0])
}

/// The blocks of a text as records from the first of the bytes; gives their
/// number. The place is written by every call, the number only by one that is
/// accepted.
pub fn text_records(text: &[u8], records: &mut [u8]) -> Result<usize, Fault> {
    let mut source = Guarded::new(text, BYTE_GUARD);
    let mut lent = Guarded::new(records, BYTE_GUARD);
    let (mut blocks, mut place) = (numbers(1), numbers(1));
    let before = blocks.list().to_vec();
    let number = unsafe {
        fullerecru_text(
            source.lend(),
            text.len(),
            lent.lend(),
            records.len(),
            blocks.lend(),
            place.lend(),
        )
    };
    source.confirm_only_read(text);
    confirm(number, records, &lent);
    confirm(number, &before, &blocks);
    place.confirm();
    records.copy_from_slice(lent.list());
    let place = place.list()[0];
    answer_of(number).map_err(|refusal| Fault { refusal, place })?;
    assert_eq!(place, 0, "an accepted text has no line at fault");
    Ok(blocks.list()[0] as usize)
}

/// A planner on lent memory.
#[derive(Clone)]
pub struct Planner {
    memory: Guarded<u64>,
}

impl Planner {
    /// A planner on memory that no call has made.
    pub fn of_memory(memory: &[u64; NUMBERS]) -> Planner {
        Planner {
            memory: Guarded::new(memory, GUARD),
        }
    }

    /// The numbers of its memory.
    pub fn memory(&self) -> &[u64] {
        self.memory.list()
    }

    /// A fresh planner with loaded torque steps, none if the list of them is
    /// empty, on the memory, whatever it holds.
    pub fn freshen(&mut self, limits: &Limits, steps: &[u8]) -> Result<(), Refusal> {
        let words = limit_words(limits);
        let mut source = Guarded::new(&words, GUARD);
        let mut loaded = Guarded::new(steps, BYTE_GUARD);
        let (lent, bytes, count) = (source.lend(), loaded.lend(), steps.len());
        let number = self.call(|memory| unsafe { fullerecru_fresh(memory, lent, bytes, count) });
        source.confirm_only_read(&words);
        loaded.confirm_only_read(steps);
        answer_of(number)
    }

    /// Runs a call that may write the memory.
    fn call(&mut self, run: impl FnOnce(*mut u64) -> u64) -> u64 {
        let before = self.memory.list().to_vec();
        let number = run(self.memory.lend());
        confirm(number, &before, &self.memory);
        number
    }

    /// Runs a call that reads the memory: it is lent a copy, which must stay
    /// as it was.
    fn call_to_read(&self, run: impl FnOnce(*const u64) -> u64) -> u64 {
        let mut copy = self.memory.clone();
        let number = run(copy.lend());
        copy.confirm_only_read(self.memory.list());
        number
    }
}

impl LookAhead for Planner {
    fn fresh(limits: &Limits, steps: &[u8]) -> Result<Planner, Refusal> {
        let mut planner = Planner::of_memory(&[FILLER.get(); NUMBERS]);
        planner.freshen(limits, steps).map(|()| planner)
    }

    fn add(&mut self, block: &Block) -> Result<(), Refusal> {
        let [x, y, z] = block.moves;
        let Block {
            feed, radius, mark, ..
        } = *block;
        answer_of(
            self.call(|memory| unsafe { fullerecru_add(memory, x, y, z, feed, radius, mark) }),
        )
    }

    fn take(&mut self) -> Result<Given, Refusal> {
        let (mut moves, mut rest) = (three_moves(), numbers(GIVEN));
        let before = (moves.list().to_vec(), rest.list().to_vec());
        let (lent, others) = (moves.lend(), rest.lend());
        let number = self.call(|memory| unsafe { fullerecru_take(memory, lent, others) });
        confirm(number, &before.0, &moves);
        confirm(number, &before.1, &rest);
        answer_of(number).map(|()| given_of(moves.list(), rest.list()))
    }

    fn told(&self) -> usize {
        self.call_to_read(|memory| unsafe { fullerecru_told(memory) }) as usize
    }

    fn shown(&self, list: &mut [u64]) -> Result<(), Refusal> {
        let mut lent = Guarded::new(list, GUARD);
        let (to, count) = (lent.lend(), list.len());
        let number = self.call_to_read(|memory| unsafe { fullerecru_shown(memory, to, count) });
        confirm(number, list, &lent);
        list.copy_from_slice(lent.list());
        answer_of(number)
    }
}
