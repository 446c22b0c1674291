//! A planner's memory by the promise of its calls: what each answers and leaves
//! in the 848 numbers, whatever these are.
//!
//! It follows the definitions that the promise cites, and not the code in
//! crates/*/src, though it is no independent implementation (docs/DECISIONS.md):
//! crates/line/specs/Ring.antt (what a call answers and leaves),
//! crates/planner/specs/View.antt (where each number stands) and Calls.antt (a
//! fresh planner), crates/profile/specs/Stairs.antt (a stair, and those that stay at
//! an add) and Passes.antt (the two passes), crates/fields/specs/Signed.antt (a move
//! as a word, and of its low 21 bits), for `numbers`
//! crates/machine/specs/Numbers.antt, and for `torque` Torque.antt there.
//! Functions have the definitions' names. The definitions are of whole numbers
//! of any size: sums and products are made in 128 bits here, which none of them
//! passes, but for those of a new stair and of the total, which the definitions cut
//! to a word. Subtraction stops at 0.

mod numbers;
mod torque;

use reference::line::LookAhead;
use reference::machine::{check_block, check_limits, Block, Given, Limits};
use reference::refusal::Refusal;

use crate::library::NUMBERS;
use crate::words::{limit_words, limits_of};
use numbers::{corner_under, numbers_of, ramp_between, Machine, Numbers};
use torque::{steps_refusal, torque_of};

/// Numbers of the head, of each place and of each stair; places, and blocks held
/// at most, and entries for stairs.
pub const HEAD: usize = 16;
pub const PLACE: usize = 11;
pub const STAIR: usize = 2;
pub const MOST_HELD: u64 = 64;

/// Where the stairs begin, behind the places.
pub const STAIRS_FROM: usize = HEAD + PLACE * MOST_HELD as usize;

/// Where the head has the first block's place, the number of blocks held, the
/// committed squared speed, the torque, the first stair's entry, the number of
/// stairs before that of the line's end, and the total of the reaches; the nine
/// limits come first.
pub const FIRST: usize = 9;
pub const COUNT: usize = 10;
pub const COMMITTED: usize = 11;
pub const TORQUE: usize = 12;
pub const FIRST_STAIR: usize = 13;
pub const STAIRS_BEFORE: usize = 14;
pub const TOTAL: usize = 15;

/// Where a place has its numbers; the moves X, Y, Z come first.
const FEED: usize = 3;
const RADIUS: usize = 4;
const LABEL: usize = 5;
pub const LENGTH: usize = 6;
pub const ACCEL: usize = 7;
pub const REACH: usize = 8;
pub const CAP: usize = 9;
pub const JUNCTION: usize = 10;

/// Where a stair has its numbers.
pub const GAP: usize = 0;
pub const STAIR_CAP: usize = 1;

/// Bits of a move, and of a length, that the corner of the last block is worked
/// out from.
const MOVE_BITS: u32 = 21;
const LENGTH_BITS: u32 = 30;

/// A stair: the reaches since the stair before, and the junction cap there.
struct Stair {
    gap: u64,
    cap: u64,
}

/// The stairs that stay where a junction is put behind them, and what it allows at
/// the last of them.
struct Stay {
    count: u64,
    allows: u64,
}

/// What a profile knows of a block: the cap where it begins, and its reach.
struct Span {
    cap: u64,
    reach: u64,
}

/// The numbers of a memory.
#[derive(Clone, Debug, PartialEq, Eq)]
pub struct Ring {
    memory: [u64; NUMBERS],
}

impl Ring {
    /// The ring of a memory.
    pub fn of_memory(memory: &[u64; NUMBERS]) -> Ring {
        Ring { memory: *memory }
    }

    /// The numbers of the memory.
    pub fn memory(&self) -> &[u64; NUMBERS] {
        &self.memory
    }

    /// A fresh planner with loaded torque steps, none if the list of them is
    /// empty, or refusal 1, then 14. The places and the stairs hold what they held.
    pub fn freshen(&mut self, limits: &Limits, steps: &[u8]) -> Result<(), Refusal> {
        check_limits(limits)?;
        steps_refusal(steps)?;
        self.memory[..FIRST].copy_from_slice(&limit_words(limits));
        self.memory[FIRST..HEAD].fill(0);
        self.memory[TORQUE] = torque_of(steps);
        Ok(())
    }

    /// The place of block k of those held.
    fn slot(&self, k: u64) -> usize {
        onward(self.memory[FIRST], k)
    }

    /// A number of block k.
    fn at(&self, k: u64, number: usize) -> u64 {
        self.memory[HEAD + PLACE * self.slot(k) + number]
    }

    /// The machine as it is used: what is left of each limit by 2^32, and the
    /// torque as it is.
    fn cut_machine(&self) -> Machine {
        let words = &self.memory[..FIRST];
        let cut: Vec<u64> = words.iter().map(|word| word % (1 << 32)).collect();
        Machine {
            limits: limits_of(&cut),
            torque: self.memory[TORQUE],
        }
    }

    /// Block k, its moves the words as they stand.
    fn block_in(&self, k: u64) -> Block {
        Block {
            moves: [0, 1, 2].map(|axis| self.at(k, axis) as i64),
            feed: self.at(k, FEED),
            radius: self.at(k, RADIUS),
            mark: self.at(k, LABEL),
        }
    }

    /// Block k as a corner is worked out from it: its moves of their low bits.
    fn cut_block(&self, k: u64) -> Block {
        let block = self.block_in(k);
        Block {
            moves: block.moves.map(signed_of),
            ..block
        }
    }

    /// The numbers of block k.
    fn numbers_in(&self, k: u64) -> Numbers {
        Numbers {
            length: self.at(k, LENGTH),
            accel: self.at(k, ACCEL),
            reach: self.at(k, REACH),
            cap: self.at(k, CAP),
        }
    }

    /// Number of stairs before the line's end, as the memory has it.
    pub fn stairs_before(&self) -> u64 {
        self.memory[STAIRS_BEFORE]
    }

    /// Where stair j stands among the 64.
    fn stair_slot(&self, j: u64) -> usize {
        onward(self.memory[FIRST_STAIR], j)
    }

    /// Where the numbers of stair j begin.
    fn stair_base(&self, j: u64) -> usize {
        STAIRS_FROM + STAIR * self.stair_slot(j)
    }

    /// Stair j, from 0.
    fn stair_at(&self, j: u64) -> Stair {
        let at = self.stair_base(j);
        Stair {
            gap: self.memory[at + GAP],
            cap: self.memory[at + STAIR_CAP],
        }
    }

    fn set_stair(&mut self, j: u64, stair: Stair) {
        let at = self.stair_base(j);
        self.memory[at..at + STAIR].copy_from_slice(&[stair.gap, stair.cap]);
    }

    /// Cap of the junction between the last block held and a new one that passes; 0
    /// where none is held.
    pub fn new_junction(&self, block: &Block) -> u64 {
        if self.memory[COUNT] == 0 {
            return 0;
        }
        let machine = self.cut_machine();
        let numbers = numbers_of(&machine, block);
        let last = self.memory[COUNT] - 1;
        let length = self.at(last, LENGTH) % (1 << LENGTH_BITS);
        let product = length as u128 * numbers.length as u128;
        let cap = self.at(last, CAP).min(numbers.cap);
        let before = self.cut_block(last);
        corner_under(cap, machine.limits.jump, product, &before, block)
    }

    /// Puts a block that passes behind those held, of which there are less than
    /// 64.
    fn put_last(&mut self, block: &Block) {
        let numbers = numbers_of(&self.cut_machine(), block);
        let junction = self.new_junction(block);
        let [x, y, z] = block.moves.map(|m| m as u64);
        let Block {
            feed, radius, mark, ..
        } = *block;
        let Numbers {
            length,
            accel,
            reach,
            cap,
        } = numbers;
        let count = self.memory[COUNT];
        let base = HEAD + PLACE * self.slot(count);
        self.memory[base..base + PLACE].copy_from_slice(&[
            x, y, z, feed, radius, mark, length, accel, reach, cap, junction,
        ]);
        self.memory[COUNT] = count + 1;
        self.climbed(count, junction, reach);
    }

    /// The stairs that stay where a junction with a cap is put behind them: those
    /// that it hides go, from the last on.
    fn stay_in(&self, cap: u64) -> Stay {
        let mut count = self.memory[STAIRS_BEFORE] % MOST_HELD;
        let mut allows = self.stair_at(count).gap.wrapping_add(cap);
        while count > 0 && allows <= self.stair_at(count - 1).cap {
            allows = allows.wrapping_add(self.stair_at(count - 1).gap);
            count -= 1;
        }
        Stay { count, allows }
    }

    /// The line's end behind so many stairs, a reach after the last, and the total.
    fn ended(&mut self, before: u64, reach: u64, total: u64) {
        self.set_stair(before, Stair { gap: reach, cap: 0 });
        self.memory[STAIRS_BEFORE] = before;
        self.memory[TOTAL] = total;
    }

    /// The stairs of a block's junction and of its end behind those that stay; the
    /// first block of a line has its end alone.
    fn climbed(&mut self, held: u64, cap: u64, reach: u64) {
        if held == 0 {
            return self.ended(0, reach, reach);
        }
        let Stay { count, allows } = self.stay_in(cap);
        let gap = allows.saturating_sub(cap);
        self.set_stair(count, Stair { gap, cap });
        self.ended(count + 1, reach, self.memory[TOTAL].wrapping_add(reach));
    }

    /// Greatest squared speed where the line begins from which it can brake.
    fn start_in(&self) -> u64 {
        let Stair { gap, cap } = self.stair_at(0);
        least_sum(gap, cap, self.memory[TOTAL])
    }

    /// Squared speed at the end of the first block.
    fn exit_in(&self) -> u64 {
        let reach = self.at(0, REACH);
        let limit = self.start_in().saturating_sub(reach);
        exit_from(self.memory[COMMITTED], reach, limit)
    }

    /// The stairs without the reach of the first block: the first gap falls by it,
    /// and the first stair goes where nothing is left of its gap.
    fn lowered(&mut self, reach: u64) {
        self.memory[TOTAL] = self.memory[TOTAL].saturating_sub(reach);
        let left = self.stair_at(0).gap.saturating_sub(reach);
        if left == 0 {
            self.memory[FIRST_STAIR] = self.stair_slot(1) as u64;
            self.memory[STAIRS_BEFORE] = self.memory[STAIRS_BEFORE].saturating_sub(1);
        } else {
            let at = self.stair_base(0);
            self.memory[at + GAP] = left;
        }
    }

    /// The first block as it is given out.
    fn given_in(&self) -> Given {
        let entry = self.memory[COMMITTED];
        let exit = self.exit_in();
        let numbers = self.numbers_in(0);
        Given {
            block: self.block_in(0),
            length: numbers.length,
            accel: numbers.accel,
            entry,
            exit,
            ramp: ramp_between(&numbers, entry, exit),
        }
    }

    /// What a profile knows of the blocks held; the first cap is never read.
    fn spans_in(&self) -> Vec<Span> {
        let span = |k| Span {
            cap: if k == 0 { 0 } else { self.at(k, JUNCTION) },
            reach: self.at(k, REACH),
        };
        (0..self.told() as u64).map(span).collect()
    }

    /// The plan: the two passes over the blocks held.
    fn shown_in(&self) -> Vec<u64> {
        forward(self.memory[COMMITTED], &self.spans_in())
    }
}

impl LookAhead for Ring {
    /// A fresh planner on memory of zeros.
    fn fresh(limits: &Limits, steps: &[u8]) -> Result<Ring, Refusal> {
        let mut ring = Ring::of_memory(&[0; NUMBERS]);
        ring.freshen(limits, steps).map(|()| ring)
    }

    /// Puts a block last, or refuses by the first of 2 to 7.
    fn add(&mut self, block: &Block) -> Result<(), Refusal> {
        check_block(block)?;
        if self.memory[COUNT] >= MOST_HELD {
            return Err(Refusal::Full);
        }
        self.put_last(block);
        Ok(())
    }

    /// Gives out the first block, or refuses by 8.
    fn take(&mut self) -> Result<Given, Refusal> {
        if self.memory[COUNT] == 0 {
            return Err(Refusal::Empty);
        }
        let given = self.given_in();
        self.lowered(self.at(0, REACH));
        self.memory[FIRST] = self.slot(1) as u64;
        self.memory[COUNT] -= 1;
        self.memory[COMMITTED] = given.exit;
        Ok(given)
    }

    /// Blocks held, as told.
    fn told(&self) -> usize {
        self.memory[COUNT].min(MOST_HELD) as usize
    }

    /// The plan in a list one longer than that, or refusal 11.
    fn shown(&self, list: &mut [u64]) -> Result<(), Refusal> {
        if list.len() != self.told() + 1 {
            return Err(Refusal::List);
        }
        list.copy_from_slice(&self.shown_in());
        Ok(())
    }
}

/// One step of the backward pass.
fn brake_from(cap: u64, reach: u64, after: u64) -> u64 {
    least_sum(reach, after, cap)
}

/// One step of the forward pass.
fn exit_from(entry: u64, reach: u64, limit: u64) -> u64 {
    least_sum(entry, reach, limit)
}

/// The forward pass, under what the blocks after each can brake from.
fn forward(entry: u64, spans: &[Span]) -> Vec<u64> {
    let mut brakes = vec![0; spans.len() + 1];
    for (k, Span { cap, reach }) in spans.iter().enumerate().rev() {
        brakes[k] = brake_from(*cap, *reach, brakes[k + 1]);
    }
    let mut speeds = vec![entry];
    for (k, span) in spans.iter().enumerate() {
        speeds.push(exit_from(speeds[k], span.reach, brakes[k + 1]));
    }
    speeds
}

/// The smaller of a + b and a cap.
fn least_sum(a: u64, b: u64, cap: u64) -> u64 {
    (a as u128 + b as u128).min(cap as u128) as u64
}

/// The place or the stair's entry that is so many behind another, of 64 that go
/// round.
fn onward(first: u64, behind: u64) -> usize {
    ((first as u128 + behind as u128) % MOST_HELD as u128) as usize
}

/// The integer that the 21 low bits of a word stand for.
fn signed_of(word: i64) -> i64 {
    let low = word.rem_euclid(1 << MOVE_BITS);
    if 2 * low < 1 << MOVE_BITS {
        low
    } else {
        low - (1 << MOVE_BITS)
    }
}
