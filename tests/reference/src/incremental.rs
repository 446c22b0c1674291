//! The planner with 64 places that keeps what a take needs.
//!
//! Each place keeps the greatest squared speed at its end from which the
//! blocks after it can brake to rest. An add walks back from the new end only
//! while such a number changes; a take does no pass over the line.

use crate::line::{LookAhead, PLACES};
use crate::machine::{check_block, Block, Given, Limits, Machine, Numbers};
use crate::quick::{junction_cap, numbers_of, ramp_of};
use crate::refusal::Refusal;

/// A held block with its numbers.
#[derive(Clone, Copy)]
struct Place {
    block: Block,
    numbers: Numbers,
    /// Junction cap at the block's end, 0 at the end of the line, (µm/s)².
    cap: u64,
    /// Greatest squared speed at the block's end by its cap and the blocks
    /// after it, (µm/s)².
    brake: u64,
}

/// A place that holds nothing yet.
const VACANT: Place = Place {
    block: Block {
        moves: [0; 3],
        feed: 0,
        radius: 0,
        mark: 0,
    },
    numbers: Numbers {
        length: 0,
        speed: 0,
        accel: 0,
        reach: 0,
        cap: 0,
    },
    cap: 0,
    brake: 0,
};

/// Planner with a ring of 64 places.
#[derive(Clone)]
pub struct Planner {
    machine: Machine,
    places: [Place; PLACES],
    /// Place of the first block held.
    first: usize,
    /// Number of blocks held.
    held: usize,
    /// Committed squared speed, (µm/s)².
    committed: u64,
}

impl Planner {
    /// The k-th block held, from 0.
    fn place(&self, k: usize) -> &Place {
        &self.places[(self.first + k) % PLACES]
    }

    /// The k-th block held, from 0, to be changed.
    fn place_mut(&mut self, k: usize) -> &mut Place {
        &mut self.places[(self.first + k) % PLACES]
    }

    /// Joins the block held as number `new` to the one before it: sets the
    /// junction cap between them and walks back while a kept number changes.
    fn join(&mut self, new: usize) {
        let (before, after) = (self.place(new - 1), self.place(new));
        let known = (&before.block, &before.numbers);
        let cap = junction_cap(&self.machine.limits, known, (&after.block, &after.numbers));
        self.place_mut(new - 1).cap = cap;
        for k in (0..new).rev() {
            let next = self.place(k + 1);
            let slowed = next.brake + next.numbers.reach;
            let brake = slowed.min(self.place(k).cap);
            if brake == self.place(k).brake {
                break;
            }
            self.place_mut(k).brake = brake;
        }
    }
}

impl LookAhead for Planner {
    fn fresh(limits: &Limits, steps: &[u8]) -> Result<Planner, Refusal> {
        Ok(Planner {
            machine: Machine::of(limits, steps)?,
            places: [VACANT; PLACES],
            first: 0,
            held: 0,
            committed: 0,
        })
    }

    fn add(&mut self, block: &Block) -> Result<(), Refusal> {
        check_block(block)?;
        if self.held == PLACES {
            return Err(Refusal::Full);
        }
        let new = self.held;
        *self.place_mut(new) = Place {
            block: *block,
            numbers: numbers_of(&self.machine, block),
            ..VACANT
        };
        self.held += 1;
        if new > 0 {
            self.join(new);
        }
        Ok(())
    }

    fn take(&mut self) -> Result<Given, Refusal> {
        if self.held == 0 {
            return Err(Refusal::Empty);
        }
        let place = self.place(0);
        let entry = self.committed;
        let exit = place.brake.min(entry + place.numbers.reach);
        let given = Given {
            block: place.block,
            length: place.numbers.length,
            accel: place.numbers.accel,
            entry,
            exit,
            ramp: ramp_of(&place.numbers, entry, exit),
        };
        self.committed = exit;
        self.first = (self.first + 1) % PLACES;
        self.held -= 1;
        Ok(given)
    }

    fn told(&self) -> usize {
        self.held
    }

    fn shown(&self, list: &mut [u64]) -> Result<(), Refusal> {
        if list.len() != self.held + 1 {
            return Err(Refusal::List);
        }
        list[0] = self.committed;
        for k in 0..self.held {
            let place = self.place(k);
            list[k + 1] = place.brake.min(list[k] + place.numbers.reach);
        }
        Ok(())
    }
}
