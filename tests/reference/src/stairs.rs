//! The planner with 64 places that keeps the junctions that can limit.
//!
//! From where a line begins, its greatest squared speed is the least, over its
//! junctions, of cap plus reaches up to there; the end of the line counts with
//! cap 0. A junction can never be that least where one behind it has no greater
//! sum, since the two sums stay as far apart while blocks before them are given
//! out. The others are the stairs. An add drops stairs from the back and puts its
//! junction there; a take looks at the first stair alone.

use crate::line::{LookAhead, PLACES};
use crate::machine::{check_block, Block, Given, Limits, Machine, Numbers};
use crate::quick::{junction_cap, numbers_of, ramp_of};
use crate::refusal::Refusal;

/// A held block with its numbers.
#[derive(Clone, Copy)]
struct Place {
    block: Block,
    numbers: Numbers,
    /// Junction cap where the block begins, (µm/s)²; 0 where no block was held
    /// when it was added.
    junction: u64,
}

/// A place that holds nothing yet.
const VACANT: Place = Place {
    block: Block {
        moves: [0; 3],
        feed: 0,
        radius: 0,
        mark: 0,
    },
    numbers: Numbers {
        length: 0,
        speed: 0,
        accel: 0,
        reach: 0,
        cap: 0,
    },
    junction: 0,
};

/// A junction that can limit, or the end of the line, (µm/s)².
#[derive(Clone, Copy, Debug, PartialEq, Eq)]
struct Stair {
    /// Reaches since the stair before, or since the beginning of the line.
    gap: u64,
    /// Junction cap, 0 at the end of the line.
    cap: u64,
}

/// The stairs of a line in a ring: 63 junctions between 64 blocks and the end,
/// which is always the last of them.
#[derive(Clone)]
struct Stairs {
    ring: [Stair; PLACES],
    /// Entry of the first stair.
    first: usize,
    /// Number of stairs, the end included; 0 where no block is held.
    count: usize,
    /// Total of the line's reaches, (µm/s)².
    total: u64,
}

impl Stairs {
    /// Those of a line without blocks.
    fn none() -> Stairs {
        Stairs {
            ring: [Stair { gap: 0, cap: 0 }; PLACES],
            first: 0,
            count: 0,
            total: 0,
        }
    }

    /// The k-th stair, from 0.
    fn at(&self, k: usize) -> Stair {
        self.ring[(self.first + k) % PLACES]
    }

    /// Puts a stair last.
    fn push(&mut self, stair: Stair) {
        self.ring[(self.first + self.count) % PLACES] = stair;
        self.count += 1;
    }

    /// Drops the last stair and gives it.
    fn pop(&mut self) -> Stair {
        self.count -= 1;
        self.at(self.count)
    }

    /// Puts a block behind the line: its reach, and the end of the line behind it.
    fn add(&mut self, reach: u64) {
        self.push(Stair { gap: reach, cap: 0 });
        self.total += reach;
    }

    /// Makes the end of the line a junction with a cap. `seen` is the greatest
    /// squared speed at the stair before from which that cap can be kept: a stair
    /// whose own cap is no less can never limit.
    fn join(&mut self, cap: u64) {
        let mut seen = self.pop().gap + cap;
        while self.count > 0 && seen <= self.at(self.count - 1).cap {
            seen += self.pop().gap;
        }
        self.push(Stair {
            gap: seen - cap,
            cap,
        });
    }

    /// Greatest squared speed where the line begins from which it can brake.
    fn bound(&self) -> u64 {
        let first = self.at(0);
        self.total.min(first.gap + first.cap)
    }

    /// Takes the first block, whose reach is handed in, out of the line. A stair
    /// at its end is then where the line begins, and cannot limit what comes.
    fn take(&mut self, reach: u64) {
        self.total -= reach;
        let first = &mut self.ring[self.first];
        first.gap -= reach;
        if first.gap == 0 {
            self.first = (self.first + 1) % PLACES;
            self.count -= 1;
        }
    }
}

/// Planner with a ring of 64 places.
#[derive(Clone)]
pub struct Planner {
    machine: Machine,
    places: [Place; PLACES],
    /// Place of the first block held.
    first: usize,
    /// Number of blocks held.
    held: usize,
    /// Committed squared speed, (µm/s)².
    committed: u64,
    stairs: Stairs,
}

impl Planner {
    /// The k-th block held, from 0.
    fn place(&self, k: usize) -> &Place {
        &self.places[(self.first + k) % PLACES]
    }

    /// Cap of the junction between the last block held and a new one, (µm/s)².
    fn new_junction(&self, block: &Block, numbers: &Numbers) -> u64 {
        let last = self.place(self.held - 1);
        let known = (&last.block, &last.numbers);
        junction_cap(&self.machine.limits, known, (block, numbers))
    }
}

impl LookAhead for Planner {
    fn fresh(limits: &Limits, steps: &[u8]) -> Result<Planner, Refusal> {
        Ok(Planner {
            machine: Machine::of(limits, steps)?,
            places: [VACANT; PLACES],
            first: 0,
            held: 0,
            committed: 0,
            stairs: Stairs::none(),
        })
    }

    fn add(&mut self, block: &Block) -> Result<(), Refusal> {
        check_block(block)?;
        if self.held == PLACES {
            return Err(Refusal::Full);
        }
        let numbers = numbers_of(&self.machine, block);
        let mut junction = 0;
        if self.held > 0 {
            junction = self.new_junction(block, &numbers);
            self.stairs.join(junction);
        }
        self.stairs.add(numbers.reach);
        self.places[(self.first + self.held) % PLACES] = Place {
            block: *block,
            numbers,
            junction,
        };
        self.held += 1;
        Ok(())
    }

    fn take(&mut self) -> Result<Given, Refusal> {
        if self.held == 0 {
            return Err(Refusal::Empty);
        }
        let Place { block, numbers, .. } = *self.place(0);
        let entry = self.committed;
        let slowed = self.stairs.bound() - numbers.reach;
        let exit = slowed.min(entry + numbers.reach);
        self.stairs.take(numbers.reach);
        self.committed = exit;
        self.first = (self.first + 1) % PLACES;
        self.held -= 1;
        Ok(Given {
            block,
            length: numbers.length,
            accel: numbers.accel,
            entry,
            exit,
            ramp: ramp_of(&numbers, entry, exit),
        })
    }

    fn told(&self) -> usize {
        self.held
    }

    /// By the two passes over the line, in the lent list.
    fn shown(&self, list: &mut [u64]) -> Result<(), Refusal> {
        if list.len() != self.held + 1 {
            return Err(Refusal::List);
        }
        list[self.held] = 0;
        for k in (1..self.held).rev() {
            let place = self.place(k);
            list[k] = place.junction.min(list[k + 1] + place.numbers.reach);
        }
        list[0] = self.committed;
        for k in 0..self.held {
            let gained = list[k] + self.place(k).numbers.reach;
            list[k + 1] = list[k + 1].min(gained);
        }
        Ok(())
    }
}

#[cfg(test)]
mod tests {
    use super::*;
    use crate::plan::{highest, Course};

    /// The stairs of a line of blocks, each a reach and the junction cap where it
    /// begins; the first block's plays no part.
    fn stairs_of(line: &[(u64, u64)]) -> Stairs {
        let mut stairs = Stairs::none();
        for (reach, cap) in line {
            if stairs.count > 0 {
                stairs.join(*cap);
            }
            stairs.add(*reach);
        }
        stairs
    }

    /// Gap and cap of each stair.
    fn listed(stairs: &Stairs) -> Vec<(u64, u64)> {
        let pair = |k| (stairs.at(k).gap, stairs.at(k).cap);
        (0..stairs.count).map(pair).collect()
    }

    /// Greatest squared speed where a line begins, (µm/s)², by the whole plan: the
    /// backward pass of a line before which a block can gain anything.
    fn by_the_plan(line: &[(u64, u64)]) -> u64 {
        let far = 1 << 40;
        let mut caps: Vec<u64> = line.iter().map(|(_, cap)| *cap).collect();
        caps[0] = far;
        let reaches = [far]
            .into_iter()
            .chain(line.iter().map(|(reach, _)| *reach));
        let course = Course {
            committed: 0,
            caps,
            reaches: reaches.collect(),
        };
        highest(&course).expect("a plan from rest")[1]
    }

    /// A junction goes where one behind it is at most as high from there, and
    /// stays where that is higher by 1; one add may drop all.
    #[test]
    fn a_stair_goes_where_it_can_never_limit() {
        let two = |cap| listed(&stairs_of(&[(10, 0), (10, 25), (10, cap)]));
        assert_eq!(two(16), [(10, 25), (10, 16), (10, 0)]);
        assert_eq!(two(15), [(20, 15), (10, 0)]);
        assert_eq!(two(0), [(20, 0), (10, 0)]);
        let four = |cap| {
            let line = [(10, 0), (10, 24), (10, 16), (1, 7), (10, cap)];
            listed(&stairs_of(&line))
        };
        let all = [(10, 24), (10, 16), (10, 7), (1, 7), (10, 0)];
        assert_eq!(four(7), all);
        assert_eq!(four(4), [(10, 24), (21, 4), (10, 0)]);
        assert_eq!(four(3), [(31, 3), (10, 0)]);
    }

    /// The last stair is the end of the line; a stair at which a take arrives goes.
    #[test]
    fn takes_move_the_first_stair() {
        let mut stairs = stairs_of(&[(10, 0), (10, 90), (10, 2), (10, 90)]);
        assert_eq!(listed(&stairs), [(20, 2), (10, 90), (10, 0)]);
        let after = [
            vec![(10, 2), (10, 90), (10, 0)],
            vec![(10, 90), (10, 0)],
            vec![(10, 0)],
            vec![],
        ];
        for (left, total) in after.into_iter().zip([30, 20, 10, 0]) {
            stairs.take(10);
            assert_eq!((listed(&stairs), stairs.total), (left, total));
        }
    }

    /// Every line of one to four blocks with small numbers, after each number of
    /// takes: the first stair and the total say what the whole plan says.
    #[test]
    fn the_first_stair_is_the_bound_of_every_small_line() {
        let mut lines = 0;
        for blocks in 1..=4u32 {
            for code in 0..12u64.pow(blocks) {
                let digit = |place: u32| code / 12u64.pow(place) % 12;
                let pair = |place: u32| (1 + digit(place) % 3, digit(place) / 3 * 2);
                let line: Vec<(u64, u64)> = (0..blocks).map(pair).collect();
                let mut stairs = stairs_of(&line);
                for taken in 0..line.len() {
                    assert_eq!(stairs.bound(), by_the_plan(&line[taken..]), "{line:?}");
                    stairs.take(line[taken].0);
                }
                assert_eq!((stairs.count, stairs.total), (0, 0));
                lines += 1;
            }
        }
        assert_eq!(lines, 12 + 144 + 1_728 + 20_736);
    }
}
