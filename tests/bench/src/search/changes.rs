//! Small changes of a case.

use std::ops::RangeInclusive;

use reference::generate::{block, limits, steps};
use reference::line::PLACES;
use reference::machine::{range, Block, Limits};
use reference::rng::Rng;

use super::case::{Case, MOST};

impl Case {
    /// A case that is this one but for one to four changes.
    pub fn changed(&self, rng: &mut Rng) -> Case {
        let mut case = self.clone();
        for _ in 0..rng.within(1, 4) {
            case.change(rng);
        }
        case
    }

    /// This case with limits or last blocks of another, half of the time changed
    /// besides.
    pub fn mixed(&self, other: &Case, rng: &mut Rng) -> Case {
        let mut case = self.clone();
        match rng.below(4) {
            0 => case.limits = other.limits,
            1 => {
                let Limits {
                    jump, chord, tick, ..
                } = other.limits;
                case.limits = Limits {
                    jump,
                    chord,
                    tick,
                    ..case.limits
                };
            }
            2 => case.take_last(other, 1),
            _ => case.take_last(other, 2),
        }
        if rng.once_in(2) {
            case.change(rng);
        }
        case
    }

    /// Takes over the last `count` blocks of another, as many as both have.
    fn take_last(&mut self, other: &Case, count: usize) {
        let (own, new) = (self.blocks.iter_mut().rev(), other.blocks.iter().rev());
        own.zip(new).take(count).for_each(|(own, new)| *own = *new);
    }

    fn change(&mut self, rng: &mut Rng) {
        match rng.below(16) {
            0 => self.window = rng.spread(1, PLACES as u64) as usize,
            1 => self.steps = steps(rng),
            2 => self.limits = limits(rng),
            3..=5 => change_limit(rng, &mut self.limits),
            6 => self.change_count(rng),
            7 | 8 => self.level(rng),
            9 => {
                let place = self.place(rng);
                self.blocks[place] = plain(block(rng));
            }
            10 => {
                let feed = rng.spread(*range::FEED.start(), *range::FEED.end());
                self.blocks.iter_mut().for_each(|block| block.feed = feed);
            }
            _ => {
                let place = self.place(rng);
                change_block(rng, &mut self.blocks[place]);
            }
        }
    }

    /// A place among the blocks: the last, which is the add's own, the next to
    /// it, or any.
    fn place(&self, rng: &mut Rng) -> usize {
        let last = self.blocks.len() - 1;
        match rng.below(4) {
            0 | 1 => last,
            2 => last.saturating_sub(1),
            _ => rng.below(last as u64 + 1) as usize,
        }
    }

    /// More or fewer blocks: a first one again, or without it.
    fn change_count(&mut self, rng: &mut Rng) {
        for _ in 0..rng.within(1, 20) {
            if rng.once_in(2) && self.blocks.len() > 1 {
                self.blocks.remove(0);
            } else if self.blocks.len() < MOST {
                self.blocks.insert(0, self.blocks[0]);
            }
        }
    }

    /// A stretch of blocks becomes like one of them.
    fn level(&mut self, rng: &mut Rng) {
        let [a, b] = [(); 2].map(|_| rng.below(self.blocks.len() as u64) as usize);
        let (from, to) = (a.min(b), a.max(b));
        let like = self.blocks[rng.within(from as u64, to as u64) as usize];
        self.blocks[from..=to].fill(like);
    }
}

/// A block without its mark, which nothing hangs on.
fn plain(block: Block) -> Block {
    Block { mark: 0, ..block }
}

/// Another value of one limit.
fn change_limit(rng: &mut Rng, limits: &mut Limits) {
    let axis = rng.below(3) as usize;
    let (field, within) = match rng.below(5) {
        0 => (&mut limits.accel[axis], range::ACCEL),
        1 => (&mut limits.speed[axis], range::SPEED),
        2 => (&mut limits.jump, range::JUMP),
        3 => (&mut limits.chord, range::CHORD),
        _ => (&mut limits.tick, range::TICK),
    };
    *field = another(rng, *field, within);
}

/// Another value of one field of a block, which stays one that moves.
fn change_block(rng: &mut Rng, block: &mut Block) {
    let axis = rng.below(3) as usize;
    match rng.below(6) {
        0 => block.feed = another(rng, block.feed, range::FEED),
        1 => block.radius = another(rng, block.radius, range::RADIUS),
        2 => block.moves[axis] = -block.moves[axis],
        _ => {
            let (sign, size) = (block.moves[axis].signum(), block.moves[axis].unsigned_abs());
            let size = another(rng, size, 0..=*range::MOVE.end() as u64) as i64;
            block.moves[axis] = if sign < 0 { -size } else { size };
        }
    }
    if block.moves == [0; 3] {
        block.moves[axis] = 1;
    }
}

/// Another value within a range: any, or near the old one, its half or its double.
fn another(rng: &mut Rng, value: u64, within: RangeInclusive<u64>) -> u64 {
    let near = |value: u64, rng: &mut Rng| (value + 3).saturating_sub(rng.below(7));
    let found = match rng.below(5) {
        0 => near(value / 2, rng),
        1 => near(2 * value, rng),
        2 => near(value, rng),
        _ => rng.spread(*within.start(), *within.end()),
    };
    found.clamp(*within.start(), *within.end())
}

#[cfg(test)]
mod tests {
    use super::*;
    use reference::machine::{check_block, check_limits, read_steps};

    /// However often a case is mixed and changed, all that it has passes its checks.
    #[test]
    fn changed_cases_pass() {
        let mut rng = Rng::new(2);
        let mut case = Case::drawn(&mut rng);
        for _ in 0..5_000 {
            let other = Case::drawn(&mut rng);
            case = case.mixed(&other, &mut rng).changed(&mut rng);
            assert_eq!(check_limits(&case.limits), Ok(()));
            assert!(read_steps(&case.steps).is_ok());
            assert!(case.blocks.iter().all(|block| check_block(block).is_ok()));
            assert!((1..=MOST).contains(&case.blocks.len()));
            assert!((1..=PLACES).contains(&case.window));
        }
    }
}
