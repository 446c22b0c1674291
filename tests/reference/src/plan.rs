//! Lawful profiles and the plan: the lawful profile that is highest everywhere.

use crate::machine::{junction_cap, Block, Machine, Numbers};

/// What a profile of n blocks must keep to, all in (µm/s)².
#[derive(Clone, Debug, PartialEq, Eq)]
pub struct Course {
    /// Squared speed at junction 0.
    pub committed: u64,
    /// Cap of each junction between two blocks: n − 1 numbers, none if n is 0.
    pub caps: Vec<u64>,
    /// Reach of each block: n numbers.
    pub reaches: Vec<u64>,
}

impl Course {
    /// Course of a line of checked blocks with a committed squared speed.
    pub fn of(machine: &Machine, blocks: &[Block], committed: u64) -> Course {
        let cap = |pair: &[Block]| junction_cap(&machine.limits, &pair[0], &pair[1]);
        let reach = |block: &Block| Numbers::of(machine, block).reach;
        Course {
            committed,
            caps: blocks.windows(2).map(cap).collect(),
            reaches: blocks.iter().map(reach).collect(),
        }
    }

    /// Number of the last junction, which is the number of blocks.
    pub fn last(&self) -> usize {
        self.reaches.len()
    }

    /// Greatest number that junction `i` may have by its own rule alone: the
    /// committed one at 0, zero at the last, its cap between.
    fn own_bound(&self, i: usize) -> u64 {
        if i == self.last() {
            0
        } else if i == 0 {
            self.committed
        } else {
            self.caps[i - 1]
        }
    }
}

/// True if `profile` is lawful on `course`.
pub fn lawful(course: &Course, profile: &[u64]) -> bool {
    let last = course.last();
    profile.len() == last + 1
        && profile[0] == course.committed
        && profile[last] == 0
        && (1..last).all(|i| profile[i] <= course.caps[i - 1])
        && (0..last).all(|k| profile[k].abs_diff(profile[k + 1]) <= course.reaches[k])
}

/// The lawful profile that is highest everywhere, or None if none is lawful.
///
/// The backward pass gives the greatest number at each junction from which
/// the blocks after it can brake; the forward pass from the committed speed
/// keeps what the blocks before it can gain. Every lawful profile is at or
/// below the result at each junction.
pub fn highest(course: &Course) -> Option<Vec<u64>> {
    let brake = backward(course);
    let profile = forward(course, &brake);
    lawful(course, &profile).then_some(profile)
}

/// The plan of checked blocks from rest to rest, (µm/s)².
pub fn from_rest(machine: &Machine, blocks: &[Block]) -> Vec<u64> {
    let course = Course::of(machine, blocks, 0);
    highest(&course).expect("all zeros is lawful from rest to rest")
}

/// Greatest number at each junction with regard to the junctions after it.
fn backward(course: &Course) -> Vec<u64> {
    let mut brake = vec![0; course.last() + 1];
    for i in (0..course.last()).rev() {
        let slowed = brake[i + 1] + course.reaches[i];
        brake[i] = slowed.min(course.own_bound(i));
    }
    brake
}

/// Greatest number at each junction with regard to the junctions before it
/// and to `brake`.
fn forward(course: &Course, brake: &[u64]) -> Vec<u64> {
    let mut profile = vec![course.committed];
    for i in 1..=course.last() {
        let gained = profile[i - 1] + course.reaches[i - 1];
        profile.push(gained.min(brake[i]));
    }
    profile
}

/// The same profile as a least sum: at junction i the least, over every
/// junction j, of j's own bound plus the reaches of the blocks between i and
/// j. Takes a number of steps that grows with the cube of the blocks.
pub fn highest_by_sums(course: &Course) -> Vec<u64> {
    let last = course.last();
    let between = |i: usize, j: usize| course.reaches[i.min(j)..i.max(j)].iter().sum::<u64>();
    let seen_from = |i: usize, j: usize| course.own_bound(j) + between(i, j);
    let least = |i: usize| (0..=last).map(|j| seen_from(i, j)).min().unwrap_or(0);
    (0..=last).map(least).collect()
}

/// Every lawful profile of a tiny course, by trying each number.
pub fn every_lawful(course: &Course) -> Vec<Vec<u64>> {
    let mut found = Vec::new();
    extend(course, &mut vec![course.committed], &mut found);
    found
}

/// Tries each number at the next junction and collects whole lawful profiles.
fn extend(course: &Course, begun: &mut Vec<u64>, found: &mut Vec<Vec<u64>>) {
    let i = begun.len();
    if i > course.last() {
        if lawful(course, begun) {
            found.push(begun.clone());
        }
        return;
    }
    for number in 0..=course.own_bound(i) {
        if number.abs_diff(begun[i - 1]) <= course.reaches[i - 1] {
            begun.push(number);
            extend(course, begun, found);
            begun.pop();
        }
    }
}
