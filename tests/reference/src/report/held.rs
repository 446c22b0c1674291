//! What holds the junction between two blocks: three caps, or the reach of the
//! blocks about it.

use crate::machine::{chord_cap, corner_cap, length_of, speed_of, Block, Limits};

/// What held an inner junction; the discriminant is its number in a list.
#[derive(Clone, Copy, Debug, PartialEq, Eq, PartialOrd, Ord)]
pub enum HeldBy {
    /// The feed of a block, or the speed limit of an axis.
    Feed = 0,
    /// The corner between the two blocks.
    Corner = 1,
    /// The curve that a block is a chord of.
    Chord = 2,
    /// What the blocks before or behind can gain or lose: the plan is below the
    /// junction's cap.
    Reach = 3,
}

impl HeldBy {
    /// Its number in a list: 0 to 3.
    pub fn number(self) -> u64 {
        self as u64
    }
}

/// The three caps of the junction between two checked blocks, (µm/s)².
#[derive(Clone, Copy, Debug, PartialEq, Eq)]
pub struct JunctionCaps {
    /// Smaller squared block speed of the two.
    pub feed: u128,
    /// Corner cap; None where the blocks run straight on.
    pub corner: Option<u128>,
    /// Smaller chord cap of those that the two have; None where neither has a
    /// radius.
    pub chord: Option<u128>,
}

impl JunctionCaps {
    /// The caps between two checked blocks.
    pub fn of(limits: &Limits, before: &Block, after: &Block) -> JunctionCaps {
        let squared = |block| (speed_of(limits, block, length_of(block)) as u128).pow(2);
        let chords = [before, after].map(|block| chord_cap(limits, block));
        JunctionCaps {
            feed: squared(before).min(squared(after)),
            corner: corner_cap(limits, before, after),
            chord: chords.into_iter().flatten().min(),
        }
    }

    /// The junction's cap: the least of the three, as many as there are.
    pub fn least(&self) -> u128 {
        let others = [self.corner, self.chord];
        others.into_iter().flatten().fold(self.feed, u128::min)
    }

    /// True if a plan's squared speed here, (µm/s)², is the cap and the feed's.
    pub fn by_feed(&self, plan: u64) -> bool {
        let p = plan as u128;
        p == self.least() && p == self.feed
    }

    /// True if it is the cap and the corner's, and not the feed's.
    pub fn by_corner(&self, plan: u64) -> bool {
        let p = plan as u128;
        p == self.least() && p != self.feed && Some(p) == self.corner
    }

    /// True if it is the cap and the chord's, and neither the feed's nor the
    /// corner's.
    pub fn by_chord(&self, plan: u64) -> bool {
        let p = plan as u128;
        let by_others = p == self.feed || Some(p) == self.corner;
        p == self.least() && !by_others && Some(p) == self.chord
    }

    /// True if it is not the cap.
    pub fn by_reach(&self, plan: u64) -> bool {
        plan as u128 != self.least()
    }

    /// What held the junction at a plan's squared speed: the first of feed,
    /// corner and chord that equals it where it is the cap, else the reach.
    pub fn held_at(&self, plan: u64) -> HeldBy {
        let p = Some(plan as u128);
        let caps = [
            (HeldBy::Feed, Some(self.feed)),
            (HeldBy::Corner, self.corner),
            (HeldBy::Chord, self.chord),
        ];
        let at_cap = p == Some(self.least());
        let first = caps.into_iter().find(|(_, cap)| at_cap && *cap == p);
        first.map_or(HeldBy::Reach, |(held, _)| held)
    }
}
