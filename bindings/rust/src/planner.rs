//! The planner: 64 places, filled by adds and emptied by takes.

use std::fmt;

use crate::block::{Block, Given};
use crate::machine::{Limits, Steps};
use crate::numbers::{GIVEN, MOVES, NUMBERS};
use crate::refusal::Refusal;
use crate::sys;

/// A planner that holds up to [`PLACES`](crate::PLACES) blocks.
///
/// It has its memory inside, 848 numbers (6,784 bytes), and no call but [`Planner::shown`] allocates.
/// Put it in a [`Box`] where it is moved about. A call needs under 1 kB of stack; [`Planner::fresh`] has
/// the new planner there too, in a build without optimisation several times.
///
/// Two planners are equal where their memory is, and then they answer all calls alike. A clone goes on
/// by itself: it is a way to try blocks out.
///
/// ```
/// use fullerecru::{Block, Limits, Planner, Refusal, Steps};
///
/// let limits = Limits {
///     accel_x: 200_000, accel_y: 200_000, accel_z: 200_000, // µm/s²
///     speed_x: 1_000_000, speed_y: 1_000_000, speed_z: 1_000_000, // µm/s
///     corner_jump: 2_000, // µm/s
///     chord_tolerance: 1, // µm
///     tick: 2_000, // µs
/// };
/// let mut planner = Planner::fresh(&limits, &Steps::BuiltIn)?;
/// // 1 mm along X, then 1 mm along Y, at 20 mm/s.
/// planner.add(&Block { x: 1_000, feed: 20_000, mark: 7, ..Block::default() })?;
/// planner.add(&Block { y: 1_000, feed: 20_000, mark: 8, ..Block::default() })?;
/// assert_eq!(planner.told(), 2);
/// assert_eq!(planner.shown(), [0, 2_000_000, 0]); // (µm/s)²
///
/// let first = planner.take()?;
/// assert_eq!((first.block.mark, first.length, first.accel), (7, 1_000, 200_000));
/// assert_eq!((first.entry, first.peak, first.exit), (0, 201_000_000, 2_000_000));
/// assert_eq!((first.up, first.cruise, first.down), (502, 0, 498));
///
/// assert_eq!(planner.take()?.entry, first.exit);
/// assert_eq!(planner.take(), Err(Refusal::Empty));
/// # Ok::<(), Refusal>(())
/// ```
#[derive(Clone, PartialEq, Eq)]
pub struct Planner {
    memory: [u64; NUMBERS],
}

impl Planner {
    /// A fresh planner: no block held, committed speed 0. The limits and torque steps are its own from
    /// here on.
    ///
    /// # Errors
    ///
    /// Refuses by 1 (limits), then 14 (steps).
    pub fn fresh(limits: &Limits, steps: &Steps<'_>) -> Result<Planner, Refusal> {
        let mut memory = [0; NUMBERS];
        Refusal::judged(sys::fresh(&mut memory, &limits.numbers(), steps.bytes()))?;
        Ok(Planner { memory })
    }

    /// Adds a block behind those held.
    ///
    /// # Errors
    ///
    /// Refuses by 2 (still), 3 (long), 4 (feed), 5 (radius), 6 (mark), 7 (full), in that order, and
    /// then the planner is as it was:
    ///
    /// ```
    /// use fullerecru::{Block, Planner, Refusal};
    ///
    /// fn try_still(planner: &mut Planner) {
    ///     let before = planner.clone();
    ///     let still = Block { feed: 20_000, ..Block::default() };
    ///     assert_eq!(planner.add(&still), Err(Refusal::Still));
    ///     assert_eq!(*planner, before);
    /// }
    /// # use fullerecru::{Limits, Steps};
    /// # let limits = Limits {
    /// #     accel_x: 200_000, accel_y: 200_000, accel_z: 200_000,
    /// #     speed_x: 1_000_000, speed_y: 1_000_000, speed_z: 1_000_000,
    /// #     corner_jump: 2_000, chord_tolerance: 1, tick: 2_000,
    /// # };
    /// # try_still(&mut Planner::fresh(&limits, &Steps::BuiltIn)?);
    /// # Ok::<(), Refusal>(())
    /// ```
    pub fn add(&mut self, block: &Block) -> Result<(), Refusal> {
        let moves = block.moves();
        let number = sys::add(
            &mut self.memory,
            moves,
            block.feed,
            block.radius,
            block.mark,
        );
        Refusal::judged(number)
    }

    /// Takes the first block out. The speed at its end becomes the committed one: every later plan
    /// begins with it.
    ///
    /// # Errors
    ///
    /// Refuses by 8 (empty) where no block is held.
    pub fn take(&mut self) -> Result<Given, Refusal> {
        let (mut moves, mut numbers) = ([0; MOVES], [0; GIVEN]);
        Refusal::judged(sys::take(&mut self.memory, &mut moves, &mut numbers))?;
        Ok(Given::of(moves, &numbers))
    }

    /// How many blocks are held, 0 to 64.
    pub fn told(&self) -> usize {
        sys::told(&self.memory) as usize
    }

    /// The plan: the squared speed, (µm/s)², at each junction of the blocks held, from the committed
    /// one at the first to 0 at the last. It has one number more than there are blocks, and is worked out
    /// at each call.
    pub fn shown(&self) -> Vec<u64> {
        let mut list = vec![0; self.told() + 1];
        let number = sys::shown(&self.memory, &mut list);
        debug_assert_eq!(number, 0, "the list has the size that it must have");
        list
    }

    /// Writes the plan, as [`Planner::shown`] gives it, into a lent list of exactly
    /// [`told`](Planner::told) + 1 numbers.
    ///
    /// # Errors
    ///
    /// Refuses by 11 (list) where the list has another size, and writes nothing then.
    ///
    /// ```
    /// use fullerecru::{Planner, Refusal, PLACES};
    ///
    /// /// Squared speed at the end of the first block, (µm/s)², without an allocation.
    /// fn first_exit(planner: &Planner) -> Result<u64, Refusal> {
    ///     let mut list = [0; PLACES + 1];
    ///     let junctions = planner.told() + 1;
    ///     planner.shown_into(&mut list[..junctions])?;
    ///     Ok(list[1])
    /// }
    /// # use fullerecru::{Block, Limits, Steps};
    /// # let limits = Limits {
    /// #     accel_x: 200_000, accel_y: 200_000, accel_z: 200_000,
    /// #     speed_x: 1_000_000, speed_y: 1_000_000, speed_z: 1_000_000,
    /// #     corner_jump: 2_000, chord_tolerance: 1, tick: 2_000,
    /// # };
    /// # let mut planner = Planner::fresh(&limits, &Steps::BuiltIn)?;
    /// # planner.add(&Block { x: 1_000, feed: 20_000, ..Block::default() })?;
    /// # planner.add(&Block { y: 1_000, feed: 20_000, ..Block::default() })?;
    /// # assert_eq!(first_exit(&planner)?, 2_000_000);
    /// # Ok::<(), Refusal>(())
    /// ```
    pub fn shown_into(&self, list: &mut [u64]) -> Result<(), Refusal> {
        Refusal::judged(sys::shown(&self.memory, list))
    }

    /// The memory, for the orders of a host.
    pub(crate) fn memory(&mut self) -> &mut [u64; NUMBERS] {
        &mut self.memory
    }
}

impl fmt::Debug for Planner {
    /// The plan of the blocks held, not the memory.
    fn fmt(&self, formatter: &mut fmt::Formatter<'_>) -> fmt::Result {
        formatter
            .debug_struct("Planner")
            .field("told", &self.told())
            .field("shown", &self.shown())
            .finish_non_exhaustive()
    }
}
