//! The machine: the limits of its axes, and the torque steps of its motors.

use crate::numbers::{
    LIMITS, LIMIT_ACCEL_X, LIMIT_ACCEL_Y, LIMIT_ACCEL_Z, LIMIT_CHORD_TOLERANCE, LIMIT_CORNER_JUMP,
    LIMIT_SPEED_X, LIMIT_SPEED_Y, LIMIT_SPEED_Z, LIMIT_TICK,
};

/// The limits of a machine. The ranges are checked where limits are used, not here.
///
/// The velocity may step by the corner jump at every junction, and many short chords make many such
/// steps: choose it at most acceleration × tick.
///
/// ```
/// use fullerecru::{Limits, Planner, Refusal, Steps};
///
/// let limits = Limits {
///     accel_x: 200_000, accel_y: 200_000, accel_z: 200_000,
///     speed_x: 1_000_000, speed_y: 1_000_000, speed_z: 1_000_000,
///     corner_jump: 2_000, chord_tolerance: 1, tick: 2_000,
/// };
/// assert!(Planner::fresh(&limits, &Steps::BuiltIn).is_ok());
///
/// let slow = Limits { tick: 10_001, ..limits };
/// assert_eq!(Planner::fresh(&slow, &Steps::BuiltIn), Err(Refusal::Limits));
/// ```
#[derive(Clone, Copy, Debug, PartialEq, Eq, Hash)]
pub struct Limits {
    /// Acceleration of X, 1 to 20,000,000 µm/s².
    pub accel_x: u64,
    /// Acceleration of Y, 1 to 20,000,000 µm/s².
    pub accel_y: u64,
    /// Acceleration of Z, 1 to 20,000,000 µm/s².
    pub accel_z: u64,
    /// Speed of X, 1 to 1,000,000 µm/s.
    pub speed_x: u64,
    /// Speed of Y, 1 to 1,000,000 µm/s.
    pub speed_y: u64,
    /// Speed of Z, 1 to 1,000,000 µm/s.
    pub speed_z: u64,
    /// The most by which the velocity may step where two blocks meet, 1 to 1,000,000 µm/s.
    pub corner_jump: u64,
    /// How far the way of one tick may lie from the curve that a block stands for, 1 to 1,000 µm.
    pub chord_tolerance: u64,
    /// The time between two set points of the drive, 100 to 10,000 µs.
    pub tick: u64,
}

impl Limits {
    /// The numbers in the order of the library's lists.
    pub(crate) fn numbers(&self) -> [u64; LIMITS] {
        let mut numbers = [0; LIMITS];
        numbers[LIMIT_ACCEL_X] = self.accel_x;
        numbers[LIMIT_ACCEL_Y] = self.accel_y;
        numbers[LIMIT_ACCEL_Z] = self.accel_z;
        numbers[LIMIT_SPEED_X] = self.speed_x;
        numbers[LIMIT_SPEED_Y] = self.speed_y;
        numbers[LIMIT_SPEED_Z] = self.speed_z;
        numbers[LIMIT_CORNER_JUMP] = self.corner_jump;
        numbers[LIMIT_CHORD_TOLERANCE] = self.chord_tolerance;
        numbers[LIMIT_TICK] = self.tick;
        numbers
    }

    /// The limits of a list of the library's.
    pub(crate) fn of(numbers: &[u64; LIMITS]) -> Limits {
        Limits {
            accel_x: numbers[LIMIT_ACCEL_X],
            accel_y: numbers[LIMIT_ACCEL_Y],
            accel_z: numbers[LIMIT_ACCEL_Z],
            speed_x: numbers[LIMIT_SPEED_X],
            speed_y: numbers[LIMIT_SPEED_Y],
            speed_z: numbers[LIMIT_SPEED_Z],
            corner_jump: numbers[LIMIT_CORNER_JUMP],
            chord_tolerance: numbers[LIMIT_CHORD_TOLERANCE],
            tick: numbers[LIMIT_TICK],
        }
    }
}

/// The torque steps of the motors: the percent of the acceleration that they give at block speeds up
/// to 125,000, 250,000, ... 1,000,000 µm/s.
///
/// ```
/// use fullerecru::{Block, Limits, Planner, Refusal, Steps};
/// # let limits = Limits {
/// #     accel_x: 200_000, accel_y: 200_000, accel_z: 200_000,
/// #     speed_x: 1_000_000, speed_y: 1_000_000, speed_z: 1_000_000,
/// #     corner_jump: 2_000, chord_tolerance: 1, tick: 2_000,
/// # };
/// // 100 mm along X at 300 mm/s, which is in the third step: 90 percent of 200,000 µm/s².
/// let block = Block { x: 100_000, feed: 300_000, ..Block::default() };
/// let mut planner = Planner::fresh(&limits, &Steps::BuiltIn)?;
/// planner.add(&block)?;
/// assert_eq!(planner.take()?.accel, 180_000);
///
/// let weak = [100, 90, 80, 70, 60, 50, 40, 30];
/// let mut planner = Planner::fresh(&limits, &Steps::Loaded(&weak))?;
/// planner.add(&block)?;
/// assert_eq!(planner.take()?.accel, 160_000);
///
/// let rising = [100, 100, 90, 95, 70, 60, 50, 40];
/// assert_eq!(Planner::fresh(&limits, &Steps::Loaded(&rising)), Err(Refusal::Steps));
/// # Ok::<(), Refusal>(())
/// ```
#[derive(Clone, Copy, Debug, Default, PartialEq, Eq, Hash)]
pub enum Steps<'a> {
    /// The built-in steps: 100, 100, 90, 80, 70, 60, 50, 40 percent.
    #[default]
    BuiltIn,
    /// The owner's, as a file of steps has them: [`STEPS`](crate::STEPS) bytes of 1 to 100 percent,
    /// none above the one before it, else the call refuses by 14. An empty list loads none, and the
    /// built-in steps serve. The bytes are read during the call only.
    Loaded(&'a [u8]),
}

impl<'a> Steps<'a> {
    /// The bytes to lend; none for the built-in steps.
    pub(crate) fn bytes(&self) -> &'a [u8] {
        match self {
            Steps::BuiltIn => &[],
            Steps::Loaded(bytes) => bytes,
        }
    }
}
