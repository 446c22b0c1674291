//! A host that gives its orders in doubles.

use crate::numbers::{HOST, POINT};
use crate::planner::Planner;
use crate::refusal::Refusal;
use crate::sys;

/// A point X, Y, Z: in mm for an order's target and offset, in µm for a host's position.
pub type Point = [f64; POINT];

/// A CAM host whose points, speeds and radii are doubles, in mm and mm/s. Each order becomes a block
/// added to the planner that it is given with; the host keeps the last accepted order's rounded point
/// and how many orders were accepted.
///
/// The work offset is subtracted from each coordinate in one double operation. The result times 1,000
/// is rounded to the nearest whole number, an exact half to the even one: 0.0625 mm is 62 µm, 0.1875 mm
/// is 188. Speed and radius go the same way without offset. The block goes from the last accepted
/// order's rounded point, at first zero, to this one's; its mark is the order's place from 1, refused
/// orders not counted. [`Planner::add`] and [`Planner::take`] do not move the host.
///
/// Every order refuses field by field, X, Y, Z, speed, radius, in each by 15 (not finite), then 16
/// (beyond); then by 2, 3, 4, 5, 6, 7 as [`Planner::add`] does. Refused, it changes neither the planner
/// nor the host. After 2,097,151 accepted orders there is no mark left, and 6 comes until the host is
/// made fresh. A call needs under 1 kB of stack.
///
/// ```
/// use fullerecru::{Host, Limits, Planner, Refusal, Steps};
/// # let limits = Limits {
/// #     accel_x: 200_000, accel_y: 200_000, accel_z: 200_000,
/// #     speed_x: 1_000_000, speed_y: 1_000_000, speed_z: 1_000_000,
/// #     corner_jump: 2_000, chord_tolerance: 1, tick: 2_000,
/// # };
/// let mut planner = Planner::fresh(&limits, &Steps::BuiltIn)?;
/// let mut host = Host::fresh();
/// let offset = [0.3, 0.1, 0.3]; // mm
/// host.rapid(&mut planner, [0.1, 0.2, 0.3], offset)?;
/// host.feed(&mut planner, [1.1, 0.2, 0.3], offset, 20.0)?; // mm/s
/// host.curve_chord(&mut planner, [2.1, 0.6, 0.3], offset, 20.0, 1.5)?; // mm/s, radius in mm
/// assert_eq!(host.position(), [1_800.0, 500.0, 0.0]); // µm
///
/// let far = host.feed(&mut planner, [2.1, 2e6, 0.3], offset, 20.0);
/// assert_eq!(far, Err(Refusal::Beyond));
/// assert_eq!(host.position(), [1_800.0, 500.0, 0.0]);
///
/// assert_eq!(planner.shown(), [0, 1_054_373, 27_974_025, 0]);
/// assert_eq!(planner.take()?.block.moves(), [-200, 100, 0]);
/// # Ok::<(), Refusal>(())
/// ```
#[derive(Clone, Debug, PartialEq, Eq)]
pub struct Host {
    numbers: [u64; HOST],
}

impl Host {
    /// A fresh host: its point is zero, and no order was accepted.
    pub fn fresh() -> Host {
        let mut numbers = [0; HOST];
        sys::host_fresh(&mut numbers);
        Host { numbers }
    }

    /// A rapid to a target, mm, at 1,000,000 µm/s.
    ///
    /// # Errors
    ///
    /// As [`Host`] says.
    pub fn rapid(
        &mut self,
        planner: &mut Planner,
        target: Point,
        offset: Point,
    ) -> Result<(), Refusal> {
        let memory = planner.memory();
        Refusal::judged(sys::rapid(memory, &mut self.numbers, &target, &offset))
    }

    /// A feed to a target, mm, with a speed, mm/s.
    ///
    /// # Errors
    ///
    /// As [`Host`] says.
    pub fn feed(
        &mut self,
        planner: &mut Planner,
        target: Point,
        offset: Point,
        speed: f64,
    ) -> Result<(), Refusal> {
        let memory = planner.memory();
        Refusal::judged(sys::feed(
            memory,
            &mut self.numbers,
            &target,
            &offset,
            speed,
        ))
    }

    /// A chord of a curve to a target, mm, with a speed, mm/s, and the curve's radius, mm.
    ///
    /// # Errors
    ///
    /// As [`Host`] says.
    pub fn curve_chord(
        &mut self,
        planner: &mut Planner,
        target: Point,
        offset: Point,
        speed: f64,
        radius: f64,
    ) -> Result<(), Refusal> {
        let (memory, numbers) = (planner.memory(), &mut self.numbers);
        Refusal::judged(sys::curve_chord(
            memory, numbers, &target, &offset, speed, radius,
        ))
    }

    /// The last accepted order's rounded point, at first zero, in µm. Each double is exactly that
    /// whole number, and none is −0.0.
    pub fn position(&self) -> Point {
        let mut point = [0.0; POINT];
        sys::position(&self.numbers, &mut point);
        point
    }
}
