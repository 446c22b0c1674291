//! Orders of a host in doubles, document 02's Q-5: each becomes a block that is
//! added to a planner.

use crate::doubles::{difference, double_of, reading, Reading};
use crate::line::LookAhead;
use crate::machine::Block;
use crate::refusal::Refusal;

/// Feed of a rapid, µm/s.
const RAPID_FEED: u64 = 1_000_000;
/// Radius of a block that is no chord of a curve.
const NO_CURVE: u64 = 0;

/// X, Y and Z of a point, each a double by its bits.
pub type Point = [u64; 3];

/// An order, each double by its bits: the point to go to, in mm, the speed in
/// mm/s and the radius in mm.
#[derive(Clone, Copy, Debug, PartialEq, Eq)]
pub enum Order {
    Rapid(Point),
    Feed(Point, u64),
    CurveChord(Point, u64, u64),
}

/// What is kept of a host from order to order. A fresh one, the default, is at
/// zero and has no order accepted.
#[derive(Clone, Debug, Default, PartialEq, Eq)]
pub struct Host {
    /// Rounded point of the last order that was accepted, µm.
    point: [i64; 3],
    /// Number of orders that were accepted.
    accepted: u64,
}

impl Host {
    /// A host whose last accepted order, the one of that number, went to a point
    /// in µm.
    pub fn at(point: [i64; 3], accepted: u64) -> Host {
        Host { point, accepted }
    }

    /// Rounded point of the last accepted order, µm, zero at first.
    pub fn point(&self) -> [i64; 3] {
        self.point
    }

    /// Number of orders accepted.
    pub fn accepted(&self) -> u64 {
        self.accepted
    }

    /// The rounded point as doubles in µm.
    pub fn position(&self) -> Point {
        self.point.map(double_of)
    }

    /// Adds the block of an order under a work offset in mm: 15 or 16 of its
    /// first faulty field, then 2 to 7 of the add. A refused order changes
    /// neither the planner nor the host.
    pub fn order<P: LookAhead>(
        &mut self,
        planner: &mut P,
        order: &Order,
        offset: &Point,
    ) -> Result<(), Refusal> {
        let wanted = Wanted::by(order, offset)?;
        planner.add(&self.block_to(&wanted))?;
        self.point = wanted.point;
        self.accepted += 1;
        Ok(())
    }

    /// The unchecked block from the last accepted order's point to what is
    /// wanted, marked with the place that its order gets if it is accepted.
    fn block_to(&self, wanted: &Wanted) -> Block {
        Block {
            moves: [0, 1, 2].map(|axis| wanted.point[axis] - self.point[axis]),
            feed: wanted.feed,
            radius: wanted.radius,
            mark: self.accepted + 1,
        }
    }
}

/// The fields of an order in whole numbers.
struct Wanted {
    /// Point without the work offset, µm.
    point: [i64; 3],
    /// Feed, µm/s.
    feed: u64,
    /// Radius, µm.
    radius: u64,
}

impl Wanted {
    /// Reads the fields that the order has in the order X, Y, Z, speed, radius:
    /// 15 or 16 of the first that is faulty.
    fn by(order: &Order, offset: &Point) -> Result<Wanted, Refusal> {
        let (target, speed, radius) = match *order {
            Order::Rapid(target) => (target, None, None),
            Order::Feed(target, speed) => (target, Some(speed), None),
            Order::CurveChord(target, speed, radius) => (target, Some(speed), Some(radius)),
        };
        let axis = |k: usize| whole(difference(target[k], offset[k]));
        Ok(Wanted {
            point: [axis(0)?, axis(1)?, axis(2)?],
            feed: speed.map_or(Ok(RAPID_FEED), not_below_zero)?,
            radius: radius.map_or(Ok(NO_CURVE), not_below_zero)?,
        })
    }
}

/// The whole number of µm or µm/s of a double in mm or mm/s: 15, then 16. A
/// difference of doubles that are not both finite is not finite either.
fn whole(bits: u64) -> Result<i64, Refusal> {
    match reading(bits) {
        Reading::NotFinite => Err(Refusal::NotFinite),
        Reading::Beyond => Err(Refusal::Beyond),
        Reading::At(whole) => Ok(whole),
    }
}

/// The whole number likewise of a speed or a radius, which 16 refuses also
/// where it is below 0.
fn not_below_zero(bits: u64) -> Result<u64, Refusal> {
    u64::try_from(whole(bits)?).map_err(|_| Refusal::Beyond)
}
