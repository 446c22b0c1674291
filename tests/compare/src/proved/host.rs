//! A host on lent memory, and its orders on a planner's.
//!
//! Doubles are lent by their bits, so that those of what is no number are seen
//! to stay as well.

use reference::host::{Order, Point};
use reference::refusal::Refusal;

use super::{confirm, numbers, Planner, FILLER, GUARD};
use crate::guarded::Guarded;
use crate::library::*;
use crate::words::answer_of;

/// A host on lent memory.
#[derive(Clone)]
pub struct Host {
    numbers: Guarded<u64>,
}

impl Host {
    /// A host of numbers that no call has made.
    pub fn of_numbers(numbers: &[u64; HOST]) -> Host {
        Host {
            numbers: Guarded::new(numbers, GUARD),
        }
    }

    /// A fresh host.
    pub fn fresh() -> Host {
        let mut host = Host::of_numbers(&[FILLER.get(); HOST]);
        host.freshen();
        host
    }

    /// Makes the host fresh, whatever its numbers are.
    pub fn freshen(&mut self) {
        unsafe { fullerecru_host_fresh(self.numbers.lend()) };
        self.numbers.confirm();
    }

    /// Its numbers.
    pub fn numbers(&self) -> &[u64] {
        self.numbers.list()
    }

    /// Carries out an order under a work offset.
    pub fn order(
        &mut self,
        planner: &mut Planner,
        order: &Order,
        offset: &Point,
    ) -> Result<(), Refusal> {
        let target = target_of(order);
        let mut points = [target, offset].map(|point| Guarded::new(point, GUARD));
        let before = self.numbers.list().to_vec();
        let host = self.numbers.lend();
        let lent = points.each_mut().map(|point| point.lend().cast());
        let number = planner.call(|memory| unsafe { carry_out(order, memory, host, lent) });
        points[0].confirm_only_read(target);
        points[1].confirm_only_read(offset);
        confirm(number, &before, &self.numbers);
        answer_of(number)
    }

    /// Its point, each double by its bits.
    pub fn position(&self) -> Point {
        let mut copy = self.numbers.clone();
        let mut point = numbers(POINT);
        unsafe { fullerecru_position(copy.lend(), point.lend().cast()) };
        copy.confirm_only_read(self.numbers.list());
        point.confirm();
        [0, 1, 2].map(|axis| point.list()[axis])
    }
}

/// The point that an order goes to.
fn target_of(order: &Order) -> &Point {
    match order {
        Order::Rapid(target) | Order::Feed(target, _) | Order::CurveChord(target, _, _) => target,
    }
}

/// Calls the function of an order's sort with the target and the offset that
/// are lent.
unsafe fn carry_out(
    order: &Order,
    memory: *mut u64,
    host: *mut u64,
    [target, offset]: [*mut f64; 2],
) -> u64 {
    let double = f64::from_bits;
    match *order {
        Order::Rapid(_) => fullerecru_rapid(memory, host, target, offset),
        Order::Feed(_, speed) => fullerecru_feed(memory, host, target, offset, double(speed)),
        Order::CurveChord(_, speed, radius) => {
            let (speed, radius) = (double(speed), double(radius));
            fullerecru_curve_chord(memory, host, target, offset, speed, radius)
        }
    }
}
