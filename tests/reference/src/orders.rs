//! A host's events in bytes: the 24 bytes of limits, then 68 bytes for each
//! event.

use crate::host::{Order, Point};
use crate::machine::Limits;
use crate::tape::pack_limits;

/// Bytes of one event: a word of 32 bits and eight doubles by their bits, most
/// significant byte first.
pub const EVENT_BYTES: usize = 4 + 8 * 8;

/// Kinds of event; any other is a curve chord as well.
pub const TAKE: u32 = 0;
pub const RAPID: u32 = 1;
pub const FEED: u32 = 2;
pub const CURVE_CHORD: u32 = 3;

/// An event with all of its fields, each double by its bits. What its kind does
/// not use plays no part.
#[derive(Clone, Copy, Debug, Default, PartialEq, Eq)]
pub struct Event {
    pub kind: u32,
    /// Point to go to and work offset, mm.
    pub target: Point,
    pub offset: Point,
    /// Speed, mm/s.
    pub speed: u64,
    /// Radius, mm.
    pub radius: u64,
}

impl Event {
    /// A take.
    pub fn take() -> Event {
        Event::default()
    }

    /// A rapid to a point in mm, without an offset.
    pub fn rapid(target: [f64; 3]) -> Event {
        Event {
            kind: RAPID,
            target: target.map(f64::to_bits),
            ..Event::default()
        }
    }

    /// A feed to a point in mm at a speed in mm/s, without an offset.
    pub fn feed(target: [f64; 3], speed: f64) -> Event {
        Event {
            kind: FEED,
            speed: speed.to_bits(),
            ..Event::rapid(target)
        }
    }

    /// A curve chord to a point in mm at a speed in mm/s, of a radius in mm,
    /// without an offset.
    pub fn curve_chord(target: [f64; 3], speed: f64, radius: f64) -> Event {
        Event {
            kind: CURVE_CHORD,
            radius: radius.to_bits(),
            ..Event::feed(target, speed)
        }
    }

    /// The event under a work offset in mm.
    pub fn under(self, offset: [f64; 3]) -> Event {
        let offset = offset.map(f64::to_bits);
        Event { offset, ..self }
    }

    /// The event that 68 bytes denote.
    pub fn read(bytes: &[u8; EVENT_BYTES]) -> Event {
        let number = |own: &[u8]| own.iter().fold(0, |n, byte| n << 8 | u64::from(*byte));
        let double = |place: usize| number(&bytes[4 + 8 * place..12 + 8 * place]);
        Event {
            kind: number(&bytes[..4]) as u32,
            target: [0, 1, 2].map(double),
            offset: [3, 4, 5].map(double),
            speed: double(6),
            radius: double(7),
        }
    }

    /// The 68 bytes of the event.
    pub fn bytes(&self) -> Vec<u8> {
        let last = [self.speed, self.radius];
        let doubles = self.target.iter().chain(&self.offset).chain(&last);
        let mut bytes = self.kind.to_be_bytes().to_vec();
        bytes.extend(doubles.flat_map(|bits| bits.to_be_bytes()));
        bytes
    }

    /// The order of the event, none of a take.
    pub fn order(&self) -> Option<Order> {
        match self.kind {
            TAKE => None,
            RAPID => Some(Order::Rapid(self.target)),
            FEED => Some(Order::Feed(self.target, self.speed)),
            _ => Some(Order::CurveChord(self.target, self.speed, self.radius)),
        }
    }
}

/// The bytes of limits and events, unchecked.
pub fn pack_orders(limits: &Limits, events: &[Event]) -> Vec<u8> {
    let mut bytes = pack_limits(limits, 0);
    bytes.extend(events.iter().flat_map(Event::bytes));
    bytes
}
