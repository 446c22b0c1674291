//! A host's events: plausible work with faults between, single events of every
//! sort, and the bytes of whole, cut and faulty streams.

use super::doubles::{any_radius, any_speed, decimal, double, exact_half, not_finite, pair};
use super::limits::{faulty_limits, limits};
use crate::host::Point;
use crate::orders::{pack_orders, Event, CURVE_CHORD, EVENT_BYTES, FEED, RAPID, TAKE};
use crate::rng::Rng;
use crate::tape::{pack_limits, LIMITS_BYTES};

/// Half the side of the table on which a host works, and the longest move that
/// is accepted, ten-thousandths of a mm.
const HALF: i64 = 2_000_000;
const LONGEST: i64 = 10_000_000;
/// A sixteenth of a mm likewise; odd numbers of it are exact halves of a µm.
const SIXTEENTH: i64 = 625;
/// Fastest speed and greatest radius that are accepted, ten-thousandths of mm/s
/// and of a mm.
const FASTEST: u64 = 10_000_000;
const WIDEST: u64 = 100_000_000;
/// Words that name a curve chord; of some a single byte is not 0.
const CHORD_KINDS: [u32; 8] = [3, 4, 255, 256, 1 << 16, 1 << 24, 1 << 31, u32::MAX];

/// A host at work: where it is, how far it steps and what its offset is.
struct Work {
    /// Where the table is, without the offset, ten-thousandths of a mm.
    at: [i64; 3],
    /// Longest step on an axis, ten-thousandths of a mm.
    step: i64,
    /// Work offset, mm.
    offset: Point,
    /// Speed, a double by its bits, mm/s.
    speed: u64,
}

impl Work {
    /// Work at zero.
    fn new(rng: &mut Rng) -> Work {
        Work {
            at: [0; 3],
            step: step(rng),
            offset: offset(rng),
            speed: speed(rng),
        }
    }

    /// The next order.
    fn next(&mut self, rng: &mut Rng) -> Event {
        if rng.once_in(20) {
            (self.offset, self.speed) = (offset(rng), speed(rng));
        }
        self.go_on(rng);
        let plus_offset = |k: usize| {
            let own = f64::from_bits(decimal(self.at[k]));
            (own + f64::from_bits(self.offset[k])).to_bits()
        };
        Event {
            kind: kind(rng),
            target: [0, 1, 2].map(plus_offset),
            offset: self.offset,
            speed: self.speed,
            radius: decimal(rng.spread(0, WIDEST) as i64),
        }
    }

    /// Takes a step within the table; at times one to an exact half of a µm on
    /// an axis, none, or one about as long as is accepted, after which the next
    /// leads back to the table.
    fn go_on(&mut self, rng: &mut Rng) {
        let place = &mut self.at[rng.below(3) as usize];
        match rng.below(40) {
            0 => {}
            1 => {
                let length = LONGEST + rng.pick(&[-10, -5, 0, 0, 5, 10]);
                *place -= if *place < 0 { -length } else { length };
            }
            2..6 => *place += SIXTEENTH - *place % (2 * SIXTEENTH),
            _ => {
                for place in &mut self.at {
                    let step = rng.signed(self.step) * rng.pick(&[0, 1, 1]);
                    *place = (*place + step).clamp(-HALF, HALF);
                }
            }
        }
    }
}

/// The longest step of a stretch of work, ten-thousandths of a mm.
fn step(rng: &mut Rng) -> i64 {
    rng.pick(&[7, 30, 300, 10_000, 100_000, HALF])
}

/// A work offset in mm: none, exact halves of a µm, doubles with all digits, or
/// decimals.
fn offset(rng: &mut Rng) -> Point {
    let digits = (1_u64 << 44) as f64;
    match rng.below(6) {
        0 | 1 => [(); 3].map(|_| rng.pick(&[0, 1 << 63])),
        2 => [(); 3].map(|_| exact_half(rng)),
        3 => [(); 3].map(|_| (rng.signed(1 << 52) as f64 / digits).to_bits()),
        _ => [(); 3].map(|_| decimal(rng.signed(5_000_000))),
    }
}

/// A speed in mm/s that is accepted.
fn speed(rng: &mut Rng) -> u64 {
    decimal(rng.spread(10, FASTEST) as i64)
}

/// The kind of an order: each sort as often.
fn kind(rng: &mut Rng) -> u32 {
    match rng.below(3) {
        0 => RAPID,
        1 => FEED,
        _ if rng.once_in(4) => rng.pick(&CHORD_KINDS),
        _ => CURVE_CHORD,
    }
}

/// An event whose doubles are of any class: a take, or an order of any sort, on
/// each axis with a target and an offset that may belong together.
pub fn event(rng: &mut Rng) -> Event {
    let axes = [(); 3].map(|_| pair(rng));
    Event {
        kind: if rng.once_in(8) { TAKE } else { kind(rng) },
        target: axes.map(|both| both[0]),
        offset: axes.map(|both| both[1]),
        speed: any_speed(rng),
        radius: any_radius(rng),
    }
}

/// A list of `count` events: a host at work, with takes, faulty orders and ones
/// of any doubles between. The share of takes changes from stretch to stretch,
/// so that the line fills past 64, runs empty, and stays in between.
pub fn events(rng: &mut Rng, count: usize) -> Vec<Event> {
    let mut work = Work::new(rng);
    let mut takes_in_hundred = rng.pick(&[5, 30, 50, 60, 90]);
    let mut list = Vec::new();
    for _ in 0..count {
        if rng.once_in(60) {
            takes_in_hundred = rng.pick(&[0, 5, 30, 50, 60, 100]);
            work.step = step(rng);
        }
        let mut next = match rng.below(100) {
            share if share < takes_in_hundred => Event {
                kind: TAKE,
                ..event(rng)
            },
            _ if rng.once_in(24) => event(rng),
            _ => work.next(rng),
        };
        if rng.once_in(6) {
            spoil(rng, &mut next);
        }
        blur(rng, &mut next);
        list.push(next);
    }
    list
}

/// Puts doubles of any class in one or two fields.
fn spoil(rng: &mut Rng, event: &mut Event) {
    for _ in 0..rng.within(1, 2) {
        let axis = rng.below(3) as usize;
        match rng.below(8) {
            0 => event.target[axis] = double(rng),
            1 => event.target[axis] = not_finite(rng),
            2 => event.offset[axis] = double(rng),
            3 => [event.target[axis], event.offset[axis]] = pair(rng),
            4 | 5 => event.speed = any_speed(rng),
            _ => event.radius = any_radius(rng),
        }
    }
}

/// Fills the fields that the event's kind does not use, most of them with
/// doubles of any class.
fn blur(rng: &mut Rng, event: &mut Event) {
    let mut unused = |bits: &mut u64| *bits = if rng.once_in(3) { 0 } else { double(rng) };
    if event.kind == TAKE {
        event.target.iter_mut().for_each(&mut unused);
        event.offset.iter_mut().for_each(&mut unused);
    }
    if matches!(event.kind, TAKE | RAPID) {
        unused(&mut event.speed);
    }
    if matches!(event.kind, TAKE | RAPID | FEED) {
        unused(&mut event.radius);
    }
}

/// Bytes of limits and events: most whole; some cut short, with faulty limits,
/// with events of noise, or of noise alone.
pub fn orders(rng: &mut Rng) -> Vec<u8> {
    let count = rng.spread(0, 400) as usize;
    let limits = limits(rng);
    let mut bytes = pack_orders(&limits, &events(rng, count));
    match rng.below(16) {
        0 => cut(rng, &mut bytes),
        1 => bytes.truncate(rng.below(LIMITS_BYTES as u64 + 1) as usize),
        2 => bytes[..LIMITS_BYTES].copy_from_slice(&pack_limits(&faulty_limits(rng), 0)),
        3 => bytes[LIMITS_BYTES - 1] |= 1 << rng.below(8),
        4 => noise(rng, &mut bytes),
        5 => noise(rng, &mut bytes[LIMITS_BYTES..]),
        _ => {}
    }
    bytes
}

/// Cuts the bytes inside the last event, or inside a first one of zeros.
fn cut(rng: &mut Rng, bytes: &mut Vec<u8>) {
    if bytes.len() == LIMITS_BYTES {
        bytes.extend(Event::default().bytes());
    }
    let left = rng.within(1, EVENT_BYTES as u64 - 1) as usize;
    bytes.truncate(bytes.len() - EVENT_BYTES + left);
}

/// Replaces each byte by noise.
fn noise(rng: &mut Rng, bytes: &mut [u8]) {
    bytes.iter_mut().for_each(|byte| *byte = rng.word() as u8);
}
