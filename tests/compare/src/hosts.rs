//! A host's four numbers by the promise of its orders: what each answers and
//! leaves in them, whatever they are.
//!
//! It follows crates/host/specs/State.antt (what the numbers keep) and
//! Calls.antt (what an order leaves), and has the definitions' names. How an
//! order's doubles are read and what its block is says the reference's `host`.

use reference::generate::{decimal, event};
use reference::host::{self, Order, Point};
use reference::line::LookAhead;
use reference::orders::{Event, FEED, RAPID};
use reference::refusal::Refusal;
use reference::rng::Rng;

use crate::library::HOST;
use crate::words::any_word;

/// Low bits of each number that count.
const HOST_BITS: u32 = 32;
/// The greatest coordinate that is read, µm, and the greatest mark.
const MOST_READ: i64 = 1_000_000_000;
const MOST_MARK: u64 = 2_097_151;

/// The numbers of a host.
#[derive(Clone, Debug, PartialEq, Eq)]
pub struct Kept {
    numbers: [u64; HOST],
}

impl Kept {
    /// A host of four numbers.
    pub fn of_numbers(numbers: &[u64; HOST]) -> Kept {
        Kept { numbers: *numbers }
    }

    /// A fresh host.
    pub fn fresh() -> Kept {
        Kept::of_numbers(&host_numbers(&host::Host::default()))
    }

    /// The four numbers.
    pub fn numbers(&self) -> &[u64; HOST] {
        &self.numbers
    }

    /// The point, µm.
    pub fn point(&self) -> [i64; 3] {
        [0, 1, 2].map(|axis| coordinate_of(self.numbers[axis]))
    }

    /// Carries out an order: where it is accepted the numbers are those of the
    /// host behind it, else they stay as they were.
    pub fn order<P: LookAhead>(
        &mut self,
        planner: &mut P,
        order: &Order,
        offset: &Point,
    ) -> Result<(), Refusal> {
        let mut host = self.host_of();
        host.order(planner, order, offset)?;
        self.numbers = host_numbers(&host);
        Ok(())
    }

    /// The point, each double by its bits.
    pub fn position(&self) -> Point {
        self.host_of().position()
    }

    /// The host that the numbers keep.
    fn host_of(&self) -> host::Host {
        host::Host::at(self.point(), orders_of(self.numbers[3]))
    }
}

/// The coordinate of a number, µm: its 32 low bits by two's complement.
fn coordinate_of(number: u64) -> i64 {
    let low = orders_of(number) as i64;
    if low < 1 << (HOST_BITS - 1) {
        low
    } else {
        low - (1 << HOST_BITS)
    }
}

/// The number of orders of a number: its 32 low bits.
fn orders_of(number: u64) -> u64 {
    number % (1 << HOST_BITS)
}

/// The numbers that keep a host.
fn host_numbers(host: &host::Host) -> [u64; HOST] {
    let [x, y, z] = host
        .point()
        .map(|place| place.rem_euclid(1 << HOST_BITS) as u64);
    [x, y, z, host.accepted()]
}

/// Four numbers of any kind. Above their 32 low bits most have noise; many
/// coordinates are such as are read, and many counts leave a mark or few.
pub fn any_host(rng: &mut Rng) -> [u64; HOST] {
    let axes = [(); 3].map(|_| any_coordinate(rng));
    let count = match rng.below(8) {
        0 => any_number(rng),
        1 => (1 << HOST_BITS) - 1,
        2 | 3 => MOST_MARK - rng.below(3) + rng.below(3),
        _ => rng.spread(0, MOST_MARK),
    };
    let [x, y, z] = axes;
    [x, y, z, with_noise(rng, count)]
}

/// A coordinate's number: of any kind, about an end of what is read, or within.
fn any_coordinate(rng: &mut Rng) -> u64 {
    let place = match rng.below(8) {
        0 | 1 => return any_number(rng),
        2 => rng.pick(&[-1, 1]) * (MOST_READ + rng.signed(1_000_001)),
        3 => rng.signed(MOST_READ),
        4 => 0,
        _ => rng.signed(2_000_000),
    };
    with_noise(rng, place as u64 % (1 << HOST_BITS))
}

/// A number of any kind: the ends of 32 bits and of 31 among them.
fn any_number(rng: &mut Rng) -> u64 {
    match rng.below(6) {
        0 => rng.word(),
        1 => u64::MAX,
        2 => (1 << 31) - rng.below(2),
        3 => (1 << 32) - rng.below(2),
        4 => with_noise(rng, 1 << 31),
        _ => any_word(rng),
    }
}

/// A number of 32 bits, and mostly noise above them.
fn with_noise(rng: &mut Rng, low: u64) -> u64 {
    match rng.below(4) {
        0 => low,
        1 => low | u64::MAX << HOST_BITS,
        _ => low | rng.word() << HOST_BITS,
    }
}

/// An order near a point in µm: about as far as a move may be, a µm or none
/// from it, under an offset of its own or none; the rest of it of any class.
pub fn order_near(rng: &mut Rng, point: [i64; 3]) -> Event {
    let longest = rng.pick(&[0, 1, 3, 1_000, 1_000_001]);
    let offset = point.map(|_| rng.pick(&[0, 0, 1, -3]) * 10_000_000);
    let shift = |axis: usize, to: i64| 10 * (point[axis] + to) + offset[axis];
    let places = [0, 1, 2].map(|axis| shift(axis, rng.signed(longest)));
    let any = event(rng);
    let kind = match rng.below(3) {
        0 => RAPID,
        1 => FEED,
        _ => any.kind.max(FEED + 1),
    };
    Event {
        kind,
        target: places.map(decimal),
        offset: offset.map(decimal),
        speed: rng.pick(&[decimal(200_000), any.speed]),
        radius: rng.pick(&[decimal(15_000), any.radius]),
    }
}
