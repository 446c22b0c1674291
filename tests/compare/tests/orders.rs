//! A host's orders in doubles, call by call: each answer, every number of the
//! planner's memory and of the host, and the host's point by its bits.
//!
//! readings.rs has the doubles one by one.

use std::collections::BTreeMap;

use compare::hosts::{any_host, order_near, Kept};
use compare::library::*;
use compare::memories::{any_memory, left_by_calls};
use compare::proved::{self, Planner};
use compare::ring::Ring;
use compare::words::{any_block, limit_words};
use compare::{hex, report, same, seeds, Trying};
use reference::generate::*;
use reference::host::{self, Order, Point};
use reference::line::{Line, LookAhead};
use reference::machine::{Block, Given};
use reference::orders::Event;
use reference::refusal::Refusal;
use reference::rng::Rng;

/// The greatest mark, and with it the most orders that a host can have
/// accepted.
const MOST_MARK: u64 = 2_097_151;

/// A call on a planner and a host.
#[derive(Clone, Debug)]
enum Call {
    Order(Order, Point),
    Add(Block),
    Take,
    FreshHost,
}

impl Call {
    /// The call of an event.
    fn of(event: &Event) -> Call {
        let order = |order| Call::Order(order, event.offset);
        event.order().map_or(Call::Take, order)
    }
}

/// The answer to it: what a take gives, else nothing.
type Answer = Result<Option<Given>, Refusal>;

/// The number of an answer; 0 says accepted.
fn number(answer: &Answer) -> u64 {
    answer.map_or_else(|refusal| refusal.number(), |_| 0)
}

/// A planner and a host of the library.
struct Proved {
    planner: Planner,
    host: proved::Host,
}

impl Proved {
    fn run(&mut self, call: &Call) -> Answer {
        let Proved { planner, host } = self;
        match call {
            Call::Order(order, offset) => host.order(planner, order, offset).map(|()| None),
            Call::Add(block) => planner.add(block).map(|()| None),
            Call::Take => planner.take().map(Some),
            Call::FreshHost => {
                host.freshen();
                Ok(None)
            }
        }
    }
}

/// A planner's memory and a host's numbers by the promise of their calls.
#[derive(Clone, Debug)]
struct Promised {
    ring: Ring,
    kept: Kept,
}

impl Promised {
    fn run(&mut self, call: &Call) -> Answer {
        let Promised { ring, kept } = self;
        match call {
            Call::Order(order, offset) => kept.order(ring, order, offset).map(|()| None),
            Call::Add(block) => ring.add(block).map(|()| None),
            Call::Take => ring.take().map(Some),
            Call::FreshHost => {
                *kept = Kept::fresh();
                Ok(None)
            }
        }
    }
}

/// How often each kind of call had each number.
type Met = BTreeMap<(&'static str, u64), usize>;

/// The library and the promise on the same memory and numbers.
struct Both {
    seed: u64,
    proved: Proved,
    promised: Promised,
    met: Met,
}

impl Both {
    fn on(seed: u64, memory: &[u64; NUMBERS], numbers: &[u64; HOST]) -> Both {
        Both {
            seed,
            proved: Proved {
                planner: Planner::of_memory(memory),
                host: proved::Host::of_numbers(numbers),
            },
            promised: Promised {
                ring: Ring::of_memory(memory),
                kept: Kept::of_numbers(numbers),
            },
            met: BTreeMap::new(),
        }
    }

    /// Runs a call on both: the answers are the same, and afterwards all
    /// numbers of the memory and of the host, and the doubles of its point.
    fn run(&mut self, call: &Call) -> Answer {
        let before = self.promised.clone();
        let input = || format!("{call:x?} on {before:?}");
        let expected = self.promised.run(call);
        same(self.seed, input, self.proved.run(call), expected);
        let (ours, promised) = (&self.proved, &self.promised);
        let memory = difference(ours.planner.memory(), promised.ring.memory());
        same(self.seed, input, memory, None);
        let numbers = &promised.kept.numbers()[..];
        same(self.seed, input, ours.host.numbers(), numbers);
        let point = promised.kept.position();
        same(self.seed, input, ours.host.position(), point);
        *self.met.entry((kind(call), number(&expected))).or_default() += 1;
        expected
    }
}

/// Where two lists first differ, with both numbers there.
fn difference(ours: &[u64], promised: &[u64]) -> Option<(usize, u64, u64)> {
    let mut places = (0..).zip(ours.iter().zip(promised));
    let found = places.find(|(_, (own, other))| own != other);
    found.map(|(place, (own, other))| (place, *own, *other))
}

fn kind(call: &Call) -> &'static str {
    match call {
        Call::Order(Order::Rapid(..), _) => "rapid",
        Call::Order(Order::Feed(..), _) => "feed",
        Call::Order(Order::CurveChord(..), _) => "curve chord",
        Call::Add(_) => "add",
        Call::Take => "take",
        Call::FreshHost => "fresh host",
    }
}

fn add_up(all: &mut Met, met: Met) {
    met.into_iter()
        .for_each(|(kind, times)| *all.entry(kind).or_default() += times);
}

/// Sees that each of the numbers was met so often by each sort of order that
/// can have it.
fn confirm_met(met: &Met, numbers: &[u64], least: usize) {
    for number in numbers {
        for sort in ["rapid", "feed", "curve chord"] {
            let can = match number {
                4 => sort != "rapid",
                5 => sort == "curve chord",
                _ => true,
            };
            let times = met.get(&(sort, *number)).copied().unwrap_or(0);
            assert!(!can || times >= least, "{sort} {number}: {met:?}");
            assert!(can || times == 0, "{sort} {number}: {met:?}");
        }
    }
}

/// A list of orders and takes, with plain adds between.
fn some_calls(rng: &mut Rng, count: usize) -> Vec<Call> {
    let mut list = Vec::new();
    for event in events(rng, count) {
        if rng.once_in(12) {
            let faults = rng.pick(&BLOCK_FAULTS);
            list.push(Call::Add(match rng.below(4) {
                0 => faulty_block(rng, faults, false),
                _ => block(rng),
            }));
        }
        list.push(Call::of(&event));
    }
    list
}

/// Runs the same calls on the line of blocks and the reference's host.
struct Drawn {
    line: Line,
    host: host::Host,
}

impl Drawn {
    fn run(&mut self, call: &Call) -> Answer {
        let Drawn { line, host } = self;
        match call {
            Call::Order(order, offset) => host.order(line, order, offset).map(|()| None),
            Call::Add(block) => line.add(block).map(|()| None),
            Call::Take => line.take().map(Some),
            Call::FreshHost => {
                *host = host::Host::default();
                Ok(None)
            }
        }
    }

    /// Compares the number told, the plan and the point.
    fn compare_shown(&self, seed: u64, proved: &Proved, input: impl Fn() -> String) {
        let told = self.line.told();
        same(seed, &input, proved.planner.told(), told);
        let mut plan = vec![77; told + 1];
        proved.planner.shown(&mut plan).expect("of that length");
        same(seed, &input, plan, self.line.profile());
        same(seed, &input, proved.host.position(), self.host.position());
    }
}

/// Lists of orders, adds and takes from a fresh planner and a fresh host.
#[test]
fn every_list_is_answered_as_the_host_and_the_line_say() {
    let (mut met, mut count) = (BTreeMap::new(), 0);
    for seed in seeds(2_400) {
        let _trying = Trying::seed(seed);
        let mut rng = Rng::new(seed);
        let (limits, steps) = (limits(&mut rng), steps(&mut rng));
        let planner = Planner::fresh(&limits, &steps).expect("limits and steps that pass");
        let memory = planner.memory().try_into().expect("848 numbers");
        let host = proved::Host::fresh();
        let mut both = Both::on(seed, memory, &[0; HOST]);
        same(
            seed,
            String::new,
            host.numbers(),
            both.proved.host.numbers(),
        );
        let line = Line::fresh(&limits, &steps).expect("limits and steps that pass");
        let host = host::Host::default();
        let mut drawn = Drawn { line, host };
        let length = rng.within(1, 250) as usize;
        for call in some_calls(&mut rng, length) {
            let found = both.run(&call);
            let input = || format!("{call:x?} with {limits:?} {}", hex(&steps));
            same(seed, input, found, drawn.run(&call));
            if rng.once_in(8) {
                drawn.compare_shown(seed, &both.proved, input);
            }
            count += 1;
        }
        add_up(&mut met, both.met);
    }
    confirm_met(&met, &[0, 2, 3, 4, 5, 7, 15, 16], 20);
    report(count, "orders, adds and takes of lists");
}

/// A memory and four numbers of any kind, and calls of which many are accepted.
#[test]
fn every_host_and_memory_is_answered_as_promised() {
    let (mut met, mut count) = (BTreeMap::new(), 0);
    for seed in seeds(12_000) {
        let _trying = Trying::seed(seed);
        let mut rng = Rng::new(seed);
        let memory = match rng.below(3) {
            0 => any_memory(&mut rng),
            _ => left_by_calls(&mut rng),
        };
        let mut both = Both::on(seed, &memory, &any_host(&mut rng));
        for _ in 0..10 {
            let point = both.promised.kept.point();
            let call = match rng.below(16) {
                0 => Call::FreshHost,
                1 => Call::Add(any_block(&mut rng)),
                2 => Call::Add(block(&mut rng)),
                3 | 4 => Call::Take,
                5 | 6 => Call::of(&event(&mut rng)),
                _ => Call::of(&order_near(&mut rng, point)),
            };
            both.run(&call).ok();
            count += 1;
        }
        add_up(&mut met, both.met);
    }
    confirm_met(&met, &[0, 2, 3, 4, 5, 6, 7, 15, 16], 100);
    report(count, "calls on hosts and memories of any kind");
}

/// Orders whose doubles are of any class, one by one: from the fresh host, and
/// from where the order goes to or near it.
#[test]
fn single_orders_of_any_doubles_are_answered_as_promised() {
    let (mut met, mut count) = (BTreeMap::new(), 0);
    let planner = Planner::fresh(&machine_m(), &[]).expect("machine M passes");
    let memory = planner.memory().try_into().expect("848 numbers");
    for seed in seeds(60_000) {
        let _trying = Trying::seed(seed);
        let mut rng = Rng::new(seed);
        let event = event(&mut rng);
        for numbers in [[0; HOST], near_its_end(&mut rng, &event)] {
            let mut both = Both::on(seed, memory, &numbers);
            both.run(&Call::of(&event)).ok();
            add_up(&mut met, both.met);
            count += 1;
        }
    }
    confirm_met(&met, &[0, 2, 3, 4, 5, 15, 16], 100);
    report(count, "single orders of any doubles");
}

/// The numbers of a host within a few µm of where an order goes to, as far as
/// doubles say.
fn near_its_end(rng: &mut Rng, event: &Event) -> [u64; HOST] {
    let [x, y, z] = [0, 1, 2].map(|axis| {
        let [to, from] = [event.target, event.offset].map(|point| f64::from_bits(point[axis]));
        let place = ((to - from) * 1_000.0) as i64;
        place.wrapping_add(rng.signed(2)) as u32 as u64
    });
    [x, y, z, rng.below(1_000)]
}

/// The host's point of any four numbers: the 32 low bits of three of them by
/// two's complement, and never −0.0.
#[test]
fn every_point_is_given_back_as_doubles() {
    let ends = [
        0,
        1,
        1 << 31,
        (1 << 31) - 1,
        u64::MAX,
        1 << 32,
        (1 << 32) - 1,
    ];
    let mut count = 0;
    for seed in seeds(20_000) {
        let _trying = Trying::seed(seed);
        let mut rng = Rng::new(seed);
        let numbers = match rng.below(3) {
            0 => [(); HOST].map(|_| rng.pick(&ends)),
            _ => any_host(&mut rng),
        };
        let expected = [0, 1, 2].map(|axis| f64::from(numbers[axis] as u32 as i32).to_bits());
        let found = proved::Host::of_numbers(&numbers).position();
        same(seed, || format!("{numbers:x?}"), found, expected);
        let kept = Kept::of_numbers(&numbers).position();
        same(seed, || format!("{numbers:x?}"), kept, expected);
        assert!(!found.contains(&(1 << 63)), "{numbers:x?}");
        count += 1;
    }
    report(count, "points of hosts of any numbers");
}

/// A fresh host, on memory of any numbers, has four zeros.
#[test]
fn a_fresh_host_has_four_zeros() {
    for seed in seeds(2_000) {
        let _trying = Trying::seed(seed);
        let mut host = proved::Host::of_numbers(&any_host(&mut Rng::new(seed)));
        host.freshen();
        assert_eq!(host.numbers(), [0; HOST], "seed {seed}");
        assert_eq!(host.position(), [0; POINT], "seed {seed}");
    }
    report(2_000, "fresh hosts on used memory");
}

/// Bits above the 32 that count play no part, and are gone after an order that
/// is accepted; a refused one leaves them.
#[test]
fn bits_above_the_low_ones_play_no_part() {
    let above = |number: u64| number | 0xdead_beef << 32;
    let numbers = [1_000, 0xffff_fc18, 0, 41].map(above);
    let planner = Planner::fresh(&machine_m(), &[]).expect("machine M passes");
    let memory = planner.memory().try_into().expect("848 numbers");
    let mut both = Both::on(0, memory, &numbers);
    let still = Event::rapid([1.0, -1.0, 0.0]);
    assert_eq!(number(&both.run(&Call::of(&still))), 2);
    assert_eq!(both.proved.host.numbers(), numbers);
    let moved = Event::feed([1.0, -1.5, 0.0], 20.0);
    assert_eq!(number(&both.run(&Call::of(&moved))), 0);
    assert_eq!(both.proved.host.numbers(), [1_000, 0xffff_fa24, 0, 42]);
    let given = both
        .run(&Call::Take)
        .expect("a block held")
        .expect("a block");
    let expected = Block {
        moves: [0, -500, 0],
        feed: 20_000,
        radius: 0,
        mark: 42,
    };
    assert_eq!(given.block, expected);
    report(3, "calls on a host with bits above the low ones");
}

/// 6 from a host whose count has run out, whatever its other bits are, and also
/// where the count is the greatest that its 32 bits hold.
#[test]
fn a_count_that_leaves_no_mark_gives_6() {
    let planner = Planner::fresh(&machine_m(), &[]).expect("machine M passes");
    let memory = planner.memory().try_into().expect("848 numbers");
    let order = Call::of(&Event::rapid([1.0, 0.0, 0.0]));
    let most = u64::from(u32::MAX);
    let counts = [
        (MOST_MARK - 1, 0),
        (MOST_MARK, 6),
        (MOST_MARK + 1, 6),
        (1 << 31, 6),
        (most, 6),
        (u64::MAX, 6),
        (1 << 32, 0),
        ((1 << 32) + MOST_MARK - 1, 0),
        ((1 << 63) + MOST_MARK, 6),
    ];
    for (count, expected) in counts {
        let mut both = Both::on(count, memory, &[0, 0, 0, count]);
        assert_eq!(number(&both.run(&order)), expected, "{count}");
    }
    report(counts.len(), "counts at the end of the marks");
}

/// An order to and fro between two points by the library, on memory that is not
/// guarded, and the take of its block; gives the block's mark.
fn there_and_taken(memory: &mut [u64], host: &mut [u64], place: u64) -> u64 {
    let target = [f64::from(place as u32 % 2), 0.0, 0.0];
    let (mut moves, mut numbers) = ([0; 3], [0; 11]);
    let (lent, offset) = (memory.as_mut_ptr(), [0.0; POINT]);
    let answers = unsafe {
        [
            fullerecru_rapid(lent, host.as_mut_ptr(), target.as_ptr(), offset.as_ptr()),
            fullerecru_take(lent, moves.as_mut_ptr(), numbers.as_mut_ptr()),
        ]
    };
    assert_eq!(answers, [0; 2], "order {place}");
    numbers[2]
}

/// 2,097,151 orders are accepted, each with a take after it; each further one
/// is refused by 6, or by what comes before it, and changes nothing.
#[test]
fn marks_run_out() {
    let (mut memory, mut host) = ([0; NUMBERS], [77; HOST]);
    let limits = limit_words(&machine_m());
    let (lent, none) = (memory.as_mut_ptr(), [0; 0]);
    let made = unsafe { fullerecru_fresh(lent, limits.as_ptr(), none.as_ptr(), 0) };
    assert_eq!(made, 0);
    unsafe { fullerecru_host_fresh(host.as_mut_ptr()) };
    for place in 1..=MOST_MARK {
        assert_eq!(there_and_taken(&mut memory, &mut host, place), place);
    }
    assert_eq!(host, [1_000, 0, 0, MOST_MARK]);
    let mut both = Both::on(0, &memory, &host);
    let further = [
        (Event::rapid([0.0; 3]), 6),
        (Event::feed([0.0; 3], 20.0), 6),
        (Event::curve_chord([0.0; 3], 20.0, 1.5), 6),
        (Event::rapid([1.0, 0.0, 0.0]), 2),
        (Event::rapid([-1_000.0, 0.0, 0.0]), 3),
        (Event::feed([0.0; 3], 0.0), 4),
        (Event::curve_chord([0.0; 3], 20.0, 10_000.001), 5),
        (Event::rapid([f64::NAN, 0.0, 0.0]), 15),
        (Event::rapid([1e7, 0.0, 0.0]), 16),
        (Event::rapid([0.0; 3]), 6),
    ];
    for (event, expected) in &further {
        let found = both.run(&Call::of(event));
        assert_eq!(number(&found), *expected, "{event:?}");
        assert_eq!(both.proved.host.numbers(), host, "{event:?}");
    }
    assert_eq!(number(&both.run(&Call::FreshHost)), 0);
    let again = both.run(&Call::of(&Event::rapid([1.0, 0.0, 0.0])));
    assert_eq!(number(&again), 0);
    report(
        MOST_MARK as usize + further.len() + 1,
        "orders to the end of the marks",
    );
}

/// Plain adds between do not move the host: an order's block goes from the last
/// accepted order's point, and its mark counts orders alone.
#[test]
fn adds_between_orders_do_not_move_the_host() {
    let mut proved = Proved {
        planner: Planner::fresh(&machine_m(), &[]).expect("machine M passes"),
        host: proved::Host::fresh(),
    };
    let add = Block {
        moves: [700, 0, 0],
        feed: 20_000,
        radius: 0,
        mark: 99,
    };
    let there = Call::of(&Event::feed([1.0, 0.0, 0.0], 20.0));
    let on = Call::of(&Event::feed([1.0, 2.0, 0.0], 20.0));
    for call in [there, Call::Add(add), on] {
        assert_eq!(proved.run(&call), Ok(None), "{call:?}");
    }
    let blocks = [(); 3].map(|()| proved.planner.take().expect("a block held").block);
    let found = blocks.map(|block| (block.moves, block.mark));
    let expected = [([1_000, 0, 0], 1), ([700, 0, 0], 99), ([0, 2_000, 0], 2)];
    assert_eq!(found, expected);
    report(3, "orders with an add between");
}

/// One list may be lent as target and as offset, since neither is written: the
/// difference is 0, and the order goes to zero.
#[test]
fn target_and_offset_may_be_one_list() {
    let planner = Planner::fresh(&machine_m(), &[]).expect("machine M passes");
    let mut memory = planner.memory().to_vec();
    let (mut host, point) = ([5, 0, 0, 0], [1.5, -0.1, 7e300]);
    let (lent, at) = (memory.as_mut_ptr(), point.as_ptr());
    let number = unsafe { fullerecru_feed(lent, host.as_mut_ptr(), at, at, 20.0) };
    assert_eq!((number, host), (0, [0, 0, 0, 1]));
    report(1, "orders of one list");
}
