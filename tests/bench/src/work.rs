//! The work that is measured, by each side on the same seeded blocks.

use std::hint::black_box;

use compare::library::*;
use compare::words::limit_words;
use reference::generate::machine_m;
use reference::host::Host;
use reference::incremental;
use reference::line::{LookAhead, PLACES};
use reference::machine::{Block, Machine};
use reference::orders::Event;
use reference::quick;
use reference::stairs::Planner;
use reference::tape::{Tape, MOST_BLOCKS, RECORD_BYTES};
use reference::text::text_records;

use crate::orders::orders_of;
use crate::paths::Path;
use crate::texts::text_of;

/// Whose code runs.
#[derive(Clone, Copy, Debug)]
pub enum Side {
    Proved,
    /// The independent implementation; its planner keeps the junctions that can
    /// limit.
    Reference,
    /// Its planner that keeps a brake at each place and walks back over them; of
    /// the planner's work alone.
    Walk,
}

/// The list of loaded torque steps: the built-in ones serve.
const NONE_LOADED: &[u8] = &[];

/// What it does, on machine M.
#[derive(Clone, Copy, Debug)]
pub enum Work {
    /// One take and one add for each block, with so many held.
    Planner(usize),
    /// The plan of tapes of 2,048 blocks.
    Tape,
    /// The figures of such tapes, each in a fresh report.
    Report,
    /// The root of the sum of each block's squared moves.
    Root,
    /// The records of texts of 2,048 lines, each with a block.
    Text,
    /// One take and one order, a feed to the block's end, for each block, with
    /// 64 held.
    Order,
}

impl Work {
    /// Blocks in which instructions are counted: of tapes and texts, ten whole
    /// ones.
    pub fn counted(self) -> usize {
        match self {
            Work::Planner(_) | Work::Root | Work::Order => 20_000,
            Work::Tape | Work::Report | Work::Text => 10 * MOST_BLOCKS,
        }
    }

    /// Name of the function that does it.
    pub fn function(self, side: Side) -> &'static str {
        let [proved, reference] = match self {
            Work::Planner(_) => ["feed_proved", "feed_reference"],
            Work::Tape => ["plan_proved", "plan_reference"],
            Work::Report => ["report_proved", "report_reference"],
            Work::Root => ["roots_proved", "roots_reference"],
            Work::Text => ["read_proved", "read_reference"],
            Work::Order => ["order_proved", "order_reference"],
        };
        match side {
            Side::Proved => proved,
            Side::Reference | Side::Walk => reference,
        }
    }
}

/// Work on a path that is ready to be run by one side.
pub enum Ready {
    FeedProved(Vec<u64>, Vec<Block>),
    FeedReference(Box<Planner>, Vec<Block>),
    FeedWalk(Box<incremental::Planner>, Vec<Block>),
    PlanProved(Vec<u8>, usize),
    PlanReference(Machine, Vec<Block>, usize),
    ReportProved(Vec<u8>, usize),
    ReportReference(Machine, Vec<Block>, usize),
    RootsProved(Vec<u64>),
    RootsReference(Vec<u64>),
    ReadProved(Vec<u8>, usize),
    ReadReference(Vec<u8>, usize),
    OrderProved(Vec<u64>, [u64; HOST], Vec<Feed>),
    OrderReference(Box<Planner>, Host, Vec<Event>),
}

impl Ready {
    /// Prepares the work for `count` blocks; those of tapes and texts are rounded
    /// up to whole ones.
    pub fn new(work: Work, side: Side, path: Path, count: usize) -> Ready {
        match (work, side) {
            (Work::Planner(held), side) => {
                let mut blocks = path.blocks(held + count);
                let rest = blocks.split_off(held);
                match side {
                    Side::Proved => Ready::FeedProved(filled_memory(&blocks), rest),
                    Side::Reference => Ready::FeedReference(filled_planner(&blocks), rest),
                    Side::Walk => Ready::FeedWalk(filled_planner(&blocks), rest),
                }
            }
            (Work::Tape, side) => Ready::tape(side, path, count.div_ceil(MOST_BLOCKS)),
            (Work::Report, side) => Ready::report(side, path, count.div_ceil(MOST_BLOCKS)),
            (Work::Root, side) => {
                let sums = path.blocks(count).iter().map(squares).collect();
                match side {
                    Side::Proved => Ready::RootsProved(sums),
                    Side::Reference | Side::Walk => Ready::RootsReference(sums),
                }
            }
            (Work::Text, side) => Ready::text(side, path, count.div_ceil(MOST_BLOCKS)),
            (Work::Order, side) => Ready::orders(side, path, count),
        }
    }

    /// Prepares so many plans of a tape.
    fn tape(side: Side, path: Path, runs: usize) -> Ready {
        let (machine, blocks) = longest(path);
        match side {
            Side::Proved => Ready::PlanProved(bytes_of(&machine, blocks), runs),
            Side::Reference | Side::Walk => Ready::PlanReference(machine, blocks, runs),
        }
    }

    /// Prepares so many reports of a tape.
    fn report(side: Side, path: Path, runs: usize) -> Ready {
        let (machine, blocks) = longest(path);
        match side {
            Side::Proved => Ready::ReportProved(bytes_of(&machine, blocks), runs),
            Side::Reference | Side::Walk => Ready::ReportReference(machine, blocks, runs),
        }
    }

    /// Prepares so many orders behind those of the blocks held.
    fn orders(side: Side, path: Path, count: usize) -> Ready {
        let mut first = orders_of(path, PLACES + count);
        let rest = first.split_off(PLACES);
        match side {
            Side::Proved => {
                let (mut memory, mut host) = (filled_memory(&[]), [0; HOST]);
                unsafe { fullerecru_host_fresh(host.as_mut_ptr()) };
                let feed = |event| carry_out(&mut memory, &mut host, &Feed::of(event));
                let refused = first.iter().map(feed).fold(0, |all, number| all | number);
                assert_eq!(refused, 0, "orders that pass");
                Ready::OrderProved(memory, host, rest.iter().map(Feed::of).collect())
            }
            Side::Reference | Side::Walk => {
                let (mut planner, mut host) = (filled_planner(&[]), Host::default());
                let passing = first
                    .iter()
                    .all(|event| ordered(&mut planner, &mut host, event));
                assert!(passing, "orders that pass");
                Ready::OrderReference(planner, host, rest)
            }
        }
    }

    /// Prepares so many runs over a text.
    fn text(side: Side, path: Path, runs: usize) -> Ready {
        let text = text_of(path);
        match side {
            Side::Proved => Ready::ReadProved(text, runs),
            Side::Reference | Side::Walk => Ready::ReadReference(text, runs),
        }
    }

    /// How many blocks a run works on.
    pub fn blocks(&self) -> usize {
        match self {
            Ready::FeedProved(_, blocks)
            | Ready::FeedReference(_, blocks)
            | Ready::FeedWalk(_, blocks) => blocks.len(),
            Ready::PlanProved(_, runs) | Ready::PlanReference(_, _, runs) => runs * MOST_BLOCKS,
            Ready::ReportProved(_, runs) | Ready::ReportReference(_, _, runs) => runs * MOST_BLOCKS,
            Ready::RootsProved(sums) | Ready::RootsReference(sums) => sums.len(),
            Ready::ReadProved(_, runs) | Ready::ReadReference(_, runs) => runs * MOST_BLOCKS,
            Ready::OrderProved(_, _, feeds) => feeds.len(),
            Ready::OrderReference(_, _, events) => events.len(),
        }
    }

    /// Runs it and gives the sum of what is found: the squared speeds at the
    /// exits of the blocks taken or every number of each plan, (µm/s)², the
    /// figures of each tape by their places, the roots, µm, or the records'
    /// words.
    pub fn run(&mut self) -> u64 {
        match self {
            Ready::FeedProved(memory, blocks) => feed_proved(memory, blocks),
            Ready::FeedReference(planner, blocks) => feed_reference(planner.as_mut(), blocks),
            Ready::FeedWalk(planner, blocks) => feed_reference(planner.as_mut(), blocks),
            Ready::PlanProved(tape, runs) => plan_proved(tape, *runs),
            Ready::PlanReference(machine, blocks, runs) => plan_reference(machine, blocks, *runs),
            Ready::ReportProved(tape, runs) => report_proved(tape, *runs),
            Ready::ReportReference(machine, blocks, runs) => {
                report_reference(machine, blocks, *runs)
            }
            Ready::RootsProved(sums) => roots_proved(sums),
            Ready::RootsReference(sums) => roots_reference(sums),
            Ready::ReadProved(text, runs) => read_proved(text, *runs),
            Ready::ReadReference(text, runs) => read_reference(text, *runs),
            Ready::OrderProved(memory, host, feeds) => order_proved(memory, host, feeds),
            Ready::OrderReference(planner, host, events) => order_reference(planner, host, events),
        }
    }
}

/// Machine M, and the longest tape's blocks of a path.
fn longest(path: Path) -> (Machine, Vec<Block>) {
    let machine = Machine::of(&machine_m(), NONE_LOADED).expect("machine M passes");
    (machine, path.blocks(MOST_BLOCKS))
}

/// The bytes of a tape.
fn bytes_of(machine: &Machine, blocks: Vec<Block>) -> Vec<u8> {
    let limits = machine.limits;
    Tape { limits, blocks }.pack()
}

/// The sum of a block's squared moves, µm².
fn squares(block: &Block) -> u64 {
    block.moves.iter().map(|m| m.unsigned_abs().pow(2)).sum()
}

/// A proved planner that holds the blocks.
fn filled_memory(blocks: &[Block]) -> Vec<u64> {
    let mut memory = vec![0; NUMBERS];
    let limits = limit_words(&machine_m());
    let (lent, count) = (NONE_LOADED.as_ptr(), NONE_LOADED.len());
    let mut number = unsafe { fullerecru_fresh(memory.as_mut_ptr(), limits.as_ptr(), lent, count) };
    for block in blocks {
        number |= add(&mut memory, block);
    }
    assert_eq!(number, 0, "limits and blocks that pass");
    memory
}

/// A planner of the reference that holds the blocks.
fn filled_planner<P: LookAhead>(blocks: &[Block]) -> Box<P> {
    let fresh = P::fresh(&machine_m(), NONE_LOADED);
    let mut planner = Box::new(fresh.expect("machine M passes"));
    let passing = blocks.iter().all(|block| one_add(planner.as_mut(), block));
    assert!(passing, "blocks that pass");
    planner
}

fn add(memory: &mut [u64], block: &Block) -> u64 {
    let [x, y, z] = block.moves;
    let memory = memory.as_mut_ptr();
    unsafe { fullerecru_add(memory, x, y, z, block.feed, block.radius, block.mark) }
}

/// Place of the exit squared speed among the numbers of a block given out.
const EXIT: usize = 6;

#[inline(never)]
fn feed_proved(memory: &mut [u64], blocks: &[Block]) -> u64 {
    let (mut moves, mut numbers) = ([0; 3], [0; 11]);
    let mut sum = 0;
    for block in blocks {
        let lent = (moves.as_mut_ptr(), numbers.as_mut_ptr());
        unsafe { fullerecru_take(memory.as_mut_ptr(), lent.0, lent.1) };
        sum += numbers[EXIT];
        add(memory, block);
    }
    sum
}

#[inline(never)]
fn feed_reference<P: LookAhead>(planner: &mut P, blocks: &[Block]) -> u64 {
    let mut sum = 0;
    for block in blocks {
        sum += one_take(planner);
        one_add(planner, block);
    }
    sum
}

/// Names, as callgrind tells them, of the functions that make single calls of the
/// reference.
pub const ONE_ADD: &str = concat!(module_path!(), "::one_add");
pub const ONE_TAKE: &str = concat!(module_path!(), "::one_take");

/// One add by the reference, a function of its own as one of the library is; false
/// where it is refused.
#[inline(never)]
fn one_add<P: LookAhead>(planner: &mut P, block: &Block) -> bool {
    black_box(planner.add(black_box(block))).is_ok()
}

/// One take by the reference: the exit squared speed, (µm/s)², 0 where it is
/// refused.
#[inline(never)]
fn one_take<P: LookAhead>(planner: &mut P) -> u64 {
    black_box(planner.take()).map_or(0, |given| given.exit)
}

/// From the tape's bytes to the plan.
#[inline(never)]
fn plan_proved(tape: &[u8], runs: usize) -> u64 {
    let mut list = [0; MOST_BLOCKS + 1];
    let mut place = [0];
    let mut sum = 0;
    for _ in 0..runs {
        let number = unsafe {
            fullerecru_plan_tape(
                tape.as_ptr(),
                tape.len(),
                NONE_LOADED.as_ptr(),
                NONE_LOADED.len(),
                list.as_mut_ptr(),
                list.len(),
                place.as_mut_ptr(),
            )
        };
        assert_eq!(number, 0, "a tape that passes");
        sum += black_box(&list).iter().sum::<u64>();
    }
    sum
}

/// From blocks that are read and checked already to the plan.
#[inline(never)]
fn plan_reference(machine: &Machine, blocks: &[Block], runs: usize) -> u64 {
    let mut sum = 0;
    for _ in 0..runs {
        let plan = quick::plan_of(black_box(machine), blocks);
        sum += black_box(plan).expect("a plan").iter().sum::<u64>();
    }
    sum
}

/// Seven figures, each by its place from 1, so that no two of them can change
/// places unseen.
fn weighed(figures: &[u64; FIGURES]) -> u64 {
    let figures = figures.iter().zip(1..);
    figures.map(|(figure, place)| figure * place).sum()
}

/// From the tape's bytes to its figures.
#[inline(never)]
fn report_proved(tape: &[u8], runs: usize) -> u64 {
    let (mut report, mut figures, mut place) = ([0; REPORT], [0; FIGURES], [0]);
    let mut sum = 0;
    for _ in 0..runs {
        unsafe { fullerecru_report_fresh(report.as_mut_ptr()) };
        let number = unsafe {
            fullerecru_report_add(
                report.as_mut_ptr(),
                tape.as_ptr(),
                tape.len(),
                NONE_LOADED.as_ptr(),
                NONE_LOADED.len(),
                figures.as_mut_ptr(),
                place.as_mut_ptr(),
            )
        };
        assert_eq!(number, 0, "a tape that passes");
        sum += weighed(black_box(&figures));
    }
    sum
}

/// From blocks that are read and checked already to the figures.
#[inline(never)]
fn report_reference(machine: &Machine, blocks: &[Block], runs: usize) -> u64 {
    let mut sum = 0;
    for _ in 0..runs {
        let figures = black_box(quick::figures_of(black_box(machine), blocks));
        sum += weighed(&figures.expect("a plan").numbers());
    }
    sum
}

#[inline(never)]
fn roots_proved(sums: &[u64]) -> u64 {
    let roots = sums.iter().map(|n| unsafe { arith_root(*n) });
    roots.sum()
}

/// By the standard library's root.
#[inline(never)]
fn roots_reference(sums: &[u64]) -> u64 {
    sums.iter().map(|n| black_box(*n).isqrt()).sum()
}

/// The records of one text.
type Records = [u8; RECORD_BYTES * MOST_BLOCKS];

/// The sum of the words of a text's records, each by its place from 1, so that no
/// two of them can change places unseen.
fn words_of(records: &Records) -> u64 {
    let words = records.chunks_exact(8).zip(1..);
    let weighed = words.map(|(bytes, place)| {
        let word = u64::from_be_bytes(bytes.try_into().expect("8 bytes"));
        word.wrapping_mul(place)
    });
    weighed.fold(0, u64::wrapping_add)
}

/// From the text's bytes to the records.
#[inline(never)]
fn read_proved(text: &[u8], runs: usize) -> u64 {
    let mut records: Records = [0; RECORD_BYTES * MOST_BLOCKS];
    let (mut blocks, mut place) = ([0], [0]);
    for _ in 0..runs {
        let number = unsafe {
            fullerecru_text(
                text.as_ptr(),
                text.len(),
                records.as_mut_ptr(),
                records.len(),
                blocks.as_mut_ptr(),
                place.as_mut_ptr(),
            )
        };
        assert_eq!(
            (number, blocks),
            (0, [MOST_BLOCKS as u64]),
            "a text that passes"
        );
        black_box(&mut records);
    }
    words_of(&records)
}

/// The same by the reference.
#[inline(never)]
fn read_reference(text: &[u8], runs: usize) -> u64 {
    let mut records: Records = [0; RECORD_BYTES * MOST_BLOCKS];
    for _ in 0..runs {
        let blocks = text_records(black_box(text), &mut records);
        assert_eq!(blocks, Ok(MOST_BLOCKS), "a text that passes");
        black_box(&mut records);
    }
    words_of(&records)
}

/// A feed to a point as C hands it over: target and offset, mm, speed, mm/s.
pub struct Feed {
    target: [f64; POINT],
    offset: [f64; POINT],
    speed: f64,
}

impl Feed {
    fn of(event: &Event) -> Feed {
        Feed {
            target: event.target.map(f64::from_bits),
            offset: event.offset.map(f64::from_bits),
            speed: f64::from_bits(event.speed),
        }
    }
}

fn carry_out(memory: &mut [u64], host: &mut [u64; HOST], feed: &Feed) -> u64 {
    let (target, offset) = (feed.target.as_ptr(), feed.offset.as_ptr());
    let (memory, host) = (memory.as_mut_ptr(), host.as_mut_ptr());
    unsafe { fullerecru_feed(memory, host, target, offset, feed.speed) }
}

/// Carries out an order by the reference; false where it is refused.
fn ordered(planner: &mut Planner, host: &mut Host, event: &Event) -> bool {
    let order = event.order().expect("an order");
    host.order(planner, &order, &event.offset).is_ok()
}

#[inline(never)]
fn order_proved(memory: &mut [u64], host: &mut [u64; HOST], feeds: &[Feed]) -> u64 {
    let (mut moves, mut numbers) = ([0; 3], [0; 11]);
    let mut sum = 0;
    for feed in feeds {
        let lent = (moves.as_mut_ptr(), numbers.as_mut_ptr());
        unsafe { fullerecru_take(memory.as_mut_ptr(), lent.0, lent.1) };
        sum += numbers[EXIT];
        carry_out(memory, host, feed);
    }
    sum
}

#[inline(never)]
fn order_reference(planner: &mut Planner, host: &mut Host, events: &[Event]) -> u64 {
    let mut sum = 0;
    for event in events {
        sum += black_box(planner.take()).map_or(0, |given| given.exit);
        black_box(ordered(planner, host, black_box(event)));
    }
    sum
}
