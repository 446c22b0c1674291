//! Example tapes, traces, torque steps, texts and orders.

use crate::cam_host::cam_host;
use crate::generate::machine_m;
use crate::machine::{Block, Limits};
use crate::orders::pack_orders;
use crate::pocket::pocket_with_boss;
use crate::rng::Rng;
use crate::tape::Tape;
use crate::trace::{pack_trace, Call};

/// Names of the example tapes.
pub const NAMES: [&str; 5] = [
    "right-angle",
    "mould-row",
    "square-pocket",
    "to-and-fro",
    "what-held",
];

/// The example tape of a name.
pub fn example(name: &str) -> Option<Tape> {
    match name {
        "right-angle" => Some(right_angle()),
        "mould-row" => Some(mould_row()),
        "square-pocket" => Some(square_pocket()),
        "to-and-fro" => Some(to_and_fro()),
        "what-held" => Some(what_held()),
        _ => None,
    }
}

/// Names of the example traces.
pub const TRACE_NAMES: [&str; 1] = ["shop-traffic"];

/// The bytes of the example trace of a name.
pub fn example_trace(name: &str) -> Option<Vec<u8>> {
    match name {
        "shop-traffic" => Some(pack_trace(&mill(), &shop_traffic())),
        _ => None,
    }
}

/// Names of the example torque steps.
pub const STEP_NAMES: [&str; 1] = ["soft-motors"];

/// The bytes of the example torque steps of a name, percent.
pub fn example_steps(name: &str) -> Option<[u8; 8]> {
    match name {
        "soft-motors" => Some([100, 80, 65, 50, 40, 32, 26, 20]),
        _ => None,
    }
}

/// Names of the example texts.
pub const TEXT_NAMES: [&str; 1] = ["pocket-with-boss"];

/// The example text of a name.
pub fn example_text(name: &str) -> Option<String> {
    match name {
        "pocket-with-boss" => Some(pocket_with_boss()),
        _ => None,
    }
}

/// Names of the example orders.
pub const ORDER_NAMES: [&str; 1] = ["cam-host"];

/// The bytes of the example orders of a name.
pub fn example_orders(name: &str) -> Option<Vec<u8>> {
    match name {
        "cam-host" => Some(pack_orders(&machine_m(), &cam_host())),
        _ => None,
    }
}

/// Document 01's right-angle pair on machine M with marks 7 and 8.
pub fn right_angle() -> Tape {
    Tape {
        limits: machine_m(),
        blocks: marked(7, &[[1_000, 0, 0], [0, 1_000, 0]], 20_000),
    }
}

/// Source 003's to-and-fro line, its table 1 as differences in µm, on machine
/// M at 20,000 µm/s, its 1,200 mm/min.
pub fn to_and_fro() -> Tape {
    let steps = [350, 200, 100, 220, 130, -100, -120, -220, -310, -250];
    let moves = steps.map(|x| [x, 2 * x, 0]);
    Tape {
        limits: machine_m(),
        blocks: marked(1, &moves, 20_000),
    }
}

/// Seven blocks on machine M whose inner junctions are held by the feed, the
/// corner, three times by the chord of a curve of radius 1 µm, and by the reach
/// of the last block. Marks 1 to 7.
pub fn what_held() -> Tape {
    let moves = [
        [1_000, 0, 0],
        [1_000, 0, 0],
        [0, 1_000, 0],
        [100, 0, 0],
        [100, 0, 0],
        [5, 0, 0],
        [5, 0, 0],
    ];
    let mut blocks = marked(1, &moves, 20_000);
    blocks[3].radius = 1;
    blocks[4].radius = 1;
    Tape {
        limits: machine_m(),
        blocks,
    }
}

/// Limits of a high-speed mill.
fn mill() -> Limits {
    Limits {
        accel: [5_000_000, 5_000_000, 3_000_000],
        speed: [500_000, 500_000, 250_000],
        jump: 10_000,
        chord: 2,
        tick: 4_000,
    }
}

/// Radius of the mould's dome, µm.
const DOME: i64 = 30_000;
/// Half the width of the mould, µm.
const HALF: i64 = 20_000;
/// Step along a row on the dome, µm.
const STEP: i64 = 250;
/// Distance between two rows, µm.
const ROW: i64 = 200;

/// Two rows of a mould, there and back: a flat run-in, a dome of radius 30 mm
/// in chords, a flat run-out, and a step sideways. Feed 200,000 µm/s.
pub fn mould_row() -> Tape {
    let mut blocks = row(1);
    blocks.push(plain([0, ROW, 0]));
    blocks.extend(row(-1));
    Tape {
        limits: mill(),
        blocks: numbered(1, blocks),
    }
}

/// One row in direction 1 or −1 along X.
fn row(way: i64) -> Vec<Block> {
    let flat = plain([way * 5_000, 0, 0]);
    let mut blocks = vec![flat];
    for k in 0..2 * HALF / STEP {
        let x = k * STEP - HALF;
        let rise = height(x + STEP) - height(x);
        blocks.push(Block {
            radius: DOME as u64,
            ..plain([way * STEP, 0, rise])
        });
    }
    blocks.push(flat);
    blocks
}

/// Height of the dome above its centre at a distance `x` from its axis, µm.
fn height(x: i64) -> i64 {
    (DOME * DOME - x * x).isqrt()
}

/// Most blocks that the shop's host keeps ahead.
pub const AHEAD: usize = 8;

/// One row of the mould through a planner that is seldom full: the host sends
/// blocks as it finds time, at most 8 ahead, and the table takes them as it
/// moves. It asks once before there is any, and the host sends a block that
/// does not move after each 40. The last blocks stay held.
pub fn shop_traffic() -> Vec<Call> {
    let mut rng = Rng::new(1);
    let mut calls = vec![Call::Take];
    let mut held = 0;
    for (k, block) in numbered(1, row(1)).into_iter().enumerate() {
        while held == AHEAD || (held > 0 && rng.once_in(2)) {
            calls.push(Call::Take);
            held -= 1;
        }
        calls.push(Call::Add(block));
        held += 1;
        if k % 40 == 39 {
            calls.push(Call::Add(plain([0; 3])));
        }
    }
    calls
}

/// A square pocket cleared from its centre outwards in loops with right
/// angles, 1 mm apart, then a finishing loop at a lower feed.
pub fn square_pocket() -> Tape {
    let mut blocks = Vec::new();
    for k in 1..=8 {
        let side = 1_000 * k;
        blocks.extend(sides(side, side).map(plain));
    }
    let finish = [[8_000, 0, 0], [0, 8_000, 0], [-8_000, 0, 0], [0, -8_000, 0]];
    blocks.extend(finish.map(|moves| Block {
        feed: 60_000,
        ..plain(moves)
    }));
    Tape {
        limits: mill(),
        blocks: numbered(1, blocks),
    }
}

/// Two sides of a square spiral; odd sides run towards plus, even ones back.
fn sides(x: i64, y: i64) -> [[i64; 3]; 2] {
    let way = if x / 1_000 % 2 == 1 { 1 } else { -1 };
    [[way * x, 0, 0], [0, way * y, 0]]
}

/// A block at 200,000 µm/s without curve or mark.
fn plain(moves: [i64; 3]) -> Block {
    Block {
        moves,
        feed: 200_000,
        radius: 0,
        mark: 0,
    }
}

/// Blocks of the moves at one feed in µm/s, marked from `first` on.
fn marked(first: u64, moves: &[[i64; 3]], feed: u64) -> Vec<Block> {
    let blocks = moves.iter().map(|m| Block { feed, ..plain(*m) });
    numbered(first, blocks.collect())
}

/// The blocks with marks from `first` on.
fn numbered(first: u64, blocks: Vec<Block>) -> Vec<Block> {
    let pairs = blocks.into_iter().zip(first..);
    pairs.map(|(block, mark)| Block { mark, ..block }).collect()
}
