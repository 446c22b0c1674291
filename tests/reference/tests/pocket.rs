//! The example text's way through the pocket: what it clears, what it leaves
//! standing, and where it travels.

use reference::listing::{planlist, HEADER};
use reference::pocket::*;
use reference::tape::{Tape, MOST_BLOCKS};
use reference::text::{lines, read_words, text_blocks, Word};

/// Positions in ten-thousandths of an inch and in whole µm are off by no more, µm.
const NEAR: i64 = 3;

/// A straight way of the tool's centre, µm.
struct Way {
    from: [i64; 3],
    to: [i64; 3],
    rapid: bool,
}

/// The ways of the text's blocks from zero on.
fn ways() -> Vec<Way> {
    let mut from = [0; 3];
    let blocks = text_blocks(pocket_with_boss().as_bytes()).unwrap();
    let way = |block: &reference::machine::Block| {
        let to = [0, 1, 2].map(|axis| from[axis] + block.moves[axis]);
        let rapid = block.feed == 1_000_000;
        let way = Way { from, to, rapid };
        from = to;
        way
    };
    blocks.iter().map(way).collect()
}

/// True if the point of X and Y is nearer than `distance` to a way, µm.
fn is_near(way: &Way, point: [i64; 2], distance: i64) -> bool {
    let part = |end: [i64; 3]| [end[0] - point[0], end[1] - point[1]];
    let (a, b) = (part(way.from), part(way.to));
    let d = [b[0] - a[0], b[1] - a[1]];
    let dot = |u: [i64; 2], v: [i64; 2]| u[0] * v[0] + u[1] * v[1];
    let square = distance * distance;
    if dot(a, d) >= 0 {
        return dot(a, a) < square;
    }
    if dot(b, d) <= 0 {
        return dot(b, b) < square;
    }
    let across = i128::from(a[0] * d[1] - a[1] * d[0]);
    across * across < i128::from(square) * i128::from(dot(d, d))
}

/// Height of the floor of a layer, µm.
fn floor(layer: i64) -> i64 {
    -LAYER * layer
}

#[test]
fn words_and_size() {
    let text = pocket_with_boss();
    let (mut words, mut count) = (Vec::new(), 0);
    for line in lines(text.as_bytes()) {
        words.extend(read_words(line).unwrap());
        count += 1;
    }
    let blocks = text_blocks(text.as_bytes()).unwrap().len();
    assert!((150..=400).contains(&count) && (200..MOST_BLOCKS).contains(&blocks));
    for mode in [true, false] {
        for word in [
            Word::Rapid(mode),
            Word::Inches(mode),
            Word::Increments(mode),
        ] {
            assert!(words.contains(&word), "{word:?}");
        }
    }
    assert!(words.contains(&Word::Label) && text.ends_with('\n'));
}

/// No way at depth comes nearer to the boss or the walls than the tool allows.
#[test]
fn boss_and_walls_stand() {
    let deep = |way: &&Way| way.from[2].min(way.to[2]) < 0;
    for way in ways().iter().filter(deep) {
        assert!(!is_near(way, [0, 0], BOSS + TOOL - NEAR), "{:?}", way.to);
        for axis in [0, 1] {
            let most = HALF[axis] - TOOL + NEAR;
            assert!(way.to[axis].abs() <= most, "{:?}", way.to);
        }
        assert!(way.to[2] >= floor(LAYERS) - NEAR);
    }
}

/// Rapids sideways are high above; rapids down end above a floor that is
/// cleared. Feeding goes a layer down at most.
#[test]
fn rapids_travel_free() {
    let mut cleared = 0;
    for way in ways() {
        let ([x, y, z], [to_x, to_y, to_z]) = (way.from, way.to);
        if !way.rapid {
            assert!(to_z >= cleared - LAYER - NEAR, "{:?}", way.to);
            let flat = to_z == z && (to_x, to_y) != (x, y);
            cleared = if flat { cleared.min(to_z) } else { cleared };
        } else if (to_x, to_y) != (x, y) {
            assert!(z.min(to_z) >= SAFE - NEAR, "{:?}", way.to);
        } else {
            assert!(to_z >= cleared + 400, "{:?}", way.to);
        }
    }
    assert!((cleared - floor(LAYERS)).abs() <= NEAR);
}

/// True if a point of a floor is to be cleared, with a margin to walls and boss
/// and the corners as round as the tool, µm.
fn is_open([x, y]: [i64; 2], margin: i64) -> bool {
    let to_wall = [HALF[0] - margin - x.abs(), HALF[1] - margin - y.abs()];
    let [a, b] = to_wall.map(|part| TOOL - NEAR - part);
    let in_corner = a > 0 && b > 0 && a * a + b * b >= (TOOL - NEAR) * (TOOL - NEAR);
    let boss = BOSS + margin + 30;
    to_wall.iter().all(|part| *part >= NEAR) && !in_corner && x * x + y * y >= boss * boss
}

/// Checks that the ways at a height clear each point that is open.
fn is_cleared(ways: &[Way], height: i64, margin: i64) {
    let at_height = |way: &&Way| {
        [way.from, way.to]
            .iter()
            .all(|p| (p[2] - height).abs() <= NEAR)
    };
    let flat: Vec<&Way> = ways.iter().filter(at_height).collect();
    let mut open = 0;
    for x in (-HALF[0]..=HALF[0]).step_by(250) {
        for y in (-HALF[1]..=HALF[1]).step_by(250) {
            if is_open([x, y], margin) {
                open += 1;
                let cleared = flat.iter().any(|way| is_near(way, [x, y], TOOL + NEAR));
                assert!(cleared, "{x} {y} at {height}");
            }
        }
    }
    assert!(open > 10_000);
}

/// Roughing clears each floor but for what it leaves at walls and boss, and
/// finishing the rest of the last.
#[test]
fn floors_are_cleared() {
    let ways = ways();
    (1..=LAYERS).for_each(|layer| is_cleared(&ways, floor(layer), LEFT));
    is_cleared(&ways, floor(LAYERS), 0);
}

/// The planner takes the tape of either example's limits.
#[test]
fn text_is_planned() {
    let blocks = text_blocks(pocket_with_boss().as_bytes()).unwrap();
    for name in ["square-pocket", "right-angle"] {
        let limits = reference::examples::example(name).unwrap().limits;
        let blocks = blocks.clone();
        let count = blocks.len();
        let listing = planlist(&Tape { limits, blocks }.pack(), &[]);
        assert!(listing.starts_with(HEADER), "{listing}");
        assert_eq!(listing.lines().count(), count + 1);
    }
}
