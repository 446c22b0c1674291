//! The example text: a pocket of 40 × 30 mm, 3 mm deep, with a round boss of
//! 8 mm radius left standing in its middle, milled with a tool of 4 mm.
//!
//! The centre of the tool is written. Three layers of 1 mm are roughed, each
//! after a helix down around the boss: one in millimetres, one in increments,
//! one in inches. Walls and boss are then finished in one pass each.

/// Radius of the tool and of the boss, half the sides of the pocket, µm.
pub const TOOL: i64 = 2_000;
pub const BOSS: i64 = 8_000;
pub const HALF: [i64; 2] = [20_000, 15_000];
/// Depth of a layer, how many there are, and what roughing leaves at each wall,
/// µm.
pub const LAYER: i64 = 1_000;
pub const LAYERS: i64 = 3;
pub const LEFT: i64 = 200;

/// Half the sides of the loop that clears between the turns around the boss and
/// the corners of the pocket, µm.
const BETWEEN: [i64; 2] = [14_200, 10_200];

/// Height at which the tool travels, and above the last floor before it feeds
/// down, µm.
pub const SAFE: i64 = 5_000;
const ABOVE: i64 = 500;
/// Chords of a roughing turn and of the finishing turn around the boss.
const ROUGH_CHORDS: usize = 24;
const FINE_CHORDS: usize = 48;
/// Radius of the corners of the finishing turn, µm, of which the middles of the
/// chords are 10,003.5 µm from the centre.
const FINE_RADIUS: i64 = 10_025;

/// Scale of a direction's two parts.
pub const UNIT: i64 = 1_000_000_000;

/// The text of the pocket.
pub fn pocket_with_boss() -> String {
    let mut sheet = Sheet::default();
    sheet.heading("G21 G90 G0", [None, None, Some(SAFE)]);
    for layer in 1..=LAYERS {
        rough(&mut sheet, layer);
    }
    finish_walls(&mut sheet);
    finish_boss(&mut sheet);
    sheet.heading("G21 G90 G0", [Some(0), Some(0), Some(SAFE)]);
    sheet.text
}

/// Words for the modes of a layer: its unit, how it gives positions, and its
/// feeds down and along.
fn modes(layer: i64) -> [&'static str; 4] {
    match layer {
        1 => ["G21", "G90", "F600", "F1800"],
        2 => ["G21", "G91", "F600", "F1800"],
        _ => ["G20", "G90", "F23.5", "F70"],
    }
}

/// Roughs one layer from the boss outwards.
fn rough(sheet: &mut Sheet, layer: i64) {
    let [unit, way, down, along] = modes(layer);
    let floor = -LAYER * layer;
    let inner = BOSS + TOOL + LEFT;
    let [x, y] = HALF.map(|half| half - TOOL - LEFT);
    sheet.heading(&format!("{unit} G90 G0"), [Some(inner), Some(0), None]);
    sheet.line("", [None, None, Some(floor + LAYER + ABOVE)]);
    let begin = format!("{way} G1 {down}");
    sheet.line(&begin, [None, None, Some(floor + LAYER)]);
    helix(sheet, inner, floor);
    sheet.word(along);
    turn(sheet, inner, ROUGH_CHORDS);
    sheet.line("", [Some(y), None, None]);
    turn(sheet, y, ROUGH_CHORDS);
    loop_around(sheet, BETWEEN);
    loop_around(sheet, [x, y]);
    sheet.heading("G90 G0", [None, None, Some(SAFE)]);
}

/// One turn around the boss down to the floor, a layer below its begin, µm.
fn helix(sheet: &mut Sheet, radius: i64, floor: i64) {
    let chords = ROUGH_CHORDS as i64;
    for (k, [x, y]) in (1..).zip(corners(radius, ROUGH_CHORDS)) {
        let z = floor + LAYER * (chords - k) / chords;
        sheet.line("", [Some(x), Some(y), Some(z)]);
    }
}

/// One turn around the boss at one height, from and to the X axis, µm.
fn turn(sheet: &mut Sheet, radius: i64, chords: usize) {
    for [x, y] in corners(radius, chords) {
        sheet.line("", [Some(x), Some(y), None]);
    }
}

/// A loop along the four sides of half lengths x and y, from and to the X axis,
/// µm.
fn loop_around(sheet: &mut Sheet, [x, y]: [i64; 2]) {
    for [x, y] in [[x, 0], [x, y], [-x, y], [-x, -y], [x, -y], [x, 0]] {
        sheet.line("", [Some(x), Some(y), None]);
    }
}

/// One pass along the walls at full depth, in millimetres.
fn finish_walls(sheet: &mut Sheet) {
    let sides = HALF.map(|half| half - TOOL);
    let beside = Some(sides[0] - 1_000);
    sheet.heading("G21 G90 G0", [beside, Some(0), None]);
    sheet.line("", [None, None, Some(ABOVE - LAYER * LAYERS)]);
    sheet.line("G1 F600", [None, None, Some(-LAYER * LAYERS)]);
    sheet.word("F1200");
    loop_around(sheet, sides);
    sheet.line("", [beside, None, None]);
    sheet.heading("G0", [None, None, Some(SAFE)]);
}

/// One turn around the boss at full depth, in increments of inches.
fn finish_boss(sheet: &mut Sheet) {
    let beside = Some(FINE_RADIUS + 1_000);
    sheet.heading("G20 G90 G0", [beside, Some(0), None]);
    sheet.line("", [None, None, Some(ABOVE - LAYER * LAYERS)]);
    sheet.line("G1 F23.5", [None, None, Some(-LAYER * LAYERS)]);
    sheet.heading("G91 F47", [Some(FINE_RADIUS), None, None]);
    turn(sheet, FINE_RADIUS, FINE_CHORDS);
    sheet.line("", [beside, None, None]);
    sheet.heading("G90 G0", [None, None, Some(SAFE)]);
}

/// Corners of a polygon of 24 or 48 sides whose corners lie on a circle, µm,
/// from the one after the X axis to that on it.
fn corners(radius: i64, count: usize) -> Vec<[i64; 2]> {
    let mut around = directions(count);
    around.rotate_left(1);
    let nearest = |part: i64| (2 * radius * part + UNIT).div_euclid(2 * UNIT);
    around.iter().map(|parts| parts.map(nearest)).collect()
}

/// Directions that part the full turn into 12 × 2^k, from the X axis on, in
/// parts of `UNIT`. Twelve are known by a root; a direction half way between two
/// is that of their sum.
pub fn directions(count: usize) -> Vec<[i64; 2]> {
    let (half, high) = (UNIT / 2, (3 * UNIT * UNIT).isqrt() / 2);
    let mut all = vec![[UNIT, 0], [high, half], [half, high]];
    for k in 0..9 {
        let [x, y]: [i64; 2] = all[k];
        all.push([-y, x]);
    }
    while all.len() < count {
        let next = |k: usize| all[(k + 1) % all.len()];
        let halved = |k: usize| [all[k], half_way(all[k], next(k))];
        all = (0..all.len()).flat_map(halved).collect();
    }
    all
}

/// The direction half way between two that are less than half a turn apart.
fn half_way(one: [i64; 2], two: [i64; 2]) -> [i64; 2] {
    let sum = [one[0] + two[0], one[1] + two[1]].map(i128::from);
    let length = (sum[0] * sum[0] + sum[1] * sum[1]).isqrt();
    sum.map(|part| (part * i128::from(UNIT) / length) as i64)
}

/// A text as it grows, and what holds after its last line.
#[derive(Default)]
struct Sheet {
    text: String,
    inches: bool,
    increments: bool,
    /// Last position in ten-thousandths of the unit, none where the unit has
    /// changed since.
    at: [Option<i64>; 3],
    /// Last N word.
    label: u64,
    /// Words that go to the begin of the next line.
    waiting: String,
}

impl Sheet {
    /// Puts words at the begin of the next line.
    fn word(&mut self, words: &str) {
        self.waiting = format!("{words} ");
    }

    /// A line with a label, ten after the last.
    fn heading(&mut self, words: &str, to: [Option<i64>; 3]) {
        self.label += 10;
        self.line(&format!("N{} {words}", self.label), to);
    }

    /// A line of words and of what leads to a position, µm on each axis that is
    /// named; nothing where all of it is there already.
    fn line(&mut self, words: &str, to: [Option<i64>; 3]) {
        self.set_modes(words);
        let mut line = format!("{}{words}", self.waiting);
        for (axis, letter) in ["X", "Y", "Z"].into_iter().enumerate() {
            let Some(target) = to[axis].map(|target| self.in_unit(target)) else {
                continue;
            };
            if let Some(number) = self.number(axis, target) {
                let space = if line.is_empty() || line.ends_with(' ') {
                    ""
                } else {
                    " "
                };
                line += &format!("{space}{letter}{}", decimal(number));
            }
            self.at[axis] = Some(target);
        }
        if line != self.waiting {
            self.text += &format!("{line}\n");
            self.waiting.clear();
        }
    }

    /// Follows the G words for units and increments.
    fn set_modes(&mut self, words: &str) {
        for word in words.split(' ') {
            match word {
                "G20" | "G21" if self.inches != (word == "G20") => {
                    self.inches = word == "G20";
                    self.at = [None; 3];
                }
                "G90" | "G91" => self.increments = word == "G91",
                _ => {}
            }
        }
    }

    /// The nearest number of ten-thousandths of the unit for a position in µm:
    /// 10 in millimetres, 50 / 127 in inches.
    fn in_unit(&self, micrometres: i64) -> i64 {
        if self.inches {
            (2 * 50 * micrometres + 127).div_euclid(2 * 127)
        } else {
            10 * micrometres
        }
    }

    /// The number that leads an axis to its target, none if it is there.
    fn number(&self, axis: usize, target: i64) -> Option<i64> {
        match self.at[axis] {
            Some(at) if at == target => None,
            Some(at) if self.increments => Some(target - at),
            _ => Some(target),
        }
    }
}

/// A number of ten-thousandths with no more decimals than it needs.
fn decimal(number: i64) -> String {
    let sign = if number < 0 { "-" } else { "" };
    let (whole, rest) = (number.abs() / 10_000, number.abs() % 10_000);
    let digits = format!("{rest:04}");
    match digits.trim_end_matches('0') {
        "" => format!("{sign}{whole}"),
        decimals => format!("{sign}{whole}.{decimals}"),
    }
}
