//! Prints time and instructions of the proved planner, report, root, reading of a
//! text and orders beside those of the reference, how the planner's grow with the
//! blocks held, the most that single calls take on the paths and in a search, and
//! what planlist, ngctape and planorders take. The planner stands beside the
//! reference of its own design and beside that with the walk back. Fails where they
//! differ.

mod callgrind;
mod growth;
mod list;
mod orders;
mod paths;
mod search;
mod single;
mod texts;
mod work;

use std::env;
use std::io;
use std::process::{ExitCode, Stdio};
use std::time::Instant;

use paths::Path;
use reference::line::PLACES;
use work::{Ready, Side, Work};

/// Rounds that are timed, each of ten times the blocks in which instructions
/// are counted; the shortest time counts.
const ROUNDS: usize = 9;
const TIMES: usize = 10;

const WORKS: [(&str, Work); 3] = [
    ("planner", Work::Planner(PLACES)),
    ("tape", Work::Tape),
    ("root", Work::Root),
];
const TEXTS: [(&str, Work); 1] = [("text", Work::Text)];
/// The same tapes planned and reported.
const PLAN: (&str, Work) = WORKS[1];
const REPORT: (&str, Work) = ("report", Work::Report);
/// The same blocks added and ordered.
const ADD: (&str, Work) = WORKS[0];
const ORDER: (&str, Work) = ("order", Work::Order);
const PATHS: [(&str, Path); 3] = [
    ("mould", Path::Mould),
    ("straight", Path::Straight),
    ("curved", Path::Curved),
];
const STEPS: [(&str, Path); 4] = [
    ("1 to 5 µm", Path::Steps(1, 5)),
    ("1 to 50 µm", Path::Steps(1, 50)),
    ("1 to 10 mm", Path::Steps(1_000, 10_000)),
    ("0.1 to 1 m", Path::Steps(100_000, 1_000_000)),
];
const SIDES: [(&str, Side); 2] = [("proved", Side::Proved), ("reference", Side::Reference)];
/// Those of the planner's work.
const PLANNERS: [(&str, Side); 3] = [SIDES[0], SIDES[1], ("walk", Side::Walk)];

/// Without arguments the whole table; `search GENERATIONS SEED` that part of it, as
/// long as wanted. For callgrind `count WORK PATH SIDE` runs that once, and `cases`
/// the cases of the search on standard input.
fn main() -> ExitCode {
    let arguments: Vec<String> = env::args().skip(1).collect();
    match arguments.iter().map(String::as_str).collect::<Vec<_>>()[..] {
        [] => table(),
        ["count", work, path, side] => {
            let works = [&WORKS[..], &TEXTS, &[ORDER, REPORT], &growth::HELD].concat();
            let work = named(&works, work);
            let side = named(sides(work), side);
            let paths = [paths(work), &[growth::RANDOM]].concat();
            let mut ready = Ready::new(work, side, named(&paths, path), work.counted());
            println!("{}", ready.run());
            ExitCode::SUCCESS
        }
        ["cases"] => {
            search::run_cases(&mut io::stdin().lock());
            ExitCode::SUCCESS
        }
        ["search", generations, seed] => match (generations.parse(), seed.parse()) {
            (Ok(generations), Ok(seed)) => status(search::report(generations, seed)),
            _ => usage(),
        },
        _ => usage(),
    }
}

fn usage() -> ExitCode {
    eprintln!(
        "bench | bench search GENERATIONS SEED | bench cases\n\
         bench count tape|root|text|order|report PATH proved|reference\n\
         bench count planner PATH proved|reference|walk"
    );
    ExitCode::FAILURE
}

/// Fails where the two sides found other numbers.
fn status(agree: bool) -> ExitCode {
    if agree {
        ExitCode::SUCCESS
    } else {
        ExitCode::FAILURE
    }
}

/// The paths that a work is measured on.
fn paths(work: Work) -> &'static [(&'static str, Path)] {
    match work {
        Work::Planner(_) | Work::Tape | Work::Report => &PATHS,
        Work::Root => &STEPS,
        Work::Text | Work::Order => &PATHS[..1],
    }
}

/// The sides that a work is measured by.
fn sides(work: Work) -> &'static [(&'static str, Side)] {
    match work {
        Work::Planner(_) => &PLANNERS,
        _ => &SIDES,
    }
}

/// The choice of a name.
fn named<T: Copy>(choices: &[(&str, T)], name: &str) -> T {
    let found = choices.iter().find(|choice| choice.0 == name);
    found
        .unwrap_or_else(|| panic!("{name} is none of the choices"))
        .1
}

/// Prints the table; fails where the sides found other numbers.
fn table() -> ExitCode {
    println!(
        "{:<18} {:<20} {:>10} {:>10} {:>7} {:>10}",
        "", "per block", "proved", "reference", "ratio", "walk"
    );
    let agree = [
        rows(&WORKS),
        list::report(),
        rows(&TEXTS),
        list::report_text(),
        order_rows(),
        list::report_orders(),
        report_rows(),
        growth::report(),
        single::report(),
        search::report(search::GENERATIONS, search::SEED),
    ];
    status(agree == [true; 10])
}

/// What a block of a work takes on a path by each side: instructions and ns;
/// and the sum of what was found.
struct Measured {
    counts: Vec<Option<f64>>,
    times: Vec<f64>,
    sums: Vec<u64>,
}

impl Measured {
    fn of((work, doing): (&str, Work), (path, over): (&str, Path)) -> Measured {
        let sides = sides(doing);
        let count = |(side, by): &(&str, Side)| count([work, path, side], doing, *by);
        let counts = sides.iter().map(count).collect();
        let found = sides.iter().map(|(_, side)| time(doing, *side, over));
        let (times, sums) = found.unzip();
        Measured {
            counts,
            times,
            sums,
        }
    }

    /// Prints both; false where the sides found other numbers.
    fn print(&self, name: &str) -> bool {
        line(name, "instructions", &self.counts);
        line("", "ns", &some(&self.times));
        alike(name, &self.sums)
    }

    /// Prints by how much it is more than another work on the same blocks.
    fn print_beyond(&self, name: &str, less: &Measured) {
        let both = self.counts.iter().zip(&less.counts);
        let counts = both.map(|(more, less)| Some((*more)? - (*less)?));
        line(name, "instructions", &counts.collect::<Vec<_>>());
        let both = self.times.iter().zip(&less.times);
        let times = both.map(|(more, less)| Some(more - less));
        line("", "ns", &times.collect::<Vec<_>>());
    }
}

/// Numbers that there are.
fn some(numbers: &[f64]) -> Vec<Option<f64>> {
    numbers.iter().copied().map(Some).collect()
}

/// False where the sums of what the sides found differ, which it says.
fn alike(name: &str, sums: &[u64]) -> bool {
    let alike = sums.iter().all(|sum| *sum == sums[0]);
    if !alike {
        eprintln!("{name}: the sums of what was found differ: {sums:?}");
    }
    alike
}

/// Prints the rows of some works; false where the sides found other numbers.
fn rows(works: &[(&str, Work)]) -> bool {
    let mut agree = true;
    for work in works {
        for path in paths(work.1) {
            let measured = Measured::of(*work, *path);
            agree &= measured.print(&format!("{}, {}", work.0, path.0));
            if matches!(work.1, Work::Text) {
                // each block is a line
                let lines = measured.times.iter().map(|ns| Some(1e9 / ns));
                line("", "lines a second", &lines.collect::<Vec<_>>());
            }
        }
    }
    agree
}

/// Prints what a take and a plain add of each block take on the mould, beside
/// that a take and an order of the same block, and by how much the order is
/// more. False where the exits are not the same.
fn order_rows() -> bool {
    let [add, order] = [ADD, ORDER].map(|work| Measured::of(work, PATHS[0]));
    let agree = [add.print("add, mould"), order.print("order, mould")];
    order.print_beyond("order beyond add", &add);
    let exits = order.sums[0] == add.sums[0];
    if !exits {
        eprintln!("order, mould: the exits are not those of the adds");
    }
    agree == [true; 2] && exits
}

/// Prints what each block of the longest tape of each path takes in a report, and
/// by how much that is more than in the tape's plan. False where the two sides
/// found other numbers.
fn report_rows() -> bool {
    let mut agree = true;
    for path in PATHS {
        let [plan, report] = [PLAN, REPORT].map(|work| Measured::of(work, path));
        agree &= report.print(&format!("report, {}", path.0));
        report.print_beyond("beyond the plan", &plan);
    }
    agree
}

/// One line: the sides' numbers, with proved / reference behind these two; a dash
/// where there is no number.
fn line(name: &str, unit: &str, numbers: &[Option<f64>]) {
    let reference = numbers.get(1).copied().flatten();
    let ratio = numbers[0].zip(reference).map(|(p, r)| p / r);
    print_line([name, unit], numbers, ratio);
}

/// One line of numbers that are no costs.
fn line_without_ratio(name: &str, unit: &str, numbers: &[Option<f64>]) {
    print_line([name, unit], numbers, None);
}

fn print_line([name, unit]: [&str; 2], numbers: &[Option<f64>], ratio: Option<f64>) {
    let dash = || "-".to_string();
    let text = |number: &Option<f64>| number.map_or_else(dash, |n| format!("{n:.1}"));
    let ratio = ratio.map_or_else(dash, |r| format!("{r:.2}"));
    let proved = text(&numbers[0]);
    let reference = numbers.get(1).map_or_else(dash, text);
    let walk = numbers.get(2).map_or_else(String::new, text);
    let line = format!("{name:<18} {unit:<20} {proved:>10} {reference:>10} {ratio:>7} {walk:>10}");
    println!("{}", line.trim_end());
}

/// Shortest time per block, ns, and the sum of what was found.
fn time(work: Work, side: Side, path: Path) -> (f64, u64) {
    let mut best = f64::INFINITY;
    let mut sum = 0;
    for _ in 0..ROUNDS {
        let mut ready = Ready::new(work, side, path, TIMES * work.counted());
        let begin = Instant::now();
        sum = ready.run();
        best = best.min(begin.elapsed().as_nanos() as f64 / ready.blocks() as f64);
    }
    (best, sum)
}

/// Instructions per block of the names' work by a side.
fn count([work, path, side]: [&str; 3], doing: Work, by: Side) -> Option<f64> {
    let own = env::current_exe().expect("a program");
    let words = ["count", work, path, side];
    let total = callgrind::instructions(&own, &words, Stdio::null(), Some(doing.function(by)))?;
    Some(total as f64 / doing.counted() as f64)
}
