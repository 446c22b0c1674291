//! The most that an add and a take cost, by a search over what they can be given:
//! random cases, and changes of the dearest found so far. Seeded and in whole
//! numbers, so the same library gives the same result on every machine.

mod case;
mod changes;
mod known;
mod run;

use std::cmp::Reverse;
use std::env;
use std::fs::File;
use std::path::Path;
use std::process::Stdio;
use std::slice;

use compare::programs::OwnFile;
use reference::rng::Rng;

use crate::callgrind::{first_call, single_calls};
use crate::line;
use case::Case;
pub use run::run_cases;
use run::{alike, bytes_of};

/// Generations of `make bench`, which are those of one climb; cases of each, and
/// cases that are kept from one to the next.
pub const GENERATIONS: usize = 25;
const CASES: usize = 400;
const KEPT: usize = 24;

/// Every so many climbs one begins with the dearest of all before it.
const RETURN: usize = 4;

/// Seed of the search of `make bench`.
pub const SEED: u64 = 20_030_619;

/// The call whose instructions are sought.
#[derive(Clone, Copy, Debug, PartialEq, Eq)]
pub enum Goal {
    Add,
    Take,
}

impl Goal {
    fn function(self) -> &'static str {
        match self {
            Goal::Add => "fullerecru_add",
            Goal::Take => "fullerecru_take",
        }
    }
}

/// Prints the most that an add and a take were found to take, and by what. False
/// where the two sides found other numbers in a case.
pub fn report(generations: usize, seed: u64) -> bool {
    let mut agree = true;
    for (name, goal) in [
        ("most of an add", Goal::Add),
        ("most of a take", Goal::Take),
    ] {
        let mut search = Search::begin(goal, seed);
        for generation in 0..generations {
            agree &= search.step(generation);
        }
        search.print(name);
    }
    agree
}

/// A case with the instructions of its last call.
type Counted = (u64, Case);

/// Dearer cases come first, and of equally dear ones that of fewer runs.
fn rank((count, case): &Counted) -> (Reverse<u64>, usize) {
    (Reverse(*count), case.runs().len())
}

/// A search that goes on: climbs of 25 generations, each from other cases.
struct Search {
    goal: Goal,
    rng: Rng,
    /// The dearest cases of this climb, the dearest first.
    kept: Vec<Counted>,
    /// The dearest case of each climb, this one's included.
    climbs: Vec<Counted>,
    tried: usize,
}

impl Search {
    /// Nothing tried yet.
    fn begin(goal: Goal, seed: u64) -> Search {
        Search {
            goal,
            rng: Rng::new(seed),
            kept: Vec::new(),
            climbs: Vec::new(),
            tried: 0,
        }
    }

    /// One generation, counted from 0. False where the two sides found other
    /// numbers.
    fn step(&mut self, generation: usize) -> bool {
        let begins = generation.is_multiple_of(GENERATIONS);
        if begins {
            let returns = (generation / GENERATIONS).is_multiple_of(RETURN);
            self.kept = match returns {
                true => self.climbs.clone(),
                false => Vec::new(),
            };
        }
        let cases = self.cases();
        let agree = cases.iter().all(|case| alike(case, self.goal));
        if let Some(counts) = counted(&cases, self.goal) {
            self.tried += cases.len();
            self.keep(counts.into_iter().zip(cases).collect());
            self.note(begins);
        }
        agree
    }

    /// Keeps the dearest of the found and the kept. Of equals the newest stays, so
    /// that a climb can go on along them.
    fn keep(&mut self, mut found: Vec<Counted>) {
        found.append(&mut self.kept);
        found.sort_by_key(rank);
        found.dedup_by_key(|case| rank(case));
        found.truncate(KEPT);
        self.kept = found;
    }

    /// Notes the dearest case of the climb where it is dearer than before.
    fn note(&mut self, begins: bool) {
        let dearest = self.kept[0].clone();
        match self.climbs.last_mut() {
            Some(last) if !begins => {
                if rank(&dearest) < rank(last) {
                    *last = dearest;
                }
            }
            _ => self.climbs.push(dearest),
        }
    }

    /// The cases of the next generation: changes of the kept, mixtures of two, and
    /// new ones, all of them new where none is kept. The first generation has the
    /// dearest known.
    fn cases(&mut self) -> Vec<Case> {
        let mut cases = match self.tried {
            0 => known::cases(self.goal),
            _ => Vec::new(),
        };
        while cases.len() < CASES {
            let case = self.next_case();
            cases.push(case);
        }
        cases
    }

    fn next_case(&mut self) -> Case {
        let rng = &mut self.rng;
        if self.kept.is_empty() {
            return Case::drawn(rng);
        }
        let count = self.kept.len() as u64;
        let [one, other] = [(); 2].map(|_| &self.kept[rng.below(count) as usize].1);
        match rng.below(6) {
            0 => Case::drawn(rng),
            1 => one.mixed(other, rng),
            _ => one.changed(rng),
        }
    }

    /// Prints the dearest case of all climbs.
    fn print(&self, name: &str) {
        let found = self.climbs.iter().min_by_key(|case| rank(case));
        let most = found.map(|(count, _)| *count as f64);
        line(name, "instructions", &[most]);
        line("", "cases tried", &[Some(self.tried as f64)]);
        let Some((_, case)) = found else { return };
        for (function, own) in parts(case, self.goal) {
            println!("    {own:>5} in {function}");
        }
        println!("{}", case.words());
    }
}

/// Instructions of the last call of each case. None where there is no valgrind.
fn counted(cases: &[Case], goal: Goal) -> Option<Vec<u64>> {
    let counts = with_cases(cases, goal, single_calls)?;
    assert_eq!(counts.len(), cases.len(), "a call counted for each case");
    Some(counts)
}

/// Where the instructions of a case's last call are.
fn parts(case: &Case, goal: Goal) -> Vec<(String, u64)> {
    with_cases(slice::from_ref(case), goal, first_call).unwrap_or_default()
}

/// What callgrind counts of the last calls of cases.
fn with_cases<T>(
    cases: &[Case],
    goal: Goal,
    count: impl Fn(&Path, &[&str], Stdio, [&str; 2]) -> T,
) -> T {
    let bytes: Vec<u8> = cases.iter().flat_map(|case| bytes_of(case, goal)).collect();
    let file = OwnFile::of(&bytes);
    let input = Stdio::from(File::open(&file.path).expect("the file just written"));
    let own = env::current_exe().expect("a program");
    count(&own, &["cases"], input, [goal.function(), run::LAST_CALL])
}
