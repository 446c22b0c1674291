//! The chord rule by its geometry, and how often drawn blocks show it.

use std::cmp::Ordering;
use std::collections::BTreeMap;

use reference::circle::{middle_is_within, SQUARED_MICROS};
use reference::generate::{limits, machine_m, path, tape, tight_path, tight_radius, with_chord};
use reference::machine::*;
use reference::machine_cases::{block, cases, Case};
use reference::quick::plan_of;
use reference::rng::Rng;
use reference::tape::read_tape;

/// A speed, µm/s, whose square is above every chord cap.
const ABOVE_EVERY_CAP: u64 = 4_000_000_000;

/// The machine of good limits without loaded torque steps.
fn unloaded(limits: Limits) -> Machine {
    Machine::of(&limits, &[]).expect("good limits")
}

/// Chord cap alone, (µm/s)², of a radius R, µm.
fn chord_cap(limits: &Limits, radius: u64) -> u64 {
    let curved = Block {
        radius,
        ..block(1_000, 0, 0)
    };
    block_cap(limits, &curved, ABOVE_EVERY_CAP)
}

/// Machine M first; then the ends of E and T with radii of 1 and one below E.
#[test]
fn caps_of_given_radii() {
    let on_m = |radius| chord_cap(&machine_m(), radius);
    assert_eq!([1, 2, 3].map(on_m), [1_000_000, 3_000_000, 5_000_000]);
    assert_eq!(on_m(1_000), 1_999_000_000);
    assert_eq!(on_m(10_000_000), 19_999_999_000_000);
    assert_eq!(chord_cap(&with_chord(1_000, 100), 1), 400_000_000);
    assert_eq!(chord_cap(&with_chord(1_000, 100), 999), 399_200_400_000_000);
    assert_eq!(chord_cap(&with_chord(1, 10_000), 1), 40_000);
}

/// The chord cap is the greatest squared speed within the tolerance, for radii
/// below it, at it and above it.
#[test]
fn cap_is_the_greatest_within_tolerance() {
    let mut rng = Rng::new(0);
    let mut met = BTreeMap::new();
    for _ in 0..40_000 {
        let chord = rng.spread(*range::CHORD.start(), *range::CHORD.end());
        let tick = rng.spread(*range::TICK.start(), *range::TICK.end());
        let radius = match rng.below(3) {
            0 => rng.spread(1, *range::RADIUS.end()),
            _ => tight_radius(&mut rng, chord),
        };
        let limits = with_chord(chord, tick);
        let q = chord_cap(&limits, radius);
        let drawn = (chord, tick, radius);
        assert!(middle_is_within(&limits, radius, q), "{drawn:?}");
        assert!(!middle_is_within(&limits, radius, q + 1), "{drawn:?}");
        *met.entry(radius.cmp(&chord)).or_insert(0) += 1;
    }
    println!("{met:?}");
    let often = met.values().all(|times| *times > 1_000);
    assert!(met.len() == 3 && often, "{met:?}");
}

/// Right sides, / 10^12, that are not the chord rule's, from E and R.
type Side = fn(u128, u128) -> u128;
const WRONG_SIDES: [(&str, Side); 4] = [
    ("8 × E × R", |e, r| 8 * e * r),
    ("E for e", |e, r| (8 * e * r).saturating_sub(4 * e * e)),
    ("R for e", |_, r| 4 * r * r),
    ("4 × e × R for 4 × e × e", |e, r| 4 * e.min(r) * r),
];

/// Chords of one kind: R below E, at E, or above E up to twice E.
#[derive(Default, Debug)]
struct Near {
    drawn: u64,
    /// Those with a block cap below v squared.
    held: u64,
    /// Those of the held ones whose peak in the plan is that cap.
    at_peak: u64,
}

/// How much drawn blocks show of the chord rule.
#[derive(Default, Debug)]
struct Shown {
    blocks: u64,
    near: BTreeMap<Ordering, Near>,
    /// Chords of any radius whose block cap a wrong side would change.
    told: BTreeMap<&'static str, u64>,
}

impl Shown {
    /// What the paths on their machines show.
    fn of(paths: impl Iterator<Item = (Machine, Vec<Block>)>) -> Shown {
        let mut shown = Shown::default();
        for (machine, blocks) in paths {
            let plan = plan_of(&machine, &blocks).expect("a plan");
            for (block, speeds) in blocks.iter().zip(plan.windows(2)) {
                shown.count(&machine, block, speeds);
            }
        }
        println!("{shown:?}");
        shown
    }

    /// Counts a block with the squared speeds at its begin and end.
    fn count(&mut self, machine: &Machine, block: &Block, speeds: &[u64]) {
        self.blocks += 1;
        if block.radius == 0 {
            return;
        }
        let numbers = Numbers::of(machine, block);
        let limits = &machine.limits;
        let squared = numbers.speed.pow(2);
        let [e, r, t] = [limits.chord, block.radius, limits.tick].map(u128::from);
        if r <= 2 * e {
            let near = self.near.entry(r.cmp(&e)).or_default();
            let held = numbers.cap < squared;
            let peak = ramp_of(&numbers, speeds[0], speeds[1]).peak;
            near.drawn += 1;
            near.held += u64::from(held);
            near.at_peak += u64::from(held && peak == numbers.cap);
        }
        for (name, side) in WRONG_SIDES {
            let cap = (side(e, r) * SQUARED_MICROS / (t * t)).min(squared.into());
            *self.told.entry(name).or_default() += u64::from(cap != numbers.cap.into());
        }
    }
}

/// Checks that of the chords of each kind at least `percent` in a hundred are
/// held and at least `peaks` have their cap at the peak, and that each wrong
/// side would change at least `told` block caps.
fn check(shown: &Shown, percent: u64, peaks: u64, told: u64) {
    let enough = |near: &Near| 100 * near.held >= percent * near.drawn && near.at_peak >= peaks;
    assert!(
        shown.near.len() == 3 && shown.near.values().all(enough),
        "{shown:?}"
    );
    let each = shown.told.values().all(|times| *times >= told);
    assert!(shown.told.len() == WRONG_SIDES.len() && each, "{shown:?}");
}

/// On limits drawn apart from the path, where a slow axis holds most chords
/// back further than the chord rule, a wrong side still changes one block cap
/// in 160 or more.
#[test]
fn paths_show_the_rule() {
    let drawn = |mut rng: Rng| (unloaded(limits(&mut rng)), path(&mut rng, 12));
    let shown = Shown::of((0..4_000).map(|seed| drawn(Rng::new(seed))));
    assert_eq!(shown.blocks, 48_000);
    check(&shown, 5, 50, 300);
}

/// Over tight curves two chords in five or more of each kind are held by the
/// chord rule, and a wrong side changes one block cap in ten or more.
#[test]
fn tight_paths_show_the_rule() {
    let drawn = |seed| tight_path(&mut Rng::new(seed), 12);
    let paths = (0..4_000).map(drawn);
    let shown = Shown::of(paths.map(|(limits, blocks)| (unloaded(limits), blocks)));
    assert_eq!(shown.blocks, 48_000);
    check(&shown, 40, 1_000, 4_800);
}

/// On drawn tapes three chords in ten or more of each kind are held by the
/// chord rule, and 1,000 or more of each are listed with its cap as their peak.
#[test]
fn tapes_show_the_rule() {
    let drawn = |seed| read_tape(&tape(&mut Rng::new(seed))).expect("an accepted tape");
    let tapes = (0..1_000).map(drawn);
    let shown = Shown::of(tapes.map(|tape| (unloaded(tape.limits), tape.blocks)));
    check(&shown, 30, 1_000, 4_000);
}

/// The machine's cases of the test program `calls_run`, which answers block caps
/// and no peaks; those that a check refuses are left out.
#[test]
fn machine_cases_show_the_rule() {
    let accepted = |case: Case| {
        let blocks = vec![case.before, case.after];
        let machine = Machine::of(&case.limits, &case.steps).ok()?;
        let good = blocks.iter().all(|b| check_block(b).is_ok());
        good.then_some((machine, blocks))
    };
    let shown = Shown::of(cases().into_iter().filter_map(accepted));
    check(&shown, 30, 0, 40);
}
