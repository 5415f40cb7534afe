//! The charts that docs/FORMAT.md shows in words: those of two example sheets, with no warm-up to spare and with one,
//! and that of the same steps with two or more to spare. Each is compared with all plans of its sheet, listed one by
//! one, and then with the page.

mod common;
mod reference;

use common::sheets::set_bound;
use common::tally::Tally;
use reference::reading::read;
use reference::{all_plans, feasible, has, total, Sheet};
use warm::STEPS;

const NONE_TO_SPARE: &[u8] = include_bytes!("../../../examples/none_to_spare.sheet");
const ONE_TO_SPARE: &[u8] = include_bytes!("../../../examples/one_to_spare.sheet");
const PAGE: &str = include_str!("../../../docs/FORMAT.md");

/// For each step the units that can be on, and those that can be off.
type Chart = [Vec<u64>; 2];

/// What the library draws.
fn drawn(bytes: &[u8]) -> Chart {
    let (mut on, mut off) = ([0; STEPS], [0; STEPS]);
    let chart = warm::chart(bytes, &mut on, &mut off).unwrap();
    [chart.on.to_vec(), chart.off.to_vec()]
}

/// The units that are on in some of these sets, and those that are off in some of them.
fn on_and_off(units: usize, sets: impl Iterator<Item = u64>) -> (u64, u64) {
    let all = (1 << units) - 1;
    sets.fold((0, 0), |(on, off), set| (on | set, off | all & !set))
}

/// The chart by its definition: over all plans that meet the sheet.
fn over_all_plans(sheet: &Sheet) -> Chart {
    let plans: Vec<_> = all_plans(sheet).into_iter().filter(|plan| total(sheet.start, plan) <= sheet.bound).collect();
    let step = |i: usize| on_and_off(sheet.units, plans.iter().map(|plan| plan[i]));
    let (on, off) = (0..sheet.steps.len()).map(step).unzip();
    [on, off]
}

/// What each step alone allows, over its feasible sets.
fn step_by_step(sheet: &Sheet) -> Chart {
    let sets = |step| (0..1 << sheet.units).filter(move |&set| feasible(sheet.chambers, step, set));
    let (on, off) = sheet.steps.iter().map(|step| on_and_off(sheet.units, sets(step))).unzip();
    [on, off]
}

/// What the page says of a unit in each step.
fn in_words([on, off]: &Chart, u: usize) -> Vec<&'static str> {
    let word = |(&on, &off)| match (has(on, u), has(off, u)) {
        (true, true) => "either",
        (true, false) => "on",
        (false, true) => "off",
        (false, false) => "neither",
    };
    on.iter().zip(off).map(word).collect()
}

/// The words of the page's line for a unit, after its number.
fn on_the_page(u: usize) -> Vec<&'static str> {
    let label = format!("    unit {u} ");
    let lines: Vec<_> = PAGE.lines().filter_map(|line| line.strip_prefix(&label)).collect();
    assert_eq!(lines.len(), 1, "lines of unit {u}");
    lines[0].split_whitespace().collect()
}

/// The example sheet with another bound, and what the reference's reader makes of it.
fn with_bound(bound: u16) -> (Vec<u8>, Sheet) {
    let mut bytes = NONE_TO_SPARE.to_vec();
    set_bound(&mut bytes, bound);
    let sheet = read(&bytes).unwrap();
    (bytes, sheet)
}

/// With none, one and two warm-ups to spare.
#[test]
fn charts_in_words() {
    let (_, sheet) = with_bound(0);
    let fewest = all_plans(&sheet).iter().map(|plan| total(sheet.start, plan)).min().unwrap() as u16;
    assert_eq!(NONE_TO_SPARE, with_bound(fewest).0);
    assert_eq!(ONE_TO_SPARE, with_bound(fewest + 1).0);
    let charts = [0, 1, 2].map(|spare| {
        let (bytes, sheet) = with_bound(fewest + spare);
        let chart = over_all_plans(&sheet);
        assert_eq!(drawn(&bytes), chart, "{spare} to spare");
        chart
    });
    let mut tally = Tally::default();
    for u in 0..sheet.units {
        let words: Vec<_> = charts.iter().flat_map(|chart| in_words(chart, u)).collect();
        assert_eq!(on_the_page(u), words, "unit {u}");
        tally.add("cells", words.len() as u64);
    }
    tally.print("charts in words");
    tally.require(&[("cells", 36)]);
}

/// With two to spare or more each step alone decides, and with less it does not. The fewest are two.
#[test]
fn charts_step_by_step() {
    for bound in [2, 3, 4, 5, 6, u16::MAX] {
        let (bytes, sheet) = with_bound(bound);
        assert_eq!(drawn(&bytes) == step_by_step(&sheet), bound >= 4, "a bound of {bound}");
    }
}
