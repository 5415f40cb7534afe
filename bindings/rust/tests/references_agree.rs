//! The parts of the reference against each other, for both editions: all sets, the flow and FindSupport give the same
//! fewest warm-ups, and all sets, the flow and forced runs the same chart. The library is not called.

mod common;
mod reference;

use common::random::Random;
use common::sheets::{draw, one_chamber, some_chambers, Family, Rack, Racks};
use common::tally::Tally;
use reference::exact::Exact;
use reference::support::find_support;
use reference::{all_plans, feasible, has, sizes, total, Sheet};

/// A drawn sheet of each family, `rounds` times, with its number of units and of steps by the round.
fn for_each_sheet(
    seed: u64,
    rounds: usize,
    racks: Racks,
    size: impl Fn(usize, &mut Random) -> (usize, usize),
    mut compare: impl FnMut(&mut Tally, &Sheet),
) -> Tally {
    let mut random = Random::new(seed);
    let mut tally = Tally::default();
    for round in 0..rounds {
        for family in Family::ALL {
            let (units, steps) = size(round, &mut random);
            let rack = racks(units, &mut random);
            rack.count(&mut tally);
            compare(&mut tally, &draw(family, rack, steps, &mut random).sheet());
        }
    }
    tally
}

/// Two references on all cells of a sheet.
fn compare(tally: &mut Tally, sheet: &Sheet, one: &Exact, other: &Exact) {
    assert_eq!(one.fewest(), other.fewest(), "{sheet:?}");
    tally.add("fewest", 1);
    for (i, u, on) in cells(sheet) {
        let cheapest = one.cheapest(i, u, on);
        assert_eq!(cheapest, other.cheapest(i, u, on), "step {i}, unit {u}, on {on} of {sheet:?}");
        tally.add_cell(cheapest.map(|total| total - one.fewest()));
    }
}

fn finish(tally: &Tally, test: &str, least: u64) {
    tally.print(test);
    tally.require(&[
        ("fewest", least),
        ("never", least),
        ("for nothing", least),
        ("for 1", least),
        ("for 2", least / 8),
    ]);
    assert_eq!(tally.of("for more"), 0, "one unit in one step never costs more than two warm-ups");
}

fn all_three(tally: &mut Tally, sheet: &Sheet) {
    let all_sets = Exact::all_sets(sheet);
    compare(tally, sheet, &all_sets, &Exact::flow(sheet));
    compare(tally, sheet, &all_sets, &Exact::forced(sheet));
}

#[test]
fn all_sets_flow_and_forced_runs() {
    let tally = for_each_sheet(1, 300, one_chamber, |round, random| (1 + round % 8, random.below(13)), all_three);
    finish(&tally, "all sets, flow and forced runs", 4000);
}

#[test]
fn all_sets_flow_and_forced_runs_in_chambers() {
    let tally = for_each_sheet(6, 300, some_chambers, |round, random| (1 + round % 8, random.below(13)), all_three);
    finish(&tally, "all sets, flow and forced runs in chambers", 4000);
    Rack::require(&tally, 250);
}

fn all_sets_and_forced(tally: &mut Tally, sheet: &Sheet) {
    compare(tally, sheet, &Exact::all_sets(sheet), &Exact::forced(sheet));
}

#[test]
fn all_sets_and_forced_runs() {
    let size = |_, random: &mut Random| (random.between(9, 14), random.below(65));
    let tally = for_each_sheet(4, 30, one_chamber, size, all_sets_and_forced);
    finish(&tally, "all sets and forced runs", 200);
}

#[test]
fn all_sets_and_forced_runs_in_chambers() {
    let size = |_, random: &mut Random| (random.between(9, 14), random.below(65));
    let tally = for_each_sheet(7, 30, some_chambers, size, all_sets_and_forced);
    finish(&tally, "all sets and forced runs in chambers", 200);
    Rack::require(&tally, 10);
}

fn flow_and_forced(tally: &mut Tally, sheet: &Sheet) {
    compare(tally, sheet, &Exact::flow(sheet), &Exact::forced(sheet));
}

#[test]
fn flow_and_forced_runs() {
    let size = |_, random: &mut Random| (random.between(15, 64), random.below(25));
    let tally = for_each_sheet(5, 10, one_chamber, size, flow_and_forced);
    finish(&tally, "flow and forced runs", 80);
}

#[test]
fn flow_and_forced_runs_in_chambers() {
    let size = |_, random: &mut Random| (random.between(15, 64), random.below(25));
    let tally = for_each_sheet(8, 20, some_chambers, size, flow_and_forced);
    finish(&tally, "flow and forced runs in chambers", 160);
    Rack::require(&tally, 5);
}

fn cells(sheet: &Sheet) -> impl Iterator<Item = (usize, usize, bool)> + '_ {
    let units = sheet.units;
    (0..sheet.steps.len()).flat_map(move |i| (0..units).flat_map(move |u| [(i, u, true), (i, u, false)]))
}

fn support_and_flow(tally: &mut Tally, sheet: &Sheet) {
    let plan = find_support(sheet);
    assert!(sheet.steps.iter().zip(&plan).all(|(step, &set)| feasible(sheet.chambers, step, set)), "{sheet:?}");
    assert_eq!(total(sheet.start, &plan), Exact::flow(sheet).fewest(), "{sheet:?}");
    tally.add("fewest", 1);
}

#[test]
fn find_support_and_fewest() {
    let size = |round, random: &mut Random| (random.between(1, 64), random.below(1 + round % 40));
    let tally = for_each_sheet(2, 250, one_chamber, size, support_and_flow);
    tally.print("FindSupport and fewest");
    tally.require(&[("fewest", 1500)]);
}

#[test]
fn find_support_and_fewest_in_chambers() {
    let size = |round, random: &mut Random| (random.between(1, 64), random.below(1 + round % 40));
    let tally = for_each_sheet(9, 250, some_chambers, size, support_and_flow);
    tally.print("FindSupport and fewest in chambers");
    tally.require(&[("fewest", 1500)]);
    Rack::require(&tally, 100);
}

/// All plans of a tiny sheet, one by one.
fn all_sets_by_plans(tally: &mut Tally, sheet: &Sheet) {
    let with_total = |plan: Vec<u64>| (total(sheet.start, &plan), plan);
    let plans: Vec<_> = all_plans(sheet).into_iter().map(with_total).collect();
    let all_sets = Exact::all_sets(sheet);
    assert_eq!(plans.iter().map(|plan| plan.0).min(), Some(all_sets.fewest()), "{sheet:?}");
    tally.add("fewest", 1);
    for (i, u, on) in cells(sheet) {
        let cheapest = plans.iter().filter(|plan| has(plan.1[i], u) == on).map(|plan| plan.0).min();
        assert_eq!(cheapest, all_sets.cheapest(i, u, on), "step {i}, unit {u}, on {on} of {sheet:?}");
        tally.add("cells", 1);
    }
}

#[test]
fn all_sets_and_all_plans() {
    let size = |_, random: &mut Random| (random.between(1, 3), random.below(5));
    let tally = for_each_sheet(3, 150, one_chamber, size, all_sets_by_plans);
    tally.print("all sets and all plans");
    tally.require(&[("fewest", 1000), ("cells", 5000)]);
}

#[test]
fn all_sets_and_all_plans_in_chambers() {
    let size = |_, random: &mut Random| (random.between(1, 4), random.below(5));
    let tally = for_each_sheet(10, 150, some_chambers, size, all_sets_by_plans);
    tally.print("all sets and all plans in chambers");
    tally.require(&[("fewest", 1000), ("cells", 5000)]);
    Rack::require(&tally, 40);
}

/// The sizes of the steps as sums over the chambers, against all sets, and every number between is the size of a set,
/// too.
#[test]
fn sizes_and_all_sets_in_chambers() {
    let size = |_, random: &mut Random| (random.between(1, 8), random.between(1, 12));
    let tally = for_each_sheet(11, 100, some_chambers, size, |tally, sheet| {
        for step in &sheet.steps {
            let (few, many) = sizes(sheet.chambers, step);
            let sets = (0..1u64 << sheet.units).filter(|&set| feasible(sheet.chambers, step, set));
            let mut found: Vec<u32> = sets.map(u64::count_ones).collect();
            found.sort_unstable();
            found.dedup();
            assert_eq!(found, (few..=many).collect::<Vec<u32>>(), "{step:?} of {:?}", sheet.chambers);
            tally.add(if few < many { "several sizes" } else { "one size" }, 1);
        }
    });
    tally.print("sizes and all sets in chambers");
    tally.require(&[("one size", 1000), ("several sizes", 1000)]);
    Rack::require(&tally, 60);
}
