//! Drawn sheets of both editions that pass the checks, at bounds below, at and above the fewest warm-ups: all six
//! entries that read a sheet against the reference.

mod common;
mod reference;

use common::judge::{hex, Judge};
use common::random::Random;
use common::sheets::{draw, one_chamber, set_bound, some_chambers, Campaign, Family, Rack, Racks};
use reference::exact::Exact;
use reference::replies::Replies;
use reference::{has, Sheet};

const CELLS: [&str; 4] = ["can be on", "cannot be on", "can be off", "cannot be off"];

/// The bytes of a campaign: in order, scattered, or scattered among unused records.
fn written(campaign: &Campaign, random: &mut Random) -> Vec<u8> {
    match random.below(3) {
        0 => campaign.bytes(),
        1 => campaign.scattered(0, random),
        _ => {
            let room = 256 - campaign.steps.len();
            let unused = if random.one_in(4) { room } else { random.between(0, room.min(9)) };
            campaign.scattered(unused, random)
        }
    }
}

/// The fewest warm-ups less 1, and 0, 1, 2 and very many more.
fn bounds(fewest: u32) -> Vec<u16> {
    let fewest = u16::try_from(fewest).unwrap();
    let below = fewest.checked_sub(1);
    below.into_iter().chain([fewest, fewest + 1, fewest + 2, u16::MAX]).collect()
}

/// Sheets that are drawn: from a seed, one of each family so many times, on such racks.
#[derive(Clone, Copy)]
struct Draws {
    seed: u64,
    rounds: usize,
    racks: Racks,
}

/// The seed and the rounds of sheets of edition 1.
fn edition_1(seed: u64, rounds: usize) -> Draws {
    Draws { seed, rounds, racks: one_chamber }
}

/// The seed and the rounds of sheets of edition 2.
fn edition_2(seed: u64, rounds: usize) -> Draws {
    Draws { seed, rounds, racks: some_chambers }
}

/// The sheets of drawn campaigns, each of so many units and steps.
fn for_each_sheet(
    draws: Draws,
    size: impl Fn(&mut Random) -> (usize, usize),
    mut compare: impl FnMut(Rack, Vec<u8>, &mut Random),
) {
    let mut random = Random::new(draws.seed);
    for _ in 0..draws.rounds {
        for family in Family::ALL {
            let (units, steps) = size(&mut random);
            let rack = (draws.racks)(units, &mut random);
            let sheet = written(&draw(family, rack, steps, &mut random), &mut random);
            compare(rack, sheet, &mut random);
        }
    }
}

/// Compares all entries at all bounds.
fn compare_all(judge: &mut Judge, draws: Draws, size: impl Fn(&mut Random) -> (usize, usize)) {
    compare_by(Exact::new, judge, draws, size);
}

/// The same, with the fewest warm-ups found in one way.
fn compare_by(
    exact: fn(&Sheet) -> Exact,
    judge: &mut Judge,
    draws: Draws,
    size: impl Fn(&mut Random) -> (usize, usize),
) {
    for_each_sheet(draws, size, |rack, mut sheet, _| {
        rack.count(&mut judge.tally);
        let replies = Replies::by(&sheet, exact);
        for bound in bounds(replies.fewest()) {
            set_bound(&mut sheet, bound);
            judge.all(&sheet, &replies.with_bound(bound));
        }
        judge.count_costs(&replies);
    });
}

/// For sheets of any size: whole charts come from forced runs, all else from the flow; and so many cells are looked up
/// in the flow as well.
fn compare_large(judge: &mut Judge, draws: Draws, lookups: usize, size: impl Fn(&mut Random) -> (usize, usize)) {
    for_each_sheet(draws, size, |rack, mut sheet, random| {
        rack.count(&mut judge.tally);
        let (flow, forced) = (Replies::by(&sheet, Exact::flow), Replies::by(&sheet, Exact::forced));
        let cells = draw_cells(&flow, lookups, random);
        for bound in bounds(flow.fewest()) {
            set_bound(&mut sheet, bound);
            judge.all_but_chart(&sheet, &flow.with_bound(bound));
            let words = judge.long_enough_chart(&sheet, &forced.with_bound(bound));
            if u32::from(bound) >= flow.fewest() {
                look_up(judge, &sheet, &words, bound, &cells);
            }
        }
        judge.count_costs(&forced);
    });
}

/// A cell of a chart, and the least total of a plan that has it.
struct Cell {
    step: usize,
    u: usize,
    on: bool,
    cheapest: Option<u32>,
}

fn draw_cells(replies: &Replies, count: usize, random: &mut Random) -> Vec<Cell> {
    let sheet = replies.sheet.as_ref().unwrap();
    let mut draw = || {
        let (step, u, on) = (random.below(sheet.steps.len()), random.below(sheet.units), random.one_in(2));
        Cell { step, u, on, cheapest: replies.cheapest(step, u, on) }
    };
    let count = if sheet.steps.is_empty() { 0 } else { count };
    (0..count).map(|_| draw()).collect()
}

/// Compares drawn cells with the words of a chart.
fn look_up(judge: &mut Judge, sheet: &[u8], words: &[Vec<u64>; 2], bound: u16, cells: &[Cell]) {
    for &Cell { step, u, on, cheapest } in cells {
        let can_be = cheapest.is_some_and(|total| total <= u32::from(bound));
        let word = words[usize::from(!on)][step];
        assert_eq!(has(word, u), can_be, "step {step}, unit {u}, on {on}, for the sheet {}", hex(sheet));
        judge.tally.add(if can_be { "looked up, can be" } else { "looked up, cannot be" }, 1);
    }
}

fn finish(judge: &Judge, test: &str, least: u64) {
    judge.tally.print(test);
    judge.tally.require(&["step lists", "plans", "charts", "accepted"].map(|kind| (kind, least)));
    // Refusal 9 from plan and chart, and the verdict on the plan at the same bound.
    judge.tally.require(&[("refusal 9", least / 4), ("turned down", least / 8)]);
    judge.tally.require(&CELLS.map(|kind| (kind, 4 * least)));
    judge.tally.require(&[("for nothing", 4 * least), ("for 1", least), ("for 2", least / 16), ("never", least)]);
    assert_eq!(judge.tally.of("for more"), 0, "one unit in one step never costs more than two warm-ups");
}

#[test]
fn few_units() {
    let mut judge = Judge::new(11);
    compare_all(&mut judge, edition_1(11, 800), |random| (random.between(1, 8), random.below(13)));
    finish(&judge, "few units", 20_000);
}

#[test]
fn few_units_many_steps() {
    let mut judge = Judge::new(12);
    compare_all(&mut judge, edition_1(12, 80), |random| (random.between(1, 12), random.between(13, 64)));
    compare_all(&mut judge, edition_1(13, 20), |random| (random.between(1, 12), random.between(65, 256)));
    compare_all(&mut judge, edition_1(14, 2), |_| (12, 256));
    finish(&judge, "few units, many steps", 3000);
}

/// All sets of 16 units, over as many steps as a sheet can have.
#[test]
fn sixteen_units() {
    let mut judge = Judge::new(21);
    compare_by(Exact::all_sets, &mut judge, edition_1(21, 2), |random| {
        (random.between(13, 16), random.between(17, 256))
    });
    compare_by(Exact::all_sets, &mut judge, edition_1(22, 1), |_| (16, 256));
    finish(&judge, "sixteen units", 80);
}

#[test]
fn many_units_few_steps() {
    let mut judge = Judge::new(15);
    compare_all(&mut judge, edition_1(15, 60), |random| (random.between(13, 64), random.below(9)));
    compare_all(&mut judge, edition_1(16, 6), |random| (random.between(40, 64), random.between(9, 24)));
    compare_all(&mut judge, edition_1(17, 1), |_| (64, 32));
    finish(&judge, "many units, few steps", 1500);
}

#[test]
fn middle_sizes() {
    let mut judge = Judge::new(18);
    compare_all(&mut judge, edition_1(18, 20), |random| (random.between(13, 24), random.between(9, 48)));
    compare_all(&mut judge, edition_1(19, 2), |random| (random.between(13, 32), random.between(49, 96)));
    finish(&judge, "middle sizes", 500);
}

#[test]
fn any_size() {
    let mut judge = Judge::new(20);
    compare_large(&mut judge, edition_1(20, 10), 40, |random| (random.between(1, 64), random.below(257)));
    finish(&judge, "any size", 250);
    judge.tally.require(&[("looked up, can be", 6000), ("looked up, cannot be", 2000)]);
}

#[test]
fn full_size() {
    let mut judge = Judge::new(23);
    compare_large(&mut judge, edition_1(23, 1), 200, |_| (64, 256));
    compare_large(&mut judge, edition_1(24, 1), 200, |random| (random.between(57, 64), random.between(241, 256)));
    finish(&judge, "full size", 60);
    judge.tally.require(&[("looked up, can be", 8000), ("looked up, cannot be", 2000)]);
}

#[test]
fn few_units_in_chambers() {
    let mut judge = Judge::new(81);
    compare_all(&mut judge, edition_2(81, 1000), |random| (random.between(1, 8), random.below(13)));
    finish(&judge, "few units in chambers", 20_000);
    Rack::require(&judge.tally, 800);
}

#[test]
fn few_units_many_steps_in_chambers() {
    let mut judge = Judge::new(82);
    compare_all(&mut judge, edition_2(82, 80), |random| (random.between(1, 12), random.between(13, 64)));
    compare_all(&mut judge, edition_2(83, 20), |random| (random.between(1, 12), random.between(65, 256)));
    compare_all(&mut judge, edition_2(84, 2), |_| (12, 256));
    finish(&judge, "few units, many steps in chambers", 3000);
    Rack::require(&judge.tally, 100);
}

#[test]
fn sixteen_units_in_chambers() {
    let mut judge = Judge::new(85);
    compare_by(Exact::all_sets, &mut judge, edition_2(85, 2), |random| {
        (random.between(13, 16), random.between(17, 256))
    });
    compare_by(Exact::all_sets, &mut judge, edition_2(86, 1), |_| (16, 256));
    finish(&judge, "sixteen units in chambers", 80);
    Rack::require(&judge.tally, 2);
}

#[test]
fn many_units_few_steps_in_chambers() {
    let mut judge = Judge::new(87);
    compare_all(&mut judge, edition_2(87, 60), |random| (random.between(13, 64), random.below(9)));
    compare_all(&mut judge, edition_2(88, 6), |random| (random.between(40, 64), random.between(9, 24)));
    compare_all(&mut judge, edition_2(89, 1), |_| (64, 32));
    finish(&judge, "many units, few steps in chambers", 1500);
    Rack::require(&judge.tally, 80);
}

#[test]
fn any_size_in_chambers() {
    let mut judge = Judge::new(90);
    compare_large(&mut judge, edition_2(90, 10), 40, |random| (random.between(1, 64), random.below(257)));
    finish(&judge, "any size in chambers", 250);
    judge.tally.require(&[("looked up, can be", 6000), ("looked up, cannot be", 2000)]);
    Rack::require(&judge.tally, 10);
}

/// As many units and steps as a sheet can have, in drawn chambers, in four alike, and in the last one alone.
#[test]
fn full_size_in_chambers() {
    let mut judge = Judge::new(91);
    compare_large(&mut judge, edition_2(91, 1), 200, |_| (64, 256));
    let racks: [Racks; 2] = [|_, _| [16, 16, 16, 16].into(), |_, _| [0, 0, 0, 64].into()];
    for (seed, racks) in (92..).zip(racks) {
        compare_large(&mut judge, Draws { seed, rounds: 1, racks }, 50, |_| (64, 256));
    }
    finish(&judge, "full size in chambers", 90);
    judge.tally.require(&[("looked up, can be", 6000), ("looked up, cannot be", 1500)]);
    judge.tally.require(&[("one chamber", 8), ("four chambers", 8)]);
}
