//! The count that leaves out the loading of the first step. The least number of warm-ups that a feasible plan has from
//! its second step on is what plan and chart must report of the sheet with all units in its start set, as their total
//! or as the place of refusal 9. On drawn sheets of few units and steps it is found from all plans, one by one, and on
//! longer ones from all first sets.

mod common;
mod reference;

use common::random::Random;
use common::sheets::{draw, one_chamber, set_bound, some_chambers, Campaign, Family, Rack, Racks};
use common::tally::Tally;
use reference::exact::Exact;
use reference::{all_plans, feasible, total, units_below, Sheet};
use warm::{Error, STEPS};

/// The least, over all feasible plans, of the warm-ups from the second step on.
fn least_by_plans(campaign: &Campaign) -> u32 {
    let later_total = |plan: &Vec<u64>| plan.split_first().map_or(0, |(&first, later)| total(first, later));
    all_plans(&campaign.sheet()).iter().map(later_total).min().unwrap()
}

/// The same, over all feasible sets of the first step: the fewest warm-ups of the later steps with that set on before
/// them.
fn least_by_first_sets(campaign: &Campaign) -> u32 {
    let Some((first, later)) = campaign.steps.split_first() else {
        return 0;
    };
    let fewest = |start| Exact::new(&Sheet { start, steps: later.to_vec(), ..campaign.sheet() }).fewest();
    (0..1 << campaign.units()).filter(|&set| feasible(campaign.rack.chambers, first, set)).map(fewest).min().unwrap()
}

/// The sheet of a campaign, among unused records, with all units in its start set.
fn restarted(campaign: &Campaign, random: &mut Random) -> Vec<u8> {
    let mut sheet = campaign.scattered(random.below(4), random);
    sheet[16..24].copy_from_slice(&units_below(campaign.units()).to_le_bytes());
    sheet
}

/// What plan and chart report.
fn reported(sheet: &[u8]) -> [Result<u32, (u32, u32)>; 2] {
    let mut words = [[0; STEPS]; 3];
    let [plan, on, off] = &mut words;
    let totals = [warm::plan(sheet, plan).map(|plan| plan.total), warm::chart(sheet, on, off).map(|chart| chart.total)];
    totals.map(|total| total.map_err(Error::numbers))
}

/// Compares drawn sheets of each family, with bounds below, at and above the least number.
fn compare(seed: u64, rounds: usize, racks: Racks, units: usize, steps: usize, least: fn(&Campaign) -> u32) -> Tally {
    let mut random = Random::new(seed);
    let mut tally = Tally::default();
    for _ in 0..rounds {
        for family in Family::ALL {
            let rack = racks(random.between(1, units), &mut random);
            rack.count(&mut tally);
            let campaign = draw(family, rack, random.between(0, steps), &mut random);
            let least = least(&campaign);
            let mut sheet = restarted(&campaign, &mut random);
            for bound in [least.checked_sub(1), Some(least), Some(least + 1)].into_iter().flatten() {
                set_bound(&mut sheet, u16::try_from(bound).unwrap());
                let expected = if bound < least { Err((9, least)) } else { Ok(least) };
                assert_eq!(reported(&sheet), [expected; 2], "{campaign:?} within {bound}");
                tally.add(if expected.is_ok() { "totals" } else { "refusal 9" }, 2);
            }
            tally.add("sheets without a step", u64::from(campaign.steps.is_empty()));
        }
    }
    tally
}

#[test]
fn all_plans_of_few_steps() {
    let tally = compare(41, 400, one_chamber, 4, 5, least_by_plans);
    tally.print("from the second step on, all plans");
    tally.require(&[("totals", 12_800), ("refusal 9", 1500), ("sheets without a step", 400)]);
}

#[test]
fn all_first_sets_of_many_steps() {
    let tally = compare(42, 40, one_chamber, 7, 60, least_by_first_sets);
    tally.print("from the second step on, all first sets");
    tally.require(&[("totals", 1280), ("refusal 9", 400)]);
}

#[test]
fn all_plans_of_few_steps_in_chambers() {
    let tally = compare(43, 400, some_chambers, 4, 5, least_by_plans);
    tally.print("from the second step on, all plans in chambers");
    tally.require(&[("totals", 12_800), ("refusal 9", 1500), ("sheets without a step", 400)]);
    Rack::require(&tally, 150);
}

#[test]
fn all_first_sets_of_many_steps_in_chambers() {
    let tally = compare(44, 40, some_chambers, 7, 60, least_by_first_sets);
    tally.print("from the second step on, all first sets in chambers");
    tally.require(&[("totals", 1280), ("refusal 9", 400)]);
    Rack::require(&tally, 25);
}
