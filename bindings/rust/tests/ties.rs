//! Ties broken by other orders than the house rule. On drawn sheets of both editions, with an order drawn for each
//! step, FindSupport's plan is feasible and has the total that the library reports, and the verdict accepts it; on
//! sheets of few units this is also the least total found from all sets.

mod common;
mod reference;

use common::random::Random;
use common::sheets::{draw, one_chamber, some_chambers, Campaign, Family, Rack, Racks};
use common::tally::Tally;
use reference::exact::Exact;
use reference::reading::read;
use reference::support::find_support_by;
use reference::{feasible, total};
use warm::STEPS;

/// For so many units the least total is found from all sets.
const FEW: usize = 6;

/// For each step an order of the units: the unit with the lesser number goes first.
fn draw_orders(campaign: &Campaign, random: &mut Random) -> Vec<Vec<usize>> {
    let mut order: Vec<usize> = (0..campaign.units()).collect();
    let draw = |_| {
        random.shuffle(&mut order);
        order.clone()
    };
    campaign.steps.iter().map(draw).collect()
}

/// Compares one plan, made with drawn orders.
fn compare_one(campaign: &Campaign, random: &mut Random, tally: &mut Tally) {
    let unused = random.below(4).min(STEPS - campaign.steps.len());
    let bytes = campaign.scattered(unused, random);
    let sheet = read(&bytes).unwrap();
    let orders = draw_orders(campaign, random);
    let plan = find_support_by(&sheet, |i, u| orders[i - 1][u]);
    let mut words = [0; STEPS];
    let handed = warm::plan(&bytes, &mut words).unwrap();
    let judged = warm::verdict(&bytes, &plan).unwrap();
    assert!(sheet.steps.iter().zip(&plan).all(|(step, &set)| feasible(sheet.chambers, step, set)), "{campaign:?}");
    assert_eq!(total(sheet.start, &plan), handed.total, "{campaign:?}");
    assert_eq!((judged.accepted, judged.total), (true, handed.total), "{campaign:?}");
    if sheet.units <= FEW {
        assert_eq!(Exact::all_sets(&sheet).fewest(), handed.total, "{campaign:?}");
    }
    tally.add("plans", 1);
    tally.add("not the one handed out", u64::from(plan != handed.sets));
}

/// Compares plans of drawn sheets of each family.
fn compare(seed: u64, rounds: usize, racks: Racks, units: usize, steps: usize) -> Tally {
    let mut random = Random::new(seed);
    let mut tally = Tally::default();
    for _ in 0..rounds {
        for family in Family::ALL {
            let rack = racks(random.between(1, units), &mut random);
            rack.count(&mut tally);
            let drawn = draw(family, rack, random.between(0, steps), &mut random);
            compare_one(&Campaign { bound: u16::MAX, ..drawn }, &mut random, &mut tally);
        }
    }
    tally
}

#[test]
fn orders_of_few_units() {
    let tally = compare(51, 600, one_chamber, FEW, 20);
    tally.print("ties by drawn orders, few units");
    tally.require(&[("plans", 4800), ("not the one handed out", 1000)]);
}

#[test]
fn orders_of_many_units() {
    let tally = compare(52, 30, one_chamber, 64, STEPS);
    tally.print("ties by drawn orders, many units");
    tally.require(&[("plans", 240), ("not the one handed out", 150)]);
}

#[test]
fn orders_of_few_units_in_chambers() {
    let tally = compare(53, 600, some_chambers, FEW, 20);
    tally.print("ties by drawn orders, few units in chambers");
    tally.require(&[("plans", 4800), ("not the one handed out", 1000)]);
    Rack::require(&tally, 400);
}

#[test]
fn orders_of_many_units_in_chambers() {
    let tally = compare(54, 30, some_chambers, 64, STEPS);
    tally.print("ties by drawn orders, many units in chambers");
    tally.require(&[("plans", 240), ("not the one handed out", 150)]);
    Rack::require(&tally, 30);
}
