//! The program list_sizes on drawn sheets of both editions: how few and how many units may be on in each step, of few
//! units against all sets, of many against the sums over the chambers. In half of the sheets one step has limits that
//! are drawn freely; where no set is feasible in it, the program must refuse the sheet for that step. The bound is 0,
//! which the program does not look at.

mod common;
mod reference;

use common::random::Random;
use common::sheets::{draw, one_chamber, some_chambers, Campaign, Family, Rack, Racks};
use common::tally::Tally;
use reference::reading::check_step;
use reference::{feasible, units_below};
use std::io::Write;
use std::process::{Command, Stdio};
use warm::{ChamberStep, CHAMBERS};

/// Where `./build list_sizes` puts the program.
const PROGRAM: &str = concat!(env!("CARGO_MANIFEST_DIR"), "/../../target/bin/list_sizes");

/// What the program prints for a sheet.
fn printed(sheet: &[u8]) -> String {
    let mut program = Command::new(PROGRAM)
        .stdin(Stdio::piped())
        .stdout(Stdio::piped())
        .spawn()
        .expect("run `./build list_sizes` in the repository, which writes target/bin/list_sizes");
    program.stdin.take().unwrap().write_all(sheet).unwrap();
    let output = program.wait_with_output().unwrap();
    assert!(output.status.success());
    String::from_utf8(output.stdout).unwrap()
}

/// For so many units the sizes are found from all sets.
const FEW: usize = 8;

/// The least and the greatest size of a feasible set; none if no set is feasible.
fn sizes(step: &ChamberStep, rack: Rack) -> Option<(u32, u32)> {
    if rack.units() > FEW {
        return check_step(step, 1, rack.units(), rack.chambers).ok().map(|()| reference::sizes(rack.chambers, step));
    }
    let sets = (0..1u64 << rack.units()).filter(|&set| feasible(rack.chambers, step, set));
    let sizes = sets.map(u64::count_ones);
    Some((sizes.clone().min()?, sizes.max()?))
}

/// What the program must print for a campaign.
fn expected(campaign: &Campaign, tally: &mut Tally) -> String {
    let mut lines = Vec::new();
    let mut several = 0;
    for (i, step) in campaign.steps.iter().enumerate() {
        let number = i + 1;
        let Some((few, many)) = sizes(step, campaign.rack) else {
            tally.add_refusal(7);
            return format!("refused 7 {number}\n");
        };
        several += u64::from(few < many);
        lines.push(format!("{number} {few} {many}\n"));
    }
    tally.add("sheets with sizes", 1);
    tally.add("one size", campaign.steps.len() as u64 - several);
    tally.add("several sizes", several);
    lines.concat()
}

/// A step with any limits: in edition 2, one chamber may have any numbers, and the others have wide ones.
fn any_step(rack: Rack, random: &mut Random) -> ChamberStep {
    let all = units_below(rack.units());
    let (lower, upper) = (random.part(all, 5), all & !random.part(all, 5));
    let mut step = ChamberStep::new(lower, upper, [0; CHAMBERS], [0; CHAMBERS], 0);
    let c = if rack.edition == 1 { 0 } else { random.below(CHAMBERS) };
    if rack.edition == 2 {
        step.greatest = rack.chambers.map(|units| units as u8);
    }
    let mut number = || if random.one_in(4) { random.byte() } else { random.between(0, rack.chambers[c]) as u8 };
    (step.least[c], step.greatest[c]) = (number(), number());
    step.tag = random.word() as u32;
    step
}

fn compare(seed: u64, racks: Racks, most: usize) -> Tally {
    let mut random = Random::new(seed);
    let mut tally = Tally::default();
    for _ in 0..60 {
        for family in Family::ALL {
            let (units, steps) = (random.between(1, most), random.between(0, 40));
            let rack = racks(units, &mut random);
            rack.count(&mut tally);
            let mut campaign = draw(family, rack, steps, &mut random);
            if steps > 0 && random.one_in(2) {
                campaign.steps[random.below(steps)] = any_step(rack, &mut random);
            }
            let sheet = campaign.scattered(random.below(9), &mut random);
            assert_eq!(printed(&sheet), expected(&campaign, &mut tally), "{campaign:?}");
        }
    }
    tally.require(&[("sheets with sizes", 250), ("several sizes", 3000), ("refusal 7", 50)]);
    tally
}

#[test]
fn sizes_of_few_units() {
    let tally = compare(31, one_chamber, FEW);
    tally.print("sizes of few units");
    tally.require(&[("one size", 3000)]);
}

#[test]
fn sizes_of_few_units_in_chambers() {
    let tally = compare(32, some_chambers, FEW);
    tally.print("sizes of few units in chambers");
    tally.require(&[("one size", 3000)]);
    Rack::require(&tally, 50);
}

#[test]
fn sizes_of_many_units_in_chambers() {
    let tally = compare(33, some_chambers, 64);
    tally.print("sizes of many units in chambers");
    tally.require(&[("one size", 800)]);
    Rack::require(&tally, 50);
}
