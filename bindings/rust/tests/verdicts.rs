//! Verdicts on plans made elsewhere, for sheets of both editions: the plan that is handed out, any feasible plan at the
//! bounds around its total, plans that break one limit in one step, in one chamber, units that the sheet does not have,
//! any words, and wrong lengths.

mod common;
mod reference;

use common::judge::Judge;
use common::random::Random;
use common::sheets::{draw, one_chamber, set_bound, some_chambers, Family, Rack, Racks};
use reference::replies::Replies;
use reference::{dealt, feasible, has, total, units_below, Sheet};
use warm::{ChamberStep, CHAMBERS};

/// The chambers that have units, each with its number from 0 and its units.
fn with_units(chambers: [usize; CHAMBERS]) -> impl Iterator<Item = (usize, u64)> {
    dealt(chambers).into_iter().enumerate().filter(|&(_, own)| own != 0)
}

/// A set that a step allows.
fn any_set(chambers: [usize; CHAMBERS], step: &ChamberStep, random: &mut Random) -> u64 {
    let mut set = step.lower;
    for (c, own) in with_units(chambers) {
        let (must, may) = ((step.lower & own).count_ones() as usize, (step.upper & own).count_ones() as usize);
        let size = random.between(must.max(step.least[c].into()), may.min(step.greatest[c].into()));
        set |= random.some(size - must, step.upper & !step.lower & own);
    }
    assert!(feasible(chambers, step, set));
    set
}

fn any_plan(sheet: &Sheet, random: &mut Random) -> Vec<u64> {
    sheet.steps.iter().map(|step| any_set(sheet.chambers, step, random)).collect()
}

/// The sets of as many units as this one in which a unit that need not be on is replaced by one of another chamber that
/// may be, and which are not feasible.
fn moved_sets(chambers: [usize; CHAMBERS], step: &ChamberStep, set: u64) -> Vec<u64> {
    let mut moved = Vec::new();
    for own in dealt(chambers) {
        let (from, to) = (set & own & !step.lower, step.upper & !set & !own);
        for (u, v) in (0..64).flat_map(|u| (0..64).map(move |v| (u, v))) {
            let other = set & !(1 << u) | 1 << v;
            if has(from, u) && has(to, v) && !feasible(chambers, step, other) {
                moved.push(other);
            }
        }
    }
    moved
}

/// Ways to break one limit of a step, by name, where the step has such a limit.
fn broken_sets(sheet: &Sheet, i: usize, set: u64, random: &mut Random) -> Vec<(&'static str, u64)> {
    let (units, chambers, step) = (sheet.units, sheet.chambers, &sheet.steps[i]);
    let mut broken = Vec::new();
    if step.lower != 0 {
        broken.push(("a unit that must be on is off", set & !random.some(1, step.lower)));
    }
    if step.upper != units_below(units) {
        broken.push(("a unit that may not be on is on", set | random.some(1, units_below(units) & !step.upper)));
    }
    for (c, own) in with_units(chambers) {
        let (least, greatest) = (u32::from(step.least[c]), u32::from(step.greatest[c]));
        let (lower, upper) = (step.lower & own, step.upper & own);
        if lower.count_ones() < least {
            let fewer = least - 1 - lower.count_ones();
            broken.push(("too few are on", set & !own | lower | random.some(fewer as usize, upper & !lower)));
        }
        if upper.count_ones() > greatest {
            let more = greatest + 1 - lower.count_ones();
            broken.push(("too many are on", set & !own | lower | random.some(more as usize, upper & !lower)));
        }
    }
    if units < 64 {
        broken.push(("a unit that the sheet does not have", set | random.some(1, !units_below(units))));
    }
    let moved = moved_sets(chambers, step, set);
    if !moved.is_empty() {
        broken.push(("one of another chamber in its place", random.pick(&moved)));
    }
    broken
}

/// Replies to the sheet with another bound, which is written into its bytes too.
fn rebound(bytes: &mut [u8], replies: &Replies, bound: u32) -> Replies {
    let bound = u16::try_from(bound).unwrap();
    set_bound(bytes, bound);
    replies.with_bound(bound)
}

fn compare(seed: u64, racks: Racks) -> Judge {
    let mut judge = Judge::new(seed);
    let mut random = Random::new(seed);
    for round in 0..300 {
        for family in Family::ALL {
            let most = if round % 20 == 0 { 256 } else { 12 };
            let (units, steps) = (random.between(1, if most == 256 { 8 } else { 64 }), random.below(most + 1));
            let rack = racks(units, &mut random);
            rack.count(&mut judge.tally);
            let mut bytes = draw(family, rack, steps, &mut random).scattered(0, &mut random);
            let replies = Replies::new(&bytes);
            let sheet = replies.sheet.clone().unwrap();
            around_total(&mut judge, &mut bytes, &replies, replies.support());
            let plan = any_plan(&sheet, &mut random);
            around_total(&mut judge, &mut bytes, &replies, &plan);
            let roomy = rebound(&mut bytes, &replies, 65535);
            broken(&mut judge, &bytes, &roomy, &plan, &mut random);
            wrong_lengths(&mut judge, &bytes, &roomy, &plan);
            let words: Vec<u64> = plan.iter().map(|_| random.word()).collect();
            judge.verdict(&bytes, &roomy, &words);
        }
    }
    judge.tally.require(&[("accepted", 6000), ("turned down", 4000)]);
    judge.tally.require_refusals([10], 5000);
    let ways =
        ["a unit that must be on is off", "a unit that may not be on is on", "too few are on", "too many are on"];
    judge.tally.require(&ways.map(|way| (way, 200)));
    judge.tally.require(&[("a unit that the sheet does not have", 200)]);
    judge
}

#[test]
fn verdicts() {
    let judge = compare(51, one_chamber);
    judge.tally.print("verdicts");
}

#[test]
fn verdicts_in_chambers() {
    let judge = compare(52, some_chambers);
    judge.tally.print("verdicts in chambers");
    judge.tally.require(&[("one of another chamber in its place", 800)]);
    Rack::require(&judge.tally, 400);
}

/// A feasible plan is accepted at a bound of its total and above, and turned down below.
fn around_total(judge: &mut Judge, bytes: &mut [u8], replies: &Replies, plan: &[u64]) {
    let total = total(replies.sheet.as_ref().unwrap().start, plan);
    for bound in [total.checked_sub(1), Some(total), Some(total + 1)].into_iter().flatten() {
        let expected = rebound(bytes, replies, bound);
        assert_eq!(expected.verdict(plan).unwrap().0, bound >= total);
        judge.verdict(bytes, &expected, plan);
    }
}

/// One limit broken in one step.
fn broken(judge: &mut Judge, bytes: &[u8], expected: &Replies, plan: &[u64], random: &mut Random) {
    let sheet = expected.sheet.as_ref().unwrap();
    if plan.is_empty() {
        return;
    }
    let i = random.below(plan.len());
    for (way, set) in broken_sets(sheet, i, plan[i], random) {
        let mut other = plan.to_vec();
        other[i] = set;
        assert!(!expected.verdict(&other).unwrap().0, "{way}");
        judge.verdict(bytes, expected, &other);
        judge.tally.add(way, 1);
    }
}

fn wrong_lengths(judge: &mut Judge, bytes: &[u8], expected: &Replies, plan: &[u64]) {
    let longer = [plan, &[0; 300]].concat();
    for length in [0, plan.len().saturating_sub(1), plan.len() + 1, 256, longer.len()] {
        judge.verdict(bytes, expected, &longer[..length]);
    }
}
