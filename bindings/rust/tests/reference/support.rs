//! FindSupport on each chamber, put together: the plan that is handed out (docs/FORMAT.md, Plans).

use super::{dealt, has, Sheet};
use warm::Step;

/// The place of a unit in the ranking, by which units are sorted: its class, its next step, and a number for ties.
pub type Rank = (bool, isize, usize);

/// The number for ties by which the higher unit goes first.
fn house_rule(u: usize) -> usize {
    usize::MAX - u
}

/// A chamber by itself: its units, and its part of the start set and of the steps.
#[derive(Clone)]
pub struct Chamber {
    pub units: u64,
    pub start: u64,
    pub steps: Vec<Step>,
}

impl Chamber {
    /// The four chambers of a sheet.
    pub fn all(sheet: &Sheet) -> Vec<Chamber> {
        let chamber = |(c, units)| {
            let part = |step: &warm::ChamberStep| {
                Step::new(step.lower & units, step.upper & units, step.least[c], step.greatest[c], step.tag)
            };
            Chamber { units, start: sheet.start & units, steps: sheet.steps.iter().map(part).collect() }
        };
        dealt(sheet.chambers).into_iter().enumerate().map(chamber).collect()
    }

    pub fn unit_numbers(&self) -> impl Iterator<Item = usize> + '_ {
        (0..64).filter(|&u| has(self.units, u))
    }
}

/// The plan that is handed out.
pub fn find_support(sheet: &Sheet) -> Vec<u64> {
    find_support_by(sheet, |_, u| house_rule(u))
}

/// The plan for which, on a tie at step `i`, from 1, the unit `u` with the lesser `tie(i, u)` goes first.
pub fn find_support_by(sheet: &Sheet, tie: impl Fn(usize, usize) -> usize) -> Vec<u64> {
    let mut joined = vec![0; sheet.steps.len()];
    for chamber in Chamber::all(sheet) {
        for (set, part) in joined.iter_mut().zip(chamber_support(&chamber, &tie)) {
            *set |= part;
        }
    }
    joined
}

/// FindSupport's plan of one chamber.
pub fn chamber_support(chamber: &Chamber, tie: impl Fn(usize, usize) -> usize) -> Vec<u64> {
    let mut before = chamber.start;
    let mut plan = Vec::new();
    for i in 1..=chamber.steps.len() {
        before = step_set(chamber, i, before, |u| tie(i, u));
        plan.push(before);
    }
    plan
}

/// The set of step `i`, from 1, after the set `before`.
fn step_set(chamber: &Chamber, i: usize, before: u64, tie: impl Fn(usize) -> usize) -> u64 {
    let step = &chamber.steps[i - 1];
    let (least, greatest) = (u32::from(step.least), u32::from(step.greatest));
    let ranking = ranking(chamber, i, tie);
    let mut set = before & step.upper | step.lower;
    for &u in ranking.iter().rev() {
        if set.count_ones() > greatest && has(set, u) && !has(step.lower, u) {
            set &= !(1 << u);
        }
    }
    for &u in &ranking {
        if set.count_ones() < least && has(step.upper, u) {
            set |= 1 << u;
        }
    }
    set
}

/// The units at step `i`, first in rank first.
fn ranking(chamber: &Chamber, i: usize, tie: impl Fn(usize) -> usize) -> Vec<usize> {
    let mut units: Vec<usize> = chamber.unit_numbers().collect();
    units.sort_by_key(|&u| rank(need(&chamber.steps, i, u), ban(&chamber.steps, i, u), tie(u)));
    units
}

/// Wanted units before the rest; among wanted ones the earlier need first, among the rest the later ban first; then the
/// lesser `tie`.
pub fn rank(need: usize, ban: usize, tie: usize) -> Rank {
    let wanted = need < ban;
    if wanted {
        (false, need as isize, tie)
    } else {
        (true, -(ban as isize), tie)
    }
}

/// The earliest step from `i` on whose lower set has `u`, or n + 2.
pub fn need(steps: &[Step], i: usize, u: usize) -> usize {
    let n = steps.len();
    (i..=n).find(|&j| has(steps[j - 1].lower, u)).unwrap_or(n + 2)
}

/// The earliest step from `i` on whose upper set lacks `u`, or n + 1.
pub fn ban(steps: &[Step], i: usize, u: usize) -> usize {
    let n = steps.len();
    (i..=n).find(|&j| !has(steps[j - 1].upper, u)).unwrap_or(n + 1)
}
