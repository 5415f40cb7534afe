//! The fewest warm-ups from all sets of every step, for sheets of at most 16 units.
//!
//! For each step and each set there is the least total of the steps up to it, if it has this set, and that of the steps
//! after it. The warm-ups from one set to the next are a sum over the units. So the least over all sets before (or
//! after) is found unit by unit: each round lets one more unit be otherwise in the other step.

use super::{feasible, warm_ups, Cells, Sheet};

/// More than any total: there is no such plan.
const NONE: u32 = 1 << 30;

/// By set: the least total of some of the steps.
type Totals = Vec<u32>;

pub struct AllSets {
    fewest: u32,
    cells: Cells,
}

impl AllSets {
    pub const UNITS: usize = 16;

    pub fn new(sheet: &Sheet) -> AllSets {
        assert!(sheet.units <= Self::UNITS);
        let up_to = up_to_each(sheet);
        let fewest = up_to.last().map_or(0, least);
        let mut cells = Cells::new();
        let mut after = vec![0; 1 << sheet.units];
        for (i, up_to) in up_to.iter().enumerate().rev() {
            let sums: Totals = up_to.iter().zip(&after).map(|(a, b)| a + b).collect();
            cells.push((0..sheet.units).map(|u| cheapest_of(&sums, u)).collect());
            forbid(&mut after, sheet, i);
            go_back(&mut after);
        }
        cells.reverse();
        AllSets { fewest, cells }
    }

    /// The least total of any feasible plan.
    pub fn fewest(&self) -> u32 {
        self.fewest
    }

    /// The least total of any feasible plan in which unit `u` is on (or off) in a step, counted from 0; none if there
    /// is no such plan.
    pub fn cheapest(&self, step: usize, u: usize, on: bool) -> Option<u32> {
        self.cells[step][u][usize::from(!on)]
    }
}

/// By step: the least totals of the steps up to it.
fn up_to_each(sheet: &Sheet) -> Vec<Totals> {
    let mut before: Totals = (0..1 << sheet.units).map(|set| warm_ups(sheet.start, set)).collect();
    let mut each = Vec::new();
    for i in 0..sheet.steps.len() {
        if i > 0 {
            go_on(&mut before);
        }
        forbid(&mut before, sheet, i);
        each.push(before.clone());
    }
    each
}

/// Takes out the sets that a step, counted from 0, does not allow.
fn forbid(totals: &mut [u32], sheet: &Sheet, i: usize) {
    for (set, total) in totals.iter_mut().enumerate() {
        if !feasible(sheet.chambers, &sheet.steps[i], set as u64) {
            *total = NONE;
        }
    }
}

/// From the least totals by the set of a step to those by the set of the next one, whose warm-ups are counted.
fn go_on(totals: &mut [u32]) {
    for_pairs(totals, |off, on| (off.min(on), on.min(off + 1)));
}

/// From the least totals of the steps from one step on, by its set, to those by the set of the step before, its
/// warm-ups counted.
fn go_back(totals: &mut [u32]) {
    for_pairs(totals, |off, on| (off.min(on + 1), on.min(off)));
}

/// Unit by unit: changes the totals of each pair of sets that differ in that unit alone, the one without it and the one
/// with it.
fn for_pairs(totals: &mut [u32], change: impl Fn(u32, u32) -> (u32, u32)) {
    let mut half = 1;
    while half < totals.len() {
        for pairs in totals.chunks_exact_mut(2 * half) {
            let (without, with) = pairs.split_at_mut(half);
            for (off, on) in without.iter_mut().zip(with) {
                (*off, *on) = change(*off, *on);
            }
        }
        half *= 2;
    }
}

fn least(totals: &Totals) -> u32 {
    *totals.iter().min().unwrap()
}

/// The least total of the sets with a unit, and of those without it.
fn cheapest_of(totals: &Totals, u: usize) -> [Option<u32>; 2] {
    let mut least = [NONE; 2];
    for sets in totals.chunks_exact(2 << u) {
        let (without, with) = sets.split_at(1 << u);
        least[0] = with.iter().fold(least[0], |a, &b| a.min(b));
        least[1] = without.iter().fold(least[1], |a, &b| a.min(b));
    }
    least.map(|total| (total < NONE).then_some(total))
}
