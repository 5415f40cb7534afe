//! A second implementation of the entries, written from docs/FORMAT.md alone, plain and slow. The bytes of a sheet are
//! written by the tests' own `common::sheets`.
//!
//! - `reading`: the bytes of a sheet of either edition, refusals 1 to 7, 13 and 14.
//! - `converting`: the same sheet in the other edition, refusals 15 and 8.
//! - `support`: the plan that is handed out, FindSupport in each chamber.
//! - `exact`: the fewest warm-ups of any feasible plan, in all and with one unit on or off in one step. For up to 16
//!   units from all sets (`all_sets`), for any number from a flow (`flow`): neither knows FindSupport, nor plans a
//!   chamber by itself. Or by planning anew with that unit forced (`forced`), quick enough for whole charts of the
//!   largest sheets.
//! - `replies`: what each entry answers.

// Each file of tests uses a part of this.
#![allow(dead_code)]

pub mod all_sets;
pub mod converting;
pub mod exact;
pub mod flow;
pub mod forced;
pub mod reading;
pub mod replies;
pub mod support;

pub use reading::Sheet;
use warm::{ChamberStep, CHAMBERS};

/// A refusal: its number and its place.
pub type Refusal = (u32, u32);

/// A full reply, or a refusal.
pub type Reply<T> = Result<T, Refusal>;

/// By step and unit: the least total of a feasible plan with the unit on, and with the unit off.
pub type Cells = Vec<Vec<[Option<u32>; 2]>>;

/// Whether unit `u` is in a set.
pub fn has(set: u64, u: usize) -> bool {
    set >> u & 1 == 1
}

/// The set of all units below `d`.
pub fn units_below(d: usize) -> u64 {
    (0..d).map(|u| 1 << u).sum()
}

/// The units that are on in `set` and off in the set before it.
pub fn warm_ups(before: u64, set: u64) -> u32 {
    (set & !before).count_ones()
}

/// The warm-ups of a plan, over all steps.
pub fn total(start: u64, plan: &[u64]) -> u32 {
    let mut before = start;
    let mut sum = 0;
    for &set in plan {
        sum += warm_ups(before, set);
        before = set;
    }
    sum
}

/// The units of each chamber, dealt out in order.
pub fn dealt(chambers: [usize; CHAMBERS]) -> [u64; CHAMBERS] {
    let mut first = 0;
    chambers.map(|size| {
        first += size;
        units_below(first) & !units_below(first - size)
    })
}

/// Whether a set is feasible in a step, for chambers of so many units.
pub fn feasible(chambers: [usize; CHAMBERS], step: &ChamberStep, set: u64) -> bool {
    let within = |(c, own): (usize, u64)| {
        let many = (set & own).count_ones();
        u32::from(step.least[c]) <= many && many <= u32::from(step.greatest[c])
    };
    step.lower & !set == 0 && set & !step.upper == 0 && dealt(chambers).into_iter().enumerate().all(within)
}

/// How few and how many units may be on in a step that has a feasible set, as sums over the chambers.
pub fn sizes(chambers: [usize; CHAMBERS], step: &ChamberStep) -> (u32, u32) {
    let (mut few, mut many) = (0, 0);
    for (c, own) in dealt(chambers).into_iter().enumerate() {
        few += u32::from(step.least[c]).max((step.lower & own).count_ones());
        many += u32::from(step.greatest[c]).min((step.upper & own).count_ones());
    }
    (few, many)
}

/// All feasible plans of a sheet.
pub fn all_plans(sheet: &Sheet) -> Vec<Vec<u64>> {
    let mut plans = vec![vec![]];
    for step in &sheet.steps {
        let sets: Vec<u64> = (0..1 << sheet.units).filter(|&set| feasible(sheet.chambers, step, set)).collect();
        plans = plans.iter().flat_map(|plan| sets.iter().map(move |&set| [&plan[..], &[set]].concat())).collect();
    }
    plans
}
