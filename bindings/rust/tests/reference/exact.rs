//! The fewest warm-ups of a sheet, in all and cell by cell, by one of three ways.

use super::all_sets::AllSets;
use super::flow::Flow;
use super::forced::Forced;
use super::Sheet;

pub enum Exact {
    AllSets(AllSets),
    Flow(Flow),
    Forced(Forced),
}

impl Exact {
    /// From all sets if there are few, else from the flow.
    pub fn new(sheet: &Sheet) -> Exact {
        if sheet.units <= 12 {
            Exact::all_sets(sheet)
        } else {
            Exact::flow(sheet)
        }
    }

    pub fn all_sets(sheet: &Sheet) -> Exact {
        Exact::AllSets(AllSets::new(sheet))
    }

    pub fn flow(sheet: &Sheet) -> Exact {
        Exact::Flow(Flow::new(sheet))
    }

    pub fn forced(sheet: &Sheet) -> Exact {
        Exact::Forced(Forced::new(sheet))
    }

    /// The least total of any feasible plan.
    pub fn fewest(&self) -> u32 {
        match self {
            Exact::AllSets(all_sets) => all_sets.fewest(),
            Exact::Flow(flow) => flow.fewest(),
            Exact::Forced(forced) => forced.fewest(),
        }
    }

    /// The least total of any feasible plan in which unit `u` is on (or off) in a step, counted from 0; none if there
    /// is no such plan.
    pub fn cheapest(&self, step: usize, u: usize, on: bool) -> Option<u32> {
        match self {
            Exact::AllSets(all_sets) => all_sets.cheapest(step, u, on),
            Exact::Flow(flow) => flow.cheapest(step, u, on),
            Exact::Forced(forced) => forced.cheapest(step, u, on),
        }
    }
}
