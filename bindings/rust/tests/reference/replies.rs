//! What the entries answer (docs/FORMAT.md, Refusals, Writing and Replies); a converted sheet is made by `converting`.

use super::converting::enough;
use super::exact::Exact;
use super::reading::{read, Sheet};
use super::support::find_support;
use super::{feasible, total, units_below, Cells, Reply};
use std::cell::OnceCell;
use std::rc::Rc;

/// A full reply of `chart`: the plan's total, the units that can be on, those that can be off.
pub type Chart = (u32, Vec<u64>, Vec<u64>);

#[derive(Clone)]
pub struct Replies {
    pub sheet: Reply<Sheet>,
    campaign: Option<Rc<Campaign>>,
}

/// What does not depend on the bound.
struct Campaign {
    plan: Vec<u64>,
    exact: Exact,
    cells: OnceCell<Cells>,
}

impl Replies {
    pub fn new(bytes: &[u8]) -> Replies {
        Replies::by(bytes, Exact::new)
    }

    /// The replies, with the fewest warm-ups found in this way.
    pub fn by(bytes: &[u8], exact: impl Fn(&Sheet) -> Exact) -> Replies {
        let sheet = read(bytes);
        let campaign = sheet.as_ref().ok().map(|sheet| {
            let plan = find_support(sheet);
            Rc::new(Campaign { plan, exact: exact(sheet), cells: OnceCell::new() })
        });
        Replies { sheet, campaign }
    }

    /// The replies to the same sheet with another bound.
    pub fn with_bound(&self, bound: u16) -> Replies {
        let mut other = self.clone();
        if let Ok(sheet) = &mut other.sheet {
            sheet.bound = u32::from(bound);
        }
        other
    }

    /// The number of steps, 0 if the sheet does not pass the checks.
    pub fn n(&self) -> usize {
        self.sheet.as_ref().map_or(0, |sheet| sheet.steps.len())
    }

    /// FindSupport's plan, whatever the bound. The sheet must pass the checks.
    pub fn support(&self) -> &[u64] {
        &self.campaign().plan
    }

    /// The fewest warm-ups. The sheet must pass the checks.
    pub fn fewest(&self) -> u32 {
        self.campaign().exact.fewest()
    }

    /// The least total with a unit on or off in a step from 0. The sheet must pass the checks.
    pub fn cheapest(&self, step: usize, u: usize, on: bool) -> Option<u32> {
        self.campaign().exact.cheapest(step, u, on)
    }

    /// What the sheet says.
    pub fn steps(&self, places: usize) -> Reply<&Sheet> {
        self.with_places(places)
    }

    /// The plan's total, and its sets.
    pub fn plan(&self, places: usize) -> Reply<(u32, Vec<u64>)> {
        let sheet = self.within_bound(places)?;
        Ok((total(sheet.start, self.support()), self.support().to_vec()))
    }

    pub fn chart(&self, on_places: usize, off_places: usize) -> Reply<Chart> {
        let sheet = self.within_bound(on_places.min(off_places))?;
        let [on, off] = [true, false].map(|on| (0..self.n()).map(|i| self.can_be(sheet, i, on)).collect());
        Ok((total(sheet.start, self.support()), on, off))
    }

    /// Refusals 1 to 8.
    fn with_places(&self, places: usize) -> Reply<&Sheet> {
        let sheet = self.sheet.as_ref().map_err(|&refusal| refusal)?;
        enough(places, self.n())?;
        Ok(sheet)
    }

    /// Refusals 1 to 9.
    fn within_bound(&self, places: usize) -> Reply<&Sheet> {
        let sheet = self.with_places(places)?;
        if self.fewest() > sheet.bound {
            return Err((9, self.fewest()));
        }
        Ok(sheet)
    }

    /// Whether the plan meets the sheet, and its total.
    pub fn verdict(&self, plan: &[u64]) -> Reply<(bool, u32)> {
        let sheet = self.sheet.as_ref().map_err(|&refusal| refusal)?;
        if plan.len() != self.n() {
            return Err((10, self.n() as u32));
        }
        let total = total(sheet.start, plan);
        let all_feasible = sheet.steps.iter().zip(plan).all(|(step, &set)| feasible(sheet.chambers, step, set));
        Ok((all_feasible && total <= sheet.bound, total))
    }

    /// The units that can be on (or off) in a step within the bound.
    fn can_be(&self, sheet: &Sheet, step: usize, on: bool) -> u64 {
        let cells = self.cells();
        let within = |&u: &usize| cells[step][u][usize::from(!on)].is_some_and(|total| total <= sheet.bound);
        (0..sheet.units).filter(within).map(|u| 1 << u).sum()
    }

    /// All cells. The sheet must pass the checks.
    pub fn cells(&self) -> &Cells {
        let units = self.sheet.as_ref().unwrap().units;
        let cell = |step, u| [self.cheapest(step, u, true), self.cheapest(step, u, false)];
        let all = || (0..self.n()).map(|step| (0..units).map(|u| cell(step, u)).collect()).collect();
        self.campaign().cells.get_or_init(all)
    }

    fn campaign(&self) -> &Campaign {
        self.campaign.as_ref().expect("the sheet passes the checks")
    }
}

/// The length of the sheet of so many units and steps, if it can be written into an output of so many bytes.
pub fn write(units: usize, start: u64, steps: usize, places: usize) -> Reply<usize> {
    if units == 0 || units > 64 || start & !units_below(units) != 0 || steps > 256 {
        return Err((11, 0));
    }
    let length = 24 * (steps + 1);
    if places < length {
        return Err((12, length as u32));
    }
    Ok(length)
}
