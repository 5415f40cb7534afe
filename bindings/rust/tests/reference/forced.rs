//! The fewest warm-ups with one cell forced, by planning anew: FindSupport's total for the sheet in which the unit must
//! be on there, or may not be. That no plan has fewer is a fact about FindSupport; the references are compared with
//! each other.
//!
//! Only the chamber of the unit is planned anew: the plans of the others stay as they are. A forced unit is required
//! (or forbidden) in one more step, which changes its rank up to that step, and no other rank. So the ranks of the
//! chamber as it is are found once. On a tie the lower number goes first here, whatever the house rule is: the totals
//! are the same.

use super::support::{ban, chamber_support, need, rank, Chamber, Rank};
use super::{has, total, warm_ups, Sheet};

pub struct Forced {
    chambers: Vec<ForcedChamber>,
}

/// One chamber, with a plan and the orders of its units.
struct ForcedChamber {
    chamber: Chamber,
    plan: Vec<u64>,
    fewest: u32,
    orders: Vec<Order>,
}

/// One cell of a chart: a unit on (or off) in a step, counted from 0.
#[derive(Clone, Copy)]
struct Cell {
    step: usize,
    u: usize,
    on: bool,
}

/// The units at a step.
struct Order {
    /// By unit: the next step that needs it, and the next that bans it, from 1. Of another chamber's units nothing is
    /// said.
    next: [(usize, usize); 64],
    /// First in rank first.
    ranks: Vec<Rank>,
    /// At place k, the k units that are first in rank.
    first: Vec<u64>,
}

impl Order {
    fn new(chamber: &Chamber, i: usize) -> Order {
        let mut next = [(0, 0); 64];
        for u in chamber.unit_numbers() {
            next[u] = (need(&chamber.steps, i, u), ban(&chamber.steps, i, u));
        }
        let mut ranks: Vec<Rank> = chamber.unit_numbers().map(|u| rank(next[u].0, next[u].1, u)).collect();
        ranks.sort_unstable();
        let first = (0..=ranks.len()).map(|k| ranks[..k].iter().map(|rank| 1 << rank.2).sum()).collect();
        Order { next, ranks, first }
    }

    /// So many units of a set, first in rank first.
    fn first_of(&self, set: u64, count: u32) -> u64 {
        let k = self.first.partition_point(|first| (first & set).count_ones() < count);
        self.first[k] & set
    }

    /// The same where the unit of a cell has the rank that comes of forcing it.
    fn forced_first_of(&self, set: u64, count: u32, cell: Cell) -> u64 {
        let (unit, others) = (set & 1 << cell.u, set & !(1 << cell.u));
        let k = self.ranks.partition_point(|rank| *rank < self.forced_rank(cell));
        let ahead = (self.first[k] & others).count_ones();
        if unit != 0 && ahead < count {
            unit | self.first_of(others, count - 1)
        } else {
            self.first_of(others, count)
        }
    }

    fn forced_rank(&self, cell: Cell) -> Rank {
        let (need, ban) = self.next[cell.u];
        if cell.on {
            rank(need.min(cell.step + 1), ban, cell.u)
        } else {
            rank(need, ban.min(cell.step + 1), cell.u)
        }
    }
}

impl Forced {
    pub fn new(sheet: &Sheet) -> Forced {
        Forced { chambers: Chamber::all(sheet).into_iter().map(ForcedChamber::new).collect() }
    }

    /// The total of FindSupport's plans.
    pub fn fewest(&self) -> u32 {
        self.chambers.iter().map(|chamber| chamber.fewest).sum()
    }

    /// The total of FindSupport's plans where unit `u` is forced to be on (or off) in a step, counted from 0; none if
    /// the step has no such set.
    pub fn cheapest(&self, step: usize, u: usize, on: bool) -> Option<u32> {
        let own = self.chambers.iter().find(|part| has(part.chamber.units, u)).unwrap();
        Some(self.fewest() - own.fewest + own.cheapest(Cell { step, u, on })?)
    }
}

impl ForcedChamber {
    fn new(chamber: Chamber) -> ForcedChamber {
        let plan = chamber_support(&chamber, |_, u| u);
        let fewest = total(chamber.start, &plan);
        let orders = (1..=chamber.steps.len()).map(|i| Order::new(&chamber, i)).collect();
        ForcedChamber { chamber, plan, fewest, orders }
    }

    /// The total with a cell forced; none if the step has no such set.
    fn cheapest(&self, cell: Cell) -> Option<u32> {
        if has(self.plan[cell.step], cell.u) == cell.on {
            return Some(self.fewest);
        }
        let (lower, upper) = self.limits(cell.step, cell);
        let x = &self.chamber.steps[cell.step];
        let some_set = lower & !upper == 0
            && lower.count_ones() <= u32::from(x.greatest)
            && upper.count_ones() >= u32::from(x.least);
        some_set.then(|| self.run(cell))
    }

    fn run(&self, cell: Cell) -> u32 {
        let mut before = self.chamber.start;
        let mut sum = 0;
        for i in 0..self.chamber.steps.len() {
            let set = self.step_set(i, before, cell);
            sum += warm_ups(before, set);
            before = set;
        }
        sum
    }

    /// The lower and the upper set of a step.
    fn limits(&self, i: usize, cell: Cell) -> (u64, u64) {
        let (lower, upper) = (self.chamber.steps[i].lower, self.chamber.steps[i].upper);
        match (i == cell.step, cell.on) {
            (false, _) => (lower, upper),
            (true, true) => (lower | 1 << cell.u, upper),
            (true, false) => (lower, upper & !(1 << cell.u)),
        }
    }

    /// The set of a step after the set `before`.
    fn step_set(&self, i: usize, before: u64, cell: Cell) -> u64 {
        let (lower, upper) = self.limits(i, cell);
        let (least, greatest) = (u32::from(self.chamber.steps[i].least), u32::from(self.chamber.steps[i].greatest));
        let set = before & upper | lower;
        let many = set.count_ones();
        if many > greatest {
            lower | self.first_of(i, set & !lower, greatest - lower.count_ones(), cell)
        } else if many < least {
            set | self.first_of(i, upper & !set, least - many, cell)
        } else {
            set
        }
    }

    /// So many units of a set, first in rank at a step first.
    fn first_of(&self, i: usize, set: u64, count: u32, cell: Cell) -> u64 {
        if i <= cell.step {
            self.orders[i].forced_first_of(set, count, cell)
        } else {
            self.orders[i].first_of(set, count)
        }
    }
}
