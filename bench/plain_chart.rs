// The chart of a chamber in plain Rust, from the same tables as the library's (crates/tables/specs/Tables.antt says what each holds). With two switches or more to
// spare a step decides alone. With fewer, a forward pass keeps the rows after every sixteenth step; then the blocks of sixteen steps are taken from
// the last to the first: the rows of a block are made anew from those kept before it, and its words are read on the way back.
#![forbid(unsafe_code)]
use crate::library::{STEPS, UNITS};
use crate::plain::Columns;
use std::iter::from_fn;

const BLOCK: usize = 16;

// A row for each unit b: the units of which something holds in place of b.
type Rows = [u64; UNITS];

// The rows before the first step of each block.
type Checkpoints = [Rows; STEPS / BLOCK];

// The rows before the first step of a block, and after each of its steps.
type BlockRows = [Rows; BLOCK + 1];

fn units(mut set: u64) -> impl Iterator<Item = usize> {
    from_fn(move || {
        (set != 0).then(|| {
            let unit = set.trailing_zeros() as usize;
            set &= set - 1;
            unit
        })
    })
}

fn has(set: u64, unit: usize) -> bool {
    set >> unit & 1 != 0
}

// The word if the test holds, or none.
fn only_if(test: bool, word: u64) -> u64 {
    if test {
        word
    } else {
        0
    }
}

// ---- a step of the plan

// A plan with the steps that it is for.
pub struct Planned<'a> {
    pub columns: &'a Columns,
    pub start: u64,
    pub plan: &'a [u64],
}

// One step of the plan.
struct Turn {
    // the plan's sets before and after it
    before: u64,
    after: u64,
    // the units that are on and need not be, before and after it
    held_before: u64,
    held: u64,
    // the units that may be on and are not
    free: u64,
    // the units that are switched on
    new: u64,
    // one unit more is allowed, or one less
    more: bool,
    less: bool,
}

impl Planned<'_> {
    fn turn(&self, i: usize) -> Turn {
        let c = self.columns;
        let (before, held_before) = match i {
            0 => (self.start, 0),
            _ => (self.plan[i - 1], self.plan[i - 1] & !c.lower[i - 1]),
        };
        let after = self.plan[i];
        let (free, many) = (c.upper[i] & !after, after.count_ones());
        Turn {
            before,
            after,
            held_before,
            held: after & !c.lower[i],
            free,
            new: after & !before,
            more: many < c.greatest[i] as u32,
            less: many > c.least[i] as u32,
        }
    }
}

// ---- forward

// The units that can be on before a step, in place of none that is on in it, at no more switches.
fn coming(x: &Turn, rows: &Rows) -> u64 {
    units(x.held_before & !x.after).fold(x.before, |found, b| found | rows[b])
}

// Turns the rows before a step into those after it.
fn turn_rows(x: &Turn, before: &Rows, after: &mut Rows) {
    let coming = coming(x, before);
    for b in units(x.held) {
        let row = only_if(has(x.held_before, b), before[b]);
        let stays = has(x.before, b) && row & x.new == 0;
        after[b] = if stays { x.free & (coming | row) } else { x.free };
    }
}

// Fills the rows of the block from step `first` on, up to step `last`, from the first of them.
fn turn_block(p: &Planned, first: usize, last: usize, rows: &mut BlockRows) {
    for i in first..last {
        let (before, after) = rows.split_at_mut(i - first + 1);
        turn_rows(&p.turn(i), &before[i - first], &mut after[0]);
    }
}

fn checkpoints(p: &Planned, rows: &mut BlockRows) -> Checkpoints {
    let mut checkpoints = [[0; UNITS]; STEPS / BLOCK];
    for k in 1..p.plan.len().div_ceil(BLOCK) {
        rows[0] = checkpoints[k - 1];
        turn_block(p, (k - 1) * BLOCK, k * BLOCK, rows);
        checkpoints[k] = rows[BLOCK];
    }
    checkpoints
}

// ---- backward

// The switches still to come after a step from a neighbour of the plan's set, against those from the set itself.
struct Later {
    // the units with which there is one less
    saves: u64,
    // the units without which there are no more
    dispensable: u64,
    // in place of a unit: the units with which there are no more, or one less
    even: Rows,
    gain: Rows,
}

impl Later {
    fn at_the_end() -> Later {
        Later { saves: 0, dispensable: u64::MAX, even: [u64::MAX; UNITS], gain: [0; UNITS] }
    }

    // From after a step to before it.
    fn step_back(&mut self, x: &Turn) {
        let (mut found, mut dispensable) = (only_if(x.more, self.saves), x.before & !x.after);
        for b in units(x.held) {
            let (even, gain) = (self.even[b], self.gain[b]);
            found |= gain | only_if(!has(x.before, b), even);
            let gives = x.less && has(self.dispensable, b) || even & x.free & x.before != 0 || gain & x.free != 0;
            dispensable |= (gives as u64) << b;
        }
        self.saves = x.new | x.free & found;
        self.dispensable = dispensable;
        self.turn_back(x);
    }

    // The rows of the units held before a step, from those after it.
    fn turn_back(&mut self, x: &Turn) {
        for b in units(x.held_before) {
            let stays = only_if(has(x.held, b), x.free);
            let dispensable = has(self.dispensable, b);
            self.even[b] = self.saves | only_if(dispensable, u64::MAX) | self.even[b] & stays;
            self.gain[b] = only_if(!has(x.after, b), self.saves) | only_if(dispensable, x.new) | self.gain[b] & stays;
        }
    }
}

// ---- the words

// The units that can be on after a step, and those of `all` that can be off, with no switch to spare (tight) or with one.
fn words(x: &Turn, tight: bool, all: u64, after: &Rows, later: &Later) -> (u64, u64) {
    let joining = if tight { later.saves } else { u64::MAX };
    let loose = if tight { later.dispensable } else { u64::MAX };
    let (mut on, mut off) = (only_if(x.more, joining), only_if(x.less, loose) & x.held);
    for b in units(x.held) {
        let (turned, even, gain) = (after[b], later.even[b], later.gain[b]);
        let in_place = if tight { turned & even | gain } else { turned | even };
        on |= in_place;
        off |= ((in_place & x.free != 0) as u64) << b;
    }
    (x.after | x.free & on, all & !x.after | off)
}

// With no switch to spare (tight) or with one: both tables, block by block.
fn from_tables(p: &Planned, tight: bool, all: u64, on: &mut [u64], off: &mut [u64]) {
    let n = p.plan.len();
    let mut rows = [[0; UNITS]; BLOCK + 1];
    let checkpoints = checkpoints(p, &mut rows);
    let mut later = Later::at_the_end();
    for first in (0..n).step_by(BLOCK).rev() {
        let last = n.min(first + BLOCK);
        rows[0] = checkpoints[first / BLOCK];
        turn_block(p, first, last, &mut rows);
        for i in (first..last).rev() {
            let (x, at) = (p.turn(i), i - first);
            let (can_be_on, can_be_off) = words(&x, tight, all, &rows[at + 1], &later);
            on[i] |= can_be_on;
            off[i] |= can_be_off;
            later.step_back(&x);
        }
    }
}

// With two switches or more to spare.
fn from_steps(c: &Columns, n: usize, all: u64, on: &mut [u64], off: &mut [u64]) {
    for i in 0..n {
        let (lower, upper) = (c.lower[i], c.upper[i]);
        on[i] |= if lower.count_ones() < c.greatest[i] as u32 { upper } else { lower };
        off[i] |= all & !(if upper.count_ones() > c.least[i] as u32 { lower } else { upper });
    }
}

// Joins the chart of a chamber, with so many warm-ups to spare, to what `on` and `off` hold. `all` are its units.
pub fn join(p: &Planned, slack: u32, all: u64, on: &mut [u64], off: &mut [u64]) {
    if slack >= 2 {
        from_steps(p.columns, p.plan.len(), all, on, off);
    } else {
        from_tables(p, slack == 0, all, on, off);
    }
}
