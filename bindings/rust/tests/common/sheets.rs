//! Campaigns of both editions that pass the checks, by hand and drawn, and their bytes.

use super::random::Random;
use super::tally::Tally;
use crate::reference::{units_below, Sheet};
use warm::{ChamberStep, Step, CHAMBERS};

/// The edition of a sheet, and how many units each chamber has; in edition 1 all are in the first.
#[derive(Clone, Copy, Debug, PartialEq, Eq)]
pub struct Rack {
    pub edition: u8,
    pub chambers: [usize; CHAMBERS],
}

/// So many units, in edition 1.
impl From<usize> for Rack {
    fn from(units: usize) -> Rack {
        Rack { edition: 1, chambers: [units, 0, 0, 0] }
    }
}

/// Chambers of so many units, in edition 2.
impl From<[usize; CHAMBERS]> for Rack {
    fn from(chambers: [usize; CHAMBERS]) -> Rack {
        Rack { edition: 2, chambers }
    }
}

impl Rack {
    pub fn units(self) -> usize {
        self.chambers.iter().sum()
    }

    /// The length of a record.
    pub fn record(self) -> usize {
        match self.edition {
            1 => 24,
            _ => 32,
        }
    }

    /// Where a record begins, or, of the one after the last, the length of the sheet.
    pub fn at(self, record: usize) -> usize {
        24 + self.record() * (record - 1)
    }

    /// Where the number of the next record lies in a record.
    pub fn next(self) -> usize {
        match self.edition {
            1 => 18,
            _ => 24,
        }
    }

    /// Counts a rack of edition 2 by its chambers.
    pub fn count(self, tally: &mut Tally) {
        if self.edition == 2 {
            let with_units: Vec<usize> = (0..CHAMBERS).filter(|&c| self.chambers[c] > 0).collect();
            tally.add(["", "one chamber", "two chambers", "three chambers", "four chambers"][with_units.len()], 1);
            let last = with_units[with_units.len() - 1];
            tally.add("an empty chamber before a full one", u64::from(with_units.len() <= last));
        }
    }

    /// Of racks that were counted, so many at least of each kind.
    pub fn require(tally: &Tally, least: u64) {
        let kinds =
            ["one chamber", "two chambers", "three chambers", "four chambers", "an empty chamber before a full one"];
        tally.require(&kinds.map(|kind| (kind, least)));
    }
}

/// How racks of so many units are drawn.
pub type Racks = fn(usize, &mut Random) -> Rack;

/// Racks of edition 1.
pub fn one_chamber(units: usize, _: &mut Random) -> Rack {
    units.into()
}

/// Racks of edition 2 with all units in chamber 1.
pub fn first_chamber(units: usize, _: &mut Random) -> Rack {
    [units, 0, 0, 0].into()
}

/// Racks of edition 2: the units are dealt out to one to four chambers, any of the four, and the others are empty.
pub fn some_chambers(units: usize, random: &mut Random) -> Rack {
    let mut open = [0, 1, 2, 3];
    random.shuffle(&mut open);
    let open = &open[..random.between(1, CHAMBERS)];
    let mut chambers = [0; CHAMBERS];
    for u in 0..units {
        chambers[if u < open.len() { open[u] } else { random.pick(open) }] += 1;
    }
    // Every second time, some of a chamber's units move to another: large and small ones in one rack.
    if random.one_in(2) {
        let [from, to] = [random.pick(open), random.pick(open)];
        let moved = random.below(chambers[from].max(1));
        chambers[from] -= moved;
        chambers[to] += moved;
    }
    chambers.into()
}

#[derive(Clone, Debug)]
pub struct Campaign {
    pub rack: Rack,
    pub bound: u16,
    pub start: u64,
    pub steps: Vec<ChamberStep>,
}

/// Three units, at most two of them on, and four steps that need 0, 1, 2 and 0 again.
pub fn four_runs() -> Campaign {
    let step = |lower| Step::new(lower, 7, 0, 2, 0).into();
    Campaign { rack: 3.into(), bound: 3, start: 0, steps: [1, 2, 4, 1].map(step).to_vec() }
}

/// The same in chamber 1 of edition 2, and in chamber 2 two units of which exactly one must be on in each step.
pub fn two_chambers() -> Campaign {
    let step = |lower| ChamberStep::new(lower, 31, [0, 1, 0, 0], [2, 1, 0, 0], 0);
    Campaign { rack: [3, 2, 0, 0].into(), bound: 4, start: 0, steps: [1, 2, 4, 1].map(step).to_vec() }
}

impl Campaign {
    pub fn units(&self) -> usize {
        self.rack.units()
    }

    /// The sheet whose records are the steps in order.
    pub fn bytes(&self) -> Vec<u8> {
        let order: Vec<usize> = (1..=self.steps.len()).collect();
        self.chained(vec![0; self.rack.at(self.steps.len() + 1)], self.steps.len(), &order)
    }

    /// A sheet whose chain runs to and fro among so many unused records, which hold garbage.
    pub fn scattered(&self, unused: usize, random: &mut Random) -> Vec<u8> {
        let records = self.steps.len() + unused;
        let mut order: Vec<usize> = (1..=records).collect();
        random.shuffle(&mut order);
        self.chained(random.bytes(self.rack.at(records + 1)), records, &order[..self.steps.len()])
    }

    /// Writes the header, and each step into its record of `order`.
    fn chained(&self, mut bytes: Vec<u8>, records: usize, order: &[usize]) -> Vec<u8> {
        let Rack { edition, chambers } = self.rack;
        let follower = |i: usize| order.get(i).copied().unwrap_or(0) as u16;
        bytes[0..4].copy_from_slice(b"WARM");
        bytes[4] = edition;
        bytes[5] = self.units() as u8;
        bytes[6..8].copy_from_slice(&(records as u16).to_le_bytes());
        bytes[8..10].copy_from_slice(&follower(0).to_le_bytes());
        set_bound(&mut bytes, self.bound);
        bytes[12..16].copy_from_slice(&if edition == 1 { [0; 4] } else { chambers.map(|units| units as u8) });
        bytes[16..24].copy_from_slice(&self.start.to_le_bytes());
        for (i, step) in self.steps.iter().enumerate() {
            let record = &mut bytes[self.rack.at(order[i])..][..self.rack.record()];
            put_limits(record, edition, step);
            record[self.rack.next()..][..2].copy_from_slice(&follower(i + 1).to_le_bytes());
            if edition == 2 {
                record[26..28].fill(0);
            }
            let tag = record.len() - 4;
            record[tag..].copy_from_slice(&step.tag.to_le_bytes());
        }
        bytes
    }

    /// What the tests' reader must make of a sheet of it.
    pub fn sheet(&self) -> Sheet {
        let Campaign { rack, bound, start, steps } = self;
        let (units, chambers) = (rack.units(), rack.chambers);
        Sheet { units, chambers, bound: u32::from(*bound), start: *start, steps: steps.clone() }
    }

    /// The steps as they are handed over to be written, with the numbers of chamber 1.
    pub fn written_steps(&self) -> Vec<Step> {
        let first = |step: &ChamberStep| Step::new(step.lower, step.upper, step.least[0], step.greatest[0], step.tag);
        self.steps.iter().map(first).collect()
    }
}

/// Writes the sets and the numbers of a step into its record.
pub fn put_limits(record: &mut [u8], edition: u8, step: &ChamberStep) {
    record[0..8].copy_from_slice(&step.lower.to_le_bytes());
    record[8..16].copy_from_slice(&step.upper.to_le_bytes());
    if edition == 1 {
        record[16..18].copy_from_slice(&[step.least[0], step.greatest[0]]);
    } else {
        record[16..20].copy_from_slice(&step.least);
        record[20..24].copy_from_slice(&step.greatest);
    }
}

pub fn set_bound(bytes: &mut [u8], bound: u16) {
    bytes[10..12].copy_from_slice(&bound.to_le_bytes());
}

/// How the limits of the steps are drawn.
#[derive(Clone, Copy, Debug)]
pub enum Family {
    /// Few units must be on, nearly all may be, and the numbers are wide.
    Sparse,
    /// The greatest number is hardly above what must be on.
    Tight,
    /// Few units on in one step, many in the next.
    Swinging,
    /// Half of the units may be on.
    Narrow,
    /// Every unit may be on and none must: ties everywhere.
    Full,
    /// A unit must be on, or may not be, once in some sixty steps, and about half are on: a choice matters far along.
    Rare,
    /// Two or three steps again and again.
    Repeated,
    /// Anything that passes the checks.
    Any,
}

impl Family {
    pub const ALL: [Family; 8] = [
        Family::Sparse,
        Family::Tight,
        Family::Swinging,
        Family::Narrow,
        Family::Full,
        Family::Rare,
        Family::Repeated,
        Family::Any,
    ];
}

/// A campaign of a family, with a bound of 0. In edition 2 each chamber has steps of the family, and of an empty one
/// the greatest number is anything.
pub fn draw(family: Family, rack: impl Into<Rack>, steps: usize, random: &mut Random) -> Campaign {
    let rack: Rack = rack.into();
    let all = units_below(rack.units());
    let start = match random.below(4) {
        0 => 0,
        1 => all,
        _ => random.part(all, 2),
    };
    let steps = match family {
        Family::Repeated => {
            let few: Vec<ChamberStep> =
                (0..random.between(2, 3)).map(|i| draw_step(Family::Any, rack, i, random)).collect();
            (0..steps).map(|_| with_tag(random.word() as u32, random.pick(&few))).collect()
        }
        _ => (0..steps).map(|i| draw_step(family, rack, i, random)).collect(),
    };
    Campaign { rack, bound: 0, start, steps }
}

fn draw_step(family: Family, rack: Rack, i: usize, random: &mut Random) -> ChamberStep {
    if rack.edition == 1 {
        return draw_part(family, rack.units(), i, random).into();
    }
    let mut step = ChamberStep::default();
    let mut first = 0;
    for (c, units) in rack.chambers.into_iter().enumerate() {
        if units == 0 {
            step.greatest[c] = random.byte();
            continue;
        }
        // Few on in one chamber while many are in the next.
        let part = draw_part(family, units, i + c, random);
        step.lower |= part.lower << first;
        step.upper |= part.upper << first;
        (step.least[c], step.greatest[c], step.tag) = (part.least, part.greatest, part.tag);
        first += units;
    }
    step
}

/// A step of one chamber, whose units are numbered from 0.
fn draw_part(family: Family, units: usize, i: usize, random: &mut Random) -> Step {
    let all = units_below(units);
    let upper = match family {
        Family::Full | Family::Swinging => all,
        Family::Sparse | Family::Tight => all & !random.part(all, 10),
        Family::Narrow => random.part(all, 2),
        Family::Rare => all & !random.part(all, 60),
        Family::Repeated | Family::Any => random.part(all, 1) & !random.part(all, 3),
    };
    let lower = match family {
        Family::Full => 0,
        Family::Sparse | Family::Swinging => random.part(upper, 12),
        Family::Tight | Family::Narrow => random.part(upper, 4),
        Family::Rare => random.part(upper, 60),
        Family::Repeated | Family::Any => random.part(upper, 3),
    };
    let (must, may) = (lower.count_ones() as usize, upper.count_ones() as usize);
    let greatest = match family {
        Family::Tight => must + random.below(3),
        Family::Swinging if i % 2 == 0 => must + random.below(2),
        Family::Swinging => random.between(must.max(units / 2), units),
        Family::Full => random.between(0, units),
        Family::Rare => must.max(units / 2 + random.below(3)),
        // Numbers above that of the units are allowed.
        Family::Any if random.one_in(8) => random.between(must, 255),
        _ => random.between(must, units),
    };
    let least = match family {
        Family::Swinging | Family::Rare => greatest.min(may) - random.below(2).min(greatest.min(may)),
        Family::Sparse => random.below(2).min(greatest).min(may),
        _ => random.between(0, greatest.min(may)),
    };
    Step::new(lower, upper, least as u8, greatest as u8, random.word() as u32)
}

fn with_tag(tag: u32, mut step: ChamberStep) -> ChamberStep {
    step.tag = tag;
    step
}
