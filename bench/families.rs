// The sheets that are measured, made from a fixed seed. Each family of sheets scales with the numbers of steps n and units d. In a sheet of edition 2
// each chamber has steps of the family.
use crate::library::{ChamberStep, Step, CHAMBERS};

pub struct Random(u64);

impl Random {
    pub fn new() -> Random {
        Random(88172645463325252)
    }

    pub fn word(&mut self) -> u64 {
        self.0 ^= self.0 << 13;
        self.0 ^= self.0 >> 7;
        self.0 ^= self.0 << 17;
        self.0
    }

    pub fn below(&mut self, limit: u32) -> u32 {
        (self.word() % limit as u64) as u32
    }
}

#[derive(Clone, Copy, PartialEq)]
pub enum Family {
    OneAsked,
    ManyAndFew,
    LongGaps,
    TwoNumbers,
    Extremes,
    NearlyAll,
    AskedInBlocks,
    Random,
    OneTouched,
    AnySet,
}

fn all_units(d: u32) -> u64 {
    u64::MAX >> (64 - d)
}

impl Family {
    pub const ALL: [Family; 10] = [
        Family::OneAsked,
        Family::ManyAndFew,
        Family::LongGaps,
        Family::TwoNumbers,
        Family::Extremes,
        Family::NearlyAll,
        Family::AskedInBlocks,
        Family::Random,
        Family::OneTouched,
        Family::AnySet,
    ];

    pub fn name(self, d: u32) -> String {
        match self {
            Family::OneAsked => "one unit asked".into(),
            Family::ManyAndFew => "many and few".into(),
            Family::LongGaps => "long gaps".into(),
            Family::TwoNumbers => format!("{} and {} on", d / 2 - 1, d / 2 + 1),
            Family::Extremes => format!("1 and {} on", d - 1),
            Family::NearlyAll => format!("{} and {} on", d - 2, d - 1),
            Family::AskedInBlocks => "asked in blocks".into(),
            Family::Random => "random".into(),
            Family::OneTouched => "one unit touched".into(),
            Family::AnySet => "any set".into(),
        }
    }

    // Step i of n. Needs at least four units.
    fn step(self, random: &mut Random, i: usize, n: usize, d: u32) -> Step {
        let odd = i % 2 == 1;
        let few = (d / 8).max(1);
        let any = |least: u32, greatest: u32| Step::new(0, all_units(d), least as u8, greatest as u8, i as u32);
        let asked = |unit: u32, step: Step| Step { lower: 1 << unit, ..step };
        match self {
            // one unit asked in each step, few on at the most
            Family::OneAsked => asked(random.below(d), any(0, few)),
            // many on, few on, in turns, with random units asked
            Family::ManyAndFew => asked(random.below(d), if odd { any(0, few) } else { any(d * 3 / 4, d) }),
            // units are asked in the first quarter of the steps and again in the last, and fewer than half, half or more are on in turns
            Family::LongGaps => {
                let step = if odd { any(0, d / 2 - 1) } else { any(d / 2, d) };
                let quarter = (n / 4).max(1);
                if i < quarter || i >= n - quarter {
                    asked((i % quarter) as u32 % d, step)
                } else {
                    step
                }
            }
            // one below half and one above half on, in turns, and nothing else is asked: each choice goes on to the last step
            Family::TwoNumbers => {
                let many = if odd { d / 2 - 1 } else { d / 2 + 1 };
                any(many, many)
            }
            // one on and all but one on, in turns, and nothing else is asked: each choice also takes many units
            Family::Extremes => {
                let many = if odd { 1 } else { d - 1 };
                any(many, many)
            }
            // all but two and all but one on, in turns, and nothing else is asked: nearly all units have rows in each step, the most work for
            // the tables of the chart
            Family::NearlyAll => {
                let many = if odd { d - 2 } else { d - 1 };
                any(many, many)
            }
            // One unit is asked in each step: in the first of a block of sixteen steps one of the block's own, in the others the same as in the block
            // before, and in the last block units that are asked only there. One less is on from step to step, and then nearly all again. Those
            // that come and go are asked only in the last step, which asks for all. So each choice goes on to the last step: it looks one by
            // one at what is left of its own block and at the last block, and once at each block between, and nearly each look decides about a unit, and
            // has to count. The most work for the plan.
            Family::AskedInBlocks => {
                let (block, place, quarter) = (i / 16, i as u32 % 16, d / 4);
                let unit = match place {
                    _ if block == (n - 1) / 16 => 2 * quarter + place % quarter,
                    0 => quarter + block as u32 % quarter,
                    _ => place % quarter,
                };
                let many = d - 1 - i as u32 % quarter.max(2);
                if i == n - 1 {
                    Step { lower: all_units(d), ..any(d, d) }
                } else {
                    asked(unit, any(many, many))
                }
            }
            // random sets and numbers
            Family::Random => {
                let upper = (random.word() | random.word() | random.word()) & all_units(d);
                let lower = upper & random.word() & random.word() & random.word();
                let many = lower.count_ones() + random.below(upper.count_ones() - lower.count_ones() + 1);
                Step { lower, upper, ..any(many, many) }
            }
            // one unit is asked or forbidden in a step, and half the units are on in all
            Family::OneTouched => {
                let (unit, step) = (random.below(d), any(d / 2, d / 2));
                if odd {
                    asked(unit, step)
                } else {
                    Step { upper: step.upper & !(1 << unit), ..step }
                }
            }
            // any set will do: the time is that of reading the sheet
            Family::AnySet => any(0, d),
        }
    }

    // A sheet with a chain that goes through the records in a scrambled order, where n and 77 have no common divisor.
    pub fn sheet(self, n: usize, d: u32, random: &mut Random) -> Vec<u8> {
        let steps: Vec<ChamberStep> = (0..n).map(|i| self.step(random, i, n, d).into()).collect();
        write_sheet(None, &steps, d, |i| 1 + i * 77 % n)
    }

    // The same in edition 2, with chambers of so many units. Those that are not empty have at least four.
    pub fn sheet_in(self, n: usize, sizes: [u32; CHAMBERS], random: &mut Random) -> Vec<u8> {
        let steps: Vec<ChamberStep> = (0..n).map(|i| self.joined_step(random, i, n, sizes)).collect();
        write_sheet(Some(sizes), &steps, sizes.iter().sum(), |i| 1 + i * 77 % n)
    }

    fn joined_step(self, random: &mut Random, i: usize, n: usize, sizes: [u32; CHAMBERS]) -> ChamberStep {
        let (mut joined, mut first) = (ChamberStep { tag: i as u32, ..Default::default() }, 0);
        for (c, &d) in sizes.iter().enumerate().filter(|&(_, &d)| d > 0) {
            let part = self.step(random, i, n, d);
            joined.lower |= part.lower << first;
            joined.upper |= part.upper << first;
            (joined.least[c], joined.greatest[c]) = (part.least, part.greatest);
            first += d;
        }
        joined
    }
}

// The sheet of examples/four_runs.sheet, in the order of its records.
pub fn four_runs() -> Vec<u8> {
    let steps = [1, 2, 4, 1].map(|lower| Step::new(lower, 7, 0, 2, 0).into());
    write_sheet(None, &steps, 3, |i| i + 1)
}

// A sheet of edition 1, or of edition 2 if there are chamber sizes, with the bound 0 and an empty start set; `place` gives the record of each step.
fn write_sheet(sizes: Option<[u32; CHAMBERS]>, steps: &[ChamberStep], d: u32, place: impl Fn(usize) -> usize) -> Vec<u8> {
    let n = steps.len();
    let length = if sizes.is_none() { 24 } else { 32 };
    let number = |i: usize| (if i < n { place(i) as u16 } else { 0 }).to_le_bytes();
    let mut sheet = vec![0; 24 + length * n];
    sheet[0..4].copy_from_slice(b"WARM");
    sheet[4] = if sizes.is_none() { 1 } else { 2 };
    sheet[5] = d as u8;
    sheet[6..8].copy_from_slice(&(n as u16).to_le_bytes());
    sheet[8..10].copy_from_slice(&number(0));
    sheet[12..16].copy_from_slice(&sizes.unwrap_or_default().map(|size| size as u8));
    for (i, step) in steps.iter().enumerate() {
        let record = &mut sheet[24 + length * (place(i) - 1)..][..length];
        record[0..8].copy_from_slice(&step.lower.to_le_bytes());
        record[8..16].copy_from_slice(&step.upper.to_le_bytes());
        if sizes.is_none() {
            record[16..18].copy_from_slice(&[step.least[0], step.greatest[0]]);
            record[18..20].copy_from_slice(&number(i + 1));
        } else {
            record[16..20].copy_from_slice(&step.least);
            record[20..24].copy_from_slice(&step.greatest);
            record[24..26].copy_from_slice(&number(i + 1));
        }
        record[length - 4..].copy_from_slice(&step.tag.to_le_bytes());
    }
    sheet
}

pub fn set_bound(sheet: &mut [u8], bound: u32) {
    sheet[10..12].copy_from_slice(&(bound as u16).to_le_bytes());
}
