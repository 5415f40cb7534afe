//! Calls the library with lent memory that lies inside larger buffers, and compares its reply and all of the buffers
//! with the reference.

use super::random::Random;
use super::sheets::Campaign;
use super::tally::Tally;
use crate::reference::converting::convert;
use crate::reference::reading::length;
use crate::reference::replies::{write, Replies};
use crate::reference::{units_below, Reply, Sheet};
use std::fmt::Debug;
use warm::{ChamberStep, Error, Step};

/// Places of a buffer before and after the ones that are lent.
const MARGIN: usize = 5;

/// An output inside a larger buffer, from a place on. No two neighbouring places are alike.
pub struct Output<T> {
    from: usize,
    before: Vec<T>,
    buffer: Vec<T>,
}

impl<T: Copy + PartialEq + Debug> Output<T> {
    fn new(from: usize, places: usize, value: impl Fn(u64) -> T) -> Output<T> {
        let buffer: Vec<T> =
            (1..=from + places + MARGIN).map(|i| value((i as u64).wrapping_mul(0xA5C3_96E1_7B2D_84F3))).collect();
        Output { from, before: buffer.clone(), buffer }
    }

    fn lent(&mut self) -> &mut [T] {
        let end = self.buffer.len() - MARGIN;
        &mut self.buffer[self.from..end]
    }

    /// The first lent places are as given, and every other place is as it was.
    fn check(mut self, first: &[T], call: &str, sheet: &[u8]) {
        self.before[self.from..self.from + first.len()].copy_from_slice(first);
        assert_eq!(self.buffer, self.before, "{call}: the output, for the sheet {}", hex(sheet));
    }
}

pub fn words(places: usize) -> Output<u64> {
    Output::new(MARGIN, places, |word| word)
}

pub fn step_list(places: usize) -> Output<ChamberStep> {
    Output::new(MARGIN, places, |word| {
        let (least, greatest) = ((word as u32).to_le_bytes(), ((word >> 8) as u32).to_le_bytes());
        let mut step = ChamberStep::new(word, !word, least, greatest, (word >> 16) as u32);
        step.reserved = (word >> 24) as u32;
        step
    })
}

pub fn written_steps(places: usize) -> Output<Step> {
    Output::new(MARGIN, places, |word| Step::new(word, !word, word as u8, (word >> 8) as u8, (word >> 16) as u32))
}

/// Bytes that begin so many places after the margin, so that they can lie at any alignment.
pub fn bytes(after: usize, places: usize) -> Output<u8> {
    Output::new(MARGIN + after, places, |word| word as u8)
}

pub struct Judge {
    pub tally: Tally,
    random: Random,
}

impl Judge {
    pub fn new(seed: u64) -> Judge {
        Judge { tally: Tally::default(), random: Random::new(seed) }
    }

    /// All six entries that read a sheet, with outputs that are long enough, and the verdict on the plan.
    pub fn all(&mut self, sheet: &[u8], expected: &Replies) {
        self.all_but_chart(sheet, expected);
        self.long_enough_chart(sheet, expected);
    }

    pub fn all_but_chart(&mut self, sheet: &[u8], expected: &Replies) {
        let places = self.enough(expected);
        self.steps(sheet, expected, places);
        let places = self.enough(expected);
        self.plan(sheet, expected, places);
        let plan = if expected.sheet.is_ok() { expected.support().to_vec() } else { vec![1, 3, 5, 5] };
        self.verdict(sheet, expected, &plan);
        for edition in [1, 2] {
            let places = converted_length(sheet, &expected.sheet, edition) + self.random.below(4);
            self.convert(sheet, &expected.sheet, edition, places).ok();
        }
    }

    fn enough(&mut self, expected: &Replies) -> usize {
        expected.n() + self.random.below(4)
    }

    pub fn steps(&mut self, sheet: &[u8], expected: &Replies, places: usize) {
        let mut list = step_list(places);
        let got = self.with_lent_sheet(sheet, |sheet| {
            warm::steps(sheet, list.lent()).map(|said| {
                let chambers = said.chambers.map(|units| units as usize);
                (said.units as usize, said.bound, said.start, chambers, said.steps.to_vec())
            })
        });
        let want = expected.steps(places);
        let said = want.map(|sheet| (sheet.units, sheet.bound, sheet.start, sheet.chambers, sheet.steps.clone()));
        self.compare("steps", sheet, got, &said);
        list.check(want.map_or(&[], |sheet| &sheet.steps), "steps", sheet);
        if want.is_ok() {
            self.tally.add("step lists", 1);
        }
    }

    pub fn plan(&mut self, sheet: &[u8], expected: &Replies, places: usize) {
        let mut output = words(places);
        let got = self.with_lent_sheet(sheet, |sheet| {
            warm::plan(sheet, output.lent()).map(|plan| (plan.total, plan.sets.to_vec()))
        });
        let want = expected.plan(places);
        self.compare("plan", sheet, got, &want);
        output.check(want.as_ref().map_or(&[], |reply| &reply.1), "plan", sheet);
        if want.is_ok() {
            self.tally.add("plans", 1);
        }
    }

    /// The chart, with outputs that are long enough. Gives what they hold then: the units that can be on, and those
    /// that can be off.
    pub fn long_enough_chart(&mut self, sheet: &[u8], expected: &Replies) -> [Vec<u64>; 2] {
        let [on, off] = [0; 2].map(|_| self.enough(expected));
        self.chart(sheet, expected, on, off)
    }

    pub fn chart(&mut self, sheet: &[u8], expected: &Replies, on_places: usize, off_places: usize) -> [Vec<u64>; 2] {
        let (mut on, mut off) = (words(on_places), words(off_places));
        let got = self.with_lent_sheet(sheet, |sheet| {
            let chart = warm::chart(sheet, on.lent(), off.lent())?;
            Ok((chart.total, chart.on.to_vec(), chart.off.to_vec()))
        });
        let held = [on.lent().to_vec(), off.lent().to_vec()];
        let want = expected.chart(on_places, off_places);
        self.compare("chart", sheet, got, &want);
        on.check(want.as_ref().map_or(&[], |reply| &reply.1), "chart, on", sheet);
        off.check(want.as_ref().map_or(&[], |reply| &reply.2), "chart, off", sheet);
        if let Ok((_, on, off)) = want {
            self.tally.add("charts", 1);
            let units = expected.sheet.as_ref().unwrap().units;
            self.count_cells(["can be on", "cannot be on"], units, &on);
            self.count_cells(["can be off", "cannot be off"], units, &off);
        }
        held
    }

    pub fn verdict(&mut self, sheet: &[u8], expected: &Replies, plan: &[u64]) {
        let mut handed_in = words(plan.len());
        handed_in.lent().copy_from_slice(plan);
        let got = self.with_lent_sheet(sheet, |sheet| warm::verdict(sheet, handed_in.lent()));
        let got = got.map(|verdict| (verdict.accepted, verdict.total));
        let want = expected.verdict(plan);
        self.compare("verdict", sheet, got, &want);
        handed_in.check(plan, "verdict", sheet);
        if let Ok((accepted, _)) = want {
            self.tally.add(if accepted { "accepted" } else { "turned down" }, 1);
        }
    }

    /// Writes the sheet of a campaign of edition 1 into an output of so many bytes. Gives what the tests' own writer
    /// makes of it, or the refusal.
    pub fn write(&mut self, campaign: &Campaign, places: usize) -> Reply<Vec<u8>> {
        let (units, bound, start) = (campaign.units(), campaign.bound, campaign.start);
        let (steps, made) = (campaign.written_steps(), campaign.bytes());
        let mut handed_in = written_steps(steps.len());
        handed_in.lent().copy_from_slice(&steps);
        let mut output = bytes(self.random.below(16), places);
        let got = warm::write(u8::try_from(units).unwrap(), bound, start, handed_in.lent(), output.lent());
        let got = got.map(<[u8]>::to_vec);
        let want = write(units, start, steps.len(), places).map(|length| made[..length].to_vec());
        self.compare("write", &made, got, &want);
        output.check(want.as_deref().unwrap_or(&[]), "write", &made);
        handed_in.check(&steps, "write, the steps", &made);
        if want.is_ok() {
            self.tally.add("sheets", 1);
        }
        want
    }

    /// The sheet in that edition, into an output of so many bytes; `read` is what the reference's reader makes of it.
    /// Gives the sheet that the reference makes, or the refusal.
    pub fn convert(&mut self, sheet: &[u8], read: &Reply<Sheet>, edition: u8, places: usize) -> Reply<Vec<u8>> {
        let call = ["to edition 1", "to edition 2"][usize::from(edition) - 1];
        let to = if edition == 1 { warm::to_edition_1 } else { warm::to_edition_2 };
        let mut output = bytes(self.random.below(16), places);
        let got = self.with_lent_sheet(sheet, |sheet| to(sheet, output.lent()).map(<[u8]>::to_vec));
        let want = convert(sheet, read, edition, places);
        self.compare(call, sheet, got, &want);
        output.check(want.as_deref().unwrap_or(&[]), call, sheet);
        if want.is_ok() {
            self.tally.add(if sheet[4] == edition { "copies" } else { call }, 1);
        }
        want
    }

    /// Runs a call on a sheet inside a larger buffer of garbage, at any alignment. Nothing there may change.
    fn with_lent_sheet<R>(&mut self, sheet: &[u8], call: impl FnOnce(&[u8]) -> R) -> R {
        let at = self.random.below(16);
        let mut buffer = self.random.bytes(at);
        buffer.extend_from_slice(sheet);
        buffer.extend(self.random.bytes(24));
        let before = buffer.clone();
        let reply = call(&buffer[at..at + sheet.len()]);
        assert!(buffer == before, "the sheet was changed: {}", hex(sheet));
        reply
    }

    fn compare<T: Debug + PartialEq>(&mut self, call: &str, sheet: &[u8], got: Result<T, Error>, want: &Reply<T>) {
        let got = got.map_err(Error::numbers);
        assert_eq!(&got, want, "{call}: the reply, for the sheet {}", hex(sheet));
        self.tally.add("calls", 1);
        if let Err((number, _)) = want {
            self.tally.add_refusal(*number);
        }
    }

    /// Counts the cells of a sheet by what they cost.
    pub fn count_costs(&mut self, expected: &Replies) {
        for cheapest in expected.cells().iter().flatten().flatten() {
            self.tally.add_cell(cheapest.map(|total| total - expected.fewest()));
        }
    }

    fn count_cells(&mut self, kinds: [&'static str; 2], units: usize, words: &[u64]) {
        let can: u32 = words.iter().map(|word| (word & units_below(units)).count_ones()).sum();
        self.tally.add(kinds[0], u64::from(can));
        self.tally.add(kinds[1], (units * words.len()) as u64 - u64::from(can));
    }
}

/// The bytes that a sheet that passes the checks takes in that edition; 0 if it does not pass.
pub fn converted_length(sheet: &[u8], read: &Reply<Sheet>, edition: u8) -> usize {
    read.as_ref().map_or(0, |_| length(edition, usize::from(u16::from_le_bytes([sheet[6], sheet[7]]))))
}

/// The bytes of a sheet, for the message of a failure.
pub fn hex(bytes: &[u8]) -> String {
    bytes.iter().fold(String::new(), |text, byte| text + &format!("{byte:02x}"))
}
