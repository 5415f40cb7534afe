//! All that the library answers to a sheet, for sheets that must get the same.

use warm::{ChamberStep, Error, Verdict, BYTES, CHAMBERS, STEPS};

#[derive(Debug, PartialEq)]
pub struct Answers {
    pub header: Result<(u32, u32, u64, [u32; CHAMBERS], usize), Error>,
    pub list: Vec<ChamberStep>,
    pub plan: Result<u32, Error>,
    pub chart: Result<u32, Error>,
    pub words: [[u64; STEPS]; 3],
    pub verdict: Result<Verdict, Error>,
    /// The length of the sheet in edition 1 and in edition 2.
    pub lengths: [Result<usize, Error>; 2],
}

pub fn answers(bytes: &[u8]) -> Answers {
    let mut list = vec![ChamberStep::default(); STEPS];
    let mut words = [[7; STEPS]; 3];
    let [plan_words, on, off] = &mut words;
    let header =
        warm::steps(bytes, &mut list).map(|said| (said.units, said.bound, said.start, said.chambers, said.steps.len()));
    let plan = warm::plan(bytes, plan_words).map(|plan| plan.total);
    let chart = warm::chart(bytes, on, off).map(|chart| chart.total);
    let verdict = warm::verdict(bytes, &plan_words[..header.map_or(0, |header| header.4)]);
    let mut output = [0; BYTES];
    let lengths = [
        warm::to_edition_1(bytes, &mut output).map(<[u8]>::len),
        warm::to_edition_2(bytes, &mut output).map(<[u8]>::len),
    ];
    Answers { header, list, plan, chart, words, verdict, lengths }
}
