//! The worked examples of the format, with their answers written by hand.

mod common;
mod reference;

use common::sheets::{four_runs, two_chambers, Campaign};
use warm::{chart, plan, step_count, steps, verdict, ChamberStep, Error, Refusal, Step, STEPS};

fn refused<T>(refusal: Refusal, place: u32) -> Result<T, Error> {
    Err(Error::Refused { refusal, place: refusal.place(place) })
}

/// The plan's total and its words.
fn planned(sheet: &[u8]) -> Result<(u32, Vec<u64>), Error> {
    let mut words = [0; STEPS];
    let plan = plan(sheet, &mut words)?;
    Ok((plan.total, plan.sets.to_vec()))
}

/// The chart's total, the units that can be on, and those that can be off.
fn charted(sheet: &[u8]) -> Result<(u32, Vec<u64>, Vec<u64>), Error> {
    let (mut on, mut off) = ([0; STEPS], [0; STEPS]);
    let chart = chart(sheet, &mut on, &mut off)?;
    Ok((chart.total, chart.on.to_vec(), chart.off.to_vec()))
}

/// Whether a plan is accepted, and its total.
fn judged(sheet: &[u8], plan: &[u64]) -> Result<(bool, u32), Error> {
    verdict(sheet, plan).map(|verdict| (verdict.accepted, verdict.total))
}

/// Two units, one of them on in the only step.
fn one_of_two() -> Campaign {
    Campaign { rack: 2.into(), bound: 1, start: 0, steps: vec![Step::new(0, 3, 1, 1, 0).into()] }
}

/// So many steps in which anything may be on.
fn free(units: usize, upper: u64, steps: usize) -> Campaign {
    let step = Step::new(0, upper, 0, 64, 0).into();
    Campaign { rack: units.into(), bound: 0, start: 0, steps: vec![step; steps] }
}

#[test]
fn b1_four_runs() {
    assert_eq!(planned(&four_runs().bytes()), Ok((3, vec![1, 3, 5, 5])));
}

#[test]
fn b1_bytes_by_hand() {
    let mut sheet = b"WARM\x01\x03\x04\0\x01\0\x03\0\0\0\0\0\0\0\0\0\0\0\0\0".to_vec();
    for (lower, next) in [(1, 2), (2, 3), (4, 4), (1, 0)] {
        sheet.extend([lower, 0, 0, 0, 0, 0, 0, 0, 7, 0, 0, 0, 0, 0, 0, 0, 0, 2, next, 0, 0, 0, 0, 0]);
    }
    assert_eq!(sheet, four_runs().bytes());
    assert_eq!(sheet, warm::FOUR_RUNS);
    let mut list = [ChamberStep::default(); 4];
    let said = steps(&sheet, &mut list).unwrap();
    assert_eq!((said.units, said.bound, said.start, said.chambers), (3, 3, 0, [3, 0, 0, 0]));
    assert_eq!(said.steps, [1, 2, 4, 1].map(|lower| ChamberStep::new(lower, 7, [0; 4], [2, 0, 0, 0], 0)));
    assert_eq!(step_count(&sheet), Ok(4));
}

#[test]
fn b2_bound_2() {
    let sheet = Campaign { bound: 2, ..four_runs() }.bytes();
    assert_eq!(planned(&sheet), refused(Refusal::Bound, 3));
    assert_eq!(charted(&sheet), refused(Refusal::Bound, 3));
}

#[test]
fn b3_chart() {
    assert_eq!(charted(&four_runs().bytes()), Ok((3, vec![3, 3, 5, 5], vec![6, 4, 2, 6])));
}

#[test]
fn b4_start_2() {
    assert_eq!(planned(&Campaign { start: 2, ..four_runs() }.bytes()), Ok((2, vec![3, 3, 5, 5])));
}

#[test]
fn b5_no_step() {
    let sheet = Campaign { rack: 1.into(), bound: 0, start: 0, steps: vec![] }.bytes();
    assert_eq!(sheet.len(), 24);
    assert_eq!(planned(&sheet), Ok((0, vec![])));
    assert_eq!(charted(&sheet), Ok((0, vec![], vec![])));
    assert_eq!(plan(&sheet, &mut []).unwrap().total, 0);
    assert_eq!(chart(&sheet, &mut [], &mut []).unwrap().total, 0);
    assert_eq!(judged(&sheet, &[]), Ok((true, 0)));
    let said = steps(&sheet, &mut []).unwrap();
    assert_eq!((said.units, said.bound, said.start, said.chambers, said.steps), (1, 0, 0, [1, 0, 0, 0], &[][..]));
    assert_eq!(step_count(&sheet), Ok(0));
}

#[test]
fn b6_tie() {
    assert_eq!(planned(&one_of_two().bytes()), Ok((1, vec![2])));
}

#[test]
fn b7_no_set() {
    let mut campaign = one_of_two();
    campaign.steps[0].least[0] = 3;
    campaign.steps[0].greatest[0] = 3;
    assert_eq!(planned(&campaign.bytes()), refused(Refusal::NoSet, 1));
}

#[test]
fn b8_loop() {
    let mut sheet = one_of_two().bytes();
    sheet[24 + 18] = 1;
    assert_eq!(planned(&sheet), refused(Refusal::Loop, 1));
}

#[test]
fn b9_record_number() {
    let mut sheet = one_of_two().bytes();
    sheet[8] = 2;
    assert_eq!(planned(&sheet), refused(Refusal::RecordNumber, 0));
}

#[test]
fn b10_verdict() {
    let plan = [1, 2, 4, 1];
    assert_eq!(judged(&four_runs().bytes(), &plan), Ok((false, 4)));
    let wider = Campaign { bound: 4, ..four_runs() };
    assert_eq!(judged(&wider.bytes(), &plan), Ok((true, 4)));
}

#[test]
fn lengths() {
    let sheet = free(1, 1, 256).bytes();
    assert_eq!(sheet.len(), 6168);
    assert_eq!(planned(&sheet), Ok((0, vec![0; 256])));
    let longer = [&sheet[..], &[0]].concat();
    assert_eq!(planned(&longer), refused(Refusal::Header, 24));
    assert_eq!(planned(&sheet[..23]), refused(Refusal::Length, 0));
    assert_eq!(planned(&[]), refused(Refusal::Length, 0));
}

/// The same with the records of edition 2.
#[test]
fn lengths_in_chambers() {
    let step = ChamberStep::new(0, 1, [0; 4], [64, 0, 0, 0], 0);
    let sheet = Campaign { rack: [1, 0, 0, 0].into(), bound: 0, start: 0, steps: vec![step; 256] }.bytes();
    assert_eq!(sheet.len(), 8216);
    assert_eq!(planned(&sheet), Ok((0, vec![0; 256])));
    assert_eq!(planned(&sheet[..8215]), refused(Refusal::Header, 24));
    assert_eq!(planned(&[&sheet[..], &[0]].concat()), refused(Refusal::Length, 0));
    let none = Campaign { rack: [0, 0, 1, 0].into(), bound: 0, start: 1, steps: vec![] }.bytes();
    assert_eq!((none.len(), planned(&none)), (24, Ok((0, vec![]))));
    assert_eq!(steps(&none, &mut []).unwrap().chambers, [0, 0, 1, 0]);
}

#[test]
fn two_chambers_by_hand() {
    let mut sheet = b"WARM\x02\x05\x04\0\x01\0\x04\0\x03\x02\0\0\0\0\0\0\0\0\0\0".to_vec();
    for (lower, next) in [(1, 2), (2, 3), (4, 4), (1, 0)] {
        sheet.extend([lower, 0, 0, 0, 0, 0, 0, 0, 31, 0, 0, 0, 0, 0, 0, 0]);
        sheet.extend([0, 1, 0, 0, 2, 1, 0, 0, next, 0, 0, 0, 0, 0, 0, 0]);
    }
    assert_eq!(sheet, two_chambers().bytes());
    let mut list = [ChamberStep::default(); 4];
    let said = steps(&sheet, &mut list).unwrap();
    assert_eq!((said.units, said.bound, said.start, said.chambers), (5, 4, 0, [3, 2, 0, 0]));
    assert_eq!(said.steps, [1, 2, 4, 1].map(|lower| ChamberStep::new(lower, 31, [0, 1, 0, 0], [2, 1, 0, 0], 0)));
    assert_eq!(planned(&sheet), Ok((4, vec![17, 19, 21, 21])));
}

/// With no warm-up to spare, with one, which either chamber may use up, and with two.
#[test]
fn charts_of_two_chambers() {
    let with_bound = |bound| Campaign { bound, ..two_chambers() }.bytes();
    assert_eq!(planned(&with_bound(3)), refused(Refusal::Bound, 4));
    assert_eq!(charted(&with_bound(3)), refused(Refusal::Bound, 4));
    assert_eq!(charted(&with_bound(4)), Ok((4, vec![27, 27, 29, 29], vec![30, 28, 26, 30])));
    assert_eq!(charted(&with_bound(5)), Ok((4, vec![31, 31, 31, 31], vec![30, 29, 27, 30])));
    assert_eq!(charted(&with_bound(6)), Ok((4, vec![31, 31, 31, 31], vec![30, 29, 27, 30])));
}

/// Unit 4 must be on but in step 2: there unit 3 in its place takes two warm-ups more.
#[test]
fn a_cell_for_two() {
    let mut campaign = two_chambers();
    for i in [0, 2, 3] {
        campaign.steps[i].lower |= 16;
    }
    let with_bound = |bound| Campaign { bound, ..campaign.clone() }.bytes();
    assert_eq!(charted(&with_bound(4)), Ok((4, vec![19, 19, 21, 21], vec![14, 12, 10, 14])));
    assert_eq!(charted(&with_bound(5)), Ok((4, vec![23, 23, 23, 23], vec![14, 13, 11, 14])));
    assert_eq!(charted(&with_bound(6)), Ok((4, vec![23, 31, 23, 23], vec![14, 29, 11, 14])));
}

/// A warm-up to spare is there for one chamber or the other, and not for both.
#[test]
fn a_slack_used_up() {
    let sheet = Campaign { bound: 5, ..two_chambers() }.bytes();
    let four_runs = [[1, 3, 5, 5], [1, 2, 6, 5]];
    let one_of_two = [[16, 16, 16, 16], [16, 8, 8, 8]];
    let joined = |a: usize, b: usize| [0, 1, 2, 3].map(|i| four_runs[a][i] | one_of_two[b][i]);
    assert_eq!(judged(&sheet, &joined(0, 0)), Ok((true, 4)));
    assert_eq!(judged(&sheet, &joined(1, 0)), Ok((true, 5)));
    assert_eq!(judged(&sheet, &joined(0, 1)), Ok((true, 5)));
    assert_eq!(judged(&sheet, &joined(1, 1)), Ok((false, 6)));
    // As many units as in the first of these, but in step 1 both of chamber 1.
    assert_eq!(judged(&sheet, &[3, 19, 21, 21]), Ok((false, 4)));
}

/// The greatest number of an empty chamber may be anything; its least number must be 0.
#[test]
fn an_empty_chamber() {
    let mut campaign = two_chambers();
    campaign.rack = [3, 0, 2, 0].into();
    for step in &mut campaign.steps {
        (step.least, step.greatest) = ([0, 0, 1, 0], [2, 255, 1, 7]);
    }
    assert_eq!(planned(&campaign.bytes()), Ok((4, vec![17, 19, 21, 21])));
    campaign.steps[2].least[1] = 1;
    assert_eq!(planned(&campaign.bytes()), refused(Refusal::NoSet, 3));
}

/// A chamber that is full, all of its units on in each step.
#[test]
fn a_full_chamber() {
    let mut campaign = two_chambers();
    campaign.bound = 5;
    for step in &mut campaign.steps {
        (step.least[1], step.greatest[1]) = (2, 255);
    }
    assert_eq!(planned(&campaign.bytes()), Ok((5, vec![25, 27, 29, 29])));
    campaign.steps[3].least[1] = 3;
    assert_eq!(planned(&campaign.bytes()), refused(Refusal::NoSet, 4));
}

#[test]
fn chamber_sizes() {
    let sheet = two_chambers().bytes();
    for sizes in [[3, 3, 0, 0], [3, 1, 0, 0], [0, 0, 0, 0], [5, 0, 0, 255], [3, 2, 128, 128], [255, 255, 255, 255]] {
        let mut other = sheet.clone();
        other[12..16].copy_from_slice(&sizes);
        assert_eq!(planned(&other), refused(Refusal::ChamberSizes, 12), "{sizes:?}");
        // Before the start set and the length, after the numbers of units and of records.
        other[23] = 128;
        assert_eq!(planned(&other[..150]), refused(Refusal::ChamberSizes, 12), "{sizes:?}");
        other[7] = 2;
        assert_eq!(planned(&other), refused(Refusal::Header, 6), "{sizes:?}");
    }
}

#[test]
fn reserved_bytes() {
    for at in [26, 27] {
        let mut sheet = two_chambers().bytes();
        // The third record, and there a unit that the sheet does not have.
        sheet[88 + at] = 1;
        sheet[88 + 8] = 255;
        assert_eq!(planned(&sheet), refused(Refusal::ReservedBytes, 3));
        assert_eq!(judged(&sheet, &[]), refused(Refusal::ReservedBytes, 3));
        // An earlier step that no set meets, and a link at fault far along the chain.
        sheet[56 + 21] = 0;
        assert_eq!(planned(&sheet), refused(Refusal::NoSet, 2));
        sheet[120 + 24] = 9;
        assert_eq!(planned(&sheet), refused(Refusal::RecordNumber, 4));
        // Off the chain it is spare.
        let mut sheet = two_chambers().bytes();
        sheet[120 + at] = 1;
        sheet[88 + 24] = 0;
        assert_eq!(planned(&sheet), Ok((4, vec![17, 19, 22])));
    }
}

#[test]
fn upper_sets() {
    assert_eq!(planned(&free(64, u64::MAX, 1).bytes()), Ok((0, vec![0])));
    assert_eq!(planned(&free(63, u64::MAX, 1).bytes()), refused(Refusal::UpperSet, 1));
    assert_eq!(planned(&free(63, u64::MAX >> 1, 1).bytes()), Ok((0, vec![0])));
}
