//! The entries with outputs of their own give what those with lent outputs give, and no refusal 8 or 12.

mod common;
mod reference;

use common::random::Random;
use common::sheets::{draw, first_chamber, one_chamber, some_chambers, Family, Racks};
use reference::reading::read;
use warm::{chart, chart_vec, plan, plan_vec, step_count, steps, steps_vec, to_edition_1, to_edition_1_vec};
use warm::{to_edition_2, to_edition_2_vec, write, write_vec, ChamberStep, Error, BYTES, STEPS};

fn compare(sheet: &[u8]) -> bool {
    let mut list = [ChamberStep::default(); STEPS];
    let [mut sets, mut on, mut off] = [[0; STEPS]; 3];
    let lent =
        steps(sheet, &mut list).map(|said| (said.units, said.bound, said.start, said.chambers, said.steps.to_vec()));
    assert_eq!(steps_vec(sheet).map(|said| (said.units, said.bound, said.start, said.chambers, said.steps)), lent);
    let lent = plan(sheet, &mut sets).map(|plan| (plan.total, plan.sets.to_vec()));
    assert_eq!(plan_vec(sheet).map(|plan| (plan.total, plan.sets)), lent);
    let planned = lent.is_ok();
    let lent = chart(sheet, &mut on, &mut off).map(|chart| (chart.total, chart.on.to_vec(), chart.off.to_vec()));
    assert_eq!(chart_vec(sheet).map(|chart| (chart.total, chart.on, chart.off)), lent);

    let mut output = [0; BYTES];
    assert_eq!(to_edition_1_vec(sheet), to_edition_1(sheet, &mut output).map(<[u8]>::to_vec));
    assert_eq!(to_edition_2_vec(sheet), to_edition_2(sheet, &mut output).map(<[u8]>::to_vec));

    let count = step_count(sheet).map_err(Error::numbers);
    assert_eq!(count, read(sheet).map(|sheet| sheet.steps.len()));
    planned
}

fn compare_drawn(seed: u64, racks: Racks) {
    let mut random = Random::new(seed);
    let mut planned = 0;
    for round in 0..2000 {
        let family = Family::ALL[round % Family::ALL.len()];
        let (units, steps) = (random.between(1, 64), random.below(if round % 50 == 0 { 257 } else { 12 }));
        let mut campaign = draw(family, racks(units, &mut random), steps, &mut random);
        campaign.bound = random.below(200) as u16;
        let mut sheet = campaign.scattered(random.below(3).min(256 - steps), &mut random);
        if round % 4 == 0 {
            let at = random.below(sheet.len());
            sheet[at] ^= 1 << random.below(8);
        }
        planned += usize::from(compare(&sheet));
    }
    assert!((500..1900).contains(&planned), "{planned} plans of 2000");
}

#[test]
fn drawn() {
    compare_drawn(61, one_chamber);
}

#[test]
fn drawn_in_chamber_1() {
    compare_drawn(64, first_chamber);
}

#[test]
fn drawn_in_chambers() {
    compare_drawn(63, some_chambers);
}

/// Units and start sets within the limits and beyond them, and up to two steps more than a sheet can have.
#[test]
fn written() {
    let mut random = Random::new(62);
    let mut sheets = 0;
    for round in 0..2000 {
        let steps = random.below(if round % 4 == 0 { 259 } else { 12 });
        let campaign = draw(Family::Any, random.between(1, 64), steps, &mut random);
        let (units, bound) = (random.pick(&[campaign.units() as u8, 64, 65]), random.word() as u16);
        let mut output = [0; BYTES];
        let steps = campaign.written_steps();
        let lent = write(units, bound, campaign.start, &steps, &mut output);
        let owned = write_vec(units, bound, campaign.start, &steps);
        assert_eq!(owned.as_deref(), lent.as_ref().map(|sheet| &sheet[..]));
        sheets += usize::from(owned.is_ok());
    }
    assert!((1000..1500).contains(&sheets), "{sheets} sheets of 2000");
}
