//! The entries with outputs of their own, of exactly as many places as they fill.

use crate::{chart, plan, step_count, steps, to_edition_1, to_edition_2, write};
use crate::{Campaign, ChamberStep, Chart, Error, Plan, Refusal, Step, STEPS};
use alloc::vec;
use alloc::vec::Vec;

/// [`steps`] into a list of its own.
///
/// # Errors
///
/// Refusals 1 to 7, 13 and 14.
pub fn steps_vec(sheet: &[u8]) -> Result<Campaign<Vec<ChamberStep>>, Error> {
    let mut list = vec![ChamberStep::default(); step_count(sheet)?];
    let Campaign { units, bound, start, chambers, .. } = steps(sheet, &mut list)?;
    Ok(Campaign { units, bound, start, chambers, steps: list })
}

/// [`plan`] into an output of its own.
///
/// ```
/// let plan = warm::plan_vec(&warm::FOUR_RUNS)?;
/// assert_eq!(plan.sets, [0b001, 0b011, 0b101, 0b101]);
/// # Ok::<(), warm::Error>(())
/// ```
///
/// # Errors
///
/// Refusals 1 to 7, 9, 13 and 14.
pub fn plan_vec(sheet: &[u8]) -> Result<Plan<Vec<u64>>, Error> {
    let mut sets = vec![0; step_count(sheet)?];
    let total = plan(sheet, &mut sets)?.total;
    Ok(Plan { sets, total })
}

/// [`chart`] into outputs of its own.
///
/// # Errors
///
/// Refusals 1 to 7, 9, 13 and 14.
pub fn chart_vec(sheet: &[u8]) -> Result<Chart<Vec<u64>>, Error> {
    let count = step_count(sheet)?;
    let (mut on, mut off) = (vec![0; count], vec![0; count]);
    let total = chart(sheet, &mut on, &mut off)?.total;
    Ok(Chart { on, off, total })
}

/// [`write()`] into an output of its own.
///
/// ```
/// let steps = [0b001, 0b010, 0b100, 0b001].map(|lower| warm::Step::new(lower, 0b111, 0, 2, 0));
/// assert_eq!(warm::write_vec(3, 3, 0, &steps)?, warm::FOUR_RUNS);
/// # Ok::<(), warm::Error>(())
/// ```
///
/// # Errors
///
/// Refusal 11.
pub fn write_vec(units: u8, bound: u16, start: u64, steps: &[Step]) -> Result<Vec<u8>, Error> {
    // More steps than a sheet can have are refused whatever the output.
    let mut sheet = vec![0; 24 * (steps.len().min(STEPS) + 1)];
    write(units, bound, start, steps, &mut sheet)?;
    Ok(sheet)
}

/// [`to_edition_1`] into an output of its own.
///
/// # Errors
///
/// Refusals 1 to 7 and 13 to 15.
pub fn to_edition_1_vec(sheet: &[u8]) -> Result<Vec<u8>, Error> {
    converted(to_edition_1, sheet)
}

/// [`to_edition_2`] into an output of its own.
///
/// ```
/// let raised = warm::to_edition_2_vec(&warm::FOUR_RUNS)?;
/// assert_eq!(raised.len(), 152);
/// assert_eq!(warm::to_edition_1_vec(&raised)?, warm::FOUR_RUNS);
/// # Ok::<(), warm::Error>(())
/// ```
///
/// # Errors
///
/// Refusals 1 to 7, 13 and 14.
pub fn to_edition_2_vec(sheet: &[u8]) -> Result<Vec<u8>, Error> {
    converted(to_edition_2, sheet)
}

/// [`to_edition_1`] or [`to_edition_2`].
type Convert = for<'a> fn(&[u8], &'a mut [u8]) -> Result<&'a [u8], Error>;

/// A converted sheet, into an output of its own.
fn converted(convert: Convert, sheet: &[u8]) -> Result<Vec<u8>, Error> {
    // Without an output, the refusal says how many bytes it takes.
    let length = match convert(sheet, &mut []) {
        Ok(none) => none.len(),
        Err(Error::Refused { refusal: Refusal::ShortOutput, place }) => place.number() as usize,
        Err(error) => return Err(error),
    };
    let mut output = vec![0; length];
    convert(sheet, &mut output)?;
    Ok(output)
}
