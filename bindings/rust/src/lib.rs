//! Plans which units of a bench are on in each step of a test campaign, so that as few as possible have to be warmed
//! up.
//!
//! The work is done by a library that is proved to meet its definition for any input: a call gives a full reply, or one
//! exact refusal. This crate wraps its seven entries in safe functions over slices.
//!
//! | Function | What it gives |
//! |---|---|
//! | [`steps`] | the numbers of the header, and one [`ChamberStep`] for each step |
//! | [`step_count`] | the number of steps |
//! | [`plan`] | a plan with the fewest warm-ups, one set for each step, and its total |
//! | [`chart`] | two sets for each step: the units that can be on, and those that can be off |
//! | [`verdict`] | whether a plan made elsewhere meets the sheet, and its total |
//! | [`write()`] | the sheet, of edition 1, of a number of units, a bound, a start set and one [`Step`] for each step |
//! | [`to_edition_1`] | a sheet of either edition, with all units in chamber 1, in edition 1 |
//! | [`to_edition_2`] | a sheet of either edition in edition 2 |
//!
//! # Units, sets, plans
//!
//! A *unit* has a number from 0 to 63, and lies in one of four *chambers*. A *set* of units is a `u64` in which unit
//! `u` has weight 2^u. A *plan* has one set for each step. It is *feasible* if in every step its set includes the
//! step's lower set, lies within its upper set, and has in each chamber a number of units from that chamber's least to
//! its greatest number. Its *warm-ups* in a step are the units that are on there and were off in the step before;
//! before the first step, the start set is on. Its *total* is the sum over all steps. A plan *meets the sheet* if it is
//! feasible and its total is at most the bound.
//!
//! Some papers leave out the loading of the first step. With all units in the start set, the total of [`plan`] and
//! [`chart`], or the count that comes with [`Refusal::Bound`], is what those papers count: the least that any feasible
//! plan has from its second step on, or 0 if there is no step. For the steps of the [example](#example) below it is 1:
//!
//! ```
//! # let steps = [0b001, 0b010, 0b100, 0b001].map(|lower| warm::Step::new(lower, 0b111, 0, 2, 0));
//! # let (mut bytes, mut sets) = ([0; warm::BYTES], [0; warm::STEPS]);
//! let sheet = warm::write(3, 3, 0b111, &steps, &mut bytes)?;
//! assert_eq!(warm::plan(sheet, &mut sets)?.total, 1);
//! # Ok::<(), warm::Error>(())
//! ```
//!
//! In a step that has a feasible set, the least size of one is the sum, over the chambers, of the greater of the least
//! number and the number of the chamber's units in the lower set, the greatest size is that of the lesser of the
//! greatest number and the number of its units in the upper set, and every number between is the size of one too. The
//! repository's program `list_sizes` prints the two, how few and how many units may be on, for each step of a sheet.
//!
//! # The sheet
//!
//! A campaign sheet is a block of bytes: a header of 24 bytes, then r records, of 24 bytes each in edition 1 and of 32
//! in edition 2. Numbers are little-endian.
//!
//! | Bytes of the header | What |
//! |---|---|
//! | 0 to 3 | the ASCII letters `WARM` |
//! | 4 | the edition, 1 or 2 |
//! | 5 | the number of units d, 1 to 64 |
//! | 6 to 7 | the number of records r, 0 to 256 |
//! | 8 to 9 | the number of the first record, 0 if there is no step |
//! | 10 to 11 | the bound on warm-ups |
//! | 12 to 15 | in edition 1 zero; in edition 2 the numbers of units of chambers 1 to 4, which add up to d |
//! | 16 to 23 | the start set, units below d only |
//!
//! | Bytes of a record, edition 1 | Edition 2 | What |
//! |---|---|---|
//! | 0 to 7 | 0 to 7 | the lower set: the units that must be on |
//! | 8 to 15 | 8 to 15 | the upper set: the units that may be on, all below d |
//! | 16 | 16 to 19 | the least number of units on, in edition 2 for each chamber |
//! | 17 | 20 to 23 | the greatest number of units on, likewise |
//! | 18 to 19 | 24 to 25 | the number of the next record, 0 at the end |
//! | none | 26 to 27 | zero |
//! | 20 to 23 | 28 to 31 | a job tag, any value |
//!
//! Units are dealt out to the chambers in order, and a chamber may be empty; in edition 1 all are in chamber 1. Records
//! are numbered from 1. The steps are the records from the first one along the next ones; a record that is never
//! reached may hold anything. The repository's `docs/FORMAT.md` has the details, the choice among several best plans
//! included.
//!
//! [`to_edition_2`] converts a sheet of edition 1, and [`to_edition_1`] one of edition 2 whose units are all in
//! chamber 1. Each record keeps its number, those that are never reached included, and plan, chart and verdicts stay
//! the same.
//!
//! # Replies, refusals and buffers
//!
//! Bytes need no check beforehand. A sheet that cannot be used, one that cannot be written, or an output that is too
//! short gets [`Error::Refused`]: the first cause that holds, a [`Refusal`], and its [`Place`]. A refusal leaves every
//! output exactly as it was.
//!
//! A reply fills the first n places of each output, for n steps, and lends them back; it changes no place after them.
//! An output of [`STEPS`] places is always enough; one that is too short is refused with the number that it takes.
//! [`plan`] and [`chart`] read n by a call of [`step_count`], which takes less time than a plan. [`write()`] fills the
//! first 24 · (n + 1) bytes of its output, [`to_edition_1`] the first 24 · (r + 1) and [`to_edition_2`] the first
//! 32 · r + 24, for r records, and one of [`BYTES`] is always enough. With the feature `alloc`, `steps_vec`,
//! `plan_vec`, `chart_vec`, `write_vec`, `to_edition_1_vec` and `to_edition_2_vec` need no output, and give what they
//! fill in a `Vec`.
//!
//! No call but those six allocates, and none blocks, prints or keeps state, so threads may call at will. A call takes
//! less than a millisecond on the largest sheets. The library needs at most 32,768 bytes of stack for a chart, and at
//! most 13,824 for all else; what these limits leave out, the C header says under Stack.
//!
//! # Linking
//!
//! `./build warm` in the repository writes `target/staticlib/libwarm.a`, for x86-64 Linux. The build script links
//! it from there, or from the folder that the environment variable `WARM_LIB_DIR` names; a relative one counts from the
//! root of the repository. The crate needs no `std`, but `memcpy` and `memset` of its host.
//!
//! # Example
//!
//! Three units, of which at most two may be on, and four steps that need unit 0, unit 1, unit 2 and unit 0 again. The
//! bound is three warm-ups, and nothing is on at the start.
//!
//! ```
//! let steps = [0b001, 0b010, 0b100, 0b001].map(|lower| warm::Step::new(lower, 0b111, 0, 2, 0));
//! let (mut bytes, mut sets) = ([0; warm::BYTES], [0; warm::STEPS]);
//! let sheet = warm::write(3, 3, 0, &steps, &mut bytes)?;
//! let plan = warm::plan(sheet, &mut sets)?;
//! assert_eq!(plan.sets, [0b001, 0b011, 0b101, 0b101]);
//! assert_eq!(plan.total, 3);
//! # Ok::<(), warm::Error>(())
//! ```

#![no_std]

#[cfg(feature = "alloc")]
extern crate alloc;
#[cfg(test)]
extern crate std;

mod ffi;
#[cfg(feature = "alloc")]
mod owned;
mod refusal;

pub use ffi::{ChamberStep, Step, BYTES, CHAMBERS, STEPS, UNITS};
#[cfg(feature = "alloc")]
pub use owned::{chart_vec, plan_vec, steps_vec, to_edition_1_vec, to_edition_2_vec, write_vec};
pub use refusal::{Error, Place, Refusal, UnknownRefusal};

/// The version of the library's C interface that this crate is written for.
pub const VERSION: u32 = 2;

/// A sheet to try: three units, of which at most two may be on, and four steps that need unit 0, unit 1, unit 2 and
/// unit 0 again. The bound is three warm-ups, and nothing is on at the start.
pub const FOUR_RUNS: [u8; 120] = *b"\
    WARM\x01\x03\x04\0\x01\0\x03\0\0\0\0\0\0\0\0\0\0\0\0\0\
    \x01\0\0\0\0\0\0\0\x07\0\0\0\0\0\0\0\0\x02\x02\0\0\0\0\0\
    \x02\0\0\0\0\0\0\0\x07\0\0\0\0\0\0\0\0\x02\x03\0\0\0\0\0\
    \x04\0\0\0\0\0\0\0\x07\0\0\0\0\0\0\0\0\x02\x04\0\0\0\0\0\
    \x01\0\0\0\0\0\0\0\x07\0\0\0\0\0\0\0\0\x02\0\0\0\0\0\0";

/// What a sheet says, from [`steps`]: the steps as `&[ChamberStep]`, or as `Vec<ChamberStep>` from `steps_vec`.
#[derive(Clone, Copy, Debug, PartialEq, Eq, Hash)]
#[non_exhaustive]
pub struct Campaign<Steps> {
    /// The number of units, 1 to 64.
    pub units: u32,
    /// The bound on warm-ups.
    pub bound: u32,
    /// The units that are on before the first step.
    pub start: u64,
    /// The number of units of each chamber: of a sheet of edition 1, that of all units, and three times 0.
    pub chambers: [u32; CHAMBERS],
    /// The steps in order.
    pub steps: Steps,
}

/// A plan with the fewest warm-ups, from [`plan`]: the sets as `&[u64]`, or as `Vec<u64>` from `plan_vec`.
#[derive(Clone, Copy, Debug, PartialEq, Eq, Hash)]
#[non_exhaustive]
pub struct Plan<Sets> {
    /// The units that are on, for each step.
    pub sets: Sets,
    /// The warm-ups of the plan.
    pub total: u32,
}

/// What can be within the bound, from [`chart`]: the sets as `&[u64]`, or as `Vec<u64>` from `chart_vec`.
#[derive(Clone, Copy, Debug, PartialEq, Eq, Hash)]
#[non_exhaustive]
pub struct Chart<Sets> {
    /// The units that can be on, for each step.
    pub on: Sets,
    /// The units that can be off, for each step.
    pub off: Sets,
    /// The fewest warm-ups, those of [`plan`].
    pub total: u32,
}

/// What [`verdict`] says of a plan.
#[derive(Clone, Copy, Debug, PartialEq, Eq, Hash)]
#[non_exhaustive]
pub struct Verdict {
    /// Whether the plan is feasible and its total at most the bound.
    pub accepted: bool,
    /// The plan's warm-ups, whether it is accepted or not.
    pub total: u32,
}

/// The steps of a sheet, in order, into the first places of `list`.
///
/// ```
/// let mut list = [warm::ChamberStep::default(); warm::STEPS];
/// let campaign = warm::steps(&warm::FOUR_RUNS, &mut list)?;
/// assert_eq!((campaign.units, campaign.bound, campaign.start, campaign.chambers), (3, 3, 0, [3, 0, 0, 0]));
/// assert_eq!(campaign.steps.len(), 4);
/// assert_eq!(campaign.steps[2], warm::ChamberStep::new(0b100, 0b111, [0, 0, 0, 0], [2, 0, 0, 0], 0));
/// # Ok::<(), warm::Error>(())
/// ```
///
/// # Errors
///
/// Refusals 1 to 8, 13 and 14; the list is then as it was.
pub fn steps<'a>(sheet: &[u8], list: &'a mut [ChamberStep]) -> Result<Campaign<&'a [ChamberStep]>, Error> {
    let reply = ffi::steps(sheet, list);
    full(reply.refusal, reply.place)?;
    let steps = first(list, reply.steps as usize);
    Ok(Campaign { units: reply.units, bound: reply.bound, start: reply.start, chambers: reply.chambers, steps })
}

/// The number of steps of a sheet: the places that an output takes.
///
/// ```
/// assert_eq!(warm::step_count(&warm::FOUR_RUNS), Ok(4));
/// ```
///
/// # Errors
///
/// Refusals 1 to 7, 13 and 14.
pub fn step_count(sheet: &[u8]) -> Result<usize, Error> {
    match steps(sheet, &mut []) {
        Ok(_) => Ok(0),
        Err(Error::Refused { refusal: Refusal::ShortOutput, place }) => Ok(place.number() as usize),
        Err(error) => Err(error),
    }
}

/// A plan with the fewest warm-ups, into the first places of `output`.
///
/// The plan meets the sheet. Where several have as few warm-ups, it is always the same one of them, the one that
/// FindSupport builds in each chamber: where nothing else tells two units of a chamber apart, it prefers the higher
/// number.
///
/// ```
/// let mut sets = [0; warm::STEPS];
/// let plan = warm::plan(&warm::FOUR_RUNS, &mut sets)?;
/// assert_eq!(plan.sets, [0b001, 0b011, 0b101, 0b101]);
/// assert_eq!(plan.total, 3);
///
/// let mut sheet = warm::FOUR_RUNS;
/// sheet[10] = 2; // The bound. Three warm-ups are the fewest.
/// let refused = warm::plan(&sheet, &mut sets).unwrap_err();
/// assert_eq!(refused, warm::Error::Refused { refusal: warm::Refusal::Bound, place: warm::Place::Count(3) });
/// assert_eq!(refused.to_string(), "refused 9: the bound is below the fewest warm-ups (3)");
/// # Ok::<(), warm::Error>(())
/// ```
///
/// # Errors
///
/// Refusals 1 to 9, 13 and 14; the output is then as it was.
pub fn plan<'a>(sheet: &[u8], output: &'a mut [u64]) -> Result<Plan<&'a [u64]>, Error> {
    let reply = ffi::plan(sheet, output);
    full(reply.refusal, reply.place)?;
    Ok(Plan { sets: first(output, step_count(sheet)?), total: reply.total })
}

/// For each step, over all plans that meet the sheet, the units that can be on into the first places of `on`, and those
/// that can be off into the first places of `off`.
///
/// A unit can be in both sets of a step. A unit that the sheet does not have is in neither. Beyond that of a plan, the
/// time is linear in the number of steps times that of units.
///
/// With two warm-ups or more to spare, which is a bound of at least the total plus 2, the sets show what each step
/// alone allows: a unit can be on there exactly if some feasible set of that step has it, and off exactly if some
/// feasible set of that step lacks it. The reason is that a detour in one step costs at most two warm-ups. To see what
/// all plans with the fewest warm-ups have in common, set the bound (bytes 10 to 11 of the sheet) to the fewest, which
/// is the total of [`plan`], or the count that comes with [`Refusal::Bound`].
///
/// ```
/// let (mut on, mut off) = ([0; warm::STEPS], [0; warm::STEPS]);
/// let chart = warm::chart(&warm::FOUR_RUNS, &mut on, &mut off)?;
/// assert_eq!(chart.on, [0b011, 0b011, 0b101, 0b101]);
/// assert_eq!(chart.off, [0b110, 0b100, 0b010, 0b110]);
/// assert_eq!(chart.total, 3);
///
/// let mut sheet = warm::FOUR_RUNS;
/// sheet[10] = 5; // The bound. Each step alone decides now: it needs one unit, and has room for any other.
/// let chart = warm::chart(&sheet, &mut on, &mut off)?;
/// assert_eq!(chart.on, [0b111, 0b111, 0b111, 0b111]);
/// assert_eq!(chart.off, [0b110, 0b101, 0b011, 0b110]);
/// # Ok::<(), warm::Error>(())
/// ```
///
/// # Errors
///
/// Refusals 1 to 9, 13 and 14; both outputs are then as they were.
pub fn chart<'a>(sheet: &[u8], on: &'a mut [u64], off: &'a mut [u64]) -> Result<Chart<&'a [u64]>, Error> {
    let reply = ffi::chart(sheet, on, off);
    full(reply.refusal, reply.place)?;
    let count = step_count(sheet)?;
    Ok(Chart { on: first(on, count), off: first(off, count), total: reply.total })
}

/// Whether a plan that was made elsewhere meets the sheet, and its total.
///
/// The total is counted whether the plan is accepted or not; units that the sheet does not have count like any other.
///
/// ```
/// let verdict = warm::verdict(&warm::FOUR_RUNS, &[0b001, 0b010, 0b100, 0b001])?;
/// assert!(!verdict.accepted, "the bound is 3");
/// assert_eq!(verdict.total, 4);
/// # Ok::<(), warm::Error>(())
/// ```
///
/// # Errors
///
/// Refusals 1 to 7, 10, 13 and 14.
pub fn verdict(sheet: &[u8], plan: &[u64]) -> Result<Verdict, Error> {
    let reply = ffi::verdict(sheet, plan);
    full(reply.refusal, reply.place)?;
    Ok(Verdict { accepted: reply.accepted != 0, total: reply.total })
}

/// The sheet of so many units, with this bound, this start set and these steps, into the first bytes of `output`. They
/// are lent back.
///
/// The sheet is of edition 1: all units are in chamber 1. There must be 1 to 64 units, no unit from that number up in
/// the start set, and at most 256 steps. The records are the steps in order, tags included. The steps themselves are
/// not tested: the other functions may refuse the sheet with 6 or 7. If they do not, [`steps`] gives back what it was
/// written from, each [`Step`] as a [`ChamberStep`].
///
/// ```
/// let steps = [0b001, 0b010, 0b100, 0b001].map(|lower| warm::Step::new(lower, 0b111, 0, 2, 0));
/// let mut bytes = [0; warm::BYTES];
/// assert_eq!(warm::write(3, 3, 0, &steps, &mut bytes)?, warm::FOUR_RUNS);
///
/// let refused = warm::write(3, 3, 0, &steps, &mut []).unwrap_err();
/// assert_eq!(refused, warm::Error::Refused { refusal: warm::Refusal::NoRoom, place: warm::Place::Count(120) });
/// # Ok::<(), warm::Error>(())
/// ```
///
/// # Errors
///
/// Refusals 11 and 12; the output is then as it was.
pub fn write<'a>(units: u8, bound: u16, start: u64, steps: &[Step], output: &'a mut [u8]) -> Result<&'a [u8], Error> {
    let reply = ffi::write(units, bound, start, steps, output);
    full(reply.refusal, reply.place)?;
    Ok(first(output, reply.length as usize))
}

/// A sheet in edition 1, into the first bytes of `output`. They are lent back.
///
/// A sheet of edition 2 must have all of its units in chamber 1, whose numbers are kept. One of edition 1 is copied as
/// it is. Each record keeps its number, and those that are never reached are converted like the others. The bound plays
/// no part. [`plan`], [`chart`] and [`verdict`] say the same of the converted sheet, and so does [`steps`], except that
/// the greatest numbers of chambers 2 to 4, which are empty, are 0.
///
/// ```
/// let (mut bytes, mut lowered) = ([0; warm::BYTES], [0; warm::BYTES]);
/// let raised = warm::to_edition_2(&warm::FOUR_RUNS, &mut bytes)?;
/// assert_eq!(warm::to_edition_1(raised, &mut lowered)?, warm::FOUR_RUNS);
///
/// bytes[12..14].copy_from_slice(&[2, 1]); // Unit 2 is in chamber 2,
/// bytes[109] = 1; // where one unit may be on in step 3, which needs it.
/// let refused = warm::to_edition_1(&bytes[..152], &mut lowered).unwrap_err();
/// assert_eq!(refused, warm::Error::Refused { refusal: warm::Refusal::OtherChambers, place: warm::Place::Byte(12) });
/// # Ok::<(), warm::Error>(())
/// ```
///
/// # Errors
///
/// Refusals 1 to 8 and 13 to 15; the output is then as it was.
pub fn to_edition_1<'a>(sheet: &[u8], output: &'a mut [u8]) -> Result<&'a [u8], Error> {
    let reply = ffi::to_edition_1(sheet, output);
    full(reply.refusal, reply.place)?;
    Ok(first(output, reply.length as usize))
}

/// A sheet in edition 2, into the first bytes of `output`. They are lent back.
///
/// Of a sheet of edition 1, all units are then in chamber 1, and the numbers of the other chambers are 0. One of
/// edition 2 is copied as it is. Each record keeps its number, and those that are never reached are converted like the
/// others. The bound plays no part. [`steps`], [`plan`], [`chart`] and [`verdict`] say the same of the converted sheet,
/// and [`to_edition_1`] gives back the bytes of a sheet that was of edition 1.
///
/// ```
/// let (mut bytes, mut sets) = ([0; warm::BYTES], [0; warm::STEPS]);
/// let raised = warm::to_edition_2(&warm::FOUR_RUNS, &mut bytes)?;
/// assert_eq!((raised.len(), raised[4], &raised[12..16]), (152, 2, &[3, 0, 0, 0][..]));
/// assert_eq!(warm::plan(raised, &mut sets)?.sets, [0b001, 0b011, 0b101, 0b101]);
///
/// let refused = warm::to_edition_2(&warm::FOUR_RUNS, &mut []).unwrap_err();
/// assert_eq!(refused, warm::Error::Refused { refusal: warm::Refusal::ShortOutput, place: warm::Place::Count(152) });
/// # Ok::<(), warm::Error>(())
/// ```
///
/// # Errors
///
/// Refusals 1 to 8, 13 and 14; the output is then as it was.
pub fn to_edition_2<'a>(sheet: &[u8], output: &'a mut [u8]) -> Result<&'a [u8], Error> {
    let reply = ffi::to_edition_2(sheet, output);
    full(reply.refusal, reply.place)?;
    Ok(first(output, reply.length as usize))
}

/// A full reply has refusal 0.
fn full(refusal: u32, place: u32) -> Result<(), Error> {
    match refusal {
        0 => Ok(()),
        _ => Err(Error::new(refusal, place)),
    }
}

/// The first places of an output, those that a full reply has filled. An output that has fewer gets no full reply.
fn first<T>(output: &[T], places: usize) -> &[T] {
    &output[..places.min(output.len())]
}

/// Runs the README's example.
#[cfg(doctest)]
#[doc = include_str!("../README.md")]
struct Readme;
