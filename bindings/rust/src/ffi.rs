//! The C interface, as include/warm.h declares it, and its entries over slices. All that is unsafe in the crate is
//! here. The benchmark has this file too, by its path.

use core::mem::{align_of, offset_of, size_of};

/// The most units that a sheet can have.
pub const UNITS: usize = 64;

/// The most chambers that a sheet can have.
pub const CHAMBERS: usize = 4;

/// The most steps that a sheet can have: outputs of this many places are always enough.
pub const STEPS: usize = 256;

/// The most bytes that a sheet can have: an output of this many is always enough.
pub const BYTES: usize = 24 + 32 * STEPS;

/// One step of a sheet that is read, from [`steps`](crate::steps). Unit `u` has weight 2^u in a set, and chamber `c`
/// has place `c - 1` in an array. The default is no step of use: it fills lists that are lent.
#[repr(C)]
#[derive(Clone, Copy, Debug, Default, PartialEq, Eq, Hash)]
#[non_exhaustive]
pub struct ChamberStep {
    /// The units that must be on.
    pub lower: u64,
    /// The units that may be on.
    pub upper: u64,
    /// The least number of units on, for each chamber.
    pub least: [u8; CHAMBERS],
    /// The greatest number of units on, for each chamber.
    pub greatest: [u8; CHAMBERS],
    /// The job tag, any value.
    pub tag: u32,
    /// 0 in a step that was read.
    pub reserved: u32,
}

impl ChamberStep {
    /// A step from its lower and upper set, the least and greatest numbers of its chambers and its tag.
    #[must_use]
    pub const fn new(lower: u64, upper: u64, least: [u8; CHAMBERS], greatest: [u8; CHAMBERS], tag: u32) -> ChamberStep {
        ChamberStep { lower, upper, least, greatest, tag, reserved: 0 }
    }
}

/// What is read of a step that was written: its numbers are those of chamber 1, and the others are 0.
impl From<Step> for ChamberStep {
    fn from(step: Step) -> ChamberStep {
        ChamberStep::new(step.lower, step.upper, [step.least, 0, 0, 0], [step.greatest, 0, 0, 0], step.tag)
    }
}

/// One step of a sheet that is written, which has one chamber, for [`write()`](crate::write). Unit `u` has weight 2^u
/// in a set.
#[repr(C)]
#[derive(Clone, Copy, Debug, Default, PartialEq, Eq, Hash)]
#[non_exhaustive]
pub struct Step {
    /// The units that must be on.
    pub lower: u64,
    /// The units that may be on.
    pub upper: u64,
    /// The least number of units on.
    pub least: u8,
    /// The greatest number of units on.
    pub greatest: u8,
    /// The job tag, any value.
    pub tag: u32,
}

impl Step {
    /// A step from its lower and upper set, its least and greatest number and its tag.
    #[must_use]
    pub const fn new(lower: u64, upper: u64, least: u8, greatest: u8, tag: u32) -> Step {
        Step { lower, upper, least, greatest, tag }
    }
}

#[repr(C)]
#[derive(Clone, Copy, Debug, Default, PartialEq)]
pub struct StepsReply {
    pub refusal: u32,
    pub place: u32,
    pub units: u32,
    pub steps: u32,
    pub bound: u32,
    pub reserved: u32,
    pub start: u64,
    pub chambers: [u32; CHAMBERS],
}

#[repr(C)]
#[derive(Clone, Copy, Debug, Default, PartialEq)]
pub struct Reply {
    pub refusal: u32,
    pub place: u32,
    pub total: u32,
    pub accepted: u32,
}

#[repr(C)]
#[derive(Clone, Copy, Debug, Default, PartialEq)]
pub struct Written {
    pub refusal: u32,
    pub place: u32,
    pub length: u32,
    pub reserved: u32,
}

/// Declares the entries, with `$before` before their names in the archive: nothing here, and `other_` in the benchmark
/// for a second archive.
macro_rules! entries {
    ($before:literal) => {
        entries! { $before:
            fn warm_steps_2(sheet: *const u8, sheet_len: usize, steps: *mut ChamberStep, steps_len: usize) -> StepsReply;
            fn warm_plan(sheet: *const u8, sheet_len: usize, plan: *mut u64, plan_len: usize) -> Reply;
            fn warm_chart(sheet: *const u8, sheet_len: usize, on: *mut u64, on_len: usize, off: *mut u64, off_len: usize)
                -> Reply;
            fn warm_verdict(sheet: *const u8, sheet_len: usize, plan: *const u64, plan_len: usize) -> Reply;
            fn warm_write(units: u8, bound: u16, start: u64, steps: *const Step, steps_len: usize, sheet: *mut u8,
                sheet_len: usize) -> Written;
            fn warm_to_edition_1(sheet: *const u8, sheet_len: usize, out: *mut u8, out_len: usize) -> Written;
            fn warm_to_edition_2(sheet: *const u8, sheet_len: usize, out: *mut u8, out_len: usize) -> Written;
        }
    };
    ($before:literal: $(fn $name:ident $arguments:tt -> $reply:ty;)*) => {
        extern "C" {
            $(#[link_name = concat!($before, stringify!($name))] pub fn $name $arguments -> $reply;)*
        }
    };
}

entries!("");

// The layouts that include/warm.h asserts for C.
const _: () = {
    assert!(size_of::<ChamberStep>() == 32 && align_of::<ChamberStep>() == 8);
    assert!(offset_of!(ChamberStep, lower) == 0 && offset_of!(ChamberStep, upper) == 8);
    assert!(offset_of!(ChamberStep, least) == 16 && offset_of!(ChamberStep, greatest) == 20);
    assert!(offset_of!(ChamberStep, tag) == 24 && offset_of!(ChamberStep, reserved) == 28);

    assert!(size_of::<Step>() == 24 && align_of::<Step>() == 8);
    assert!(offset_of!(Step, lower) == 0 && offset_of!(Step, upper) == 8);
    assert!(offset_of!(Step, least) == 16 && offset_of!(Step, greatest) == 17 && offset_of!(Step, tag) == 20);

    assert!(size_of::<StepsReply>() == 48 && align_of::<StepsReply>() == 8);
    assert!(offset_of!(StepsReply, refusal) == 0 && offset_of!(StepsReply, place) == 4);
    assert!(offset_of!(StepsReply, units) == 8 && offset_of!(StepsReply, steps) == 12);
    assert!(offset_of!(StepsReply, bound) == 16 && offset_of!(StepsReply, reserved) == 20);
    assert!(offset_of!(StepsReply, start) == 24 && offset_of!(StepsReply, chambers) == 32);

    assert!(size_of::<Reply>() == 16 && align_of::<Reply>() == 4);
    assert!(offset_of!(Reply, refusal) == 0 && offset_of!(Reply, place) == 4);
    assert!(offset_of!(Reply, total) == 8 && offset_of!(Reply, accepted) == 12);

    assert!(size_of::<Written>() == 16 && align_of::<Written>() == 4);
    assert!(offset_of!(Written, refusal) == 0 && offset_of!(Written, place) == 4);
    assert!(offset_of!(Written, length) == 8 && offset_of!(Written, reserved) == 12);
};

// SAFETY, of each call below: each pointer and length is that of a live slice, those that are written to are lent for
// writing and so overlap no other, and the library keeps none. Whatever it writes to a place is a valid value, as all
// fields are numbers.

pub fn steps(sheet: &[u8], list: &mut [ChamberStep]) -> StepsReply {
    unsafe { warm_steps_2(sheet.as_ptr(), sheet.len(), list.as_mut_ptr(), list.len()) }
}

pub fn plan(sheet: &[u8], output: &mut [u64]) -> Reply {
    unsafe { warm_plan(sheet.as_ptr(), sheet.len(), output.as_mut_ptr(), output.len()) }
}

pub fn chart(sheet: &[u8], on: &mut [u64], off: &mut [u64]) -> Reply {
    unsafe { warm_chart(sheet.as_ptr(), sheet.len(), on.as_mut_ptr(), on.len(), off.as_mut_ptr(), off.len()) }
}

pub fn verdict(sheet: &[u8], plan: &[u64]) -> Reply {
    unsafe { warm_verdict(sheet.as_ptr(), sheet.len(), plan.as_ptr(), plan.len()) }
}

pub fn write(units: u8, bound: u16, start: u64, steps: &[Step], output: &mut [u8]) -> Written {
    unsafe { warm_write(units, bound, start, steps.as_ptr(), steps.len(), output.as_mut_ptr(), output.len()) }
}

pub fn to_edition_1(sheet: &[u8], output: &mut [u8]) -> Written {
    unsafe { warm_to_edition_1(sheet.as_ptr(), sheet.len(), output.as_mut_ptr(), output.len()) }
}

pub fn to_edition_2(sheet: &[u8], output: &mut [u8]) -> Written {
    unsafe { warm_to_edition_2(sheet.as_ptr(), sheet.len(), output.as_mut_ptr(), output.len()) }
}
