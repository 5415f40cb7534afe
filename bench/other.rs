// Another archive beside the library, for times in turns. bench/run puts `other_` before the names of its entries. One
// of version 1 has another steps list, and knows edition 1 alone; one that is older than the conversions has none.
#![cfg_attr(not(other_converts), allow(dead_code))]
use crate::library::{ChamberStep, Reply, Step, StepsReply, Written};
use crate::task::{call_library, Entry, Handed, Outputs, Task};

// In this file an entry is the other archive's.
entries!("other_");

#[cfg(not(other_steps_2))]
#[repr(C)]
struct FirstStepsReply {
    refusal: u32,
    place: u32,
    units: u32,
    steps: u32,
    bound: u32,
    reserved: u32,
    start: u64,
}

#[cfg(not(other_steps_2))]
extern "C" {
    fn other_warm_steps(sheet: *const u8, sheet_len: usize, steps: *mut Step, steps_len: usize) -> FirstStepsReply;
}

// Whether the other archive can be asked for this: one of version 1 refuses sheets of edition 2.
pub fn knows(task: &Task) -> bool {
    match task.entry {
        Entry::ToEdition1 | Entry::ToEdition2 => cfg!(other_converts),
        _ => cfg!(other_steps_2) || task.sheet[4] == 1,
    }
}

// The call of the other archive. Its steps go where the library's go, whatever the length of a place.
pub fn call(task: &Task, out: &mut Outputs) {
    let (sheet, len) = (task.sheet.as_ptr(), task.sheet.len());
    unsafe {
        match task.entry {
            Entry::Steps => {
                #[cfg(other_steps_2)]
                let said = warm_steps_2(sheet, len, out.list.as_mut_ptr(), out.list.len());
                #[cfg(not(other_steps_2))]
                let said = other_warm_steps(sheet, len, out.list.as_mut_ptr().cast(), out.list.len());
                let reply = &mut out.steps_reply;
                (reply.refusal, reply.place, reply.units, reply.steps) = (said.refusal, said.place, said.units, said.steps);
                (reply.bound, reply.start) = (said.bound, said.start);
            }
            Entry::Plan => out.reply = warm_plan(sheet, len, out.first.as_mut_ptr(), out.first.len()),
            Entry::Verdict => out.reply = warm_verdict(sheet, len, task.plan.as_ptr(), task.plan.len()),
            Entry::Chart => {
                let (on, off) = (&mut out.first, &mut out.second);
                out.reply = warm_chart(sheet, len, on.as_mut_ptr(), on.len(), off.as_mut_ptr(), off.len());
            }
            Entry::Write => {
                let Handed { units, bound, start, ref steps } = task.handed;
                out.written = warm_write(units, bound, start, steps.as_ptr(), steps.len(), out.sheet.as_mut_ptr(), task.places);
            }
            #[cfg(other_converts)]
            Entry::ToEdition1 => out.written = warm_to_edition_1(sheet, len, out.sheet.as_mut_ptr(), task.places),
            #[cfg(other_converts)]
            Entry::ToEdition2 => out.written = warm_to_edition_2(sheet, len, out.sheet.as_mut_ptr(), task.places),
            #[cfg(not(other_converts))]
            Entry::ToEdition1 | Entry::ToEdition2 => unreachable!("the other archive does not convert"),
        }
    }
}

// Stops the program if the two archives differ on a task, in the reply or in the words or bytes that they leave. Of steps the numbers of the header
// are compared.
pub fn must_agree(task: &Task, what: &str) {
    let [mut ours, mut theirs] = [Outputs::new(), Outputs::new()];
    call_library(task, &mut ours);
    call(task, &mut theirs);
    theirs.list = ours.list;
    theirs.steps_reply.chambers = ours.steps_reply.chambers;
    if ours != theirs {
        eprintln!("bench: {} differs from the other archive on {what}", task.entry.name());
        std::process::exit(1);
    }
}
