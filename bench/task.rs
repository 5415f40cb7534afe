// One measured call: an entry with its inputs, made to the library, to plain Rust, to the scan, or to the library on a painted stack.
use crate::families::{set_bound, Random};
use crate::library::{self, ChamberStep, Reply, Step, StepsReply, Written, BYTES, STEPS};
use crate::painted::Painted;
use crate::plain;
use crate::scan;

#[derive(Clone, Copy, Debug, PartialEq)]
pub enum Entry {
    Steps,
    Plan,
    Verdict,
    Chart,
    Write,
    ToEdition1,
    ToEdition2,
}

impl Entry {
    pub const ALL: [Entry; 7] =
        [Entry::Steps, Entry::Plan, Entry::Verdict, Entry::Chart, Entry::Write, Entry::ToEdition1, Entry::ToEdition2];

    pub fn name(self) -> &'static str {
        ["warm_steps", "warm_plan", "warm_verdict", "warm_chart", "warm_write", "warm_to_edition_1", "warm_to_edition_2"][self as usize]
    }

    // Its name in the archive.
    pub fn symbol(self) -> &'static str {
        match self {
            Entry::Steps => "warm_steps_2",
            _ => self.name(),
        }
    }
}

// What a sheet is written from.
#[derive(Debug)]
pub struct Handed {
    pub units: u8,
    pub bound: u16,
    pub start: u64,
    pub steps: Vec<Step>,
}

#[derive(Debug)]
pub struct Task {
    pub entry: Entry,
    pub sheet: Vec<u8>,
    // what the verdict is handed
    pub plan: Vec<u64>,
    // what write is handed
    pub handed: Handed,
    // the bytes that are lent for a sheet that is written or converted
    pub places: usize,
}

// The lent outputs and the reply. They are not cleared between calls.
#[derive(Clone, PartialEq)]
pub struct Outputs {
    pub list: [ChamberStep; STEPS],
    pub first: [u64; STEPS],
    pub second: [u64; STEPS],
    pub sheet: [u8; BYTES],
    pub steps_reply: StepsReply,
    pub reply: Reply,
    pub written: Written,
}

impl Outputs {
    pub fn new() -> Outputs {
        Outputs {
            list: [ChamberStep::default(); STEPS],
            first: [0; STEPS],
            second: [0; STEPS],
            sheet: [0; BYTES],
            steps_reply: StepsReply::default(),
            reply: Reply::default(),
            written: Written::default(),
        }
    }

    pub fn clear_words(&mut self) {
        self.first.fill(0);
    }
}

pub type Caller = fn(&Task, &mut Outputs);

pub fn call_library(task: &Task, out: &mut Outputs) {
    match task.entry {
        Entry::Steps => out.steps_reply = library::steps(&task.sheet, &mut out.list),
        Entry::Plan => out.reply = library::plan(&task.sheet, &mut out.first),
        Entry::Verdict => out.reply = library::verdict(&task.sheet, &task.plan),
        Entry::Chart => out.reply = library::chart(&task.sheet, &mut out.first, &mut out.second),
        Entry::Write => {
            let Handed { units, bound, start, ref steps } = task.handed;
            out.written = library::write(units, bound, start, steps, &mut out.sheet[..task.places]);
        }
        Entry::ToEdition1 => out.written = library::to_edition_1(&task.sheet, &mut out.sheet[..task.places]),
        Entry::ToEdition2 => out.written = library::to_edition_2(&task.sheet, &mut out.sheet[..task.places]),
    }
}

pub fn call_plain(task: &Task, out: &mut Outputs) {
    match task.entry {
        Entry::Steps => out.steps_reply = plain::steps(&task.sheet, &mut out.list),
        Entry::Plan => out.reply = plain::plan(&task.sheet, &mut out.first),
        Entry::Verdict => out.reply = plain::verdict(&task.sheet, &task.plan),
        Entry::Chart => out.reply = plain::chart(&task.sheet, &mut out.first, &mut out.second),
        Entry::Write => {
            let Handed { units, bound, start, ref steps } = task.handed;
            out.written = plain::write(units, bound, start, steps, &mut out.sheet[..task.places]);
        }
        Entry::ToEdition1 => out.written = plain::to_edition_1(&task.sheet, &mut out.sheet[..task.places]),
        Entry::ToEdition2 => out.written = plain::to_edition_2(&task.sheet, &mut out.sheet[..task.places]),
    }
}

// The scan has a plan, and no other entry.
pub fn call_scan(task: &Task, out: &mut Outputs) {
    assert_eq!(task.entry, Entry::Plan);
    out.reply = scan::plan(&task.sheet, &mut out.first);
}

// Calls the library on a painted stack, and gives the bytes of stack that it used.
pub fn call_painted(task: &Task, out: &mut Outputs, painted: &mut Painted) -> usize {
    let (sheet, len) = (task.sheet.as_ptr() as usize, task.sheet.len());
    let (first, second) = (out.first.as_mut_ptr() as usize, out.second.as_mut_ptr() as usize);
    let (to, places) = (out.sheet.as_mut_ptr() as usize, task.places);
    // a reply of 48 bytes goes to the address in the first word, one of 16 bytes comes in two registers
    let (entry, words) = match task.entry {
        Entry::Steps => {
            let reply = &mut out.steps_reply as *mut StepsReply as usize;
            (library::warm_steps_2 as *const () as usize, [reply, sheet, len, out.list.as_mut_ptr() as usize, STEPS, 0, 0])
        }
        Entry::Plan => (library::warm_plan as *const () as usize, [sheet, len, first, STEPS, 0, 0, 0]),
        Entry::Verdict => (library::warm_verdict as *const () as usize, [sheet, len, task.plan.as_ptr() as usize, task.plan.len(), 0, 0, 0]),
        Entry::Chart => (library::warm_chart as *const () as usize, [sheet, len, first, STEPS, second, STEPS, 0]),
        Entry::Write => {
            let Handed { units, bound, start, ref steps } = task.handed;
            let from = steps.as_ptr() as usize;
            (library::warm_write as *const () as usize, [units as usize, bound as usize, start as usize, from, steps.len(), to, places])
        }
        Entry::ToEdition1 => (library::warm_to_edition_1 as *const () as usize, [sheet, len, to, places, 0, 0, 0]),
        Entry::ToEdition2 => (library::warm_to_edition_2 as *const () as usize, [sheet, len, to, places, 0, 0, 0]),
    };
    let (told, depth) = unsafe { painted.call(entry, words) };
    let half = |i: usize| (told[i] as u32, (told[i] >> 32) as u32);
    let ((refusal, place), (third, fourth)) = (half(0), half(1));
    match task.entry {
        Entry::Steps => (),
        Entry::Write | Entry::ToEdition1 | Entry::ToEdition2 => out.written = Written { refusal, place, length: third, reserved: fourth },
        _ => out.reply = Reply { refusal, place, total: third, accepted: fourth },
    }
    depth
}

// The plan of a sheet and its total, by the library.
pub fn best_plan(sheet: &[u8]) -> (Vec<u64>, u32) {
    let mut sheet = sheet.to_vec();
    set_bound(&mut sheet, u16::MAX as u32);
    let mut plan = vec![0; STEPS];
    let reply = library::plan(&sheet, &mut plan);
    assert_eq!(reply.refusal, 0, "a made sheet is refused");
    plan.truncate(handed(&sheet).steps.len());
    (plan, reply.total)
}

// An entry on a sheet with so many warm-ups to spare.
pub fn task(entry: Entry, sheet: &[u8], slack: u32) -> Task {
    let (plan, fewest) = best_plan(sheet);
    let mut sheet = sheet.to_vec();
    set_bound(&mut sheet, fewest + slack);
    let handed = handed(&sheet);
    Task { entry, sheet, plan, handed, places: BYTES }
}

// What a sheet says, as the library reads it, with the numbers of chamber 1 alone.
fn handed(sheet: &[u8]) -> Handed {
    let mut list = [ChamberStep::default(); STEPS];
    let said = library::steps(sheet, &mut list);
    assert_eq!(said.refusal, 0, "a made sheet is refused");
    let first = |x: &ChamberStep| Step::new(x.lower, x.upper, x.least[0], x.greatest[0], x.tag);
    let steps = list[..said.steps as usize].iter().map(first).collect();
    Handed { units: said.units as u8, bound: said.bound as u16, start: said.start, steps }
}

impl Task {
    // Changes a byte of the sheet, or one of the numbers that write is handed, or the bytes that are lent.
    pub fn damage(&mut self, random: &mut Random) {
        let (handed, bit) = (&mut self.handed, random.below(64));
        match (self.entry, random.below(4)) {
            (Entry::Write, 0) => handed.units ^= 1 << (bit % 8),
            (Entry::Write, 1) => handed.start ^= 1 << bit,
            (Entry::Write, 2) => handed.steps.resize(STEPS + (bit % 2) as usize, Step::default()),
            (Entry::Write, _) | (Entry::ToEdition1 | Entry::ToEdition2, 0) => self.places = random.below(BYTES as u32 + 1) as usize,
            _ => {
                let place = random.below(self.sheet.len() as u32) as usize;
                self.sheet[place] ^= 1 << (bit % 8);
            }
        }
    }
}
