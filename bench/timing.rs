// The check of a call against plain Rust, and its time: the median of batches, the library's and plain Rust's in turns. A plan is also checked
// against the scan, whose batches have their turn too.
use crate::painted::Painted;
use crate::task::{call_library, call_painted, call_plain, call_scan, Caller, Entry, Outputs, Task};
use std::hint::black_box;
use std::time::Instant;

// Microseconds per call. Only a plan has a time of the scan.
#[derive(Clone, Copy)]
pub struct Times {
    pub library: f64,
    pub plain: f64,
    pub scan: Option<f64>,
}

// Compares calls, and keeps the deepest stack of each entry.
pub struct Checker {
    painted: Painted,
    pub deepest: [usize; Entry::ALL.len()],
    pub calls: usize,
}

fn seconds(call: impl FnOnce()) -> f64 {
    let begun = Instant::now();
    call();
    begun.elapsed().as_secs_f64()
}

// Stops the program if a caller's reply or lent memory differs from the library's.
fn must_equal(ours: &Outputs, what: &str, task: &Task, caller: Caller, name: &str) {
    let mut theirs = Outputs::new();
    caller(task, &mut theirs);
    if *ours != theirs {
        eprintln!("bench: {} differs from {name} on {what}\nsheet {:02x?}\n{:?}, {} bytes", task.entry.name(), task.sheet, task.handed, task.places);
        std::process::exit(1);
    }
}

impl Checker {
    pub fn new() -> Checker {
        Checker { painted: Painted::new(), deepest: [0; Entry::ALL.len()], calls: 0 }
    }

    // Stops the program if the library differs from plain Rust or from the scan in its reply or in any lent memory.
    pub fn compare(&mut self, what: &str, task: &Task) {
        let mut ours = Outputs::new();
        let depth = call_painted(task, &mut ours, &mut self.painted);
        must_equal(&ours, what, task, call_plain, "plain Rust");
        if task.entry == Entry::Plan {
            must_equal(&ours, what, task, call_scan, "the scan");
        }
        let deepest = &mut self.deepest[task.entry as usize];
        *deepest = depth.max(*deepest);
        self.calls += 1;
    }
}

fn batch(caller: Caller, task: &Task, out: &mut Outputs, calls: usize) -> f64 {
    seconds(|| {
        for _ in 0..calls {
            caller(black_box(task), black_box(out));
        }
    }) / calls as f64
}

fn median(times: &mut [f64]) -> f64 {
    times.sort_by(f64::total_cmp);
    let (low, high) = ((times.len() - 1) / 2, times.len() / 2);
    (times[low] + times[high]) / 2.0
}

// The shortest batch, in seconds; the fewest and the most batches of a call.
const BATCH: f64 = 50e-6;
const ROUNDS: (f64, f64) = (3.0, 401.0);

// The calls that make a batch long enough for the clock, and the seconds that a batch of each caller takes together.
fn batch_size(callers: &[Caller], task: &Task, out: &mut Outputs) -> (usize, f64) {
    let mut calls = 1;
    loop {
        let batches: Vec<f64> = callers.iter().map(|&caller| batch(caller, task, out, calls) * calls as f64).collect();
        if batches.iter().all(|&seconds| seconds >= BATCH) {
            return (calls, batches.iter().sum());
        }
        calls *= 2;
    }
}

// Microseconds per call of each caller, in turns, for about so many seconds.
fn in_turns<const N: usize>(callers: [Caller; N], task: &Task, budget: f64) -> [f64; N] {
    let mut out = Outputs::new();
    let (calls, together) = batch_size(&callers, task, &mut out);
    let rounds = (budget / together).clamp(ROUNDS.0, ROUNDS.1) as usize;
    let mut times = [(); N].map(|_| vec![]);
    for _ in 0..rounds {
        for (times, caller) in times.iter_mut().zip(callers) {
            times.push(batch(caller, task, &mut out, calls));
        }
    }
    times.map(|mut times| median(&mut times) * 1e6)
}

// Times of the library, of plain Rust and, for a plan, of the scan, for about so many seconds.
pub fn measure(task: &Task, budget: f64) -> Times {
    if task.entry == Entry::Plan {
        let [library, plain, scan] = in_turns([call_library, call_plain, call_scan], task, budget);
        Times { library, plain, scan: Some(scan) }
    } else {
        let [library, plain] = in_turns([call_library, call_plain], task, budget);
        Times { library, plain, scan: None }
    }
}

// Times of the library and of another archive, for about so many seconds.
#[cfg(other)]
pub fn measure_beside_other(task: &Task, budget: f64) -> [f64; 2] {
    in_turns([call_library, crate::other::call], task, budget)
}

fn call_cleared(task: &Task, out: &mut Outputs) {
    out.clear_words();
    call_library(task, black_box(out));
}

// Microseconds of the library's plan with its output cleared before each call, and of the same without.
pub fn cost_of_clearing(task: &Task) -> [f64; 2] {
    assert_eq!(task.entry, Entry::Plan);
    in_turns([call_cleared, call_library], task, 0.5)
}
