// The benchmark: times of the seven entries beside plain Rust, and of the plan beside a scan of single steps, for sheets of both editions, growth, and
// stack; with another archive, its times as well. bench/run builds and starts it, with the stack limits as arguments (NAME BYTES ...). docs/FORMAT.md has
// the entries.
mod families;
// The types and entries of include/warm.h, as the Rust crate has them.
#[macro_use]
#[path = "../bindings/rust/src/ffi.rs"]
mod library;
#[cfg(other)]
mod other;
mod painted;
mod plain;
mod plain_chart;
mod scan;
mod task;
mod timing;

use families::{four_runs, Family, Random};
use library::CHAMBERS;
use task::{task, Entry, Task};
use timing::{cost_of_clearing, measure, Checker, Times};

// The entries of a row each, with the bound so many above the fewest warm-ups.
const ROWS: [(Entry, u32, &str); 6] = [
    (Entry::Steps, 0, "steps"),
    (Entry::Plan, 0, "plan"),
    (Entry::Verdict, 0, "verdict"),
    (Entry::Chart, 0, "chart, slack 0"),
    (Entry::Chart, 1, "chart, slack 1"),
    (Entry::Chart, 2, "chart, slack 2"),
];
// Write has no bound to keep to, and a row only for some numbers of steps. Conversions have one for a full sheet of the other edition.
const WRITE_ROW: [(Entry, u32, &str); 1] = [(Entry::Write, 0, "write")];
const UP_ROW: [(Entry, u32, &str); 1] = [(Entry::ToEdition2, 0, "to edition 2")];
const DOWN_ROW: [(Entry, u32, &str); 1] = [(Entry::ToEdition1, 0, "to edition 1")];
const GROWTH_ROWS: [(Entry, u32, &str); 4] = [ROWS[1], ROWS[3], ROWS[4], ROWS[5]];

// The most work for the tables of the chart, the most for the plan, and a common sheet.
const GROWTH_FAMILIES: [Family; 3] = [Family::NearlyAll, Family::AskedInBlocks, Family::Random];
const GROWTH_SIZES: [(usize, u32); 7] = [(32, 64), (64, 64), (128, 64), (256, 64), (256, 8), (256, 16), (256, 32)];

// Seconds for a row.
const BUDGET: f64 = 0.15;

// The chambers of the sheets of edition 2: four alike, and one with all units.
const RACKS: [[u32; CHAMBERS]; 2] = [[16; CHAMBERS], [64, 0, 0, 0]];

// A sheet that is measured. Of edition 1 `units` is their number, of edition 2 the chambers as in '4 of 16'.
struct Case {
    family: String,
    steps: usize,
    units: String,
    sheet: Vec<u8>,
}

// A call that is measured.
struct Row<'a> {
    case: &'a Case,
    label: &'static str,
    task: Task,
}

fn case(family: Family, steps: usize, units: u32) -> Case {
    Case { family: family.name(units), steps, units: units.to_string(), sheet: family.sheet(steps, units, &mut Random::new()) }
}

fn time_cases() -> Vec<Case> {
    let sized = |steps, units| Family::ALL.map(|family| case(family, steps, units));
    let four = Case { family: "Four runs".into(), steps: 4, units: "3".into(), sheet: four_runs() };
    sized(256, 64).into_iter().chain(sized(32, 16)).chain([four]).collect()
}

// A full sheet of edition 2. The name of the family is that of a chamber.
fn chamber_case(family: Family, rack: [u32; CHAMBERS]) -> Case {
    let units = format!("{} of {}", rack.iter().filter(|&&size| size > 0).count(), rack[0]);
    Case { family: family.name(rack[0]), steps: 256, units, sheet: family.sheet_in(256, rack, &mut Random::new()) }
}

fn chamber_cases() -> Vec<Case> {
    RACKS.into_iter().flat_map(|rack| Family::ALL.map(|family| chamber_case(family, rack))).collect()
}

// Of each number of steps one sheet, as the time does not depend on what is in it.
fn write_cases() -> Vec<Case> {
    let four = Case { family: "Four runs".into(), steps: 4, units: "3".into(), sheet: four_runs() };
    [(256, 64), (32, 16), (16, 16)].map(|(steps, units)| case(Family::Random, steps, units)).into_iter().chain([four]).collect()
}

// A full sheet to convert to edition 2, and one to convert to edition 1.
fn up_and_down_cases() -> [[Case; 1]; 2] {
    [[case(Family::Random, 256, 64)], [chamber_case(Family::Random, RACKS[1])]]
}

fn growth_cases() -> Vec<Case> {
    GROWTH_FAMILIES.iter().flat_map(|&family| GROWTH_SIZES.map(|(steps, units)| case(family, steps, units))).collect()
}

// The rows of some cases, compared with plain Rust, and the plans also with the scan.
fn checked_rows<'a>(checker: &mut Checker, cases: &'a [Case], entries: &[(Entry, u32, &'static str)]) -> Vec<Row<'a>> {
    let mut rows = vec![];
    for case in cases {
        for &(entry, slack, label) in entries {
            let task = task(entry, &case.sheet, slack);
            let what = format!("{}, {} steps, {} units, {label}", case.family, case.steps, case.units);
            checker.compare(&what, &task);
            rows.push(Row { case, label, task });
        }
    }
    rows
}

// A number of steps from 1 to 256 that has no common divisor with 77, as the order of the records needs it.
fn some_steps(random: &mut Random) -> usize {
    loop {
        let n = 1 + random.below(256) as usize;
        if n % 7 != 0 && n % 11 != 0 {
            return n;
        }
    }
}

// Chambers of four to sixteen units, of which each may be empty, but not all.
fn some_chambers(random: &mut Random) -> [u32; CHAMBERS] {
    loop {
        let sizes = [(); CHAMBERS].map(|()| if random.below(4) == 0 { 0 } else { 4 + random.below(13) });
        if sizes != [0; CHAMBERS] {
            return sizes;
        }
    }
}

// Drawn sheets of any size, first of edition 1, then of edition 2, and then of edition 2 with all units in chamber 1, sound and then with a change, for the
// comparison and the stack.
fn check_drawn(checker: &mut Checker) {
    let mut random = Random::new();
    for i in 0..900 {
        let family = Family::ALL[random.below(Family::ALL.len() as u32) as usize];
        let steps = some_steps(&mut random);
        let sheet = match i {
            0..300 => family.sheet(steps, 4 + random.below(61), &mut random),
            300..600 => family.sheet_in(steps, some_chambers(&mut random), &mut random),
            _ => family.sheet_in(steps, [4 + random.below(61), 0, 0, 0], &mut random),
        };
        for (entry, slack, label) in ROWS.into_iter().chain(WRITE_ROW).chain(UP_ROW).chain(DOWN_ROW) {
            let mut task = task(entry, &sheet, slack);
            checker.compare(&format!("a drawn sheet, {label}"), &task);
            task.damage(&mut random);
            checker.compare(&format!("a damaged sheet, {label}"), &task);
        }
    }
}

// ---- what is printed

// Three significant digits, thousands parted by commas.
fn digits(x: f64) -> String {
    let places = 2 - x.abs().log10().floor() as i32;
    let scale = 10f64.powi(places);
    let rounded = (x * scale).round() / scale;
    let plain = format!("{rounded:.*}", places.max(0) as usize);
    let (whole, rest) = plain.split_at(plain.find('.').unwrap_or(plain.len()));
    format!("{}{rest}", grouped(whole))
}

fn grouped(whole: &str) -> String {
    let groups: Vec<&str> = whole.as_bytes().rchunks(3).rev().map(|group| std::str::from_utf8(group).unwrap()).collect();
    groups.join(",")
}

// The scan's time, and the library's divided by it; empty where there is none.
fn scan_cells(times: &Times) -> (String, String) {
    times.scan.map_or_else(Default::default, |scan| (digits(scan), format!("{:.2}", times.library / scan)))
}

fn print_times(rows: &[Row]) {
    println!("Microseconds per call: medians, library, plain Rust and scan in turns. Outputs are not cleared between calls.");
    println!("Slack: the bound less the fewest warm-ups. Scan: a plan in plain Rust that looks at one step after the other. Of the scan: the");
    println!("library's time divided by the scan's.\n");
    print_table(rows, "units");
}

fn print_chamber_times(rows: &[Row]) {
    println!("\nThe same for sheets of edition 2. Each chamber that is not empty has steps of the kind that is named.\n");
    print_table(rows, "chambers");
}

// The rows with a column of that name for units or chambers.
fn print_table(rows: &[Row], column: &str) {
    let width = column.len();
    println!("| steps | {column} | sheet            | entry          |   library |     plain | ratio |      scan | of the scan |");
    println!("|------:|-{:-<width$}:|:-----------------|:---------------|----------:|----------:|------:|----------:|------------:|", "");
    for Row { case, label, task } in rows {
        let times @ Times { library, plain, .. } = measure(task, BUDGET);
        let (Case { family, steps, units, .. }, ratio, (scan, of_scan)) = (case, library / plain, scan_cells(&times));
        print!("| {steps:5} | {units:>width$} | {family:16} | {label:14} | {:>9} | {:>9} | {ratio:5.2} |", digits(library), digits(plain));
        println!(" {scan:>9} | {of_scan:>11} |");
    }
}

// The rows that another archive knows, beside its times.
#[cfg(other)]
fn print_beside_other(rows: &[&Row]) {
    let rows: Vec<&&Row> = rows.iter().filter(|row| other::knows(&row.task)).collect();
    for Row { case, label, task } in &rows {
        other::must_agree(task, &format!("{}, {} steps, {label}", case.family, case.steps));
    }
    println!("\nMicroseconds per call of the library and of the archive in WARM_OTHER_DIR, in turns, and the difference.\n");
    println!("| steps |   units | sheet            | entry          |   library |     other | difference |");
    println!("|------:|--------:|:-----------------|:---------------|----------:|----------:|-----------:|");
    for Row { case: Case { family, steps, units, .. }, label, task } in rows {
        let [library, other] = timing::measure_beside_other(task, BUDGET);
        print!("| {steps:5} | {units:>7} | {family:16} | {label:14} | {:>9} | {:>9} |", digits(library), digits(other));
        println!(" {:>10.2} |", library - other);
    }
}

#[cfg(not(other))]
fn print_beside_other(_: &[&Row]) {}

fn print_clearing(rows: &[Row]) {
    let row = rows.iter().find(|row| row.task.entry == Entry::Plan && row.case.family == "any set").expect("a plan of any set");
    let [cleared, not] = cost_of_clearing(&row.task).map(digits);
    println!("\nThe library's plan of 'any set' (256 steps) takes {cleared} microseconds with the output cleared before each call, and");
    println!("{not} without.");
}

fn print_growth(rows: &[Row]) {
    println!("\nGrowth, microseconds per call of the library, and its ratio to plain Rust; the time of the scan, and the plan's divided by it.\n");
    print!("| sheet            | steps | units |  plan | ratio |  scan | of the scan |");
    println!(" chart, slack 0 | ratio | chart, slack 1 | ratio | chart, slack 2 | ratio |");
    print!("|:-----------------|------:|------:|------:|------:|------:|------------:|");
    println!("---------------:|------:|---------------:|------:|---------------:|------:|");
    for group in rows.chunks(GROWTH_ROWS.len()) {
        let Case { family, steps, units, .. } = group[0].case;
        let times: Vec<Times> = group.iter().map(|row| measure(&row.task, BUDGET)).collect();
        let cells = |times: &Times| (digits(times.library), times.library / times.plain);
        let ((plan, ratio), (scan, of_scan)) = (cells(&times[0]), scan_cells(&times[0]));
        print!("| {family:16} | {steps:5} | {units:5} | {plan:>5} | {ratio:5.2} | {scan:>5} | {of_scan:>11} |");
        let charts = times[1..].iter().map(cells);
        println!("{}", charts.map(|(chart, ratio)| format!(" {chart:>14} | {ratio:5.2} |")).collect::<String>());
    }
}

// The limit of an entry among the arguments.
fn limit(arguments: &[String], name: &str) -> usize {
    let at = arguments.iter().position(|argument| argument == name).unwrap_or_else(|| panic!("no stack limit for {name}"));
    arguments[at + 1].parse().expect("a number of bytes")
}

fn print_stack(checker: &Checker, arguments: &[String]) {
    println!("\nStack of a call in bytes, its return address included: the deepest of {} painted calls, and the limit that", grouped(&checker.calls.to_string()));
    println!("bench/stack sums from the disassembly.\n");
    println!("| entry             | measured |  limit |");
    println!("|:------------------|---------:|-------:|");
    for entry in Entry::ALL {
        let (name, measured, limit) = (entry.name(), checker.deepest[entry as usize], limit(arguments, entry.symbol()));
        println!("| {name:17} | {:>8} | {:>6} |", grouped(&measured.to_string()), grouped(&limit.to_string()));
        assert!(measured <= limit, "{name} used more stack than its limit");
    }
}

fn main() {
    let arguments: Vec<String> = std::env::args().skip(1).collect();
    let mut checker = Checker::new();
    check_drawn(&mut checker);
    let (times, writes, in_chambers, growth) = (time_cases(), write_cases(), chamber_cases(), growth_cases());
    let [up, down] = up_and_down_cases();
    let mut time_rows = checked_rows(&mut checker, &times, &ROWS);
    time_rows.extend(checked_rows(&mut checker, &writes, &WRITE_ROW));
    time_rows.extend(checked_rows(&mut checker, &up, &UP_ROW));
    let mut chamber_rows = checked_rows(&mut checker, &in_chambers, &ROWS);
    chamber_rows.extend(checked_rows(&mut checker, &down, &DOWN_ROW));
    let growth_rows = checked_rows(&mut checker, &growth, &GROWTH_ROWS);
    print_times(&time_rows);
    print_clearing(&time_rows);
    print_chamber_times(&chamber_rows);
    print_growth(&growth_rows);
    print_beside_other(&time_rows.iter().chain(&chamber_rows).collect::<Vec<_>>());
    print_stack(&checker, &arguments);
}
