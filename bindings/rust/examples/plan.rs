//! Prints the plan of a campaign sheet, and in each step the units that could be the other way round within the bound:
//!
//!     cargo run --example plan -- ../../examples/four_runs.sheet
//!
//! A sheet that is refused gets one line with the cause, on standard error, and status 1; a wrong call or a file that
//! cannot be read gets status 2.

use std::path::PathBuf;
use std::process::ExitCode;

fn main() -> ExitCode {
    let arguments: Vec<PathBuf> = std::env::args_os().skip(1).map(PathBuf::from).collect();
    let [path] = &arguments[..] else {
        eprintln!("usage: plan SHEET");
        return ExitCode::from(2);
    };
    let sheet = match std::fs::read(path) {
        Ok(sheet) => sheet,
        Err(error) => {
            eprintln!("{}: {error}", path.display());
            return ExitCode::from(2);
        }
    };
    match print_plan(&sheet) {
        Ok(()) => ExitCode::SUCCESS,
        Err(error) => {
            eprintln!("{error}");
            ExitCode::from(1)
        }
    }
}

fn print_plan(sheet: &[u8]) -> Result<(), warm::Error> {
    let mut list = [warm::ChamberStep::default(); warm::STEPS];
    let [mut sets, mut on, mut off] = [[0; warm::STEPS]; 3];
    let campaign = warm::steps(sheet, &mut list)?;
    let plan = warm::plan(sheet, &mut sets)?;
    let chart = warm::chart(sheet, &mut on, &mut off)?;

    println!("{} units, {} steps, at most {} warm-ups", campaign.units, campaign.steps.len(), campaign.bound);
    for (i, step) in campaign.steps.iter().enumerate() {
        println!(
            "step {} (job {}): on {}; could be on {}; could be off {}",
            i + 1,
            step.tag,
            units(plan.sets[i]),
            units(chart.on[i] & !plan.sets[i]),
            units(chart.off[i] & plan.sets[i]),
        );
    }
    println!("{} warm-ups", plan.total);
    Ok(())
}

/// The units of a set, as in "0 2 5".
fn units(set: u64) -> String {
    let names: Vec<String> = (0..warm::UNITS).filter(|u| set >> u & 1 == 1).map(|u| u.to_string()).collect();
    if names.is_empty() {
        "none".to_string()
    } else {
        names.join(" ")
    }
}
