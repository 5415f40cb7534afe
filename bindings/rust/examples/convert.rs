//! Converts the campaign sheet on standard input to edition 1 or 2, and writes it to standard output:
//!
//!     cargo run --example convert -- 2 <../../examples/four_runs.sheet >../../target/raised.sheet
//!
//! A sheet that is refused gets one line with the cause, on standard error, and status 1; a wrong call, an input that
//! cannot be read or an output that cannot be written gets status 2.

use std::io::{stdin, stdout, Read, Write};
use std::process::ExitCode;

fn main() -> ExitCode {
    let arguments: Vec<_> = std::env::args_os().skip(1).collect();
    let convert = match &arguments[..] {
        [edition] if edition == "1" => warm::to_edition_1,
        [edition] if edition == "2" => warm::to_edition_2,
        _ => {
            eprintln!("usage: convert 1|2 <SHEET");
            return ExitCode::from(2);
        }
    };
    // One byte more than the longest sheet, so that a longer input is seen to be too long.
    let mut sheet = Vec::new();
    if let Err(error) = stdin().take(warm::BYTES as u64 + 1).read_to_end(&mut sheet) {
        eprintln!("standard input: {error}");
        return ExitCode::from(2);
    }
    let mut output = [0; warm::BYTES];
    let converted = match convert(&sheet, &mut output) {
        Ok(converted) => converted,
        Err(error) => {
            eprintln!("{error}");
            return ExitCode::from(1);
        }
    };
    if let Err(error) = stdout().write_all(converted).and_then(|()| stdout().flush()) {
        eprintln!("standard output: {error}");
        return ExitCode::from(2);
    }
    ExitCode::SUCCESS
}
