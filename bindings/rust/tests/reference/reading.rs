//! Reads the bytes of a sheet of either edition: the causes 1 to 7, 13 and 14 of docs/FORMAT.md, in the order of its
//! table.

use super::{dealt, units_below, Refusal, Reply};
use warm::{ChamberStep, CHAMBERS};

/// A sheet that passes the checks.
#[derive(Clone, Debug)]
pub struct Sheet {
    pub units: usize,
    /// How many units each chamber has.
    pub chambers: [usize; CHAMBERS],
    pub bound: u32,
    pub start: u64,
    pub steps: Vec<ChamberStep>,
}

pub fn read(bytes: &[u8]) -> Reply<Sheet> {
    check_header(bytes)?;
    let (chain, fault) = walk(bytes);
    if let Some(refusal) = fault {
        return Err(refusal);
    }
    let units = usize::from(bytes[5]);
    let chambers = if bytes[4] == 1 { [units, 0, 0, 0] } else { sizes(bytes) };
    check_records(bytes, &chain, units, chambers)?;
    let steps = chain.iter().map(|&record| step(bytes, record)).collect();
    Ok(Sheet { units, chambers, bound: u32::from(u16_at(bytes, 10)), start: u64_at(bytes, 16), steps })
}

/// Refusals 1 to 3 and 13.
pub fn check_header(bytes: &[u8]) -> Reply<()> {
    if bytes.len() < 24 || bytes.len() > 8216 {
        return Err((1, 0));
    }
    if &bytes[0..4] != b"WARM" {
        return Err((2, 0));
    }
    if bytes[4] != 1 && bytes[4] != 2 {
        return Err((2, 4));
    }
    let units = usize::from(bytes[5]);
    if units == 0 || units > 64 {
        return Err((3, 5));
    }
    let records = usize::from(u16_at(bytes, 6));
    if records > 256 {
        return Err((3, 6));
    }
    if bytes[4] == 1 && bytes[12..16] != [0, 0, 0, 0] {
        return Err((3, 12));
    }
    if bytes[4] == 2 && sizes(bytes).iter().sum::<usize>() != units {
        return Err((13, 12));
    }
    if u64_at(bytes, 16) & !units_below(units) != 0 {
        return Err((3, 16));
    }
    if bytes.len() != length(bytes[4], records) {
        return Err((3, 24));
    }
    Ok(())
}

/// The records on the chain, as far as it can be walked, and refusal 4 or 5 where it cannot. The header must be sound.
pub fn walk(bytes: &[u8]) -> (Vec<usize>, Option<Refusal>) {
    let records = usize::from(u16_at(bytes, 6));
    let next_at = if bytes[4] == 1 { 18 } else { 24 };
    let mut chain: Vec<usize> = Vec::new();
    let mut holder = 0;
    let mut next = usize::from(u16_at(bytes, 8));
    while next != 0 {
        if next > records {
            return (chain, Some((4, holder as u32)));
        }
        if chain.contains(&next) {
            return (chain, Some((5, holder as u32)));
        }
        chain.push(next);
        holder = next;
        next = usize::from(u16_at(bytes, record_at(bytes[4], holder) + next_at));
    }
    (chain, None)
}

/// Refusals 14, 6 and 7.
fn check_records(bytes: &[u8], chain: &[usize], units: usize, chambers: [usize; CHAMBERS]) -> Reply<()> {
    for (i, &record) in chain.iter().enumerate() {
        let place = i as u32 + 1;
        if bytes[4] == 2 && u16_at(bytes, record_at(2, record) + 26) != 0 {
            return Err((14, place));
        }
        check_step(&step(bytes, record), place, units, chambers)?;
    }
    Ok(())
}

/// Refusals 6 and 7 of one step.
pub fn check_step(step: &ChamberStep, place: u32, units: usize, chambers: [usize; CHAMBERS]) -> Reply<()> {
    if step.upper & !units_below(units) != 0 {
        return Err((6, place));
    }
    let some_set = step.lower & !step.upper == 0
        && dealt(chambers).iter().enumerate().all(|(c, own)| {
            step.least[c] <= step.greatest[c]
                && (step.lower & own).count_ones() <= u32::from(step.greatest[c])
                && (step.upper & own).count_ones() >= u32::from(step.least[c])
        });
    if !some_set {
        return Err((7, place));
    }
    Ok(())
}

/// The numbers of units of the chambers, in edition 2.
fn sizes(bytes: &[u8]) -> [usize; CHAMBERS] {
    [12, 13, 14, 15].map(|at| usize::from(bytes[at]))
}

/// The length of a sheet of so many records.
pub fn length(edition: u8, records: usize) -> usize {
    if edition == 1 {
        24 * (records + 1)
    } else {
        32 * records + 24
    }
}

/// Where a record begins.
pub fn record_at(edition: u8, record: usize) -> usize {
    if edition == 1 {
        24 * record
    } else {
        32 * record - 8
    }
}

fn step(bytes: &[u8], record: usize) -> ChamberStep {
    let at = record_at(bytes[4], record);
    let four = |from: usize| [0, 1, 2, 3].map(|c| bytes[at + from + c]);
    let (least, greatest, tag) = if bytes[4] == 1 {
        ([bytes[at + 16], 0, 0, 0], [bytes[at + 17], 0, 0, 0], four(20))
    } else {
        (four(16), four(20), four(28))
    };
    ChamberStep::new(u64_at(bytes, at), u64_at(bytes, at + 8), least, greatest, u32::from_le_bytes(tag))
}

fn u16_at(bytes: &[u8], at: usize) -> u16 {
    u16::from_le_bytes([bytes[at], bytes[at + 1]])
}

fn u64_at(bytes: &[u8], at: usize) -> u64 {
    u64::from_le_bytes(bytes[at..at + 8].try_into().unwrap())
}
