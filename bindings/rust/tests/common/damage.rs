//! Small sheets, sound and with drawn faults of all kinds.

use super::random::Random;
use super::sheets::{draw, Campaign, Family, Racks};
use warm::{BYTES, CHAMBERS};

/// A small sheet that passes the checks, with any bound.
pub fn draw_small(racks: Racks, random: &mut Random) -> Vec<u8> {
    let units = if random.one_in(4) { random.between(9, 64) } else { random.between(1, 8) };
    let rack = racks(units, random);
    let steps = random.below(7);
    let family = random.pick(&Family::ALL);
    let bound = random.pick(&[0, 3, 10, u16::MAX]);
    let campaign = Campaign { bound, ..draw(family, rack, steps, random) };
    let unused = random.below(4);
    campaign.scattered(unused, random)
}

/// Changes one to three bytes, to anything or to something near.
pub fn change_bytes(bytes: &mut [u8], random: &mut Random) {
    for _ in 0..random.between(1, 3) {
        // Half of the changes go to the header.
        let limit = if random.one_in(2) { 24 } else { bytes.len() };
        let at = random.below(limit);
        bytes[at] = match random.below(4) {
            0 => random.byte(),
            1 => bytes[at].wrapping_add(1),
            2 => random.below(8) as u8,
            _ => bytes[at] ^ 1 << random.below(8),
        };
    }
}

/// Records of garbage, tamed more and more so that each later check is reached.
pub fn garbage_records(bytes: &mut [u8], random: &mut Random) {
    let (size, next_at, numbers) = if bytes[4] == 1 { (24, 18, 1) } else { (32, 24, CHAMBERS) };
    let records = (bytes.len() - 24) / size;
    let tamed = random.below(4);
    let mask = (1u64 << (bytes[5] % 64)).wrapping_sub(1);
    for record in bytes[24..].chunks_exact_mut(size) {
        record.copy_from_slice(&random.bytes(size));
        if tamed >= 1 {
            let next = random.below(records + 2);
            record[next_at..next_at + 2].copy_from_slice(&(next as u16).to_le_bytes());
        }
        // In edition 2.
        if tamed >= 1 && size == 32 && !random.one_in(4) {
            record[26..28].fill(0);
        }
        if tamed >= 2 {
            let upper = random.word() & mask;
            record[8..16].copy_from_slice(&upper.to_le_bytes());
        }
        if tamed >= 3 {
            record[0..8].fill(0);
            record[16..16 + numbers].fill_with(|| random.below(2) as u8);
        }
    }
}

/// A sheet that is cut short, longer, changed in a few bytes, with records of garbage, or no sheet at all.
pub fn draw_damaged(racks: Racks, random: &mut Random) -> Vec<u8> {
    let mut bytes = draw_small(racks, random);
    match random.below(12) {
        0 => {
            let length = random.below(bytes.len());
            bytes.truncate(length);
        }
        1 => {
            let more = random.between(1, 60);
            bytes.extend(random.bytes(more));
        }
        2..=4 => garbage_records(&mut bytes, random),
        5 => {
            let length = random.below(200);
            bytes = random.bytes(length);
        }
        6 => {
            let length = random.between(6169, 6300) + random.pick(&[0, BYTES - 6168]);
            bytes.resize(length, random.byte());
        }
        _ => change_bytes(&mut bytes, random),
    }
    bytes
}
