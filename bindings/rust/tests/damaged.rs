//! Sheets of both editions with faults: directed ones with their numbers and places written by hand, pairs of them, and
//! thousands drawn; and lengths of all kinds. All six entries that read a sheet against the reference. And sheets that
//! differ in job tags and unused records only, which must get the same replies.

mod common;
mod reference;

use common::answers::{answers, Answers};
use common::damage::{change_bytes, draw_damaged, draw_small, garbage_records};
use common::judge::{hex, Judge};
use common::random::Random;
use common::sheets::{four_runs, one_chamber, set_bound, some_chambers, two_chambers, Campaign, Rack, Racks};
use common::tally::Tally;
use reference::reading::{check_header, length, record_at, walk};
use reference::replies::Replies;
use reference::Refusal;
use warm::BYTES;

/// One thing that is wrong with a sheet.
#[derive(Clone, Copy, Debug)]
enum Fault {
    /// Other bytes from here on.
    Bytes(usize, &'static [u8]),
    /// Another length; what is added is zero.
    Length(usize),
}

use Fault::{Bytes, Length};

/// For "Four runs", whose records 1 to 4 are steps 1 to 4: the faults with their refusals.
const FAULTS: &[(Fault, Refusal)] = &[
    (Length(0), (1, 0)),
    (Length(1), (1, 0)),
    (Length(23), (1, 0)),
    (Length(8217), (1, 0)),
    (Length(8240), (1, 0)),
    (Length(100_000), (1, 0)),
    (Bytes(0, b"w"), (2, 0)),
    (Bytes(1, b"a"), (2, 0)),
    (Bytes(2, b"r"), (2, 0)),
    (Bytes(3, b"\0"), (2, 0)),
    (Bytes(4, &[0]), (2, 4)),
    (Bytes(4, &[3]), (2, 4)),
    // In edition 2 its chambers have no unit.
    (Bytes(4, &[2]), (13, 12)),
    (Bytes(5, &[0]), (3, 5)),
    (Bytes(5, &[65]), (3, 5)),
    (Bytes(5, &[255]), (3, 5)),
    (Bytes(6, &[1, 1]), (3, 6)),
    (Bytes(6, &[255, 255]), (3, 6)),
    (Bytes(12, &[1]), (3, 12)),
    (Bytes(13, &[1]), (3, 12)),
    (Bytes(14, &[128]), (3, 12)),
    (Bytes(15, &[128]), (3, 12)),
    (Bytes(16, &[8]), (3, 16)),
    (Bytes(23, &[128]), (3, 16)),
    (Bytes(6, &[3]), (3, 24)),
    (Bytes(6, &[0, 1]), (3, 24)),
    (Length(24), (3, 24)),
    (Length(119), (3, 24)),
    (Length(121), (3, 24)),
    (Length(144), (3, 24)),
    (Length(6168), (3, 24)),
    (Length(6169), (3, 24)),
    (Length(8216), (3, 24)),
    (Bytes(8, &[5]), (4, 0)),
    (Bytes(8, &[0, 1]), (4, 0)),
    (Bytes(8, &[255, 255]), (4, 0)),
    (Bytes(42, &[5]), (4, 1)),
    (Bytes(66, &[3, 1]), (4, 2)),
    (Bytes(114, &[5]), (4, 4)),
    (Bytes(42, &[1]), (5, 1)),
    (Bytes(66, &[1]), (5, 2)),
    (Bytes(90, &[2]), (5, 3)),
    (Bytes(114, &[4]), (5, 4)),
    (Bytes(114, &[1]), (5, 4)),
    (Bytes(32, &[15]), (6, 1)),
    (Bytes(56, &[255]), (6, 2)),
    (Bytes(111, &[128]), (6, 4)),
    // A unit that must be on and may not.
    (Bytes(24, &[9]), (7, 1)),
    (Bytes(55, &[128]), (7, 2)),
    (Bytes(80, &[3]), (7, 3)),
    // Least above greatest.
    (Bytes(40, &[3]), (7, 1)),
    (Bytes(64, &[255]), (7, 2)),
    // More must be on than the greatest number.
    (Bytes(89, &[0]), (7, 3)),
    (Bytes(96, &[7]), (7, 4)),
    // Fewer may be on than the least number.
    (Bytes(112, &[4, 9]), (7, 4)),
    (Bytes(64, &[255, 255]), (7, 2)),
];

/// The same for "Two chambers", of edition 2, whose records 1 to 4, too, are steps 1 to 4, and begin at bytes 24, 56,
/// 88 and 120.
const CHAMBER_FAULTS: &[(Fault, Refusal)] = &[
    (Length(0), (1, 0)),
    (Length(23), (1, 0)),
    (Length(8217), (1, 0)),
    (Length(100_000), (1, 0)),
    (Bytes(0, b"w"), (2, 0)),
    (Bytes(3, b"\0"), (2, 0)),
    (Bytes(4, &[0]), (2, 4)),
    (Bytes(4, &[3]), (2, 4)),
    (Bytes(4, &[255]), (2, 4)),
    (Bytes(5, &[0]), (3, 5)),
    (Bytes(5, &[65]), (3, 5)),
    (Bytes(6, &[1, 1]), (3, 6)),
    (Bytes(6, &[255, 255]), (3, 6)),
    // In edition 1 these bytes are zero.
    (Bytes(4, &[1]), (3, 12)),
    // Five units, but not for these sizes.
    (Bytes(5, &[4]), (13, 12)),
    (Bytes(5, &[6]), (13, 12)),
    (Bytes(5, &[64]), (13, 12)),
    (Bytes(12, &[2]), (13, 12)),
    (Bytes(12, &[5]), (13, 12)),
    (Bytes(12, &[0, 0, 0, 0]), (13, 12)),
    (Bytes(13, &[3]), (13, 12)),
    (Bytes(14, &[1]), (13, 12)),
    (Bytes(15, &[255]), (13, 12)),
    // The sum is 5 more than 256, 512 and 768.
    (Bytes(12, &[3, 2, 128, 128]), (13, 12)),
    (Bytes(12, &[255, 6, 0, 0]), (13, 12)),
    (Bytes(12, &[255, 255, 7, 0]), (13, 12)),
    (Bytes(12, &[255, 255, 255, 8]), (13, 12)),
    (Bytes(16, &[32]), (3, 16)),
    (Bytes(23, &[128]), (3, 16)),
    (Bytes(6, &[3]), (3, 24)),
    (Bytes(6, &[0, 1]), (3, 24)),
    (Length(24), (3, 24)),
    (Length(120), (3, 24)),
    (Length(151), (3, 24)),
    (Length(153), (3, 24)),
    (Length(160), (3, 24)),
    (Length(184), (3, 24)),
    (Length(6168), (3, 24)),
    (Length(8216), (3, 24)),
    (Bytes(8, &[5]), (4, 0)),
    (Bytes(8, &[255, 255]), (4, 0)),
    (Bytes(48, &[5]), (4, 1)),
    (Bytes(80, &[3, 1]), (4, 2)),
    (Bytes(144, &[5]), (4, 4)),
    (Bytes(48, &[1]), (5, 1)),
    (Bytes(80, &[1]), (5, 2)),
    (Bytes(112, &[2]), (5, 3)),
    (Bytes(144, &[4]), (5, 4)),
    (Bytes(50, &[1]), (14, 1)),
    (Bytes(51, &[128]), (14, 1)),
    (Bytes(82, &[0, 1]), (14, 2)),
    (Bytes(114, &[255, 255]), (14, 3)),
    (Bytes(147, &[1]), (14, 4)),
    (Bytes(32, &[63]), (6, 1)),
    (Bytes(71, &[128]), (6, 2)),
    (Bytes(128, &[255]), (6, 4)),
    // A unit that must be on and may not.
    (Bytes(24, &[33]), (7, 1)),
    (Bytes(96, &[27]), (7, 3)),
    // Least above greatest, in each chamber.
    (Bytes(40, &[3]), (7, 1)),
    (Bytes(73, &[2]), (7, 2)),
    (Bytes(74, &[1]), (7, 2)),
    (Bytes(107, &[1]), (7, 3)),
    // More of a chamber must be on than its greatest number.
    (Bytes(108, &[0]), (7, 3)),
    (Bytes(120, &[25]), (7, 4)),
    // Fewer of a chamber may be on than its least number, though there are enough in all.
    (Bytes(136, &[0, 3, 0, 0, 2, 3]), (7, 4)),
    (Bytes(64, &[7]), (7, 2)),
    // A least number of a chamber that is empty.
    (Bytes(74, &[1, 0, 2, 1, 255]), (7, 2)),
    (Bytes(139, &[1, 2, 1, 0, 1]), (7, 4)),
];

/// The sheet with faults. Lengths come last, so that every byte that is changed is there.
fn with_faults(sheet: &[u8], faults: &[Fault]) -> Vec<u8> {
    let mut bytes = sheet.to_vec();
    for fault in faults {
        if let Bytes(at, other) = fault {
            bytes[*at..at + other.len()].copy_from_slice(other);
        }
    }
    for fault in faults {
        if let Length(length) = fault {
            bytes.resize(*length, 0);
        }
    }
    bytes
}

fn compare_directed(seed: u64, sheet: &[u8], faults: &[(Fault, Refusal)]) -> Judge {
    let mut judge = Judge::new(seed);
    for &(fault, refusal) in faults {
        let bytes = with_faults(sheet, &[fault]);
        let expected = Replies::new(&bytes);
        assert_eq!(expected.sheet.as_ref().err(), Some(&refusal), "{fault:?}");
        judge.all(&bytes, &expected);
    }
    judge.tally.require_refusals(1..=7, 12);
    judge
}

#[test]
fn directed_faults() {
    let judge = compare_directed(31, &four_runs().bytes(), FAULTS);
    judge.tally.print("directed faults");
}

#[test]
fn directed_faults_in_chambers() {
    let judge = compare_directed(38, &two_chambers().bytes(), CHAMBER_FAULTS);
    judge.tally.print("directed faults in chambers");
    judge.tally.require_refusals([13, 14], 20);
}

fn compare_pairs(seed: u64, sheet: &[u8], faults: &[(Fault, Refusal)]) -> Judge {
    let mut judge = Judge::new(seed);
    for &(one, _) in faults {
        for &(other, _) in faults {
            let bytes = with_faults(sheet, &[one, other]);
            judge.all(&bytes, &Replies::new(&bytes));
        }
    }
    judge.tally.require_refusals(1..=7, 150);
    judge
}

#[test]
fn pairs_of_faults() {
    let judge = compare_pairs(32, &four_runs().bytes(), FAULTS);
    judge.tally.print("pairs of faults");
}

#[test]
fn pairs_of_faults_in_chambers() {
    let judge = compare_pairs(39, &two_chambers().bytes(), CHAMBER_FAULTS);
    judge.tally.print("pairs of faults in chambers");
    judge.tally.require_refusals([13, 14], 500);
}

/// Every byte as the edition of a sheet of either edition.
#[test]
fn editions() {
    let mut judge = Judge::new(40);
    for (own, sheet) in [(1, four_runs().bytes()), (2, two_chambers().bytes())] {
        for edition in 0..=255 {
            let mut bytes = sheet.clone();
            bytes[4] = edition;
            let expected = Replies::new(&bytes);
            let refusal = match edition {
                _ if edition == own => None,
                1 => Some((3, 12)),
                2 => Some((13, 12)),
                _ => Some((2, 4)),
            };
            assert_eq!(expected.sheet.as_ref().err().copied(), refusal, "edition {edition}");
            judge.all(&bytes, &expected);
        }
    }
    judge.tally.print("editions");
    judge.tally.require(&[("plans", 2), ("refusal 2", 2000)]);
}

/// Sheets without a step, whose length is that of their records or another one, in each edition.
#[test]
fn lengths() {
    let mut judge = Judge::new(44);
    let mut lengths: Vec<usize> = [6168, 6192, 8184, BYTES].into_iter().flat_map(|at| at - 33..=at + 33).collect();
    lengths.extend((0..=200).chain([12_000, 65_536]));
    for rack in [Rack::from(3), Rack::from([1, 0, 2, 0])] {
        let header = Campaign { rack, bound: 0, start: 5, steps: vec![] }.bytes();
        for records in [0, 1, 2, 4, 191, 192, 193, 255, 256, 257] {
            for &places in &lengths {
                let mut bytes = header.clone();
                bytes[6..8].copy_from_slice(&(records as u16).to_le_bytes());
                bytes.resize(places, 0xA5);
                let expected = Replies::new(&bytes);
                let refusal = match places {
                    _ if !(24..=8216).contains(&places) => Some((1, 0)),
                    _ if records > 256 => Some((3, 6)),
                    _ if places != 24 + rack.record() * records => Some((3, 24)),
                    _ => None,
                };
                assert_eq!(expected.sheet.as_ref().err().copied(), refusal, "{records} records in {places} bytes");
                judge.all(&bytes, &expected);
            }
        }
    }
    judge.tally.print("lengths");
    judge.tally.require(&[("plans", 18)]);
    judge.tally.require_refusals([1, 3], 1000);
}

fn compare_drawn(seed: u64, racks: Racks) -> Judge {
    let mut judge = Judge::new(seed);
    let mut random = Random::new(seed);
    for _ in 0..16_000 {
        let bytes = draw_damaged(racks, &mut random);
        judge.all(&bytes, &Replies::new(&bytes));
    }
    judge.tally.require_refusals(1..=7, 1000);
    judge.tally.require_refusals([9], 500);
    judge.tally.require(&[("plans", 500), ("charts", 500), ("accepted", 500), ("turned down", 200), ("copies", 500)]);
    judge
}

#[test]
fn drawn_faults() {
    let judge = compare_drawn(33, one_chamber);
    judge.tally.print("drawn faults");
    judge.tally.require(&[("to edition 2", 500)]);
}

#[test]
fn drawn_faults_in_chambers() {
    let judge = compare_drawn(45, some_chambers);
    judge.tally.print("drawn faults in chambers");
    judge.tally.require_refusals([13, 14, 15], 1000);
}

/// All that the library answers to a sheet, but for the tags.
fn untagged(bytes: &[u8]) -> Answers {
    let mut found = answers(bytes);
    for step in &mut found.list {
        step.tag = 0;
    }
    found
}

/// The same sheet with other tags on the chain and other bytes in the unused records.
fn twin(bytes: &[u8], random: &mut Random) -> Vec<u8> {
    let (chain, _) = walk(bytes);
    let (edition, records) = (bytes[4], usize::from(u16::from_le_bytes([bytes[6], bytes[7]])));
    let mut other = bytes.to_vec();
    for record in 1..=records {
        // The next record, or the end of the sheet, begins where this one ends.
        let (at, end) = (record_at(edition, record), length(edition, record));
        let from = if chain.contains(&record) { end - 4 } else { at };
        other[from..end].copy_from_slice(&random.bytes(end - from));
    }
    other
}

fn compare_twins(seed: u64, racks: Racks) -> Tally {
    let mut tally = Tally::default();
    let mut random = Random::new(seed);
    for _ in 0..4000 {
        let mut bytes = draw_small(racks, &mut random);
        match random.below(4) {
            0 => garbage_records(&mut bytes, &mut random),
            1 => set_bound(&mut bytes, 0),
            2 => change_bytes(&mut bytes, &mut random),
            _ => (),
        }
        if check_header(&bytes).is_err() {
            continue;
        }
        let other = twin(&bytes, &mut random);
        let found = untagged(&bytes);
        assert_eq!(found, untagged(&other), "for the sheets {} and {}", hex(&bytes), hex(&other));
        match found.plan {
            Ok(_) => tally.add("plans", 1),
            Err(error) => tally.add_refusal(error.numbers().0),
        }
    }
    tally.require(&[("plans", 500)]);
    tally.require_refusals([4, 5, 6, 7, 9], 50);
    tally
}

#[test]
fn twins() {
    let tally = compare_twins(35, one_chamber);
    tally.print("twins");
}

#[test]
fn twins_in_chambers() {
    let tally = compare_twins(46, some_chambers);
    tally.print("twins in chambers");
    tally.require_refusals([14], 50);
}
