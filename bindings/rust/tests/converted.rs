//! Sheets that the library converts, to either edition: byte for byte against the reference, on sheets by hand, drawn
//! and damaged ones of both editions, with outputs of all lengths. A converted sheet is converted again, and must get
//! the answers that it got before. What lies around an output and, on a refusal, inside it stays as it is: the judge
//! looks at all of it on each call.

mod common;
mod reference;

use common::answers::answers;
use common::damage::draw_damaged;
use common::judge::{converted_length, hex, Judge};
use common::random::Random;
use common::sheets::{draw, first_chamber, one_chamber, some_chambers, Campaign, Family, Rack, Racks};
use reference::reading::{read, walk};
use reference::support::find_support;
use reference::{Reply, Sheet};
use warm::{to_edition_1, to_edition_2, ChamberStep, Error, BYTES, CHAMBERS, STEPS, UNITS};

#[test]
fn four_runs_by_hand() {
    let [mut raised, mut lowered] = [[0xA5; 200]; 2];
    let by_hand = "5741524d020304000100030003000000000000000000000001000000000000000700000000000000\
                   0000000002000000020000000000000002000000000000000700000000000000\
                   0000000002000000030000000000000004000000000000000700000000000000\
                   0000000002000000040000000000000001000000000000000700000000000000\
                   00000000020000000000000000000000";
    assert_eq!(to_edition_2(&warm::FOUR_RUNS, &mut raised).map(hex), Ok(by_hand.into()));
    assert_eq!(raised[..152], *include_bytes!("../../../examples/four_runs_raised.sheet"));
    assert_eq!(to_edition_1(&raised[..152], &mut lowered), Ok(&warm::FOUR_RUNS[..]));
    assert_eq!((&raised[152..], &lowered[120..]), (&[0xA5; 48][..], &[0xA5; 80][..]));
}

/// The bytes of a sheet, from their digits.
fn bytes(digits: &[&str]) -> Vec<u8> {
    let digits = digits.concat();
    (0..digits.len()).step_by(2).map(|i| u8::from_str_radix(&digits[i..i + 2], 16).unwrap()).collect()
}

/// Each byte of a header, of an unused record and of two steps: in edition 1; in edition 2, as it is converted; and in
/// edition 2 with other bytes where edition 1 has no place for them.
#[test]
fn numbers_by_hand() {
    let sets = "1817161514131211f8f7f6f5f4f3f2f1";
    let (unused, start) = ("a0a1a2a3a4a5a6a7a8a9aaabacadaeaf", "8887868584838281");
    let first = bytes(&[
        &["5741524d014003000300727100000000", start].concat(),
        &[unused, "b0b1b2b3b4b5b6b7"].concat(),
        &[sets, "05400000c4c5c6c7"].concat(),
        &[sets, "01fe0200d4d5d6d7"].concat(),
    ]);
    let second = bytes(&[
        &["5741524d024003000300727140000000", start].concat(),
        &[unused, "b0000000b1000000b2b30000b4b5b6b7"].concat(),
        &[sets, "050000004000000000000000c4c5c6c7"].concat(),
        &[sets, "01000000fe00000002000000d4d5d6d7"].concat(),
    ]);
    let other = bytes(&[
        &["5741524d024003000300727140000000", start].concat(),
        &[unused, "b0e1e2e3b1e4e5e6b2b3e7e8b4b5b6b7"].concat(),
        &[sets, "0500000040e1e2e300000000c4c5c6c7"].concat(),
        &[sets, "01000000fee4e5e602000000d4d5d6d7"].concat(),
    ]);
    let mut output = [0xA5; 120];
    assert_eq!(to_edition_2(&first, &mut output), Ok(&second[..]));
    for sheet in [&first, &second, &other] {
        assert_eq!(to_edition_1(sheet, &mut output[..96]), Ok(&first[..]));
    }
    for sheet in [&second, &other] {
        assert_eq!(to_edition_2(sheet, &mut output), Ok(&sheet[..]));
    }
}

/// The edition and the chambers of a sheet, its records, the edition that is wanted, the bytes of the output, and what
/// comes of it: the bytes of the converted sheet, or a refusal.
type Case = (u8, [usize; CHAMBERS], usize, u8, usize, Reply<usize>);

const CASES: [Case; 36] = [
    (1, [3, 0, 0, 0], 0, 1, 24, Ok(24)),
    (1, [3, 0, 0, 0], 0, 2, 24, Ok(24)),
    (2, [3, 0, 0, 0], 0, 1, 24, Ok(24)),
    (2, [3, 0, 0, 0], 0, 2, 24, Ok(24)),
    (1, [3, 0, 0, 0], 4, 1, 120, Ok(120)),
    (1, [3, 0, 0, 0], 4, 2, 152, Ok(152)),
    (2, [3, 0, 0, 0], 4, 1, 120, Ok(120)),
    (2, [3, 0, 0, 0], 4, 2, 152, Ok(152)),
    (2, [2, 1, 0, 0], 4, 2, 152, Ok(152)),
    (2, [0, 0, 0, 3], 4, 2, 153, Ok(152)),
    (1, [64, 0, 0, 0], 256, 1, 6168, Ok(6168)),
    (1, [64, 0, 0, 0], 256, 2, 8216, Ok(8216)),
    (2, [64, 0, 0, 0], 256, 1, 6168, Ok(6168)),
    (2, [64, 0, 0, 0], 256, 2, 8216, Ok(8216)),
    (2, [64, 0, 0, 0], 256, 1, 9000, Ok(6168)),
    // Too short, by the bytes that are needed and not by those that there are.
    (1, [3, 0, 0, 0], 0, 1, 23, Err((8, 24))),
    (2, [3, 0, 0, 0], 0, 1, 0, Err((8, 24))),
    (1, [3, 0, 0, 0], 4, 1, 119, Err((8, 120))),
    (1, [3, 0, 0, 0], 4, 2, 120, Err((8, 152))),
    (1, [3, 0, 0, 0], 4, 2, 151, Err((8, 152))),
    (2, [3, 0, 0, 0], 4, 1, 119, Err((8, 120))),
    (2, [3, 0, 0, 0], 4, 2, 151, Err((8, 152))),
    (2, [1, 1, 1, 0], 4, 2, 4, Err((8, 152))),
    (1, [64, 0, 0, 0], 256, 1, 6167, Err((8, 6168))),
    (1, [64, 0, 0, 0], 256, 2, 8215, Err((8, 8216))),
    (2, [64, 0, 0, 0], 256, 1, 6167, Err((8, 6168))),
    (2, [63, 0, 0, 1], 256, 2, 8215, Err((8, 8216))),
    // A unit outside chamber 1.
    (2, [0, 1, 0, 0], 0, 1, 24, Err((15, 12))),
    (2, [2, 1, 0, 0], 4, 1, 152, Err((15, 12))),
    (2, [2, 0, 1, 0], 4, 1, 152, Err((15, 12))),
    (2, [2, 0, 0, 1], 4, 1, 152, Err((15, 12))),
    (2, [0, 3, 0, 0], 4, 1, 152, Err((15, 12))),
    (2, [63, 0, 0, 1], 256, 1, 8216, Err((15, 12))),
    // Both.
    (2, [2, 1, 0, 0], 4, 1, 119, Err((15, 12))),
    (2, [0, 0, 3, 0], 4, 1, 4, Err((15, 12))),
    (2, [0, 0, 0, 64], 256, 1, 0, Err((15, 12))),
];

#[test]
fn refusals_by_hand() {
    for (own, chambers, records, wanted, places, expected) in CASES {
        let step = ChamberStep::new(0, 0, [0; CHAMBERS], [0; CHAMBERS], 7);
        let rack = Rack { edition: own, chambers };
        let sheet = Campaign { rack, bound: 5, start: 0, steps: vec![step; records] }.bytes();
        let mut output = vec![0xA5; places];
        let convert = if wanted == 1 { to_edition_1 } else { to_edition_2 };
        let got = convert(&sheet, &mut output).map(<[u8]>::len).map_err(Error::numbers);
        assert_eq!(got, expected, "{rack:?} with {records} records, to edition {wanted}, {places} bytes");
        let filled = expected.unwrap_or(0);
        assert!(output[filled..].iter().all(|&byte| byte == 0xA5));
    }
}

/// Converts a sheet of any bytes to both editions, into outputs that are too short, just enough and longer. What comes
/// of it is converted again, and compared with the sheet.
fn compare(judge: &mut Judge, sheet: &[u8], random: &mut Random) {
    let said = read(sheet);
    for edition in [1, 2] {
        let needed = converted_length(sheet, &said, edition);
        let (shorter, longer) = (random.below(needed + 1), random.between(needed, BYTES + 9));
        for places in [0, shorter, needed.saturating_sub(1), needed + 1, longer] {
            judge.convert(sheet, &said, edition, places).ok();
        }
        if let Ok(converted) = judge.convert(sheet, &said, edition, needed) {
            compare_again(judge, sheet, &converted);
            if sheet[4] != edition {
                compare_answers(judge, sheet, &converted, random);
            }
        }
    }
    if let Ok(said) = said {
        count_lost(judge, sheet, &said);
    }
}

/// Converting to the same edition again changes nothing. Going up and down gives a sheet of edition 1 back, and going
/// down, up and down what going down gives. What going down and up gives is only counted.
fn compare_again(judge: &mut Judge, sheet: &[u8], converted: &[u8]) {
    let mut to = |sheet: &[u8], edition| judge.convert(sheet, &read(sheet), edition, BYTES).unwrap();
    let (own, wanted) = (sheet[4], converted[4]);
    let kind = match (own, wanted) {
        (1, 2) => {
            assert_eq!(to(converted, 1), sheet, "up and down, for the sheet {}", hex(sheet));
            "up and down"
        }
        (2, 1) => {
            let raised = to(converted, 2);
            assert_eq!(to(&raised, 1), converted, "down, up and down, for the sheet {}", hex(sheet));
            if raised == sheet {
                "down and up, to the same bytes"
            } else {
                "down and up, to other bytes"
            }
        }
        _ => {
            assert_eq!(converted, sheet, "a copy of the sheet {}", hex(sheet));
            "of the edition already"
        }
    };
    assert_eq!(to(converted, wanted), converted, "to edition {wanted} twice, for the sheet {}", hex(sheet));
    judge.tally.add(kind, 1);
}

/// The chain and all answers are those of the sheet, and so are verdicts; only, going down, the greatest numbers of
/// chambers 2 to 4 are lost.
fn compare_answers(judge: &mut Judge, sheet: &[u8], converted: &[u8], random: &mut Random) {
    let mut expected = answers(sheet);
    let mut said = read(sheet).unwrap();
    if sheet[4] == 2 {
        for step in expected.list.iter_mut().chain(&mut said.steps) {
            step.greatest[1..].fill(0);
        }
    }
    let which = format!("the sheets {} and {}", hex(sheet), hex(converted));
    assert_eq!(answers(converted), expected, "{which}");
    assert_eq!(walk(converted), walk(sheet), "{which}");
    let found = read(converted).unwrap();
    let parts = |of: &Sheet| (of.units, of.chambers, of.bound, of.start, of.steps.clone());
    assert_eq!(parts(&found), parts(&said), "{which}");
    for plan in plans(&said, random) {
        let verdict = warm::verdict(sheet, &plan);
        assert_eq!(warm::verdict(converted, &plan), verdict, "the plan {plan:?} for {which}");
        match verdict {
            Ok(verdict) => judge.tally.add(if verdict.accepted { "accepted" } else { "turned down" }, 1),
            Err(error) => judge.tally.add_refusal(error.numbers().0),
        }
    }
    match expected.plan {
        Ok(_) => judge.tally.add("the same plan and chart", 1),
        Err(error) => judge.tally.add_refusal(error.numbers().0),
    }
}

/// FindSupport's plan, whatever the bound; the same with a unit changed in a step; any words; a word fewer and a word
/// more.
fn plans(sheet: &Sheet, random: &mut Random) -> Vec<Vec<u64>> {
    let support = find_support(sheet);
    let words: Vec<u64> = support.iter().map(|_| random.word()).collect();
    let mut changed = support.clone();
    if let Some(set) = changed.first_mut() {
        *set ^= 1 << random.below(sheet.units);
    }
    let (fewer, more) = (support[..support.len().saturating_sub(1)].to_vec(), [&support[..], &[1]].concat());
    vec![support, changed, words, fewer, more]
}

/// Counts the unused records, and the records and steps with bytes that edition 1 has no place for.
fn count_lost(judge: &mut Judge, sheet: &[u8], said: &Sheet) {
    let (chain, _) = walk(sheet);
    let size = if sheet[4] == 1 { 24 } else { 32 };
    let unused = (1..).zip(sheet[24..].chunks_exact(size)).filter(|(j, _)| !chain.contains(j));
    let bytes: Vec<&[u8]> = unused.map(|(_, record)| record).collect();
    judge.tally.add("unused records", bytes.len() as u64);
    if sheet[4] == 2 && said.chambers[0] == said.units {
        let full = bytes.iter().filter(|record| record[17..20] != [0; 3] && record[26..28] != [0; 2]);
        judge.tally.add("unused records with bytes that are lost", full.count() as u64);
        let greatest = said.steps.iter().filter(|step| step.greatest[1..] != [0; 3]);
        judge.tally.add("steps with numbers that are lost", greatest.count() as u64);
    }
}

/// A sheet that passes the checks: any number of units, few steps and at times very many, no unused records, a few, or
/// as many as there is room for.
fn draw_sound(racks: Racks, random: &mut Random) -> Vec<u8> {
    let units = if random.one_in(4) { random.between(9, UNITS) } else { random.between(1, 8) };
    let rack = racks(units, random);
    let steps = if random.one_in(30) { random.between(200, STEPS) } else { random.below(13) };
    let family = random.pick(&Family::ALL);
    let bound = random.pick(&[0, 3, 10, 40, u16::MAX]);
    let campaign = Campaign { bound, ..draw(family, rack, steps, random) };
    let room = STEPS - steps;
    let few = random.below(5).min(room);
    let unused = if random.one_in(30) { room } else { few };
    campaign.scattered(unused, random)
}

fn compare_drawn(seed: u64, rounds: usize, racks: Racks, draw: fn(Racks, &mut Random) -> Vec<u8>) -> Judge {
    let mut judge = Judge::new(seed);
    let mut random = Random::new(seed);
    for _ in 0..rounds {
        let sheet = draw(racks, &mut random);
        compare(&mut judge, &sheet, &mut random);
    }
    judge
}

#[test]
fn drawn() {
    let judge = compare_drawn(81, 4000, one_chamber, draw_sound);
    judge.tally.print("converted sheets of edition 1");
    judge.tally.require(&[("copies", 16_000), ("to edition 2", 10_000), ("up and down", 4000)]);
    judge.tally.require(&[("unused records", 20_000), ("the same plan and chart", 2000)]);
    judge.tally.require(&[("accepted", 2000), ("turned down", 5000)]);
    judge.tally.require_refusals([8], 20_000);
    judge.tally.require_refusals([9, 10], 1000);
}

#[test]
fn drawn_in_chamber_1() {
    let judge = compare_drawn(82, 4000, first_chamber, draw_sound);
    judge.tally.print("converted sheets of edition 2 with one chamber");
    judge.tally.require(&[("copies", 16_000), ("to edition 1", 10_000), ("to edition 2", 4000)]);
    judge.tally.require(&[("down and up, to other bytes", 3500), ("down and up, to the same bytes", 20)]);
    judge.tally.require(&[("unused records with bytes that are lost", 20_000)]);
    judge.tally.require(&[("steps with numbers that are lost", 20_000), ("the same plan and chart", 2000)]);
    judge.tally.require(&[("accepted", 2000), ("turned down", 5000)]);
    judge.tally.require_refusals([8], 20_000);
    judge.tally.require_refusals([9, 10], 1000);
}

#[test]
fn drawn_in_chambers() {
    let judge = compare_drawn(83, 2000, some_chambers, draw_sound);
    judge.tally.print("converted sheets of edition 2");
    judge.tally.require(&[("copies", 8000), ("to edition 1", 400), ("of the edition already", 2000)]);
    judge.tally.require_refusals([8, 15], 6000);
}

fn compare_damaged(seed: u64, racks: Racks) -> Judge {
    let judge = compare_drawn(seed, 6000, racks, draw_damaged);
    judge.tally.require_refusals(1..=8, 1000);
    judge.tally.require(&[("copies", 1000)]);
    judge
}

#[test]
fn damaged() {
    let judge = compare_damaged(84, one_chamber);
    judge.tally.print("converted sheets of edition 1 with faults");
    judge.tally.require(&[("to edition 2", 1000)]);
}

#[test]
fn damaged_in_chamber_1() {
    let judge = compare_damaged(85, first_chamber);
    judge.tally.print("converted sheets of edition 2 with one chamber and faults");
    judge.tally.require(&[("to edition 1", 1000)]);
    judge.tally.require_refusals([13, 14], 1000);
}

#[test]
fn damaged_in_chambers() {
    let judge = compare_damaged(86, some_chambers);
    judge.tally.print("converted sheets of edition 2 with faults");
    judge.tally.require_refusals([13, 14, 15], 1000);
}

/// Every length up to some bytes more than are needed, and for the largest sheets those around the needed one.
#[test]
fn all_lengths() {
    let mut judge = Judge::new(87);
    let mut random = Random::new(87);
    let sizes = [(0, 0), (0, 1), (1, 0), (2, 1), (3, 4), (255, 0), (256, 0), (200, 56), (0, 256)];
    for racks in [one_chamber, first_chamber, some_chambers] {
        for (steps, unused) in sizes {
            let rack = racks(random.between(2, 8), &mut random);
            let sheet = draw(Family::Any, rack, steps, &mut random).scattered(unused, &mut random);
            let said = read(&sheet);
            for edition in [1, 2] {
                let needed = converted_length(&sheet, &said, edition);
                let from = if needed < 400 { 0 } else { needed - 40 };
                for places in (from..needed + 40).chain([0, 1, 24, steps, 6168, BYTES, BYTES + 1]) {
                    judge.convert(&sheet, &said, edition, places).ok();
                }
            }
        }
    }
    judge.tally.print("converted sheets, all lengths");
    judge.tally.require(&[("to edition 1", 300), ("to edition 2", 300), ("copies", 600)]);
    judge.tally.require_refusals([8, 15], 900);
}

/// All ways to deal out up to six units to four chambers: in one of them alone all units are in chamber 1.
#[test]
fn all_dealings() {
    let mut judge = Judge::new(88);
    let mut random = Random::new(88);
    for number in 1..7 * 7 * 7 * 7 {
        let chambers = [number % 7, number / 7 % 7, number / 49 % 7, number / 343];
        let units: usize = chambers.iter().sum();
        if units > 6 {
            continue;
        }
        let sheet = draw(Family::Any, chambers, random.below(4), &mut random).scattered(random.below(3), &mut random);
        let said = read(&sheet);
        for edition in [1, 2] {
            let needed = converted_length(&sheet, &said, edition);
            for places in [0, needed, BYTES] {
                let refusal = match places {
                    _ if edition == 1 && chambers != [units, 0, 0, 0] => Some((15, 12)),
                    0 => Some((8, needed as u32)),
                    _ => None,
                };
                assert_eq!(judge.convert(&sheet, &said, edition, places).err(), refusal, "{chambers:?}");
            }
        }
    }
    judge.tally.print("converted sheets, all dealings");
    judge.tally.require(&[("to edition 1", 12), ("copies", 400)]);
    judge.tally.require_refusals([8], 200);
    judge.tally.require_refusals([15], 600);
}
