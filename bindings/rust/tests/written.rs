//! Sheets that the library writes: byte for byte against the tests' own writer, and read back by the library and by the
//! reference. Limits, lengths of outputs, and which refusal comes first. What lies around an output and, on a refusal,
//! inside it stays as it is: the judge looks at all of it on each call.

mod common;
mod reference;

use common::judge::{hex, Judge};
use common::random::Random;
use common::sheets::{draw, four_runs, Campaign, Family};
use reference::reading::{check_step, read};
use reference::{units_below, Reply};
use warm::{ChamberStep, Error, Step, BYTES, STEPS};

#[test]
fn four_runs_by_hand() {
    let mut output = [0xA5; 200];
    assert_eq!(warm::write(3, 3, 0, &four_runs().written_steps(), &mut output), Ok(&warm::FOUR_RUNS[..]));
    assert_eq!(output[..120], *include_bytes!("../../../examples/four_runs.sheet"));
    assert_eq!(output[120..], [0xA5; 80]);
}

/// Each byte of each number at its place, and the number of each next record.
#[test]
fn numbers_by_hand() {
    let step = |lower, tag| Step::new(lower, 0x2122_2324_2526_2728, 0x31, 0x32, tag);
    let steps = [step(0x1112_1314_1516_1718, 0x4142_4344), step(0x5152_5354_5556_5758, 0x6162_6364)];
    let mut output = [0xA5; 72];
    let sheet = warm::write(64, 0x7172, 0x8182_8384_8586_8788, &steps, &mut output).unwrap();
    let by_hand = "5741524d0140020001007271000000008887868584838281\
                   181716151413121128272625242322213132020044434241\
                   585756555453525128272625242322213132000064636261";
    assert_eq!(hex(sheet), by_hand);

    let steps = [steps[0]; 256];
    let mut output = [0xA5; 6168];
    let sheet = warm::write(1, 0, 0, &steps, &mut output).unwrap();
    assert_eq!(hex(&sheet[..24]), "5741524d0101000101000000000000000000000000000000");
    let next = |j: usize| (sheet[24 * j + 18], sheet[24 * j + 19]);
    assert_eq!([1, 254, 255, 256].map(next), [(2, 0), (255, 0), (0, 1), (0, 0)]);
}

/// The number of units, the start set, the steps, the bytes of the output, and what comes of it: the bytes of the
/// sheet, or a refusal.
type Case = (u8, u64, usize, usize, Reply<usize>);

const CASES: [Case; 22] = [
    (1, 0, 0, 24, Ok(24)),
    (1, 1, 0, 6168, Ok(24)),
    (1, 1, 1, 48, Ok(48)),
    (63, u64::MAX >> 1, 255, 6144, Ok(6144)),
    (64, u64::MAX, 256, 6168, Ok(6168)),
    (64, u64::MAX, 256, 7000, Ok(6168)),
    // No room.
    (1, 0, 0, 0, Err((12, 24))),
    (1, 0, 0, 23, Err((12, 24))),
    (3, 7, 4, 119, Err((12, 120))),
    (64, u64::MAX, 255, 6143, Err((12, 6144))),
    (64, u64::MAX, 256, 6167, Err((12, 6168))),
    // Outside the limits.
    (0, 0, 0, 24, Err((11, 0))),
    (0, 0, 4, 120, Err((11, 0))),
    (65, 0, 4, 120, Err((11, 0))),
    (255, 0, 4, 120, Err((11, 0))),
    (1, 2, 4, 120, Err((11, 0))),
    (3, 8, 4, 120, Err((11, 0))),
    (63, 1 << 63, 4, 120, Err((11, 0))),
    (64, 0, 257, 6192, Err((11, 0))),
    // Both.
    (0, 0, 4, 119, Err((11, 0))),
    (3, 8, 4, 0, Err((11, 0))),
    (64, 0, 257, 6168, Err((11, 0))),
];

#[test]
fn limits_by_hand() {
    for (units, start, steps, places, expected) in CASES {
        let mut output = vec![0xA5; places];
        let steps = vec![Step::new(1, 1, 0, 1, 7); steps];
        let got = warm::write(units, 5, start, &steps, &mut output).map(<[u8]>::len).map_err(Error::numbers);
        assert_eq!(got, expected, "{units} units, start set {start}, {} steps, {places} bytes", steps.len());
        assert_eq!(output.iter().all(|&byte| byte == 0xA5), expected.is_err());
    }
}

/// Reading a written sheet gives what it was written from, or refusal 6 or 7 where a step is at fault.
fn read_back(judge: &mut Judge, campaign: &Campaign, sheet: &[u8]) {
    let (Campaign { bound, start, steps, .. }, units) = (campaign, campaign.units());
    let chambers = [units, 0, 0, 0];
    let checked = (1..).zip(steps).try_for_each(|(place, step)| check_step(step, place, units, chambers));
    let expected = checked.map(|()| (units, u32::from(*bound), *start, chambers, &steps[..]));
    let by_reference = read(sheet);
    let found = by_reference.as_ref().map(|said| (said.units, said.bound, said.start, said.chambers, &said.steps[..]));
    assert_eq!(found.map_err(|&refusal| refusal), expected, "the reference, for the sheet {}", hex(sheet));
    let mut list = [ChamberStep::default(); STEPS];
    let found = warm::steps(sheet, &mut list).map(|said| {
        let chambers = said.chambers.map(|units| units as usize);
        (said.units as usize, said.bound, said.start, chambers, said.steps)
    });
    assert_eq!(found.map_err(Error::numbers), expected, "for the sheet {}", hex(sheet));
    match expected {
        Ok(_) => judge.tally.add("read back", 1),
        Err((number, _)) => judge.tally.add_refusal(number),
    }
}

fn compare(judge: &mut Judge, campaign: &Campaign, places: usize) {
    if let Ok(sheet) = judge.write(campaign, places) {
        read_back(judge, campaign, &sheet);
    }
}

/// A step of any numbers, with sets and tags of all widths.
fn any_step(random: &mut Random) -> Step {
    let [lower, upper, tag] = [64, 64, 32].map(|bits| random.word() >> (64 - bits + random.below(bits)));
    Step::new(lower, upper, random.byte(), random.byte(), tag as u32)
}

/// Steps of a family, which the readers take, or steps of any numbers, or one of these among the former.
fn draw_steps(units: usize, count: usize, random: &mut Random) -> Vec<ChamberStep> {
    if random.one_in(3) {
        return (0..count).map(|_| any_step(random).into()).collect();
    }
    let family = random.pick(&Family::ALL);
    let mut steps = draw(family, units.clamp(1, 64), count, random).steps;
    if count > 0 && random.one_in(2) {
        steps[random.below(count)] = any_step(random).into();
    }
    steps
}

#[test]
fn edges() {
    let mut judge = Judge::new(71);
    let mut random = Random::new(71);
    for units in [0, 1, 2, 8, 31, 32, 33, 62, 63, 64, 65, 128, 255] {
        let (all, top) = (units_below(units.min(64)), 1 << 63);
        let above = 1u64.checked_shl(units as u32).unwrap_or(0);
        for start in [0, 1, all, all >> 1, all & !(all >> 1), above, all | above, top, u64::MAX] {
            for count in [0, 1, 2, 255, 256, 257, 300] {
                let bound = random.pick(&[0, 1, 255, 256, u16::MAX]);
                let steps = draw_steps(units, count, &mut random);
                let campaign = Campaign { rack: units.into(), bound, start, steps };
                let length = 24 * (count + 1);
                for places in [0, length - 24, length - 1, length, length + 1, length + 24, BYTES] {
                    compare(&mut judge, &campaign, places);
                }
            }
        }
    }
    judge.tally.print("written sheets, edges");
    judge.tally.require(&[("sheets", 900), ("read back", 300)]);
    judge.tally.require_refusals([11, 12], 700);
    judge.tally.require_refusals([6, 7], 100);
}

/// What a sheet is written from: mostly within the limits, and at times just beyond one of them.
fn draw_campaign(random: &mut Random) -> Campaign {
    let units = match random.below(12) {
        0 => random.below(256),
        1 => random.pick(&[0, 1, 63, 64, 65, 255]),
        _ => random.between(1, 64),
    };
    let all = units_below(units.min(64));
    let start = match random.below(8) {
        0 => random.word() >> random.below(64),
        1 => random.part(all, 2) | 1u64.checked_shl(units as u32).unwrap_or(0),
        2 => all,
        _ => random.part(all, 2),
    };
    let count = match random.below(60) {
        0 => random.pick(&[255, 256, 257]),
        1 => random.between(13, 300),
        _ => random.below(13),
    };
    let bound = random.word() as u16;
    Campaign { rack: units.into(), bound, start, steps: draw_steps(units, count, random) }
}

#[test]
fn drawn() {
    let mut judge = Judge::new(72);
    let mut random = Random::new(72);
    for _ in 0..40_000 {
        let campaign = draw_campaign(&mut random);
        let length = 24 * (campaign.steps.len() + 1);
        let places = match random.below(8) {
            0 => random.below(length),
            1 => length - 1,
            2 => length + 1,
            3 => random.between(length, length + 60),
            4 => BYTES,
            _ => length,
        };
        compare(&mut judge, &campaign, places);
    }
    judge.tally.print("written sheets, drawn");
    judge.tally.require(&[("sheets", 20_000), ("read back", 5000)]);
    judge.tally.require_refusals([11, 12], 4000);
    judge.tally.require_refusals([6, 7], 4000);
}
