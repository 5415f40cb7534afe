//! Outputs of all lengths: too short, just enough, longer. Refusal 8 for each output by itself, and which refusal comes
//! first. What lies before, after and, on a refusal, inside an output stays as it is: the judge looks at all of it on
//! each call. Written and converted sheets have more of this in `written` and `converted`.

mod common;
mod reference;

use common::judge::{converted_length, Judge};
use common::random::Random;
use common::sheets::{draw, four_runs, one_chamber, set_bound, some_chambers, Family, Rack, Racks};
use reference::replies::Replies;
use warm::{Error, Place, Refusal};

/// Lengths around n, each once.
fn lengths(n: usize) -> Vec<usize> {
    let mut lengths = vec![0, 1, n / 2, n.saturating_sub(1), n, n + 1, n + 9, 256, 300];
    lengths.sort_unstable();
    lengths.dedup();
    lengths
}

fn compare_all_lengths(seed: u64, racks: Racks) -> Judge {
    let mut judge = Judge::new(seed);
    let mut random = Random::new(seed);
    for steps in [0, 1, 2, 3, 5, 8, 17, 40, 255, 256] {
        for family in Family::ALL {
            let units = random.between(1, 6);
            let rack = racks(units, &mut random);
            rack.count(&mut judge.tally);
            let campaign = draw(family, rack, steps, &mut random);
            let mut sheet = campaign.scattered((256 - steps).min(3), &mut random);
            let replies = Replies::new(&sheet);
            // With room, and with a bound that is too low, if one is.
            for bound in [replies.fewest() + 2, replies.fewest().saturating_sub(1)] {
                set_bound(&mut sheet, bound as u16);
                let expected = replies.with_bound(bound as u16);
                each_length(&mut judge, &sheet, &expected);
            }
        }
    }
    judge.tally.require_refusals([8, 9], 1000);
    judge.tally.require_refusals([10], 500);
    judge.tally.require(&[
        ("step lists", 500),
        ("plans", 200),
        ("charts", 1000),
        ("accepted", 50),
        ("turned down", 20),
        ("copies", 400),
    ]);
    judge
}

#[test]
fn all_lengths() {
    let judge = compare_all_lengths(41, one_chamber);
    judge.tally.print("all lengths");
    judge.tally.require(&[("to edition 2", 400)]);
}

#[test]
fn all_lengths_in_chambers() {
    let judge = compare_all_lengths(43, some_chambers);
    judge.tally.print("all lengths in chambers");
    judge.tally.require_refusals([15], 400);
    Rack::require(&judge.tally, 5);
}

fn each_length(judge: &mut Judge, sheet: &[u8], expected: &Replies) {
    let mut handed_in = expected.support().to_vec();
    handed_in.resize(300, 0);
    for places in lengths(expected.n()) {
        judge.steps(sheet, expected, places);
        judge.plan(sheet, expected, places);
        judge.verdict(sheet, expected, &handed_in[..places]);
        for others in lengths(expected.n()) {
            judge.chart(sheet, expected, places, others);
        }
    }
    for edition in [1, 2] {
        for places in lengths(converted_length(sheet, &expected.sheet, edition)) {
            judge.convert(sheet, &expected.sheet, edition, places).ok();
        }
    }
}

/// One output too short, the other long enough.
#[test]
fn each_output_by_itself() {
    let sheet = four_runs().bytes();
    let short = Error::Refused { refusal: Refusal::ShortOutput, place: Place::Count(4) };
    let (mut on, mut off) = ([9; 5], [9; 5]);
    assert_eq!(warm::chart(&sheet, &mut on[..3], &mut off), Err(short));
    assert_eq!(warm::chart(&sheet, &mut on, &mut off[..3]), Err(short));
    assert_eq!(warm::plan(&sheet, &mut on[..3]), Err(short));
    assert_eq!((on, off), ([9; 5], [9; 5]));
    let shorter_than = |bytes| Error::Refused { refusal: Refusal::ShortOutput, place: Place::Count(bytes) };
    let mut output = [9; 151];
    assert_eq!(warm::to_edition_1(&sheet, &mut output[..119]), Err(shorter_than(120)));
    assert_eq!(warm::to_edition_2(&sheet, &mut output), Err(shorter_than(152)));
    assert_eq!(output, [9; 151]);
}

/// No place at all.
#[test]
fn empty_slices() {
    let sheet = four_runs().bytes();
    let short = Error::Refused { refusal: Refusal::ShortOutput, place: Place::Count(4) };
    assert_eq!(warm::steps(&sheet, &mut []), Err(short));
    assert_eq!(warm::plan(&sheet, &mut []), Err(short));
    assert_eq!(warm::chart(&sheet, &mut [], &mut []), Err(short));
    let other_length = Error::Refused { refusal: Refusal::PlanLength, place: Place::Count(4) };
    assert_eq!(warm::verdict(&sheet, &[]), Err(other_length));
    let no_room = |bytes| Error::Refused { refusal: Refusal::NoRoom, place: Place::Count(bytes) };
    assert_eq!(warm::write(3, 3, 0, &four_runs().written_steps(), &mut []), Err(no_room(120)));
    assert_eq!(warm::write(1, 0, 0, &[], &mut []), Err(no_room(24)));
    let shorter_than = |bytes| Error::Refused { refusal: Refusal::ShortOutput, place: Place::Count(bytes) };
    assert_eq!(warm::to_edition_1(&sheet, &mut []), Err(shorter_than(120)));
    assert_eq!(warm::to_edition_2(&sheet, &mut []), Err(shorter_than(152)));
    let none = Error::Refused { refusal: Refusal::Length, place: Place::Whole };
    assert_eq!(warm::steps(&[], &mut []), Err(none));
    assert_eq!(warm::plan(&[], &mut []), Err(none));
    assert_eq!(warm::chart(&[], &mut [], &mut []), Err(none));
    assert_eq!(warm::verdict(&[], &[]), Err(none));
    assert_eq!(warm::to_edition_1(&[], &mut []), Err(none));
    assert_eq!(warm::to_edition_2(&[], &mut []), Err(none));
}

/// Several threads at once get what one gets, on sheets of both editions.
#[test]
fn threads() {
    let mut random = Random::new(42);
    let sheets: Vec<Vec<u8>> = (0..400)
        .map(|i| {
            let rack = if i < 200 { one_chamber } else { some_chambers }(1 + i % 12, &mut random);
            let mut campaign = draw(Family::ALL[i % 8], rack, i % 20, &mut random);
            campaign.bound = (i % 40) as u16;
            campaign.scattered(i % 5, &mut random)
        })
        .collect();
    let run = || -> Vec<_> {
        let replies = |sheet: &Vec<u8>| {
            let (mut on, mut off, mut other) = ([0; 20], [0; 20], vec![0; warm::BYTES]);
            let chart = warm::chart(sheet, &mut on, &mut off).map(|chart| chart.total);
            let convert = if sheet[4] == 1 { warm::to_edition_2 } else { warm::to_edition_1 };
            let length = convert(sheet, &mut other).map(<[u8]>::len);
            (chart, on, off, length, other)
        };
        sheets.iter().map(replies).collect()
    };
    let alone = run();
    std::thread::scope(|scope| {
        let others: Vec<_> = (0..4).map(|_| scope.spawn(run)).collect();
        for other in others {
            assert_eq!(other.join().unwrap(), alone);
        }
    });
    assert!(alone.iter().any(|reply| reply.0.is_ok()) && alone.iter().any(|reply| reply.0.is_err()));
    assert!(alone.iter().any(|reply| reply.3.is_ok()) && alone.iter().any(|reply| reply.3.is_err()));
}
