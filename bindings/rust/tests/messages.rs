//! What a refusal says of itself, and the constants.

use std::collections::HashSet;
use warm::{Error, Place, Refusal, UnknownRefusal};

#[test]
fn numbers_in_order() {
    for (i, &refusal) in Refusal::ALL.iter().enumerate() {
        assert_eq!(refusal.number() as usize, i + 1);
        assert_eq!(Refusal::try_from(refusal.number()), Ok(refusal));
    }
    let after_the_last = Refusal::ALL.len() as u32 + 1;
    for number in [0, after_the_last, u32::MAX] {
        assert_eq!(Refusal::try_from(number), Err(UnknownRefusal(number)));
        assert_eq!(UnknownRefusal(number).to_string(), format!("there is no refusal {number}"));
    }
}

#[test]
fn lines() {
    let lines = [
        (Refusal::Length, 0, "refused 1: the sheet is shorter than 24 or longer than 8,216 bytes"),
        (Refusal::Form, 0, "refused 2 at byte 0: the letters are not WARM"),
        (Refusal::Form, 4, "refused 2 at byte 4: the edition is not 1 or 2"),
        (Refusal::Header, 5, "refused 3 at byte 5: the number of units is not 1 to 64"),
        (Refusal::Header, 6, "refused 3 at byte 6: there are more than 256 records"),
        (Refusal::Header, 12, "refused 3 at byte 12: bytes 12 to 15 are not zero in edition 1"),
        (Refusal::Header, 16, "refused 3 at byte 16: the start set has a unit that the sheet does not have"),
        (Refusal::Header, 24, "refused 3 at byte 24: the length is not that of the header and the records"),
        (
            Refusal::RecordNumber,
            0,
            "refused 4 at the header: the number of the first or the next record is above the number of records",
        ),
        (
            Refusal::RecordNumber,
            7,
            "refused 4 at record 7: the number of the first or the next record is above the number of records",
        ),
        (Refusal::Loop, 4, "refused 5 at record 4: the next record is already on the chain"),
        (Refusal::UpperSet, 1, "refused 6 at step 1: the upper set has a unit that the sheet does not have"),
        (Refusal::NoSet, 256, "refused 7 at step 256: no set of units is feasible in the step"),
        (Refusal::ShortOutput, 4, "refused 8: an output has fewer places than the reply fills (4)"),
        (Refusal::Bound, 3, "refused 9: the bound is below the fewest warm-ups (3)"),
        (Refusal::PlanLength, 4, "refused 10: the plan has more or fewer words than there are steps (4)"),
        (
            Refusal::Limits,
            0,
            "refused 11: the number of units, the start set or the number of steps is outside the limits of a sheet",
        ),
        (Refusal::NoRoom, 120, "refused 12: the output is shorter than the sheet (120)"),
        (
            Refusal::ChamberSizes,
            12,
            "refused 13 at byte 12: the chamber sizes in edition 2 do not add up to the number of units",
        ),
        (
            Refusal::ReservedBytes,
            256,
            "refused 14 at step 256: bytes 26 to 27 of the step's record are not zero in edition 2",
        ),
        (Refusal::OtherChambers, 12, "refused 15 at byte 12: a unit is outside chamber 1"),
    ];
    for (refusal, number, line) in lines {
        let place = refusal.place(number);
        let error = Error::Refused { refusal, place };
        assert_eq!(error.to_string(), line);
        assert_eq!(error.numbers(), (refusal.number(), number));
    }
    let met: HashSet<Refusal> = lines.iter().map(|line| line.0).collect();
    assert_eq!(met.len(), Refusal::ALL.len(), "a line for each refusal");
}

#[test]
fn places() {
    for (refusal, place) in [
        (Refusal::Length, Place::Whole),
        (Refusal::Header, Place::Byte(12)),
        (Refusal::Loop, Place::Record(12)),
        (Refusal::NoSet, Place::Step(12)),
        (Refusal::Bound, Place::Count(12)),
        (Refusal::Limits, Place::Whole),
        (Refusal::NoRoom, Place::Count(12)),
        (Refusal::ChamberSizes, Place::Byte(12)),
        (Refusal::ReservedBytes, Place::Step(12)),
        (Refusal::OtherChambers, Place::Byte(12)),
    ] {
        assert_eq!(refusal.place(12), place);
    }
}

/// The places that an output lacks are counted in steps, or in bytes of a converted sheet.
#[test]
fn of_an_output_that_is_too_short() {
    let sheet = warm::FOUR_RUNS;
    let line = |count: u32| format!("refused 8: an output has fewer places than the reply fills ({count})");
    assert_eq!(warm::steps(&sheet, &mut []).unwrap_err().to_string(), line(4));
    assert_eq!(warm::plan(&sheet, &mut []).unwrap_err().to_string(), line(4));
    assert_eq!(warm::chart(&sheet, &mut [], &mut []).unwrap_err().to_string(), line(4));
    assert_eq!(warm::to_edition_1(&sheet, &mut []).unwrap_err().to_string(), line(120));
    assert_eq!(warm::to_edition_2(&sheet, &mut []).unwrap_err().to_string(), line(152));
}

/// With `?` in a function that gives any error.
#[test]
fn is_an_error() {
    fn total(sheet: &[u8]) -> Result<u32, Box<dyn std::error::Error + Send + Sync>> {
        Ok(warm::plan(sheet, &mut [])?.total)
    }
    let error = total(b"WARM").unwrap_err();
    assert_eq!(error.to_string(), "refused 1: the sheet is shorter than 24 or longer than 8,216 bytes");
    assert!(error.source().is_none());
}

#[test]
fn constants() {
    let header = include_str!("../../../include/warm.h");
    let version = warm::VERSION as usize;
    for (name, value) in [
        ("UNITS", warm::UNITS),
        ("CHAMBERS", warm::CHAMBERS),
        ("STEPS", warm::STEPS),
        ("BYTES", warm::BYTES),
        ("VERSION", version),
    ] {
        assert!(header.contains(&format!("#define WARM_{name} {value}\n")), "{name}");
    }
    assert_eq!((warm::UNITS, warm::CHAMBERS, warm::STEPS, warm::BYTES), (64, 4, 256, 8216));
}
