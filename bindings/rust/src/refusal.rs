//! What a call gives where there is no full reply: a cause with its place, and both in words.

use core::fmt;

/// The cause of a refusal: the first that holds. The repository's `docs/FORMAT.md` has the order in which causes are
/// checked.
#[derive(Clone, Copy, Debug, PartialEq, Eq, Hash)]
#[repr(u32)]
#[non_exhaustive]
pub enum Refusal {
    /// 1: the sheet is shorter than 24 or longer than 8,216 bytes. [`Place::Whole`].
    Length = 1,
    /// 2: the letters are not WARM, byte 0; or the edition is not 1 or 2, byte 4. [`Place::Byte`].
    Form = 2,
    /// 3: the number of units is not 1 to 64, byte 5; or there are more than 256 records, byte 6; or bytes 12 to 15 are
    /// not zero in edition 1, byte 12; or the start set has a unit that the sheet does not have, byte 16; or the length
    /// is not that of the header and the records, byte 24. [`Place::Byte`].
    Header = 3,
    /// 4: the number of the first or the next record is above the number of records. [`Place::Record`]: the one that
    /// holds it, 0 for the header.
    RecordNumber = 4,
    /// 5: the next record is already on the chain. [`Place::Record`]: the one that holds its number.
    Loop = 5,
    /// 6: the upper set has a unit that the sheet does not have. [`Place::Step`].
    UpperSet = 6,
    /// 7: no set of units is feasible in the step. [`Place::Step`].
    NoSet = 7,
    /// 8: an output has fewer places than the reply fills. [`Place::Count`]: those places, one for each step, or for
    /// each byte of a converted sheet.
    ShortOutput = 8,
    /// 9: the bound is below the fewest warm-ups. [`Place::Count`]: those warm-ups.
    Bound = 9,
    /// 10: the plan has more or fewer words than there are steps. [`Place::Count`]: the steps.
    PlanLength = 10,
    /// 11: the number of units, the start set or the number of steps is outside the limits of a sheet.
    /// [`Place::Whole`].
    Limits = 11,
    /// 12: the output is shorter than the sheet. [`Place::Count`]: the bytes of the sheet.
    NoRoom = 12,
    /// 13: the chamber sizes in edition 2 do not add up to the number of units, byte 12. [`Place::Byte`].
    ChamberSizes = 13,
    /// 14: bytes 26 to 27 of the step's record are not zero in edition 2. [`Place::Step`].
    ReservedBytes = 14,
    /// 15: a unit is outside chamber 1, byte 12. [`Place::Byte`].
    OtherChambers = 15,
}

impl Refusal {
    /// All causes, by their numbers.
    pub const ALL: &'static [Refusal] = &[
        Refusal::Length,
        Refusal::Form,
        Refusal::Header,
        Refusal::RecordNumber,
        Refusal::Loop,
        Refusal::UpperSet,
        Refusal::NoSet,
        Refusal::ShortOutput,
        Refusal::Bound,
        Refusal::PlanLength,
        Refusal::Limits,
        Refusal::NoRoom,
        Refusal::ChamberSizes,
        Refusal::ReservedBytes,
        Refusal::OtherChambers,
    ];

    /// The number of the cause.
    #[must_use]
    pub const fn number(self) -> u32 {
        self as u32
    }

    /// The place that goes with this cause, from its number.
    #[must_use]
    pub const fn place(self, number: u32) -> Place {
        match self {
            Refusal::Length | Refusal::Limits => Place::Whole,
            Refusal::Form | Refusal::Header | Refusal::ChamberSizes | Refusal::OtherChambers => Place::Byte(number),
            Refusal::RecordNumber | Refusal::Loop => Place::Record(number),
            Refusal::UpperSet | Refusal::NoSet | Refusal::ReservedBytes => Place::Step(number),
            Refusal::ShortOutput | Refusal::Bound | Refusal::PlanLength | Refusal::NoRoom => Place::Count(number),
        }
    }
}

impl TryFrom<u32> for Refusal {
    type Error = UnknownRefusal;

    fn try_from(number: u32) -> Result<Refusal, UnknownRefusal> {
        Refusal::ALL.iter().copied().find(|refusal| refusal.number() == number).ok_or(UnknownRefusal(number))
    }
}

/// A number that is that of no [`Refusal`].
#[derive(Clone, Copy, Debug, PartialEq, Eq, Hash)]
pub struct UnknownRefusal(pub u32);

impl fmt::Display for UnknownRefusal {
    fn fmt(&self, out: &mut fmt::Formatter<'_>) -> fmt::Result {
        write!(out, "there is no refusal {}", self.0)
    }
}

impl core::error::Error for UnknownRefusal {}

/// Where in the sheet the cause of a refusal is, or how many there are of what it names.
#[derive(Clone, Copy, Debug, PartialEq, Eq, Hash)]
#[non_exhaustive]
pub enum Place {
    /// No place in particular: its number is 0.
    Whole,
    /// A byte of the sheet, from 0.
    Byte(u32),
    /// A record, from 1, or 0 for the header.
    Record(u32),
    /// A step, from 1.
    Step(u32),
    /// A count, of what each [`Refusal`] says.
    Count(u32),
}

impl Place {
    /// The place as a plain number.
    #[must_use]
    pub const fn number(self) -> u32 {
        match self {
            Place::Whole => 0,
            Place::Byte(number) | Place::Record(number) | Place::Step(number) | Place::Count(number) => number,
        }
    }
}

/// Why a call gives no full reply. As text it is one line, such as
/// `refused 5 at record 4: the next record is already on the chain`.
#[derive(Clone, Copy, Debug, PartialEq, Eq, Hash)]
#[non_exhaustive]
pub enum Error {
    /// The library refuses the sheet, what one is to be written from, an output or a plan.
    Refused {
        /// The first cause that holds.
        refusal: Refusal,
        /// Where, or how many.
        place: Place,
    },
    /// The library gives a number that this crate does not know: it is of another version than this crate.
    Unknown {
        /// The number of the refusal.
        number: u32,
        /// The number of its place.
        place: u32,
    },
}

impl Error {
    /// The refusal that the library gives, by its number and that of its place.
    pub(crate) fn new(number: u32, place: u32) -> Error {
        match Refusal::try_from(number) {
            Ok(refusal) => Error::Refused { refusal, place: refusal.place(place) },
            Err(UnknownRefusal(number)) => Error::Unknown { number, place },
        }
    }

    /// The number of the refusal and that of its place, as the library gives them.
    #[must_use]
    pub const fn numbers(self) -> (u32, u32) {
        match self {
            Error::Refused { refusal, place } => (refusal.number(), place.number()),
            Error::Unknown { number, place } => (number, place),
        }
    }

    /// The cause in words.
    #[must_use]
    pub const fn cause(self) -> &'static str {
        let Error::Refused { refusal, place } = self else { return UNKNOWN };
        match (refusal, place.number()) {
            (Refusal::Length, _) => "the sheet is shorter than 24 or longer than 8,216 bytes",
            (Refusal::Form, 0) => "the letters are not WARM",
            (Refusal::Form, 4) => "the edition is not 1 or 2",
            (Refusal::Header, 5) => "the number of units is not 1 to 64",
            (Refusal::Header, 6) => "there are more than 256 records",
            (Refusal::Header, 12) => "bytes 12 to 15 are not zero in edition 1",
            (Refusal::Header, 16) => "the start set has a unit that the sheet does not have",
            (Refusal::Header, 24) => "the length is not that of the header and the records",
            (Refusal::RecordNumber, _) => "the number of the first or the next record is above the number of records",
            (Refusal::Loop, _) => "the next record is already on the chain",
            (Refusal::UpperSet, _) => "the upper set has a unit that the sheet does not have",
            (Refusal::NoSet, _) => "no set of units is feasible in the step",
            (Refusal::ShortOutput, _) => "an output has fewer places than the reply fills",
            (Refusal::Bound, _) => "the bound is below the fewest warm-ups",
            (Refusal::PlanLength, _) => "the plan has more or fewer words than there are steps",
            (Refusal::Limits, _) => {
                "the number of units, the start set or the number of steps is outside the limits of a sheet"
            }
            (Refusal::NoRoom, _) => "the output is shorter than the sheet",
            (Refusal::ChamberSizes, 12) => "the chamber sizes in edition 2 do not add up to the number of units",
            (Refusal::ReservedBytes, _) => "bytes 26 to 27 of the step's record are not zero in edition 2",
            (Refusal::OtherChambers, 12) => "a unit is outside chamber 1",
            (Refusal::Form | Refusal::Header | Refusal::ChamberSizes | Refusal::OtherChambers, _) => UNKNOWN,
        }
    }
}

/// In place of a cause.
const UNKNOWN: &str = "a refusal that this version of the crate does not know";

impl fmt::Display for Error {
    fn fmt(&self, out: &mut fmt::Formatter<'_>) -> fmt::Result {
        write!(out, "refused {}", self.numbers().0)?;
        let cause = self.cause();
        match *self {
            Error::Refused { place: Place::Whole, .. } => write!(out, ": {cause}"),
            Error::Refused { place: Place::Byte(number), .. } => write!(out, " at byte {number}: {cause}"),
            Error::Refused { place: Place::Record(0), .. } => write!(out, " at the header: {cause}"),
            Error::Refused { place: Place::Record(number), .. } => write!(out, " at record {number}: {cause}"),
            Error::Refused { place: Place::Step(number), .. } => write!(out, " at step {number}: {cause}"),
            Error::Refused { place: Place::Count(number), .. } => write!(out, ": {cause} ({number})"),
            Error::Unknown { place, .. } => write!(out, " with place {place}: {cause}"),
        }
    }
}

impl core::error::Error for Error {}

#[cfg(test)]
mod tests {
    use super::{Error, Place, Refusal};
    use std::string::ToString;

    /// What a library of another version gives is an error value.
    #[test]
    fn of_another_version() {
        let unknown = Error::new(99, 7);
        assert_eq!(unknown, Error::Unknown { number: 99, place: 7 });
        assert_eq!(unknown.numbers(), (99, 7));
        let line = "refused 99 with place 7: a refusal that this version of the crate does not know";
        assert_eq!(unknown.to_string(), line);

        let moved = Error::new(3, 99);
        assert_eq!(moved, Error::Refused { refusal: Refusal::Header, place: Place::Byte(99) });
        assert_eq!(moved.to_string(), "refused 3 at byte 99: a refusal that this version of the crate does not know");
    }
}
