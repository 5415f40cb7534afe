//! Faults put into drawn sheets of both editions and all sizes, whose chains run to and fro among unused records: each
//! kind of fault by itself at each of its places, and two faults together, of which the earlier must be given. The
//! refusal is known from how the sheet is made. The reference must give it, and so must all six entries that read a
//! sheet.

mod common;
mod reference;

use common::judge::Judge;
use common::random::Random;
use common::sheets::{draw, one_chamber, put_limits, some_chambers, Campaign, Family, Rack, Racks};
use reference::reading::{read, walk};
use reference::replies::Replies;
use reference::{dealt, Refusal};
use std::ops::RangeInclusive;
use warm::{ChamberStep, Step, BYTES, CHAMBERS, STEPS, UNITS};

/// The kinds of faults, in the order of the checks.
#[derive(Clone, Copy, Debug, PartialEq, Eq, PartialOrd, Ord)]
enum Kind {
    CutShort,
    TooLong,
    WrongLetter,
    WrongEdition,
    NoUnits,
    ManyUnits,
    ManyRecords,
    NotZero,
    OtherSizes,
    WrappedSizes,
    OtherEdition,
    HighStart,
    Longer,
    Shorter,
    LinkOut,
    LinkBack,
    NotReserved,
    HighUnit,
    NotWithin,
    LeastAboveGreatest,
    LowerTooLarge,
    UpperTooSmall,
    LeastOfNone,
}

use Kind::*;

/// The kinds with their names in the tally.
const KINDS: [(Kind, &str); 23] = [
    (CutShort, "shorter than a header"),
    (TooLong, "longer than any sheet"),
    (WrongLetter, "a wrong letter"),
    (WrongEdition, "a wrong edition"),
    (NoUnits, "no units"),
    (ManyUnits, "more than 64 units"),
    (ManyRecords, "more than 256 records"),
    (NotZero, "a byte that is not zero"),
    (OtherSizes, "chamber sizes of another sum"),
    (WrappedSizes, "chamber sizes that add up but for 256, 512 or 768"),
    (OtherEdition, "the other edition"),
    (HighStart, "a start unit too high"),
    (Longer, "longer than its records"),
    (Shorter, "shorter than its records"),
    (LinkOut, "a record that is not there"),
    (LinkBack, "a record met before"),
    (NotReserved, "bytes 26 to 27 that are not zero"),
    (HighUnit, "an upper unit too high"),
    (NotWithin, "lower not within upper"),
    (LeastAboveGreatest, "least above greatest"),
    (LowerTooLarge, "lower too large"),
    (UpperTooSmall, "upper too small"),
    (LeastOfNone, "a least number of an empty chamber"),
];

impl Kind {
    /// The edition that alone has such faults, if it is one.
    fn edition(self) -> Option<u8> {
        match self {
            NotZero => Some(1),
            OtherSizes | WrappedSizes | NotReserved | LeastOfNone => Some(2),
            _ => None,
        }
    }
}

/// The kinds that sheets of an edition can have.
fn kinds(edition: u8) -> impl Iterator<Item = (Kind, &'static str)> {
    KINDS.into_iter().filter(move |(kind, _)| kind.edition().unwrap_or(edition) == edition)
}

/// The parts of a sheet, in the order of the checks.
#[derive(Clone, Copy, PartialEq, Eq, PartialOrd, Ord)]
enum Part {
    Header,
    Links,
    Steps,
}

/// A fault at a place: 0 in the header, k in step k or in the link that leads on from step k. Link 0 is the header's.
#[derive(Clone, Copy, Debug)]
struct Fault {
    kind: Kind,
    place: usize,
}

impl Fault {
    fn part(self) -> Part {
        match self.kind {
            LinkOut | LinkBack => Part::Links,
            kind if kind < LinkOut => Part::Header,
            _ => Part::Steps,
        }
    }

    /// Of two faults, the lesser is found first. Two of one link are alike, and so are two that leave no set in one
    /// step, and two at byte 12: only one of them can be there.
    fn order(self) -> (Part, usize, Kind) {
        let kind = match self.kind {
            NotZero | OtherSizes | WrappedSizes | OtherEdition => NotZero,
            LinkOut | LinkBack => LinkOut,
            kind if kind > HighUnit => NotWithin,
            kind => kind,
        };
        (self.part(), self.place, kind)
    }
}

/// A sheet that passes the checks. Step k lies in record `records[k]`; at 0 stands 0, for the header.
struct Sound {
    campaign: Campaign,
    records: Vec<usize>,
    bytes: Vec<u8>,
}

impl Sound {
    /// Any number of units, and more often the two largest; few steps, and at times very many; no unused records, a
    /// few, or as many as there is room for.
    fn draw(racks: Racks, random: &mut Random) -> Sound {
        let any = random.between(1, UNITS);
        let units = random.pick(&[any, any, UNITS - 1, UNITS]);
        let rack = racks(units, random);
        let steps = if random.one_in(50) { random.between(200, STEPS) } else { random.below(13) };
        let family = random.pick(&Family::ALL);
        let campaign = Campaign { bound: random.word() as u16, ..draw(family, rack, steps, random) };
        let room = STEPS - steps;
        let unused = random.pick(&[0, room.min(3), room]);
        let bytes = campaign.scattered(unused, random);
        let records = [vec![0], walk(&bytes).0].concat();
        Sound { campaign, records, bytes }
    }

    /// The places at which the sheet can have a fault of that kind.
    fn places(&self, kind: Kind) -> Option<RangeInclusive<usize>> {
        let (rack, steps) = (self.campaign.rack, self.campaign.steps.len());
        match kind {
            kind if kind.edition().is_some_and(|only| only != rack.edition) => None,
            HighStart | HighUnit if rack.units() == UNITS => None,
            LeastOfNone if !rack.chambers.contains(&0) => None,
            Longer if self.bytes.len() == BYTES => None,
            Shorter if self.bytes.len() == 24 => None,
            LinkOut => Some(0..=steps),
            kind if kind > LinkOut => Some(1..=steps),
            _ => Some(0..=0),
        }
    }

    /// A fault of that kind at any of its places.
    fn any(&self, kind: Kind, random: &mut Random) -> Option<Fault> {
        let places: Vec<usize> = self.places(kind)?.collect();
        (!places.is_empty()).then(|| Fault { kind, place: random.pick(&places) })
    }

    /// Puts a fault into the bytes, and gives its refusal.
    fn put(&self, Fault { kind, place }: Fault, bytes: &mut Vec<u8>, random: &mut Random) -> Refusal {
        let (rack, length) = (self.campaign.rack, self.bytes.len());
        let record = self.records[place];
        match kind {
            CutShort => {
                bytes.truncate(random.below(24));
                (1, 0)
            }
            TooLong => {
                bytes.resize(random.low_or_between(BYTES + 1, BYTES + 24), 0);
                (1, 0)
            }
            WrongLetter => {
                put_other(bytes, random.below(4), random);
                (2, 0)
            }
            WrongEdition => {
                let any = random.between(3, 255) as u8;
                bytes[4] = random.pick(&[0, 3, any]);
                (2, 4)
            }
            NoUnits => {
                bytes[5] = 0;
                (3, 5)
            }
            ManyUnits => {
                bytes[5] = random.low_or_between(UNITS + 1, 255) as u8;
                (3, 5)
            }
            ManyRecords => {
                put_number(bytes, 6, random.low_or_between(STEPS + 1, 65535));
                (3, 6)
            }
            NotZero => {
                put_other(bytes, 12 + random.below(4), random);
                (3, 12)
            }
            OtherSizes => {
                put_other(bytes, 12 + random.below(4), random);
                (13, 12)
            }
            WrappedSizes => {
                let sizes = wrapped_sizes(rack.units(), random);
                bytes[12..16].copy_from_slice(&sizes);
                (13, 12)
            }
            OtherEdition => {
                bytes[4] = 3 - rack.edition;
                (if rack.edition == 1 { 13 } else { 3 }, 12)
            }
            HighStart => {
                self.add_high_unit(bytes, 16, random);
                (3, 16)
            }
            Longer => {
                bytes.resize(length + random.low_or_between(1, 24), 0);
                (3, 24)
            }
            Shorter => {
                bytes.truncate(length - random.low_or_between(1, 24));
                (3, 24)
            }
            LinkOut => {
                let records = (length - 24) / rack.record();
                put_link(bytes, rack, record, random.low_or_between(records + 1, 65535));
                (4, record as u32)
            }
            LinkBack => {
                put_link(bytes, rack, record, self.records[random.between(1, place)]);
                (5, record as u32)
            }
            NotReserved => {
                put_other(bytes, rack.at(record) + 26 + random.below(2), random);
                (14, place as u32)
            }
            HighUnit => {
                self.add_high_unit(bytes, rack.at(record) + 8, random);
                (6, place as u32)
            }
            _ => {
                let step = without_set(kind, self.campaign.steps[place - 1], rack, random);
                put_limits(&mut bytes[rack.at(record)..], rack.edition, &step);
                (7, place as u32)
            }
        }
    }

    /// The unused records of a sheet of edition 2 whose bytes 26 to 27 are not zero.
    fn unused_with_bytes(&self) -> u64 {
        let records = (1..).zip(self.bytes[24..].chunks_exact(32));
        let unused = records.filter(|(j, record)| !self.records.contains(j) && record[26..28] != [0, 0]);
        unused.count() as u64
    }

    /// Adds a unit that the sheet does not have to the set at that byte.
    fn add_high_unit(&self, bytes: &mut [u8], at: usize, random: &mut Random) {
        let unit = random.low_or_between(self.campaign.units(), 63);
        bytes[at + unit / 8] |= 1 << (unit % 8);
    }
}

/// Another byte than the one that is there.
fn put_other(bytes: &mut [u8], at: usize, random: &mut Random) {
    bytes[at] = bytes[at].wrapping_add(random.between(1, 255) as u8);
}

fn put_number(bytes: &mut [u8], at: usize, number: usize) {
    bytes[at..at + 2].copy_from_slice(&(number as u16).to_le_bytes());
}

/// Four sizes that add up to 256, 512 or 768 more than so many units.
fn wrapped_sizes(units: usize, random: &mut Random) -> [u8; CHAMBERS] {
    let mut left = units + 256 * random.between(1, 3);
    let mut sizes = [0; CHAMBERS];
    // The chambers after one hold at most 255 each.
    for (c, place) in sizes.iter_mut().enumerate() {
        let after = 255 * (CHAMBERS - 1 - c);
        let size = random.between(left.saturating_sub(after), left.min(255));
        *place = size as u8;
        left -= size;
    }
    sizes
}

/// The number of the next record, in a record or, at 0, in the header.
fn put_link(bytes: &mut [u8], rack: Rack, record: usize, next: usize) {
    put_number(bytes, if record == 0 { 8 } else { rack.at(record) + rack.next() }, next);
}

/// The step with limits in one chamber that no set meets, for one reason alone. The limits in the others stay as they
/// are.
fn without_set(kind: Kind, mut step: ChamberStep, rack: Rack, random: &mut Random) -> ChamberStep {
    let fitting: Vec<usize> = (0..CHAMBERS).filter(|&c| (rack.chambers[c] == 0) == (kind == LeastOfNone)).collect();
    let c = if rack.edition == 1 { 0 } else { random.pick(&fitting) };
    let own = dealt(rack.chambers)[c];
    let part = Step::new(step.lower & own, step.upper & own, step.least[c], step.greatest[c], 0);
    let part = part_without_set(kind, part, own, random);
    (step.lower, step.upper) = (step.lower & !own | part.lower, step.upper & !own | part.upper);
    (step.least[c], step.greatest[c]) = (part.least, part.greatest);
    step
}

/// The part of a step in a chamber, likewise.
fn part_without_set(kind: Kind, step: Step, own: u64, random: &mut Random) -> Step {
    let size = |set: u64| set.count_ones() as usize;
    let limits =
        |lower, upper, least: usize, greatest: usize| Step::new(lower, upper, least as u8, greatest as u8, step.tag);
    let first = own & own.wrapping_neg();
    match kind {
        NotWithin => {
            let unit = first << random.below(size(own));
            limits(step.lower | unit, step.upper & !unit, 0, random.low_or_between(64, 255))
        }
        LeastAboveGreatest => {
            let upper = step.upper | first;
            let greatest = random.below(size(upper));
            limits(0, upper, greatest + 1, greatest)
        }
        LowerTooLarge => {
            let (lower, upper) = (step.lower | first, step.upper | first);
            let greatest = random.below(size(lower));
            limits(lower, upper, random.between(0, greatest), greatest)
        }
        _ => {
            let least = random.low_or_between(size(step.upper) + 1, 255);
            limits(step.lower, step.upper, least, random.low_or_between(least, 255))
        }
    }
}

/// Compares a sheet that is read whole.
fn compare_sound(judge: &mut Judge, sound: &Sound) {
    let made = sound.campaign.sheet();
    let made = (made.units, made.bound, made.start, made.chambers, &made.steps[..]);
    let sheet = read(&sound.bytes).unwrap();
    assert_eq!((sheet.units, sheet.bound, sheet.start, sheet.chambers, &sheet.steps[..]), made);
    let mut list = [ChamberStep::default(); STEPS];
    let said = warm::steps(&sound.bytes, &mut list).unwrap();
    let chambers = said.chambers.map(|units| units as usize);
    assert_eq!((said.units as usize, said.bound, said.start, chambers, said.steps), made);
    judge.tally.add("sound", 1);
    let rack = sound.campaign.rack;
    rack.count(&mut judge.tally);
    if rack.edition == 2 {
        judge.tally.add("unused records that are not zero in 26 to 27", sound.unused_with_bytes());
    }
}

/// Compares a sheet that gets that refusal.
fn compare_refused(judge: &mut Judge, bytes: &[u8], refusal: Refusal, what: &[Fault]) {
    let expected = Replies::new(bytes);
    assert_eq!(expected.sheet.as_ref().err(), Some(&refusal), "{what:?}");
    judge.all(bytes, &expected);
}

fn compare_each(seed: u64, edition: u8, racks: Racks) -> Judge {
    let mut judge = Judge::new(seed);
    let mut random = Random::new(seed);
    for _ in 0..2000 {
        let sound = Sound::draw(racks, &mut random);
        compare_sound(&mut judge, &sound);
        for (kind, name) in KINDS {
            for place in sound.places(kind).into_iter().flatten() {
                let fault = Fault { kind, place };
                let mut bytes = sound.bytes.clone();
                let refusal = sound.put(fault, &mut bytes, &mut random);
                compare_refused(&mut judge, &bytes, refusal, &[fault]);
                judge.tally.add(name, 1);
            }
        }
    }
    judge.tally.require(&[("sound", 2000)]);
    for (kind, name) in kinds(edition) {
        judge.tally.require(&[(name, if kind < LinkOut { 1000 } else { 10_000 })]);
    }
    judge
}

#[test]
fn each_fault_at_each_place() {
    let judge = compare_each(36, 1, one_chamber);
    judge.tally.print("each fault at each place");
}

#[test]
fn each_fault_at_each_place_in_chambers() {
    let judge = compare_each(38, 2, some_chambers);
    judge.tally.print("each fault at each place in chambers");
    judge.tally.require(&[("unused records that are not zero in 26 to 27", 10_000)]);
    Rack::require(&judge.tally, 400);
}

/// What two faults are, of which the first is found first.
fn pair(one: Fault, other: Fault) -> &'static str {
    match (one.part(), other.part()) {
        (Part::Header, Part::Header) => "two in the header",
        (Part::Header, Part::Links) => "header and link",
        (Part::Header, Part::Steps) => "header and step",
        (Part::Links, Part::Links) => "two links",
        (Part::Links, _) => "link and step",
        _ if one.place == other.place => "two in one step",
        _ => "two steps",
    }
}

fn compare_two(seed: u64, racks: Racks) -> Judge {
    let mut judge = Judge::new(seed);
    let mut random = Random::new(seed);
    for _ in 0..1000 {
        let sound = Sound::draw(racks, &mut random);
        for (one, _) in KINDS {
            for (other, _) in KINDS {
                let (Some(first), Some(second)) = (sound.any(one, &mut random), sound.any(other, &mut random)) else {
                    continue;
                };
                if first.order() >= second.order() {
                    continue;
                }
                // The later is put first, so that the earlier lies over it.
                let mut bytes = sound.bytes.clone();
                sound.put(second, &mut bytes, &mut random);
                let refusal = sound.put(first, &mut bytes, &mut random);
                compare_refused(&mut judge, &bytes, refusal, &[first, second]);
                judge.tally.add(pair(first, second), 1);
            }
        }
    }
    let pairs = ["two in the header", "header and link", "header and step", "two links", "link and step", "two steps"];
    judge.tally.require(&pairs.map(|pair| (pair, 1000)));
    judge.tally.require(&[("two in one step", 500)]);
    judge
}

#[test]
fn two_faults_at_any_places() {
    let judge = compare_two(37, one_chamber);
    judge.tally.print("two faults at any places");
}

#[test]
fn two_faults_at_any_places_in_chambers() {
    let judge = compare_two(39, some_chambers);
    judge.tally.print("two faults at any places in chambers");
    judge.tally.require_refusals([13, 14], 10_000);
}
