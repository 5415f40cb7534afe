// The seven entries in plain Rust: the same checks, walks, choices and replies as the library, for comparison. docs/FORMAT.md has the sheet,
// the refusals and the planner. A chamber is planned by itself, and the parts are joined. The chart is in plain_chart.rs; it uses the columns of the
// plan. scan.rs has another way to make a plan.
#![forbid(unsafe_code)]
use crate::library::{ChamberStep, Reply, Step, StepsReply, Written, BYTES, CHAMBERS, STEPS};
use crate::plain_chart;

pub struct Refusal(u32, u32);

// What a sheet says, but for its steps.
pub struct Summary {
    pub n: usize,
    pub units: u32,
    pub sizes: [u8; CHAMBERS],
    pub bound: u32,
    pub start: u64,
}

// The steps of a chamber, with the sizes of the chamber's feasible sets in the place of its two numbers.
pub struct Columns {
    pub lower: [u64; STEPS],
    pub upper: [u64; STEPS],
    pub least: [u8; STEPS],
    pub greatest: [u8; STEPS],
}

// A chamber that has units: its number from 0, and its units.
#[derive(Clone, Copy)]
struct Chamber {
    number: usize,
    units: u64,
}

// ---- the sheet: each walk along the chain is made for one edition

fn u16_at(s: &[u8], at: usize) -> usize {
    u16::from_le_bytes(s[at..at + 2].try_into().unwrap()) as usize
}

fn u32_at(s: &[u8], at: usize) -> u32 {
    u32::from_le_bytes(s[at..at + 4].try_into().unwrap())
}

fn u64_at(s: &[u8], at: usize) -> u64 {
    u64::from_le_bytes(s[at..at + 8].try_into().unwrap())
}

const fn record_size(edition: u8) -> usize {
    if edition == 1 {
        24
    } else {
        32
    }
}

fn record<const EDITION: u8>(s: &[u8], j: usize) -> &[u8] {
    let size = record_size(EDITION);
    let at = 24 + size * (j - 1);
    &s[at..at + size]
}

// The number of the record after record j, or of the first one where j is 0.
fn follow<const EDITION: u8>(s: &[u8], j: usize) -> usize {
    let next = if EDITION == 1 { 18 } else { 24 };
    u16_at(s, if j == 0 { 8 } else { 24 + record_size(EDITION) * (j - 1) + next })
}

// The least and the greatest number of a chamber.
fn counts<const EDITION: u8>(record: &[u8], chamber: usize) -> (u8, u8) {
    if EDITION == 1 {
        (record[16], record[17])
    } else {
        (record[16 + chamber], record[20 + chamber])
    }
}

fn step_in<const EDITION: u8>(record: &[u8]) -> ChamberStep {
    let (lower, upper) = (u64_at(record, 0), u64_at(record, 8));
    let (least, greatest, tag) = if EDITION == 1 {
        ([record[16], 0, 0, 0], [record[17], 0, 0, 0], u32_at(record, 20))
    } else {
        (u32_at(record, 16).to_le_bytes(), u32_at(record, 20).to_le_bytes(), u32_at(record, 28))
    };
    ChamberStep { lower, upper, least, greatest, tag, reserved: 0 }
}

fn has_unit_from(set: u64, d: u32) -> bool {
    d < 64 && set >> d != 0
}

fn units_below(d: u32) -> u64 {
    u64::MAX.checked_shr(64 - d).unwrap_or(0)
}

// The units of each chamber, dealt out in order.
fn dealt(sizes: [u8; CHAMBERS]) -> [u64; CHAMBERS] {
    let mut first = 0;
    sizes.map(|size| {
        let before = units_below(first);
        first += size as u32;
        units_below(first) & !before
    })
}

// The chambers that have units.
fn chambers(sizes: [u8; CHAMBERS]) -> impl Iterator<Item = Chamber> {
    dealt(sizes).into_iter().enumerate().filter(|&(_, units)| units != 0).map(|(number, units)| Chamber { number, units })
}

// The least and the greatest number of a chamber's units in its part of a feasible set; there is none if the first is above the second.
fn feasible_sizes(lower: u64, upper: u64, (least, greatest): (u8, u8)) -> (u8, u8) {
    (least.max(lower.count_ones() as u8), greatest.min(upper.count_ones() as u8))
}

// The sizes of the chambers: in edition 1 all units are in the first.
fn sizes(s: &[u8]) -> [u8; CHAMBERS] {
    if s[4] == 1 {
        [s[5], 0, 0, 0]
    } else {
        u32_at(s, 12).to_le_bytes()
    }
}

// Refusals 1 to 3 and 13.
fn check_header(s: &[u8]) -> Result<(), Refusal> {
    if s.len() < 24 || s.len() > BYTES {
        return Err(Refusal(1, 0));
    }
    if &s[0..4] != b"WARM" {
        return Err(Refusal(2, 0));
    }
    if s[4] != 1 && s[4] != 2 {
        return Err(Refusal(2, 4));
    }
    let (units, records) = (s[5] as u32, u16_at(s, 6));
    if units == 0 || units > 64 {
        return Err(Refusal(3, 5));
    }
    if records > STEPS {
        return Err(Refusal(3, 6));
    }
    if s[4] == 1 && u32_at(s, 12) != 0 {
        return Err(Refusal(3, 12));
    }
    if sizes(s).iter().map(|&size| size as u32).sum::<u32>() != units {
        return Err(Refusal(13, 12));
    }
    if has_unit_from(u64_at(s, 16), units) {
        return Err(Refusal(3, 16));
    }
    if s.len() != 24 + record_size(s[4]) * records {
        return Err(Refusal(3, 24));
    }
    Ok(())
}

// Refusals 4 and 5, or how many records are on the chain.
fn walk<const EDITION: u8>(s: &[u8], records: usize) -> Result<usize, Refusal> {
    let mut marks = [0u64; 4];
    let (mut at, mut n) = (0, 0);
    loop {
        let next = follow::<EDITION>(s, at);
        if next == 0 {
            return Ok(n);
        }
        if next > records {
            return Err(Refusal(4, at as u32));
        }
        let (word, bit) = ((next - 1) / 64, 1u64 << ((next - 1) % 64));
        if marks[word] & bit != 0 {
            return Err(Refusal(5, at as u32));
        }
        marks[word] |= bit;
        at = next;
        n += 1;
    }
}

// Refusals 14, 6 and 7.
fn check_steps<const EDITION: u8>(s: &[u8], n: usize, units: u32) -> Result<(), Refusal> {
    let chambers = dealt(sizes(s));
    let with_units = if EDITION == 1 { 1 } else { CHAMBERS };
    let mut at = 0;
    for i in 1..=n as u32 {
        at = follow::<EDITION>(s, at);
        let record = record::<EDITION>(s, at);
        if EDITION == 2 && u16_at(record, 26) != 0 {
            return Err(Refusal(14, i));
        }
        let (lower, upper) = (u64_at(record, 0), u64_at(record, 8));
        if has_unit_from(upper, units) {
            return Err(Refusal(6, i));
        }
        // of an empty chamber, too: it has no unit for a least number
        let fits = |c: usize| {
            let (few, many) = feasible_sizes(lower & chambers[c], upper & chambers[c], counts::<EDITION>(record, c));
            few <= many
        };
        if lower & !upper != 0 || !(0..with_units).all(fits) {
            return Err(Refusal(7, i));
        }
    }
    Ok(())
}

fn read_chain<const EDITION: u8>(s: &[u8]) -> Result<Summary, Refusal> {
    let units = s[5] as u32;
    let n = walk::<EDITION>(s, u16_at(s, 6))?;
    check_steps::<EDITION>(s, n, units)?;
    Ok(Summary { n, units, sizes: sizes(s), bound: u16_at(s, 10) as u32, start: u64_at(s, 16) })
}

fn read(s: &[u8]) -> Result<Summary, Refusal> {
    check_header(s)?;
    if s[4] == 1 {
        read_chain::<1>(s)
    } else {
        read_chain::<2>(s)
    }
}

// A chamber's part of the steps of a sheet that was read, as columns.
fn decoded<const EDITION: u8>(s: &[u8], n: usize, chamber: Chamber) -> Columns {
    let mut c = Columns { lower: [0; STEPS], upper: [0; STEPS], least: [0; STEPS], greatest: [0; STEPS] };
    let mut at = 0;
    for i in 0..n {
        at = follow::<EDITION>(s, at);
        let record = record::<EDITION>(s, at);
        let (lower, upper) = (u64_at(record, 0) & chamber.units, u64_at(record, 8) & chamber.units);
        c.lower[i] = lower;
        c.upper[i] = upper;
        (c.least[i], c.greatest[i]) = feasible_sizes(lower, upper, counts::<EDITION>(record, chamber.number));
    }
    c
}

fn columns(s: &[u8], n: usize, chamber: Chamber) -> Columns {
    if s[4] == 1 {
        decoded::<1>(s, n, chamber)
    } else {
        decoded::<2>(s, n, chamber)
    }
}

// ---- the planner

// The steps in a block.
const BLOCK: usize = 16;

// Steps on end, taken as one step: the units that some step requires, and those that no step forbids before one requires them. `next` is the
// step after them.
struct Stretch {
    lower: u64,
    upper: u64,
    next: usize,
}

// What has been found of the first units of a set, and how many are left to find in the rest.
struct Pick {
    found: u64,
    rest: u64,
    left: u32,
}

// The sets of the steps, and those of each block of sixteen steps.
struct Sets<'a> {
    lower: &'a [u64],
    upper: &'a [u64],
    block_lower: [u64; STEPS / BLOCK],
    block_upper: [u64; STEPS / BLOCK],
}

// A set without the k units that go first on a tie, which are its highest, or without its k lowest.
fn cleared(mut set: u64, k: u32, last: bool) -> u64 {
    for _ in 0..k {
        let u = if last { set.trailing_zeros() } else { 63 - set.leading_zeros() };
        set &= !(1 << u);
    }
    set
}

// The k units of a set that go first on a tie, or last. They are cleared, or the others are: whichever are fewer.
fn by_tie(set: u64, k: u32, last: bool) -> u64 {
    let others = set.count_ones() - k;
    if k < others {
        set & !cleared(set, k, last)
    } else {
        cleared(set, others, !last)
    }
}

// The units that these sets neither require nor forbid.
fn undecided(lower: u64, upper: u64, rest: u64) -> u64 {
    rest & upper & !lower
}

// The units that these sets forbid, or those that they require.
fn group(lower: u64, upper: u64, rest: u64, forbids: bool) -> u64 {
    if forbids {
        rest & !upper
    } else {
        rest & upper & lower
    }
}

// Whether the `left` units that go first are the whole group that goes first and, beyond it, only undecided units.
fn can_pass(lower: u64, upper: u64, rest: u64, left: u32, last: bool) -> bool {
    let later = undecided(lower, upper, rest);
    if later == rest {
        return true;
    }
    let many = group(lower, upper, rest, last).count_ones();
    if left < many {
        return false;
    }
    left - many <= later.count_ones()
}

// Of the `left` units that go first: those that these sets decide.
fn look(lower: u64, upper: u64, rest: u64, left: u32, last: bool) -> Pick {
    let later = undecided(lower, upper, rest);
    if later == rest {
        return Pick { found: 0, rest, left };
    }
    let first = group(lower, upper, rest, last);
    let many = first.count_ones();
    if left <= many {
        return Pick { found: by_tie(first, left, last), rest: 0, left: 0 };
    }
    let (after, others) = (left - many, later.count_ones());
    if others <= after {
        let end = group(lower, upper, rest, !last);
        return Pick { found: first | later | by_tie(end, after - others, last), rest: 0, left: 0 };
    }
    Pick { found: first, rest: later, left: after }
}

impl Sets<'_> {
    // With the sets of the blocks.
    fn new<'a>(lower: &'a [u64], upper: &'a [u64]) -> Sets<'a> {
        let mut sets = Sets { lower, upper, block_lower: [0; STEPS / BLOCK], block_upper: [0; STEPS / BLOCK] };
        for q in 0..lower.len().div_ceil(BLOCK) {
            let block = sets.stretch(BLOCK * q, sets.end(q));
            sets.block_lower[q] = block.lower;
            sets.block_upper[q] = block.upper;
        }
        sets
    }

    // The step after block q.
    fn end(&self, q: usize) -> usize {
        self.lower.len().min(BLOCK * q + BLOCK)
    }

    // The steps of a range, from the last to the first.
    fn stretch(&self, from: usize, to: usize) -> Stretch {
        let (mut lower, mut upper) = (0, u64::MAX);
        for j in (from..to).rev() {
            upper = self.upper[j] & (self.lower[j] | upper);
            lower |= self.lower[j];
        }
        Stretch { lower, upper, next: to }
    }

    // The block that begins at j if it can be passed as a whole, or else the step at j.
    fn at(&self, j: usize, rest: u64, left: u32, last: bool) -> Stretch {
        if j % BLOCK == 0 {
            let q = j / BLOCK;
            let (lower, upper) = (self.block_lower[q], self.block_upper[q]);
            if can_pass(lower, upper, rest, left, last) {
                return Stretch { lower, upper, next: self.end(q) };
            }
        }
        Stretch { lower: self.lower[j], upper: self.upper[j], next: j + 1 }
    }

    // The k units of a set that go first in the ranking of the steps from the given one on, or last.
    fn by_rank(&self, from: usize, set: u64, k: u32, last: bool) -> u64 {
        let (mut found, mut rest, mut left, mut j) = (0, set, k, from);
        while left > 0 {
            if j == self.lower.len() {
                return found | by_tie(rest, left, last);
            }
            let s = self.at(j, rest, left, last);
            let pick = look(s.lower, s.upper, rest, left, last);
            found |= pick.found;
            rest = pick.rest;
            left = pick.left;
            j = s.next;
        }
        found
    }

    // What is on in step i, where `before` was on.
    fn step_set(&self, i: usize, least: u8, greatest: u8, before: u64) -> u64 {
        let (must, may) = (self.lower[i], self.upper[i]);
        let begun = before & may | must;
        let (many, fewest, most) = (begun.count_ones(), least as u32, greatest as u32);
        if many > most {
            begun & !self.by_rank(i, begun & !must, many - most, true)
        } else if many < fewest {
            begun | self.by_rank(i, may & !begun, fewest - many, false)
        } else {
            begun
        }
    }
}

// Joins the plan of a chamber, with these units on before the first step, to what the output holds, and gives its total.
fn join_plan(c: &Columns, start: u64, out: &mut [u64]) -> u32 {
    let n = out.len();
    let sets = Sets::new(&c.lower[..n], &c.upper[..n]);
    let (mut before, mut total) = (start, 0);
    for i in 0..n {
        let set = sets.step_set(i, c.least[i], c.greatest[i], before);
        total += (set & !before).count_ones();
        out[i] |= set;
        before = set;
    }
    total
}

// Whether a set is feasible in the step of a record.
fn allows<const EDITION: u8>(record: &[u8], chambers: &[u64; CHAMBERS], set: u64) -> bool {
    let within = |c: usize| {
        let (least, greatest) = counts::<EDITION>(record, c);
        (least as u32..=greatest as u32).contains(&(set & chambers[c]).count_ones())
    };
    let with_units = if EDITION == 1 { 1 } else { CHAMBERS };
    u64_at(record, 0) & !set == 0 && set & !u64_at(record, 8) == 0 && (0..with_units).all(within)
}

// Whether all sets of a plan are feasible, and its total.
fn judged<const EDITION: u8>(s: &[u8], x: &Summary, plan: &[u64]) -> (bool, u32) {
    let chambers = dealt(x.sizes);
    let (mut at, mut before, mut total, mut feasible) = (0, x.start, 0, true);
    for &set in plan {
        at = follow::<EDITION>(s, at);
        feasible &= allows::<EDITION>(record::<EDITION>(s, at), &chambers, set);
        total += (set & !before).count_ones();
        before = set;
    }
    (feasible, total)
}

// ---- the entries

fn list_steps<const EDITION: u8>(sheet: &[u8], list: &mut [ChamberStep]) {
    let mut at = 0;
    for step in list {
        at = follow::<EDITION>(sheet, at);
        *step = step_in::<EDITION>(record::<EDITION>(sheet, at));
    }
}

fn steps_reply(sheet: &[u8], list: &mut [ChamberStep]) -> Result<StepsReply, Refusal> {
    let x = read(sheet)?;
    if list.len() < x.n {
        return Err(Refusal(8, x.n as u32));
    }
    if sheet[4] == 1 {
        list_steps::<1>(sheet, &mut list[..x.n]);
    } else {
        list_steps::<2>(sheet, &mut list[..x.n]);
    }
    let chambers = x.sizes.map(|size| size as u32);
    Ok(StepsReply { units: x.units, steps: x.n as u32, bound: x.bound, start: x.start, chambers, ..Default::default() })
}

// Joins the plans of all chambers, by `join`, and gives their total.
fn join_plans(sheet: &[u8], x: &Summary, out: &mut [u64], join: impl Fn(&Columns, u64, &mut [u64]) -> u32) -> u32 {
    chambers(x.sizes).map(|chamber| join(&columns(sheet, x.n, chamber), x.start & chamber.units, &mut out[..x.n])).sum()
}

// The reply with the plan whose parts `join` makes.
pub fn plan_reply(sheet: &[u8], out: &mut [u64], join: impl Fn(&Columns, u64, &mut [u64]) -> u32) -> Result<Reply, Refusal> {
    let x = read(sheet)?;
    if out.len() < x.n {
        return Err(Refusal(8, x.n as u32));
    }
    let mut sets = [0; STEPS];
    let total = join_plans(sheet, &x, &mut sets, join);
    if total > x.bound {
        return Err(Refusal(9, total));
    }
    out[..x.n].copy_from_slice(&sets[..x.n]);
    Ok(Reply { total, ..Default::default() })
}

fn verdict_reply(sheet: &[u8], plan: &[u64]) -> Result<Reply, Refusal> {
    let x = read(sheet)?;
    if plan.len() != x.n {
        return Err(Refusal(10, x.n as u32));
    }
    let (feasible, total) = if sheet[4] == 1 { judged::<1>(sheet, &x, plan) } else { judged::<2>(sheet, &x, plan) };
    Ok(Reply { total, accepted: (feasible && total <= x.bound) as u32, ..Default::default() })
}

fn chart_reply(sheet: &[u8], on: &mut [u64], off: &mut [u64]) -> Result<Reply, Refusal> {
    let x = read(sheet)?;
    if on.len() < x.n || off.len() < x.n {
        return Err(Refusal(8, x.n as u32));
    }
    let mut sets = [0; STEPS];
    let total = join_plans(sheet, &x, &mut sets, join_plan);
    if total > x.bound {
        return Err(Refusal(9, total));
    }
    let (on, off) = (&mut on[..x.n], &mut off[..x.n]);
    on.fill(0);
    off.fill(0);
    for chamber in chambers(x.sizes) {
        let part = sets.map(|set| set & chamber.units);
        let planned = plain_chart::Planned { columns: &columns(sheet, x.n, chamber), start: x.start & chamber.units, plan: &part[..x.n] };
        plain_chart::join(&planned, x.bound - total, chamber.units, on, off);
    }
    Ok(Reply { total, ..Default::default() })
}

// The sheet of these steps, into the first bytes of the output.
fn written(units: u8, bound: u16, start: u64, steps: &[Step], out: &mut [u8]) -> Result<Written, Refusal> {
    let n = steps.len();
    if units == 0 || units > 64 || has_unit_from(start, units as u32) || n > STEPS {
        return Err(Refusal(11, 0));
    }
    let length = 24 * (n + 1);
    if out.len() < length {
        return Err(Refusal(12, length as u32));
    }
    let (header, records) = out[..length].split_at_mut(24);
    header[0..4].copy_from_slice(b"WARM");
    header[4] = 1;
    header[5] = units;
    header[6..8].copy_from_slice(&(n as u16).to_le_bytes());
    header[8..10].copy_from_slice(&((n > 0) as u16).to_le_bytes());
    header[10..12].copy_from_slice(&bound.to_le_bytes());
    header[12..16].fill(0);
    header[16..24].copy_from_slice(&start.to_le_bytes());
    // by its place: a walk along pairs of records and steps takes about twice the time
    for (i, step) in steps.iter().enumerate() {
        let record = &mut records[24 * i..24 * i + 24];
        let next = if i + 1 < n { i as u16 + 2 } else { 0 };
        record[0..8].copy_from_slice(&step.lower.to_le_bytes());
        record[8..16].copy_from_slice(&step.upper.to_le_bytes());
        record[16] = step.least;
        record[17] = step.greatest;
        record[18..20].copy_from_slice(&next.to_le_bytes());
        record[20..24].copy_from_slice(&step.tag.to_le_bytes());
    }
    Ok(Written { length: length as u32, ..Default::default() })
}

// A record of the other edition, in this one.
fn convert_record<const EDITION: u8>(from: &[u8], to: &mut [u8]) {
    to[0..16].copy_from_slice(&from[0..16]);
    if EDITION == 1 {
        to[16] = from[16];
        to[17] = from[20];
        to[18..20].copy_from_slice(&from[24..26]);
        to[20..24].copy_from_slice(&from[28..32]);
    } else {
        to[16..20].copy_from_slice(&(from[16] as u32).to_le_bytes());
        to[20..24].copy_from_slice(&(from[17] as u32).to_le_bytes());
        to[24..28].copy_from_slice(&(u16_at(from, 18) as u32).to_le_bytes());
        to[28..32].copy_from_slice(&from[20..24]);
    }
}

// The sheet in this edition, into the first bytes of the output.
fn converted<const EDITION: u8>(sheet: &[u8], out: &mut [u8]) -> Result<Written, Refusal> {
    let x = read(sheet)?;
    if EDITION == 1 && (x.sizes[0] as u32) < x.units {
        return Err(Refusal(15, 12));
    }
    let records = u16_at(sheet, 6);
    let (size, other) = (record_size(EDITION), record_size(3 - EDITION));
    let length = 24 + size * records;
    if out.len() < length {
        return Err(Refusal(8, length as u32));
    }
    let out = &mut out[..length];
    if sheet[4] == EDITION {
        out.copy_from_slice(sheet);
    } else {
        out[0..24].copy_from_slice(&sheet[0..24]);
        out[4] = EDITION;
        out[12..16].copy_from_slice(&if EDITION == 1 { [0; 4] } else { [sheet[5], 0, 0, 0] });
        for (from, to) in sheet[24..].chunks_exact(other).zip(out[24..].chunks_exact_mut(size)) {
            convert_record::<EDITION>(from, to);
        }
    }
    Ok(Written { length: length as u32, ..Default::default() })
}

pub fn refused(Refusal(refusal, place): Refusal) -> Reply {
    Reply { refusal, place, ..Default::default() }
}

#[inline(never)]
pub fn steps(sheet: &[u8], list: &mut [ChamberStep]) -> StepsReply {
    steps_reply(sheet, list).unwrap_or_else(|Refusal(refusal, place)| StepsReply { refusal, place, ..Default::default() })
}

#[inline(never)]
pub fn plan(sheet: &[u8], out: &mut [u64]) -> Reply {
    plan_reply(sheet, out, join_plan).unwrap_or_else(refused)
}

#[inline(never)]
pub fn verdict(sheet: &[u8], plan: &[u64]) -> Reply {
    verdict_reply(sheet, plan).unwrap_or_else(refused)
}

#[inline(never)]
pub fn chart(sheet: &[u8], on: &mut [u64], off: &mut [u64]) -> Reply {
    chart_reply(sheet, on, off).unwrap_or_else(refused)
}

fn not_written(Refusal(refusal, place): Refusal) -> Written {
    Written { refusal, place, ..Default::default() }
}

#[inline(never)]
pub fn write(units: u8, bound: u16, start: u64, steps: &[Step], out: &mut [u8]) -> Written {
    written(units, bound, start, steps, out).unwrap_or_else(not_written)
}

#[inline(never)]
pub fn to_edition_1(sheet: &[u8], out: &mut [u8]) -> Written {
    converted::<1>(sheet, out).unwrap_or_else(not_written)
}

#[inline(never)]
pub fn to_edition_2(sheet: &[u8], out: &mut [u8]) -> Written {
    converted::<2>(sheet, out).unwrap_or_else(not_written)
}
