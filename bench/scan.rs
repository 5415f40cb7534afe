// The plan by a scan that looks at one step after the other, for comparison: the library passes sixteen steps at a time where it can, and this is
// the measure of what that gains. The sheet is read as in plain.rs, and the plan is the same.
#![forbid(unsafe_code)]
use crate::library::Reply;
use crate::plain::{plan_reply, refused, Columns};

// The k units of a set that go first on a tie, which are its highest, or its k lowest.
fn by_tie(mut rest: u64, k: u32, last: bool) -> u64 {
    let mut found = 0;
    for _ in 0..k {
        let u = if last { rest.trailing_zeros() } else { 63 - rest.leading_zeros() };
        found |= 1 << u;
        rest &= !(1 << u);
    }
    found
}

// The k units of a set that go first in the ranking of the given steps, or last.
fn by_rank(lower: &[u64], upper: &[u64], set: u64, k: u32, last: bool) -> u64 {
    let (mut found, mut rest, mut left) = (0, set, k);
    for (&lower, &upper) in lower.iter().zip(upper) {
        let far = rest & upper & !lower;
        let required = rest & upper & lower;
        let forbidden = rest & !upper;
        let (first, end) = if last { (forbidden, required) } else { (required, forbidden) };
        let many = first.count_ones();
        if left <= many {
            return found | by_tie(first, left, last);
        }
        left -= many;
        found |= first;
        let others = far.count_ones();
        if others < left {
            return found | far | by_tie(end, left - others, last);
        }
        rest = far;
    }
    found | by_tie(rest, left, last)
}

// What is on in the first of the given steps, where `before` was on.
fn step_set(lower: &[u64], upper: &[u64], least: u8, greatest: u8, before: u64) -> u64 {
    let (must, may) = (lower[0], upper[0]);
    let begun = before & may | must;
    let (many, fewest, most) = (begun.count_ones(), least as u32, greatest as u32);
    if many > most {
        begun & !by_rank(lower, upper, begun & !must, many - most, true)
    } else if many < fewest {
        begun | by_rank(lower, upper, may & !begun, fewest - many, false)
    } else {
        begun
    }
}

// Joins the plan of a chamber, with these units on before the first step, to what the output holds, and gives its total.
fn join_plan(c: &Columns, start: u64, out: &mut [u64]) -> u32 {
    let n = out.len();
    let (lower, upper) = (&c.lower[..n], &c.upper[..n]);
    let (mut before, mut total) = (start, 0);
    for i in 0..n {
        let set = step_set(&lower[i..], &upper[i..], c.least[i], c.greatest[i], before);
        total += (set & !before).count_ones();
        out[i] |= set;
        before = set;
    }
    total
}

#[inline(never)]
pub fn plan(sheet: &[u8], out: &mut [u64]) -> Reply {
    plan_reply(sheet, out, join_plan).unwrap_or_else(refused)
}
