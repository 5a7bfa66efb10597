//! The average use of a group's combinations (document 02, S-14).

use crate::diagram::{form, Diagram};
use crate::sizes::settle;
use crate::Refusal;

/// "a whole number where it divides evenly, otherwise the 64-bit float from one
/// division of the two sizes (IEEE 754, nearest even)" (document 02, S-14).
#[derive(Clone, Copy, Debug, PartialEq)]
pub enum Average {
    Whole(u32),
    Float(f64),
}

/// "For each group give r divided by q, both as settled" (document 02, S-14).
/// Refusals 1 to 6; "a number of no group is 10, after 6, its place that number;
/// then 7".
pub fn average(table: &[u32], set: u32) -> Result<Average, Refusal> {
    let d = form(table)?;
    let Some(r) = predicate_of(&d, set) else {
        return Err(Refusal::at(10, u64::from(set)));
    };
    let (_, sizes) = settle(&d)?;
    Ok(divide(sizes[r], sizes[set as usize - 1]))
}

/// The set, by its index from 0, of the predicate whose group has this number.
fn predicate_of(d: &Diagram, number: u32) -> Option<usize> {
    // The groups are the last sets, those of each predicate in turn.
    let others = d.count_sets() - d.count_groups();
    let group = (number as usize).checked_sub(others + 1)?;
    let preds = (d.types.len()..).zip(&d.preds);
    let mut owners = preds.flat_map(|(r, pred)| pred.groups.iter().map(move |_| r));
    owners.nth(group)
}

/// Settled sizes are from 1 to 4096, so that each of them is a float exactly.
fn divide(r: u32, q: u32) -> Average {
    match r % q {
        0 => Average::Whole(r / q),
        _ => Average::Float(f64::from(r) / f64::from(q)),
    }
}
