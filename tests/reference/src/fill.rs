//! Filling a population.

use crate::diagram::{form, Diagram, Predicate};
use crate::multiples::multiple;
use crate::sizes::{floors, settle, settle_from, starting};
use crate::{room, Refusal, Settled};

/// A member of a set: the values of its columns at their role's place, 0 in
/// the columns that it does not have.
type Row = [u32; 6];

/// "its values are whole numbers FIRST..LAST"; a subtype counts "from the
/// FIRST of its root".
fn first(d: &Diagram, mut kind: usize) -> u32 {
    while d.types[kind].over != 0 {
        kind = d.types[kind].over as usize - 1;
    }
    d.types[kind].first
}

/// The greatest common divisor of two numbers from 1.
fn gcd(a: usize, b: usize) -> usize {
    if b == 0 {
        a
    } else {
        gcd(b, a % b)
    }
}

/// "Pairing uses the table where both sizes are 1 to 64, and gives for all sizes
/// the pairs it gave" (document 02, S-12).
fn lcm(a: usize, b: usize) -> usize {
    multiple(a, b).unwrap_or_else(|| a / gcd(a, b) * b)
}

/// "pair i, from 0, is member i mod |S| of S and member (i + floor(i / lcm))
/// mod |T| of T, lcm of the two sizes"; "keeping the smaller of the count
/// wanted and |S| times |T|". The members of each pair by their index.
pub fn pairs(s: usize, t: usize, wanted: usize) -> impl Iterator<Item = (usize, usize)> {
    let lcm = lcm(s, t);
    (0..wanted.min(s * t)).map(move |i| (i % s, (i + i / lcm) % t))
}

fn pair(s: &[Row], t: &[Row], wanted: usize) -> Vec<Row> {
    let join = |(i, j): (usize, usize)| -> Row {
        let (left, right) = (s[i], t[j]);
        std::array::from_fn(|column| left[column] | right[column])
    };
    pairs(s.len(), t.len(), wanted).map(join).collect()
}

/// "Three or more sets pair from the left"; "a single set is taken as it is".
fn pair_all(sets: Vec<Vec<Row>>, wanted: usize) -> Vec<Row> {
    let mut sets = sets.into_iter();
    let left = sets.next().unwrap_or_default();
    sets.fold(left, |left, right| pair(&left, &right, wanted))
}

/// "A group pairs its roles to q; a predicate pairs its groups, then its
/// ungrouped roles, to r; each kind in file order".
fn rows(pred: &Predicate, roles: Vec<Vec<Row>>, q: &[u32], r: u32) -> Vec<Row> {
    let of = |group: u32| -> Vec<Vec<Row>> {
        let named = pred.roles.iter().zip(&roles);
        named
            .filter(|(role, _)| role.group == group)
            .map(|(_, members)| members.clone())
            .collect()
    };
    let mut sets = Vec::new();
    for (g, size) in (1..).zip(q) {
        sets.push(pair_all(of(g), *size as usize));
    }
    sets.extend(of(0));
    pair_all(sets, r as usize)
}

/// "per type, its size and values; per predicate, its size and rows".
fn length(d: &Diagram, sizes: &[u32]) -> usize {
    let widths = d.types.iter().map(|_| 1);
    let widths = widths.chain(d.preds.iter().map(|p| p.roles.len()));
    let cells = sizes.iter().zip(widths).map(|(n, w)| 1 + *n as usize * w);
    cells.sum()
}

/// "the fill the cells"; "Then 7 (check and fill only), then 8".
pub fn populate(table: &[u32], cells: &mut [u32]) -> Result<Settled, Refusal> {
    let d = form(table)?;
    let (rounds, sizes) = settle(&d)?;
    let length = fill(&d, &sizes, cells)?;
    Ok(Settled { rounds, length })
}

/// "Given a set number and a wanted size, produce a population .. in which that
/// set has just that size, the others as large as they can then be, or say that
/// none exists" (document 02, S-1). Refusals 1 to 6; 10 "set number 0 or past
/// the last, after 6, its place that number"; 11 "in place of 7 and with the set
/// and round that 7 would carry"; then 8.
pub fn prescribe(
    table: &[u32],
    set: u32,
    wanted: u32,
    cells: &mut [u32],
) -> Result<Settled, Refusal> {
    let d = form(table)?;
    if set == 0 || set as usize > d.count_sets() {
        return Err(Refusal::at(10, u64::from(set)));
    }
    let (rounds, sizes) = settle_with(&d, set as usize - 1, wanted)?;
    let length = fill(&d, &sizes, cells)?;
    Ok(Settled { rounds, length })
}

/// "Before the rounds the set's floor becomes the larger of itself and the
/// wanted size, and its starting ceiling the smaller" (document 02, S-1). Rounds
/// and sizes with the set of this index so.
fn settle_with(d: &Diagram, set: usize, wanted: u32) -> Result<(u64, Vec<u32>), Refusal> {
    let (mut floors, mut ceilings) = (floors(d), starting(d));
    floors[set] = floors[set].max(wanted);
    ceilings[set] = ceilings[set].min(wanted);
    let impossible = |emptied: Refusal| Refusal {
        number: 11,
        ..emptied
    };
    settle_from(d, &floors, ceilings).map_err(impossible)
}

/// The population with these settled sizes, or 8; its length.
fn fill(d: &Diagram, sizes: &[u32], cells: &mut [u32]) -> Result<usize, Refusal> {
    let length = length(d, sizes);
    room(length, cells)?;
    let (a, rest) = sizes.split_at(d.types.len());
    let (r, rest) = rest.split_at(d.preds.len());
    let (mut p, mut q) = rest.split_at(d.count_roles());
    let mut at = 0;
    let mut put = |value: u32| {
        cells[at] = value;
        at += 1;
    };
    // "Type: the first a values from the FIRST of its root."
    for (kind, size) in a.iter().enumerate() {
        put(*size);
        (0..*size).for_each(|i| put(first(d, kind) + i));
    }
    // "Roles of one type, in file order, take its members onward from where
    // the previous role stopped, around to the first again."
    let mut stopped = [0; 32];
    for (pred, size) in d.preds.iter().zip(r) {
        let mut roles = Vec::new();
        for (column, role) in pred.roles.iter().enumerate() {
            let kind = role.kind as usize - 1;
            let mut members = Vec::new();
            for _ in 0..p[0] {
                let mut row = [0; 6];
                row[column] = first(d, kind) + stopped[kind];
                members.push(row);
                stopped[kind] = (stopped[kind] + 1) % a[kind];
            }
            roles.push(members);
            p = &p[1..];
        }
        let (own, others) = q.split_at(pred.groups.len());
        q = others;
        // "Columns stand in role order, in cells and in print."
        put(*size);
        for row in rows(pred, roles, own, *size) {
            row[..pred.roles.len()].iter().for_each(|value| put(*value));
        }
    }
    Ok(length)
}
