//! Validating a population: the constraints K1 to K11.

use crate::diagram::{form, Diagram, Predicate};
use crate::Refusal;

/// "the lowest broken K with the lowest number that breaks it"; 0, 0 where none
/// is broken.
#[derive(Clone, Copy, Debug, PartialEq, Eq)]
pub struct Verdict {
    pub constraint: u32,
    pub number: u32,
}

/// A population cut by its own size cells, and its values in order.
struct Population<'a> {
    /// For each type its values, in rising order.
    values: Vec<Vec<u32>>,
    /// For each predicate its rows.
    rows: Vec<Vec<&'a [u32]>>,
    /// For each predicate and role the role's members, in rising order: "a
    /// role's members are the different values in its column".
    members: Vec<Vec<Vec<u32>>>,
}

/// 9: "cells end early or run on"; "Cells that end early are placed at their
/// count, surplus ones at the first of them."
fn cut<'a>(d: &Diagram, cells: &'a [u32]) -> Result<Population<'a>, Refusal> {
    let refusal = |place: usize| Refusal::at(9, place as u64);
    let mut rest = cells;
    let mut part = |width: usize| -> Result<&'a [u32], Refusal> {
        let early = refusal(cells.len());
        let (size, tail) = rest.split_first().ok_or(early)?;
        let length = (*size as usize).checked_mul(width).ok_or(early)?;
        let (own, tail) = tail.split_at_checked(length).ok_or(early)?;
        rest = tail;
        Ok(own)
    };
    let mut values = Vec::new();
    for _ in &d.types {
        let mut own = part(1)?.to_vec();
        own.sort_unstable();
        values.push(own);
    }
    let mut rows: Vec<Vec<&[u32]>> = Vec::new();
    for pred in &d.preds {
        let width = pred.roles.len();
        rows.push(part(width)?.chunks_exact(width).collect());
    }
    if !rest.is_empty() {
        return Err(refusal(cells.len() - rest.len()));
    }
    let mut members = Vec::new();
    for (pred, rows) in d.preds.iter().zip(&rows) {
        let column = |c: usize| {
            let mut column: Vec<u32> = rows.iter().map(|row| row[c]).collect();
            column.sort_unstable();
            column.dedup();
            column
        };
        members.push((0..pred.roles.len()).map(column).collect());
    }
    Ok(Population {
        values,
        rows,
        members,
    })
}

/// Whether every value of one list is in another, which is in rising order.
fn within(values: &[u32], others: &[u32]) -> bool {
    values.iter().all(|v| others.binary_search(v).is_ok())
}

/// The numbers of times that each different item occurs.
fn occurrences<T: Ord>(mut items: Vec<T>) -> Vec<usize> {
    items.sort_unstable();
    items.chunk_by(|a, b| a == b).map(<[T]>::len).collect()
}

/// What a row holds in the columns of a group of its predicate, 0 elsewhere.
fn combination(pred: &Predicate, group: u32, row: &[u32]) -> [u32; 6] {
    let in_group = |c: usize| pred.roles.get(c).is_some_and(|role| role.group == group);
    std::array::from_fn(|c| if in_group(c) { row[c] } else { 0 })
}

/// The sizes of all sets of a population, in set order: "A type or predicate has
/// the size its size cell says; a role's members are the different values in its
/// column, a group's the different combinations in its columns." Refusal 9.
pub fn found(d: &Diagram, cells: &[u32]) -> Result<Vec<usize>, Refusal> {
    let population = cut(d, cells)?;
    let mut sizes: Vec<usize> = population.values.iter().map(Vec::len).collect();
    sizes.extend(population.rows.iter().map(Vec::len));
    sizes.extend(population.members.iter().flatten().map(Vec::len));
    for (pred, rows) in d.preds.iter().zip(&population.rows) {
        for (g, _) in (1..).zip(&pred.groups) {
            let all = rows.iter().map(|row| combination(pred, g, row));
            sizes.push(occurrences(all.collect()).len());
        }
    }
    Ok(sizes)
}

/// Whether the type of this index breaks constraint K1 to K4 or K10.
fn type_breaks(d: &Diagram, population: &Population, constraint: u32, a: usize) -> bool {
    let t = &d.types[a];
    let values = &population.values[a];
    match constraint {
        // "K1 a type's values differ"
        1 => values.windows(2).any(|pair| pair[0] == pair[1]),
        // "K2 type size MIN..MAX"
        2 => !(t.min as usize..=t.max as usize).contains(&values.len()),
        // "K3 root values in FIRST..LAST"; it covers a subtype that gives a range.
        3 => {
            let outside = |(first, last)| values.iter().any(|v| *v < first || *v > last);
            t.range().is_some_and(outside)
        }
        // "K4 subtype within supertype"
        4 => t.over != 0 && !within(values, &population.values[t.over as usize - 1]),
        // "K10 each member of a non-independent type is in a role that type plays";
        // a subtype that plays none is free of it.
        _ => {
            let mut played = Vec::new();
            for (pred, members) in d.preds.iter().zip(&population.members) {
                for (role, own) in pred.roles.iter().zip(members) {
                    if role.kind as usize == a + 1 {
                        played.extend(own);
                    }
                }
            }
            played.sort_unstable();
            d.must_play(a) && !within(values, &played)
        }
    }
}

/// Whether the predicate of this index breaks constraint K5 to K9 or K11.
fn pred_breaks(d: &Diagram, population: &Population, constraint: u32, r: usize) -> bool {
    let pred = &d.preds[r];
    let rows = &population.rows[r];
    let roles = || pred.roles.iter().zip(&population.members[r]);
    match constraint {
        // "K5 rows differ"
        5 => occurrences(rows.clone()).iter().any(|n| *n > 1),
        // "K6 predicate size MIN..MAX"
        6 => !(pred.min as usize..=pred.max as usize).contains(&rows.len()),
        // "K7 each value belongs to the role's type"
        7 => roles().any(|(role, own)| !within(own, &population.values[role.kind as usize - 1])),
        // "K8 mandatory: every member of the type in that role"
        8 => roles().any(|(role, own)| {
            role.mand == 1 && !within(&population.values[role.kind as usize - 1], own)
        }),
        // "K9 each occurring group combination occurs FMIN..FMAX times"
        9 => (1..).zip(&pred.groups).any(|(g, group)| {
            let all = rows.iter().map(|row| combination(pred, g, row));
            let counts = occurrences(all.collect());
            let range = group.fmin as usize..=group.fmax as usize;
            counts.iter().any(|n| !range.contains(n))
        }),
        // "K11: role members number RMIN..RMAX" (document 02, S-8)
        _ => roles().any(|(role, own)| {
            let range = role.rmin as usize..=role.rmax as usize;
            !range.contains(&own.len())
        }),
    }
}

/// "the lowest broken K with the lowest number that breaks it: a type's for
/// K1 to K4 and K10, a predicate's for K5 to K9"; "The judge .. gives K11 the
/// predicate's number" (document 02, S-8). 9 follows 6.
pub fn validate(table: &[u32], cells: &[u32]) -> Result<Verdict, Refusal> {
    let d = form(table)?;
    let population = cut(&d, cells)?;
    for constraint in 1..=11 {
        let broken = match constraint {
            1..=4 | 10 => (0..d.types.len()).find(|a| type_breaks(&d, &population, constraint, *a)),
            _ => (0..d.preds.len()).find(|r| pred_breaks(&d, &population, constraint, *r)),
        };
        if let Some(index) = broken {
            let number = index as u32 + 1;
            return Ok(Verdict { constraint, number });
        }
    }
    Ok(Verdict {
        constraint: 0,
        number: 0,
    })
}
