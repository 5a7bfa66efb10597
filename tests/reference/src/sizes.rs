//! Sets, floors, ceilings and the rounds.

use crate::diagram::{form, Diagram};
use crate::{lend, Refusal, Settled};

/// "Floor: MIN for types and predicates, else 1." RMIN becomes "the role's
/// floor" (document 02, S-8).
pub fn floors(d: &Diagram) -> Vec<u32> {
    let mut floors: Vec<u32> = d.types.iter().map(|t| t.min).collect();
    floors.extend(d.preds.iter().map(|p| p.min));
    floors.extend(d.roles().map(|role| role.rmin));
    floors.resize(floors.len() + d.count_groups(), 1);
    floors
}

/// "Starting ceiling: root, the smaller of MAX and LAST - FIRST + 1; subtype
/// and predicate, MAX; role and group, 4096." That of a subtype which gives a
/// range "is then also at most LAST - FIRST + 1" (document 02, S-5), and RMAX is
/// "part of" a role's (S-8).
pub fn starting(d: &Diagram) -> Vec<u32> {
    let mut ceilings = Vec::new();
    for t in &d.types {
        let values = t.range().map(|(first, last)| last - first + 1);
        ceilings.push(values.map_or(t.max, |values| t.max.min(values)));
    }
    ceilings.extend(d.preds.iter().map(|p| p.max));
    ceilings.extend(d.roles().map(|role| role.rmax.min(4096)));
    ceilings.resize(ceilings.len() + d.count_groups(), 4096);
    ceilings
}

/// "A round takes every new ceiling from the old ones of all sets: the least
/// of the old ceiling and its limits." Ceilings are at most 4096, products at
/// most 2 to the 72nd.
pub fn round(d: &Diagram, old: &[u32], new: &mut [u32]) {
    new.copy_from_slice(old);
    let mut lower = |set: usize, limit: u128| {
        if limit < u128::from(new[set]) {
            new[set] = limit as u32;
        }
    };
    let at = |set: usize| u128::from(old[set]);
    let mut sums = [0; 32];
    // Set indices from 0: types, predicates, roles, groups.
    let mut p = d.types.len() + d.preds.len();
    let mut q = p + d.count_roles();
    for (k, pred) in d.preds.iter().enumerate() {
        let r = d.types.len() + k;
        let mut all = 1;
        let mut products = [1; 6];
        for role in &pred.roles {
            let a = role.kind as usize - 1;
            // "p at most its a, at most its r, and, if grouped, at most its q".
            lower(p, at(a));
            lower(p, at(r));
            if role.group == 0 {
                all *= at(p);
            } else {
                let g = role.group as usize - 1;
                lower(p, at(q + g));
                products[g] *= at(p);
            }
            // "mandatory role: a at most p".
            if role.mand == 1 {
                lower(a, at(p));
            }
            sums[a] += at(p);
            p += 1;
        }
        for (g, group) in pred.groups.iter().enumerate() {
            // "group: r at most FMAX times q; q at most r / FMIN; q at most
            // the product of its p", "division rounding down".
            lower(r, u128::from(group.fmax) * at(q));
            lower(q, u128::from(old[r] / group.fmin));
            lower(q, products[g]);
            all *= at(q);
            q += 1;
        }
        // "r at most the product of all its q and its ungrouped p".
        lower(r, all);
    }
    for (a, t) in d.types.iter().enumerate() {
        // "subtype: a at most its supertype's".
        if t.over != 0 {
            lower(a, at(t.over as usize - 1));
        }
        // "not independent: a at most the sum of the roles it plays itself,
        // 0 if it plays none"; a subtype that plays none has no such limit.
        if d.must_play(a) {
            lower(a, sums[a]);
        }
    }
}

/// "If a ceiling is below its floor at the start (round 0) or after a round,
/// the check ends with 7, that round and the lowest such set."
fn emptied(floors: &[u32], ceilings: &[u32], round: u64) -> Result<(), Refusal> {
    let below = |(floor, ceiling): (&u32, &u32)| ceiling < floor;
    match floors.iter().zip(ceilings).position(below) {
        Some(set) => Err(Refusal {
            number: 7,
            place: set as u64 + 1,
            round,
        }),
        None => Ok(()),
    }
}

/// "Else the first round that lowers nothing ends it, counts as a round, and
/// the ceilings are the sizes, called settled." Rounds and sizes, from these
/// floors and starting ceilings.
pub fn settle_from(
    d: &Diagram,
    floors: &[u32],
    starting: Vec<u32>,
) -> Result<(u64, Vec<u32>), Refusal> {
    let mut old = starting;
    let mut new = old.clone();
    let mut rounds = 0;
    emptied(floors, &old, rounds)?;
    loop {
        round(d, &old, &mut new);
        rounds += 1;
        emptied(floors, &new, rounds)?;
        if new == old {
            return Ok((rounds, new));
        }
        std::mem::swap(&mut old, &mut new);
    }
}

/// The rounds and sizes of a diagram.
pub fn settle(d: &Diagram) -> Result<(u64, Vec<u32>), Refusal> {
    settle_from(d, &floors(d), starting(d))
}

/// "the check the sizes in set order"; "Then 7 (check and fill only), then 8".
pub fn check(table: &[u32], sizes: &mut [u32]) -> Result<Settled, Refusal> {
    let (rounds, settled) = settle(&form(table)?)?;
    let length = lend(&settled, sizes)?;
    Ok(Settled { rounds, length })
}
