//! Single limits on ceilings that the caller keeps: "The panel is to apply one
//! limit at a time when a user edits" (document 02, S-13).

use crate::diagram::{form, Diagram, Predicate};
use crate::sizes::starting;
use crate::{lend, room, Refusal};

/// What a limit says that its set is at most, by the ceilings of sets, which
/// are given by their index from 0.
#[derive(Clone, Debug, PartialEq, Eq)]
pub enum Value {
    Of(usize),
    Times(u32, usize),
    Divided(usize, u32),
    Product(Vec<usize>),
    Sum(Vec<usize>),
}

/// An upper limit on one set, by its index from 0.
#[derive(Clone, Debug, PartialEq, Eq)]
pub struct Limit {
    pub set: usize,
    pub value: Value,
}

impl Limit {
    /// The value at these ceilings, "division rounding down".
    ///
    /// Ceilings may be any numbers of 32 bits, and six of them multiply to more
    /// than 128 bits: a product stops at the greatest number of 128. It is exact
    /// below that, since of whole numbers only a 0 brings a product down again,
    /// and it does so from any number. A value that was stopped lowers no ceiling
    /// of 32 bits, no more than the true one. All other values have fewer bits.
    fn value(&self, ceilings: &[u32]) -> u128 {
        let at = |set: &usize| u128::from(ceilings[*set]);
        match &self.value {
            Value::Of(set) => at(set),
            Value::Times(times, set) => u128::from(*times) * at(set),
            Value::Divided(set, by) => at(set) / u128::from(*by),
            Value::Product(sets) => sets.iter().map(at).fold(1, u128::saturating_mul),
            Value::Sum(sets) => sets.iter().map(at).sum(),
        }
    }

    /// Whether the limit is below the ceiling of its set.
    pub fn lowers(&self, ceilings: &[u32]) -> bool {
        self.value(ceilings) < u128::from(ceilings[self.set])
    }

    /// "each lowering one ceiling to that limit" (document 02, S-13), and none
    /// that is not above it. Whether it lowered the ceiling.
    pub fn lower(&self, ceilings: &mut [u32]) -> bool {
        let lowers = self.lowers(ceilings);
        if lowers {
            // Below a number of 32 bits.
            ceilings[self.set] = self.value(ceilings) as u32;
        }
        lowers
    }
}

/// A predicate's sets: itself, its first role and its first group.
#[derive(Clone, Copy)]
struct Sets {
    r: usize,
    p: usize,
    q: usize,
}

impl Sets {
    /// The roles in a group of the predicate, in none where it is 0.
    fn roles_in(self, pred: &Predicate, group: u32) -> Vec<usize> {
        let roles = (self.p..).zip(&pred.roles);
        let named = roles.filter(|(_, role)| role.group == group);
        named.map(|(p, _)| p).collect()
    }
}

/// The limits by number, from 0: of each predicate those of its roles, of its
/// groups and its own, then those of each type.
pub fn limits(d: &Diagram) -> Vec<Limit> {
    let mut limits = Vec::new();
    let mut sets = Sets {
        r: d.types.len(),
        p: first_role(d),
        q: first_role(d) + d.count_roles(),
    };
    for pred in &d.preds {
        limits_of_roles(pred, sets, &mut limits);
        limits_of_groups(pred, sets, &mut limits);
        limits.push(limit_of_predicate(pred, sets));
        sets.r += 1;
        sets.p += pred.roles.len();
        sets.q += pred.groups.len();
    }
    for a in 0..d.types.len() {
        limits_of_type(d, a, &mut limits);
    }
    limits
}

/// The set of the first role: "types, predicates, roles, groups".
fn first_role(d: &Diagram) -> usize {
    d.types.len() + d.preds.len()
}

/// "p at most its a, at most its r, and, if grouped, at most its q; mandatory
/// role: a at most p", in this order for each role.
fn limits_of_roles(pred: &Predicate, sets: Sets, limits: &mut Vec<Limit>) {
    for (p, role) in (sets.p..).zip(&pred.roles) {
        let a = role.kind as usize - 1;
        let mut at_most = |set, of| {
            let value = Value::Of(of);
            limits.push(Limit { set, value });
        };
        at_most(p, a);
        at_most(p, sets.r);
        if role.group != 0 {
            at_most(p, sets.q + role.group as usize - 1);
        }
        if role.mand == 1 {
            at_most(a, p);
        }
    }
}

/// "group: r at most FMAX times q; q at most r / FMIN; q at most the product of
/// its p", in this order for each group.
fn limits_of_groups(pred: &Predicate, sets: Sets, limits: &mut Vec<Limit>) {
    for (q, (own, group)) in (sets.q..).zip((1..).zip(&pred.groups)) {
        limits.push(Limit {
            set: sets.r,
            value: Value::Times(group.fmax, q),
        });
        limits.push(Limit {
            set: q,
            value: Value::Divided(sets.r, group.fmin),
        });
        limits.push(Limit {
            set: q,
            value: Value::Product(sets.roles_in(pred, own)),
        });
    }
}

/// "r at most the product of all its q and its ungrouped p".
fn limit_of_predicate(pred: &Predicate, sets: Sets) -> Limit {
    let mut factors: Vec<usize> = (sets.q..sets.q + pred.groups.len()).collect();
    factors.extend(sets.roles_in(pred, 0));
    Limit {
        set: sets.r,
        value: Value::Product(factors),
    }
}

/// "subtype: a at most its supertype's; not independent: a at most the sum of
/// the roles it plays itself, 0 if it plays none". "a non-independent subtype
/// that plays no role is free of the sum limit" (document 02, S-2).
fn limits_of_type(d: &Diagram, a: usize, limits: &mut Vec<Limit>) {
    let over = d.types[a].over as usize;
    if over != 0 {
        limits.push(Limit {
            set: a,
            value: Value::Of(over - 1),
        });
    }
    if d.must_play(a) {
        let roles = (first_role(d)..).zip(d.roles());
        let played = roles.filter(|(_, role)| role.kind as usize == a + 1);
        limits.push(Limit {
            set: a,
            value: Value::Sum(played.map(|(p, _)| p).collect()),
        });
    }
}

/// "the starting ceilings" (document 02, S-13), in set order. Refusals 1 to 6,
/// then 8.
pub fn start(table: &[u32], ceilings: &mut [u32]) -> Result<usize, Refusal> {
    lend(&starting(&form(table)?), ceilings)
}

/// Whether a limit lowered a ceiling, and the number of sets.
#[derive(Clone, Copy, Debug, PartialEq, Eq)]
pub struct Lowered {
    pub lowered: bool,
    pub sets: usize,
}

/// One step of a "sequence of single limits .. each lowering one ceiling to
/// that limit" (document 02, S-13), on the ceilings at the front of the slice,
/// which may be any numbers. Refusals 1 to 6; 10 where there is no limit with
/// this number, at the number; then 8 at the number of sets.
pub fn lower(table: &[u32], number: u32, ceilings: &mut [u32]) -> Result<Lowered, Refusal> {
    let d = form(table)?;
    let limits = limits(&d);
    let Some(limit) = limits.get(number as usize) else {
        return Err(Refusal::at(10, u64::from(number)));
    };
    let sets = d.count_sets();
    room(sets, ceilings)?;
    let lowered = limit.lower(&mut ceilings[..sets]);
    Ok(Lowered { lowered, sets })
}

/// Whether some limit lowers a ceiling, and how many limits there are.
#[derive(Clone, Copy, Debug, PartialEq, Eq)]
pub struct Survey {
    pub lowers: bool,
    pub limits: usize,
}

/// Sequences are "carried on until no limit lowers any" (document 02, S-13):
/// whether they are to be carried on from these ceilings. Refusals 1 to 6, then
/// 8 at the number of sets.
pub fn survey(table: &[u32], ceilings: &[u32]) -> Result<Survey, Refusal> {
    let d = form(table)?;
    room(d.count_sets(), ceilings)?;
    let limits = limits(&d);
    Ok(Survey {
        lowers: limits.iter().any(|limit| limit.lowers(ceilings)),
        limits: limits.len(),
    })
}
