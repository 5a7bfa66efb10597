//! Seeded random inputs: diagrams, damaged texts, tables and cells, ceilings
//! and numbers of limits, numbers of sets and of groups, wanted sizes, sets about
//! the edge of the table of common multiples, and lengths of lent space.

use crate::{floors, limits, role_width, round, settle, starting};
use crate::{Diagram, Group, Limit, Predicate, Role, Type, Value};

/// A splitmix generator: the same seed gives the same inputs.
pub struct Random {
    state: u64,
}

impl Random {
    pub fn new(seed: u64) -> Random {
        Random { state: seed }
    }

    /// The next 64 bits.
    pub fn bits(&mut self) -> u64 {
        self.state = self.state.wrapping_add(0x9E37_79B9_7F4A_7C15);
        let mut z = self.state;
        z = (z ^ (z >> 30)).wrapping_mul(0xBF58_476D_1CE4_E5B9);
        z = (z ^ (z >> 27)).wrapping_mul(0x94D0_49BB_1331_11EB);
        z ^ (z >> 31)
    }

    /// A number below a limit, which is at least 1.
    pub fn below(&mut self, limit: usize) -> usize {
        (self.bits() % limit as u64) as usize
    }

    /// A number from low to high, both included.
    pub fn between(&mut self, low: u32, high: u32) -> u32 {
        low + (self.bits() % (u64::from(high - low) + 1)) as u32
    }

    /// True in so many of a hundred cases.
    pub fn chance(&mut self, percent: usize) -> bool {
        self.below(100) < percent
    }

    /// One of the items.
    pub fn pick<T: Copy>(&mut self, items: &[T]) -> T {
        items[self.below(items.len())]
    }

    /// The items in random order.
    pub fn shuffle<T>(&mut self, items: &mut [T]) {
        for i in (1..items.len()).rev() {
            items.swap(i, self.below(i + 1));
        }
    }
}

/// Numbers at and around the limits of document 01.
#[rustfmt::skip]
const NUMBERS: [u32; 26] = [
    0, 1, 2, 3, 5, 6, 7, 9, 10, 31, 32, 33, 47, 48, 49, 95, 96, 97, 4095, 4096, 4097,
    999_998, 999_999, 1_000_000, 2_147_483_648, u32::MAX,
];

/// The outline of a diagram: the most types, predicates, roles and groups of
/// a predicate, and the largest size.
struct Outline {
    types: u32,
    preds: u32,
    roles: usize,
    groups: usize,
    size: u32,
}

/// Small outlines mostly, some with many sets, some with large sizes.
fn outline(random: &mut Random) -> Outline {
    let (types, preds, roles, groups, size) = match random.below(100) {
        0..35 => (3, 2, 3, 2, 6),
        35..60 => (6, 5, 4, 3, 12),
        60..70 => (4, 3, 6, 6, 5),
        70..80 => (32, 32, 3, 2, 8),
        80..85 => (32, 32, 6, 6, 4),
        85..95 => (4, 3, 3, 2, 100),
        _ => (4, 3, 4, 2, 4096),
    };
    Outline {
        types,
        preds,
        roles,
        groups,
        size,
    }
}

/// A root or a subtype with floor 1.
fn kind(random: &mut Random, own: u32, size: u32) -> Type {
    let max = match random.below(10) {
        0 => 4096,
        1 => 1,
        _ => random.between(1, size),
    };
    let over = match random.below(8) {
        0..2 => own - 1,
        2 => random.between(0, own - 1),
        _ => 0,
    };
    // As many values as MAX, fewer, more, many more.
    let extent = match random.below(8) {
        0..2 => max,
        2 => random.between(1, max),
        3 => max + random.between(0, 900_000),
        _ => max + random.between(0, 100),
    };
    let first = match random.below(5) {
        0 => 0,
        1 => 1_000_000 - extent,
        2 => random.between(0, 1_000_000 - extent),
        _ => 1,
    };
    let root = over == 0;
    Type {
        min: 1,
        max,
        first: if root { first } else { 0 },
        last: if root { first + extent - 1 } else { 0 },
        over,
        indep: u32::from(random.chance(50)),
    }
}

/// A frequency: uniqueness, at most a number, from a number, equal numbers.
fn frequency(random: &mut Random, size: u32) -> Group {
    let size = size.min(4000);
    let (fmin, fmax) = match random.below(10) {
        0..3 => (1, 1),
        3..6 => (1, random.between(1, size)),
        6 => (1, 4096),
        7 => (2, random.between(2, size + 2)),
        8 => {
            let n = random.between(1, 3);
            (n, n)
        }
        _ => {
            let n = random.between(1, size);
            (n, n + random.between(0, 3))
        }
    };
    Group { fmin, fmax }
}

/// A predicate with floor 1, within the roles and groups still to be had.
fn predicate(random: &mut Random, types: u32, o: &Outline, left: (usize, usize)) -> Predicate {
    let count = 1 + random.below(o.roles.min(left.0));
    let most = o.groups.min(left.1).min(count);
    let named = match random.below(10) {
        0..5 => random.below(most + 1),
        5..7 => most,
        _ => 0,
    };
    // The first roles in a random order name one group each.
    let mut order: Vec<usize> = (0..count).collect();
    random.shuffle(&mut order);
    let mut roles = Vec::new();
    for place in order {
        let group = match place < named {
            true => place as u32 + 1,
            false => random.between(0, named as u32),
        };
        roles.push(Role {
            kind: random.between(1, types),
            mand: u32::from(random.chance(25)),
            group,
            rmin: 1,
            rmax: 4096,
        });
    }
    let max = match random.below(10) {
        0..2 => 4096,
        2..5 => random.between(1, o.size),
        _ => random.between(1, o.size * o.size.min(4096 / o.size)),
    };
    let groups = (0..named).map(|_| frequency(random, o.size)).collect();
    Predicate {
        min: 1,
        max,
        roles,
        groups,
    }
}

/// Most floors are 1; others are raised to the settled size, or one above it,
/// and some ceilings are lowered to the settled size. In version 2 those of
/// roles too.
fn tighten(random: &mut Random, d: &mut Diagram) {
    let Ok((_, sizes)) = settle(d) else { return };
    let tight = random.pick(&[0, 0, 20, 60]);
    let passed = random.below(sizes.len() * 2);
    let mut bounds: Vec<_> = (d.types.iter_mut())
        .map(|t| (&mut t.min, &mut t.max))
        .collect();
    let mut limits = Vec::new();
    for pred in &mut d.preds {
        bounds.push((&mut pred.min, &mut pred.max));
        let roles = pred.roles.iter_mut();
        limits.extend(roles.map(|role| (&mut role.rmin, &mut role.rmax)));
    }
    if d.version == 2 {
        bounds.extend(limits);
    }
    for (i, ((min, max), size)) in bounds.into_iter().zip(sizes).enumerate() {
        if random.chance(tight) {
            *min = match random.chance(70) {
                true => size,
                false => random.between(1, size),
            };
        }
        if random.chance(tight) {
            *max = size;
        }
        if i == passed && tight > 0 {
            *min = match random.chance(70) {
                true => (size + 1).min(*max),
                false => *max,
            };
        }
    }
}

/// Takes away what empties sets most often, so that more are satisfiable.
fn relax(random: &mut Random, d: &mut Diagram) {
    for pred in &mut d.preds {
        for (own, group) in (1..).zip(&mut pred.groups) {
            let others = pred.roles.iter().filter(|role| role.group != own);
            let fmin = match others.count() > 0 && random.chance(30) {
                true => random.between(1, 3),
                false => 1,
            };
            group.fmin = fmin.min(group.fmax);
        }
    }
    for a in 0..d.types.len() {
        if d.must_play(a) && !d.plays(a) {
            d.types[a].indep = 1;
        }
    }
}

/// Further subtypes, which play no role, below any type, or a chain of them.
fn add_subtypes(random: &mut Random, d: &mut Diagram, size: u32) {
    let chain = random.chance(40);
    let count = random.pick(&[1, 1, 2, 3, 4]).min(32 - d.types.len());
    for _ in 0..count {
        let last = d.types.len() as u32;
        d.types.push(Type {
            min: 1,
            max: random.between(1, size),
            first: 0,
            last: 0,
            over: match chain {
                true => last,
                false => random.between(1, last).max(random.between(1, last)),
            },
            indep: u32::from(random.chance(25)),
        });
    }
}

/// Types in a ring of predicates with nearly equal frequencies, which lower
/// each other slowly, with free predicates that may stop this.
fn ring(random: &mut Random) -> Diagram {
    let count = random.between(1, 4);
    let size = random.pick(&[50, 300, 4096]);
    let times = random.between(1, 60);
    let types = (1..=count).map(|own| kind(random, own, size)).collect();
    let mut preds = Vec::new();
    for own in 1..=count {
        let mut roles = Vec::new();
        for (kind, group) in [(own, 1), (own % count + 1, 2)] {
            let mand = u32::from(random.chance(60));
            roles.push(Role {
                kind,
                mand,
                group,
                rmin: 1,
                rmax: 4096,
            });
        }
        let (fmin, high) = (random.between(1, times), times + random.between(0, 1));
        let slow = Group { fmin, fmax: times };
        let equal = Group {
            fmin: high,
            fmax: high,
        };
        preds.push(Predicate {
            min: 1,
            max: 4096,
            roles,
            groups: vec![slow, equal],
        });
        let o = outline(random);
        preds.push(predicate(random, count, &o, (6, 2)));
    }
    Diagram {
        version: 1,
        types,
        preds,
    }
}

/// The index of the root of a type.
pub fn root(d: &Diagram, mut kind: usize) -> usize {
    while d.types[kind].over != 0 {
        kind = d.types[kind].over as usize - 1;
    }
    kind
}

/// The LAST of the nearest type above a subtype that gives one.
pub fn nearest_last(d: &Diagram, subtype: usize) -> u32 {
    let over = d.types[subtype].over as usize - 1;
    match d.types[over].range() {
        Some((_, last)) => last,
        None => nearest_last(d, over),
    }
}

/// The indices of the subtypes.
fn subtypes(d: &Diagram) -> Vec<usize> {
    let subtype = |a: &usize| d.types[*a].over != 0;
    (0..d.types.len()).filter(subtype).collect()
}

/// The indices of the subtypes that give a range.
fn ranged_subtypes(d: &Diagram) -> Vec<usize> {
    let mut ranged = subtypes(d);
    ranged.retain(|a| d.types[*a].range().is_some());
    ranged
}

/// Ranges on most subtypes: as many values as the nearest range above has,
/// about as many as settle without a range, about MAX, or any number of them.
/// The one value 0 comes out as no range.
fn add_ranges(random: &mut Random, d: &mut Diagram) {
    let sizes = settle(d).map_or(Vec::new(), |(_, sizes)| sizes);
    for a in subtypes(d) {
        let first = d.types[root(d, a)].first;
        let most = nearest_last(d, a) - first + 1;
        let max = d.types[a].max;
        let size = sizes.get(a).map_or(max, |size| *size);
        let extent = match random.below(12) {
            0..4 => continue,
            4..6 => most,
            6..9 => size + 1 - random.between(0, 2),
            9 => random.between(1, size),
            10 => max + 1 - random.between(0, 2),
            _ => random.between(1, most),
        };
        let t = &mut d.types[a];
        (t.first, t.last) = (first, first + extent.clamp(1, most) - 1);
    }
}

/// A range with about as many values as the floor of its type, which may be
/// emptied at the start. The ranges below are shortened with it.
fn shorten_range(random: &mut Random, d: &mut Diagram) {
    let own = match ranged_subtypes(d) {
        ranged if !ranged.is_empty() && random.chance(50) => random.pick(&ranged),
        _ => random.below(d.types.len()),
    };
    let t = &mut d.types[own];
    if t.range().is_some() {
        t.min = random.between(t.min, t.max);
        let extent = t.min.saturating_sub(random.between(0, 2)).max(1);
        t.last = (t.first + extent - 1).min(999_999);
    }
    for a in ranged_subtypes(d) {
        d.types[a].last = d.types[a].last.min(nearest_last(d, a));
    }
}

/// The sizes of roles as they settle, as many of them as there are, or RMAX
/// where a set is emptied.
fn role_sizes(d: &Diagram) -> Vec<u32> {
    let first = d.types.len() + d.preds.len();
    let settled = settle(d).map_or(Vec::new(), |(_, sizes)| sizes[first..].to_vec());
    let of = |(i, role): (usize, &Role)| settled.get(i).map_or(role.rmax, |size| *size);
    d.roles().enumerate().map(of).collect()
}

/// Every role of the diagram, to be changed, in file order.
fn roles_mut(d: &mut Diagram) -> impl Iterator<Item = &mut Role> {
    d.preds.iter_mut().flat_map(|pred| &mut pred.roles)
}

/// Version 2, with limits on some roles, or none: RMAX about the size that the
/// role settles at without it, at the ends of its range, or any; then RMIN about
/// the size that the role settles at with it.
fn add_limits(random: &mut Random, d: &mut Diagram) {
    d.version = 2;
    let share = random.pick(&[0, 10, 30, 30, 60]);
    let sizes = role_sizes(d);
    for (role, size) in roles_mut(d).zip(sizes) {
        if random.chance(share) {
            let high = match random.below(10) {
                0..2 => size,
                2..4 => size.saturating_sub(1),
                4 => size + 1,
                5..7 => random.between(1, size),
                7 => random.between(size, 4096),
                8 => random.pick(&[4095, 4096]),
                _ => random.pick(&[1, 2, 12]),
            };
            role.rmax = high.clamp(1, 4096);
        }
    }
    // Most stay satisfiable: one above the size is rare.
    let sizes = role_sizes(d);
    for (role, size) in roles_mut(d).zip(sizes) {
        if random.chance(share) {
            let low = match random.below(60) {
                0 => size + 1,
                1 => role.rmax,
                2..25 => size,
                25..35 => size.saturating_sub(1),
                _ => random.between(1, size),
            };
            role.rmin = low.clamp(1, role.rmax);
        }
    }
}

/// As many types, predicates, roles and groups as there can be, mostly of
/// version 2, and numbers of as many digits as they can have. Few have a
/// population, with a thousand members or more in every type and role.
fn longest(random: &mut Random) -> Diagram {
    let (sound, chain) = (random.chance(20), random.chance(60));
    let pair = |random: &mut Random| {
        let low = if sound {
            1000
        } else {
            random.between(1000, 4096)
        };
        (low, random.between(low, if sound { 1100 } else { 4096 }))
    };
    let mut types: Vec<Type> = Vec::new();
    for own in 0..32 {
        let (min, max) = pair(random);
        let (first, most) = match types.last() {
            Some(t) if chain => (t.first, t.last),
            _ => (random.between(100_000, 900_000), 999_999),
        };
        types.push(Type {
            min,
            max,
            first,
            last: if sound {
                most
            } else {
                random.between(first, most)
            },
            over: if chain { own } else { 0 },
            indep: 1,
        });
    }
    let mut preds = Vec::new();
    for k in 0..32 {
        let mut named = [1, 1 + k % 2, random.between(1, 1 + k % 2)];
        random.shuffle(&mut named);
        let role = |group: u32| {
            let (rmin, rmax) = pair(random);
            Role {
                kind: random.between(10, 32),
                mand: u32::from(!sound && random.chance(50)),
                group,
                rmin,
                rmax,
            }
        };
        let roles = named.map(role).to_vec();
        let group = |_| {
            let (low, fmax) = pair(random);
            let fmin = if sound { 1 } else { low };
            Group { fmin, fmax }
        };
        let groups = (0..=k % 2).map(group).collect();
        let (min, max) = pair(random);
        preds.push(Predicate {
            min,
            max,
            roles,
            groups,
        });
    }
    let version = random.pick(&[1, 2, 2, 2, 2]);
    let mut d = Diagram {
        version,
        types,
        preds,
    };
    if version == 1 {
        roles_mut(&mut d).for_each(|role| (role.rmin, role.rmax) = (1, 4096));
    }
    d
}

/// A valid diagram, in half of the cases of version 2.
pub fn diagram(random: &mut Random) -> Diagram {
    if random.below(300) == 0 {
        return longest(random);
    }
    let mut d = match random.chance(5) {
        true => ring(random),
        false => net(random),
    };
    if random.chance(50) {
        add_ranges(random, &mut d);
    }
    if random.chance(50) {
        add_limits(random, &mut d);
    }
    tighten(random, &mut d);
    if random.chance(4) {
        shorten_range(random, &mut d);
    }
    d
}

/// Types and predicates of an outline, tied at random.
fn net(random: &mut Random) -> Diagram {
    let o = outline(random);
    let full = random.chance(40);
    let many = |random: &mut Random, most: u32| match full {
        true => most,
        false => random.between(1, most),
    };
    let (types, preds) = (many(random, o.types), many(random, o.preds));
    let mut d = Diagram {
        version: 1,
        types: (1..=types).map(|own| kind(random, own, o.size)).collect(),
        preds: Vec::new(),
    };
    let mut left = (96, 48);
    for k in 0..preds as usize {
        // One role is kept for each predicate still to come.
        let later = preds as usize - 1 - k;
        let pred = predicate(random, types, &o, (left.0 - later, left.1));
        left = (left.0 - pred.roles.len(), left.1 - pred.groups.len());
        d.preds.push(pred);
    }
    if random.chance(20) {
        add_subtypes(random, &mut d, o.size);
    }
    if random.chance(70) {
        relax(random, &mut d);
    }
    d
}

/// Predicates with totals of roles and groups at their limits or past them.
fn totals(random: &mut Random, d: &mut Diagram) {
    let mut o = outline(random);
    (o.roles, o.groups) = (6, 6);
    let mut left = (
        random.between(94, 98) as usize,
        random.between(46, 50) as usize,
    );
    d.preds.clear();
    while left.0 > 0 {
        let pred = predicate(random, d.types.len() as u32, &o, left);
        left = (left.0 - pred.roles.len(), left.1 - pred.groups.len());
        d.preds.push(pred);
    }
    d.preds.truncate(33);
}

/// A subtype's pair that is not allowed, or only just, by itself or by what
/// stands above it.
fn faulty_range(random: &mut Random, d: &mut Diagram) {
    if subtypes(d).is_empty() || random.chance(50) {
        add_subtypes(random, d, 9);
    }
    let all = subtypes(d);
    if all.is_empty() {
        return;
    }
    // One below another subtype, where there is one.
    let below = |a: &&usize| d.types[d.types[**a].over as usize - 1].over != 0;
    let a = match all.iter().rfind(below) {
        Some(a) if random.chance(60) => *a,
        _ => random.pick(&all),
    };
    let (top, over) = (root(d, a), d.types[a].over as usize - 1);
    let first = d.types[top].first;
    // The nearest range above is the root's, or a narrow one.
    let mut near = over;
    while near != top && random.chance(65) {
        (d.types[near].first, d.types[near].last) = (0, 0);
        near = d.types[near].over as usize - 1;
    }
    if near != top {
        let last = random.between(first, nearest_last(d, near));
        (d.types[near].first, d.types[near].last) = (first, last);
    }
    let most = nearest_last(d, a);
    let last = match random.chance(30) {
        true => most,
        false => random.between(first, most),
    };
    (d.types[a].first, d.types[a].last) = (first, last);
    match random.below(12) {
        // FIRST beside the root's, or anywhere up to LAST.
        0 => d.types[a].first = first + 1,
        1 => d.types[a].first = first.saturating_sub(1),
        2 => d.types[a].first = random.between(0, last),
        // LAST below FIRST.
        3 => d.types[a].last = first.saturating_sub(1),
        4 => d.types[a].last = random.between(0, first),
        // LAST above the nearest's, often not above the root's.
        5 => d.types[a].last = most + 1,
        6 => d.types[a].last = random.between(most, d.types[top].last),
        7 => d.types[a].last = random.between(most, 1_000_000),
        8 => (d.types[over].first, d.types[over].last) = (first, last.saturating_sub(1)),
        // Another FIRST of the root, another supertype, a supertype not there.
        9 => d.types[top].first = random.pick(&[0, 1, first + 1]),
        10 => d.types[a].over = random.between(0, a as u32),
        _ => {
            d.types[a].first = random.between(first, first + 1);
            d.types[a].over = random.between(a as u32 + 1, 33);
        }
    }
}

/// A role's limits that are not allowed, or only just, in some cases with
/// another fault of the same line, or a first line of 0 to 3.
fn faulty_limits(random: &mut Random, d: &mut Diagram) {
    if d.version == 1 {
        add_limits(random, d);
    }
    let (types, count) = (d.types.len() as u32, d.count_roles());
    let at = random.below(count);
    let groups = d.preds.iter().flat_map(|pred| {
        let groups = pred.groups.len() as u32;
        pred.roles.iter().map(move |_| groups)
    });
    let groups = groups.collect::<Vec<u32>>()[at];
    let Some(role) = roles_mut(d).nth(at) else {
        return;
    };
    match random.below(16) {
        // RMIN above RMAX by one, or by any number; not above.
        0..2 => (role.rmin, role.rmax) = (role.rmax.min(4095) + 1, role.rmax.min(4095)),
        2 => role.rmax = random.between(1, role.rmin),
        3 => role.rmin = random.between(role.rmax, 4096),
        4 => (role.rmin, role.rmax) = (role.rmax, role.rmin),
        5 => role.rmin = role.rmax,
        // At and outside the ends of the range.
        6 => role.rmin = random.pick(&[0, 1, 4096, 4097]),
        7 => role.rmax = random.pick(&[0, 1, 4096, 4097]),
        8 => role.rmax = random.between(4095, 5000),
        9 => (role.rmin, role.rmax) = random.pick(&[(0, 0), (4097, 4097), (4096, 4096), (1, 1)]),
        // With what is not there: 3 before 4.
        10 => (role.kind, role.rmin, role.rmax) = (random.between(types, 33), 9, 8),
        11 => (role.group, role.rmin, role.rmax) = (random.between(groups, 7), 4096, 1),
        12 => (role.mand, role.rmin, role.rmax) = (random.between(0, 2), 2, 1),
        _ => d.version = random.pick(&[0, 0, 1, 2, 3, 3]),
    }
}

/// Another first line, by its number alone: role lines are too long or too
/// short for it where it is 1 or 2.
fn other_version(random: &mut Random, version: u32) -> u32 {
    match random.chance(70) {
        true => 3 - version,
        false => random.pick(&[0, 3]),
    }
}

/// A text whose first line or one of whose role lines is of the other version.
fn misfit_text(random: &mut Random, d: &Diagram) -> Vec<u8> {
    let mut text = d.text();
    if random.chance(35) {
        // The digit of `diagram=1`.
        text[8] = b'0' + other_version(random, d.version) as u8;
        return text;
    }
    let lines = spans(&text);
    let roles = |(start, _): &(usize, usize)| text[*start..].starts_with(b"role");
    let roles: Vec<(usize, usize)> = lines.into_iter().filter(roles).collect();
    let (start, length) = random.pick(&roles);
    let line = String::from_utf8_lossy(&text[start..start + length - 1]).into_owned();
    let mut numbers: Vec<&str> = line.split(',').collect();
    let width = match random.chance(60) {
        true => 8 - role_width(d.version),
        false => random.pick(&[1, 2, 3, 4, 5, 6]),
    };
    numbers.resize(width, random.pick(&["1", "4096"]));
    text.splice(start..start + length - 1, numbers.join(",").into_bytes());
    text
}

/// The same of a table.
fn misfit_table(random: &mut Random, d: &Diagram) -> Vec<u32> {
    let mut table = d.table();
    if random.chance(50) {
        table[0] = other_version(random, d.version);
        return table;
    }
    // Where the numbers of a role line end.
    let mut at = 3 + 6 * d.types.len();
    let (r, width) = (random.below(d.preds.len()), role_width(d.version));
    for pred in &d.preds[..r] {
        at += 4 + width * pred.roles.len() + 2 * pred.groups.len();
    }
    at += 4 + width * (1 + random.below(d.preds[r].roles.len()));
    match random.below(4) {
        0 => drop(table.drain(at - 2..at)),
        1 => drop(table.splice(at..at, [1, 4096])),
        2 => drop(table.remove(at - 1)),
        _ => table.truncate(at - random.below(3)),
    }
    table
}

/// A diagram with a fault that one line can have.
pub fn faulty_diagram(random: &mut Random) -> Diagram {
    let mut d = diagram(random);
    let types = d.types.len() as u32;
    let own = random.below(d.types.len());
    let at = random.below(d.preds.len());
    let role = random.below(d.preds[at].roles.len());
    let group = random.below(d.preds[at].groups.len().max(1));
    let t = &mut d.types[own];
    let p = &mut d.preds[at];
    match random.below(24) {
        0 => t.over = random.between(own as u32 + 1, 33),
        1 => t.max = random.between(0, t.min),
        2 => (t.first, t.last) = (t.last + 1, t.first),
        3 => t.min = random.between(t.max, 4097),
        4 => p.max = random.between(0, p.min),
        5 => p.roles[role].kind = random.between(types, 33),
        6 => p.roles[role].group = random.between(p.groups.len() as u32, 7),
        7 => p.roles.iter_mut().for_each(|role| role.group /= 2),
        8 | 9 if !p.groups.is_empty() => {
            let group = &mut p.groups[group];
            group.fmax = random.between(0, group.fmin);
        }
        8 | 9 => p.groups.push(Group { fmin: 1, fmax: 2 }),
        10 => totals(random, &mut d),
        12..18 => faulty_range(random, &mut d),
        18.. => faulty_limits(random, &mut d),
        _ => {
            let more = d.types[own].clone();
            d.types
                .resize(random.pick(&[32, 33]).max(d.types.len()), more);
        }
    }
    d
}

/// Where each line of the text starts, and its length with the line feed.
fn spans(text: &[u8]) -> Vec<(usize, usize)> {
    let mut at = 0;
    let mut spans = Vec::new();
    for line in text.split_inclusive(|byte| *byte == 10) {
        spans.push((at, line.len()));
        at += line.len();
    }
    spans
}

/// The text with one number of it replaced.
fn renumber(random: &mut Random, text: &mut Vec<u8>) {
    let starts =
        |i: &usize| text[*i].is_ascii_digit() && (*i == 0 || !text[i - 1].is_ascii_digit());
    let places: Vec<usize> = (0..text.len()).filter(starts).collect();
    if places.is_empty() {
        return;
    }
    let last = places[places.len() - 1];
    let start = match random.chance(10) {
        true => last,
        false => random.pick(&places),
    };
    let rest = text[start..].iter();
    let length = rest.take_while(|byte| byte.is_ascii_digit()).count();
    let old = String::from_utf8_lossy(&text[start..start + length]).into_owned();
    let value: u64 = old.parse().unwrap_or(0);
    let new = match random.below(8) {
        0 => format!("0{old}"),
        1 => format!("{}", value + 1),
        2 => format!("{}", value.saturating_sub(1)),
        3 => random
            .pick(&["", "-1", "+1", "1.", "00", "0x1", " 1", "1 "])
            .into(),
        4 => format!("{}", random.bits() >> random.below(64)),
        5 => format!("{old},{old}"),
        _ => format!("{}", random.pick(&NUMBERS)),
    };
    text.splice(start..start + length, new.into_bytes());
}

/// One damage to a text.
fn damage_text(random: &mut Random, text: &mut Vec<u8>) {
    const BYTES: &[u8] = b"0123456789,=\n\r -dtprfe\x00\xff";
    let lines = spans(text);
    if lines.is_empty() {
        text.extend(b"\n");
        return;
    }
    let (start, length) = random.pick(&lines);
    let line = text[start..start + length].to_vec();
    let at = random.below(text.len());
    match random.below(20) {
        0 => text[at] ^= 1 << random.below(8),
        1 => text[at] = random.pick(BYTES),
        2 => drop(text.remove(at)),
        3 => text.insert(at, random.pick(BYTES)),
        4 => drop(text.drain(start..start + length)),
        5 => drop(text.splice(start..start, line)),
        6 => {
            // Two lines change places.
            let (other, size) = random.pick(&lines);
            let ((a, m), (b, n)) = if start < other {
                ((start, length), (other, size))
            } else {
                ((other, size), (start, length))
            };
            if a < b {
                let parts = [&text[b..b + n], &text[a + m..b], &text[a..a + m]].concat();
                text.splice(a..b + n, parts);
            }
        }
        7 => text.truncate(at),
        8 => text.truncate(start),
        9 => drop(text.pop()),
        10 => text.extend(line),
        11 => text.push(random.pick(BYTES)),
        12 => text.insert(start + length - 1, b'\r'),
        13 => {
            let whole = String::from_utf8_lossy(text).replace('\n', "\r\n");
            *text = whole.into_bytes();
        }
        14 => text.insert(start + length - 1, b','),
        15 => text.extend(std::iter::repeat_n(b'9', random.below(5000))),
        16 if random.chance(20) => {
            *text = (0..random.below(60)).map(|_| random.pick(BYTES)).collect();
        }
        _ => renumber(random, text),
    }
}

/// A valid text, a text of a faulty diagram, one of two versions, or a damaged
/// one.
pub fn text(random: &mut Random) -> Vec<u8> {
    match random.below(11) {
        0..3 => diagram(random).text(),
        3..5 => faulty_diagram(random).text(),
        5 => {
            let d = diagram(random);
            misfit_text(random, &d)
        }
        _ => {
            let mut text = diagram(random).text();
            for _ in 0..random.pick(&[1, 1, 1, 2, 3]) {
                damage_text(random, &mut text);
            }
            text
        }
    }
}

/// A number near another, at a limit, or of any size.
fn other_number(random: &mut Random, old: u32) -> u32 {
    match random.below(6) {
        0 => old.wrapping_add(1),
        1 => old.wrapping_sub(1),
        2 => random.bits() as u32,
        3 => (random.bits() as u32) >> random.below(32),
        _ => random.pick(&NUMBERS),
    }
}

/// One damage to a list of numbers.
fn damage_numbers(random: &mut Random, numbers: &mut Vec<u32>) {
    if numbers.is_empty() {
        numbers.push(random.pick(&NUMBERS));
        return;
    }
    let at = random.below(numbers.len());
    let last = numbers.len() - 1;
    match random.below(13) {
        0 => numbers.truncate(at),
        1 => drop(numbers.pop()),
        2 => numbers.push(random.pick(&NUMBERS)),
        3 => drop(numbers.remove(at)),
        4 => numbers.insert(at, random.pick(&NUMBERS)),
        5 => {
            let other = random.below(numbers.len());
            numbers.swap(at, other);
        }
        6 if random.chance(20) => {
            let length = random.below(40);
            *numbers = (0..length).map(|_| other_number(random, 1)).collect();
        }
        7 => numbers[last] = other_number(random, numbers[last]),
        _ => numbers[at] = other_number(random, numbers[at]),
    }
}

/// A table of a faulty diagram, one of two versions, or a damaged table.
pub fn damaged_table(random: &mut Random) -> Vec<u32> {
    if random.chance(40) {
        return faulty_diagram(random).table();
    }
    let d = diagram(random);
    if random.chance(15) {
        return misfit_table(random, &d);
    }
    let mut table = d.table();
    for _ in 0..random.pick(&[1, 1, 1, 2, 4]) {
        damage_numbers(random, &mut table);
    }
    table
}

/// Cells taken apart: the values of each type, the rows of each predicate.
pub struct Parts {
    pub types: Vec<Vec<u32>>,
    pub preds: Vec<Vec<Vec<u32>>>,
}

impl Parts {
    fn new(d: &Diagram, mut cells: &[u32]) -> Parts {
        let mut part = |width: usize| {
            let (own, rest) = cells[1..].split_at(cells[0] as usize * width);
            cells = rest;
            own.to_vec()
        };
        let types = d.types.iter().map(|_| part(1)).collect();
        let mut preds = Vec::new();
        for width in d.preds.iter().map(|pred| pred.roles.len()) {
            let rows = part(width);
            preds.push(rows.chunks(width).map(<[u32]>::to_vec).collect());
        }
        Parts { types, preds }
    }

    /// Every value and cell of a row, with the index of its type.
    fn each_value(&mut self, d: &Diagram, mut change: impl FnMut(usize, &mut u32)) {
        for (a, values) in self.types.iter_mut().enumerate() {
            values.iter_mut().for_each(|value| change(a, value));
        }
        for (pred, rows) in d.preds.iter().zip(&mut self.preds) {
            for row in rows {
                let cells = pred.roles.iter().zip(row);
                cells.for_each(|(role, value)| change(role.kind as usize - 1, value));
            }
        }
    }

    /// The order of values and rows is free.
    fn shuffle(&mut self, random: &mut Random) {
        self.types.iter_mut().for_each(|v| random.shuffle(v));
        self.preds.iter_mut().for_each(|v| random.shuffle(v));
    }

    pub fn cells(&self) -> Vec<u32> {
        let mut cells = Vec::new();
        for values in &self.types {
            cells.push(values.len() as u32);
            cells.extend(values);
        }
        for rows in &self.preds {
            cells.push(rows.len() as u32);
            cells.extend(rows.iter().flatten());
        }
        cells
    }
}

/// The same population with other values: each root's are spread one to one
/// over its FIRST..LAST, or those up to the least LAST of a subtype over these
/// and the others over the rest, so that fewer leave their ranges.
fn rename(random: &mut Random, d: &Diagram, parts: &mut Parts) {
    let (factor, shift) = (
        random.pick(&[1, 3, 4099, 65_537]),
        random.bits() % 1_000_000,
    );
    let mut least: Vec<u32> = d.types.iter().map(|t| t.last).collect();
    if random.chance(60) {
        for a in ranged_subtypes(d) {
            let top = root(d, a);
            least[top] = least[top].min(d.types[a].last);
        }
    }
    parts.each_value(d, |kind, value| {
        let top = root(d, kind);
        let (first, last) = match *value <= least[top] {
            true => (d.types[top].first, least[top]),
            false => (least[top] + 1, d.types[top].last),
        };
        let extent = u64::from(last - first + 1);
        let factor = if extent % factor == 0 { 1 } else { factor };
        let place = u64::from(*value - first) * factor + shift;
        *value = first + (place % extent) as u32;
    });
}

/// A member of a subtype that gives a range changes places, wherever the two
/// stand, with a value above its LAST: often K3 at the subtype is all that this
/// breaks. Or it becomes a value below FIRST, in the subtype alone.
fn exchange(random: &mut Random, d: &Diagram, parts: &mut Parts) {
    let mut ranged = ranged_subtypes(d);
    ranged.retain(|a| !parts.types[*a].is_empty());
    if ranged.is_empty() {
        return;
    }
    let a = random.pick(&ranged);
    let at = random.below(parts.types[a].len());
    if random.chance(15) {
        parts.types[a][at] = d.types[a].first.saturating_sub(1);
        return;
    }
    let member = parts.types[a][at];
    let other = match random.chance(60) {
        true => d.types[a].last + 1,
        false => nearest_last(d, a),
    };
    let top = root(d, a);
    parts.each_value(d, |kind, value| {
        if root(d, kind) == top && *value == member {
            *value = other;
        } else if root(d, kind) == top && *value == other {
            *value = member;
        }
    });
}

/// A member of a type that must play, mostly a subtype where there is one, is
/// replaced by another in every role of the type.
fn replace(random: &mut Random, d: &Diagram, parts: &mut Parts) {
    let must = |a: &usize| d.must_play(*a) && parts.types[*a].len() > 1;
    let must: Vec<usize> = (0..d.types.len()).filter(must).collect();
    if must.is_empty() {
        return;
    }
    let a = match must.iter().rfind(|a| d.types[**a].over != 0) {
        Some(a) if random.chance(80) => *a,
        _ => random.pick(&must),
    };
    let (member, other) = (random.pick(&parts.types[a]), random.pick(&parts.types[a]));
    for (pred, rows) in d.preds.iter().zip(&mut parts.preds) {
        for row in rows.iter_mut() {
            for (role, cell) in pred.roles.iter().zip(row) {
                if role.kind as usize == a + 1 && *cell == member {
                    *cell = other;
                }
            }
        }
        rows.sort();
        rows.dedup();
    }
}

/// A member of a role becomes another of the same role, wherever it stands in
/// that role, or a member of the type that is not in the role takes the place of
/// one of two or more cells.
fn merge(random: &mut Random, d: &Diagram, parts: &mut Parts) {
    let r = random.below(d.preds.len());
    let column = random.below(d.preds[r].roles.len());
    let members = &parts.types[d.preds[r].roles[column].kind as usize - 1];
    let rows = &mut parts.preds[r];
    if rows.is_empty() {
        return;
    }
    let (one, other) = (random.below(rows.len()), random.below(rows.len()));
    let (member, into) = (rows[one][column], rows[other][column]);
    if random.chance(60) {
        for row in rows.iter_mut().filter(|row| row[column] == member) {
            row[column] = into;
        }
        rows.sort();
        rows.dedup();
    } else {
        let absent = |v: &&u32| rows.iter().all(|row| row[column] != **v);
        if let Some(value) = members.iter().find(absent) {
            rows[one][column] = *value;
        }
    }
}

/// Limits that a diagram's population just meets, or just breaks, on some roles
/// of version 2, and the population in another order. The diagram stays valid.
pub fn limit_beside(random: &mut Random, d: &mut Diagram, filled: &[u32]) -> Vec<u32> {
    let mut parts = Parts::new(d, filled);
    for _ in 0..random.pick(&[1, 1, 1, 2, 3]) {
        let r = random.below(d.preds.len());
        let column = random.below(d.preds[r].roles.len());
        let mut values: Vec<u32> = parts.preds[r].iter().map(|row| row[column]).collect();
        values.sort_unstable();
        values.dedup();
        let (size, rows) = (values.len() as u32, parts.preds[r].len() as u32);
        let role = &mut d.preds[r].roles[column];
        let (low, high) = match random.below(8) {
            0..2 => (role.rmin, size.saturating_sub(1)),
            2..4 => (size + 1, role.rmax),
            4 => (size, size),
            5 => (size + 1, size + random.between(1, 9)),
            6 => (random.between(1, size), size.saturating_sub(1)),
            // As the number of rows would have it.
            _ => (rows, rows),
        };
        role.rmax = high.clamp(1, 4096);
        role.rmin = low.clamp(1, role.rmax);
    }
    parts.shuffle(random);
    parts.cells()
}

/// One change to a population that keeps its sizes true.
fn change(random: &mut Random, d: &Diagram, parts: &mut Parts) {
    let (a, r) = (random.below(d.types.len()), random.below(d.preds.len()));
    let column = random.below(d.preds[r].roles.len());
    let played = d.preds[r].roles[column].kind as usize - 1;
    let known = parts.types[played].first().copied().unwrap_or(7);
    let known = match parts.types[played].len() {
        0 => known,
        _ => random.pick(&parts.types[played]),
    };
    let base = &d.types[root(d, a)];
    let base = match parts.types[root(d, a)].len() {
        0 => base.first,
        _ if random.chance(50) => random.between(base.first, base.last),
        _ => random.pick(&parts.types[root(d, a)]),
    };
    let values = &mut parts.types[a];
    let rows = &mut parts.preds[r];
    let count = rows.len();
    match random.below(35) {
        // A member more, a member fewer, a member changed, one twice, one in no role,
        // one outside its range.
        0..3 => values.push(match values.last() {
            Some(last) => last.wrapping_add(1),
            None => d.types[a].first,
        }),
        3 => drop(values.pop()),
        4 if !values.is_empty() => {
            let at = random.below(values.len());
            values[at] = other_number(random, values[at]);
        }
        5 if !values.is_empty() => {
            let (from, to) = (random.below(values.len()), random.below(values.len()));
            values[to] = values[from];
        }
        20..22 if !values.contains(&base) => values.push(base),
        22..24 if !values.is_empty() && !values.contains(&base) => {
            let at = random.below(values.len());
            values[at] = base;
        }
        24..27 => replace(random, d, parts),
        27..31 => exchange(random, d, parts),
        31.. => merge(random, d, parts),
        // A row twice, rows fewer, a row more, a cell changed.
        6 if count > 0 => {
            let (from, to) = (random.below(count), random.below(count));
            rows[to] = rows[from].clone();
        }
        7..10 if count > 1 => drop(rows.swap_remove(random.below(count))),
        10..12 => rows.truncate(random.below(count + 1)),
        12 if count > 0 => {
            let mut row = rows[random.below(count)].clone();
            row[column] = known;
            rows.push(row);
        }
        13 if count > 0 => {
            let row = random.below(count);
            rows[row][column] = other_number(random, rows[row][column]);
        }
        // Two cells of a column change places, or all of them turn by one.
        14 if count > 0 => {
            let (i, j) = (random.below(count), random.below(count));
            (rows[i][column], rows[j][column]) = (rows[j][column], rows[i][column]);
        }
        15 if count > 0 => {
            let mut cell = rows[count - 1][column];
            for row in rows {
                std::mem::swap(&mut row[column], &mut cell);
            }
        }
        // A cell, or every cell of a column, changed to a member of its type.
        16 if count > 0 => rows.iter_mut().for_each(|row| row[column] = known),
        _ if count > 0 => rows[random.below(count)][column] = known,
        _ => (),
    }
}

/// A random population: as many values as a type may have, at most six, and
/// rows of members.
fn random_parts(random: &mut Random, d: &Diagram) -> Parts {
    let mut types: Vec<Vec<u32>> = Vec::new();
    for t in &d.types {
        let size = random.between(t.min, t.max).min(t.min + 5) as usize;
        types.push(match t.over {
            0 => (t.first..).take(size).collect(),
            over => {
                let values = &types[over as usize - 1];
                values[..size.min(values.len())].to_vec()
            }
        });
    }
    let mut preds = Vec::new();
    for pred in &d.preds {
        let size = random.between(pred.min, pred.max).min(pred.min + 5);
        let mut row = || -> Vec<u32> {
            let roles = pred.roles.iter();
            roles
                .map(|role| random.pick(&types[role.kind as usize - 1]))
                .collect()
        };
        let mut rows: Vec<Vec<u32>> = (0..size).map(|_| row()).collect();
        if random.chance(90) {
            rows.sort();
            rows.dedup();
        }
        preds.push(rows);
    }
    Parts { types, preds }
}

/// Small random values with sizes that fit.
fn loose_cells(random: &mut Random, d: &Diagram) -> Vec<u32> {
    let mut cells = Vec::new();
    let widths = d.types.iter().map(|_| 1);
    let widths = widths.chain(d.preds.iter().map(|pred| pred.roles.len()));
    for width in widths {
        let size = random.below(4);
        cells.push(size as u32);
        cells.extend((0..size * width).map(|_| random.between(0, 4)));
    }
    cells
}

/// Cells for a diagram: its filled population, the same in another order,
/// damaged versions of it, and random cells.
pub fn cells(random: &mut Random, d: &Diagram, filled: &[u32]) -> Vec<u32> {
    let how = random.below(100);
    if filled.is_empty() || how < 15 {
        let mut cells = match random.chance(75) {
            true => random_parts(random, d).cells(),
            false => loose_cells(random, d),
        };
        if random.chance(20) {
            damage_numbers(random, &mut cells);
        }
        return cells;
    }
    let mut parts = Parts::new(d, filled);
    if random.chance(40) {
        rename(random, d, &mut parts);
    }
    if how < 40 {
        parts.shuffle(random);
    }
    match how {
        15..20 | 30..40 => (),
        20..30 | 40..75 => {
            for _ in 0..random.pick(&[1, 1, 1, 2, 3]) {
                change(random, d, &mut parts);
            }
        }
        75..80 => {
            // A size cell of any value.
            let sizes = parts.types.iter().map(|values| values.len() + 1);
            let at = sizes.take(random.below(d.types.len() + 1)).sum::<usize>();
            let mut cells = parts.cells();
            let size = cells[at];
            cells[at] = random.pick(&[0, 1, size + 1, size - 1, 4097, 1 << 31, u32::MAX]);
            return cells;
        }
        _ => {
            let mut cells = parts.cells();
            damage_numbers(random, &mut cells);
            return cells;
        }
    }
    parts.cells()
}

/// "The ceilings standing after n rounds", where a round before lowers nothing.
pub fn ended(d: &Diagram, n: usize) -> Option<Vec<u32>> {
    let mut old = starting(d);
    let mut new = old.clone();
    for _ in 0..n {
        round(d, &old, &mut new);
        if new == old {
            return Some(new);
        }
        std::mem::swap(&mut old, &mut new);
    }
    None
}

/// A diagram whose ceilings end soon, and where they end: so many limits are
/// examined at most.
pub fn ending_diagram(random: &mut Random, most: usize) -> (Diagram, Vec<u32>) {
    loop {
        let d = diagram(random);
        if let Some(end) = ended(&d, most / limits(&d).len()) {
            return (d, end);
        }
    }
}

/// The starting ceilings after some limits in random order.
fn lowered(random: &mut Random, d: &Diagram) -> Vec<u32> {
    let limits = limits(d);
    let mut ceilings = starting(d);
    for _ in 0..random.below(3 * limits.len()) {
        limits[random.below(limits.len())].lower(&mut ceilings);
    }
    ceilings
}

/// Ceilings of a diagram's sets: those of the start, on the way from there, at
/// the end, and any numbers, small ones, large ones and such whose product has
/// only zeros in its lowest bits. In half of the cases some are altered.
pub fn ceilings(random: &mut Random, d: &Diagram) -> Vec<u32> {
    let mut ceilings = match random.below(16) {
        0..2 => starting(d),
        2..6 => lowered(random, d),
        6..10 => ended(d, 200).unwrap_or_else(|| lowered(random, d)),
        how => {
            let most = random.pick(&[1, 3, 12]);
            let number = |_| match how {
                10..12 => random.between(0, most),
                12 => random.bits() as u32 >> random.below(32),
                13 => 1 << random.below(32),
                14 => random.pick(&[0, 1, 65_535, 65_536, 1 << 31, u32::MAX, u32::MAX]),
                _ => u32::MAX - random.between(0, 2),
            };
            (0..d.count_sets()).map(number).collect()
        }
    };
    if random.chance(50) {
        for _ in 0..random.pick(&[1, 1, 2, 6]) {
            let at = random.below(ceilings.len());
            ceilings[at] = match random.chance(20) {
                true => 1 << random.below(32),
                false => other_number(random, ceilings[at]),
            };
        }
    }
    ceilings
}

/// The sets whose ceilings are multiplied or added up.
fn operands(limit: &Limit) -> &[usize] {
    match &limit.value {
        Value::Times(_, set) => std::slice::from_ref(set),
        Value::Product(sets) | Value::Sum(sets) => sets,
        _ => &[],
    }
}

/// The number of a limit with operands, often with the most of them; its value
/// becomes about 32, 64, 128 or more bits long, in some cases with a 0 among its
/// factors, and the ceiling of its set any number.
pub fn widen(random: &mut Random, limits: &[Limit], ceilings: &mut [u32]) -> Option<u32> {
    let most = limits.iter().map(|limit| operands(limit).len()).max()?;
    let least = random.pick(&[1, 2, most, most]).min(most);
    let wide = |number: &usize| operands(&limits[*number]).len() >= least;
    let wide: Vec<usize> = (0..limits.len()).filter(wide).collect();
    let number = random.pick(&wide);
    let limit = &limits[number];
    ceilings[limit.set] = random.bits() as u32 >> random.below(32);
    let power = random.pick(&[8, 11, 16, 16, 22, 26, 31]);
    let zeros = random.chance(30);
    for set in operands(limit) {
        ceilings[*set] = match random.below(10) {
            0 if zeros => 0,
            1 => random.bits() as u32,
            2 => u32::MAX,
            _ => 1 << power,
        };
    }
    Some(number as u32)
}

/// A limit's number: mostly one of so many, often the last, or past it, also by
/// one bit alone.
pub fn limit_number(random: &mut Random, count: usize) -> u32 {
    let count = count as u32;
    match random.below(20) {
        0..13 => random.between(0, count - 1),
        13 => random.between(0, count - 1) | 1 << random.between(8, 31),
        14..16 => count - 1,
        16 => count,
        17 => count + random.between(0, 9),
        18 => other_number(random, count),
        _ => u32::MAX,
    }
}

/// The predicates in which some combinations occur more than once, as sets from 1:
/// not every number of rows can be had of them.
fn repeating(d: &Diagram) -> Vec<u32> {
    let repeats = |(_, pred): &(u32, &Predicate)| pred.groups.iter().any(|group| group.fmin > 1);
    let numbered = (d.types.len() as u32 + 1..).zip(&d.preds);
    numbered.filter(repeats).map(|(set, _)| set).collect()
}

/// The number of a set, from 1: often of a kind chosen before, or of any; the
/// first, the last; or no set's number: 0, just past the last, past it by one bit
/// alone, and any number.
pub fn set_number(random: &mut Random, d: &Diagram) -> u32 {
    let repeating = repeating(d);
    let counts = [
        d.types.len(),
        d.preds.len(),
        d.count_roles(),
        d.count_groups(),
    ];
    let all = d.count_sets() as u32;
    match random.below(40) {
        kind @ 0..20 if counts[kind % 4] > 0 => {
            let before: usize = counts[..kind % 4].iter().sum();
            (before + 1 + random.below(counts[kind % 4])) as u32
        }
        20..28 if !repeating.is_empty() => random.pick(&repeating),
        0..34 => random.between(1, all),
        34..36 => random.pick(&[1, all]),
        36 => all + 1,
        37 => 0,
        38 => random.between(1, all) | 1 << random.between(8, 31),
        _ => other_number(random, all),
    }
}

/// A diagram that mostly has a population: of up to three the first that
/// settles, else the last.
pub fn settling_diagram(random: &mut Random) -> Diagram {
    for _ in 0..random.pick(&[0, 1, 2, 2, 2]) {
        let d = diagram(random);
        if settle(&d).is_ok() {
            return d;
        }
    }
    diagram(random)
}

/// Combinations of groups that may be used more often: FMAX is raised in most
/// groups and MAX in predicates, and a predicate whose roles are all in one group
/// gets another role, since it has no more rows than combinations without.
fn use_more(random: &mut Random, d: &mut Diagram) {
    let types = d.types.len() as u32;
    let mut left = 96 - d.count_roles();
    for pred in &mut d.preds {
        let alone = pred.groups.len() == 1 && pred.roles.iter().all(|role| role.group == 1);
        if alone && pred.roles.len() < 6 && left > 0 {
            pred.roles.push(Role {
                kind: random.between(1, types),
                mand: 0,
                group: 0,
                rmin: 1,
                rmax: 4096,
            });
            left -= 1;
        }
        if random.chance(80) {
            pred.max = random.between(pred.max, 4096);
        }
        for group in &mut pred.groups {
            let most = random.pick(&[group.fmax, 3, 6, 12, 100, 4096]);
            group.fmax = random.between(group.fmax, most.max(group.fmax));
        }
    }
}

/// Fewer rows than settle in most predicates with groups: any number of them, not
/// below MIN, so that they divide evenly or not.
fn fewer_rows(random: &mut Random, d: &mut Diagram) {
    let Ok((_, sizes)) = settle(d) else { return };
    for (pred, size) in d.preds.iter_mut().zip(&sizes[d.types.len()..]) {
        if !pred.groups.is_empty() && random.chance(75) {
            let low = random.pick(&[pred.min, *size / 2, *size * 3 / 4]);
            pred.max = random.between(low.max(pred.min), *size);
        }
    }
}

/// A diagram that mostly has groups and a population, in which combinations are
/// often used more than once.
pub fn used_diagram(random: &mut Random) -> Diagram {
    let mut d = settling_diagram(random);
    if d.count_groups() == 0 && random.chance(80) {
        d = settling_diagram(random);
    }
    if random.chance(85) {
        use_more(random, &mut d);
        fewer_rows(random, &mut d);
    }
    d
}

/// The groups, as sets from 1, whose predicate's size is no multiple of theirs.
fn uneven(d: &Diagram) -> Vec<u32> {
    let Ok((_, sizes)) = settle(d) else {
        return Vec::new();
    };
    let mut groups = d.count_sets() - d.count_groups()..;
    let mut uneven = Vec::new();
    for (pred, r) in d.preds.iter().zip(&sizes[d.types.len()..]) {
        let own = groups.by_ref().take(pred.groups.len());
        let odd = own.filter(|group| r % sizes[*group] != 0);
        uneven.extend(odd.map(|group| group as u32 + 1));
    }
    uneven
}

/// A set's number, from 1, mostly that of a group: often of one that does not
/// divide evenly, of any, the first or the last. Or no group's: that of another
/// set, often the last one before the groups, 0, just past the last, a group's
/// with one bit more, any number, the largest.
pub fn group_number(random: &mut Random, d: &Diagram) -> u32 {
    let (all, groups) = (d.count_sets() as u32, d.count_groups() as u32);
    let (others, uneven) = (all - groups, uneven(d));
    match random.below(60) {
        0..28 if !uneven.is_empty() => random.pick(&uneven),
        0..48 if groups > 0 => random.between(others + 1, all),
        48..50 if groups > 0 => random.pick(&[others + 1, all]),
        50 => others,
        51 => 0,
        52 => all + 1,
        53 => random.between(others, all) | 1 << random.between(8, 31),
        54 => other_number(random, all),
        55 => u32::MAX,
        _ => random.between(1, others),
    }
}

/// A size wanted of the set of this index: about that which it settles at, half
/// of it, any that it may have, about its floor and its starting ceiling, past
/// all of these by one bit alone, 0, and any number.
pub fn wanted(random: &mut Random, d: &Diagram, set: usize) -> u32 {
    let (floor, ceiling) = (floors(d)[set], starting(d)[set]);
    let size = settle(d).map_or(floor, |(_, sizes)| sizes[set]);
    match random.below(40) {
        0..6 => size,
        6..9 => size + 1,
        9..12 => size - 1,
        12..15 => (size / 2).max(1),
        15..24 => random.between(floor.min(size), size),
        24..27 => size + random.between(1, 9),
        27 => size + random.pick(&[1 << 16, 1 << 24, 1 << 31]),
        28 => floor,
        29 => floor - 1,
        30 => floor + 1,
        31 => ceiling,
        32 => ceiling + 1,
        33 => ceiling - 1,
        34 => 0,
        35 => random.pick(&[4095, 4096, 4097]),
        36 => u32::MAX,
        37 => other_number(random, size),
        _ => random.between(1, 12),
    }
}

/// A size about the last of the table of common multiples, of the table, small,
/// or past it.
fn edge_size(random: &mut Random) -> u32 {
    match random.below(16) {
        0..5 => random.pick(&[63, 64, 64, 65, 65]),
        5..10 => random.between(1, 64),
        10 => random.pick(&[1, 2, 16, 32, 48, 60, 62]),
        11..13 => random.between(2, 16),
        13..15 => random.between(65, 130),
        _ => random.pick(&[66, 96, 128, 1024, 4095, 4096]),
    }
}

/// The sizes of a predicate's roles: two of the table, two about its edge, or
/// first such that are 63, 64, 65 or so together, and one or two others.
fn edge_sizes(random: &mut Random) -> Vec<u32> {
    const FACTORS: [&[u32]; 16] = [
        &[7, 9],
        &[3, 21],
        &[8, 8],
        &[4, 16],
        &[16, 4],
        &[2, 32],
        &[64, 1],
        &[4, 4, 4],
        &[2, 8, 4],
        &[5, 13],
        &[13, 5],
        &[1, 65],
        &[6, 11],
        &[9, 8],
        &[2, 3, 11],
        &[10, 10],
    ];
    match random.below(20) {
        0..9 => vec![random.between(1, 64), random.between(1, 64)],
        9..14 => vec![edge_size(random), edge_size(random)],
        how => {
            let mut sizes = random.pick(&FACTORS).to_vec();
            sizes.push(edge_size(random));
            if how == 19 {
                sizes.push(random.between(1, 9));
            }
            sizes
        }
    }
}

/// A diagram that pairs sets of sizes about the last of the table of common
/// multiples. Each role has a type of its own, as large as the role is to be, or
/// larger with an RMAX. The first roles are often a group, and there are mostly as
/// many rows as can be.
pub fn edge_diagram(random: &mut Random) -> Diagram {
    let version = random.pick(&[1, 1, 2]);
    let mut d = Diagram {
        version,
        types: Vec::new(),
        preds: Vec::new(),
    };
    for _ in 0..random.pick(&[1, 1, 2, 3]) {
        let sizes = edge_sizes(random);
        let named = match random.below(10) {
            0..3 => sizes.len() - 1,
            3 => 1,
            _ => 0,
        };
        let mut roles = Vec::new();
        for (place, size) in sizes.iter().enumerate() {
            let more = match version == 2 && random.chance(40) {
                true => random.between(0, 40),
                false => 0,
            };
            let max = (size + more).min(4096);
            let first = random.pick(&[0, 1, 1, 999_999 - max]);
            d.types.push(Type {
                min: 1,
                max,
                first,
                last: first + max - 1,
                over: 0,
                indep: 1,
            });
            roles.push(Role {
                kind: d.types.len() as u32,
                mand: 0,
                group: u32::from(place < named),
                rmin: 1,
                rmax: if more > 0 { *size } else { 4096 },
            });
        }
        // The group's roles come first in a pairing wherever they stand.
        if random.chance(30) {
            random.shuffle(&mut roles);
        }
        let fmin = random.pick(&[1, 1, 1, 2]);
        let fmax = random.pick(&[fmin, 4096, 4096, 4096]);
        let max = match random.below(20) {
            0..12 => 4096,
            12..14 => random.pick(&[63, 64, 65, 126, 128, 130]),
            14..18 => (sizes[0] * random.between(1, 64)).clamp(2, 4095) + 1 - random.between(0, 2),
            _ => random.between(1, 4096),
        };
        d.preds.push(Predicate {
            min: 1,
            max,
            roles,
            groups: (0..named.min(1)).map(|_| Group { fmin, fmax }).collect(),
        });
    }
    if random.chance(15) {
        tighten(random, &mut d);
    }
    d
}

/// A size wanted of the set of this index: about the last of the table of common
/// multiples where it may have that, or any.
pub fn edge_wanted(random: &mut Random, d: &Diagram, set: usize) -> u32 {
    let size = settle(d).map_or(1, |(_, sizes)| sizes[set]);
    let wanted = random.pick(&[62, 63, 64, 64, 65, 65, 66]);
    match wanted <= size && random.chance(75) {
        true => wanted,
        false if random.chance(60) => size,
        false => self::wanted(random, d, set),
    }
}

/// Lent space with these numbers at its front: just long enough, longer with
/// anything behind them, or too short for all of them.
pub fn lent_with(random: &mut Random, mut numbers: Vec<u32>) -> Vec<u32> {
    let length = match random.below(10) {
        0..4 => numbers.len(),
        4..8 => numbers.len() + 1 + random.below(9),
        _ => lent(random, numbers.len()),
    };
    numbers.truncate(length);
    numbers.resize_with(length, || random.bits() as u32);
    numbers
}

/// A lent length for a result: enough, one too short, none, more. Any length
/// where there is no result.
pub fn lent(random: &mut Random, needed: usize) -> usize {
    let needed = match needed {
        0 => random.below(100),
        _ => needed,
    };
    match random.below(10) {
        0..4 => needed,
        4..6 => needed.saturating_sub(1),
        6 => 0,
        7 => random.below(needed + 1),
        _ => needed + 1 + random.below(9),
    }
}

/// Lent space filled with a pattern, so that every write shows.
pub fn pattern<T>(random: &mut Random, length: usize, number: impl Fn(u64) -> T) -> Vec<T> {
    (0..length).map(|_| number(random.bits())).collect()
}
