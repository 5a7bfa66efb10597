//! Seeded random inputs of the validator with many members and rows: a population
//! is made first, then a diagram whose limits it meets, mostly closely, then a
//! fault or two in one of them.

use crate::random::{nearest_last, root, Parts, Random};
use crate::{Diagram, Group, Predicate, Role, Type};

/// The most members or rows that are made, more than a diagram allows.
const MOST: usize = 4700;

/// A size: none, a few, about 16, about 64, hundreds, thousands, about 4096, or
/// past it.
fn size(random: &mut Random) -> usize {
    let size = match random.below(100) {
        0 => 0,
        1..18 => random.between(1, 9),
        18..29 => random.between(15, 18),
        29..40 => random.between(62, 66),
        40..68 => random.between(100, 999),
        68..84 => random.between(1000, 4094),
        84..97 => random.pick(&[4095, 4096, 4096]),
        97 => 4097,
        _ => random.between(4098, MOST as u32),
    };
    size as usize
}

/// A root, or a subtype of an earlier type, as yet without limits.
fn kind(random: &mut Random, own: u32) -> Type {
    let over = match own > 1 && random.chance(55) {
        true => random.between(1, own - 1),
        false => 0,
    };
    Type {
        min: 1,
        max: 4096,
        first: 0,
        last: 0,
        over,
        indep: 1,
    }
}

/// A predicate of one to four roles, some of them in groups, as yet without
/// limits.
fn predicate(random: &mut Random, types: u32) -> Predicate {
    let width = random.pick(&[1, 2, 2, 2, 3, 3, 4]);
    let count = random.below(width.min(3) + 1);
    let mut names: Vec<u32> = (1..=count as u32).collect();
    names.resize_with(width, || random.between(0, count as u32));
    random.shuffle(&mut names);
    let role = |group: u32| Role {
        kind: random.between(1, types),
        mand: 0,
        group,
        rmin: 1,
        rmax: 4096,
    };
    let group = Group {
        fmin: 1,
        fmax: 4096,
    };
    Predicate {
        min: 1,
        max: 4096,
        roles: names.into_iter().map(role).collect(),
        groups: vec![group; count],
    }
}

/// Few types and predicates, of either version.
fn net(random: &mut Random) -> Diagram {
    let (types, preds) = (random.between(1, 4), random.between(1, 3));
    Diagram {
        version: random.between(1, 2),
        types: (1..=types).map(|own| kind(random, own)).collect(),
        preds: (0..preds).map(|_| predicate(random, types)).collect(),
    }
}

/// Half of the lists stay as they are; others are turned around, begun elsewhere,
/// have two items in each other's place, or are shuffled.
fn reorder<T>(random: &mut Random, items: &mut [T]) {
    let count = items.len().max(1);
    let (one, other) = (random.below(count), random.below(count));
    match random.below(10) {
        _ if items.is_empty() => (),
        0..5 => (),
        5 => items.reverse(),
        6 => items.rotate_left(one),
        7 => items.swap(one, other),
        _ => random.shuffle(items),
    }
}

/// An index: any, the first, the last, or one from 4095 on.
fn spot(random: &mut Random, count: usize) -> usize {
    match random.below(8) {
        0 => 0,
        1 => count - 1,
        2 if count > 4096 => random.between(4095, count as u32 - 1) as usize,
        _ => random.below(count),
    }
}

/// So many rising values up to 999999: by one, by one but for one place, or with
/// small or wide gaps.
fn rising(random: &mut Random, count: usize) -> Vec<u32> {
    let gap = match random.below(10) {
        0..6 => 1,
        6..8 => random.between(2, 4),
        _ => 1_000_000 / (count as u32 + 1),
    };
    let jump = match random.chance(25) {
        true => random.below(count + 1),
        false => 0,
    };
    let mut values = vec![0; count];
    for i in 1..count {
        values[i] = values[i - 1] + random.between(1, gap) + u32::from(gap == 1 && i == jump);
    }
    let room = 999_999 - values.last().map_or(0, |last| *last);
    let start = match random.below(6) {
        0 => 0,
        1 | 2 => 1.min(room),
        3 => room,
        _ => random.between(0, room),
    };
    values.iter().map(|value| value + start).collect()
}

/// Members of a subtype, in the order of its supertype's: all of them, the first,
/// the last, or any.
fn subset(random: &mut Random, over: &[u32]) -> Vec<u32> {
    let at = random.below(over.len().max(1));
    match random.below(6) {
        0 => over.to_vec(),
        1 => over[..over.len().min(at + 1)].to_vec(),
        2 => over[at..].to_vec(),
        _ => {
            let percent = random.pick(&[5, 50, 90, 99]);
            let mut some = over.to_vec();
            some.retain(|v| *v == over[at] || random.chance(percent));
            some
        }
    }
}

/// Members of a root, often as many as the first type has; in some cases one of
/// them gives way to the next behind the last.
fn root_members(random: &mut Random, first: Option<&Vec<u32>>) -> Vec<u32> {
    let count = match first {
        Some(members) if random.chance(40) => members.len(),
        _ => size(random),
    };
    let mut own = rising(random, count);
    let past = own.last().map_or(u32::MAX, |last| last + 1);
    if past <= 999_999 && random.chance(15) {
        own[spot(random, count)] = past;
    }
    own
}

/// The members of all types, each in an order of its own.
fn members(random: &mut Random, d: &Diagram) -> Vec<Vec<u32>> {
    let mut types: Vec<Vec<u32>> = Vec::new();
    for t in &d.types {
        let mut own = match t.over {
            0 => root_members(random, types.first()),
            over => subset(random, &types[over as usize - 1]),
        };
        if t.over != 0 && random.chance(30) {
            own.sort_unstable();
        }
        reorder(random, &mut own);
        types.push(own);
    }
    types
}

/// What may stand in a role: mostly all members of its type, all but one, the
/// first of them or the last, or a few.
fn column(random: &mut Random, members: &[u32]) -> Vec<u32> {
    let mut own = members.to_vec();
    let (half, count) = (own.len() / 2, own.len());
    match random.below(12) {
        0..3 if count > 1 => {
            own.swap_remove(random.below(count));
        }
        3 => own.truncate(count - half),
        4 => own = own.split_off(half),
        5 => own.truncate(random.between(1, 5) as usize),
        _ => (),
    }
    if random.chance(50) {
        random.shuffle(&mut own);
    }
    own
}

/// Different tuples of indices below sizes, of which two make them differ: one
/// index changes every so many tuples, the other each time. The others are any.
fn keyed(
    random: &mut Random,
    sizes: &[usize],
    (slow, fast): (usize, usize),
    count: usize,
) -> Vec<Vec<usize>> {
    let least = count.div_ceil(sizes[slow]);
    let run = match random.chance(70) {
        true => least,
        false => random.between(least as u32, sizes[fast] as u32) as usize,
    };
    let ways: Vec<usize> = sizes.iter().map(|_| random.below(3)).collect();
    let mut index = |i: usize, c: usize| match ways[c] {
        _ if c == slow => i / run,
        _ if c == fast => i % sizes[c],
        0 => i % sizes[c],
        1 => i / run % sizes[c],
        _ => random.below(sizes[c]),
    };
    let mut tuple = |i: usize| (0..sizes.len()).map(|c| index(i, c)).collect();
    (0..count).map(&mut tuple).collect()
}

/// So many different tuples of indices below sizes, or all where there are fewer.
fn tuples(random: &mut Random, sizes: &[usize], wanted: usize) -> Vec<Vec<usize>> {
    let all: usize = sizes.iter().product();
    let count = wanted.min(all);
    let (slow, fast) = (random.below(sizes.len()), random.below(sizes.len()));
    let keys = slow != fast && sizes[slow] * sizes[fast] >= count;
    if count > 0 && keys && random.chance(85) {
        return keyed(random, sizes, (slow, fast), count);
    }
    // Primes above every size, which leave out none of the tuples.
    let (start, step) = (
        random.below(all.max(1)),
        random.pick(&[1, 65_537, 1_000_003]),
    );
    let tuple = |i: usize| {
        let mut rest = (start + i * step) % all;
        let mut digit = |size: &usize| {
            let own = rest % size;
            rest /= size;
            own
        };
        sizes.iter().map(&mut digit).collect()
    };
    (0..count).map(tuple).collect()
}

/// The columns of a group, or of the one role where it is in none, and the
/// combinations that may stand in them.
struct Block {
    columns: Vec<usize>,
    combinations: Vec<Vec<usize>>,
}

/// The blocks of a predicate of so many rows: a group's combinations are to occur
/// about equally often.
fn blocks(random: &mut Random, pred: &Predicate, sizes: &[usize], wanted: usize) -> Vec<Block> {
    let mut blocks = Vec::new();
    for (group, _) in (1..).zip(&pred.groups) {
        let own = |c: &usize| pred.roles[*c].group == group;
        let columns: Vec<usize> = (0..sizes.len()).filter(own).collect();
        let own: Vec<usize> = columns.iter().map(|c| sizes[*c]).collect();
        let times = random.pick(&[1, 1, 1, 2, 2, 3, 4, 16, 64]);
        let combinations = tuples(random, &own, (wanted / times).max(1));
        blocks.push(Block {
            columns,
            combinations,
        });
    }
    for (c, role) in pred.roles.iter().enumerate() {
        if role.group == 0 {
            blocks.push(Block {
                columns: vec![c],
                combinations: (0..sizes[c]).map(|i| vec![i]).collect(),
            });
        }
    }
    blocks
}

/// As many rows as a role has members, the largest or any, a multiple of these, or
/// any number.
fn wanted_rows(random: &mut Random, sizes: &[usize]) -> usize {
    let largest = sizes.iter().max().map_or(0, |most| *most);
    let times = random.pick(&[1, 1, 1, 2, 2, 3, 5]);
    let wanted = match random.below(10) {
        0..5 => largest * times,
        5..7 => random.pick(sizes) * times,
        _ => size(random),
    };
    match random.chance(85) {
        true => wanted.min(4096),
        false => wanted.min(MOST),
    }
}

/// A row more that differs from another in one role, if it differs from all.
fn add_row(random: &mut Random, columns: &[Vec<u32>], rows: &mut Vec<Vec<u32>>) {
    let c = random.below(columns.len());
    if rows.is_empty() {
        return;
    }
    let mut row = rows[random.below(rows.len())].clone();
    row[c] = random.pick(&columns[c]);
    if !rows.contains(&row) {
        rows.push(row);
    }
}

/// Different rows of a predicate; in some cases one more or one less than its
/// combinations come out even with.
fn rows(random: &mut Random, pred: &Predicate, columns: &[Vec<u32>]) -> Vec<Vec<u32>> {
    let sizes: Vec<usize> = columns.iter().map(Vec::len).collect();
    let wanted = wanted_rows(random, &sizes);
    let blocks = blocks(random, pred, &sizes, wanted);
    let counts: Vec<usize> = blocks.iter().map(|b| b.combinations.len()).collect();
    let mut rows = Vec::new();
    for tuple in tuples(random, &counts, wanted) {
        let mut row = vec![0; columns.len()];
        for (block, at) in blocks.iter().zip(tuple) {
            for (c, index) in block.columns.iter().zip(&block.combinations[at]) {
                row[*c] = columns[*c][*index];
            }
        }
        rows.push(row);
    }
    match random.below(8) {
        0 | 1 => add_row(random, columns, &mut rows),
        2 if rows.len() > 1 => {
            rows.swap_remove(random.below(rows.len()));
        }
        3 => rows.sort_unstable(),
        _ => (),
    }
    reorder(random, &mut rows);
    rows
}

/// A population in which nothing repeats and rows hold members.
fn population(random: &mut Random, d: &Diagram) -> Parts {
    let types = members(random, d);
    let mut preds = Vec::new();
    for pred in &d.preds {
        let mut columns = Vec::new();
        for role in &pred.roles {
            columns.push(column(random, &types[role.kind as usize - 1]));
        }
        preds.push(rows(random, pred, &columns));
    }
    Parts { types, preds }
}

/// The different values of a column, in rising order.
fn standing(rows: &[Vec<u32>], c: usize) -> Vec<u32> {
    let mut values: Vec<u32> = rows.iter().map(|row| row[c]).collect();
    values.sort_unstable();
    values.dedup();
    values
}

/// How many values are not in a rising list.
fn absent(values: &[u32], list: &[u32]) -> usize {
    let out = |v: &&u32| list.binary_search(v).is_err();
    values.iter().filter(out).count()
}

/// How many members of a role's type do not stand in the role.
fn idle(d: &Diagram, parts: &Parts, r: usize, c: usize) -> usize {
    let members = &parts.types[d.preds[r].roles[c].kind as usize - 1];
    absent(members, &standing(&parts.preds[r], c))
}

/// How many members of a type stand in no role that it plays.
fn unused(d: &Diagram, parts: &Parts, a: usize) -> usize {
    let mut played = Vec::new();
    for (pred, rows) in d.preds.iter().zip(&parts.preds) {
        for (c, role) in pred.roles.iter().enumerate() {
            if role.kind as usize == a + 1 {
                played.extend(standing(rows, c));
            }
        }
    }
    played.sort_unstable();
    absent(&parts.types[a], &played)
}

/// The fewest and the most rows that a combination of a group occurs in.
fn uses(pred: &Predicate, group: u32, rows: &[Vec<u32>]) -> (usize, usize) {
    let mut all = vec![[0; 4]; rows.len()];
    for (own, row) in all.iter_mut().zip(rows) {
        for (c, role) in pred.roles.iter().enumerate() {
            own[c] = if role.group == group { row[c] } else { 0 };
        }
    }
    all.sort_unstable();
    let counts = || all.chunk_by(|a, b| a == b).map(<[_]>::len);
    (counts().min().unwrap_or(0), counts().max().unwrap_or(0))
}

/// Two limits, 1 to 4096, that sizes from the one to the other meet, if any do.
fn limits(random: &mut Random, least: usize, most: usize) -> (u32, u32) {
    let least = least.clamp(1, 4096) as u32;
    let most = most.clamp(1, 4096) as u32;
    let low = match random.below(4) {
        0 => 1,
        1 => random.between(1, least),
        _ => least,
    };
    let high = match random.below(4) {
        0 => 4096,
        1 => random.between(most, 4096),
        _ => most,
    };
    (low, high)
}

/// A number from one to another: mostly one of the two.
fn about(random: &mut Random, least: u32, most: u32) -> u32 {
    match random.below(4) {
        0 => most,
        1 => random.between(least, most),
        _ => least,
    }
}

/// Ranges that all members are in, of roots and of some subtypes.
fn fit_ranges(random: &mut Random, d: &mut Diagram, parts: &Parts) {
    for (a, values) in parts.types.iter().enumerate() {
        let lowest = values.iter().min().map_or(1, |v| *v);
        let highest = values.iter().max().map_or(lowest, |v| *v);
        if d.types[a].over == 0 {
            d.types[a].first = lowest - about(random, 0, lowest);
            d.types[a].last = about(random, highest, 999_999);
        } else if random.chance(50) {
            let first = d.types[root(d, a)].first;
            let most = nearest_last(d, a);
            d.types[a].first = first;
            d.types[a].last = about(random, highest.clamp(first, most), most);
        }
    }
}

/// Limits of a predicate that its rows meet, also of its roles and groups.
fn fit_pred(random: &mut Random, d: &mut Diagram, parts: &Parts, r: usize) {
    let rows = &parts.preds[r];
    let (min, max) = limits(random, rows.len(), rows.len());
    for c in 0..d.preds[r].roles.len() {
        let all = idle(d, parts, r, c) == 0;
        let role = &mut d.preds[r].roles[c];
        role.mand = u32::from(all && random.chance(70));
        if d.version == 2 && random.chance(60) {
            let found = standing(rows, c).len();
            (role.rmin, role.rmax) = limits(random, found, found);
        }
    }
    let pred = &mut d.preds[r];
    (pred.min, pred.max) = (min, max);
    for g in 0..pred.groups.len() {
        let (least, most) = uses(pred, g as u32 + 1, rows);
        let (fmin, fmax) = limits(random, least, most);
        pred.groups[g] = Group { fmin, fmax };
    }
}

/// All limits of a diagram, met by a population but where it has none or more
/// than 4096 of something.
fn fit(random: &mut Random, d: &mut Diagram, parts: &Parts) {
    fit_ranges(random, d, parts);
    for r in 0..d.preds.len() {
        fit_pred(random, d, parts, r);
    }
    for (a, values) in parts.types.iter().enumerate() {
        let free = d.types[a].over != 0 && !d.plays(a);
        let idle = !free && unused(d, parts, a) > 0;
        let t = &mut d.types[a];
        t.indep = u32::from(idle || random.chance(20));
        (t.min, t.max) = limits(random, values.len(), values.len());
    }
}

/// One of the indices below a count of which something holds, if it holds of any.
fn any_of(random: &mut Random, count: usize, holds: impl Fn(usize) -> bool) -> Option<usize> {
    let mut some: Vec<usize> = (0..count).collect();
    some.retain(|i| holds(*i));
    (!some.is_empty()).then(|| random.pick(&some))
}

/// An item again, in the place of another or before it, often near by.
fn repeat<T: Clone>(random: &mut Random, items: &mut Vec<T>) {
    let (count, one) = (items.len(), spot(random, items.len()));
    let other = match random.below(3) {
        0 => (one + 1) % count,
        _ => spot(random, count),
    };
    let item = items[one].clone();
    match other != one && random.chance(60) {
        true => items[other] = item,
        false => items.insert(other, item),
    }
}

/// Limits that a size misses by one, the least of sizes or the most.
fn miss(random: &mut Random, low: &mut u32, high: &mut u32, sizes: (usize, usize)) -> bool {
    let (least, most) = (sizes.0 as u32, sizes.1 as u32);
    match random.chance(50) {
        true if (2..=4096).contains(&most) => {
            *high = most - 1;
            *low = (*low).min(*high);
        }
        _ if (1..4096).contains(&least) => {
            *low = least + 1;
            *high = (*high).max(*low);
        }
        _ => return false,
    }
    true
}

/// A number beside a value, at an end of a range or past it, of the range, or
/// with another high bit.
fn near(random: &mut Random, value: u32, (first, last): (u32, u32)) -> u32 {
    match random.below(9) {
        0 => value.wrapping_add(1),
        1 => value.wrapping_sub(1),
        2 => first.wrapping_sub(1),
        3 => last + 1,
        4 => value ^ 1 << random.between(12, 31),
        5 => random.pick(&[0, 1_000_000, u32::MAX, 1 << 31]),
        6 => random.pick(&[first, last]),
        _ => random.between(first, last),
    }
}

/// A number near a value that is not among some, and meets a condition, if one is
/// found soon.
fn stranger(
    random: &mut Random,
    value: u32,
    range: (u32, u32),
    values: &[u32],
    fits: impl Fn(u32) -> bool,
) -> Option<u32> {
    let numbers: Vec<u32> = (0..20).map(|_| near(random, value, range)).collect();
    let new = |v: &u32| fits(*v) && !values.contains(v);
    numbers.into_iter().find(new)
}

/// The index of a list of so many items at least, often of one past 4096 if there
/// is one.
fn longer<T>(random: &mut Random, lists: &[Vec<T>], least: usize) -> Option<usize> {
    let long = any_of(random, lists.len(), |i| lists[i].len() > 4096);
    match random.chance(60) {
        true if long.is_some() => long,
        _ => any_of(random, lists.len(), |i| lists[i].len() >= least),
    }
}

/// K1: one to three repeats among the members of a type.
fn repeat_member(random: &mut Random, parts: &mut Parts) -> bool {
    let a = longer(random, &parts.types, 2);
    for _ in 0..random.pick(&[1, 1, 1, 2, 3]) {
        a.iter().for_each(|a| repeat(random, &mut parts.types[*a]));
    }
    a.is_some()
}

/// K2: limits that the size of a type misses.
fn miss_type(random: &mut Random, d: &mut Diagram, parts: &Parts) -> bool {
    let a = random.below(d.types.len());
    let (t, found) = (&mut d.types[a], parts.types[a].len());
    miss(random, &mut t.min, &mut t.max, (found, found))
}

/// The ranges of subtypes begin with their root's and end with those above at the
/// latest.
fn mend_ranges(d: &mut Diagram) {
    for a in 0..d.types.len() {
        if d.types[a].over != 0 && d.types[a].range().is_some() {
            let (first, most) = (d.types[root(d, a)].first, nearest_last(d, a));
            let t = &mut d.types[a];
            (t.first, t.last) = (first, t.last.clamp(first, most));
        }
    }
}

/// K3: a range that ends before the highest member or begins after the lowest.
fn narrow(d: &mut Diagram, parts: &Parts, a: usize, end: bool) -> bool {
    let (values, t) = (&parts.types[a], &mut d.types[a]);
    let (lowest, highest) = (values.iter().min(), values.iter().max());
    match (end, lowest, highest) {
        (true, _, Some(v)) if *v > t.first && *v <= 999_999 => t.last = v - 1,
        (false, Some(v), _) if t.over == 0 && *v < t.last => t.first = v + 1,
        _ => return false,
    }
    mend_ranges(d);
    true
}

/// K3: a narrower range, or a member out of it.
fn leave_range(random: &mut Random, d: &mut Diagram, parts: &mut Parts) -> bool {
    let ranged = |a: usize| d.types[a].range().is_some() && !parts.types[a].is_empty();
    let Some(a) = any_of(random, d.types.len(), ranged) else {
        return false;
    };
    if random.chance(50) {
        let end = random.chance(60);
        return narrow(d, parts, a, end);
    }
    let (first, last) = (d.types[a].first, d.types[a].last);
    let values = &mut parts.types[a];
    let out = |v: u32| v < first || v > last;
    let (value, at) = (random.pick(values), spot(random, values.len()));
    let found = stranger(random, value, (first, last), values, out);
    found.iter().for_each(|v| values[at] = *v);
    found.is_some()
}

/// K4: a member of a subtype, within its range, that its supertype does not have.
fn leave_supertype(random: &mut Random, d: &Diagram, parts: &mut Parts) -> bool {
    let subtype = |a: usize| d.types[a].over != 0 && !parts.types[a].is_empty();
    let Some(a) = any_of(random, d.types.len(), subtype) else {
        return false;
    };
    let top = &d.types[root(d, a)];
    let over = &parts.types[d.types[a].over as usize - 1];
    let range = d.types[a].range();
    let fits = |v: u32| range.is_none_or(|(first, last)| first <= v && v <= last);
    let (value, at) = (
        random.pick(&parts.types[a]),
        spot(random, parts.types[a].len()),
    );
    let found = stranger(random, value, (top.first, top.last), over, fits);
    found.iter().for_each(|v| parts.types[a][at] = *v);
    found.is_some()
}

/// K5: a row that repeats.
fn repeat_row(random: &mut Random, parts: &mut Parts) -> bool {
    let r = longer(random, &parts.preds, 2);
    r.iter().for_each(|r| repeat(random, &mut parts.preds[*r]));
    r.is_some()
}

/// K6: limits that the number of rows misses.
fn miss_pred(random: &mut Random, d: &mut Diagram, parts: &Parts) -> bool {
    let r = random.below(d.preds.len());
    let (pred, found) = (&mut d.preds[r], parts.preds[r].len());
    miss(random, &mut pred.min, &mut pred.max, (found, found))
}

/// K7: a value in a row that the type of its role does not have; often all else in
/// the row is as in another.
fn leave_type(random: &mut Random, d: &Diagram, parts: &mut Parts) -> bool {
    let Some(r) = any_of(random, d.preds.len(), |r| !parts.preds[r].is_empty()) else {
        return false;
    };
    let c = random.below(d.preds[r].roles.len());
    let a = d.preds[r].roles[c].kind as usize - 1;
    let top = &d.types[root(d, a)];
    let rows = &mut parts.preds[r];
    let (one, at) = (spot(random, rows.len()), spot(random, rows.len()));
    let range = (top.first, top.last);
    let Some(v) = stranger(random, rows[one][c], range, &parts.types[a], |_| true) else {
        return false;
    };
    if random.chance(40) {
        rows[at] = rows[one].clone();
    }
    rows[at][c] = v;
    true
}

/// K8: a mandatory role without some member, mostly without one alone.
fn miss_mandatory(random: &mut Random, d: &mut Diagram, parts: &Parts) -> bool {
    let most = random.pick(&[1, 1, 1, usize::MAX]);
    let mut places = Vec::new();
    for (r, pred) in d.preds.iter().enumerate() {
        let short = |c: &usize| (1..=most).contains(&idle(d, parts, r, *c));
        places.extend((0..pred.roles.len()).filter(short).map(|c| (r, c)));
    }
    if places.is_empty() {
        return false;
    }
    let (r, c) = random.pick(&places);
    d.preds[r].roles[c].mand = 1;
    true
}

/// K9: a frequency that the combinations used most or least often miss.
fn miss_frequency(random: &mut Random, d: &mut Diagram, parts: &Parts) -> bool {
    let Some(r) = any_of(random, d.preds.len(), |r| !d.preds[r].groups.is_empty()) else {
        return false;
    };
    let g = random.below(d.preds[r].groups.len());
    let found = uses(&d.preds[r], g as u32 + 1, &parts.preds[r]);
    let Group { fmin, fmax } = &mut d.preds[r].groups[g];
    miss(random, fmin, fmax, found)
}

/// K10: a type that is not independent, with members in no role that it plays,
/// mostly with one alone.
fn miss_role(random: &mut Random, d: &mut Diagram, parts: &Parts) -> bool {
    let most = random.pick(&[1, 1, 1, usize::MAX]);
    let must = |a: usize| d.types[a].over == 0 || d.plays(a);
    let idle = |a: usize| must(a) && (1..=most).contains(&unused(d, parts, a));
    let a = any_of(random, d.types.len(), idle);
    a.iter().for_each(|a| d.types[*a].indep = 0);
    a.is_some()
}

/// K11: limits that the members in a role miss.
fn miss_limit(random: &mut Random, d: &mut Diagram, parts: &Parts) -> bool {
    let r = random.below(d.preds.len());
    let c = random.below(d.preds[r].roles.len());
    let role = &mut d.preds[r].roles[c];
    let found = standing(&parts.preds[r], c).len();
    d.version = 2;
    miss(random, &mut role.rmin, &mut role.rmax, (found, found))
}

/// One fault of a kind; whether there is a place for it.
fn spoil(random: &mut Random, kind: usize, d: &mut Diagram, parts: &mut Parts) -> bool {
    match kind {
        0..2 => repeat_member(random, parts),
        2 => miss_type(random, d, parts),
        3..5 => leave_range(random, d, parts),
        5..8 => leave_supertype(random, d, parts),
        8..10 => repeat_row(random, parts),
        10 => miss_pred(random, d, parts),
        11..13 => leave_type(random, d, parts),
        13..17 => miss_mandatory(random, d, parts),
        17..20 => miss_frequency(random, d, parts),
        20..26 => miss_role(random, d, parts),
        _ => miss_limit(random, d, parts),
    }
}

/// Some faults, often of one kind at two places.
fn spoil_all(random: &mut Random, d: &mut Diagram, parts: &mut Parts) {
    let mut left = random.pick(&[0, 0, 0, 1, 1, 1, 1, 1, 1, 2, 2, 2, 3]);
    let mut kind = random.below(29);
    for _ in 0..9 {
        if left == 0 {
            return;
        }
        let found = spoil(random, kind, d, parts);
        left -= u32::from(found);
        if !found || random.chance(60) {
            kind = random.below(29);
        }
    }
}

/// Where the sizes stand in the cells.
fn size_cells(parts: &Parts) -> Vec<usize> {
    let (mut places, mut at) = (Vec::new(), 0);
    let types = parts.types.iter().map(Vec::len);
    let preds = parts
        .preds
        .iter()
        .map(|rows| rows.iter().map(Vec::len).sum());
    for length in types.chain(preds) {
        places.push(at);
        at += 1 + length;
    }
    places
}

/// Cells missing at the end or too many, or a size that does not fit, also one
/// that fits in its lowest bits.
fn misfit(random: &mut Random, cells: &mut Vec<u32>, sizes: &[usize]) {
    let at = random.pick(sizes);
    match random.below(8) {
        0 | 1 => cells.truncate(cells.len() - 1),
        2 | 3 => cells.push(random.pick(&[0, 1, u32::MAX])),
        4 => cells.truncate(random.below(cells.len())),
        5 => cells[at] = cells[at].wrapping_add(random.pick(&[1, u32::MAX])),
        _ => cells[at] |= 1 << random.pick(&[13, 16, 24, 29, 30, 30, 31, 31]),
    }
}

/// A diagram's table and cells for it: a population, mostly with a fault or two.
pub fn input(random: &mut Random) -> (Vec<u32>, Vec<u32>) {
    let mut d = net(random);
    let mut parts = population(random, &d);
    fit(random, &mut d, &parts);
    spoil_all(random, &mut d, &mut parts);
    let mut cells = parts.cells();
    if random.chance(5) {
        misfit(random, &mut cells, &size_cells(&parts));
    }
    (d.table(), cells)
}
