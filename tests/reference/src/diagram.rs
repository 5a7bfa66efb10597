//! The diagram, its lines and the refusals 1 to 6.

use crate::Refusal;

/// "`type=MIN,MAX,FIRST,LAST,SUPER,INDEP`".
#[derive(Clone, Debug, PartialEq, Eq)]
pub struct Type {
    pub min: u32,
    pub max: u32,
    pub first: u32,
    pub last: u32,
    pub over: u32,
    pub indep: u32,
}

impl Type {
    /// FIRST and LAST where the type gives them, as every root does: "A pair
    /// 0,0 on a subtype still means none" (document 02, S-5).
    pub fn range(&self) -> Option<(u32, u32)> {
        let pair = (self.first, self.last);
        (self.over == 0 || pair != (0, 0)).then_some(pair)
    }
}

/// "`role=TYPE,MAND,GROUP`", and "two more numbers after GROUP, RMIN and RMAX,
/// 1..4096, the fewest and most different members in that role" (document 02,
/// S-8).
#[derive(Clone, Debug, PartialEq, Eq)]
pub struct Role {
    pub kind: u32,
    pub mand: u32,
    pub group: u32,
    pub rmin: u32,
    pub rmax: u32,
}

/// "`freq=FMIN,FMAX`".
#[derive(Clone, Debug, PartialEq, Eq)]
pub struct Group {
    pub fmin: u32,
    pub fmax: u32,
}

/// "`pred=MIN,MAX,ROLES,GROUPS`, its lines `role=..`, its lines `freq=..`".
#[derive(Clone, Debug, PartialEq, Eq)]
pub struct Predicate {
    pub min: u32,
    pub max: u32,
    pub roles: Vec<Role>,
    pub groups: Vec<Group>,
}

/// The numbers as they stand in the file: "Types and predicates count from 1
/// in the file, groups from 1 within their predicate." The version is that of
/// the first line, 1 or 2; in version 1 every RMIN is 1 and every RMAX 4096.
#[derive(Clone, Debug, PartialEq, Eq)]
pub struct Diagram {
    pub version: u32,
    pub types: Vec<Type>,
    pub preds: Vec<Predicate>,
}

impl Diagram {
    /// "Lines in this order, no others"; `end=` "the number of role lines".
    fn each_line(&self, mut line: impl FnMut(&str, &[u32])) {
        line("diagram", &[self.version]);
        line("types", &[self.types.len() as u32]);
        for t in &self.types {
            line("type", &[t.min, t.max, t.first, t.last, t.over, t.indep]);
        }
        line("preds", &[self.preds.len() as u32]);
        for p in &self.preds {
            let (roles, groups) = (p.roles.len() as u32, p.groups.len() as u32);
            line("pred", &[p.min, p.max, roles, groups]);
            for role in &p.roles {
                let limited = [role.kind, role.mand, role.group, role.rmin, role.rmax];
                line("role", &limited[..role_width(self.version)]);
            }
            for group in &p.groups {
                line("freq", &[group.fmin, group.fmax]);
            }
        }
        line("end", &[self.count_roles() as u32]);
    }

    /// "The table form holds the same numbers in file order, 32 bits unsigned
    /// each, nothing after them."
    pub fn table(&self) -> Vec<u32> {
        let mut table = Vec::new();
        self.each_line(|_, numbers| table.extend_from_slice(numbers));
        table
    }

    /// The text form of the same lines.
    pub fn text(&self) -> Vec<u8> {
        let mut text = String::new();
        self.each_line(|key, numbers| {
            text += key;
            for (i, number) in numbers.iter().enumerate() {
                text.push(if i == 0 { '=' } else { ',' });
                text += &number.to_string();
            }
            text.push('\n');
        });
        text.into_bytes()
    }

    /// The roles of all predicates, in file order.
    pub fn roles(&self) -> impl Iterator<Item = &Role> {
        self.preds.iter().flat_map(|p| &p.roles)
    }

    /// The number of roles of all predicates.
    pub fn count_roles(&self) -> usize {
        self.roles().count()
    }

    /// The number of groups of all predicates.
    pub fn count_groups(&self) -> usize {
        self.preds.iter().map(|p| p.groups.len()).sum()
    }

    /// The number of sets: "types, predicates, roles, groups".
    pub fn count_sets(&self) -> usize {
        self.types.len() + self.preds.len() + self.count_roles() + self.count_groups()
    }

    /// Whether a role has this very type, which is given by its index.
    pub fn plays(&self, a: usize) -> bool {
        self.roles().any(|role| role.kind as usize == a + 1)
    }

    /// Whether the type has the sum limit and K10: "a non-independent subtype that
    /// plays no role is free of the sum limit and of K10" (document 02, S-2).
    pub fn must_play(&self, a: usize) -> bool {
        let t = &self.types[a];
        t.indep == 0 && (t.over == 0 || self.plays(a))
    }
}

/// How many numbers a role line has, in any version but 1 five: "In files that begin `diagram=2` a role
/// line has two more"; "In `diagram=1` they .. are not written" (document 02,
/// S-8).
pub fn role_width(version: u32) -> usize {
    match version {
        1 => 3,
        _ => 5,
    }
}

/// A source of lines: the text, or the table "cut into the same lines".
pub trait Lines {
    /// The numbers of the next line, none where the line is refused with 1.
    fn next(&mut self, key: &str, count: usize) -> Option<[u32; 6]>;
    /// Whether nothing is left after the last line.
    fn ended(&self) -> bool;
}

/// "Ranges: the first line 1; MIN, MAX, FMIN, FMAX 1..4096; FIRST, LAST
/// 0..999999; SUPER 0..32 (0: none); INDEP, MAND 0..1; ROLES 1..6; GROUPS
/// 0..6; TYPE 1..32; GROUP 0..6". "`end` has no range of its own." Document
/// 02, S-8: "2 now allows 1..2 on the first line", "RMIN and RMAX, 1..4096".
const DIAGRAM: [(u32, u32); 1] = [(1, 2)];
const TYPES: [(u32, u32); 1] = [(1, 32)];
const TYPE: [(u32, u32); 6] = [
    (1, 4096),
    (1, 4096),
    (0, 999_999),
    (0, 999_999),
    (0, 32),
    (0, 1),
];
const PREDS: [(u32, u32); 1] = [(1, 32)];
const PRED: [(u32, u32); 4] = [(1, 4096), (1, 4096), (1, 6), (0, 6)];
const ROLE: [(u32, u32); 5] = [(1, 32), (0, 1), (0, 6), (1, 4096), (1, 4096)];
const FREQ: [(u32, u32); 2] = [(1, 4096), (1, 4096)];
const END: [(u32, u32); 1] = [(0, u32::MAX)];

/// A source of lines and the number of the line taken last.
struct Scan<L> {
    lines: L,
    line: u64,
}

impl<L: Lines> Scan<L> {
    /// The next line, refused with 1 for its form or 2 for "a number out of
    /// range". "A missing line has the number it would have had".
    fn take(&mut self, key: &str, ranges: &[(u32, u32)]) -> Result<[u32; 6], Refusal> {
        self.line += 1;
        let numbers = self.lines.next(key, ranges.len());
        self.refuse_if(1, numbers.is_none())?;
        let numbers = numbers.unwrap_or_default();
        let out = |(n, range): (&u32, &(u32, u32))| *n < range.0 || *n > range.1;
        self.refuse_if(2, numbers.iter().zip(ranges).any(out))?;
        Ok(numbers)
    }

    /// A refusal at the line taken last.
    fn refuse_if(&self, number: u32, condition: bool) -> Result<(), Refusal> {
        if condition {
            return Err(Refusal::at(number, self.line));
        }
        Ok(())
    }
}

/// "The first offending line decides; within it 1, 2, 3, 4, 5, 6."
pub fn scan(lines: impl Lines) -> Result<Diagram, Refusal> {
    let mut scan = Scan { lines, line: 0 };
    let version = scan.take("diagram", &DIAGRAM)?[0];
    let count = scan.take("types", &TYPES)?[0];
    let mut types = Vec::new();
    for _ in 0..count {
        types.push(scan_type(&mut scan, &types)?);
    }
    let (mut roles, mut groups) = (0, 0);
    let mut preds = Vec::new();
    for _ in 0..scan.take("preds", &PREDS)?[0] {
        let pred = scan_pred(&mut scan, version, count, &mut roles, &mut groups)?;
        preds.push(pred);
    }
    // 6: "`end` is not the number of roles".
    let end = scan.take("end", &END)?[0];
    scan.refuse_if(6, end != roles)?;
    // "surplus after the last line is 1 at the next".
    scan.line += 1;
    scan.refuse_if(1, !scan.lines.ended())?;
    Ok(Diagram {
        version,
        types,
        preds,
    })
}

/// 3: "SUPER not below own number"; 4: "MIN above MAX", and a pair of FIRST
/// and LAST that is not allowed. The types are those of the lines before.
fn scan_type(scan: &mut Scan<impl Lines>, types: &[Type]) -> Result<Type, Refusal> {
    let [min, max, first, last, over, indep] = scan.take("type", &TYPE)?;
    scan.refuse_if(3, over as usize > types.len())?;
    let t = Type {
        min,
        max,
        first,
        last,
        over,
        indep,
    };
    scan.refuse_if(4, min > max || !pair_allowed(&t, types))?;
    Ok(t)
}

/// Of a root, not "FIRST above LAST". "A subtype may now give FIRST and LAST
/// if FIRST is its root's FIRST and LAST is not below FIRST, nor above the
/// LAST of the nearest type above it that gives one" (document 02, S-5).
fn pair_allowed(t: &Type, types: &[Type]) -> bool {
    let Some((first, last)) = t.range() else {
        return true;
    };
    // The types above, from the supertype to the root; none above a root.
    let over = |t: &Type| types.get(t.over.checked_sub(1)? as usize);
    let above = || std::iter::successors(over(t), |t| over(t));
    let root = above().last().unwrap_or(t);
    let nearest = above().find_map(Type::range);
    first == root.first && first <= last && nearest.is_none_or(|(_, most)| last <= most)
}

/// "At most 96 roles and 48 groups in all; the `pred` line that passes either
/// total is out of range." 3: "TYPE above T; GROUP above GROUPS"; 4: "MIN
/// above MAX, FMIN above FMAX"; 5: "a frequency group that no role names". RMIN
/// and RMAX "in `diagram=1` .. read as 1 and 4096"; "4 also where RMIN is above
/// RMAX" (document 02, S-8).
fn scan_pred(
    scan: &mut Scan<impl Lines>,
    version: u32,
    types: u32,
    all_roles: &mut u32,
    all_groups: &mut u32,
) -> Result<Predicate, Refusal> {
    let [min, max, role_count, group_count, ..] = scan.take("pred", &PRED)?;
    *all_roles += role_count;
    *all_groups += group_count;
    scan.refuse_if(2, *all_roles > 96 || *all_groups > 48)?;
    scan.refuse_if(4, min > max)?;
    let mut roles = Vec::new();
    for _ in 0..role_count {
        let numbers = scan.take("role", &ROLE[..role_width(version)])?;
        let [kind, mand, group, given @ .., _] = numbers;
        let [rmin, rmax] = if version == 1 { [1, 4096] } else { given };
        scan.refuse_if(3, kind > types || group > group_count)?;
        scan.refuse_if(4, rmin > rmax)?;
        roles.push(Role {
            kind,
            mand,
            group,
            rmin,
            rmax,
        });
    }
    let mut groups = Vec::new();
    for own in 1..=group_count {
        let [fmin, fmax, ..] = scan.take("freq", &FREQ)?;
        scan.refuse_if(4, fmin > fmax)?;
        scan.refuse_if(5, roles.iter().all(|role| role.group != own))?;
        groups.push(Group { fmin, fmax });
    }
    Ok(Predicate {
        min,
        max,
        roles,
        groups,
    })
}

/// "A table is cut into the same lines, and a line cut short is 1."
struct Table<'a>(&'a [u32]);

impl Lines for Table<'_> {
    fn next(&mut self, _: &str, count: usize) -> Option<[u32; 6]> {
        let (line, rest) = self.0.split_at_checked(count)?;
        self.0 = rest;
        let mut numbers = [0; 6];
        numbers[..count].copy_from_slice(line);
        Some(numbers)
    }

    fn ended(&self) -> bool {
        self.0.is_empty()
    }
}

/// "every other call takes the table".
pub fn form(table: &[u32]) -> Result<Diagram, Refusal> {
    scan(Table(table))
}
