//! A set of just so many members, S-1 of document 02.

use reference::random::{damaged_table, diagram, Random};
use reference::{check, form, found, populate, prescribe, read, validate};
use reference::{Diagram, Group, Predicate, Refusal, Role, Settled, Type};

const SAMPLE: &str = include_str!("../../../examples/sample.txt");

/// The sample's sizes: types, predicate, roles, group.
const SETTLED: [u32; 6] = [3, 2, 6, 3, 2, 3];

/// Longer than all cells of the diagrams here.
const SPACE: usize = 600_000;

fn table(text: &str) -> Vec<u32> {
    let mut table = [0; 900];
    let length = read(text.as_bytes(), &mut table).unwrap();
    table[..length].to_vec()
}

/// The rounds and the cells, or the refusal.
fn prescribed(table: &[u32], set: u32, wanted: u32) -> Result<(u64, Vec<u32>), Refusal> {
    let mut cells = vec![0; SPACE];
    let Settled { rounds, length } = prescribe(table, set, wanted, &mut cells)?;
    Ok((rounds, cells[..length].to_vec()))
}

/// The sizes of all sets in the cells, which must be a population.
fn sizes(table: &[u32], set: u32, wanted: u32) -> Vec<usize> {
    let (_, cells) = prescribed(table, set, wanted).unwrap();
    let verdict = validate(table, &cells).unwrap();
    assert_eq!((verdict.constraint, verdict.number), (0, 0));
    let sizes = found(&form(table).unwrap(), &cells).unwrap();
    assert_eq!(sizes[set as usize - 1], wanted as usize);
    sizes
}

/// The number, place and round of a refusal.
fn refused(table: &[u32], set: u32, wanted: u32) -> (u32, u64, u64) {
    let refusal = prescribed(table, set, wanted).unwrap_err();
    (refusal.number, refusal.place, refusal.round)
}

fn at(number: u32, place: u64, round: u64) -> Refusal {
    Refusal {
        number,
        place,
        round,
    }
}

#[test]
fn the_sample_with_so_many_rows() {
    let table = table(SAMPLE);
    // Four rows: every member of the first type, which is in a mandatory role,
    // in one or two of them.
    let cells = [3, 1, 2, 3, 2, 1, 2, 4, 1, 1, 2, 2, 3, 1, 1, 2];
    assert_eq!(prescribed(&table, 3, 4), Ok((3, cells.to_vec())));
    assert_eq!(sizes(&table, 3, 4), [3, 2, 4, 3, 2, 3]);
    assert_eq!(sizes(&table, 3, 5), [3, 2, 5, 3, 2, 3]);
    assert_eq!(sizes(&table, 3, 3), [3, 2, 3, 3, 2, 3]);
    // Fewer rows leave fewer members of the types, neither of which is
    // independent.
    assert_eq!(sizes(&table, 3, 2), [2, 2, 2, 2, 2, 2]);
    assert_eq!(sizes(&table, 3, 1), [1, 1, 1, 1, 1, 1]);
    // No more than six: 7 is within MAX, and the rounds say so.
    assert_eq!(refused(&table, 3, 7), (11, 3, 3));
    assert_eq!(refused(&table, 3, 100), (11, 3, 3));
    assert_eq!(refused(&table, 3, 101), (11, 3, 0));
}

#[test]
fn a_type_a_role_and_a_group() {
    let table = table(SAMPLE);
    assert_eq!(sizes(&table, 1, 2), [2, 2, 4, 2, 2, 2]);
    assert_eq!(sizes(&table, 2, 1), [3, 1, 3, 3, 1, 3]);
    // The mandatory role is as large as its type, and alone in its group.
    assert_eq!(sizes(&table, 4, 2), [2, 2, 4, 2, 2, 2]);
    assert_eq!(sizes(&table, 6, 2), [2, 2, 4, 2, 2, 2]);
    // The other role is all that its type plays.
    assert_eq!(sizes(&table, 5, 1), [3, 1, 3, 3, 1, 3]);
    assert_eq!(refused(&table, 4, 4), (11, 4, 1));
    assert_eq!(refused(&table, 6, 4), (11, 6, 2));
    assert_eq!(refused(&table, 5, 3), (11, 5, 1));
    // An independent type keeps its members that are in no role.
    let free = self::table(&SAMPLE.replace("type=1,2,1,2,0,0", "type=1,2,1,2,0,1"));
    assert_eq!(sizes(&free, 5, 1), [3, 2, 3, 3, 1, 3]);
    // A group of two roles, whose combinations are prescribed.
    let both = SAMPLE.replace("role=2,0,0", "role=2,0,1");
    let both = self::table(&both.replace("freq=1,2", "freq=1,1"));
    assert_eq!(sizes(&both, 6, 5), [3, 2, 5, 3, 2, 5]);
    assert_eq!(refused(&both, 6, 7), (11, 6, 2));
}

#[test]
fn combinations_that_occur_twice_each() {
    let table = table(&SAMPLE.replace("freq=1,2", "freq=2,2"));
    for even in [2, 4, 6] {
        assert_eq!(sizes(&table, 3, even)[2], even as usize);
    }
    // The group has at most half as many, so that an odd number is never made.
    assert_eq!(refused(&table, 3, 1), (11, 6, 1));
    assert_eq!(refused(&table, 3, 3), (11, 3, 2));
    assert_eq!(refused(&table, 3, 5), (11, 3, 2));
}

#[test]
fn the_settled_size_changes_nothing() {
    let table = table(SAMPLE);
    let mut cells = [0; 20];
    let settled = populate(&table, &mut cells).unwrap();
    for (set, size) in (1..).zip(SETTLED) {
        let (rounds, found) = prescribed(&table, set, size).unwrap();
        assert_eq!(found, cells);
        // From a lower start it may take fewer rounds.
        assert!(rounds <= settled.rounds);
    }
    assert_eq!(prescribed(&table, 1, 3).unwrap().0, settled.rounds);
    assert_eq!(prescribed(&table, 3, 6).unwrap().0, 3);
}

#[test]
fn sizes_outside_the_bounds_are_refused_in_round_0() {
    let table = table(SAMPLE);
    for set in 1..=6 {
        let place = u64::from(set);
        for wanted in [0, 4097, 65536 + 3, 1 << 31, u32::MAX] {
            assert_eq!(refused(&table, set, wanted), (11, place, 0));
        }
    }
    // Above LAST - FIRST + 1, above MAX, and below MIN.
    assert_eq!(refused(&table, 1, 4), (11, 1, 0));
    let least = self::table(&SAMPLE.replace("pred=1,100", "pred=3,100"));
    assert_eq!(refused(&least, 3, 2), (11, 3, 0));
    assert_eq!(sizes(&least, 3, 3)[2], 3);
    // Below RMIN and above RMAX.
    let limited = SAMPLE.replace("diagram=1", "diagram=2");
    let limited = limited.replace("role=1,1,1", "role=1,1,1,2,3");
    let limited = self::table(&limited.replace("role=2,0,0", "role=2,0,0,1,1"));
    assert_eq!(refused(&limited, 4, 1), (11, 4, 0));
    assert_eq!(refused(&limited, 5, 2), (11, 5, 0));
    assert_eq!(sizes(&limited, 4, 2), [2, 1, 2, 2, 1, 2]);
}

#[test]
fn the_set_named_may_be_another() {
    // Three members of the first type at least, each in a row.
    let table = table(&SAMPLE.replace("type=1,3,1,9,0,0", "type=3,3,1,9,0,0"));
    assert_eq!(refused(&table, 3, 2), (11, 1, 2));
    assert_eq!(refused(&table, 4, 2), (11, 1, 1));
    assert_eq!(refused(&table, 6, 2), (11, 1, 2));
    assert_eq!(sizes(&table, 3, 3)[0], 3);
}

#[test]
fn an_emptied_diagram_is_refused_with_11() {
    // P2, P3 and P8 are emptied later, P9 at the start by its first set.
    let p9 = table(&SAMPLE.replace("type=1,3,1,9,0,0", "type=3,5,1,2,0,1"));
    assert_eq!(populate(&p9, &mut []), Err(at(7, 1, 0)));
    for wanted in [0, 1, 6, 101, u32::MAX] {
        assert_eq!(refused(&p9, 3, wanted), (11, 1, 0));
    }
    let p8 = SAMPLE.replace("types=2", "types=3");
    let p8 = table(&p8.replace("preds=1", "type=1,5,1,5,0,0\npreds=1"));
    assert_eq!(populate(&p8, &mut []), Err(at(7, 3, 1)));
    assert_eq!(refused(&p8, 4, 6), (11, 3, 1));
    assert_eq!(refused(&p8, 4, 0), (11, 4, 0));
    let p3 = "diagram=1\ntypes=2\ntype=1,10,1,10,0,0\ntype=1,2,1,2,0,0\npreds=1\n\
        pred=1,100,2,1\nrole=1,0,1\nrole=2,0,0\nfreq=3,3\nend=2\n";
    let p3 = table(p3);
    assert_eq!(populate(&p3, &mut []), Err(at(7, 6, 12)));
    // The wanted size is a floor that is passed before the others.
    assert_eq!(refused(&p3, 1, 10), (11, 1, 6));
    for (set, wanted) in (1..=6).flat_map(|set| [(set, 1), (set, 2), (set, 3)]) {
        assert_eq!(refused(&p3, set, wanted).0, 11);
    }
}

#[test]
fn refusals_in_their_order() {
    let sound = table(SAMPLE);
    let faulty = sound[..27].to_vec();
    // 10, at that number, before 11 and 8.
    for set in [0, 7, 8, 4096, 65537, 1 << 31, u32::MAX] {
        for wanted in [0, 1, 3, u32::MAX] {
            let place = u64::from(set);
            assert_eq!(
                prescribe(&sound, set, wanted, &mut []),
                Err(at(10, place, 0))
            );
            // After 1 to 6.
            assert_eq!(prescribe(&faulty, set, wanted, &mut []), Err(at(1, 10, 0)));
        }
    }
    // 8, at the length needed, and nothing written; just enough and longer.
    for length in 0..16 {
        let mut short = vec![7; length];
        assert_eq!(prescribe(&sound, 3, 4, &mut short), Err(at(8, 16, 0)));
        // 11 however short the space is.
        assert_eq!(prescribe(&sound, 3, 7, &mut short), Err(at(11, 3, 3)));
        assert_eq!(prescribe(&sound, 3, 0, &mut short), Err(at(11, 3, 0)));
        assert_eq!(short, vec![7; length]);
    }
    for length in [16, 17, 20] {
        let mut cells = vec![7; length];
        let done = Settled {
            rounds: 3,
            length: 16,
        };
        assert_eq!(prescribe(&sound, 3, 4, &mut cells), Ok(done));
        assert_eq!(cells[14..16], [1, 2]);
        assert!(cells[16..].iter().all(|cell| *cell == 7));
    }
}

#[test]
fn a_damaged_table_is_refused_as_its_form_is() {
    let mut random = Random::new(1);
    let mut refused = [0; 7];
    for _ in 0..3000 {
        let table = damaged_table(&mut random);
        let Err(refusal) = form(&table) else { continue };
        refused[refusal.number as usize] += 1;
        for set in [0, 1, u32::MAX] {
            assert_eq!(prescribe(&table, set, 0, &mut [5; 3]), Err(refusal));
        }
    }
    assert!(refused[1..].iter().all(|cases| *cases > 0), "{refused:?}");
}

#[test]
fn every_set_at_its_settled_size() {
    let mut random = Random::new(111);
    let (mut settled, mut emptied) = (0, 0);
    let mut cells = vec![0; SPACE];
    for _ in 0..300 {
        let table = diagram(&mut random).table();
        let mut sizes = [0; 208];
        let Ok(Settled { length, .. }) = check(&table, &mut sizes) else {
            emptied += 1;
            let set = 1 + random.below(form(&table).unwrap().count_sets()) as u32;
            let wanted = random.between(0, 9);
            let refusal = prescribe(&table, set, wanted, &mut cells).unwrap_err();
            assert_eq!(refusal.number, 11);
            continue;
        };
        settled += 1;
        let plain = populate(&table, &mut cells).unwrap().length;
        let plain = cells[..plain].to_vec();
        for _ in 0..3 {
            let set = random.below(length);
            let same = prescribe(&table, set as u32 + 1, sizes[set], &mut cells).unwrap();
            assert_eq!(cells[..same.length], plain);
            let above = prescribe(&table, set as u32 + 1, sizes[set] + 1, &mut cells);
            assert_eq!(above.unwrap_err().number, 11);
        }
    }
    assert!(settled > 50 && emptied > 50, "{settled} {emptied}");
}

/// A type of a tiny diagram: the first has up to three values; the second is
/// below it or has up to two.
fn tiny_type(random: &mut Random, over: u32, values: u32) -> Type {
    let max = random.between(1, values);
    Type {
        min: random.pick(&[1, 1, 1, 1, 1, max]),
        max,
        first: if over == 0 { 5 } else { 0 },
        last: if over == 0 { 4 + values } else { 0 },
        over,
        indep: random.pick(&[0, 1, 1]),
    }
}

/// Two types and one predicate of two roles, with few populations.
fn tiny(random: &mut Random) -> Diagram {
    let over = random.between(0, 1);
    let types = vec![tiny_type(random, 0, 3 - over), tiny_type(random, over, 2)];
    let (groups, second) = random.pick(&[(0, 0), (1, 0), (1, 1), (2, 2)]);
    let mut role = |group: u32| {
        let rmax = random.pick(&[1, 2, 3, 4096, 4096]);
        Role {
            kind: random.between(1, 2),
            mand: random.pick(&[0, 0, 1]),
            group,
            rmin: random.pick(&[1, 1, 1, 1, 1, rmax.min(3)]),
            rmax,
        }
    };
    let roles = vec![role(groups.min(1)), role(second)];
    let mut group = || {
        let fmax = random.between(1, 3);
        Group {
            fmin: random.pick(&[1, 1, fmax]),
            fmax,
        }
    };
    let groups = (0..groups).map(|_| group()).collect();
    let max = random.between(1, 9);
    let pred = Predicate {
        min: random.pick(&[1, 1, 1, 1, 1, max]),
        max,
        roles,
        groups,
    };
    Diagram {
        version: 2,
        types,
        preds: vec![pred],
    }
}

/// The items whose bits are set.
fn subset<T: Clone>(items: &[T], bits: u32) -> Vec<T> {
    let chosen = items.iter().enumerate().filter(|(i, _)| bits >> i & 1 == 1);
    chosen.map(|(_, item)| item.clone()).collect()
}

/// The sizes of every population that meets a tiny diagram's constraints, with
/// any values of the first type's range and rows of members.
fn every_population(d: &Diagram) -> Vec<Vec<usize>> {
    let table = d.table();
    let values: Vec<u32> = (d.types[0].first..=d.types[0].last).collect();
    let subsets = || (1..1 << values.len()).map(|bits| subset(&values, bits));
    let mut all = Vec::new();
    for (one, two) in subsets().flat_map(|one| subsets().map(move |two| (one.clone(), two))) {
        let members = |role: usize| match d.preds[0].roles[role].kind {
            1 => one.as_slice(),
            _ => two.as_slice(),
        };
        let with = |a: &u32| members(1).iter().map(|b| [*a, *b]).collect::<Vec<_>>();
        let rows: Vec<[u32; 2]> = members(0).iter().flat_map(with).collect();
        for bits in 1..1 << rows.len() {
            let rows = subset(&rows, bits);
            let sizes = [one.len(), two.len(), rows.len()].map(|n| n as u32);
            let mut cells = [&sizes[..1], &one, &sizes[1..2], &two, &sizes[2..]].concat();
            cells.extend(rows.concat());
            if validate(&table, &cells).unwrap().constraint == 0 {
                all.push(found(d, &cells).unwrap());
            }
        }
    }
    all
}

#[test]
fn refused_with_11_exactly_where_no_population_has_the_size() {
    let mut random = Random::new(1111);
    let (mut made, mut refused, mut others) = (0, 0, 0);
    for _ in 0..300 {
        let d = tiny(&mut random);
        let (table, all) = (d.table(), every_population(&d));
        for (set, wanted) in (0..d.count_sets()).flat_map(|set| (0..11).map(move |n| (set, n))) {
            let having = || all.iter().filter(|sizes| sizes[set] == wanted);
            if having().next().is_none() {
                let refusal = prescribed(&table, set as u32 + 1, wanted as u32).unwrap_err();
                assert_eq!(refusal.number, 11);
                refused += 1;
                others += usize::from(refusal.place != set as u64 + 1);
                continue;
            }
            // "the others as large as they can then be".
            let most = |other: usize| having().map(|sizes| sizes[other]).max().unwrap();
            let most: Vec<usize> = (0..d.count_sets()).map(most).collect();
            assert_eq!(sizes(&table, set as u32 + 1, wanted as u32), most);
            made += 1;
        }
    }
    assert!(
        made > 1000 && refused > 500 && others > 100,
        "{made} {refused} {others}"
    );
}
