//! The average use of a group, S-14 of document 02.

use reference::random::{damaged_table, used_diagram, Random};
use reference::{average, check, form, found, populate, read, Average, Refusal};
use Average::{Float, Whole};

const SAMPLE: &str = include_str!("../../../examples/sample.txt");

fn table(text: &str) -> Vec<u32> {
    let mut table = [0; 900];
    let length = read(text.as_bytes(), &mut table).unwrap();
    table[..length].to_vec()
}

/// The sample with parts of it replaced.
fn sample_with(parts: &[(&str, &str)]) -> Vec<u32> {
    let mut text = SAMPLE.to_string();
    for (old, new) in parts {
        assert!(text.contains(old), "{old}");
        text = text.replace(old, new);
    }
    table(&text)
}

fn settled(table: &[u32]) -> Vec<u32> {
    let mut sizes = [0; 208];
    let length = check(table, &mut sizes).unwrap().length;
    sizes[..length].to_vec()
}

/// A float by its 64 bits.
fn bits(bits: u64) -> Result<Average, Refusal> {
    Ok(Float(f64::from_bits(bits)))
}

fn refused(number: u32, place: u64, round: u64) -> Result<Average, Refusal> {
    Err(Refusal {
        number,
        place,
        round,
    })
}

/// Numbers of no set of the diagrams here, some of them one bit apart from the
/// sample's group.
const PAST: [u32; 8] = [
    208,
    209,
    4096,
    256 + 6,
    65_536 + 6,
    (1 << 31) + 6,
    u32::MAX - 1,
    u32::MAX,
];

#[test]
fn a_whole_number_where_it_divides_evenly() {
    // Six rows of three combinations.
    let sample = table(SAMPLE);
    assert_eq!(settled(&sample), [3, 2, 6, 3, 2, 3]);
    assert_eq!(average(&sample, 6), Ok(Whole(2)));
    // Uniqueness: each of the three once.
    let unique = sample_with(&[("freq=1,2", "freq=1,1")]);
    assert_eq!(average(&unique, 6), Ok(Whole(1)));
    // Both roles in the group: six combinations.
    let both = sample_with(&[("role=2,0,0", "role=2,0,1")]);
    assert_eq!(settled(&both), [3, 2, 6, 3, 2, 6]);
    assert_eq!(average(&both, 6), Ok(Whole(1)));
}

#[test]
fn a_float_where_it_does_not() {
    let four = ("type=1,2,1,2,0,0", "type=1,4,1,4,0,0");
    let freq = ("freq=1,2", "freq=1,4");
    // Seven rows of two combinations: 3.5, a float exactly.
    let two = ("type=1,3,1,9,0,0", "type=1,2,1,9,0,0");
    let seven = sample_with(&[two, four, freq, ("pred=1,100", "pred=1,7")]);
    assert_eq!(settled(&seven), [2, 4, 7, 2, 4, 2]);
    assert_eq!(average(&seven, 6), bits(0x400c_0000_0000_0000));
    // Ten of three: the digits 10 repeat, and what is cut off rounds up.
    let ten = sample_with(&[four, freq, ("pred=1,100", "pred=1,10")]);
    assert_eq!(settled(&ten), [3, 4, 10, 3, 4, 3]);
    assert_eq!(average(&ten, 6), bits(0x400a_aaaa_aaaa_aaab));
    // Eleven of three: it rounds down.
    let eleven = sample_with(&[four, freq, ("pred=1,100", "pred=1,11")]);
    assert_eq!(average(&eleven, 6), bits(0x400d_5555_5555_5555));
}

#[test]
fn the_sizes_are_those_that_settle() {
    // At least three of each combination: ten rows leave three of the four members
    // in the role, and the type, being mandatory there, three.
    let table = sample_with(&[
        ("type=1,3,1,9,0,0", "type=1,4,1,9,0,0"),
        ("type=1,2,1,2,0,0", "type=1,6,1,6,0,0"),
        ("pred=1,100", "pred=1,10"),
        ("freq=1,2", "freq=3,5"),
    ]);
    assert_eq!(settled(&table), [3, 6, 10, 3, 6, 3]);
    assert_eq!(average(&table, 6), bits(0x400a_aaaa_aaaa_aaab));
    // Exactly three of each: nine rows.
    let table = sample_with(&[
        ("type=1,3,1,9,0,0", "type=1,4,1,9,0,0"),
        ("type=1,2,1,2,0,0", "type=1,6,1,6,0,0"),
        ("pred=1,100", "pred=1,10"),
        ("freq=1,2", "freq=3,3"),
    ]);
    assert_eq!(settled(&table), [3, 6, 9, 3, 6, 3]);
    assert_eq!(average(&table, 6), Ok(Whole(3)));
}

#[test]
fn files_of_both_kinds() {
    let parts = [
        ("type=1,2,1,2,0,0", "type=1,3,1,3,0,0"),
        ("pred=1,100", "pred=1,5"),
        ("freq=1,2", "freq=1,3"),
    ];
    let plain = sample_with(&parts);
    assert_eq!(settled(&plain), [3, 3, 5, 3, 3, 3]);
    assert_eq!(average(&plain, 6), Ok(Float(5.0 / 3.0)));
    // At most two members in the first role.
    let limited = |first: &str| {
        let limits = [
            ("diagram=1", "diagram=2"),
            ("role=1,1,1", first),
            ("role=2,0,0", "role=2,0,0,1,4096"),
        ];
        sample_with(&[&parts[..], &limits[..]].concat())
    };
    let two = limited("role=1,1,1,1,2");
    assert_eq!(settled(&two), [2, 3, 5, 2, 3, 2]);
    assert_eq!(average(&two, 6), Ok(Float(2.5)));
    // No limits, as in the other kind, and one that empties the role.
    assert_eq!(
        average(&limited("role=1,1,1,1,4096"), 6),
        average(&plain, 6)
    );
    assert_eq!(average(&limited("role=1,1,1,4,4"), 6), refused(7, 4, 1));
    assert_eq!(average(&limited("role=1,1,1,4,4"), 7), refused(10, 7, 0));
}

#[test]
fn each_group_has_its_own_predicate() {
    let text = "diagram=1\ntypes=3\ntype=1,4,1,4,0,1\ntype=1,3,1,3,0,1\ntype=1,5,1,5,0,1\n\
        preds=4\n\
        pred=1,11,3,2\nrole=1,0,1\nrole=2,0,2\nrole=3,0,0\nfreq=1,4096\nfreq=1,4096\n\
        pred=1,9,2,0\nrole=1,0,0\nrole=2,0,0\n\
        pred=1,10,3,2\nrole=3,0,2\nrole=2,0,1\nrole=1,0,2\nfreq=1,4096\nfreq=1,4096\n\
        pred=1,12,2,1\nrole=2,0,1\nrole=3,0,0\nfreq=1,4096\nend=10\n";
    let table = table(text);
    let sizes = settled(&table);
    assert_eq!(sizes[3..7], [11, 9, 10, 12]);
    assert_eq!(sizes[17..], [4, 3, 3, 10, 3]);
    // Behind three types, four predicates and ten roles.
    assert_eq!(average(&table, 18), Ok(Float(2.75)));
    assert_eq!(average(&table, 19), Ok(Float(11.0 / 3.0)));
    assert_eq!(average(&table, 20), Ok(Float(10.0 / 3.0)));
    assert_eq!(average(&table, 21), Ok(Whole(1)));
    assert_eq!(average(&table, 22), Ok(Whole(4)));
    for set in (0..18).chain(23..60).chain(PAST) {
        assert_eq!(average(&table, set), refused(10, u64::from(set), 0));
    }
}

#[test]
fn a_number_of_no_group_is_10() {
    // Types, the predicate, roles, 0 and all past the last.
    let sample = table(SAMPLE);
    for set in (0..6).chain(7..208).chain(PAST) {
        assert_eq!(average(&sample, set), refused(10, u64::from(set), 0));
    }
    // A diagram without groups has no such number at all.
    let none = [
        ("pred=1,100,2,1", "pred=1,100,2,0"),
        ("role=1,1,1", "role=1,1,0"),
        ("freq=1,2\n", ""),
    ];
    let without = sample_with(&none);
    assert_eq!(settled(&without).len(), 5);
    for set in (0..208).chain(PAST) {
        assert_eq!(average(&without, set), refused(10, u64::from(set), 0));
    }
}

#[test]
fn an_emptied_diagram_is_7_behind_10() {
    let p2 = "diagram=1\ntypes=2\ntype=1000,4096,1,9999,0,0\ntype=1,2,1,2,0,0\npreds=1\n\
        pred=1,4096,2,2\nrole=1,1,1\nrole=2,0,2\nfreq=1,1\nfreq=1,1\nend=2\n";
    let p2 = table(p2);
    assert_eq!(average(&p2, 6), refused(7, 1, 5));
    assert_eq!(average(&p2, 7), refused(7, 1, 5));
    for set in (0..6).chain(8..208).chain(PAST) {
        assert_eq!(average(&p2, set), refused(10, u64::from(set), 0));
    }
    // P3, where the group itself is emptied, and P9, at the start.
    let p3 = "diagram=1\ntypes=2\ntype=1,10,1,10,0,0\ntype=1,2,1,2,0,0\npreds=1\n\
        pred=1,100,2,1\nrole=1,0,1\nrole=2,0,0\nfreq=3,3\nend=2\n";
    assert_eq!(average(&table(p3), 6), refused(7, 6, 12));
    assert_eq!(average(&table(p3), 5), refused(10, 5, 0));
    let empty = ("type=1,3,1,9,0,0", "type=3,5,1,2,0,1");
    let p9 = sample_with(&[empty]);
    assert_eq!(average(&p9, 6), refused(7, 1, 0));
    assert_eq!(average(&p9, 1), refused(10, 1, 0));
    // The same without groups is never 7.
    let without = sample_with(&[
        empty,
        ("pred=1,100,2,1", "pred=1,100,2,0"),
        ("role=1,1,1", "role=1,1,0"),
        ("freq=1,2\n", ""),
    ]);
    assert_eq!(check(&without, &mut []).unwrap_err().number, 7);
    for set in (0..208).chain(PAST) {
        assert_eq!(average(&without, set), refused(10, u64::from(set), 0));
    }
}

#[test]
fn faults_of_form_come_first() {
    let sample = table(SAMPLE);
    for set in [0, 1, 6, 7, u32::MAX] {
        assert_eq!(average(&sample[..27], set), refused(1, 10, 0));
        assert_eq!(average(&[], set), refused(1, 1, 0));
    }
    let mut random = Random::new(14);
    let mut cases = [0; 7];
    for _ in 0..3000 {
        let table = damaged_table(&mut random);
        let Err(refusal) = form(&table) else { continue };
        cases[refusal.number as usize] += 1;
        for set in [0, 6, random.between(1, 20), u32::MAX] {
            assert_eq!(average(&table, set), Err(refusal));
        }
    }
    assert!(cases[1..].iter().all(|count| *count > 0), "{cases:?}");
}

/// A float from 1 to 4096 times 2 to the 64th, which is a whole number.
fn scaled(float: f64) -> u128 {
    let bits = float.to_bits();
    let (exponent, fraction) = (bits >> 52, bits & ((1 << 52) - 1));
    u128::from(1 << 52 | fraction) << (exponent - 1023 + 12)
}

/// No float is nearer to r / q than this one: distances times q and 2 to the
/// 64th. Neither of the floats beside it is as near, so that there is no tie.
fn assert_nearest(float: f64, r: u32, q: u32) {
    let exact = u128::from(r) << 64;
    let distance = |bits: u64| {
        let float = scaled(f64::from_bits(bits));
        (float * u128::from(q)).abs_diff(exact)
    };
    let bits = float.to_bits();
    assert!(distance(bits) < distance(bits - 1), "{r} / {q}: {float}");
    assert!(distance(bits) < distance(bits + 1), "{r} / {q}: {float}");
}

/// The answer is that of these two sizes.
fn assert_quotient(said: Result<Average, Refusal>, r: u32, q: u32) {
    match said.unwrap() {
        Whole(number) => assert_eq!(number * q, r),
        Float(float) => {
            assert_ne!(r % q, 0);
            assert_nearest(float, r, q);
        }
    }
}

#[test]
fn the_float_is_the_nearest_one() {
    // r rows, and q members in the group's only role.
    let quotient = |r: u32, q: u32| {
        let types = [1, 2, 1, q, 1, q, 0, 1, 1, 4096, 1, 4096, 0, 1];
        let pred = [1, 1, r, 2, 1, 1, 0, 1, 2, 0, 0, 1, 4096, 2];
        let table = [types, pred].concat();
        let sizes = settled(&table);
        assert_eq!((sizes[2], sizes[5]), (r, q));
        assert_quotient(average(&table, 6), r, q);
    };
    for (r, q) in (1..=100).flat_map(|r| (1..=r).map(move |q| (r, q))) {
        quotient(r, q);
    }
    (1..=4096).for_each(|q| quotient(4096, q));
    (1..=4095).for_each(|q| quotient(4095, q));
    let mut random = Random::new(1414);
    for _ in 0..20_000 {
        let r = random.between(1, 4096);
        quotient(r, random.between(1, r));
    }
}

#[test]
fn every_group_of_random_diagrams() {
    let mut random = Random::new(141);
    let (mut whole, mut floats, mut emptied, mut limited) = (0, 0, 0, 0);
    for _ in 0..2000 {
        let d = used_diagram(&mut random);
        let (table, mut sizes) = (d.table(), [0; 208]);
        let outcome = check(&table, &mut sizes);
        let mut set = d.count_sets() - d.count_groups();
        for other in 0..=set as u32 {
            assert_eq!(average(&table, other), refused(10, u64::from(other), 0));
        }
        for (pred, r) in d.preds.iter().zip(&sizes[d.types.len()..]) {
            for group in &pred.groups {
                set += 1;
                let (said, q) = (average(&table, set as u32), sizes[set - 1]);
                if let Err(refusal) = outcome {
                    assert_eq!(said, Err(refusal));
                    emptied += 1;
                    continue;
                }
                // "r is at least FMIN times q and at most FMAX times q".
                assert!(group.fmin * q <= *r && *r <= group.fmax * q);
                assert_quotient(said, *r, q);
                whole += u32::from(r % q == 0);
                floats += u32::from(r % q != 0);
                limited += d.version - 1;
            }
        }
        let past = set as u32 + 1;
        assert_eq!(average(&table, past), refused(10, u64::from(past), 0));
    }
    assert!(
        whole > 1000 && floats > 300 && emptied > 300 && limited > 1000,
        "{whole} {floats} {emptied} {limited}"
    );
}

#[test]
fn the_average_over_the_population() {
    let mut random = Random::new(1441);
    let mut cells = vec![0; 600_000];
    let mut floats = 0;
    for _ in 0..200 {
        let d = used_diagram(&mut random);
        let table = d.table();
        let Ok(filled) = populate(&table, &mut cells) else {
            continue;
        };
        // Rows, and the different combinations in a group's columns.
        let sizes = found(&d, &cells[..filled.length]).unwrap();
        let mut set = d.count_sets() - d.count_groups();
        for (pred, rows) in d.preds.iter().zip(&sizes[d.types.len()..]) {
            for _ in &pred.groups {
                let (rows, combinations) = (*rows as u32, sizes[set] as u32);
                set += 1;
                let said = average(&table, set as u32);
                floats += u32::from(matches!(said, Ok(Float(_))));
                assert_quotient(said, rows, combinations);
            }
        }
    }
    assert!(floats > 30, "{floats}");
}
