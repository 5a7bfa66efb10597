//! Limits in any sequence, S-13 of document 02, on ceilings that are kept
//! outside of the calls.

use reference::random::{damaged_table, diagram, Random};
use reference::{check, form, limits, lower, read, round, start, survey};
use reference::{Diagram, Lowered, Refusal, Survey};

const SAMPLE: &str = "diagram=1\ntypes=2\ntype=1,3,1,9,0,0\ntype=1,2,1,2,0,0\npreds=1\n\
    pred=1,100,2,1\nrole=1,1,1\nrole=2,0,0\nfreq=1,2\nend=2\n";

/// The sample's sizes: types, predicate, roles, group.
const SETTLED: [u32; 6] = [3, 2, 6, 3, 2, 3];

fn table(text: &str) -> Vec<u32> {
    let mut table = [0; 900];
    let length = read(text.as_bytes(), &mut table).unwrap();
    table[..length].to_vec()
}

fn started(table: &[u32]) -> Vec<u32> {
    let mut ceilings = [0; 208];
    let length = start(table, &mut ceilings).unwrap();
    ceilings[..length].to_vec()
}

fn refusal(number: u32, place: u64) -> Refusal {
    Refusal {
        number,
        place,
        round: 0,
    }
}

/// The ceilings after these limits, with whether each of them lowered one.
fn after(table: &[u32], from: &[u32], numbers: &[u32]) -> (Vec<u32>, Vec<bool>) {
    let mut ceilings = from.to_vec();
    let mut lowered = Vec::new();
    for number in numbers {
        let step = lower(table, *number, &mut ceilings).unwrap();
        assert_eq!(step.sets, from.len());
        lowered.push(step.lowered);
    }
    (ceilings, lowered)
}

fn lowers(table: &[u32], ceilings: &[u32]) -> bool {
    survey(table, ceilings).unwrap().lowers
}

#[test]
fn the_starting_ceilings() {
    let mut ceilings = [9; 8];
    assert_eq!(start(&table(SAMPLE), &mut ceilings), Ok(6));
    assert_eq!(ceilings, [3, 2, 100, 4096, 4096, 4096, 9, 9]);
    // "Starting ceiling: root, the smaller of MAX and LAST - FIRST + 1; subtype
    // .. MAX", with a range also that; RMAX of a role.
    let text = "diagram=2\ntypes=4\ntype=1,9,1,5,0,1\ntype=1,9,0,0,1,1\ntype=1,9,1,4,1,1\n\
        type=2,3,1,4,1,1\npreds=1\npred=1,7,2,0\nrole=1,0,0,1,8\nrole=2,0,0,2,4096\nend=2\n";
    assert_eq!(started(&table(text)), [5, 9, 4, 3, 7, 8, 4096]);
    // Below the floor at the start is no refusal of these calls.
    let p9 = table(&SAMPLE.replace("type=1,3,1,9,0,0", "type=3,5,1,2,0,1"));
    assert_eq!(started(&p9), [2, 2, 100, 4096, 4096, 4096]);
}

#[test]
fn the_limits_of_the_sample_by_number() {
    let table = table(SAMPLE);
    // All ceilings 50, then one of them 1: the limits whose value falls by it.
    let falls = |set: usize, value: u32| -> Vec<u32> {
        let mut ceilings = [50; 6];
        ceilings[set] = value;
        let lowers = |number: &u32| after(&table, &ceilings, &[*number]).1[0];
        (0..12).filter(lowers).collect()
    };
    assert_eq!(falls(0, 1), [0]);
    assert_eq!(falls(1, 1), [4]);
    assert_eq!(falls(2, 1), [1, 5, 7]);
    assert_eq!(falls(3, 1), [3, 8, 10]);
    assert_eq!(falls(4, 0), [9, 11]);
    assert_eq!(falls(5, 0), [2, 6, 9]);
    // The ceilings that fall, and to what.
    let to = |number: u32, from: [u32; 6]| after(&table, &from, &[number]).0;
    assert_eq!(to(6, [9, 9, 90, 9, 9, 7]), [9, 9, 14, 9, 9, 7]);
    assert_eq!(to(7, [9, 9, 5, 9, 9, 7]), [9, 9, 5, 9, 9, 5]);
    assert_eq!(to(8, [9, 9, 5, 4, 9, 7]), [9, 9, 5, 4, 9, 4]);
    assert_eq!(to(9, [9, 9, 90, 9, 5, 7]), [9, 9, 35, 9, 5, 7]);
    let halved = self::table(&SAMPLE.replace("freq=1,2", "freq=2,2"));
    let (ceilings, _) = after(&halved, &[9, 9, 5, 9, 9, 7], &[7]);
    assert_eq!(ceilings, [9, 9, 5, 9, 9, 2]);
}

#[test]
fn the_sample_by_two_sequences() {
    let table = table(SAMPLE);
    let from = started(&table);
    // Roles by their types, the group by its role, the rows by the group.
    let (one, lowered) = after(&table, &from, &[0, 4, 8, 6]);
    assert_eq!((one.as_slice(), lowered), (&SETTLED[..], vec![true; 4]));
    // From the last limit on, by the rows first: the same end in more steps.
    let backward: Vec<u32> = (0..12).rev().collect();
    let (other, lowered) = after(&table, &from, &backward);
    let moved = backward.iter().zip(lowered).filter(|(_, lowered)| *lowered);
    let moved: Vec<u32> = moved.map(|(number, _)| *number).collect();
    assert_eq!(moved, [7, 5, 4, 2, 0]);
    assert_eq!(other, [3, 2, 100, 3, 2, 100]);
    assert!(lowers(&table, &other));
    let (other, lowered) = after(&table, &other, &[9, 7, 8, 6, 9]);
    assert_eq!(lowered, [false, false, true, true, false]);
    assert_eq!(other, SETTLED);
    assert!(!lowers(&table, &other));
}

#[test]
fn the_survey_of_the_sample() {
    let table = table(SAMPLE);
    let said = |lowers| Ok(Survey { lowers, limits: 12 });
    assert_eq!(survey(&table, &started(&table)), said(true));
    assert_eq!(survey(&table, &SETTLED), said(false));
    // What stands behind the sets does not count.
    assert_eq!(survey(&table, &[3, 2, 6, 3, 2, 3, 0, 9]), said(false));
    // One ceiling moved, by one: seen by one limit alone in some.
    for (set, value, by) in [
        (0, 4, vec![3, 10]),
        (0, 2, vec![0]),
        (1, 3, vec![11]),
        (2, 7, vec![6, 9]),
        (3, 4, vec![0, 2]),
        (4, 3, vec![4]),
        (5, 4, vec![8]),
    ] {
        let mut ceilings = SETTLED;
        ceilings[set] = value;
        let lowers = |number: &u32| after(&table, &ceilings, &[*number]).1[0];
        let found: Vec<u32> = (0..12).filter(lowers).collect();
        assert_eq!(found, by, "set {set}");
        assert_eq!(survey(&table, &ceilings), said(true), "set {set}");
    }
    assert_eq!(survey(&table, &[0; 6]), said(false));
    assert_eq!(survey(&table, &[u32::MAX; 6]), said(false));
}

#[test]
fn types_have_their_limits_last() {
    // "a non-independent subtype that plays no role is free of the sum limit":
    // the third type has the limit of its supertype alone, the fourth both.
    let lines = ["1,5,0,0,1,0", "1,5,0,0,3,0", "1,5,1,5,0,0", "1,5,1,5,0,1"];
    let more: String = lines.iter().map(|line| format!("type={line}\n")).collect();
    let text = SAMPLE.replace("types=2\n", "types=6\n");
    let text = text.replace("preds=1\n", &(more + "preds=2\n"));
    let text = text.replace("end=2\n", "pred=1,1,1,0\nrole=4,0,0\nend=3\n");
    let table = table(&text);
    // Ten of the first predicate, three of the second, 1 + 1 + 1 + 2 + 1 of the
    // types: the root without roles has the sum of none.
    let said = survey(&table, &started(&table)).unwrap();
    assert_eq!(said.limits, 10 + 3 + 6);
    let all = vec![7; 12];
    let fallen = |number: u32, set: usize, value: u32| {
        let mut ceilings = all.clone();
        ceilings[set] = value;
        let (found, _) = after(&table, &ceilings, &[number]);
        (0..12)
            .find(|i| found[*i] != ceilings[*i])
            .map(|i| (i, found[i]))
    };
    // Types 0 to 5, predicates 6 and 7, roles 8 to 10, the group 11.
    assert_eq!(fallen(10, 10, 5), None);
    assert_eq!(fallen(10, 3, 5), Some((10, 5)));
    assert_eq!(fallen(11, 7, 5), Some((10, 5)));
    assert_eq!(fallen(12, 10, 5), Some((7, 5)));
    assert_eq!(fallen(13, 8, 5), Some((0, 5)));
    assert_eq!(fallen(14, 9, 5), Some((1, 5)));
    assert_eq!(fallen(15, 0, 5), Some((2, 5)));
    assert_eq!(fallen(16, 2, 5), Some((3, 5)));
    assert_eq!(fallen(17, 10, 5), Some((3, 5)));
    assert_eq!(fallen(18, 0, 5), Some((4, 0)));
    let short = lower(&table, 19, &mut [7; 12]);
    assert_eq!(short, Err(refusal(10, 19)));
}

#[test]
fn refusals_in_their_order() {
    let sound = table(SAMPLE);
    let faulty = table(SAMPLE)[..27].to_vec();
    let mut ceilings = [7; 6];
    let done = Lowered {
        lowered: false,
        sets: 6,
    };
    assert_eq!(lower(&sound, 11, &mut ceilings), Ok(done));
    // 10, at that number.
    for number in [12, 13, 4096, 1 << 31, u32::MAX] {
        let place = u64::from(number);
        assert_eq!(
            lower(&sound, number, &mut ceilings),
            Err(refusal(10, place))
        );
        // Before 8.
        assert_eq!(lower(&sound, number, &mut []), Err(refusal(10, place)));
        // After 1 to 6.
        assert_eq!(lower(&faulty, number, &mut []), Err(refusal(1, 10)));
    }
    // 8, at the number of sets.
    for length in 0..6 {
        let mut short = vec![1; length];
        assert_eq!(lower(&sound, 0, &mut short), Err(refusal(8, 6)));
        assert_eq!(survey(&sound, &short), Err(refusal(8, 6)));
        assert_eq!(start(&sound, &mut short), Err(refusal(8, 6)));
        assert_eq!(short, vec![1; length]);
        assert_eq!(lower(&faulty, 0, &mut short), Err(refusal(1, 10)));
        assert_eq!(survey(&faulty, &short), Err(refusal(1, 10)));
        assert_eq!(start(&faulty, &mut short), Err(refusal(1, 10)));
    }
    assert_eq!(ceilings, [7; 6]);
    assert_eq!(survey(&faulty, &ceilings), Err(refusal(1, 10)));
    // What stands behind the sets stays.
    let mut longer = [9; 8];
    longer[0] = 5;
    assert!(lower(&sound, 0, &mut longer).unwrap().lowered);
    assert_eq!(longer, [5, 9, 9, 5, 9, 9, 9, 9]);
    // None refuses with 7: a ceiling goes below its floor, and down to 0.
    let emptied = table(&SAMPLE.replace("freq=1,2", "freq=3,3"));
    let (end, _) = after(&emptied, &[0, 0, 2, 0, 0, 9], &[7]);
    assert_eq!(end, [0, 0, 2, 0, 0, 0]);
}

#[test]
fn every_call_refuses_a_damaged_table_as_the_form_is_refused() {
    let mut random = Random::new(13);
    let mut refused = [0; 7];
    for _ in 0..3000 {
        let table = damaged_table(&mut random);
        let Err(refusal) = form(&table) else { continue };
        refused[refusal.number as usize] += 1;
        let mut ceilings = [5; 3];
        assert_eq!(start(&table, &mut ceilings), Err(refusal));
        assert_eq!(lower(&table, u32::MAX, &mut ceilings), Err(refusal));
        assert_eq!(lower(&table, 0, &mut [5; 208]), Err(refusal));
        assert_eq!(survey(&table, &ceilings), Err(refusal));
        assert_eq!(ceilings, [5; 3]);
    }
    assert!(refused[1..].iter().all(|cases| *cases > 0), "{refused:?}");
}

#[test]
fn ceilings_of_any_size() {
    // A group's FMAX times q, and q times a role, pass 32 bits.
    let table = table(SAMPLE);
    let large = [u32::MAX; 6];
    for number in 0..12 {
        assert_eq!(
            after(&table, &large, &[number]),
            (large.to_vec(), vec![false])
        );
    }
    let half = [u32::MAX, 1, u32::MAX, u32::MAX, 1, 1 << 31];
    assert_eq!(after(&table, &half, &[6]).0, half);
    assert_eq!(after(&table, &half, &[9]).0[2], 1 << 31);
    let less = [u32::MAX, 1, u32::MAX, u32::MAX, 2, (1 << 31) - 1];
    assert_eq!(after(&table, &less, &[6]).0[2], u32::MAX - 1);
    assert_eq!(after(&table, &less, &[9]).0[2], u32::MAX - 1);
    // Above the starting ones they go down to the same limits.
    let above = after(&table, &[300, 200, 5000, 9999, 9999, 9999], &[0, 4, 8, 6]);
    assert_eq!(above.0, [300, 200, 600, 300, 200, 300]);
}

#[test]
fn products_of_six_ceilings() {
    // The rows by six roles of one type: limits 0 to 11 are of the roles, 12 of
    // the predicate, 13 the type's sum.
    let roles = "role=1,0,0\n".repeat(6);
    let text = "diagram=1\ntypes=1\ntype=1,9,1,9,0,0\npreds=1\npred=1,4096,6,0\n";
    let table = table(&format!("{text}{roles}end=6\n"));
    let rows = |roles: [u32; 6]| {
        let ceilings = [&[u32::MAX, u32::MAX], &roles[..]].concat();
        after(&table, &ceilings, &[12]).0[1]
    };
    assert_eq!(rows([2, 3, 5, 7, 11, 13]), 30030);
    // 2 to the 32nd, 64th, 72nd, 96th, 128th, 186th, and all but 192 bits.
    assert_eq!(rows([1 << 16, 1 << 16, 1, 1, 1, 1]), u32::MAX);
    assert_eq!(rows([1 << 16, 1 << 16, 1 << 16, 1 << 16, 1, 1]), u32::MAX);
    assert_eq!(rows([1 << 12; 6]), u32::MAX);
    assert_eq!(rows([1 << 16; 6]), u32::MAX);
    assert_eq!(
        rows([1 << 31, 1 << 31, 1 << 31, 1 << 31, 1 << 4, 1]),
        u32::MAX
    );
    assert_eq!(rows([1 << 31; 6]), u32::MAX);
    assert_eq!(rows([u32::MAX; 6]), u32::MAX);
    // A 0 in any place makes the product 0, also behind one that was stopped.
    for zero in 0..6 {
        let mut roles = [u32::MAX; 6];
        roles[zero] = 0;
        assert_eq!(rows(roles), 0, "{zero}");
    }
    // The sum of six.
    let sum = |each: u32, last: u32| {
        let ceilings = [u32::MAX, 1, each, each, each, each, each, last];
        after(&table, &ceilings, &[13]).0[0]
    };
    assert_eq!(sum(715_827_882, 715_827_884), u32::MAX - 1);
    assert_eq!(sum(715_827_883, 715_827_883), u32::MAX);
    assert_eq!(sum(1 << 31, 1 << 31), u32::MAX);
    assert_eq!(sum(0, 0), 0);
}

/// "Floor: MIN for types and predicates, else 1", and RMIN (document 02, S-8).
fn is_below(d: &Diagram, ceilings: &[u32]) -> bool {
    let floors = d.types.iter().map(|t| t.min);
    let floors = floors.chain(d.preds.iter().map(|pred| pred.min));
    let floors = floors.chain(d.roles().map(|role| role.rmin));
    let mut floors = floors.chain((0..d.count_groups()).map(|_| 1)).zip(ceilings);
    floors.any(|(floor, ceiling)| *ceiling < floor)
}

/// A diagram whose ceilings come to an end within so many rounds and limits.
fn quick(random: &mut Random, most: usize) -> Diagram {
    loop {
        let d = diagram(random);
        let mut old = started(&d.table());
        for _ in 0..most / limits(&d).len() {
            let mut new = old.clone();
            round(&d, &old, &mut new);
            if new == old {
                return d;
            }
            old = new;
        }
    }
}

/// A limit at random. It moves one ceiling at most, downward, and says so.
fn step(random: &mut Random, table: &[u32], count: usize, ceilings: &mut [u32]) {
    let before = ceilings.to_vec();
    let step = lower(table, random.below(count) as u32, ceilings).unwrap();
    let pairs = before.iter().zip(ceilings.iter());
    let moved: Vec<_> = pairs.filter(|(old, new)| old != new).collect();
    assert_eq!(moved.len(), usize::from(step.lowered));
    assert!(moved.iter().all(|(old, new)| new < old));
}

#[test]
fn every_sequence_ends_where_the_check_says() {
    let mut random = Random::new(1313);
    let (mut settled, mut emptied) = (0, 0);
    for _ in 0..200 {
        let d = quick(&mut random, 500);
        let table = d.table();
        let count = survey(&table, &started(&table)).unwrap().limits;
        let mut ends = Vec::new();
        for _ in 0..3 {
            let mut ceilings = started(&table);
            while lowers(&table, &ceilings) {
                (0..count).for_each(|_| step(&mut random, &table, count, &mut ceilings));
            }
            ends.push(ceilings);
        }
        assert!(ends.iter().all(|end| *end == ends[0]));
        let mut sizes = vec![0; d.count_sets()];
        match check(&table, &mut sizes) {
            Ok(_) => {
                settled += 1;
                assert_eq!(ends[0], sizes);
                assert!(!is_below(&d, &ends[0]));
            }
            Err(refusal) => {
                emptied += 1;
                assert_eq!(refusal.number, 7);
                assert!(is_below(&d, &ends[0]));
            }
        }
    }
    assert!(settled > 50 && emptied > 20, "{settled} {emptied}");
}

#[test]
fn a_round_is_every_limit_at_the_old_ceilings() {
    let mut random = Random::new(31);
    let mut moved = 0;
    for _ in 0..2000 {
        let d = diagram(&mut random);
        let most = random.pick(&[2, 9, 300, 4096]);
        let mut old = started(&d.table());
        if random.chance(70) {
            old.fill_with(|| random.between(0, most));
        }
        let mut new = old.clone();
        round(&d, &old, &mut new);
        // Each on a copy of the old ones; of each set the least.
        let mut least = old.clone();
        for limit in limits(&d) {
            let mut copy = old.clone();
            limit.lower(&mut copy);
            least[limit.set] = least[limit.set].min(copy[limit.set]);
        }
        assert_eq!(new, least);
        moved += usize::from(new != old);
    }
    assert!(moved > 500, "{moved}");
}

#[test]
fn the_calls_use_the_numbered_list() {
    let mut random = Random::new(77);
    for _ in 0..100 {
        let d = diagram(&mut random);
        let (table, limits) = (d.table(), limits(&d));
        let mut ceilings = started(&table);
        ceilings.iter_mut().for_each(|c| *c >>= random.below(12));
        for (number, limit) in limits.iter().enumerate() {
            let (mut one, mut other) = (ceilings.clone(), ceilings.clone());
            let step = lower(&table, number as u32, &mut one).unwrap();
            assert_eq!(step.lowered, limit.lower(&mut other));
            assert_eq!(one, other);
        }
        let past = limits.len() as u32;
        let answer = lower(&table, past, &mut ceilings);
        assert_eq!(answer, Err(refusal(10, u64::from(past))));
        let said = survey(&table, &ceilings).unwrap();
        assert_eq!(said.limits, limits.len());
        assert_eq!(
            said.lowers,
            limits.iter().any(|limit| limit.lowers(&ceilings))
        );
    }
}
