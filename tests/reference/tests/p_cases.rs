//! The cases marked P of document 01, as far as the calls show them, and of
//! document 02 the types without roles, S-2, the ranges on subtypes, S-5, and
//! the limits on roles, S-8.

use reference::{check, form, populate, program, read, validate, write};
use reference::{Refusal, Settled, Verdict};

const SAMPLE: &str = "diagram=1\ntypes=2\ntype=1,3,1,9,0,0\ntype=1,2,1,2,0,0\npreds=1\n\
    pred=1,100,2,1\nrole=1,1,1\nrole=2,0,0\nfreq=1,2\nend=2\n";

fn table(text: &str) -> Vec<u32> {
    let mut table = [0; 900];
    let length = read(text.as_bytes(), &mut table).unwrap();
    table[..length].to_vec()
}

fn cells(text: &str) -> Vec<u32> {
    let mut cells = vec![0; 16_000];
    let length = populate(&table(text), &mut cells).unwrap().length;
    cells[..length].to_vec()
}

fn output(text: &str) -> String {
    String::from_utf8(program(text.as_bytes())).unwrap()
}

/// The sample with further type lines, from the third on.
fn with_types(lines: &[&str]) -> String {
    let types = format!("types={}\n", 2 + lines.len());
    let more: String = lines.iter().map(|line| format!("type={line}\n")).collect();
    let text = SAMPLE.replace("types=2\n", &types);
    text.replace("preds=1\n", &(more + "preds=1\n"))
}

/// A second predicate of one row and one role, which this type plays.
fn with_role(text: &str, kind: u32) -> String {
    let text = text.replace("preds=1\n", "preds=2\n");
    let more = format!("pred=1,1,1,0\nrole={kind},0,0\nend=3\n");
    text.replace("end=2\n", &more)
}

/// The rounds and the sizes.
fn sizes(text: &str) -> (u64, Vec<u32>) {
    let mut sizes = [0; 208];
    let settled = check(&table(text), &mut sizes).unwrap();
    (settled.rounds, sizes[..settled.length].to_vec())
}

/// The lowest broken constraint and its number, 0 and 0 where none is broken.
fn broken(text: &str, cells: &[u32]) -> (u32, u32) {
    let verdict = validate(&table(text), cells).unwrap();
    (verdict.constraint, verdict.number)
}

/// The sample's cells with those of further types, and of a second predicate.
fn sample_cells(types: &[u32], pred: &[u32]) -> Vec<u32> {
    let rows = [6, 1, 1, 2, 2, 3, 1, 1, 2, 2, 1, 3, 2];
    [&[3, 1, 2, 3, 2, 1, 2], types, &rows, pred].concat()
}

#[test]
fn p1_the_sample() {
    let expected = "rounds=4\nsize=3\nsize=2\nsize=6\nsize=3\nsize=2\nsize=3\ntype=1,2,3\n\
        type=1,2\npred=1\nrow=1,1\nrow=2,2\nrow=3,1\nrow=1,2\nrow=2,1\nrow=3,2\n";
    assert_eq!(output(SAMPLE), expected);
    assert_eq!(cells(SAMPLE).len(), 20);
    let refusal = Refusal {
        number: 8,
        place: 20,
        round: 0,
    };
    assert_eq!(populate(&table(SAMPLE), &mut [0; 19]), Err(refusal));
    let mut sizes = [9; 8];
    let settled = Settled {
        rounds: 4,
        length: 6,
    };
    assert_eq!(check(&table(SAMPLE), &mut sizes), Ok(settled));
    assert_eq!(sizes, [3, 2, 6, 3, 2, 3, 9, 9]);
    let valid = Verdict {
        constraint: 0,
        number: 0,
    };
    assert_eq!(validate(&table(SAMPLE), &cells(SAMPLE)), Ok(valid));
    let refusal = Refusal {
        number: 9,
        place: 3,
        round: 0,
    };
    assert_eq!(validate(&table(SAMPLE), &[3, 1, 2]), Err(refusal));
}

#[test]
fn p2_p3_p8_p9_emptied() {
    let p2 = "diagram=1\ntypes=2\ntype=1000,4096,1,9999,0,0\ntype=1,2,1,2,0,0\npreds=1\n\
        pred=1,4096,2,2\nrole=1,1,1\nrole=2,0,2\nfreq=1,1\nfreq=1,1\nend=2\n";
    assert_eq!(output(p2), "refused=7,1,5\n");
    let p3 = "diagram=1\ntypes=2\ntype=1,10,1,10,0,0\ntype=1,2,1,2,0,0\npreds=1\n\
        pred=1,100,2,1\nrole=1,0,1\nrole=2,0,0\nfreq=3,3\nend=2\n";
    assert_eq!(output(p3), "refused=7,6,12\n");
    let p8 = with_types(&["1,5,1,5,0,0"]);
    assert_eq!(output(&p8), "refused=7,3,1\n");
    let p9 = SAMPLE.replace("type=1,3,1,9,0,0", "type=3,5,1,2,0,1");
    assert_eq!(output(&p9), "refused=7,1,0\n");
}

#[test]
fn p4_p5_pairing() {
    let p4 = "diagram=1\ntypes=1\ntype=1,2,0,1,0,1\npreds=1\npred=1,4,2,0\nrole=1,0,0\n\
        role=1,0,0\nend=2\n";
    assert_eq!(cells(p4), [2, 0, 1, 4, 0, 0, 1, 1, 0, 1, 1, 0]);
    let p5 = "diagram=1\ntypes=3\ntype=1,4,0,3,0,1\ntype=1,6,0,5,0,1\ntype=1,2,0,1,0,1\n\
        preds=1\npred=1,15,3,0\nrole=1,0,0\nrole=2,0,0\nrole=3,0,0\nend=3\n";
    let cells = cells(p5);
    let rows: Vec<&[u32]> = cells[16..].chunks(3).collect();
    assert_eq!(rows.len(), 15);
    assert_eq!(rows[9], [1, 3, 1]);
    assert_eq!(rows[12], [0, 1, 0]);
    assert_eq!(rows[14], [2, 3, 0]);
}

#[test]
fn p6_p7_members() {
    let p6 = "diagram=1\ntypes=1\ntype=1,4,1,4,0,1\npreds=2\npred=1,3,1,0\nrole=1,0,0\n\
        pred=1,3,1,0\nrole=1,0,0\nend=2\n";
    assert_eq!(cells(p6), [4, 1, 2, 3, 4, 3, 1, 2, 3, 3, 4, 1, 2]);
    let p7 = "diagram=1\ntypes=3\ntype=1,2,5,6,0,1\ntype=1,2,0,0,1,1\ntype=1,2,0,0,1,1\n\
        preds=1\npred=1,1,1,0\nrole=1,0,0\nend=1\n";
    assert_eq!(cells(p7), [2, 5, 6, 2, 5, 6, 2, 5, 6, 1, 5]);
}

#[test]
fn p10_p11_and_the_examples_of_refusals() {
    assert_eq!(output("diagram=1\ntypes=32\n"), "refused=1,3,0\n");
    assert_eq!(output("diagram=1\ntypes=33\n"), "refused=2,2,0\n");
    assert_eq!(output("diagram=1\ntypes=02\n"), "refused=1,2,0\n");
    let three = "diagram=1\ntypes=1\ntype=1,5,0,0,1,0\n";
    assert_eq!(output(three), "refused=3,3,0\n");
    let four = SAMPLE.replace("freq=1,2", "freq=3,2");
    assert_eq!(output(&four), "refused=4,9,0\n");
    let five = "diagram=1\ntypes=1\ntype=1,5,0,9,0,0\npreds=1\npred=1,9,1,1\nrole=1,0,0\n\
        freq=1,1\nend=1\n";
    assert_eq!(output(five), "refused=5,7,0\n");
    let six = SAMPLE.replace("end=2", "end=3");
    assert_eq!(output(&six), "refused=6,10,0\n");
}

/// A root without roles, whose subtype plays one.
const SUBTYPE_PLAYS: &str = "diagram=1\ntypes=2\ntype=1,3,1,9,0,0\ntype=1,3,0,0,1,0\n\
    preds=1\npred=1,3,1,0\nrole=2,0,0\nend=1\n";

#[test]
fn a_subtype_without_roles_settles_at_its_supertype() {
    let free = with_types(&["1,5,0,0,1,0"]);
    let expected = "rounds=4\nsize=3\nsize=2\nsize=3\nsize=6\nsize=3\nsize=2\nsize=3\n\
        type=1,2,3\ntype=1,2\ntype=1,2,3\npred=1\nrow=1,1\nrow=2,2\nrow=3,1\nrow=1,2\n\
        row=2,1\nrow=3,2\n";
    assert_eq!(output(&free), expected);
    // Its own MAX and MIN stand.
    let (_, two) = sizes(&with_types(&["1,2,0,0,1,0"]));
    assert_eq!(two, [3, 2, 2, 6, 3, 2, 3]);
    let four = with_types(&["4,5,0,0,1,0"]);
    assert_eq!(output(&four), "refused=7,3,1\n");
    // Each round carries the root's size one subtype further, the last in the
    // fourth.
    let chain = ["1,5,0,0,1,0", "1,5,0,0,3,0", "1,5,0,0,4,0", "1,5,0,0,5,0"];
    let expected = vec![3, 2, 3, 3, 3, 3, 6, 3, 2, 3];
    assert_eq!(sizes(&with_types(&chain)), (5, expected));
}

#[test]
fn a_root_without_roles_is_emptied() {
    // Neither a free subtype nor one that plays is of help to it.
    let subtype = with_types(&["1,5,1,5,0,0", "1,5,0,0,3,0"]);
    assert_eq!(output(&subtype), "refused=7,3,1\n");
    assert_eq!(output(SUBTYPE_PLAYS), "refused=7,1,1\n");
}

#[test]
fn a_subtype_that_plays_keeps_its_sum() {
    let one = with_role(&with_types(&["1,5,0,0,1,0"]), 3);
    assert_eq!(sizes(&one), (4, vec![3, 2, 1, 6, 1, 3, 2, 1, 3]));
    let two = with_role(&with_types(&["2,5,0,0,1,0"]), 3);
    assert_eq!(output(&two), "refused=7,3,2\n");
    // A role of a subtype is none of its supertype's, nor the reverse.
    let below = with_role(&with_types(&["1,5,0,0,1,0", "1,5,0,0,3,0"]), 4);
    assert_eq!(sizes(&below), (4, vec![3, 2, 3, 1, 6, 1, 3, 2, 1, 3]));
    let above = with_role(&with_types(&["1,5,0,0,1,0", "1,5,0,0,3,0"]), 3);
    assert_eq!(sizes(&above), (4, vec![3, 2, 1, 1, 6, 1, 3, 2, 1, 3]));
}

#[test]
fn k10_of_types_without_roles() {
    // A subtype without roles is free of it, all members or some.
    let free = with_types(&["1,5,0,0,1,0"]);
    assert_eq!(broken(&free, &cells(&free)), (0, 0));
    assert_eq!(broken(&free, &sample_cells(&[1, 2], &[])), (0, 0));
    let chain = with_types(&["1,5,0,0,1,0", "1,5,0,0,3,0"]);
    assert_eq!(broken(&chain, &sample_cells(&[2, 3, 1, 1, 3], &[])), (0, 0));
    // The other constraints stand.
    assert_eq!(broken(&chain, &sample_cells(&[1, 3, 1, 1], &[])), (4, 4));
    // A root is not.
    let root = with_types(&["1,5,1,5,0,0"]);
    assert_eq!(broken(&root, &sample_cells(&[1, 4], &[])), (10, 3));
    assert_eq!(broken(SUBTYPE_PLAYS, &[1, 1, 1, 1, 1, 1]), (10, 1));
}

#[test]
fn k10_of_a_subtype_that_plays() {
    // The second member is in a role of the root alone.
    let plays = with_role(&with_types(&["1,5,0,0,1,0"]), 3);
    assert_eq!(broken(&plays, &sample_cells(&[1, 2], &[1, 2])), (0, 0));
    assert_eq!(broken(&plays, &sample_cells(&[2, 1, 2], &[1, 1])), (10, 3));
    // Behind a free subtype, which is not named.
    let behind = with_role(&with_types(&["1,5,0,0,1,0", "1,5,0,0,1,0"]), 4);
    let two = sample_cells(&[1, 3, 2, 1, 2], &[1, 1]);
    assert_eq!(broken(&behind, &two), (10, 4));
}

/// A diagram of these types; one row holds a member of the first.
fn of_types(lines: &[&str]) -> String {
    let types: String = lines.iter().map(|line| format!("type={line}\n")).collect();
    let count = lines.len();
    format!("diagram=1\ntypes={count}\n{types}preds=1\npred=1,1,1,0\nrole=1,0,0\nend=1\n")
}

/// The root of blanks and the small blanks under it.
const BLANKS: &str = "1,400,1,400,0,1";
const SMALL: &str = "1,400,1,50,1,1";

/// The sizes of the types.
fn type_sizes<const N: usize>(lines: [&str; N]) -> [u32; N] {
    let (_, sizes) = sizes(&of_types(&lines));
    std::array::from_fn(|a| sizes[a])
}

#[test]
fn a_range_on_a_subtype_bounds_its_size() {
    let small = of_types(&[BLANKS, SMALL]);
    assert_eq!(sizes(&small), (2, vec![400, 50, 1, 1]));
    let few = of_types(&["1,4,1,4,0,1", "1,4,1,2,1,1"]);
    assert_eq!(cells(&few), [4, 1, 2, 3, 4, 2, 1, 2, 1, 1]);
    // From one value to all of the root's; MAX stands beside it.
    assert_eq!(type_sizes([BLANKS, "1,400,1,1,1,1"]), [400, 1]);
    assert_eq!(type_sizes([BLANKS, "1,400,1,400,1,1"]), [400, 400]);
    assert_eq!(type_sizes([BLANKS, "1,20,1,50,1,1"]), [400, 20]);
    // It bounds the start: fewer values than MIN are seen before any round.
    let short = of_types(&[BLANKS, "51,400,1,50,1,1"]);
    assert_eq!(output(&short), "refused=7,2,0\n");
}

#[test]
fn a_subtype_without_a_range_is_looked_past() {
    let none = "1,400,0,0,2,1";
    let same = [BLANKS, SMALL, none, "1,400,1,50,3,1"];
    assert_eq!(type_sizes(same), [400, 50, 50, 50]);
    // Not above the root's LAST, but above that of the nearest.
    let above = of_types(&[BLANKS, SMALL, none, "1,400,1,51,3,1"]);
    assert_eq!(output(&above), "refused=4,6,0\n");
    // The nearest may be the root, also beside a narrower subtype.
    let root = [BLANKS, "1,400,0,0,1,1", "1,400,1,400,2,1"];
    assert_eq!(type_sizes(root), [400, 400, 400]);
    let beside = [BLANKS, SMALL, "1,400,1,51,1,1"];
    assert_eq!(type_sizes(beside), [400, 50, 51]);
    // It starts at MAX: the range above it takes a round.
    let late = of_types(&[BLANKS, SMALL, "51,400,0,0,2,1"]);
    assert_eq!(output(&late), "refused=7,3,1\n");
}

#[test]
fn pairs_that_a_subtype_may_not_give() {
    let root = "1,5,10,20,0,1";
    // FIRST below and above the root's, LAST below FIRST, LAST above the root's.
    for pair in ["0,15", "9,15", "11,15", "10,9", "10,0", "0,10", "10,21"] {
        let text = of_types(&[root, &format!("1,5,{pair},1,1")]);
        assert_eq!(output(&text), "refused=4,4,0\n", "{pair}");
    }
    // FIRST is the root's, not that of a type which gives none.
    let zero = of_types(&[root, "1,5,0,0,1,1", "1,5,0,15,2,1"]);
    assert_eq!(output(&zero), "refused=4,5,0\n");
    // MIN above MAX stands; 3 comes before 4.
    let min = of_types(&[root, "5,1,10,15,1,1"]);
    assert_eq!(output(&min), "refused=4,4,0\n");
    let over = of_types(&[root, "5,1,11,9,2,1", "1,5,0,0,1,1"]);
    assert_eq!(output(&over), "refused=3,4,0\n");
}

#[test]
fn no_range_under_a_root_from_0() {
    let root = "1,9,0,8,0,1";
    assert_eq!(type_sizes([root, "1,9,0,0,1,1"]), [9, 9]);
    assert_eq!(type_sizes([root, "1,9,0,1,1,1"]), [9, 2]);
    let between = [root, "1,9,0,3,1,1", "1,9,0,0,2,1", "1,9,0,3,3,1"];
    assert_eq!(type_sizes(between), [9, 4, 4, 4]);
    let above = of_types(&[root, "1,9,0,3,1,1", "1,9,0,0,2,1", "1,9,0,4,3,1"]);
    assert_eq!(output(&above), "refused=4,6,0\n");
    // On a root 0,0 is the one value 0.
    assert_eq!(type_sizes(["1,9,0,0,0,1", "1,9,0,0,1,1"]), [1, 1]);
    let one = of_types(&["1,9,0,0,0,1", "1,9,0,1,1,1"]);
    assert_eq!(output(&one), "refused=4,4,0\n");
}

#[test]
fn k3_of_a_subtype() {
    let small = of_types(&[BLANKS, SMALL]);
    assert_eq!(broken(&small, &cells(&small)), (0, 0));
    assert_eq!(broken(&small, &[2, 50, 51, 1, 50, 1, 51]), (0, 0));
    assert_eq!(broken(&small, &[2, 50, 51, 1, 51, 1, 51]), (3, 2));
    assert_eq!(broken(&small, &[1, 401, 1, 401, 1, 401]), (3, 1));
    // A subtype that gives none is free of it, also under a root from 0.
    let chain = of_types(&[BLANKS, "1,400,0,0,1,1", "1,400,1,50,2,1"]);
    assert_eq!(broken(&chain, &[2, 1, 51, 2, 1, 51, 1, 1, 1, 1]), (0, 0));
    assert_eq!(broken(&chain, &[2, 1, 51, 2, 1, 51, 1, 51, 1, 1]), (3, 3));
    let zero = of_types(&["1,9,0,8,0,1", "1,9,0,0,1,1"]);
    assert_eq!(broken(&zero, &[1, 8, 1, 8, 1, 8]), (0, 0));
}

/// The sample of version 2 with these limits on its roles.
fn limited(first: &str, second: &str) -> String {
    let text = SAMPLE.replace("diagram=1", "diagram=2");
    let text = text.replace("role=1,1,1", &format!("role=1,1,1,{first}"));
    text.replace("role=2,0,0", &format!("role=2,0,0,{second}"))
}

/// The refusal of a table: number and line.
fn refused(table: &[u32]) -> (u32, u64) {
    form(table).map_or_else(|r| (r.number, r.place), |_| (0, 0))
}

#[test]
fn role_lines_of_both_versions() {
    let wide = limited("1,4096", "2,9");
    #[rustfmt::skip]
    let numbers = [
        2, 2, 1, 3, 1, 9, 0, 0, 1, 2, 1, 2, 0, 0, 1, 1, 100, 2, 1, 1, 1, 1, 1, 4096, 2, 0, 0, 2, 9,
        1, 2, 2,
    ];
    assert_eq!(table(&wide), numbers);
    assert_eq!(table(SAMPLE).len(), 28);
    for text in [SAMPLE, &wide] {
        let mut written = vec![b'!'; 200];
        let length = write(&table(text), &mut written).unwrap();
        assert_eq!(&written[..length], text.as_bytes());
    }
    // "In `diagram=1` they read as 1 and 4096".
    let d = form(&table(SAMPLE)).unwrap();
    assert!(d.roles().all(|role| (role.rmin, role.rmax) == (1, 4096)));
    let same = limited("1,4096", "1,4096");
    assert_eq!(output(&same), output(SAMPLE));
    assert_eq!(sizes(&same), sizes(SAMPLE));
}

#[test]
fn refusals_of_both_versions() {
    for (number, answer) in [
        ("0", "refused=2,1,0\n"),
        ("3", "refused=2,1,0\n"),
        ("999999", "refused=2,1,0\n"),
        ("02", "refused=1,1,0\n"),
        ("2,2", "refused=1,1,0\n"),
    ] {
        let text = SAMPLE.replace("diagram=1", &format!("diagram={number}"));
        assert_eq!(output(&text), answer, "{number}");
    }
    // As many numbers as the first line says.
    let three = SAMPLE.replace("diagram=1", "diagram=2");
    assert_eq!(output(&three), "refused=1,7,0\n");
    let five = limited("1,9", "1,9").replace("diagram=2", "diagram=1");
    assert_eq!(output(&five), "refused=1,7,0\n");
    for (first, second, answer) in [
        ("1", "1,9", "refused=1,7,0\n"),
        ("1,9,1", "1,9", "refused=1,7,0\n"),
        ("1,9", "1", "refused=1,8,0\n"),
        ("01,9", "1,9", "refused=1,7,0\n"),
        ("1,9", "0,9", "refused=2,8,0\n"),
        ("1,9", "1,0", "refused=2,8,0\n"),
        ("4097,4097", "1,9", "refused=2,7,0\n"),
        ("1,4097", "1,9", "refused=2,7,0\n"),
        ("2,1", "1,9", "refused=4,7,0\n"),
        ("1,9", "4096,4095", "refused=4,8,0\n"),
    ] {
        assert_eq!(output(&limited(first, second)), answer, "{first} {second}");
    }
    // Within a line 1, 2, 3, 4.
    for (line, number) in [
        ("role=3,1,1,9,8,7", 1),
        ("role=3,1,1,4097,1", 2),
        ("role=3,1,1,9,8", 3),
        ("role=1,1,2,9,8", 3),
        ("role=1,1,1,9,8", 4),
    ] {
        let text = limited("1,9", "1,9").replace("role=1,1,1,1,9", line);
        assert_eq!(output(&text), format!("refused={number},7,0\n"), "{line}");
    }
    // A role's 4 stands before a fault of a later line.
    let later = limited("2,1", "1,9").replace("freq=1,2", "freq=3,2");
    assert_eq!(output(&later), "refused=4,7,0\n");
}

#[test]
fn tables_of_both_versions() {
    let (narrow, wide) = (table(SAMPLE), table(&limited("1,9", "1,9")));
    assert_eq!(refused(&wide), (0, 0));
    for first in [0, 3, u32::MAX] {
        assert_eq!(refused(&[&[first], &wide[1..]].concat()), (2, 1));
    }
    // Cut into five, the sample's roles are 1,1,1,2,0 and 0,1,2,2.
    assert_eq!(refused(&[&[2], &narrow[1..]].concat()), (2, 7));
    // Cut into three, the roles are 1,1,1 and 1,9,2, the MAND of 9.
    assert_eq!(refused(&[&[1], &wide[1..]].concat()), (2, 8));
    // A line cut short: the first role line has the numbers 19 to 23.
    assert_eq!(refused(&wide[..23]), (1, 7));
    assert_eq!(refused(&wide[..24]), (1, 8));
    assert_eq!(refused(&[wide, vec![0]].concat()), (1, 11));
}

#[test]
fn rmax_is_part_of_the_starting_ceiling() {
    // Round 1 lowers role 1 and type 2, round 2 the group, round 3 the rows.
    let one = limited("1,4096", "1,1");
    let expected = "rounds=4\nsize=3\nsize=1\nsize=3\nsize=3\nsize=1\nsize=3\n\
        type=1,2,3\ntype=1\npred=1\nrow=1,1\nrow=2,1\nrow=3,1\n";
    assert_eq!(output(&one), expected);
    // An independent type keeps the members that are in no role.
    let free = one.replace("type=1,2,1,2,0,0", "type=1,2,1,2,0,1");
    assert_eq!(sizes(&free), (4, vec![3, 2, 3, 3, 1, 3]));
    // A mandatory role bounds its type from round 1 on, also below its MIN. The
    // group is lowered in round 1 too, a round earlier than without the limit.
    let two = limited("1,2", "1,4096");
    assert_eq!(sizes(&two), (3, vec![2, 2, 4, 2, 2, 2]));
    let three = two.replace("type=1,3,1,9,0,0", "type=3,3,1,9,0,0");
    assert_eq!(output(&three), "refused=7,1,1\n");
    // As many as settle without a limit: the same sizes, in a round less.
    assert_eq!(sizes(&limited("1,3", "1,2")), (3, sizes(SAMPLE).1));
}

#[test]
fn rmin_is_the_floor() {
    assert_eq!(output(&limited("3,4096", "2,2")), output(SAMPLE));
    // Each role is lowered to its type in round 1; the lowest set is named.
    assert_eq!(output(&limited("4,4096", "1,4096")), "refused=7,4,1\n");
    assert_eq!(output(&limited("1,4096", "3,3")), "refused=7,5,1\n");
    assert_eq!(output(&limited("4,4", "3,3")), "refused=7,4,1\n");
    // At least 3 members of role 1, and at most 2 rows.
    let rows = limited("3,3", "1,2").replace("pred=1,100,2,1", "pred=1,2,2,1");
    assert_eq!(output(&rows), "refused=7,4,1\n");
    // Exactly as many as settle.
    assert_eq!(sizes(&limited("3,3", "2,2")), (3, sizes(SAMPLE).1));
}

#[test]
fn k11_counts_the_different_members() {
    // The sample's population: roles of 3 and 2 members in 6 rows.
    let cells = sample_cells(&[], &[]);
    for (first, second, answer) in [
        ("3,3", "2,2", (0, 0)),
        ("1,3", "1,2", (0, 0)),
        ("3,4096", "2,4096", (0, 0)),
        ("1,2", "1,4096", (11, 1)),
        ("4,4096", "1,4096", (11, 1)),
        ("1,4096", "1,1", (11, 1)),
        ("1,4096", "3,4096", (11, 1)),
        ("6,6", "6,6", (11, 1)),
    ] {
        let text = limited(first, second);
        assert_eq!(broken(&text, &cells), answer, "{first} {second}");
    }
}

#[test]
fn k11_names_the_lowest_predicate() {
    let text = limited("1,4096", "1,4096").replace("preds=1\n", "preds=2\n");
    let more = |limits| format!("pred=1,9,1,0\nrole=2,0,0,{limits}\nend=3\n");
    let second = text.replace("end=2\n", &more("2,2"));
    assert_eq!(broken(&second, &sample_cells(&[], &[2, 1, 2])), (0, 0));
    // The second predicate, of which it is the third role of the file.
    assert_eq!(broken(&second, &sample_cells(&[], &[1, 1])), (11, 2));
    let both = second.replace("role=2,0,0,1,4096", "role=2,0,0,1,1");
    assert_eq!(broken(&both, &sample_cells(&[], &[1, 1])), (11, 1));
}

#[test]
fn k11_comes_last() {
    // Member 2 of type 2 is in no role, and role 2 has one member of two.
    let rows = [3, 1, 1, 2, 1, 3, 1];
    let cells = [&[3, 1, 2, 3, 2, 1, 2], &rows[..]].concat();
    let text = limited("1,4096", "2,2");
    assert_eq!(broken(&text, &cells), (10, 2));
    let free = text.replace("type=1,2,1,2,0,0", "type=1,2,1,2,0,1");
    assert_eq!(broken(&free, &cells), (11, 1));
    // K8 and K9, of the same predicate, come before too.
    let cells = [3, 1, 2, 3, 2, 1, 2, 2, 1, 1, 2, 2];
    assert_eq!(broken(&limited("3,3", "1,1"), &cells), (8, 1));
    // No rows are K6, of both versions.
    let none = [3, 1, 2, 3, 2, 1, 2, 0];
    assert_eq!(broken(SAMPLE, &none), (6, 1));
    assert_eq!(broken(&limited("1,4096", "1,4096"), &none), (6, 1));
}

/// Every number of as many digits as it can have.
fn longest(version: u32) -> String {
    let mut text = format!("diagram={version}\ntypes=32\n");
    text += "type=4096,4096,999999,999999,0,0\n";
    for own in 2..=32 {
        text += &format!("type=4096,4096,999999,999999,{},0\n", own - 1);
    }
    text += "preds=32\n";
    let limits = if version == 2 { ",4096,4096" } else { "" };
    for k in 0..32 {
        let groups = 1 + k % 2;
        text += &format!("pred=4096,4096,3,{groups}\n");
        for group in [1, groups, 1] {
            text += &format!("role=32,1,{group}{limits}\n");
        }
        text += &"freq=4096,4096\n".repeat(groups);
    }
    text + "end=96\n"
}

#[test]
fn the_longest_texts_and_tables() {
    for (version, bytes, numbers) in [(1, 3593, 708), (2, 4553, 900)] {
        let text = longest(version);
        assert_eq!(text.len(), bytes);
        assert_eq!(table(&text).len(), numbers);
        let mut written = vec![0; bytes];
        assert_eq!(write(&table(&text), &mut written), Ok(bytes));
        assert_eq!(written, text.as_bytes());
        // Read to its end by the program: the first type has one value.
        assert_eq!(output(&text), "refused=7,1,0\n");
    }
}
