//! The table of common multiples, S-12 of document 02.

use reference::{check, multiple, multiples_text, pairs, populate, prescribe, read, MULTIPLES};
use std::path::Path;

/// "the least common multiple": the least number that both divide, tried out one
/// after another; none up to so many where it is larger.
fn least(a: usize, b: usize, most: usize) -> Option<usize> {
    (1..=most).find(|n| n % a == 0 && n % b == 0)
}

/// The rule of document 01, for indices below 4096: a common multiple past these
/// shifts nothing.
fn by_rule(s: usize, t: usize, wanted: usize) -> Vec<(usize, usize)> {
    let lcm = least(s, t, 4096).unwrap_or(usize::MAX);
    let count = wanted.min(s * t);
    assert!(count <= 4096);
    (0..count).map(|i| (i % s, (i + i / lcm) % t)).collect()
}

/// "Three or more sets pair from the left, each step keeping the smaller of the
/// count wanted and |S| times |T|": the members' indices.
fn tuples(sizes: &[usize], wanted: usize) -> Vec<Vec<usize>> {
    let mut left: Vec<Vec<usize>> = (0..sizes[0]).map(|i| vec![i]).collect();
    for size in &sizes[1..] {
        let join = |(i, j): (usize, usize)| [&left[i][..], &[j]].concat();
        left = by_rule(left.len(), *size, wanted)
            .into_iter()
            .map(join)
            .collect();
    }
    left
}

/// A file of the repository.
fn file(path: &str) -> String {
    let root = Path::new(env!("CARGO_MANIFEST_DIR")).join("../..");
    std::fs::read_to_string(root.join(path)).expect(path)
}

fn table(text: &str) -> Vec<u32> {
    let mut table = [0; 900];
    let length = read(text.as_bytes(), &mut table).unwrap();
    table[..length].to_vec()
}

/// One predicate with a role of each of these groups, each of a type of its own
/// that has so many values from 1 on.
fn diagram(sizes: &[usize], max: usize, groups: &[usize], freqs: &[&str]) -> Vec<u32> {
    let mut text = format!("diagram=1\ntypes={}\n", sizes.len());
    for size in sizes {
        text += &format!("type=1,{size},1,{size},0,1\n");
    }
    text += &format!("preds=1\npred=1,{max},{},{}\n", sizes.len(), freqs.len());
    for (role, group) in (1..).zip(groups) {
        text += &format!("role={role},0,{group}\n");
    }
    for freq in freqs {
        text += &format!("freq={freq}\n");
    }
    table(&format!("{text}end={}\n", sizes.len()))
}

fn settled(table: &[u32]) -> Vec<usize> {
    let mut sizes = [0; 208];
    let length = check(table, &mut sizes).unwrap().length;
    sizes[..length].iter().map(|size| *size as usize).collect()
}

fn filled(table: &[u32]) -> Vec<u32> {
    let mut cells = vec![0; 60_000];
    let length = populate(table, &mut cells).unwrap().length;
    cells.truncate(length);
    cells
}

/// Types of these sizes with values from 1 on, and a predicate with these rows.
fn cells(types: &[usize], rows: &[Vec<usize>]) -> Vec<u32> {
    let mut cells = Vec::new();
    for size in types {
        cells.push(*size as u32);
        cells.extend(1..=*size as u32);
    }
    cells.push(rows.len() as u32);
    cells.extend(rows.iter().flatten().map(|index| *index as u32 + 1));
    cells
}

#[test]
fn each_number_is_the_least_that_both_divide() {
    assert_eq!(MULTIPLES.len(), 4096);
    for a in 1..=64 {
        for b in 1..=64 {
            let number = least(a, b, a * b);
            let place = (a - 1) * 64 + b - 1;
            assert_eq!(Some(usize::from(MULTIPLES[place])), number, "{a} with {b}");
            assert_eq!(multiple(a, b), number, "{a} with {b}");
        }
    }
}

#[test]
fn the_table_ends_at_64() {
    for a in [0, 65, 66, 127, 128, 4096] {
        for b in [0, 1, 2, 63, 64, 65, 4096] {
            assert_eq!(multiple(a, b), None, "{a} with {b}");
            assert_eq!(multiple(b, a), None, "{b} with {a}");
        }
    }
}

#[test]
fn some_numbers() {
    let given = |a, b| multiple(a, b).unwrap();
    assert_eq!((given(1, 1), given(1, 64), given(64, 1)), (1, 64, 64));
    assert_eq!((given(4, 6), given(12, 2), given(2, 2)), (12, 12, 2));
    assert_eq!(
        (given(48, 64), given(64, 48), given(60, 45)),
        (192, 192, 180)
    );
    // The largest, and the largest of a number with itself.
    assert_eq!(
        (given(63, 64), given(64, 63), given(64, 64)),
        (4032, 4032, 64)
    );
    assert_eq!(MULTIPLES.iter().max(), Some(&4032));
}

/// The rows of 1, 2 and 64, and how others begin and end.
const FIRST: &str = "1,2,3,4,5,6,7,8,9,10,11,12,13,14,15,16,17,18,19,20,21,22,23,24,25,26,27,28,29,30,31,32,\
    33,34,35,36,37,38,39,40,41,42,43,44,45,46,47,48,49,50,51,52,53,54,55,56,57,58,59,60,61,62,63,64";
const SECOND: &str = "2,2,6,4,10,6,14,8,18,10,22,12,26,14,30,16,34,18,38,20,42,22,46,24,50,26,54,28,58,30,62,32,\
    66,34,70,36,74,38,78,40,82,42,86,44,90,46,94,48,98,50,102,52,106,54,110,56,114,58,118,60,122,62,126,64";
const LAST: &str = "64,64,192,64,320,192,448,64,576,320,704,192,832,448,960,64,1088,576,1216,320,1344,704,1472,192,\
    1600,832,1728,448,1856,960,1984,64,2112,1088,2240,576,2368,1216,2496,320,2624,1344,2752,704,2880,1472,3008,192,\
    3136,1600,3264,832,3392,1728,3520,448,3648,1856,3776,960,3904,1984,4032,64";

#[test]
fn the_text_is_a_line_for_each_row() {
    let text = multiples_text();
    assert!(text.ends_with("64\n") && !text.ends_with("\n\n"));
    assert!(text.bytes().all(|byte| b"0123456789,\n".contains(&byte)));
    assert_eq!(text.bytes().filter(|byte| *byte == 10).count(), 64);
    let lines: Vec<&str> = text.lines().collect();
    assert_eq!(
        (lines.len(), lines[0], lines[1], lines[63]),
        (64, FIRST, SECOND, LAST)
    );
    assert!(lines[5].starts_with("6,6,6,12,30,6,42,24,18,30,66,12,78,"));
    assert!(lines[59].starts_with("60,60,60,60,60,60,420,120,180,60,660,60,780,420,60,240,"));
    assert!(lines[62].ends_with(",3843,3906,63,4032"));
    // Read back, it is the table: 64 numbers a line.
    let mut numbers = Vec::new();
    for line in lines {
        let row: Vec<u16> = line.split(',').map(|word| word.parse().unwrap()).collect();
        assert_eq!(row.len(), 64, "{line}");
        numbers.extend(row);
    }
    assert_eq!(numbers, MULTIPLES);
}

#[test]
fn the_programs_output_is_the_text() {
    let printed = file("crates/multiples_main/stdout");
    let text = multiples_text();
    let differs = text.lines().zip(printed.lines()).position(|(a, b)| a != b);
    assert_eq!(differs, None, "a line, from 0");
    assert!(
        printed == text,
        "{} and {} bytes",
        printed.len(),
        text.len()
    );
}

/// "its output .. is the shipped source's numbers" (document 02, S-12).
#[test]
fn the_shipped_sources_numbers_are_the_text() {
    let source = file("crates/multiples/src/table.rt");
    let digit = |line: &&str| line.starts_with(|c: char| c.is_ascii_digit());
    let numbers: Vec<&str> = source.split('\n').filter(digit).collect();
    let text = multiples_text();
    let lines: Vec<String> = text.lines().map(|line| format!("{line},")).collect();
    let differs = lines.iter().zip(&numbers).position(|(a, b)| a != b);
    assert_eq!((differs, numbers.len()), (None, 64), "a line, from 0");
    assert_eq!(lines, numbers);
    // What the program prints is the same without the commas at the ends.
    let printed = file("crates/multiples_main/stdout");
    let shipped: String = numbers.iter().flat_map(|line| [*line, "\n"]).collect();
    assert!(shipped.replace(",\n", "\n") == printed);
}

/// "gives for all sizes the pairs it gave" (document 02, S-12): those of the rule.
fn pairs_are_the_rules(s: usize, t: usize, wanted: usize) {
    let given = pairs(s, t, wanted);
    let (expected, mut count) = (by_rule(s, t, wanted), 0);
    for (i, pair) in given.enumerate() {
        assert_eq!(pair, expected[i], "{s} with {t} to {wanted}, pair {i}");
        count += 1;
    }
    assert_eq!(count, expected.len(), "{s} with {t} to {wanted}");
}

#[test]
fn pairs_of_sizes_from_1_to_130() {
    for s in 1..=130 {
        for t in 1..=130 {
            pairs_are_the_rules(s, t, 4096);
        }
    }
}

#[test]
fn pairs_of_larger_sizes_and_fewer_wanted() {
    let sizes = [
        1, 2, 32, 48, 62, 63, 64, 65, 66, 96, 128, 129, 2048, 4095, 4096,
    ];
    for s in sizes {
        for t in sizes {
            for wanted in [1, 63, 64, 65, 128, 192, 193, 4095, 4096] {
                pairs_are_the_rules(s, t, wanted);
            }
        }
    }
    // P4 of document 01.
    let four: Vec<(usize, usize)> = pairs(2, 2, 9).collect();
    assert_eq!(four, [(0, 0), (1, 1), (0, 1), (1, 0)]);
}

#[test]
fn all_pairs_differ() {
    for s in 1..=64 {
        for t in 1..=64 {
            let mut met = [false; 4096];
            for (i, j) in pairs(s, t, 4096) {
                assert!(i < s && j < t && !met[i * t + j], "{s} with {t}: {i}, {j}");
                met[i * t + j] = true;
            }
            assert!(met[..s * t].iter().all(|met| *met), "{s} with {t}");
        }
    }
    // Past the table, where not all are wanted.
    for (s, t) in [
        (64, 65),
        (65, 64),
        (65, 65),
        (66, 64),
        (4096, 64),
        (64, 4096),
    ] {
        let mut some: Vec<(usize, usize)> = pairs(s, t, 4096).collect();
        some.sort();
        some.dedup();
        assert_eq!(some.len(), 4096, "{s} with {t}");
    }
}

#[test]
fn populations_about_the_tables_edge() {
    for s in [1, 63, 64, 65] {
        for t in [1, 63, 64, 65] {
            for max in [63, 64, 65, 128, 4096] {
                let rows = max.min(s * t);
                let (p, q) = (s.min(rows), t.min(rows));
                let table = diagram(&[s, t], max, &[0, 0], &[]);
                assert_eq!(settled(&table), [s, t, rows, p, q]);
                let expected = cells(&[s, t], &tuples(&[p, q], rows));
                assert_eq!(filled(&table), expected, "{s} with {t} to {max}");
            }
        }
    }
    // Row 64 of 64 with 64 is the first that is shifted; of 65 with 65 it is row 65.
    let all = filled(&diagram(&[64, 64], 4096, &[0, 0], &[]));
    let row = |cells: &[u32], sizes: usize, i: usize| cells[sizes + 3 + 2 * i..][..2].to_vec();
    assert_eq!(
        (row(&all, 128, 63), row(&all, 128, 64)),
        (vec![64, 64], vec![1, 2])
    );
    assert_eq!(
        (row(&all, 128, 127), row(&all, 128, 128)),
        (vec![64, 1], vec![1, 3])
    );
    let all = filled(&diagram(&[65, 65], 4096, &[0, 0], &[]));
    assert_eq!(
        (row(&all, 130, 64), row(&all, 130, 65)),
        (vec![65, 65], vec![1, 2])
    );
    // 48 with 64: the common multiple is 192.
    let all = filled(&diagram(&[48, 64], 4096, &[0, 0], &[]));
    assert_eq!(
        (row(&all, 112, 191), row(&all, 112, 192)),
        (vec![48, 64], vec![1, 2])
    );
}

#[test]
fn three_sets_whose_first_two_pass_64() {
    for sizes in [
        [8, 8, 48],
        [7, 9, 63],
        [5, 13, 60],
        [16, 4, 64],
        [13, 5, 65],
        [6, 11, 33],
        [1, 64, 32],
        [65, 1, 40],
        [2, 3, 64],
    ] {
        for max in [63, 64, 65, 1000, 4096] {
            let rows = max.min(sizes.iter().product());
            let table = diagram(&sizes, max, &[0, 0, 0], &[]);
            let p = settled(&table)[4..].to_vec();
            assert_eq!(settled(&table)[3], rows);
            let expected = cells(&sizes, &tuples(&p, rows));
            assert_eq!(filled(&table), expected, "{sizes:?} to {max}");
        }
    }
}

#[test]
fn groups_of_64_and_65_combinations() {
    // A group of two roles, then the first role alone.
    for (sizes, q) in [([48, 8, 8], 64), ([60, 5, 13], 65), ([64, 7, 9], 63)] {
        let table = diagram(&sizes, 2000, &[0, 1, 1], &["1,4096"]);
        assert_eq!(settled(&table)[7], q);
        let group = tuples(&[sizes[1], sizes[2]], q);
        let rows: Vec<Vec<usize>> = by_rule(q, sizes[0], 2000)
            .into_iter()
            .map(|(i, j)| vec![j, group[i][0], group[i][1]])
            .collect();
        assert_eq!(filled(&table), cells(&sizes, &rows), "{sizes:?}");
    }
    // 128 rows of combinations that occur twice leave 64 of them, 130 rows 65.
    for (max, q) in [(128, 64), (130, 65)] {
        let table = diagram(&[20, 10, 4], max, &[1, 1, 0], &["2,2"]);
        assert_eq!(settled(&table)[7], q);
        let group = tuples(&[20, 10], q);
        let rows: Vec<Vec<usize>> = by_rule(q, 4, max)
            .into_iter()
            .map(|(i, j)| vec![group[i][0], group[i][1], j])
            .collect();
        assert_eq!(filled(&table), cells(&[20, 10, 4], &rows), "{max}");
    }
}

/// A type of the two, then its role, has just so many: the other is as it was,
/// and with the role so the types are too.
fn prescribed(types: [usize; 2], place: usize, wanted: usize) {
    let table = diagram(&types, 4096, &[0, 0], &[]);
    let mut sizes = types;
    sizes[place] = wanted;
    let rows = tuples(&sizes, 4096);
    for (set, held) in [(place + 1, sizes), (place + 4, types)] {
        let mut lent = vec![0; 60_000];
        let answer = prescribe(&table, set as u32, wanted as u32, &mut lent).unwrap();
        lent.truncate(answer.length);
        assert_eq!(lent, cells(&held, &rows), "{types:?}, set {set}, {wanted}");
    }
}

#[test]
fn prescribed_sizes_about_the_tables_edge() {
    for wanted in [1, 48, 63, 64, 65] {
        for types in [[70, 80], [70, 48], [70, 64], [70, 65]] {
            prescribed(types, 0, wanted);
            prescribed([types[1], types[0]], 1, wanted);
        }
    }
}
