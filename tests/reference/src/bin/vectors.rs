//! Compares the reference with expected outcomes: `vectors PATH ..`. A path is a
//! folder with the files `texts.jsonl`, `tables.txt`, `cells.txt` and `slow.txt`,
//! and with `s13.txt`, `s1.txt` and `s14.txt` if they are there; or one of these
//! files alone.

use reference::random::Random;
use reference::{average, check, form, lower, prescribe, program, start, survey, validate};
use reference::{Average, Refusal};
use std::path::Path;

/// The counts over one file; the first differences are printed.
#[derive(Default)]
struct Tally {
    cases: usize,
    differences: usize,
}

impl Tally {
    fn case(&mut self, place: &str, expected: &str, found: &str) {
        self.cases += 1;
        if expected != found {
            self.differences += 1;
            if self.differences <= 3 {
                println!("{place}:\nexpected {expected}\nfound    {found}");
            }
        }
    }
}

/// The characters of a JSON string after its opening quote, and the rest.
fn string(source: &str) -> Option<(String, &str)> {
    let mut decoded = String::new();
    let mut chars = source.chars();
    loop {
        match chars.next()? {
            '"' => return Some((decoded, chars.as_str())),
            '\\' => decoded.push(match chars.next()? {
                'n' => '\n',
                'r' => '\r',
                't' => '\t',
                'b' => '\u{8}',
                'f' => '\u{c}',
                'u' => {
                    let digits = chars.as_str().get(..4)?;
                    chars = chars.as_str()[4..].chars();
                    char::from_u32(u32::from_str_radix(digits, 16).ok()?)?
                }
                other => other,
            }),
            other => decoded.push(other),
        }
    }
}

/// The string value of a key in a JSON object of strings.
fn field(object: &str, key: &str) -> Option<String> {
    let mut rest = object;
    loop {
        let (name, after) = string(rest.split_once('"')?.1)?;
        let (value, after) = string(after.split_once('"')?.1)?;
        if name == key {
            return Some(value);
        }
        rest = after;
    }
}

/// The numbers after `key=` in a line of parts with blanks between.
fn numbers(line: &str, key: &str) -> Option<Vec<u32>> {
    let list = line.split(' ').find_map(|part| part.strip_prefix(key))?;
    let list = list.strip_prefix('=')?;
    if list.is_empty() {
        return Some(Vec::new());
    }
    list.split(',').map(|n| n.parse().ok()).collect()
}

/// The one number after `key=`.
fn number(line: &str, key: &str) -> Option<u32> {
    match numbers(line, key)?[..] {
        [number] => Some(number),
        _ => None,
    }
}

/// Numbers with commas between.
fn joined(numbers: &[u32]) -> String {
    let numbers: Vec<String> = numbers.iter().map(u32::to_string).collect();
    numbers.join(",")
}

fn refused(r: Refusal) -> String {
    format!("refused={},{},{}", r.number, r.place, r.round)
}

fn text_case(tally: &mut Tally, place: &str, line: &str) -> Option<()> {
    // "characters are bytes, latin-1"
    let text = field(line, "text")?;
    let text: Option<Vec<u8>> = text.chars().map(|c| u8::try_from(c).ok()).collect();
    let output = field(line, "output")?;
    let found = String::from_utf8_lossy(&program(&text?)).into_owned();
    tally.case(place, &output, &found);
    Some(())
}

fn table_case(tally: &mut Tally, place: &str, line: &str) -> Option<()> {
    let table = numbers(line, "table")?;
    let found = match form(&table) {
        Ok(diagram) => format!("accepted={}", diagram.table().len()),
        Err(refusal) => refused(refusal),
    };
    tally.case(place, line.rsplit(' ').next()?, &found);
    Some(())
}

fn cells_case(tally: &mut Tally, place: &str, line: &str) -> Option<()> {
    let (table, cells) = (numbers(line, "table")?, numbers(line, "cells")?);
    let found = match validate(&table, &cells) {
        Ok(verdict) => format!("broken={},{}", verdict.constraint, verdict.number),
        Err(refusal) => refused(refusal),
    };
    tally.case(place, line.rsplit(' ').next()?, &found);
    Some(())
}

/// Where the starting ceilings end by single limits in an order made from a
/// seed, "carried on until no limit lowers any".
fn ceilings(table: &[u32], seed: u64) -> Result<Vec<u32>, Refusal> {
    let mut ceilings = vec![0; 208];
    let sets = start(table, &mut ceilings)?;
    ceilings.truncate(sets);
    let count = survey(table, &ceilings)?.limits as u32;
    let mut order: Vec<u32> = (0..count).collect();
    let mut random = Random::new(seed);
    while survey(table, &ceilings)?.lowers {
        random.shuffle(&mut order);
        for number in &order {
            lower(table, *number, &mut ceilings)?;
        }
    }
    Ok(ceilings)
}

/// The end "in set order; behind it what the check says of the diagram".
fn s13_case(tally: &mut Tally, place: &str, line: &str) -> Option<()> {
    let (input, expected) = line.split_once(" -> ")?;
    let table = numbers(input, "table")?;
    let found = match ceilings(&table, tally.cases as u64) {
        Ok(ceilings) => {
            let said = match check(&table, &mut [0; 208]) {
                Ok(settled) => format!("rounds={}", settled.rounds),
                Err(refusal) => refused(refusal),
            };
            format!("ceilings={} {said}", joined(&ceilings))
        }
        Err(refusal) => refused(refusal),
    };
    tally.case(place, expected, &found);
    Some(())
}

/// "the table, the set number, the wanted size and the length of the lent space".
fn s1_case(tally: &mut Tally, place: &str, line: &str) -> Option<()> {
    let (input, expected) = line.split_once(" -> ")?;
    let table = numbers(input, "table")?;
    let (set, wanted) = (number(input, "set")?, number(input, "wanted")?);
    let mut cells = vec![0; number(input, "space")? as usize];
    let found = match prescribe(&table, set, wanted, &mut cells) {
        Ok(settled) => {
            let cells = joined(&cells[..settled.length]);
            let (rounds, length) = (settled.rounds, settled.length);
            format!("rounds={rounds} length={length} cells={cells}")
        }
        Err(refusal) => refused(refusal),
    };
    tally.case(place, expected, &found);
    Some(())
}

/// Whether X of an answer `float=X bits=H` "reads back as the same 64-bit float",
/// whose bits are H; true of any other answer.
fn reads_back(answer: &str) -> Option<bool> {
    let Some(float) = answer.strip_prefix("float=") else {
        return Some(true);
    };
    let (decimal, bits) = float.split_once(" bits=")?;
    let bits = u64::from_str_radix(bits, 16).ok()?;
    Some(decimal.parse::<f64>().ok()?.to_bits() == bits)
}

/// "`whole=N`, or `float=X bits=H`: X is the shortest decimal", as it is written
/// here too.
fn s14_case(tally: &mut Tally, place: &str, line: &str) -> Option<()> {
    let (input, expected) = line.split_once(" -> ")?;
    let (table, set) = (numbers(input, "table")?, number(input, "set")?);
    let found = match average(&table, set) {
        Ok(Average::Whole(number)) => format!("whole={number}"),
        Ok(Average::Float(x)) => format!("float={x} bits={:016x}", x.to_bits()),
        Err(refusal) => refused(refusal),
    };
    if !reads_back(expected)? {
        return None;
    }
    tally.case(place, expected, &found);
    Some(())
}

/// A whole file as one case, with the outcome that its README gives.
fn slow(path: &Path) -> std::io::Result<usize> {
    let mut tally = Tally::default();
    let output = program(&std::fs::read(path)?);
    let found = String::from_utf8_lossy(&output).into_owned();
    tally.case("slow.txt", "refused=7,144,454828\n", &found);
    println!("slow.txt: 1 cases, {} differences", tally.differences);
    Ok(tally.differences)
}

/// Runs one case for each line of a file.
fn lines(
    path: &Path,
    name: &str,
    case: fn(&mut Tally, &str, &str) -> Option<()>,
) -> std::io::Result<usize> {
    let mut tally = Tally::default();
    for (i, line) in std::fs::read_to_string(path)?.lines().enumerate() {
        let place = format!("{name} line {}", i + 1);
        if case(&mut tally, &place, line).is_none() {
            tally.case(&place, "a readable case", "a line of another form");
        }
    }
    println!(
        "{name}: {} cases, {} differences",
        tally.cases, tally.differences
    );
    Ok(tally.differences)
}

/// Runs a file by its name; how many outcomes differ.
fn file(path: &Path) -> std::io::Result<usize> {
    match path.file_name().and_then(|name| name.to_str()) {
        Some(name @ "texts.jsonl") => lines(path, name, text_case),
        Some(name @ "tables.txt") => lines(path, name, table_case),
        Some(name @ "cells.txt") => lines(path, name, cells_case),
        Some(name @ "s13.txt") => lines(path, name, s13_case),
        Some(name @ "s1.txt") => lines(path, name, s1_case),
        Some(name @ "s14.txt") => lines(path, name, s14_case),
        Some("slow.txt") => slow(path),
        _ => Err(std::io::Error::other("no file of cases has this name")),
    }
}

fn main() -> std::io::Result<()> {
    let mut differences = 0;
    let mut paths = std::env::args().skip(1).peekable();
    paths.peek().expect("vectors PATH ..");
    for path in paths {
        let path = Path::new(&path);
        if !path.is_dir() {
            differences += file(path)?;
            continue;
        }
        for name in ["texts.jsonl", "tables.txt", "cells.txt", "slow.txt"] {
            differences += file(&path.join(name))?;
        }
        for path in ["s13.txt", "s1.txt", "s14.txt"].map(|name| path.join(name)) {
            if path.exists() {
                differences += file(&path)?;
            }
        }
    }
    std::process::exit(i32::from(differences > 0));
}
