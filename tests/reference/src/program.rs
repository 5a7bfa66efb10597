//! The program's output.

use crate::diagram::form;
use crate::fill::populate;
use crate::sizes::check;
use crate::text::read;
use crate::Refusal;

/// "prints rounds, sizes in set order, each type's values, each predicate's
/// number and rows; or `refused=NUMBER,PLACE,ROUND`".
pub fn program(input: &[u8]) -> Vec<u8> {
    let output = accepted(input).unwrap_or_else(|refusal| {
        let Refusal {
            number,
            place,
            round,
        } = refusal;
        format!("refused={number},{place},{round}\n")
    });
    output.into_bytes()
}

/// "the program reads up to 8,192 bytes" (document 02, S-8), "every valid file
/// is shorter", and "gives 16,000 cells". There are at most 208 sets.
///
/// A table has at most 900 numbers, in version 2: 1 + 1 + 32 * 6 + 1 + 32 * 4 +
/// 96 * 5 + 48 * 2 + 1. Its text has at most 4,553 bytes. Every number can have
/// as many digits as its range allows, but for one: SUPER is below the type's
/// own number, so that it has two digits from type 11 on only. The lines, with
/// line feeds, have 10, 9, 10 * 33 + 22 * 34 (types), 9, 32 * 19 (predicates),
/// 96 * 22 (roles), 48 * 15 (groups) and 7 bytes.
fn accepted(input: &[u8]) -> Result<String, Refusal> {
    let mut table = [0; 900];
    let length = read(&input[..input.len().min(8192)], &mut table)?;
    let table = &table[..length];
    let mut sizes = [0; 208];
    let settled = check(table, &mut sizes)?;
    let mut cells = vec![0; 16_000];
    populate(table, &mut cells)?;
    let d = form(table)?;

    let mut output = format!("rounds={}\n", settled.rounds);
    for size in &sizes[..settled.length] {
        output += &format!("size={size}\n");
    }
    let mut rest = cells.as_slice();
    let mut part = |width: usize| {
        let (own, tail) = rest[1..].split_at(rest[0] as usize * width);
        rest = tail;
        own
    };
    for _ in &d.types {
        output += &format!("type={}\n", commas(part(1)));
    }
    for (k, pred) in d.preds.iter().enumerate() {
        output += &format!("pred={}\n", k + 1);
        let width = pred.roles.len();
        for row in part(width).chunks_exact(width) {
            output += &format!("row={}\n", commas(row));
        }
    }
    Ok(output)
}

/// Decimal numbers with commas between.
fn commas(numbers: &[u32]) -> String {
    let numbers: Vec<String> = numbers.iter().map(u32::to_string).collect();
    numbers.join(",")
}
