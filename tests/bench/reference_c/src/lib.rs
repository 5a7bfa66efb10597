//! The calls of the Rust reference for a program in C, with the arguments and answers of include/legshorgan.h.

use reference::{Average, Refusal, Settled};
use std::slice::{from_raw_parts, from_raw_parts_mut};

fn refused(r: Refusal) -> [u64; 4] {
    [u64::from(r.number), r.place, r.round, 0]
}

fn settled(outcome: Result<Settled, Refusal>) -> [u64; 4] {
    outcome.map_or_else(refused, |s| [0, 0, s.rounds, s.length as u64])
}

fn written(outcome: Result<usize, Refusal>) -> [u64; 4] {
    outcome.map_or_else(refused, |length| [0, 0, 0, length as u64])
}

/// # Safety
/// The pointers are as include/legshorgan.h says.
#[no_mangle]
pub unsafe extern "C" fn reference_read(
    text: *const u8,
    text_length: usize,
    table: *mut u32,
    table_length: usize,
    answer: *mut [u64; 4],
) {
    let (text, table) = (
        from_raw_parts(text, text_length),
        from_raw_parts_mut(table, table_length),
    );
    *answer = written(reference::read(text, table));
}

/// # Safety
/// The pointers are as include/legshorgan.h says.
#[no_mangle]
pub unsafe extern "C" fn reference_check(
    table: *const u32,
    table_length: usize,
    sizes: *mut u32,
    sizes_length: usize,
    answer: *mut [u64; 4],
) {
    let (table, sizes) = (
        from_raw_parts(table, table_length),
        from_raw_parts_mut(sizes, sizes_length),
    );
    *answer = settled(reference::check(table, sizes));
}

/// # Safety
/// The pointers are as include/legshorgan.h says.
#[no_mangle]
pub unsafe extern "C" fn reference_populate(
    table: *const u32,
    table_length: usize,
    cells: *mut u32,
    cells_length: usize,
    answer: *mut [u64; 4],
) {
    let (table, cells) = (
        from_raw_parts(table, table_length),
        from_raw_parts_mut(cells, cells_length),
    );
    *answer = settled(reference::populate(table, cells));
}

/// # Safety
/// The pointers are as include/legshorgan.h says.
#[no_mangle]
pub unsafe extern "C" fn reference_write(
    table: *const u32,
    table_length: usize,
    text: *mut u8,
    text_length: usize,
    answer: *mut [u64; 4],
) {
    let (table, text) = (
        from_raw_parts(table, table_length),
        from_raw_parts_mut(text, text_length),
    );
    *answer = written(reference::write(table, text));
}

/// # Safety
/// The pointers are as include/legshorgan.h says.
#[no_mangle]
pub unsafe extern "C" fn reference_validate(
    table: *const u32,
    table_length: usize,
    cells: *const u32,
    cells_length: usize,
    answer: *mut [u64; 4],
) {
    let (table, cells) = (
        from_raw_parts(table, table_length),
        from_raw_parts(cells, cells_length),
    );
    let verdict = reference::validate(table, cells);
    *answer = verdict.map_or_else(refused, |v| {
        [0, 0, u64::from(v.constraint), u64::from(v.number)]
    });
}

/// # Safety
/// The pointers are as include/legshorgan.h says.
#[no_mangle]
pub unsafe extern "C" fn reference_start(
    table: *const u32,
    table_length: usize,
    sizes: *mut u32,
    sizes_length: usize,
    answer: *mut [u64; 4],
) {
    let (table, sizes) = (
        from_raw_parts(table, table_length),
        from_raw_parts_mut(sizes, sizes_length),
    );
    *answer = written(reference::start(table, sizes));
}

/// # Safety
/// The pointers are as include/legshorgan.h says.
#[no_mangle]
pub unsafe extern "C" fn reference_lower(
    table: *const u32,
    table_length: usize,
    number: u32,
    sizes: *mut u32,
    sizes_length: usize,
    answer: *mut [u64; 4],
) {
    let (table, sizes) = (
        from_raw_parts(table, table_length),
        from_raw_parts_mut(sizes, sizes_length),
    );
    let step = reference::lower(table, number, sizes);
    *answer = step.map_or_else(refused, |s| [0, 0, u64::from(s.lowered), s.sets as u64]);
}

/// # Safety
/// The pointers are as include/legshorgan.h says.
#[no_mangle]
pub unsafe extern "C" fn reference_survey(
    table: *const u32,
    table_length: usize,
    sizes: *const u32,
    sizes_length: usize,
    answer: *mut [u64; 4],
) {
    let (table, sizes) = (
        from_raw_parts(table, table_length),
        from_raw_parts(sizes, sizes_length),
    );
    let said = reference::survey(table, sizes);
    *answer = said.map_or_else(refused, |s| [0, 0, u64::from(s.lowers), s.limits as u64]);
}

/// # Safety
/// The pointers are as include/legshorgan.h says.
#[no_mangle]
pub unsafe extern "C" fn reference_prescribe(
    table: *const u32,
    table_length: usize,
    set: u32,
    wanted: u32,
    cells: *mut u32,
    cells_length: usize,
    answer: *mut [u64; 4],
) {
    let (table, cells) = (
        from_raw_parts(table, table_length),
        from_raw_parts_mut(cells, cells_length),
    );
    *answer = settled(reference::prescribe(table, set, wanted, cells));
}

/// # Safety
/// The pointers are as include/legshorgan.h says.
#[no_mangle]
pub unsafe extern "C" fn reference_average(
    table: *const u32,
    table_length: usize,
    set: u32,
    quotient: *mut f64,
    answer: *mut [u64; 4],
) {
    *answer = match reference::average(from_raw_parts(table, table_length), set) {
        Ok(Average::Whole(number)) => [0, 0, 0, u64::from(number)],
        Ok(Average::Float(float)) => {
            *quotient = float;
            [0, 0, 1, 0]
        }
        Err(refusal) => refused(refusal),
    };
}
