//! The C library under test, linked as the static archive `libcapi.a`. Each
//! call has an answer of four numbers.

pub type Answer = [u64; 4];

/// A number that no call answers, to see that the library writes every one.
const UNANSWERED: u64 = u64::MAX - 1;

#[link(name = "capi", kind = "static", modifiers = "-bundle")]
extern "C" {
    fn legshorgan_read(
        text: *const u8,
        text_length: usize,
        table: *mut u32,
        table_length: usize,
        answer: *mut u64,
    );
    fn legshorgan_check(
        table: *const u32,
        table_length: usize,
        sizes: *mut u32,
        sizes_length: usize,
        answer: *mut u64,
    );
    fn legshorgan_populate(
        table: *const u32,
        table_length: usize,
        cells: *mut u32,
        cells_length: usize,
        answer: *mut u64,
    );
    fn legshorgan_write(
        table: *const u32,
        table_length: usize,
        text: *mut u8,
        text_length: usize,
        answer: *mut u64,
    );
    fn legshorgan_validate(
        table: *const u32,
        table_length: usize,
        cells: *const u32,
        cells_length: usize,
        answer: *mut u64,
    );
    fn legshorgan_start(
        table: *const u32,
        table_length: usize,
        sizes: *mut u32,
        sizes_length: usize,
        answer: *mut u64,
    );
    fn legshorgan_lower(
        table: *const u32,
        table_length: usize,
        number: u32,
        sizes: *mut u32,
        sizes_length: usize,
        answer: *mut u64,
    );
    fn legshorgan_survey(
        table: *const u32,
        table_length: usize,
        sizes: *const u32,
        sizes_length: usize,
        answer: *mut u64,
    );
    fn legshorgan_prescribe(
        table: *const u32,
        table_length: usize,
        set: u32,
        wanted: u32,
        cells: *mut u32,
        cells_length: usize,
        answer: *mut u64,
    );
    fn legshorgan_average(
        table: *const u32,
        table_length: usize,
        set: u32,
        quotient: *mut f64,
        answer: *mut u64,
    );
}

/// A wrapper around one call with an input and lent space.
macro_rules! call {
    ($name:ident, $symbol:ident, $input:ty, $lent:ty, $pointer:ident) => {
        pub fn $name(input: &[$input], lent: $lent) -> Answer {
            let mut answer = [UNANSWERED; 4];
            // SAFETY: every pointer is given with the length of its slice.
            unsafe {
                $symbol(
                    input.as_ptr(),
                    input.len(),
                    lent.$pointer(),
                    lent.len(),
                    answer.as_mut_ptr(),
                );
            }
            answer
        }
    };
}

call!(read, legshorgan_read, u8, &mut [u32], as_mut_ptr);
call!(check, legshorgan_check, u32, &mut [u32], as_mut_ptr);
call!(populate, legshorgan_populate, u32, &mut [u32], as_mut_ptr);
call!(write, legshorgan_write, u32, &mut [u8], as_mut_ptr);
call!(validate, legshorgan_validate, u32, &[u32], as_ptr);
call!(start, legshorgan_start, u32, &mut [u32], as_mut_ptr);
call!(survey, legshorgan_survey, u32, &[u32], as_ptr);

/// Takes the number of a limit beside its input.
pub fn lower(table: &[u32], number: u32, sizes: &mut [u32]) -> Answer {
    let mut answer = [UNANSWERED; 4];
    // SAFETY: every pointer is given with the length of its slice.
    unsafe {
        legshorgan_lower(
            table.as_ptr(),
            table.len(),
            number,
            sizes.as_mut_ptr(),
            sizes.len(),
            answer.as_mut_ptr(),
        );
    }
    answer
}

/// Takes the number of a set and a wanted size beside its input.
pub fn prescribe(table: &[u32], set: u32, wanted: u32, cells: &mut [u32]) -> Answer {
    let mut answer = [UNANSWERED; 4];
    // SAFETY: every pointer is given with the length of its slice.
    unsafe {
        legshorgan_prescribe(
            table.as_ptr(),
            table.len(),
            set,
            wanted,
            cells.as_mut_ptr(),
            cells.len(),
            answer.as_mut_ptr(),
        );
    }
    answer
}

/// Takes the number of a set beside its input, and a float to write the quotient
/// to.
pub fn average(table: &[u32], set: u32, quotient: &mut f64) -> Answer {
    let mut answer = [UNANSWERED; 4];
    // SAFETY: the table is given with its length, the quotient is one float.
    unsafe {
        legshorgan_average(
            table.as_ptr(),
            table.len(),
            set,
            quotient,
            answer.as_mut_ptr(),
        );
    }
    answer
}
