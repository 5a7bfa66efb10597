//! The table of common multiples (document 02, S-12).

/// The sizes of the table: "1..64 with 1..64".
const SIDE: usize = 64;

/// "a constant table of the least common multiples of 1..64 with 1..64, 4,096
/// numbers, the row by the first" (document 02, S-12); "4,096 u16 numbers".
pub static MULTIPLES: [u16; SIDE * SIDE] = table();

const fn table() -> [u16; SIDE * SIDE] {
    let mut numbers = [0; SIDE * SIDE];
    let mut i = 0;
    while i < numbers.len() {
        numbers[i] = least((i / SIDE + 1) as u16, (i % SIDE + 1) as u16);
        i += 1;
    }
    numbers
}

/// The multiples of the one, counted up until the other divides one of them.
const fn least(a: u16, b: u16) -> u16 {
    let mut multiple = a;
    while !multiple.is_multiple_of(b) {
        multiple += a;
    }
    multiple
}

/// The table's number for two sizes, "where both sizes are 1 to 64" (document 02,
/// S-12).
pub fn multiple(a: usize, b: usize) -> Option<usize> {
    let within = |size: usize| (1..=SIDE).contains(&size);
    let place = || (a - 1) * SIDE + b - 1;
    (within(a) && within(b)).then(|| usize::from(MULTIPLES[place()]))
}

/// "a line for each row with commas between" (document 02, S-12). Each line ends
/// in a line feed, also the last.
pub fn multiples_text() -> String {
    let mut text = String::new();
    for row in MULTIPLES.chunks(SIDE) {
        let numbers: Vec<String> = row.iter().map(u16::to_string).collect();
        text += &numbers.join(",");
        text.push('\n');
    }
    text
}
