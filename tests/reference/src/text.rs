//! Reading the text and writing it.

use crate::diagram::{form, scan, Lines};
use crate::{lend, Refusal};

/// "ASCII lines `key=value`, each ended by one line feed (byte 10)."
struct Text<'a>(&'a [u8]);

impl Lines for Text<'_> {
    /// 1: "wrong key, digits, number of values, missing line feed, end too
    /// early".
    fn next(&mut self, key: &str, count: usize) -> Option<[u32; 6]> {
        let end = self.0.iter().position(|byte| *byte == 10)?;
        let line = &self.0[..end];
        self.0 = &self.0[end + 1..];
        let value = line.strip_prefix(key.as_bytes())?.strip_prefix(b"=")?;
        let mut numbers = [0; 6];
        let mut found = 0;
        for digits in value.split(|byte| *byte == b',') {
            *numbers[..count].get_mut(found)? = number(digits)?;
            found += 1;
        }
        (found == count).then_some(numbers)
    }

    fn ended(&self) -> bool {
        self.0.is_empty()
    }
}

/// "decimal numbers .. no blanks or signs, 1 to 6 digits, no leading zero but
/// in `0` itself".
fn number(digits: &[u8]) -> Option<u32> {
    if digits.is_empty() || digits.len() > 6 || (digits[0] == b'0' && digits.len() > 1) {
        return None;
    }
    let mut number = 0;
    for digit in digits {
        if !digit.is_ascii_digit() {
            return None;
        }
        number = number * 10 + u32::from(digit - b'0');
    }
    Some(number)
}

/// "Reading takes text and gives the table".
pub fn read(text: &[u8], table: &mut [u32]) -> Result<usize, Refusal> {
    lend(&scan(Text(text))?.table(), table)
}

/// "Writing gives the text".
pub fn write(table: &[u32], text: &mut [u8]) -> Result<usize, Refusal> {
    lend(&form(table)?.text(), text)
}
