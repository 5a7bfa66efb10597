//! A second solution of document 01, amended by S-1, S-2, S-5, S-8, S-12, S-13
//! and S-14 of document 02, written from the documents alone, to compare others with.
//! Quoted words in comments are from document 01 where no other is named.

mod average;
mod constraints;
mod diagram;
mod fill;
mod limits;
mod multiples;
mod program;
mod sizes;
mod text;

pub mod large;
pub mod random;

#[cfg(feature = "compare")]
pub mod foreign;

pub use average::{average, Average};
pub use constraints::{found, validate, Verdict};
pub use diagram::{form, role_width, Diagram, Group, Predicate, Role, Type};
pub use fill::{pairs, populate, prescribe};
pub use limits::{limits, lower, start, survey, Limit, Lowered, Survey, Value};
pub use multiples::{multiple, multiples_text, MULTIPLES};
pub use program::program;
pub use sizes::{check, floors, round, settle, starting};
pub use text::{read, write};

/// "A refusal carries its number, a place and a round (0 but for 7)", and but
/// for 11, which stands "in place of 7" (document 02, S-1).
#[derive(Clone, Copy, Debug, PartialEq, Eq)]
pub struct Refusal {
    pub number: u32,
    pub place: u64,
    pub round: u64,
}

impl Refusal {
    /// A refusal of any number but 7 and 11: the round is 0.
    fn at(number: u32, place: u64) -> Refusal {
        Refusal {
            number,
            place,
            round: 0,
        }
    }
}

/// "check and fill also hand back the rounds", beside the result's length.
#[derive(Clone, Copy, Debug, PartialEq, Eq)]
pub struct Settled {
    pub rounds: u64,
    pub length: usize,
}

/// "writes its result at the front of the lent space and nothing behind it,
/// and hands back the result's length"; 8: "lent space shorter than the
/// result", place "length needed".
fn lend<T: Copy>(result: &[T], lent: &mut [T]) -> Result<usize, Refusal> {
    room(result.len(), lent)?;
    lent[..result.len()].copy_from_slice(result);
    Ok(result.len())
}

/// 8: "lent space shorter than the result", place "length needed".
fn room<T>(needed: usize, lent: &[T]) -> Result<(), Refusal> {
    if lent.len() < needed {
        return Err(Refusal::at(8, needed as u64));
    }
    Ok(())
}
