//! The program: the diagram file on standard input, its outcome on standard
//! output.

use std::io::{Read, Write};

fn main() -> std::io::Result<()> {
    let mut input = Vec::new();
    std::io::stdin().take(8192).read_to_end(&mut input)?;
    std::io::stdout().write_all(&reference::program(&input))
}
