//! The program `settle` of document 01, by the reference.

use std::io::{Read, Write};

fn main() -> std::io::Result<()> {
    let mut input = Vec::new();
    std::io::stdin().take(reference::INPUT_LIMIT as u64).read_to_end(&mut input)?;
    std::io::stdout().write_all(reference::settle_text(&input).as_bytes())
}
