//! The program `replay` of document 02, by the reference: `reference-replay [--rounds] < TRACE`.

use std::io::{Read, Write};

fn main() -> std::io::Result<()> {
    let each_round = std::env::args().nth(1).as_deref() == Some("--rounds");
    let mut input = Vec::new();
    std::io::stdin().take(reference::TRACE_LIMIT as u64).read_to_end(&mut input)?;
    std::io::stdout().write_all(reference::replay_text(&input, each_round).as_bytes())
}
