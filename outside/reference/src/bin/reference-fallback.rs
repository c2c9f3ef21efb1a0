//! The program `fallback`, by the reference: `reference-fallback CRUSADERS DIRECT`, two files.

use std::io::Write;

fn main() -> std::io::Result<()> {
    let mut names = std::env::args().skip(1);
    let mut sheet = || std::fs::read(names.next().expect("two files are wanted"));
    let (crusaders, direct) = (sheet()?, sheet()?);
    std::io::stdout().write_all(reference::fallback_text(&crusaders, &direct).as_bytes())
}
