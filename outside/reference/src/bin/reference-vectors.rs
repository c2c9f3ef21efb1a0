//! What a program of vectors writes, by the reference: `reference-vectors PROGRAM < crates/PROGRAM/stdin`.

use std::io::{Read, Write};

fn main() -> std::io::Result<()> {
    let program = std::env::args().nth(1).expect("the program's name is wanted");
    let mut lines = String::new();
    std::io::stdin().read_to_string(&mut lines)?;
    std::io::stdout().write_all(reference::answers(&program, &lines).as_bytes())
}
