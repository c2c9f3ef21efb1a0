//! The text of a program `settle`, `replay` or `fallback` against the reference's.

use crate::fallbacks::Pair;
use crate::{draw, traces};
use random::Random;
use std::io::Write;
use std::process::{Command, ExitCode, Stdio};

/// What a program is given, and what it must write.
struct Case {
    arguments: Vec<String>,
    input: Vec<u8>,
    right: String,
}

fn text(path: &str, case: &Case) -> std::io::Result<Vec<u8>> {
    let mut command = Command::new(path);
    command.args(&case.arguments).stdin(Stdio::piped()).stdout(Stdio::piped());
    let mut child = command.spawn()?;
    // A program that has read enough may close its input early.
    let _ = child.stdin.take().unwrap().write_all(&case.input);
    Ok(child.wait_with_output()?.stdout)
}

pub fn compare_settle(path: &str, sheets: u64, seed: u64) -> ExitCode {
    compare(path, "sheets", sheets, seed, |random| {
        let mut paper = draw::paper(random);
        draw::damage_paper(random, &mut paper);
        let mut sheet = draw::sheet(random, &paper);
        if random.percent(3) {
            sheet.resize(random.pick(&[20_488, 20_489, 20_490, 60_000]), 0);
        }
        let right = reference::settle_text(&sheet);
        Case { arguments: vec![], input: sheet, right }
    })
}

pub fn compare_replay(path: &str, traces: u64, seed: u64) -> ExitCode {
    compare(path, "traces", traces, seed, |random| {
        let mut trace = traces::trace(random);
        traces::damage(random, &mut trace);
        let mut input = traces::bytes(random, &trace);
        if random.percent(3) {
            input.resize(random.pick(&[655_688, 655_689, 655_690, 700_000]), 0);
        }
        let each_round = random.percent(50);
        let right = reference::replay_text(&input, each_round);
        let arguments = each_round.then(|| "--rounds".to_string()).into_iter().collect();
        Case { arguments, input, right }
    })
}

/// The sheets are in two files, of this program's own.
pub fn compare_fallback(path: &str, pairs: u64, seed: u64) -> ExitCode {
    let folder = std::env::temp_dir();
    let files = ["crusaders", "direct"]
        .map(|name| folder.join(format!("compare-{}.{name}", std::process::id())));
    let compared = compare(path, "pairs", pairs, seed, |random| {
        let (mut pair, _) = Pair::draw(random);
        for sheet in [&mut pair.crusaders, &mut pair.direct] {
            if random.percent(3) {
                sheet.resize(random.pick(&[20_488, 20_489, 20_490, 60_000]), 0);
            }
        }
        for (file, sheet) in files.iter().zip([&pair.crusaders, &pair.direct]) {
            std::fs::write(file, sheet).expect("a file for a sheet");
        }
        let arguments = files.iter().map(|file| file.to_string_lossy().into()).collect();
        let right = reference::fallback_text(&pair.crusaders, &pair.direct);
        Case { arguments, input: vec![], right }
    });
    for file in &files {
        let _ = std::fs::remove_file(file);
    }
    compared
}

fn compare(
    path: &str,
    what: &str,
    count: u64,
    seed: u64,
    draw: impl Fn(&Random) -> Case,
) -> ExitCode {
    let mut settled = 0;
    for now in 0..count {
        let case = draw(&Random::new((seed << 32) + now));
        let right = &case.right;
        match text(path, &case) {
            Err(error) => {
                println!("FAILED: {path}: {error}");
                return ExitCode::FAILURE;
            }
            Ok(given) if given != right.as_bytes() => {
                println!("FAILED at number {now} of the {what}: {path} {:?} wrote", case.arguments);
                print!("{}and the reference\n{right}", String::from_utf8_lossy(&given));
                return ExitCode::FAILURE;
            }
            Ok(_) => settled += !right.contains("refused") as u64,
        }
    }
    println!("PASSED: {path} wrote the reference's text for {count} {what}, {settled} not refused");
    ExitCode::SUCCESS
}
