//! The texts that the programs `settle`, `replay` and `fallback` write.

use crate::fallback::{fallback, Source};
use crate::replay::Trace;
use crate::round::settle;
use crate::Refusal;

/// The program `settle` reads at most this many bytes, and `fallback` of each sheet.
pub const INPUT_LIMIT: usize = 20_489;

/// The longest trace has one byte less: a longer input is refused under 13, or before.
pub const TRACE_LIMIT: usize = 655_690;

pub fn settle_text(input: &[u8]) -> String {
    let mut answer = [0; 10 + 5 * 64];
    match settle(as_read(input), &mut answer) {
        Err(refusal) => refused(refusal) + "\n",
        Ok(_) => listing(&answer),
    }
}

/// The text of `fallback`: which sheet settled the round, and its listing.
pub fn fallback_text(crusaders: &[u8], direct: &[u8]) -> String {
    let mut answer = [0; 10 + 5 * 64];
    match fallback(as_read(crusaders), as_read(direct), &mut answer) {
        Err(refusal) => refused(refusal) + "\n",
        Ok(given) => {
            let settled_by = match given.source {
                Source::Crusaders => "crusaders",
                Source::Direct => "direct",
            };
            format!("settled by {settled_by}\n{}", listing(&answer))
        }
    }
}

fn as_read(input: &[u8]) -> &[u8] {
    &input[..input.len().min(INPUT_LIMIT)]
}

/// An answer sheet in lines.
fn listing(answer: &[u8]) -> String {
    let number = |at: usize| i32::from_le_bytes(answer[at..at + 4].try_into().unwrap());
    let n = answer[0] as usize;
    let mut text = format!("round {} {} {} {}\n", n, answer[1], number(2), number(6));
    for cabinet in 0..n {
        let (mark, used) = (answer[10 + cabinet], number(10 + n + 4 * cabinet));
        text += &format!("{cabinet} {mark} {used}\n");
    }
    text
}

/// The text of `replay`, with the values after each round where they are asked for.
pub fn replay_text(input: &[u8], each_round: bool) -> String {
    let trace = match Trace::checked(&input[..input.len().min(TRACE_LIMIT)], 4 * 64) {
        Err(refusal) => return refused(refusal) + "\n",
        Ok(trace) => trace,
    };
    let run = trace.run();
    let mut text = String::new();
    if each_round {
        for (k, values) in run.after.iter().enumerate() {
            let listed: String = values.iter().map(|value| format!(" {value}")).collect();
            text += &format!("after {k}{listed}\n");
        }
    }
    match run.last() {
        Err(refusal) => text += &(refused(refusal) + "\n"),
        Ok(values) => {
            text += &format!("replay {} {}\n", trace.n(), trace.rounds);
            for (cabinet, (role, value)) in trace.roles.iter().zip(values).enumerate() {
                text += &format!("{cabinet} {role} {value}\n");
            }
        }
    }
    text
}

/// A refusal, without the end of its line.
pub fn refused(refusal: Refusal) -> String {
    format!("refused {} {}", refusal.number, refusal.place)
}
