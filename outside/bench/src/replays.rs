//! The traces that are timed, and the sheets that a replay of them settles.

use engine::{traces, Settings};
use random::Random;
use reference::{marks_and_readings, sheet_bytes, Trace, FAULTY, FCA, SOUND};

pub const SIZES: [u8; 4] = [4, 7, 16, 64];
pub const ROUNDS: u8 = 32;

const WINDOW: i64 = 1_000_000;

/// Traces of one size over all estimators, in which m cabinets lie.
pub fn traces(n: u8) -> Vec<Trace> {
    let random = Random::new(n as u64);
    (0..3).map(|estimator| trace(&random, n, estimator)).collect()
}

fn trace(random: &Random, n: u8, estimator: u8) -> Trace {
    let m = (n - 1) / 3;
    let settings = Settings { n, m, rule: FCA, estimator, window: WINDOW as u32 };
    let mut roles: Vec<u8> = (0..n).map(|c| if c < m { FAULTY } else { SOUND }).collect();
    for cabinet in 0..n as usize {
        roles.swap(cabinet, random.below(n as usize));
    }
    let first = (0..n).map(|_| random.between(0, WINDOW) as i32).collect();
    let mut trace = Trace::silent(settings, ROUNDS, roles, first);
    traces::fill(&mut trace, |trace, round, window, held| lie(random, trace, round, window, held));
    trace
}

/// Each liar sends each cabinet nothing, or a reading not far from what some sound one holds.
fn lie(random: &Random, trace: &mut Trace, round: usize, window: u32, held: &[i32]) {
    let near = held[random.pick(&trace.of_role(SOUND))] as i64;
    for sender in trace.of_role(FAULTY) {
        for receiver in 0..trace.n() {
            let reading = near + random.between(-2 * window as i64, 2 * window as i64);
            let sent = if random.percent(10) { None } else { Some(reading as i32) };
            trace.send(round, sender, receiver, sent);
        }
    }
}

/// The sheets that a replay settles, as bytes.
pub fn sheets(trace: &Trace) -> Vec<Vec<u8>> {
    let mut sheets = Vec::new();
    traces::fill(&mut trace.clone(), |trace, round, window, held| {
        let settings = Settings { window, ..trace.settings };
        for cabinet in trace.of_role(SOUND) {
            let (marks, readings) = marks_and_readings(&trace.heard(round, cabinet, held));
            sheets.push(sheet_bytes(&settings, &marks, &readings));
        }
    });
    sheets
}
