//! A replay by hand, as a user without the call would make it: a loop over an engine's own calls write,
//! settle and step. The checks before the run are the reference's. And a fallback by hand: one sheet settled after the
//! other.

use crate::{number, packed, Engine, Fallen, Plan, Refusal, Settings, BY_CRUSADERS, BY_DIRECT};
use reference::{bytes_of, marks_and_readings, Trace, CCA, FCA, SOUND};

/// Answers and fills what a fallback does. Both sheets are first read into nothing, for checks 1 to 6.
pub fn fallback_by_hand(
    engine: &dyn Engine,
    crusaders: &[u8],
    direct: &[u8],
    answer: &mut [u8],
) -> Fallen {
    for sheet in [crusaders, direct] {
        let given = engine.read(sheet, &mut Settings::default(), &mut [], &mut []);
        if number(given) != 7 {
            return Fallen::refused(given);
        }
    }
    let sizes = |sheet: &[u8]| ([sheet[0], sheet[1]], sheet[4..8].to_vec());
    if sizes(crusaders) != sizes(direct) || (crusaders[2], direct[2]) != (CCA, FCA) {
        return Fallen::refused(packed(Refusal::new(19)));
    }
    let first = engine.settle(crusaders, answer);
    let (given, settled_by, sheet) = match number(first) {
        10 => (engine.settle(direct, answer), BY_DIRECT, direct),
        _ => (first, BY_CRUSADERS, crusaders),
    };
    match number(given) {
        0 => Fallen::showing(given, settled_by, sheet, &sheet[8 + (sheet.len() - 8) / 5..]),
        _ => Fallen::refused(given),
    }
}

/// Answers and fills what a replay does.
pub fn replay_by_hand(engine: &dyn Engine, trace: &[u8], values: &mut [u8]) -> u64 {
    let trace = match Trace::checked(trace, values.len()) {
        Err(refusal) => return packed(refusal),
        Ok(trace) => trace,
    };
    let mut plan = Plan { settings: trace.settings, accuracy: 0, rounds: 0 };
    let mut held = trace.start();
    for round in 0..trace.rounds as usize {
        match one_round(engine, &trace, &plan, round, &held) {
            Err(answer) => return answer,
            Ok(next) => held = next,
        }
        let before = plan;
        let answer = engine.step(&before, &mut plan);
        if number(answer) != 0 {
            return answer;
        }
    }
    let bytes = bytes_of(&held);
    values[..bytes.len()].copy_from_slice(&bytes);
    bytes.len() as u64
}

/// What the cabinets hold after a round, from 0 on; or the refusal.
fn one_round(
    engine: &dyn Engine,
    trace: &Trace,
    plan: &Plan,
    round: usize,
    held: &[i32],
) -> Result<Vec<i32>, u64> {
    let mut next = vec![0; trace.n()];
    for cabinet in trace.of_role(SOUND) {
        let answer = settle_heard(engine, plan, &trace.heard(round, cabinet, held));
        next[cabinet] = answer.map_err(|answer| match number(answer) {
            10 => packed(Refusal::at(15, 64 * (round + 1) + cabinet)),
            _ => answer,
        })?;
    }
    Ok(next)
}

/// The new value of a cabinet that heard this, or the answer of the call that refused.
fn settle_heard(engine: &dyn Engine, plan: &Plan, heard: &[Option<i32>]) -> Result<i32, u64> {
    let (marks, readings) = marks_and_readings(heard);
    let (mut sheet, mut answer) = ([0; 8 + 5 * 64], [0; 10 + 5 * 64]);
    let size = engine.write(&plan.settings, &marks, &readings, &mut sheet);
    if number(size) != 0 {
        return Err(size);
    }
    let length = engine.settle(&sheet[..size as usize], &mut answer);
    match number(length) {
        0 => Ok(i32::from_le_bytes([answer[6], answer[7], answer[8], answer[9]])),
        _ => Err(length),
    }
}
