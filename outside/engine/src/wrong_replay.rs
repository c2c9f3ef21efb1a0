//! Replays that are wrong in a named way: see `sabotage`.

use crate::wrong_plan::{wrong_part, wrong_window};
use crate::{number, packed, Engine, Refusal, Settings};
use reference::{
    bytes_of, settle_readings, Trace, CCA, FCA, SOUND, TRIMMED_MEAN, TRIMMED_MIDPOINT,
};

/// The longest values, 4N bytes.
const LONGEST: usize = 4 * 64;

/// The answer of a replay that is wrong in that way; None where it is the engine's own.
pub fn wrong_replay(
    engine: &dyn Engine,
    how: &str,
    bytes: &[u8],
    values: &mut [u8],
) -> Option<u64> {
    if !how.starts_with("replay-") {
        return None;
    }
    let mut tray = values.to_vec();
    let given = engine.replay(bytes, &mut tray);
    match number(given) {
        0 | 15 => wrong_end(how, bytes, given, &tray, values),
        refused => wrong_check(engine, how, bytes, refused, values),
    }
}

/// Of a trace that passes every check but 15: the right answer and values are given.
fn wrong_end(how: &str, bytes: &[u8], given: u64, right: &[u8], values: &mut [u8]) -> Option<u64> {
    let trace = Trace::open(bytes).ok()?;
    let length = 4 * trace.n();
    let granted = number(given) == 0;
    match how {
        "replay-refused" if !granted => values[0] ^= 1,
        "replay-past" if granted && values.len() > length => {
            values.copy_from_slice(right);
            values[length] ^= 1;
        }
        "replay-faulty" if granted => {
            for cabinet in trace.of_role(SOUND) {
                let place = 4 * cabinet..4 * cabinet + 4;
                values[place.clone()].copy_from_slice(&right[place]);
            }
        }
        _ => match wrong_run(how, &trace)? {
            Err(refusal) => return Some(packed(refusal)),
            Ok(held) => {
                values[..length].copy_from_slice(&bytes_of(&held));
                return Some(length as u64);
            }
        },
    }
    Some(given)
}

/// The ways that are about the run.
const WAYS: [&str; 12] = [
    "replay-swapped",
    "replay-at-once",
    "replay-wide",
    "replay-early",
    "replay-late",
    "replay-tick",
    "replay-from-zero",
    "replay-highest",
    "replay-last",
    "replay-first",
    "replay-one",
    "replay-ceiling",
];

/// The run of a trace, wrong in the named way; None when the way is not about the run.
fn wrong_run(how: &str, trace: &Trace) -> Option<Result<Vec<i32>, Refusal>> {
    if !WAYS.contains(&how) {
        return None;
    }
    let swapped = if how == "replay-swapped" { swapped(trace) } else { trace.clone() };
    let mut settings = trace.settings;
    let next_window =
        |settings: &Settings| wrong_window(wrong_part(how, "replay").unwrap_or(""), settings);
    if how == "replay-early" {
        settings.window = next_window(&settings);
    }
    let mut held = trace.start();
    let mut stopped = None;
    for round in 0..trace.rounds as usize {
        let refused = wrong_round(how, &swapped, round, &settings, &mut held);
        let blamed = if how == "replay-highest" { refused.last() } else { refused.first() };
        if let Some(cabinet) = blamed {
            let counted = if how == "replay-from-zero" { round } else { round + 1 };
            stopped = Some(Refusal::at(15, 64 * counted + cabinet));
            if how != "replay-last" {
                break;
            }
        }
        if how != "replay-wide" && !(how == "replay-late" && round == 0) {
            settings.window = next_window(&settings);
        }
    }
    spoil_values(how, trace, &mut held);
    Some(stopped.map_or(Ok(held), Err))
}

/// The final values, wrong in the named way.
fn spoil_values(how: &str, trace: &Trace, held: &mut [i32]) {
    for (cabinet, value) in held.iter_mut().enumerate() {
        match how {
            "replay-tick" if trace.sound(cabinet) => {
                *value = value.saturating_add(cabinet as i32 % 2);
            }
            "replay-first" if !trace.sound(cabinet) => *value = trace.first[cabinet],
            _ => {}
        }
    }
}

/// One round, from 0 on: who refused.
fn wrong_round(
    how: &str,
    trace: &Trace,
    round: usize,
    settings: &Settings,
    held: &mut [i32],
) -> Vec<usize> {
    let before = held.to_vec();
    let mut refused = Vec::new();
    for cabinet in trace.of_role(SOUND) {
        let sent = if how == "replay-at-once" { &*held } else { &before };
        match settle_readings(settings, 0, &trace.heard(round, cabinet, sent)) {
            Ok(settled) => held[cabinet] = settled.new as i32,
            Err(_) => refused.push(cabinet),
        }
    }
    refused
}

fn swapped(trace: &Trace) -> Trace {
    let mut swapped = trace.clone();
    for (round, sender, receiver) in places(trace) {
        let (to, from) =
            (trace.entry(round, sender, receiver), trace.entry(round, receiver, sender));
        swapped.marks[to] = trace.marks[from];
        swapped.readings[to] = trace.readings[from];
    }
    swapped
}

/// Every round, sender and receiver.
fn places(trace: &Trace) -> impl Iterator<Item = (usize, usize, usize)> {
    let n = trace.n();
    (0..trace.marks.len()).map(move |entry| (entry / (n * n), entry / n % n, entry % n))
}

/// Of a trace that the engine refuses under another number.
fn wrong_check(
    engine: &dyn Engine,
    how: &str,
    bytes: &[u8],
    refused: usize,
    values: &mut [u8],
) -> Option<u64> {
    match taken_for(how, bytes, refused) {
        Some(other) => Some(engine.replay(&other, values)),
        None => other_refusal(engine, how, bytes, refused),
    }
}

/// The trace that a wrong engine takes a refused one for.
fn taken_for(how: &str, bytes: &[u8], refused: usize) -> Option<Vec<u8>> {
    match (how, refused) {
        ("replay-33", 13) => without_the_last_round(bytes),
        ("replay-cca", 13) if bytes[2] == CCA => Some([&bytes[..2], &[FCA], &bytes[3..]].concat()),
        ("replay-trimmed", 13) if bytes[2] > CCA => {
            Some([&bytes[..2], &[FCA], &bytes[3..]].concat())
        }
        ("replay-roles", 14) => {
            let mut trace = Trace::open(bytes).ok()?;
            let bad = trace.roles.iter_mut().filter(|role| **role == 2);
            bad.for_each(|role| *role = SOUND);
            Some(trace.bytes())
        }
        ("replay-receivers", 14) => blanked(bytes, |sender, receiver| sender && !receiver),
        ("replay-ghosts", 8 | 9) => blanked(bytes, |_, receiver| !receiver),
        _ => None,
    }
}

/// The trace without some entries: which ones, by whether the sender and the receiver are sound.
fn blanked(bytes: &[u8], which: impl Fn(bool, bool) -> bool) -> Option<Vec<u8>> {
    let mut trace = Trace::open(bytes).ok()?;
    for (round, sender, receiver) in places(&trace) {
        if which(trace.sound(sender), trace.sound(receiver)) {
            trace.send(round, sender, receiver, None);
        }
    }
    Some(trace.bytes())
}

/// Another refusal than the right one.
fn other_refusal(engine: &dyn Engine, how: &str, bytes: &[u8], refused: usize) -> Option<u64> {
    let with_room = |bytes: &[u8]| engine.replay(bytes, &mut [0; LONGEST]);
    match (how, refused) {
        ("replay-stub", 13) if bytes.len() == 8 => Some(packed(Refusal::new(1))),
        ("replay-13", 4) if [TRIMMED_MIDPOINT, TRIMMED_MEAN].contains(&bytes[2]) => {
            Some(packed(Refusal::new(13)))
        }
        ("replay-tray", 7) => {
            Some(with_room(bytes)).filter(|later| [8, 9].contains(&number(*later)))
        }
        ("replay-order", 8 | 9) => {
            let mut trace = Trace::open(bytes).ok()?;
            for entry in 0..trace.marks.len() {
                trace.marks[entry] &= (trace.marks[entry] < 2) as u8;
                trace.readings[entry] *= trace.marks[entry] as i32;
            }
            Some(with_room(&trace.bytes())).filter(|later| number(*later) == 14)
        }
        ("replay-place", 8 | 9) => {
            let Trace { marks, readings, .. } = Trace::open(bytes).ok()?;
            let ghost = |entry: usize| marks[entry] == 0 && readings[entry] != 0;
            let at_fault =
                |&entry: &usize| if refused == 8 { marks[entry] > 1 } else { ghost(entry) };
            Some(packed(Refusal::at(refused as u8, (0..marks.len()).rfind(at_fault)?)))
        }
        _ => None,
    }
}

/// A trace of 33 rounds as one of 32; None where it is no such trace.
fn without_the_last_round(bytes: &[u8]) -> Option<Vec<u8>> {
    let n = *bytes.first()? as usize;
    let (start, round) = (9 + 5 * n, n * n);
    if bytes.get(8) != Some(&33) || bytes.len() != start + 5 * 33 * round {
        return None;
    }
    let mut head = bytes[..start].to_vec();
    head[8] = 32;
    let (marks, readings) = bytes[start..].split_at(33 * round);
    Some([&head, &marks[..32 * round], &readings[..4 * 32 * round]].concat())
}
