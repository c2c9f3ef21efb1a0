//! Traces of recorded runs, and what is wrong with them.

use crate::draw;
use engine::traces;
use random::Random;
use reference::{Settings, Trace, CCA, FAULTY, FCA, SOUND, TRIMMED_MEAN, TRIMMED_MIDPOINT};

/// A trace that passes every check but 15. The liars know what the sound cabinets hold.
pub fn trace(random: &Random) -> Trace {
    let settings = settings(random);
    let n = settings.n as usize;
    let rounds = rounds(random, n);
    let any = |reading: Option<i32>| reading.unwrap_or(random.draw() as i32);
    let first = draw::readings(random, &settings).into_iter().map(any).collect();
    let mut trace = Trace::silent(settings, rounds as u8, roles(random, &settings), first);
    traces::fill(&mut trace, |trace, round, window, held| {
        for receiver in 0..n {
            send(random, trace, round, receiver, window, held);
        }
    });
    trace
}

/// Most are small, since a replay settles a sheet for each sound cabinet in each round.
fn settings(random: &Random) -> Settings {
    let n = match random.below(100) {
        0..=69 => random.between(1, 7),
        70..=91 => random.between(8, 16),
        _ => random.between(17, 64),
    } as u8;
    let most = (n - 1) / 3;
    let m = if random.percent(70) { most } else { random.between(0, most as i64) as u8 };
    draw::to_plan(random, Settings { n, m, rule: FCA, ..draw::settings(random) })
}

fn rounds(random: &Random, n: usize) -> usize {
    let few = random.pick(&[0, 1, 1, 2, 2, 3]);
    let many = random.pick(&[31, 32, random.below(33)]);
    let often = match n {
        1..=7 => 30,
        8..=16 => 5,
        _ => 1,
    };
    if random.percent(often) {
        many
    } else {
        few
    }
}

/// Often just m are faulty.
fn roles(random: &Random, settings: &Settings) -> Vec<u8> {
    let (n, m) = (settings.n as usize, settings.m as usize);
    let faulty = random.pick(&[0, m, m, m, m, m + 1, random.below(n + 1)]).min(n);
    let mut roles: Vec<u8> = (0..n).map(|c| (c >= faulty) as u8).collect();
    for c in 0..n {
        roles.swap(c, random.below(n));
    }
    roles
}

/// What the faulty cabinets send a receiver in a round, most often all of them the same.
fn send(
    random: &Random,
    trace: &mut Trace,
    round: usize,
    receiver: usize,
    window: u32,
    held: &[i32],
) {
    let sound: Vec<i64> = trace.of_role(SOUND).iter().map(|&c| held[c] as i64).collect();
    let lowest = sound.iter().copied().min().unwrap_or(0);
    let highest = sound.iter().copied().max().unwrap_or(0);
    let together = lie(random, lowest, highest, window as i64);
    for sender in trace.of_role(FAULTY) {
        let sent = match random.percent(60) {
            true => together,
            false => lie(random, lowest, highest, window as i64),
        };
        trace.send(round, sender, receiver, sent);
    }
}

/// Nothing, or a reading that is often at an edge of acceptance.
fn lie(random: &Random, lowest: i64, highest: i64, window: i64) -> Option<i32> {
    let beside = random.pick(&[0, 0, 0, 1, -1]);
    let value = match random.below(10) {
        0 => lowest - window + beside,
        1 => highest - window + beside,
        2 => lowest + window + beside,
        3 => highest + window + beside,
        4 => lowest,
        5 => highest,
        6 | 7 => random.between(lowest - window, highest + window),
        8 => random.pick(&[i32::MIN, i32::MAX, 0, random.draw() as i32]) as i64,
        _ => return None,
    };
    Some(draw::clamp(value))
}

/// None, one or several things wrong with a trace; answers how many.
pub fn damage(random: &Random, trace: &mut Trace) -> u64 {
    let faults = random.pick(&[0, 0, 0, 0, 0, 0, 1, 2, 2, 3]);
    for _ in 0..faults {
        match random.below(20) {
            0..=1 => draw::damage_settings(random, &mut trace.settings),
            2 => trace.settings.rule = random.pick(&[CCA, CCA, TRIMMED_MIDPOINT, TRIMMED_MEAN]),
            3..=5 => too_many_rounds(random, trace),
            6..=13 => draw::damage_entries(random, &mut trace.marks, &mut trace.readings),
            14..=15 => {
                let cabinet = random.below(trace.roles.len());
                trace.roles[cabinet] = random.pick(&[2, 2, 255, 2 + random.draw() as u8 % 254]);
            }
            _ => speak_for_sound(random, trace),
        }
    }
    faults
}

/// A wrong byte of rounds, or 33 rounds as long as it says.
fn too_many_rounds(random: &Random, trace: &mut Trace) {
    let rounds = trace.rounds;
    trace.rounds = random.pick(&[33, 33, 33, 34, 255, rounds.wrapping_add(1), random.draw() as u8]);
    let n = trace.roles.len();
    if trace.rounds == 33 && n <= 16 {
        trace.marks.resize(33 * n * n, 0);
        trace.readings.resize(33 * n * n, 0);
    }
}

/// A sound sender's entry is present, if there is one.
fn speak_for_sound(random: &Random, trace: &mut Trace) {
    let n = trace.roles.len();
    let of_sound = |&entry: &usize| trace.roles[entry / n % n] == SOUND;
    let entries: Vec<usize> = (0..trace.marks.len()).filter(of_sound).collect();
    if !entries.is_empty() {
        let entry = random.pick(&entries);
        trace.marks[entry] = 1;
        trace.readings[entry] = random.draw() as i32;
    }
}

/// A trace in bytes, sometimes of wrong length, sometimes of any bytes at all.
pub fn bytes(random: &Random, trace: &Trace) -> Vec<u8> {
    draw::spoiled(random, trace.bytes())
}
