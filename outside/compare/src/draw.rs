//! Inputs: settings, entries, sheets, and what is wrong with them.

use random::Random;
use reference::{
    marks_and_readings, sheet_bytes, Plan, Settings, CCA, FCA, TRIMMED_MEAN, TRIMMED_MIDPOINT,
};

/// What a sheet is written from.
pub struct Paper {
    pub settings: Settings,
    pub marks: Vec<u8>,
    pub readings: Vec<i32>,
}

pub fn settings(random: &Random) -> Settings {
    let n = match random.below(100) {
        0..=59 => random.between(1, 9),
        60..=84 => random.between(10, 24),
        _ => random.between(25, 64),
    } as u8;
    // The longest crusaders sheets take the longest, so there are fewer of them.
    let crusaders = random.percent(if n <= 16 { 50 } else { 30 });
    let most = (n - 1) / 3;
    let window = match random.below(10) {
        0 => 0,
        1 => 1,
        2 | 3 => random.between(2, 12),
        4 | 5 => random.between(0, 1000),
        6 => 1_000_000,
        7 => 999_999,
        _ => random.between(0, 1_000_000),
    } as u32;
    Settings {
        n,
        m: if random.percent(70) { most } else { random.between(0, most as i64) as u8 },
        rule: if crusaders { CCA } else { FCA },
        estimator: random.below(3) as u8,
        window,
    }
}

/// The same by a trimming rule, which has no estimator.
fn to_trim(random: &Random, drawn: Settings) -> Settings {
    let rule = random.pick(&[TRIMMED_MIDPOINT, TRIMMED_MEAN]);
    Settings { rule, estimator: 0, ..drawn }
}

pub fn clamp(value: i64) -> i32 {
    value.clamp(i32::MIN as i64, i32::MAX as i64) as i32
}

fn any(random: &Random) -> i32 {
    random.draw() as i32
}

/// N readings, in any order.
pub fn readings(random: &Random, settings: &Settings) -> Vec<Option<i32>> {
    let drawn = match random.below(20) {
        0 | 1 => steep(random, settings),
        2..=4 => tied(random, settings),
        _ => around(random, settings),
    };
    shuffled(random, drawn)
}

pub fn shuffled<T>(random: &Random, mut drawn: Vec<T>) -> Vec<T> {
    let n = drawn.len();
    for i in 0..n {
        drawn.swap(i, random.below(n));
    }
    drawn
}

/// One reading at the low end of a span, N-m-1 at its high end and m a span above that: their distances from
/// the lowest add up to N+m-1 spans, than which there is no more. One is less by so much that the remainder
/// of the sum is half of N or beside it.
fn steep(random: &Random, settings: &Settings) -> Vec<Option<i32>> {
    let (n, need) = (settings.n as i64, settings.need() as i64);
    let w = settings.window as i64;
    let (lowest, highest) = (i32::MIN as i64, i32::MAX as i64 - 2 * w);
    let base = random.pick(&[lowest, highest, -w, random.between(lowest, highest)]);
    let remainder = n / 2 + random.pick(&[0, 0, 1, -1]);
    let less = (settings.greatest_sum(settings.window) as i64 - remainder).rem_euclid(n);
    let less = random.pick(&[0, less, less, less]).min(w);
    let reading = |i: i64| match i {
        0 => base,
        i if i < need => base + w,
        _ => base + 2 * w,
    };
    let mut drawn: Vec<i64> = (0..n).map(reading).collect();
    if n > 1 {
        drawn[n as usize - 1] -= less;
    }
    drawn.into_iter().map(|value| Some(clamp(value))).collect()
}

/// Half of the readings an odd number of ticks above the others. With an even N their mean is a half, often
/// beside 0 or at an end of 32 bits.
fn tied(random: &Random, settings: &Settings) -> Vec<Option<i32>> {
    let (n, w) = (settings.n as i64, settings.window as i64);
    let widest = (w + 1) / 2;
    let odd = 2 * random.pick(&[1, 1, random.between(1, widest.max(1))]) - 1;
    let (lowest, highest) = (i32::MIN as i64, i32::MAX as i64 - odd);
    let base = match random.below(6) {
        0 | 1 => lowest + random.pick(&[0, 0, 0, 1]),
        2 => highest - random.pick(&[0, 0, 0, 1]),
        3 => random.between(lowest, highest),
        _ => -(odd / 2) + random.between(-4, 4),
    };
    (0..n).map(|i| Some(clamp(if i < n / 2 { base } else { base + odd }))).collect()
}

/// Readings most of which are around one window, so that acceptance is often close.
fn around(random: &Random, settings: &Settings) -> Vec<Option<i32>> {
    let n = settings.n as usize;
    let m = settings.m as usize;
    let w = settings.window as i64;
    let base = match random.below(7) {
        0 => i32::MIN as i64,
        1 => i32::MAX as i64,
        2 => i32::MAX as i64 - w,
        3 => random.between(-3, 3),
        4 => random.between(-w - 3, w + 3),
        _ => any(random) as i64,
    };
    let outside = match random.below(6) {
        0 => 0,
        1 | 2 => m,
        3 => m + 1,
        4 => m.saturating_sub(1),
        _ => random.below(n + 1),
    };
    let missing = random.pick(&[0, 0, 0, 0, 5, 40]);
    let far = random.pick(&[0, 20, 100]);
    let few_values = random.percent(30);
    let mut drawn = Vec::new();
    for i in 0..n {
        let inside = match random.below(4) {
            0 => base,
            1 => base + w,
            _ if few_values => base + w / 2,
            _ => base + random.between(0, w),
        };
        let near = match random.below(7) {
            0 => base - 1,
            1 => base + w + 1,
            2 => base - w,
            3 => base + 2 * w,
            4 => base + w + w / 2,
            _ => base + random.between(-w - 1, 2 * w + 1),
        };
        let value = if i >= outside {
            inside
        } else if random.percent(far) {
            random.pick(&[i32::MIN, i32::MAX, 0, any(random)]) as i64
        } else {
            near
        };
        drawn.push(if random.percent(missing) { None } else { Some(clamp(value)) });
    }
    drawn
}

/// Readings to trim: often equal or a tick apart, many of them missing, or at both ends of 32 bits.
fn readings_to_trim(random: &Random, settings: &Settings) -> Vec<Option<i32>> {
    let (low, high) = (i32::MIN as i64, i32::MAX as i64);
    let base = random.pick(&[0, 0, 0, low, high, any(random) as i64]);
    let width = random.pick(&[1, 2, 5, 1000]);
    let missing = random.pick(&[0, 0, 5, 20, 50, 95]);
    let kind = random.below(8);
    let value = || match kind {
        0 | 1 => any(random) as i64,
        2 => random.pick(&[low, low + 1, -1, 0, 1, high - 1, high]),
        _ => base + random.between(-width, width),
    };
    match random.below(4) {
        0 => readings(random, settings),
        _ => (0..settings.n).map(|_| (!random.percent(missing)).then(|| clamp(value()))).collect(),
    }
}

/// N copies of a value, of which about m are not it.
pub fn copies(random: &Random, settings: &Settings, value: Option<i32>) -> Vec<Option<i32>> {
    let n = settings.n as usize;
    let m = settings.m as usize;
    let other = match random.below(4) {
        0 => None,
        1 => Some(value.unwrap_or(7).wrapping_add(1)),
        2 => Some(value.unwrap_or(7).wrapping_sub(1)),
        _ => Some(any(random)),
    };
    let others = match random.below(100) {
        0..=39 => 0,
        40..=69 => m,
        70..=74 => m + 1,
        75..=95 => random.below(m + 1),
        _ => random.below(n + 1),
    };
    let mixed = random.percent(30);
    let row = (0..n)
        .map(|i| match i < others {
            true if mixed && random.percent(50) => random.pick(&[None, Some(any(random))]),
            true => other,
            false => value,
        })
        .collect();
    if others > 0 {
        shuffled(random, row)
    } else {
        row
    }
}

/// More than one in five is by a trimming rule.
pub fn paper(random: &Random) -> Paper {
    let settings = settings(random);
    if random.percent(22) {
        return trimmed_paper(random, settings);
    }
    let readings = readings(random, &settings);
    written(random, settings, readings)
}

fn trimmed_paper(random: &Random, drawn: Settings) -> Paper {
    let settings = to_trim(random, drawn);
    let readings = readings_to_trim(random, &settings);
    written(random, settings, readings)
}

/// A paper to settle with a spread, most often by FCA, whose readings are most of them around one span. One in
/// twelve is by a trimming rule.
pub fn paper_with_spread(random: &Random, spread: u32) -> Paper {
    let mut settings = settings(random);
    if random.percent(8) {
        return trimmed_paper(random, settings);
    }
    if spread > 0 && random.percent(80) {
        settings.rule = FCA;
    }
    let span = settings.window + spread.min(100_000);
    let readings = readings(random, &Settings { window: span, ..settings });
    written(random, settings, readings)
}

/// A paper with these readings: for CCA, with copies of them.
fn written(random: &Random, settings: Settings, readings: Vec<Option<i32>>) -> Paper {
    let entries: Vec<Option<i32>> = if settings.rule == CCA {
        readings.iter().flat_map(|&value| copies(random, &settings, value)).collect()
    } else {
        readings
    };
    let (marks, readings) = marks_and_readings(&entries);
    Paper { settings, marks, readings }
}

/// One thing wrong with the settings.
pub fn damage_settings(random: &Random, settings: &mut Settings) {
    let byte = random.draw() as u8;
    match random.below(5) {
        0 => settings.n = random.pick(&[0, 65, 255, 64, 1, byte]),
        1 => settings.m = random.pick(&[settings.n.wrapping_sub(1) / 3 + 1, 85, 86, 255, byte]),
        2 => settings.rule = random.pick(&[2, 3, 4, 255, byte, 1 - settings.rule.min(1)]),
        3 if settings.trims() => settings.estimator = random.pick(&[1, 2, 3, 255]),
        3 => settings.estimator = random.pick(&[3, 255, byte]),
        _ => settings.window = random.pick(&[1_000_001, 1 << 31, u32::MAX, random.draw() as u32]),
    }
}

/// Bad marks or ghosts at one to three entries, if there are any.
pub fn damage_entries(random: &Random, marks: &mut [u8], readings: &mut [i32]) {
    let bad_mark = random.percent(50);
    for _ in 0..random.between(1, 3) {
        if marks.is_empty() {
            return;
        }
        let entry = random.below(marks.len());
        if bad_mark {
            marks[entry] = random.pick(&[2, 128, 255, 2 + random.draw() as u8 % 254]);
        } else {
            marks[entry] = 0;
            readings[entry] = random.pick(&[1, 1 << 8, 1 << 16, 1 << 24, -1, i32::MIN]);
        }
    }
}

/// None, one or several things wrong with a paper; answers how many.
pub fn damage_paper(random: &Random, paper: &mut Paper) -> u64 {
    let faults = random.pick(&[0, 0, 0, 0, 0, 0, 1, 2, 2, 3]);
    for _ in 0..faults {
        if random.percent(40) {
            damage_settings(random, &mut paper.settings);
        } else {
            damage_entries(random, &mut paper.marks, &mut paper.readings);
        }
    }
    faults
}

/// A spread, often at a limit of check 16.
pub fn spread(random: &Random) -> u32 {
    match random.below(20) {
        0..=1 => 0,
        2..=3 => 1,
        4..=5 => 100_000,
        6 => 99_999,
        7 => 100_001,
        8 => random.pick(&[u32::MAX, 1 << 31, random.draw() as u32]),
        9..=11 => random.between(2, 12) as u32,
        12..=14 => random.between(0, 1000) as u32,
        _ => random.between(0, 100_000) as u32,
    }
}

/// A sheet, often damaged, sometimes of wrong length, sometimes of any bytes at all.
pub fn sheet(random: &Random, paper: &Paper) -> Vec<u8> {
    spoiled(random, sheet_bytes(&paper.settings, &paper.marks, &paper.readings))
}

/// Bytes that are sometimes too many or too few, and sometimes any at all.
pub fn spoiled(random: &Random, mut bytes: Vec<u8>) -> Vec<u8> {
    if random.percent(3) {
        let length = random.below(60);
        let mut bytes = random.bytes(length);
        if length > 1 && random.percent(50) {
            bytes[0] %= 65;
            bytes[1] %= 3;
        }
        return bytes;
    }
    if random.percent(5) {
        match random.below(4) {
            0 => bytes.push(random.draw() as u8),
            1 => bytes.truncate(bytes.len() - 1),
            2 => bytes.truncate(random.pick(&[7, 8, 8, 9, random.below(10)])),
            _ => bytes.truncate(random.below(bytes.len())),
        }
    }
    bytes
}

/// The length of a lent buffer of which so much is needed: exact, longer, or too short.
pub fn length(random: &Random, needed: usize) -> usize {
    match random.below(20) {
        0..=9 => needed,
        10 | 11 => needed + 1,
        12..=16 => needed + random.below(40),
        17 | 18 => needed.saturating_sub(1),
        _ => random.below(needed + 1),
    }
}

pub fn readings_of_any_kind(random: &Random, length: usize) -> Vec<i32> {
    (0..length).map(|_| any(random)).collect()
}

/// A starting accuracy.
pub fn accuracy(random: &Random) -> u32 {
    match random.below(8) {
        0 => 0,
        1 => 1_000_000_000,
        2 => random.pick(&[1_000_000_001, u32::MAX, random.draw() as u32]),
        3 => random.between(0, 100) as u32,
        _ => random.between(0, 1_000_000_000) as u32,
    }
}

pub fn rounds(random: &Random) -> u32 {
    match random.below(12) {
        0 => random.pick(&[33, 34, 64, 255, 256, u32::MAX, random.draw() as u32]),
        1 => 32,
        _ => random.between(0, 32) as u32,
    }
}

/// Settings changed so that the quotient of the next window is often whole, or there is none.
pub fn to_plan(random: &Random, drawn: Settings) -> Settings {
    let n = drawn.n as u32;
    let whole = |by: u32| drawn.window - drawn.window % by;
    match random.below(12) {
        0 => Settings { m: 0, ..drawn },
        1 => Settings { window: 0, ..drawn },
        2 | 3 => Settings { window: whole(n), ..drawn },
        4 => Settings { window: whole(n.div_ceil(2)), ..drawn },
        5 => Settings { window: random.between(1, 4) as u32, ..drawn },
        _ => drawn,
    }
}

/// Settings of which a quarter have something wrong.
pub fn plan_settings(random: &Random) -> Settings {
    let mut settings = to_plan(random, settings(random));
    if random.percent(3) {
        settings = to_trim(random, settings);
    }
    if random.percent(25) {
        for _ in 0..random.between(1, 3) {
            damage_settings(random, &mut settings);
        }
    }
    settings
}

/// A plan to step forward from, of any numbers.
pub fn plan(random: &Random) -> Plan {
    let near_the_limit = random.pick(&[1_100_000_000, 1_100_000_001, 1_099_999_999, u32::MAX]);
    Plan {
        settings: plan_settings(random),
        accuracy: if random.percent(30) { near_the_limit } else { accuracy(random) },
        rounds: random.pick(&[0, 1, 31, 32, rounds(random), rounds(random)]),
    }
}

/// A target, often near a window that the plan has.
pub fn target(random: &Random, settings: &Settings) -> u32 {
    let rounds = random.pick(&[0, 1, 2, 32, 32, random.between(0, 32) as u32]);
    let window = reference::plan(settings, 0, rounds).map_or(5, |plan| plan.settings.window);
    match random.below(6) {
        0 => 0,
        1 => window.saturating_sub(1),
        2 => window + 1,
        3 => random.pick(&[u32::MAX, random.draw() as u32]),
        _ => window,
    }
}
