//! Settlings by a trimming rule that are wrong in a named way: see `sabotage`.

use crate::{Refusal, Settings};
use reference::{
    accepted, entries_of, in_order, settings_of, trim, trimmed_value, Round, TRIMMED_MEAN,
    TRIMMED_MIDPOINT,
};
use std::hash::{DefaultHasher, Hasher};

/// The sheet that a wrong engine takes one for; None where it is the sheet itself.
pub fn taken_for(how: &str, sheet: &[u8]) -> Option<Vec<u8>> {
    let mut other = sheet.get(8..).map(|_| sheet.to_vec())?;
    match (how, other[2]) {
        ("trim-swapped", TRIMMED_MIDPOINT) => other[2] = TRIMMED_MEAN,
        ("trim-swapped", TRIMMED_MEAN) => other[2] = TRIMMED_MIDPOINT,
        ("trim-four", 4) => other[2] = TRIMMED_MEAN,
        ("trim-estimator", TRIMMED_MIDPOINT | TRIMMED_MEAN) => other[3] = 0,
        ("trim-window", TRIMMED_MIDPOINT | TRIMMED_MEAN) => other[4..8].fill(0),
        _ => return None,
    }
    Some(other)
}

/// The round of a sheet that passed checks 1 to 9, wrong in the named way; None where the way or the rule is another.
pub fn wrong_trim(how: &str, sheet: &[u8]) -> Option<Result<Vec<u8>, Refusal>> {
    let how = how.strip_prefix("trim-")?;
    let settings = settings_of(sheet).ok().filter(Settings::trims)?;
    let readings = entries_of(sheet, &settings).ok()?;
    if how == "10" {
        let enough = accepted(&readings, settings.need(), settings.window).contains(&true);
        return (!enough).then_some(Err(Refusal::new(10)));
    }
    let mut round = wrong_value(how, &settings, &readings);
    if how == "tick" {
        let mut hasher = DefaultHasher::new();
        hasher.write(sheet);
        round.new = (round.new + (hasher.finish() % 2) as i64).min(i32::MAX as i64);
    }
    wrong_fields(how, &settings, &readings, &mut round);
    Some(Ok(round.bytes()))
}

/// The cabinets that are left, in order.
fn left(how: &str, settings: &Settings, readings: &[Option<i32>]) -> Vec<usize> {
    let m = settings.m as usize;
    let dropped = if how == "fewer" { m.saturating_sub(1) } else { m };
    let mut order = in_order(readings);
    match how {
        "ties" => order.sort_by_key(|&c| (readings[c].unwrap_or(0), readings.len() - c)),
        "missing" => order.retain(|&c| readings[c].is_some()),
        "lowest" => order.sort_by_key(|&c| (readings[c].unwrap_or(i32::MIN), c)),
        _ => {}
    }
    let end = order.len().saturating_sub(dropped);
    order.get(dropped..end).map_or(vec![], <[usize]>::to_vec)
}

/// The round whose new value is wrong, with all that follows from it.
fn wrong_value(how: &str, settings: &Settings, readings: &[Option<i32>]) -> Round {
    let left = left(how, settings, readings);
    let counted = |&c: &usize| readings[c].unwrap_or(0) as i64;
    let values: Vec<i64> = left.iter().map(counted).collect();
    if values.is_empty() {
        return trim(settings, readings);
    }
    let present = left.iter().filter(|&&c| readings[c].is_some()).count() as i64;
    let extremes = [values[0], values[values.len() - 1]];
    let (sum, count) = match settings.rule {
        TRIMMED_MIDPOINT => (extremes.iter().sum::<i64>(), 2),
        _ => (values.iter().sum(), values.len() as i64),
    };
    let new = match how {
        "divisor" if settings.rule == TRIMMED_MEAN => nearest(sum, present.max(1), |b| b % 2 != 0),
        "wraps" if settings.rule == TRIMMED_MIDPOINT => {
            nearest(sum as i32 as i64, 2, |b| b % 2 != 0)
        }
        "truncate" => sum / count,
        "half-up" => nearest(sum, count, |_| true),
        "half-down" => nearest(sum, count, |_| false),
        "half-away" => nearest(sum, count, |below| below >= 0),
        "half-negative" => nearest(sum, count, |below| below % 2 == 1),
        _ => trimmed_value(settings.rule, &values),
    };
    let new = new.clamp(i32::MIN as i64, i32::MAX as i64);
    let fields = |(c, reading): (usize, &Option<i32>)| match reading {
        None => (0, new),
        Some(v) if left.contains(&c) => (1, *v as i64),
        Some(_) => (2, new),
    };
    let (marks, used) = readings.iter().enumerate().map(fields).unzip();
    Round { count: settings.n as usize - 2 * settings.m as usize, estimate: new, new, marks, used }
}

/// A sum divided by so many, to the nearest; whether a half goes up is told by the number below it.
fn nearest(sum: i64, count: i64, half_goes_up: impl Fn(i64) -> bool) -> i64 {
    let (below, rest) = (sum.div_euclid(count), sum.rem_euclid(count));
    below + (2 * rest > count || (2 * rest == count && half_goes_up(below))) as i64
}

/// Fields that are wrong beside a right new value.
fn wrong_fields(how: &str, settings: &Settings, readings: &[Option<i32>], round: &mut Round) {
    let left = left(how, settings, readings);
    let present = || left.iter().filter(|&&c| readings[c].is_some()).count();
    match how {
        "count" => round.count = present(),
        "zero" => round.estimate = 0,
        "midpoint" => {
            let ends = [left[0], left[left.len() - 1]].map(|c| readings[c].unwrap_or(0) as i64);
            round.estimate = (ends[0] + ends[1]).div_euclid(2);
        }
        _ => {}
    }
    for (c, reading) in readings.iter().enumerate() {
        match (how, reading) {
            ("shown", None) if left.contains(&c) => round.used[c] = 0,
            ("marked", None) if left.contains(&c) => round.marks[c] = 1,
            ("own", Some(v)) => round.used[c] = *v as i64,
            _ => {}
        }
    }
}
