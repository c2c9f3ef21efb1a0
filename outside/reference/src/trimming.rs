//! The trimming rules: document 02, paper 5.

use crate::checks::{Settings, TRIMMED_MIDPOINT};
use crate::round::{mean, Round};

/// A missing reading counts as 0.
fn counted(reading: &Option<i32>) -> i64 {
    reading.unwrap_or(0) as i64
}

/// The cabinets in order of their readings, equal ones in order of number.
pub fn in_order(readings: &[Option<i32>]) -> Vec<usize> {
    let mut cabinets: Vec<usize> = (0..readings.len()).collect();
    cabinets.sort_by_key(|&cabinet| (counted(&readings[cabinet]), cabinet));
    cabinets
}

/// Half the sum of the extremes of the kept values, which are in order, or their mean.
pub fn trimmed_value(rule: u8, kept: &[i64]) -> i64 {
    match rule {
        TRIMMED_MIDPOINT => mean(&[kept[0], kept[kept.len() - 1]]),
        _ => mean(kept),
    }
}

/// The round of a trimming rule: the first m and the last m in order are dropped.
pub fn trim(settings: &Settings, readings: &[Option<i32>]) -> Round {
    let (n, m) = (settings.n as usize, settings.m as usize);
    let order = in_order(readings);
    let kept = &order[m..n - m];
    let values: Vec<i64> = kept.iter().map(|&cabinet| counted(&readings[cabinet])).collect();
    let new = trimmed_value(settings.rule, &values);
    let mut marks = Vec::new();
    let mut used = Vec::new();
    for (cabinet, reading) in readings.iter().enumerate() {
        let (mark, value) = match reading {
            None => (0, new),
            Some(v) if kept.contains(&cabinet) => (1, *v as i64),
            Some(_) => (2, new),
        };
        marks.push(mark);
        used.push(value);
    }
    Round { count: n - 2 * m, estimate: new, new, marks, used }
}
