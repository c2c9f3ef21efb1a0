//! One round: crusaders decision, acceptance, estimate, used values, mean, answer sheet.

use crate::checks::{Refusal, Settings, AVERAGE, CCA, MEDIAN};
use crate::sheet::{entries_of, settings_with_spread};
use crate::trimming::trim;
use std::cmp::Ordering;

/// The value that at least `need` present copies equal, if there is one.
pub fn decide(copies: &[Option<i32>], need: usize) -> Option<i32> {
    let present = copies.iter().flatten();
    present
        .copied()
        .find(|value| copies.iter().filter(|&&copy| copy == Some(*value)).count() >= need)
}

/// Which readings are accepted: every span that starts at a present reading is tried.
pub fn accepted(readings: &[Option<i32>], need: usize, span: u32) -> Vec<bool> {
    let present: Vec<i64> = readings.iter().flatten().map(|&v| v as i64).collect();
    let holds = |start: i64, v: i64| start <= v && v <= start + span as i64;
    let enough = |start: i64| present.iter().filter(|&&v| holds(start, v)).count() >= need;
    readings
        .iter()
        .map(|reading| match reading {
            None => false,
            Some(v) => present.iter().any(|&start| holds(start, *v as i64) && enough(start)),
        })
        .collect()
}

/// The estimate over accepted readings, of which there is at least one.
pub fn estimate(estimator: u8, accepted: &[i64]) -> i64 {
    let mut sorted = accepted.to_vec();
    sorted.sort();
    let count = sorted.len();
    match estimator {
        AVERAGE => floor(sorted.iter().sum(), count as i64),
        MEDIAN => sorted[count.div_ceil(2) - 1],
        _ => floor(sorted[0] + sorted[count - 1], 2),
    }
}

/// The mean to the nearest whole number, a half going to the even neighbour.
pub fn mean(values: &[i64]) -> i64 {
    let n = values.len() as i64;
    let sum: i64 = values.iter().sum();
    let below = floor(sum, n);
    match (2 * (sum - n * below)).cmp(&n) {
        Ordering::Less => below,
        Ordering::Equal if is_even(below) => below,
        Ordering::Equal | Ordering::Greater => below + 1,
    }
}

/// Below zero too.
fn is_even(number: i64) -> bool {
    number.rem_euclid(2) == 0
}

/// Division rounded down, below zero too, by a positive number.
fn floor(number: i64, by: i64) -> i64 {
    number.div_euclid(by)
}

/// What a settled round gives.
#[derive(Clone, Debug, PartialEq, Eq)]
pub struct Round {
    pub count: usize,
    pub estimate: i64,
    pub new: i64,
    pub marks: Vec<u8>,
    pub used: Vec<i64>,
}

impl Round {
    /// The answer sheet.
    pub fn bytes(&self) -> Vec<u8> {
        let mut bytes = vec![self.marks.len() as u8, self.count as u8];
        bytes.extend(reading_bytes(self.estimate));
        bytes.extend(reading_bytes(self.new));
        bytes.extend(&self.marks);
        for &value in &self.used {
            bytes.extend(reading_bytes(value));
        }
        bytes
    }
}

/// Estimates, used values and means lie between two readings, so 32 bits hold them.
fn reading_bytes(value: i64) -> [u8; 4] {
    i32::try_from(value).expect("between two readings").to_le_bytes()
}

/// The round of FCA and CCA over N readings, decided ones for CCA, with a spread D: the span is δ + D. Check 10
/// is here.
pub fn settle_readings(
    settings: &Settings,
    spread: u32,
    readings: &[Option<i32>],
) -> Result<Round, Refusal> {
    let accepted = accepted(readings, settings.need(), settings.window + spread);
    let mut values = Vec::new();
    for (reading, &accepted) in readings.iter().zip(&accepted) {
        if let (Some(v), true) = (reading, accepted) {
            values.push(*v as i64);
        }
    }
    if values.is_empty() {
        return Err(Refusal::new(10));
    }
    let estimate = estimate(settings.estimator, &values);
    let mut marks = Vec::new();
    let mut used = Vec::new();
    for (reading, &accepted) in readings.iter().zip(&accepted) {
        let (mark, value) = match reading {
            None => (0, estimate),
            Some(v) if accepted => (1, *v as i64),
            Some(_) => (2, estimate),
        };
        marks.push(mark);
        used.push(value);
    }
    Ok(Round { count: values.len(), estimate, new: mean(&used), marks, used })
}

/// Settles a round sheet, with a spread of 0.
pub fn settle(sheet: &[u8], answer: &mut [u8]) -> Result<usize, Refusal> {
    settle_spread(sheet, 0, answer)
}

/// Settles a round sheet with a spread. Answers the length of the answer sheet.
pub fn settle_spread(sheet: &[u8], spread: u32, answer: &mut [u8]) -> Result<usize, Refusal> {
    let settings = settings_with_spread(sheet, spread)?;
    let length = settings.answer_length();
    if answer.len() < length {
        return Err(Refusal::new(7));
    }
    let entries = entries_of(sheet, &settings)?;
    let readings = if settings.rule == CCA {
        entries.chunks(settings.n as usize).map(|row| decide(row, settings.need())).collect()
    } else {
        entries
    };
    let round = if settings.trims() {
        trim(&settings, &readings)
    } else {
        settle_readings(&settings, spread, &readings)?
    };
    answer[..length].copy_from_slice(&round.bytes());
    Ok(length)
}
