//! The form that the proved library has: local arrays of 64 entries, and the test of a reading
//! as a nested loop over span starts and readings, left by a label when N-m are counted. No
//! further tuning: no start is skipped and no start found short is remembered.
#![allow(clippy::needless_range_loop)]

use crate::trimming::trim;
use crate::{reading, refusal, Opened, Settled, Sizes, Steps, MOST};

pub struct Plain;

impl Steps for Plain {
    const NAME: &'static str = "plain";

    fn check_entries(marks: &[u8], readings: &[u8]) -> Result<(), u64> {
        for entry in 0..marks.len() {
            if marks[entry] > 1 {
                return Err(refusal(8, entry));
            }
        }
        for entry in 0..marks.len() {
            if marks[entry] == 0 && reading(readings, entry) != 0 {
                return Err(refusal(9, entry));
            }
        }
        Ok(())
    }

    fn copy(bytes: &[u8], readings: &mut [i32]) {
        for entry in 0..readings.len() {
            readings[entry] = reading(bytes, entry);
        }
    }

    fn round(sheet: &Opened, marks: &mut [u8], used: &mut [u8]) -> Option<Settled> {
        let sizes = &sheet.sizes;
        let n = sizes.n;
        let mut present = [false; MOST];
        let mut values = [0i64; MOST];
        for r in 0..n {
            if sizes.crusaders() {
                let row = r * n..(r + 1) * n;
                let row_readings = &sheet.readings[4 * row.start..4 * row.end];
                if let Some(value) = decide(&sheet.marks[row], row_readings, sizes.need()) {
                    present[r] = true;
                    values[r] = value as i64;
                }
            } else if sheet.marks[r] == 1 {
                present[r] = true;
                values[r] = reading(sheet.readings, r) as i64;
            }
        }

        let mut accepted = [false; MOST];
        let (count, estimate) = agree(sizes, &present, &values, &mut accepted)?;
        for r in 0..n {
            marks[r] = if accepted[r] {
                1
            } else if present[r] {
                2
            } else {
                0
            };
        }
        let sum = write_used(&accepted, &values, n, estimate, used);
        Some(Settled { count, estimate, sum })
    }

    fn trim(sheet: &Opened, marks: &mut [u8], used: &mut [u8]) -> i32 {
        trim(sheet, marks, used)
    }

    fn settle_heard(sizes: &Sizes, heard: impl Fn(usize) -> Option<i32>) -> Option<Settled> {
        let mut present = [false; MOST];
        let mut values = [0i64; MOST];
        for sender in 0..sizes.n {
            if let Some(value) = heard(sender) {
                present[sender] = true;
                values[sender] = value as i64;
            }
        }
        let mut accepted = [false; MOST];
        let (count, estimate) = agree(sizes, &present, &values, &mut accepted)?;
        let mut sum = 0;
        for r in 0..sizes.n {
            sum += if accepted[r] { values[r] } else { estimate };
        }
        Some(Settled { count, estimate, sum })
    }
}

/// Says of each reading whether it is accepted; the number of these and their estimate, or nothing where there is none.
fn agree(
    sizes: &Sizes,
    present: &[bool; MOST],
    values: &[i64; MOST],
    accepted: &mut [bool; MOST],
) -> Option<(usize, i64)> {
    let (n, need, span) = (sizes.n, sizes.need(), sizes.span as i64);
    let mut count = 0;
    for r in 0..n {
        if present[r] && accept(&present[..n], &values[..n], need, span, values[r]) {
            accepted[r] = true;
            count += 1;
        }
    }
    if count == 0 {
        return None;
    }
    let estimate = match sizes.estimator {
        0 => average(accepted, values, n, count),
        1 => median(accepted, values, n, count),
        _ => midpoint(accepted, values, n),
    };
    Some((count, estimate))
}

/// The value that at least `need` present copies of a row equal.
fn decide(marks: &[u8], readings: &[u8], need: usize) -> Option<i32> {
    let n = marks.len();
    let mut copies = [0i32; MOST];
    let copies = &mut copies[..n];
    for s in 0..n {
        copies[s] = reading(readings, s);
    }
    for s in 0..n {
        if marks[s] == 1 {
            let mut count = 0;
            for other in 0..n {
                if marks[other] == 1 && copies[other] == copies[s] {
                    count += 1;
                }
            }
            if count >= need {
                return Some(copies[s]);
            }
        }
    }
    None
}

/// Whether some span that starts at a present reading holds v and N-m readings.
fn accept(present: &[bool], values: &[i64], need: usize, span: i64, v: i64) -> bool {
    let n = present.len().min(values.len());
    let mut found = false;
    'test: for start in 0..n {
        if present[start] && values[start] <= v && v - values[start] <= span {
            let mut count = 0;
            for other in 0..n {
                if present[other]
                    && values[start] <= values[other]
                    && values[other] - values[start] <= span
                {
                    count += 1;
                    if count == need {
                        found = true;
                        break 'test;
                    }
                }
            }
        }
    }
    found
}

fn average(accepted: &[bool; MOST], values: &[i64; MOST], n: usize, count: usize) -> i64 {
    let mut sum = 0;
    for r in 0..n {
        if accepted[r] {
            sum += values[r];
        }
    }
    sum.div_euclid(count as i64)
}

/// The accepted reading with fewer than ⌈count/2⌉ below it and at least so many at or below it.
fn median(accepted: &[bool; MOST], values: &[i64; MOST], n: usize, count: usize) -> i64 {
    let rank = count.div_ceil(2);
    for r in 0..n {
        if accepted[r] {
            let mut below = 0;
            let mut equal = 0;
            for other in 0..n {
                if accepted[other] && values[other] < values[r] {
                    below += 1;
                } else if accepted[other] && values[other] == values[r] {
                    equal += 1;
                }
            }
            if below < rank && rank <= below + equal {
                return values[r];
            }
        }
    }
    0
}

fn midpoint(accepted: &[bool; MOST], values: &[i64; MOST], n: usize) -> i64 {
    let mut lowest = i64::MAX;
    let mut highest = i64::MIN;
    for r in 0..n {
        if accepted[r] {
            lowest = lowest.min(values[r]);
            highest = highest.max(values[r]);
        }
    }
    (lowest + highest).div_euclid(2)
}

/// Fills the tail of the answer sheet. Answers the sum of the used values.
fn write_used(
    accepted: &[bool; MOST],
    values: &[i64; MOST],
    n: usize,
    estimate: i64,
    tail: &mut [u8],
) -> i64 {
    let mut sum = 0;
    for r in 0..n {
        let used = if accepted[r] { values[r] } else { estimate };
        sum += used;
        tail[4 * r..4 * r + 4].copy_from_slice(&(used as i32).to_le_bytes());
    }
    sum
}
