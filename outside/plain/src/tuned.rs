//! The same form, tuned: only present readings are looked at, what was found of a start is
//! remembered, a row's value is looked for among its first m + 1 copies, and a count over
//! readings or copies takes no branch.

use crate::trimming::{moved, unmoved, Sums};
use crate::{refusal, Opened, Settled, Sizes, Steps, MOST};

pub struct Tuned;

impl Steps for Tuned {
    const NAME: &'static str = "tuned";

    /// An entry at fault is searched for only where the greatest mark and the least allow one.
    fn check_entries(marks: &[u8], readings: &[u8]) -> Result<(), u64> {
        if marks.iter().fold(0, |most, &mark| mark.max(most)) > 1 {
            let entry = marks.iter().position(|&mark| mark > 1);
            return Err(refusal(8, entry.unwrap_or(0)));
        }
        if marks.iter().fold(1, |least, &mark| mark.min(least)) == 1 {
            return Ok(());
        }
        match marks.iter().zip(words(readings)).position(|(&mark, word)| mark == 0 && word != 0) {
            Some(entry) => Err(refusal(9, entry)),
            None => Ok(()),
        }
    }

    fn copy(bytes: &[u8], readings: &mut [i32]) {
        for (reading, word) in readings.iter_mut().zip(words(bytes)) {
            *reading = word;
        }
    }

    fn round(sheet: &Opened, marks: &mut [u8], used: &mut [u8]) -> Option<Settled> {
        let (mut cabinets, mut values) = ([0; MOST], [0; MOST]);
        let present = receive(sheet, &mut cabinets, &mut values);
        let (cabinets, values) = (&cabinets[..present], &values[..present]);
        let mut accepted = [false; MOST];
        let settled = agree(&sheet.sizes, values, &mut accepted)?;
        let estimate = settled.estimate as i32;
        marks.fill(0);
        for used in used.chunks_exact_mut(4) {
            used.copy_from_slice(&estimate.to_le_bytes());
        }
        for ((&cabinet, &value), &accepted) in cabinets.iter().zip(values).zip(&accepted) {
            let cabinet = cabinet as usize;
            marks[cabinet] = if accepted { 1 } else { 2 };
            let value = if accepted { value } else { estimate };
            used[4 * cabinet..4 * cabinet + 4].copy_from_slice(&value.to_le_bytes());
        }
        Some(settled)
    }

    /// No index is checked but that of the table.
    fn trim(sheet: &Opened, marks: &mut [u8], used: &mut [u8]) -> i32 {
        let Sizes { n, m, .. } = sheet.sizes;
        let mut values = [0; MOST];
        for (value, word) in values.iter_mut().zip(words(sheet.readings)) {
            *value = moved(word);
        }
        let values = &values[..n];
        let mut seen = [0u8; MOST];
        let mut sums = Sums { kept: 0, extremes: 0 };
        for ((mark, &present), &value) in marks.iter_mut().zip(sheet.marks).zip(values) {
            let less: u32 = values.iter().map(|&other| (other < value) as u32).sum();
            let seen = &mut seen[less as usize % MOST];
            let rank = less as usize + *seen as usize;
            *seen += 1;
            let kept = (m <= rank) & (rank < n - m);
            *mark = present * (2 - kept as u8);
            sums.kept += kept as u64 * value as u64;
            sums.extremes += ((rank == m) as u64 + (rank == n - m - 1) as u64) * value as u64;
        }
        let new = sums.new_value(&sheet.sizes);
        for ((used, &mark), &value) in used.chunks_exact_mut(4).zip(&*marks).zip(values) {
            let value = if mark == 1 { unmoved(value) } else { new };
            used.copy_from_slice(&value.to_le_bytes());
        }
        new
    }

    fn settle_heard(sizes: &Sizes, heard: impl Fn(usize) -> Option<i32>) -> Option<Settled> {
        let mut values = [0; MOST];
        let mut count = 0;
        for sender in 0..sizes.n {
            let heard = heard(sender);
            values[count] = heard.unwrap_or(0);
            count += heard.is_some() as usize;
        }
        agree(sizes, &values[..count], &mut [false; MOST])
    }
}

/// The round of the present readings, of each of which it says whether it is accepted.
#[inline(always)]
fn agree(sizes: &Sizes, values: &[i32], accepted: &mut [bool; MOST]) -> Option<Settled> {
    accept(values, sizes.need() as u32, sizes.span, accepted);
    let mut chosen = [0; MOST];
    let (mut count, mut sum) = (0, 0);
    for (&value, &accepted) in values.iter().zip(&*accepted) {
        chosen[count] = value;
        count += accepted as usize;
        sum += if accepted { value as i64 } else { 0 };
    }
    if count == 0 {
        return None;
    }
    let estimate = estimate(sizes.estimator, &mut chosen[..count], sum) as i64;
    Some(Settled { count, estimate, sum: sum + estimate * (sizes.n - count) as i64 })
}

/// The number in each four bytes.
fn words(bytes: &[u8]) -> impl Iterator<Item = i32> + '_ {
    bytes.chunks_exact(4).map(|word| i32::from_le_bytes([word[0], word[1], word[2], word[3]]))
}

/// Fills in the present readings, decided ones for CCA, and whose they are. Answers how many.
fn receive(sheet: &Opened, cabinets: &mut [u8; MOST], values: &mut [i32; MOST]) -> usize {
    let n = sheet.sizes.n;
    let mut count = 0;
    if sheet.sizes.crusaders() {
        let rows = sheet.marks.chunks_exact(n).zip(sheet.readings.chunks_exact(4 * n));
        for (cabinet, (marks, copies)) in rows.enumerate() {
            if let Some(value) = decide(marks, copies, sheet.sizes.m) {
                (cabinets[count], values[count]) = (cabinet as u8, value);
                count += 1;
            }
        }
    } else {
        for (cabinet, (&mark, value)) in sheet.marks.iter().zip(words(sheet.readings)).enumerate() {
            (cabinets[count], values[count]) = (cabinet as u8, value);
            count += mark as usize;
        }
    }
    count
}

/// The value that N-m present copies of a row equal, as one of the first m + 1 copies must. Where
/// another value has more than m copies there is none.
fn decide(marks: &[u8], copies: &[u8], m: usize) -> Option<i32> {
    for (&mark, value) in marks.iter().zip(words(copies)).take(m + 1) {
        if mark == 1 {
            let count = copies_of(value, marks, copies);
            if count >= marks.len() - m {
                return Some(value);
            }
            if count > m {
                return None;
            }
        }
    }
    None
}

/// How many present copies equal a value. The bytes of missing ones are zero.
fn copies_of(value: i32, marks: &[u8], copies: &[u8]) -> usize {
    let equal: u32 = words(copies).map(|copy| (copy == value) as u32).sum();
    let missing = if value == 0 { marks.iter().filter(|&&mark| mark == 0).count() } else { 0 };
    equal as usize - missing
}

/// What is known of the span from a start.
#[derive(Clone, Copy, PartialEq)]
enum Known {
    Nothing,
    Short,
    Enough,
}

/// Says of each present reading whether some span holds it and N-m readings.
fn accept(values: &[i32], need: u32, span: u32, accepted: &mut [bool]) {
    let mut known = [Known::Nothing; MOST];
    for (accepted, &value) in accepted.iter_mut().zip(values) {
        *accepted = known.iter_mut().zip(values).any(|(known, &start)| {
            // Below zero it is more than any span.
            let above = (value as i64 - start as i64) as u64;
            if (*known == Known::Short) | (above > span as u64) {
                return false;
            }
            if *known == Known::Nothing {
                let enough = count(values, start, span) >= need;
                *known = if enough { Known::Enough } else { Known::Short };
            }
            *known == Known::Enough
        });
    }
}

/// How many readings the span from a start holds.
fn count(values: &[i32], start: i32, span: u32) -> u32 {
    let end = start.saturating_add_unsigned(span);
    values.iter().map(|&value| ((start <= value) & (value <= end)) as u32).sum()
}

/// The estimate over the accepted readings, which are one at least, and of which this is the sum.
fn estimate(estimator: u8, accepted: &mut [i32], sum: i64) -> i32 {
    match estimator {
        0 => sum.div_euclid(accepted.len() as i64) as i32,
        1 => *accepted.select_nth_unstable(accepted.len().div_ceil(2) - 1).1,
        _ => {
            let lowest = accepted.iter().fold(i32::MAX, |least, &value| value.min(least));
            let highest = accepted.iter().fold(i32::MIN, |most, &value| value.max(most));
            (lowest as i64 + highest as i64).div_euclid(2) as i32
        }
    }
}
