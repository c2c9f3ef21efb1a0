//! The trimming rules, in the form that the proved library has: local arrays of 64 entries, and no sort. The rank of a
//! reading is how many are less, and how many equal ones came before it. More than 32 are dropped by thresholds.
#![allow(clippy::needless_range_loop)]

use crate::thresholds::Between;
use crate::{reading, Opened, Rule, Sizes, MOST};

/// So many readings are dropped by their ranks.
const FEW: usize = 32;

/// A tick as a number without a sign, 2^31 higher. An even one stays even.
pub fn moved(tick: i32) -> u32 {
    (tick as u32) ^ (1 << 31)
}

pub fn unmoved(value: u32) -> i32 {
    (value ^ (1 << 31)) as i32
}

/// Of moved values: the sum of those that are kept, and of the least and the greatest of these.
pub struct Sums {
    pub kept: u64,
    pub extremes: u64,
}

impl Sums {
    /// The new value.
    pub fn new_value(&self, sizes: &Sizes) -> i32 {
        match sizes.rule {
            Rule::TrimmedMidpoint => mean(self.extremes, 2),
            _ => mean(self.kept, (sizes.n - 2 * sizes.m) as u64),
        }
    }
}

/// The mean of so many moved values, a half going to the even neighbour.
fn mean(sum: u64, count: u64) -> i32 {
    let whole = sum / count;
    let rest = sum - count * whole;
    unmoved((whole + (count < 2 * rest + whole % 2) as u64) as u32)
}

pub fn trim(sheet: &Opened, marks: &mut [u8], used: &mut [u8]) -> i32 {
    let n = sheet.sizes.n;
    let mut values = [0u32; MOST];
    for r in 0..n {
        // The bytes of a missing reading are zero.
        values[r] = moved(reading(sheet.readings, r));
    }
    let sums = if n <= FEW {
        let mut ranks = [0u8; MOST];
        rank(&values[..n], &mut ranks);
        mark(sheet, &values, &ranks, marks)
    } else {
        mark_between(sheet, &values[..n], marks)
    };
    let new = sums.new_value(&sheet.sizes);
    for r in 0..n {
        let value = if marks[r] == 1 { unmoved(values[r]) } else { new };
        used[4 * r..4 * r + 4].copy_from_slice(&value.to_le_bytes());
    }
    new
}

/// The place of each value in order, equal ones by number.
fn rank(values: &[u32], ranks: &mut [u8; MOST]) {
    let n = values.len();
    let mut seen = [0u8; MOST];
    for r in 0..n {
        let mut less = 0u32;
        for other in 0..n {
            less += (values[other] < values[r]) as u32;
        }
        let less = less as usize;
        ranks[r] = less as u8 + seen[less];
        seen[less] += 1;
    }
}

/// Fills the marks, and adds up what is kept.
fn mark(sheet: &Opened, values: &[u32; MOST], ranks: &[u8; MOST], marks: &mut [u8]) -> Sums {
    let (n, m) = (sheet.sizes.n, sheet.sizes.m);
    let mut sums = Sums { kept: 0, extremes: 0 };
    for r in 0..n {
        let (rank, value) = (ranks[r] as usize, values[r] as u64);
        let kept = m <= rank && rank < n - m;
        marks[r] = mark_of(sheet.marks[r], kept);
        sums.kept += if kept { value } else { 0 };
        sums.extremes += if rank == m { value } else { 0 };
        sums.extremes += if rank == n - m - 1 { value } else { 0 };
    }
    sums
}

/// The mark of a reading on the answer sheet.
fn mark_of(mark: u8, kept: bool) -> u8 {
    match (mark, kept) {
        (0, _) => 0,
        (_, true) => 1,
        (_, false) => 2,
    }
}

/// The same by thresholds; it adds up what the rule asks for.
fn mark_between(sheet: &Opened, values: &[u32], marks: &mut [u8]) -> Sums {
    let between = Between::new(values, sheet.sizes.m);
    for r in 0..values.len() {
        marks[r] = mark_of(sheet.marks[r], between.holds(values[r], r));
    }
    let mut sums = Sums { kept: 0, extremes: 0 };
    if let Rule::TrimmedMidpoint = sheet.sizes.rule {
        let (mut least, mut most) = (u32::MAX, 0);
        for r in 0..values.len() {
            least = if values[r] < between.low { least } else { least.min(values[r]) };
            most = if values[r] > between.last { most } else { most.max(values[r]) };
        }
        sums.extremes = least as u64 + most as u64;
    } else {
        sums.kept = between.sum(values);
    }
    sums
}
