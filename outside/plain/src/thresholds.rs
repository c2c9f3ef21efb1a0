//! Between which values those lie that a trimming rule leaves of many, in the form that the proved library has for more
//! than 32: a range is narrowed, and the values below one in it are counted, until as many are below it as are dropped.
#![allow(clippy::needless_range_loop)]

/// The values that come before `high` and not before `low`: of those equal to one of these the first so many places do.
pub struct Between {
    pub low: u32,
    dropped: u32,
    start: usize,
    high: u32,
    kept: u32,
    end: usize,
    /// The highest value that can be left.
    pub last: u32,
}

impl Between {
    /// All but the m lowest and the m highest of the values.
    pub fn new(values: &[u32], m: usize) -> Between {
        let (mut least, mut most) = (u32::MAX, 0);
        for r in 0..values.len() {
            least = least.min(values[r]);
            most = most.max(values[r]);
        }
        let (low, dropped) = find(values, m as u32, least, most);
        let (high, kept) = find(values, (values.len() - m) as u32, least, most);
        let start = place_behind(values, low, dropped);
        let end = place_behind(values, high, kept);
        let last = if kept == 0 { high - 1 } else { high };
        Between { low, dropped, start, high, kept, end, last }
    }

    pub fn holds(&self, value: u32, place: usize) -> bool {
        let before = |at: u32, end: usize| (value < at) | ((value == at) & (place < end));
        !before(self.low, self.start) & before(self.high, self.end)
    }

    /// The sum of those that are left: of equal ones it does not matter which.
    pub fn sum(&self, values: &[u32]) -> u64 {
        let mut sum = 0;
        for r in 0..values.len() {
            let inside = (self.low <= values[r]) & (values[r] < self.high);
            sum += if inside { values[r] as u64 } else { 0 };
        }
        sum + self.kept as u64 * self.high as u64 - self.dropped as u64 * self.low as u64
    }
}

/// A value, and how many of those equal to it are among the k lowest, which are else those below it.
fn find(values: &[u32], k: u32, least: u32, most: u32) -> (u32, u32) {
    let unit = (most - least) / 64 + 1;
    let (mut low, mut high, mut below, mut within) = (least, most, 0, values.len() as u32);
    while low < high && below != k {
        let (left, right, half) = (k - below, within - k, (high - low) / 2);
        let step = unit * left.min(right);
        let middle = if left <= right {
            low + (step + 1).min(high - low - half)
        } else {
            high - step.min(half)
        };
        let mut count = 0;
        for r in 0..values.len() {
            count += (values[r] < middle) as u32;
        }
        if count <= k {
            (low, below) = (middle, count);
        } else {
            (high, within) = (middle - 1, count);
        }
    }
    (low, k - below)
}

/// The place behind the first so many values equal to one.
fn place_behind(values: &[u32], at: u32, ties: u32) -> usize {
    let (mut left, mut place) = (ties, 0);
    while left > 0 && place < values.len() {
        left -= (values[place] == at) as u32;
        place += 1;
    }
    place
}
