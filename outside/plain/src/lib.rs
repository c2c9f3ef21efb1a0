//! Settling and reading a round sheet, falling back from one to another, and replaying a trace, in plain safe Rust, in the
//! form that the proved library has, twice: `Plain` without tuning, and `Tuned`. What is alike in the two is here, and the
//! interval between rounds.
#![forbid(unsafe_code)]

mod fallback;
mod interval;
mod plain;
mod replay;
mod thresholds;
mod trimming;
mod tuned;

pub use fallback::{fallback, Fallback};
pub use interval::interval;
pub use plain::Plain;
pub use replay::replay;
pub use tuned::Tuned;

/// N is at most this.
const MOST: usize = 64;

/// A window is at most this.
const MOST_WINDOW: u32 = 1_000_000;

/// A spread is at most this.
const MOST_SPREAD: u32 = 100_000;

const HEADER: usize = 8;
const ANSWER_HEADER: usize = 10;

/// The first eight bytes of a sheet or a trace, which pass checks 1 to 5.
#[derive(Clone, Copy)]
pub struct Sizes {
    n: usize,
    m: usize,
    rule: Rule,
    estimator: u8,
    /// The width of a span: the window, and the spread where one is given.
    span: u32,
}

/// How a sheet is settled.
#[derive(Clone, Copy, PartialEq)]
enum Rule {
    Direct,
    /// A reading is decided from a row of N copies.
    Crusaders,
    TrimmedMidpoint,
    TrimmedMean,
}

impl Sizes {
    fn crusaders(&self) -> bool {
        self.rule == Rule::Crusaders
    }

    /// The readings that a span must hold, and the copies that a row must hold.
    fn need(&self) -> usize {
        self.n - self.m
    }

    /// The planned window after one as wide as the span, by FCA.
    fn next_window(&self) -> u32 {
        if self.m == 0 || self.span == 0 {
            return 0;
        }
        2 * self.m as u32 * self.span / self.n as u32 + 1
    }
}

/// A sheet that passes checks 1 to 6, and 16.
pub struct Opened<'a> {
    sizes: Sizes,
    marks: &'a [u8],
    /// Four bytes for each entry.
    readings: &'a [u8],
}

/// What the header of an answer sheet is written from.
pub struct Settled {
    count: usize,
    estimate: i64,
    /// The sum of the used values.
    sum: i64,
}

impl Settled {
    /// The mean of N used values, a half going to the even neighbour.
    fn new_value(&self, n: usize) -> i32 {
        let n = n as i64;
        let whole = self.sum.div_euclid(n);
        let rest = self.sum - n * whole;
        let odd = whole & 1;
        (whole + (n < 2 * rest + odd) as i64) as i32
    }
}

/// The steps in which the two differ.
pub trait Steps {
    const NAME: &'static str;

    /// Checks 8 and 9.
    fn check_entries(marks: &[u8], readings: &[u8]) -> Result<(), u64>;

    /// Readings from their bytes.
    fn copy(bytes: &[u8], readings: &mut [i32]);

    /// Fills marks and used values of the answer sheet, or nothing where no reading is accepted.
    fn round(sheet: &Opened, marks: &mut [u8], used: &mut [u8]) -> Option<Settled>;

    /// Fills marks and used values of the answer sheet by a trimming rule. Answers the new value.
    fn trim(sheet: &Opened, marks: &mut [u8], used: &mut [u8]) -> i32;

    /// The round of a cabinet that hears this from each sender.
    fn settle_heard(sizes: &Sizes, heard: impl Fn(usize) -> Option<i32>) -> Option<Settled>;
}

/// The number of entries, with marks and readings filled, or number × 2^32 + place.
pub fn read<S: Steps>(sheet: &[u8], marks: &mut [u8], readings: &mut [i32]) -> u64 {
    let sheet = match open(sheet, 0) {
        Err(refusal) => return refusal,
        Ok(sheet) => sheet,
    };
    let entries = sheet.marks.len();
    if marks.len() < entries || readings.len() < entries {
        return refusal(7, 0);
    }
    if let Err(refusal) = S::check_entries(sheet.marks, sheet.readings) {
        return refusal;
    }
    marks[..entries].copy_from_slice(sheet.marks);
    S::copy(sheet.readings, &mut readings[..entries]);
    entries as u64
}

/// The length of the answer sheet, or number × 2^32 + place.
pub fn settle<S: Steps>(sheet: &[u8], answer: &mut [u8]) -> u64 {
    settle_spread::<S>(sheet, 0, answer)
}

/// The same with a spread.
pub fn settle_spread<S: Steps>(sheet: &[u8], spread: u32, answer: &mut [u8]) -> u64 {
    let sheet = match open(sheet, spread) {
        Err(refusal) => return refusal,
        Ok(sheet) => sheet,
    };
    let n = sheet.sizes.n;
    let length = ANSWER_HEADER + 5 * n;
    if answer.len() < length {
        return refusal(7, 0);
    }
    if let Err(refusal) = S::check_entries(sheet.marks, sheet.readings) {
        return refusal;
    }
    let (header, body) = answer[..length].split_at_mut(ANSWER_HEADER);
    let (marks, used) = body.split_at_mut(n);
    if let Rule::TrimmedMidpoint | Rule::TrimmedMean = sheet.sizes.rule {
        let new = S::trim(&sheet, marks, used);
        write_header(header, n, n - 2 * sheet.sizes.m, new, new);
        return length as u64;
    }
    let Some(settled) = S::round(&sheet, marks, used) else {
        return refusal(10, 0);
    };
    write_header(header, n, settled.count, settled.estimate as i32, settled.new_value(n));
    length as u64
}

fn write_header(header: &mut [u8], n: usize, count: usize, estimate: i32, new: i32) {
    header[0] = n as u8;
    header[1] = count as u8;
    header[2..6].copy_from_slice(&estimate.to_le_bytes());
    header[6..10].copy_from_slice(&new.to_le_bytes());
}

/// Checks 1 to 5.
fn sizes(bytes: &[u8]) -> Result<Sizes, u64> {
    if bytes.len() < HEADER {
        return Err(refusal(1, 0));
    }
    let n = bytes[0] as usize;
    let m = bytes[1] as usize;
    let rule = bytes[2];
    let estimator = bytes[3];
    let window = u32::from_le_bytes([bytes[4], bytes[5], bytes[6], bytes[7]]);
    if n == 0 || n > MOST {
        return Err(refusal(2, 0));
    }
    if n < 3 * m + 1 {
        return Err(refusal(3, 0));
    }
    let rule = match (rule, estimator) {
        (0, 0..=2) => Rule::Direct,
        (1, 0..=2) => Rule::Crusaders,
        (2, 0) => Rule::TrimmedMidpoint,
        (3, 0) => Rule::TrimmedMean,
        _ => return Err(refusal(4, 0)),
    };
    if window > MOST_WINDOW {
        return Err(refusal(5, 0));
    }
    Ok(Sizes { n, m, rule, estimator, span: window })
}

/// Checks 1 to 5, 16 and 6.
fn open(sheet: &[u8], spread: u32) -> Result<Opened<'_>, u64> {
    let mut sizes = sizes(sheet)?;
    if spread > MOST_SPREAD || (spread > 0 && sizes.rule != Rule::Direct) {
        return Err(refusal(16, 0));
    }
    sizes.span += spread;
    let entries = if sizes.crusaders() { sizes.n * sizes.n } else { sizes.n };
    if sheet.len() != HEADER + 5 * entries {
        return Err(refusal(6, 0));
    }
    let (marks, readings) = sheet[HEADER..].split_at(entries);
    Ok(Opened { sizes, marks, readings })
}

/// The reading of an entry, from its four bytes.
fn reading(readings: &[u8], entry: usize) -> i32 {
    let at = 4 * entry;
    i32::from_le_bytes([readings[at], readings[at + 1], readings[at + 2], readings[at + 3]])
}

fn refusal(number: u64, place: usize) -> u64 {
    (number << 32) + place as u64
}
