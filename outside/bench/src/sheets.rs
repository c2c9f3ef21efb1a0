//! The sheets that are timed.

use engine::Settings;
use random::Random;
use reference::{marks_and_readings, sheet_bytes, CCA, FCA, TRIMMED_MEAN, TRIMMED_MIDPOINT};

pub const SIZES: [u8; 5] = [4, 7, 16, 32, 64];
pub const RULES: [(u8, &str); 2] = [(FCA, "FCA"), (CCA, "CCA")];
pub const TRIMMING: [(u8, &str); 2] = [(TRIMMED_MIDPOINT, "R2"), (TRIMMED_MEAN, "R3")];
pub const KINDS: [Kind; 3] = [Kind::AllAccepted, Kind::SomeLiars, Kind::WorstRefusal];

const WINDOW: i64 = 1000;

/// The spread of sheets that are settled with one.
pub const SPREAD: u32 = 100;

#[derive(Clone, Copy, PartialEq, Eq)]
pub enum Kind {
    AllAccepted,
    SomeLiars,
    WorstRefusal,
}

impl Kind {
    pub fn name(self) -> &'static str {
        match self {
            Kind::AllAccepted => "all accepted",
            Kind::SomeLiars => "some liars",
            Kind::WorstRefusal => "worst refusal",
        }
    }

    /// The same of sheets that are settled by a trimming rule.
    pub fn name_to_trim(self) -> &'static str {
        match self {
            Kind::AllAccepted => "all near",
            _ => self.name(),
        }
    }

    /// The same of sheets that are settled with a spread.
    pub fn name_with_spread(self) -> &'static str {
        match self {
            Kind::AllAccepted => "spread, all",
            Kind::SomeLiars => "spread, liars",
            Kind::WorstRefusal => "spread, worst",
        }
    }
}

/// Sheets of one size, rule and kind, over all estimators.
pub fn sheets(n: u8, rule: u8, kind: Kind) -> Vec<Vec<u8>> {
    let random = Random::new(n as u64);
    (0..6).map(|i| sheet(&random, n, rule, kind, i % 3)).collect()
}

/// The same FCA sheets with a window that is less by the spread.
pub fn sheets_with_spread(n: u8, kind: Kind) -> Vec<Vec<u8>> {
    let mut sheets = sheets(n, FCA, kind);
    for sheet in &mut sheets {
        sheet[4..8].copy_from_slice(&(WINDOW as u32 - SPREAD).to_le_bytes());
    }
    sheets
}

/// Sheets of a trimming rule: all readings within the window, or m of them missing or far off.
pub fn sheets_to_trim(n: u8, rule: u8, kind: Kind) -> Vec<Vec<u8>> {
    let mut sheets = sheets(n, FCA, kind);
    for sheet in &mut sheets {
        sheet[2..4].copy_from_slice(&[rule, 0]);
    }
    sheets
}

/// Sheets of good readings of which one in eight is missing, but at most m of a row.
pub fn sheets_with_gaps(n: u8, rule: u8) -> Vec<Vec<u8>> {
    let random = Random::new(n as u64);
    let row = |copies: bool| {
        let (value, mut left) = (inside(&random), faults(n));
        let mut entry = || {
            let gone = left > 0 && random.below(8) == 0;
            left -= gone as u8;
            if gone {
                None
            } else if copies {
                value
            } else {
                inside(&random)
            }
        };
        (0..n).map(|_| entry()).collect::<Vec<_>>()
    };
    let entries = || match rule {
        FCA => row(false),
        _ => (0..n).flat_map(|_| row(true)).collect(),
    };
    (0..6).map(|i| bytes(n, rule, i % 3, &entries())).collect()
}

fn faults(n: u8) -> u8 {
    (n - 1) / 3
}

fn inside(random: &Random) -> Option<i32> {
    Some(random.between(0, WINDOW) as i32)
}

fn bytes(n: u8, rule: u8, estimator: u8, entries: &[Option<i32>]) -> Vec<u8> {
    let settings = Settings { n, m: faults(n), rule, estimator, window: WINDOW as u32 };
    let (marks, readings) = marks_and_readings(entries);
    sheet_bytes(&settings, &marks, &readings)
}

fn sheet(random: &Random, cabinets: u8, rule: u8, kind: Kind, estimator: u8) -> Vec<u8> {
    let (n, m) = (cabinets as usize, faults(cabinets) as usize);
    let inside = || inside(random);
    let entries: Vec<Option<i32>> = match (kind, rule) {
        (Kind::AllAccepted, FCA) => (0..n).map(|_| inside()).collect(),
        (Kind::AllAccepted, _) => (0..n).flat_map(|_| vec![inside(); n]).collect(),
        (Kind::SomeLiars, FCA) => {
            let lie = || random.pick(&[None, Some(random.between(-50_000, 50_000) as i32)]);
            mixed(random, n, m, inside, lie)
        }
        (Kind::SomeLiars, _) => {
            // The last m rows are two-faced; in every row m relays lie.
            let row = |r: usize| {
                let (value, other) = (inside(), inside());
                let halves = (0..n).map(|s| if s % 2 == 0 { value } else { other }).collect();
                let lie = || Some(random.draw() as i32);
                if r < n - m {
                    mixed(random, n, m, || value, lie)
                } else {
                    halves
                }
            };
            (0..n).flat_map(row).collect()
        }
        // One reading short of enough in every span, and most spans start at the same place.
        (Kind::WorstRefusal, FCA) => {
            (0..n).map(|i| Some(if i < n - m - 1 { 0 } else { 5000 * (i as i32 + 1) })).collect()
        }
        // One copy short of enough in every row.
        (Kind::WorstRefusal, _) => {
            let row = |_| (0..n).map(|s| Some(if s < n - m - 1 { 7 } else { 8 + s as i32 }));
            (0..n).flat_map(row).collect()
        }
    };
    bytes(cabinets, rule, estimator, &entries)
}

/// N readings in any order, m of them lies.
fn mixed(
    random: &Random,
    n: usize,
    m: usize,
    truth: impl Fn() -> Option<i32>,
    lie: impl Fn() -> Option<i32>,
) -> Vec<Option<i32>> {
    let mut drawn: Vec<_> = (0..n).map(|i| if i < m { lie() } else { truth() }).collect();
    for i in 0..n {
        drawn.swap(i, random.below(n));
    }
    drawn
}
