//! Settings, refusals, and the checks on settings.

pub const FCA: u8 = 0;
pub const CCA: u8 = 1;
/// The trimming rules of paper 5: half the sum of the extremes left, and the mean of those left.
pub const TRIMMED_MIDPOINT: u8 = 2;
pub const TRIMMED_MEAN: u8 = 3;

pub const AVERAGE: u8 = 0;
pub const MEDIAN: u8 = 1;
pub const MIDPOINT: u8 = 2;

/// A refusal: its number in the table, and its place.
#[derive(Clone, Copy, Debug, PartialEq, Eq)]
pub struct Refusal {
    pub number: u8,
    pub place: u32,
}

impl Refusal {
    pub fn new(number: u8) -> Refusal {
        Refusal { number, place: 0 }
    }

    pub fn at(number: u8, entry: usize) -> Refusal {
        Refusal { number, place: entry as u32 }
    }
}

/// The first eight bytes of a round sheet. Any numbers at all: nothing is presumed checked.
#[repr(C)]
#[derive(Clone, Copy, Debug, Default, PartialEq, Eq)]
pub struct Settings {
    pub n: u8,
    pub m: u8,
    pub rule: u8,
    pub estimator: u8,
    pub window: u32,
}

impl Settings {
    /// Checks 2 to 5 of a sheet or a trace, in this order.
    pub fn check(&self) -> Result<(), Refusal> {
        self.check_where(self.known())
    }

    /// The same of a plan, which there is for FCA and CCA alone.
    pub fn check_plan(&self) -> Result<(), Refusal> {
        self.check_where(self.known() && !self.trims())
    }

    /// Whether rule and estimator are known: a trimming rule has no estimator, and its byte is 0.
    fn known(&self) -> bool {
        match self.rule {
            FCA | CCA => self.estimator <= MIDPOINT,
            TRIMMED_MIDPOINT | TRIMMED_MEAN => self.estimator == 0,
            _ => false,
        }
    }

    /// Whether the rule is a trimming rule.
    pub fn trims(&self) -> bool {
        self.rule == TRIMMED_MIDPOINT || self.rule == TRIMMED_MEAN
    }

    fn check_where(&self, known: bool) -> Result<(), Refusal> {
        let n = self.n as u32;
        let m = self.m as u32;
        if n == 0 || n > 64 {
            return Err(Refusal::new(2));
        }
        if n < 3 * m + 1 {
            return Err(Refusal::new(3));
        }
        if !known {
            return Err(Refusal::new(4));
        }
        if self.window > 1_000_000 {
            return Err(Refusal::new(5));
        }
        Ok(())
    }

    /// Check 16: a spread D above 100,000, or above 0 with another rule than FCA.
    pub fn check_spread(&self, spread: u32) -> Result<(), Refusal> {
        if spread > 100_000 || (spread > 0 && self.rule != FCA) {
            return Err(Refusal::new(16));
        }
        Ok(())
    }

    /// E, the number of entries of a sheet.
    pub fn entries(&self) -> usize {
        let n = self.n as usize;
        if self.rule == CCA {
            n * n
        } else {
            n
        }
    }

    pub fn sheet_length(&self) -> usize {
        8 + 5 * self.entries()
    }

    pub fn answer_length(&self) -> usize {
        10 + 5 * self.n as usize
    }

    /// N-m, the readings that a span must hold and the copies that a row must hold.
    pub fn need(&self) -> usize {
        self.n as usize - self.m as usize
    }
}
