//! Paper 3 of document 02: the mean by distances from the lowest accepted reading, every step in 32 bits.
//! Settling has `mean`, which is obviously the document; the tests hold the two to each other.

use crate::checks::Settings;
use crate::sheet::numbers_in;

/// The lowest accepted reading of a settled round, and how far above it each used value lies.
#[derive(Clone, Debug, PartialEq, Eq)]
pub struct Distances {
    pub lowest: i32,
    pub above: Vec<u32>,
}

impl Distances {
    /// As an answer sheet shows them; None where it has no accepted reading, or a value that is not above.
    pub fn of_answer(answer: &[u8]) -> Option<Distances> {
        let n = *answer.first()? as usize;
        let marks = answer.get(10..10 + n)?;
        let used = numbers_in(answer.get(10 + n..10 + 5 * n)?);
        let accepted = marks.iter().zip(&used).filter(|(&mark, _)| mark == 1);
        let lowest = accepted.map(|(_, &value)| value).min()?;
        let above = |&value: &i32| u32::try_from(value.checked_sub(lowest)?).ok();
        Some(Distances { lowest, above: used.iter().map(above).collect::<Option<_>>()? })
    }

    /// Their sum; None where 32 bits do not hold it.
    pub fn sum(&self) -> Option<u32> {
        self.above.iter().try_fold(0, |sum: u32, &distance| sum.checked_add(distance))
    }

    /// The sum divided by N, its whole part added back to the lowest, rounded by the remainder: a half goes
    /// up from an odd number, and not from an even one.
    pub fn mean(&self) -> Option<i32> {
        let n = self.above.len() as u32;
        let remainder = self.sum()?.checked_rem(n)?;
        let below = self.lowest.checked_add_unsigned(self.sum()? / n)?;
        let odd = below % 2 != 0;
        let up = 2 * remainder > n || (2 * remainder == n && odd);
        below.checked_add(up as i32)
    }
}

impl Settings {
    /// What paper 3 says of the sum: at most 2N times the span.
    pub fn sum_limit(&self, span: u32) -> u32 {
        2 * self.n as u32 * span
    }

    /// The greatest sum that there is. The span from the lowest accepted reading holds N-m readings, itself
    /// among them; the other m values lie within two spans.
    pub fn greatest_sum(&self, span: u32) -> u32 {
        (self.n as u32 + self.m as u32 - 1) * span
    }
}
