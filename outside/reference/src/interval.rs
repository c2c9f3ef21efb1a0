//! How long between rounds: document 02, paper 6. The two inequalities stand as they do there, over fractions.

use crate::checks::Refusal;
use crate::fraction::Fraction;

/// The least and the greatest number of ticks between rounds.
#[derive(Clone, Copy, Debug, PartialEq, Eq)]
pub struct Interval {
    pub least: u64,
    pub greatest: u64,
}

fn whole(number: impl Into<i128>) -> Fraction {
    Fraction::whole(number)
}

/// ρ: so many parts of a million.
fn of_a_million(drift: u32) -> Fraction {
    Fraction::new(drift as i128, 1_000_000)
}

/// R ≤ (δ-c)(2-ρ)/(2ρ). Broken by an R, it is by all above.
pub fn stays_within(window: u32, precision: u32, drift: u32, interval: u64) -> bool {
    let (d, c, rho, r) = (whole(window), whole(precision), of_a_million(drift), whole(interval));
    let two = whole(2);
    r <= (d - c) * (two - rho) / (two * rho)
}

/// R ≥ 2(R+c)/(2-ρ) - 2R/(2+ρ). Met by an R, it is by all above: the right side grows by 4ρ/(4-ρ²) for a tick of R,
/// which is less than one.
pub fn stays_in_order(precision: u32, drift: u32, interval: u64) -> bool {
    let (c, rho, r) = (whole(precision), of_a_million(drift), whole(interval));
    let two = whole(2);
    r >= two * (r + c) / (two - rho) - two * r / (two + rho)
}

/// Whether an R meets both, where window, precision and drift are in their ranges.
pub fn meets(window: u32, precision: u32, drift: u32, interval: u64) -> bool {
    stays_within(window, precision, drift, interval) && stays_in_order(precision, drift, interval)
}

/// The least number of at least 1 of which something is true that is true of all above it, and of some.
fn first(holds: impl Fn(u64) -> bool) -> u64 {
    let mut high = 1;
    while !holds(high) {
        high *= 2;
    }
    // It does not hold at low, or low is 0; it holds at high.
    let mut low = high / 2;
    while high - low > 1 {
        let middle = low + (high - low) / 2;
        if holds(middle) {
            high = middle;
        } else {
            low = middle;
        }
    }
    high
}

/// The least and the greatest whole R of at least 1 that meets both, under checks 17 and 18.
pub fn interval(window: u32, precision: u32, drift: u32) -> Result<Interval, Refusal> {
    let in_range = window <= 1_000_000 && precision <= 1_000_000 && (1..=1000).contains(&drift);
    if !in_range {
        return Err(Refusal::new(17));
    }
    let least = first(|interval| stays_in_order(precision, drift, interval));
    let greatest = first(|interval| !stays_within(window, precision, drift, interval)) - 1;
    if least > greatest {
        return Err(Refusal::new(18));
    }
    Ok(Interval { least, greatest })
}
