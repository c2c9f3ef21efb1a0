//! Paper 3 of document 02: the distances of a settled sheet's used values from its lowest accepted reading, as
//! its answer sheet shows them.

use crate::cables::example_row;
use crate::run::{hold, Tally};
use engine::Settings;
use reference::{numbers_in, Distances, CCA};

/// The places of the limits of a sum among `LIMITS`. That of paper 3 is never reached: N+m-1 is below 2N.
pub const DOCUMENT: usize = 22;
const EXACT_FCA: usize = 23;
const EXACT_CCA: usize = 24;
const EXACT_CABLES: usize = 25;

/// Holds the sum to its limits, and the new value to the mean by distances; `cables` is the spread of a round
/// with cables that differ.
pub fn hold_sum(tally: &mut Tally, settings: &Settings, cables: Option<u32>, answer: &[u8]) {
    let new = numbers_in(&answer[6..10])[0];
    let distances = Distances::of_answer(answer);
    if distances.as_ref().and_then(Distances::mean) != Some(new) {
        tally.wrong_means += 1;
        tally.broken(|| format!("{new} is not the mean of {distances:?}"));
    }
    let Some(sum) = distances.and_then(|distances| distances.sum()) else { return };
    let exact = match (cables, settings.rule) {
        (Some(_), _) => EXACT_CABLES,
        (None, CCA) => EXACT_CCA,
        _ => EXACT_FCA,
    };
    let span = settings.window + cables.unwrap_or(0);
    hold(tally, DOCUMENT, sum as i64, settings.sum_limit(span) as i64, 0);
    hold(tally, exact, sum as i64, settings.greatest_sum(span) as i64, 0);
    tally.past_n_spans += (sum > settings.n as u32 * span) as u64;
    if let Some(row) = cables.and_then(|spread| example_row(settings, spread)) {
        tally.sums[row] = tally.sums[row].max(sum);
    }
}

#[cfg(test)]
mod tests {
    use super::*;
    use reference::{settle_readings, FCA, MEDIAN};

    /// Eight spans, which seven cabinets have where two faults are planned for: how often that reaches and how
    /// often it breaks the limit for m faults.
    fn held_for(m: u8) -> [u64; 2] {
        let settings = Settings { n: 7, m: 2, rule: FCA, estimator: MEDIAN, window: 10 };
        let readings = [0, 10, 10, 10, 10, 20, 20].map(Some);
        let answer = settle_readings(&settings, 0, &readings).unwrap().bytes();
        let mut tally = Tally::default();
        hold_sum(&mut tally, &Settings { m, ..settings }, None, &answer);
        let met = tally.met.0[EXACT_FCA];
        assert_eq!((tally.past_n_spans, tally.wrong_means), (1, 0));
        [met.reached, met.broken]
    }

    /// With m 1 the limit is N spans.
    #[test]
    fn a_limit_of_n_spans_is_broken() {
        assert_eq!(held_for(2), [1, 0]);
        assert_eq!(held_for(1), [0, 1]);
    }
}
