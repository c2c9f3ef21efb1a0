//! The limits for sound cabinets, for every good set and every true value.

use crate::run::Run;
use engine::Settings;

/// Good sets of one size, N-t. Their true values reach from the highest reading less κ to the
/// lowest reading plus κ, so the lowest of the highest and the highest of the lowest readings
/// give the strictest limits.
#[derive(Clone, Copy, Debug)]
pub struct GoodSets {
    pub t: usize,
    pub lowest_high: i64,
    pub highest_low: i64,
}

impl GoodSets {
    /// The largest error of a value against a true value of such a set.
    pub fn error(&self, value: i64, accuracy: i64) -> i64 {
        (value - (self.lowest_high - accuracy)).max((self.highest_low + accuracy) - value)
    }
}

/// For each t below N-m, the good sets of N-t cabinets, if there are any. A set that leaves out
/// a reading between two of its own has the limits of the larger set or wider ones, so
/// neighbours in order are enough.
pub fn good_sets(run: &Run) -> Vec<GoodSets> {
    let sound = (0..run.n()).filter(|&c| !run.faulty[c]);
    let mut first: Vec<i64> = sound.filter_map(|c| run.held[c]).map(i64::from).collect();
    first.sort();
    let widest = (run.settings.window as i64).min(2 * run.accuracy as i64);
    let mut sets = Vec::new();
    for t in 0..run.settings.need() {
        let size = run.n() - t;
        let near = || first.windows(size).filter(|set| set[size - 1] - set[0] <= widest);
        if let Some(lowest_high) = near().map(|set| set[size - 1]).min() {
            let highest_low = near().map(|set| set[0]).max().unwrap();
            sets.push(GoodSets { t, lowest_high, highest_low });
        }
    }
    sets
}

/// How far two new values can be apart after the first round, and one from true time past κ,
/// where t are bad.
#[derive(Clone, Copy, Debug, PartialEq, Eq)]
pub struct Most {
    pub gap: i64,
    pub error: i64,
}

impl Most {
    /// The documents' limits for m < t < N-m.
    pub fn document(settings: &Settings, t: usize) -> Most {
        let gap = Apart::wide(settings, t).limit();
        Most { gap, error: ceiling(excess(settings, t), settings.n as i64) }
    }

    /// The exact ones for m < t < N-m. The used values of a cabinet add up to at most N times the highest good
    /// reading plus (m+t)δ, and to at least N times the lowest less (m+t)δ. Where that makes halves, both go
    /// outwards at best if δ is even, and one of them if it is odd.
    pub fn exact(settings: &Settings, t: usize) -> Most {
        let (n, w) = (settings.n as i64, settings.window as i64);
        let excess = excess(settings, t);
        let (up, down) = (near(excess, n), -near(-excess, n));
        Most { gap: w + up + if w % 2 == 0 { up } else { down }, error: up }
    }

    /// Document 02's limits for t ≤ m with a spread.
    pub fn with_cables(settings: &Settings, spread: u32, t: usize) -> Most {
        Most::of_cables(settings, spread, t, Apart::with_cables(settings, spread, t).limit())
    }

    /// What the paper's Lemma 16 would give, too tight.
    pub fn by_lemma_16(settings: &Settings, spread: u32, t: usize) -> Most {
        Most::of_cables(settings, spread, t, Apart::by_lemma_16(settings, spread, t).limit())
    }

    /// With a spread and this gap.
    pub fn of_cables(settings: &Settings, spread: u32, t: usize, gap: i64) -> Most {
        let span = settings.window as i64 + spread as i64;
        Most { gap, error: ceiling(t as i64 * span, settings.n as i64) }
    }

    /// The greater of each.
    pub fn or_greater(self, gap: i64, error: i64) -> Most {
        Most { gap: self.gap.max(gap), error: self.error.max(error) }
    }
}

/// (m+t)δ.
fn excess(settings: &Settings, t: usize) -> i64 {
    (settings.m as i64 + t as i64) * settings.window as i64
}

/// Whether (m+t)δ/N is a half.
pub fn is_half(settings: &Settings, t: usize) -> bool {
    2 * (excess(settings, t) % settings.n as i64) == settings.n as i64
}

/// How far apart the sums of two cabinets' used values can be, each of n values.
#[derive(Clone, Copy, Debug)]
pub struct Apart {
    pub sums: i64,
    pub n: i64,
}

impl Apart {
    /// Where t ≤ m.
    pub fn planned(settings: &Settings) -> Apart {
        Apart { sums: reference::sums_apart(settings) as i64, n: settings.n as i64 }
    }

    /// Where m < t < N-m, in the first round.
    pub fn wide(settings: &Settings, t: usize) -> Apart {
        let (n, m, t) = (settings.n as i64, settings.m as i64, t as i64);
        Apart { sums: (n + 2 * t + 2 * m) * settings.window as i64, n }
    }

    /// Where t ≤ m, with a spread: bad readings lie within 2δ + 3D of each other.
    pub fn with_cables(settings: &Settings, spread: u32, t: usize) -> Apart {
        let hull = 2 * settings.window as i64 + 3 * spread as i64;
        Apart::with_hull(settings, spread, t, hull)
    }

    /// The same by the paper's Lemma 16, within 2δ + 2D.
    pub fn by_lemma_16(settings: &Settings, spread: u32, t: usize) -> Apart {
        let hull = 2 * settings.window as i64 + 2 * spread as i64;
        Apart::with_hull(settings, spread, t, hull)
    }

    fn with_hull(settings: &Settings, spread: u32, t: usize, hull: i64) -> Apart {
        let (n, t) = (settings.n as i64, t as i64);
        Apart { sums: (n - t) * spread as i64 + t * hull, n }
    }

    /// How far apart the means are by paper 4: the whole part of the quotient plus one.
    pub fn limit(&self) -> i64 {
        self.sums / self.n + 1
    }

    /// The ceiling of the quotient, which was the limit before paper 4. No mean of an odd n is a half, so
    /// with these it holds.
    pub fn ceiling(&self) -> i64 {
        ceiling(self.sums, self.n)
    }

    /// The greatest difference of two means that there is. With an even n the whole quotient is passed where
    /// both means are halves that go outwards, and these are an odd number of ticks apart.
    pub fn exact(&self) -> i64 {
        let whole = self.sums / self.n;
        match self.sums % self.n == 0 && (self.n % 2 == 1 || whole % 2 == 0) {
            true => whole,
            false => whole + 1,
        }
    }
}

/// The largest difference of two values.
pub fn gap(values: &[i64]) -> i64 {
    let lowest = values.iter().min().unwrap_or(&0);
    let highest = values.iter().max().unwrap_or(&0);
    highest - lowest
}

pub fn ceiling(number: i64, by: i64) -> i64 {
    (number + by - 1).div_euclid(by)
}

/// The nearest whole number to a sum of n values over n, a half going up.
pub fn near(sum: i64, n: i64) -> i64 {
    (2 * sum + n).div_euclid(2 * n)
}

/// How close a limit was met.
#[derive(Clone, Copy, Default)]
pub struct Met {
    /// How often something was held against it.
    pub times: u64,
    /// The largest share of it that was used.
    pub share: f64,
    /// The same for limits of 1000 ticks and more, where rounding plays no part.
    pub share_of_large: f64,
    /// How often it was reached exactly.
    pub reached: u64,
    /// The largest limit that was reached exactly.
    pub largest: i64,
    /// How often it was passed.
    pub broken: u64,
}

impl Met {
    /// A use of a limit. One of zero can be broken, and is not counted as held or reached.
    pub fn count(&mut self, used: i64, limit: i64) {
        self.broken += (used > limit) as u64;
        if limit > 0 {
            self.times += 1;
            let share = used as f64 / limit as f64;
            self.share = self.share.max(share);
            if limit >= 1000 {
                self.share_of_large = self.share_of_large.max(share);
            }
            if used == limit {
                self.reached += 1;
                self.largest = self.largest.max(limit);
            }
        }
    }
}

#[cfg(test)]
mod tests {
    use super::*;

    #[test]
    fn three_of_seven() {
        let wide = |window| {
            let settings = Settings { n: 7, m: 2, rule: 0, estimator: 1, window };
            (Most::document(&settings, 3), Most::exact(&settings, 3))
        };
        assert_eq!(wide(7), (Most { gap: 18, error: 5 }, Most { gap: 17, error: 5 }));
        assert_eq!(wide(2), (Most { gap: 5, error: 2 }, Most { gap: 4, error: 1 }));
        let (document, exact) = wide(167_772);
        assert_eq!((document.gap, exact.gap), (407_447, 407_446));
    }

    /// (m+t)δ/N is a half: with an even window it goes outwards at both ends, with an odd one at one of them.
    #[test]
    fn halves() {
        let wide = |n, m, t, window| {
            let settings = Settings { n, m, rule: 0, estimator: 1, window };
            assert!(is_half(&settings, t));
            (Apart::wide(&settings, t).ceiling(), Most::exact(&settings, t))
        };
        assert_eq!(wide(8, 2, 4, 2), (5, Most { gap: 6, error: 2 }), "12/8");
        assert_eq!(wide(4, 1, 2, 2), (5, Most { gap: 6, error: 2 }), "6/4");
        assert_eq!(wide(6, 1, 4, 3), (8, Most { gap: 8, error: 3 }), "15/6");
    }

    /// The greatest difference of two means whose sums are so far apart, tried from every sum.
    #[test]
    fn means_of_sums() {
        for (n, sums) in (1..=12).flat_map(|n| (0..=5 * n).map(move |sums| (n, sums))) {
            let mean = |sum: i64| {
                let mut values = vec![0; n as usize];
                values[0] = sum;
                reference::mean(&values)
            };
            let apart = Apart { sums, n };
            let most = (-2 * n..2 * n).map(|sum| mean(sum + sums) - mean(sum)).max();
            assert_eq!(most, Some(apart.exact()), "{apart:?}");
            assert!(apart.exact() <= apart.limit() && apart.ceiling() <= apart.exact());
            assert!(n % 2 == 0 || apart.exact() == apart.ceiling(), "{apart:?}");
        }
    }

    /// N 4, m 1, δ 1, D 2: 14/4 and 3/4, and by Lemma 16 12/4.
    #[test]
    fn cables() {
        let settings = Settings { n: 4, m: 1, rule: 0, estimator: 1, window: 1 };
        assert_eq!(Most::with_cables(&settings, 2, 1), Most { gap: 4, error: 1 });
        assert_eq!(Most::by_lemma_16(&settings, 2, 1), Most { gap: 4, error: 1 });
        assert_eq!(Apart::by_lemma_16(&settings, 2, 1).exact(), 4, "both means halves");
        assert_eq!(Most::with_cables(&settings, 2, 0), Most { gap: 3, error: 0 });
        let wider = Settings { window: 10, ..settings };
        let without = Most::with_cables(&wider, 0, 1);
        assert_eq!(without, Most { gap: 6, error: 3 });
        assert_eq!(without.gap, reference::next_window(&wider) as i64);
        assert_eq!(without.error, reference::next_accuracy(&wider, 0) as i64);
    }

    fn run(accuracy: u32, held: &[Option<i32>]) -> Run {
        let settings = Settings { n: 4, m: 1, rule: 0, estimator: 1, window: 10 };
        Run {
            settings,
            accuracy,
            faulty: vec![false; 4],
            held: held.to_vec(),
            rounds: 1,
            united: false,
        }
    }

    #[test]
    fn one_true_value() {
        let sets = good_sets(&run(5, &[Some(0), Some(4), Some(10), None]));
        assert_eq!((sets[0].t, sets[0].lowest_high, sets[0].highest_low), (1, 10, 0));
        assert_eq!(sets[0].error(5, 5), 0, "5 is the only true value");
        assert_eq!(sets[0].error(7, 5), 2);
        assert_eq!((sets[1].t, sets[1].lowest_high, sets[1].highest_low), (2, 4, 4));
        assert_eq!(sets.len(), 2, "t is below N-m");
    }

    #[test]
    fn no_set_wider_than_twice_the_accuracy() {
        let sets = good_sets(&run(2, &[Some(0), Some(4), Some(10), Some(30)]));
        assert_eq!((sets[0].t, sets.len()), (2, 1));
        assert_eq!(sets[0].error(2, 2), 0);
    }
}
