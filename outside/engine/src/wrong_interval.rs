//! Intervals between rounds that are wrong in a named way: see `sabotage`.

use crate::{number, packed, Engine, Refusal, Spacing};

const MOST: u32 = 1_000_000;
const MOST_DRIFT: u32 = 1000;
const MILLION: i128 = 1_000_000;

fn refused(number: u8) -> Spacing {
    Spacing::refused(packed(Refusal::new(number)))
}

/// The answer that is wrong in that way; None where it is the engine's own.
pub fn wrong_interval(
    engine: &dyn Engine,
    how: &str,
    window: u32,
    precision: u32,
    drift: u32,
) -> Option<Spacing> {
    let how = how.strip_prefix("interval-")?;
    let given = engine.interval(window, precision, drift);
    let call = Call { how, window, precision, drift };
    match number(given.answer) {
        17 => call.wrong_17(engine),
        answer => call.too_strict().or_else(|| Some(call.wrong(engine, answer, given))),
    }
}

/// A call, and the way in which it is wrong.
struct Call<'a> {
    how: &'a str,
    window: u32,
    precision: u32,
    drift: u32,
}

impl Call<'_> {
    /// Of inputs that check 17 refuses.
    fn wrong_17(&self, engine: &dyn Engine) -> Option<Spacing> {
        let Call { window, precision, drift, .. } = *self;
        match self.how {
            "late" if self.is_empty() => Some(refused(18)),
            "drift-0" if drift == 0 => Some(engine.interval(window, precision, 1)),
            "drift-1001" if drift == 1001 && self.others_in_range() => Some(self.by_formula()),
            "drift-bits" => Some(engine.interval(window, precision, drift as u16 as u32)),
            "window-over" if window == MOST + 1 => Some(engine.interval(MOST, precision, drift)),
            "precision-over" if precision == MOST + 1 => Some(engine.interval(window, MOST, drift)),
            "window-unasked" if precision <= MOST && (1..=MOST_DRIFT).contains(&drift) => {
                Some(self.by_formula())
            }
            "precision-unasked" if window <= MOST && (1..=MOST_DRIFT).contains(&drift) => {
                Some(self.by_formula())
            }
            "place-17" => {
                let first = [window > MOST, precision > MOST].into_iter().position(|fault| fault);
                let place = first.unwrap_or(2) as u32;
                let answer = packed(Refusal { number: 17, place });
                Some(Spacing { answer, ..refused(17) })
            }
            "shown-17" => Some(Spacing { least: 1, greatest: 1, ..refused(17) }),
            _ => None,
        }
    }

    fn others_in_range(&self) -> bool {
        self.window <= MOST && self.precision <= MOST
    }

    /// Whether the inequalities, where they can be asked, leave no interval.
    fn is_empty(&self) -> bool {
        let asked = (1..=MOST_DRIFT).contains(&self.drift);
        self.window <= self.precision || (asked && self.greatest() < self.least())
    }

    /// Inputs at an end of their range that are refused.
    fn too_strict(&self) -> Option<Spacing> {
        let refuses = match self.how {
            "window-end" => self.window == MOST,
            "precision-end" => self.precision == MOST,
            "drift-1" => self.drift == 1,
            "drift-1000" => self.drift == MOST_DRIFT,
            "below-17" => self.window < self.precision,
            _ => false,
        };
        refuses.then(|| refused(17))
    }

    /// Of inputs that check 17 lets through, and the right answer to them.
    fn wrong(&self, engine: &dyn Engine, number: usize, given: Spacing) -> Spacing {
        let Call { window, precision, drift, .. } = *self;
        match (self.how, number) {
            ("swapped", _) => engine.interval(precision, window, drift),
            ("window-bits", _) => engine.interval(window as u16 as u32, precision, drift),
            ("precision-bits", _) => engine.interval(window, precision as u16 as u32, drift),
            ("low", 0) => Spacing { greatest: given.greatest as u32 as u64, ..given },
            ("alone", 0) if given.least == given.greatest => refused(18),
            ("empty", 18) => self.shown(0),
            ("shown-18", 18) => self.shown(given.answer),
            ("place-18", 18) => Spacing { answer: given.answer + precision as u64, ..given },
            _ => self.by_formula(),
        }
    }

    /// What the formulas give, beside an answer.
    fn shown(&self, answer: u64) -> Spacing {
        let [least, greatest] = [self.least(), self.greatest().max(0)].map(|ticks| ticks as u64);
        Spacing { answer, least, greatest }
    }

    fn by_formula(&self) -> Spacing {
        let (least, greatest) = (self.least(), self.greatest());
        match greatest < least {
            true => refused(18),
            false => Spacing::granted(least as u64, greatest as u64),
        }
    }

    fn greatest(&self) -> i128 {
        let Call { window, precision, drift, .. } = *self;
        if self.how == "equal" && window == precision {
            return self.least();
        }
        let left = match self.how {
            "wraps" => window.wrapping_sub(precision) as i128,
            "distance" => window.abs_diff(precision) as i128,
            _ => window as i128 - precision as i128,
        };
        let drift = drift as i128;
        let product = left
            * match self.how {
                "rates" => 2 * MILLION + drift,
                "rate" => 2 * MILLION,
                _ => 2 * MILLION - drift,
            };
        match self.how {
            "greatest-up" => -(-product).div_euclid(2 * drift),
            "strict" => (product - 1).div_euclid(2 * drift),
            "twice" => product.div_euclid(drift),
            _ => product.div_euclid(2 * drift),
        }
    }

    fn least(&self) -> i128 {
        let (precision, drift) = (self.precision as i128, self.drift as i128);
        let square = match self.how {
            "square" => 0,
            "square-ten" => 10 * drift * drift,
            "square-million" => MILLION * drift * drift,
            "square-added" => -drift * drift,
            _ => drift * drift,
        };
        let coefficient = 4 * MILLION * MILLION - 4 * MILLION * drift - square;
        let product = match self.how {
            "rates" => 2 * precision * (2 * MILLION - drift) * MILLION,
            _ => 2 * precision * (2 * MILLION + drift) * MILLION,
        };
        match self.how {
            "least-down" => product.div_euclid(coefficient).max(1),
            "zero" => -(-product).div_euclid(coefficient),
            "precision" => precision.max(1),
            _ => (-(-product).div_euclid(coefficient)).max(1),
        }
    }
}
