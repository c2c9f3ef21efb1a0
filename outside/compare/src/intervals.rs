//! Inputs of the interval between rounds, and what is met of it.

use engine::{number, Spacing};
use random::Random;
use reference::{meets, stays_in_order, stays_within};

const MOST: u32 = 1_000_000;
const MOST_DRIFT: u32 = 1000;

/// What can be met.
pub const MET: [&str; 32] = [
    "the window is 0",
    "the window is 1,000,000, and an interval is granted",
    "the window is 1,000,001, and nothing else is wrong",
    "the window is above, and nothing else is wrong",
    "the precision is 0, and an interval is granted",
    "the precision is 1,000,000",
    "the precision is 1,000,001, and nothing else is wrong",
    "the precision is above, and nothing else is wrong",
    "the drift is 0, and nothing else is wrong",
    "the drift is 1, and an interval is granted",
    "the drift is 1,000, and an interval is granted",
    "the drift is 1,001, and nothing else is wrong",
    "the drift is above, and nothing else is wrong",
    "the lower 16 bits of the drift would be one",
    "two of the three are out of range",
    "all three are out of range",
    "one is out of range, and the window is not above the precision",
    "one is out of range, and the drift would eat what is left",
    "the window is below the precision",
    "the window is the precision",
    "the drift eats what is left of the window",
    "refused under 18, and granted with a window of a tick more",
    "granted, and refused under 18 with a window of a tick less",
    "granted, and refused under 18 with a precision of a tick more",
    "least and greatest are the same, above 1",
    "the least is 1",
    "ρ² decides the least",
    "ρ² ten times would decide the least",
    "the greatest uses up the window",
    "the greatest is next below 2^32, or at most 2,000,000 below",
    "the greatest is 2^32, or at most 2,000,000 above",
    "the greatest is above 2^39",
];

/// Window, precision and drift.
#[derive(Clone, Copy, Debug)]
pub struct Asked {
    pub window: u32,
    pub precision: u32,
    pub drift: u32,
}

pub struct Intervals {
    pub several_faults: u64,
    /// How often each of `MET` was met.
    pub met: [u64; MET.len()],
}

/// The least that the second inequality leaves where ρ² counts so many times, for inputs to be drawn beside it.
fn least(precision: u32, drift: u32, times: u64) -> u64 {
    let (c, r, million) = (precision as u64, drift as u64, 1_000_000);
    let coefficient = 4 * million * million - 4 * million * r - times * r * r;
    (2 * c * (2 * million + r) * million).div_ceil(coefficient).max(1)
}

/// The greatest that the first leaves where the window is so many ticks above the precision.
fn greatest(left: u32, drift: u32) -> u64 {
    left as u64 * (2_000_000 - drift as u64) / (2 * drift as u64)
}

impl Asked {
    /// In range, or damaged; answers how many inputs were.
    pub fn draw(random: &Random) -> (Asked, u64) {
        let mut asked = match random.below(12) {
            0 => Asked::ends(random),
            1 | 2 => Asked::border(random),
            3 | 4 => Asked::alone(random),
            5 => Asked::squared(random),
            6 => Asked::long(random),
            7 => Asked::small(random),
            _ => Asked::any(random),
        };
        let faults = random.pick(&[0, 0, 0, 0, 0, 0, 1, 1, 2, 3]);
        let first = random.below(3);
        for fault in 0..faults {
            asked.damage(random, (first + fault) % 3);
        }
        (asked, faults as u64)
    }

    fn any(random: &Random) -> Asked {
        let window = random.between(0, MOST as i64);
        let precision = random.pick(&[window, MOST as i64]);
        Asked {
            window: window as u32,
            precision: random.between(0, precision) as u32,
            drift: draw_drift(random),
        }
    }

    fn small(random: &Random) -> Asked {
        let up_to = |most: i64| random.between(0, most) as u32;
        Asked { window: up_to(12), precision: up_to(10), drift: draw_drift(random) }
    }

    /// At both ends of the ranges.
    fn ends(random: &Random) -> Asked {
        let end = || random.pick(&[0, 1, 2, MOST - 2, MOST - 1, MOST]);
        Asked { window: end(), precision: end(), drift: random.pick(&[1, 2, 999, 1000]) }
    }

    /// Beside the narrowest window that leaves an interval, or the widest precision.
    fn border(random: &Random) -> Asked {
        let drift = draw_drift(random);
        let precision = random.pick(&[
            random.between(0, 12),
            random.between(0, 5000),
            random.between(0, MOST as i64 - 1200),
        ]) as u32;
        let needed = 2 * drift as u64 * least(precision, drift, 1);
        let left = needed.div_ceil(2_000_000 - drift as u64) as u32;
        let window = precision + left;
        match random.below(4) {
            0 => Asked { window, precision, drift },
            1 => Asked { window: window - 1, precision, drift },
            2 => Asked { window: window + 1, precision, drift },
            _ => Asked { window, precision: precision + 1, drift },
        }
    }

    /// A precision whose least interval is the greatest, or beside that.
    fn alone(random: &Random) -> Asked {
        let drift = draw_drift(random);
        let left = random.between(1, random.pick(&[1, 3, drift as i64 * 99 / 100]).max(1)) as u32;
        let only = greatest(left, drift);
        let mut precision = only.min(MOST as u64 - left as u64) as u32;
        while precision > 0 && least(precision, drift, 1) > only {
            precision -= 1;
        }
        let precision = random.pick(&[precision, precision, precision + 1]);
        Asked { window: (precision + left).min(MOST), precision, drift }
    }

    /// The least interval is another without ρ², or where it counts otherwise.
    fn squared(random: &Random) -> Asked {
        let drift = random.between(500, 1000) as u32;
        let times = random.pick(&[0, 0, 2, 10]);
        let differs = |c: &u32| least(*c, drift, 1) != least(*c, drift, times);
        let start = random.between(300_000, 990_000) as u32;
        let precision = (start..start + 200).find(differs).unwrap_or(start);
        let left = random.between(2000, MOST as i64 - precision as i64);
        Asked { window: precision + left as u32, precision, drift }
    }

    /// The greatest interval is beside 2^32, or far above.
    fn long(random: &Random) -> Asked {
        let drift = random.between(1, 200) as u32;
        let at = (1 << 32) * 2 * drift as u64 / (2_000_000 - drift as u64);
        let left = random.pick(&[at, at + 1, at + 2, MOST as u64]).min(MOST as u64) as u32;
        let precision = random.between(0, (MOST - left) as i64) as u32;
        let drift = if left == MOST { random.pick(&[1, drift]) } else { drift };
        Asked { window: precision + left, precision, drift }
    }

    /// Puts the window, the precision or the drift out of its range.
    fn damage(&mut self, random: &Random, which: usize) {
        let any = random.draw() as u32;
        let over =
            random.pick(&[MOST + 1, MOST + 1, 1 << 20, 1 << 31, u32::MAX, any.max(MOST + 1)]);
        let wrapped = (1 << 16) * random.pick(&[1, 2, 65_535]) + draw_drift(random);
        match which {
            0 => self.window = over,
            1 => self.precision = over,
            _ => self.drift = random.pick(&[0, 0, 1001, 1001, wrapped, u32::MAX, any.max(1001)]),
        }
    }

    /// Whether an interval may be granted, and its ends are those of the inequalities themselves.
    pub fn holds(&self, given: &Spacing) -> bool {
        let Asked { window, precision, drift } = *self;
        if self.out_of_range().contains(&true) {
            return false;
        }
        let meets = |interval: u64| meets(window, precision, drift, interval);
        let Spacing { least, greatest, .. } = *given;
        let inside = 1 <= least && least <= greatest && greatest < u64::MAX;
        inside
            && meets(least)
            && meets(greatest)
            && !meets(greatest + 1)
            && (least == 1 || !meets(least - 1))
    }

    fn out_of_range(&self) -> [bool; 3] {
        let drift = (1..=MOST_DRIFT).contains(&self.drift);
        [self.window > MOST, self.precision > MOST, !drift]
    }

    /// Whether there is an interval.
    fn is_granted(&self) -> bool {
        reference::interval(self.window, self.precision, self.drift).is_ok()
    }
}

/// A drift, often at an end.
fn draw_drift(random: &Random) -> u32 {
    random.pick(&[
        1,
        1000,
        random.between(1, 12),
        random.between(900, 1000),
        random.between(1, 1000),
    ]) as u32
}

impl Intervals {
    pub fn new() -> Intervals {
        Intervals { several_faults: 0, met: [0; MET.len()] }
    }

    /// Counts what is met of an answer.
    pub fn count(&mut self, asked: &Asked, faults: u64, given: &Spacing) {
        self.several_faults += (faults > 1) as u64;
        let met =
            [of_ranges(asked, given), of_faults(asked), of_18(asked, given), of_ends(asked, given)];
        for (times, met) in self.met.iter_mut().zip(met.concat()) {
            *times += met as u64;
        }
    }
}

/// The first fourteen of `MET`.
fn of_ranges(asked: &Asked, given: &Spacing) -> Vec<bool> {
    let Asked { window, precision, drift } = *asked;
    let granted = number(given.answer) == 0;
    let alone = |which: usize| {
        let out = asked.out_of_range();
        (0..3).all(|input| out[input] == (input == which))
    };
    vec![
        window == 0,
        window == MOST && granted,
        window == MOST + 1 && alone(0),
        window > MOST + 1 && alone(0),
        precision == 0 && granted,
        precision == MOST && !asked.out_of_range().contains(&true),
        precision == MOST + 1 && alone(1),
        precision > MOST + 1 && alone(1),
        drift == 0 && alone(2),
        drift == 1 && granted,
        drift == MOST_DRIFT && granted,
        drift == MOST_DRIFT + 1 && alone(2),
        drift > MOST_DRIFT + 1 && alone(2),
        drift > MOST_DRIFT && alone(2) && (1..=1000).contains(&(drift as u16)),
    ]
}

/// The next four.
fn of_faults(asked: &Asked) -> Vec<bool> {
    let Asked { window, precision, drift } = *asked;
    let faults = asked.out_of_range().into_iter().filter(|&out| out).count();
    let near = (1..=2 * MOST_DRIFT).contains(&drift) && precision < window && window <= 2 * MOST;
    let eaten = || greatest(window - precision, drift) < least(precision, drift, 1);
    vec![
        faults == 2,
        faults == 3,
        faults == 1 && window <= precision,
        faults == 1 && near && eaten(),
    ]
}

/// The next six.
fn of_18(asked: &Asked, given: &Spacing) -> Vec<bool> {
    let Asked { window, precision, drift } = *asked;
    let refused = number(given.answer) == 18;
    let granted = number(given.answer) == 0;
    let wider = Asked { window: window.saturating_add(1).min(MOST), ..*asked };
    vec![
        refused && window < precision,
        refused && window == precision,
        refused && window > precision,
        refused && window >= precision && wider.is_granted(),
        granted && !stays_within(window - 1, precision, drift, given.least),
        granted && !stays_in_order(precision + 1, drift, given.greatest),
    ]
}

/// The last eight.
fn of_ends(asked: &Asked, given: &Spacing) -> Vec<bool> {
    let Asked { window, precision, drift } = *asked;
    if number(given.answer) != 0 {
        return vec![];
    }
    let Spacing { least: lowest, greatest: highest, .. } = *given;
    let decides = |times: u64| least(precision, drift, times) != lowest;
    let used_up =
        2 * drift as u64 * highest == (window - precision) as u64 * (2_000_000 - drift as u64);
    let near = 2_000_000;
    vec![
        lowest == highest && lowest > 1,
        lowest == 1,
        decides(0),
        decides(10),
        used_up,
        ((1 << 32) - near..1 << 32).contains(&highest),
        (1 << 32..(1 << 32) + near).contains(&highest),
        highest > 1 << 39,
    ]
}
