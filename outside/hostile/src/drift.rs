//! Two sound clocks between rounds: paper 6 of document 02, in the station of document 004, section 4.1. Nothing is
//! rounded: ticks, true time and rates are fractions.
//!
//! A sound clock's rate is within half the drift of 1. It may vary: what a clock has gone after some time is what its mean
//! rate gives. A round leaves two clocks up to the precision apart. Until the slower one has gone R ticks, they must not
//! be further apart than the window. Both start the next round at the same reading, R ticks on for the one that is ahead;
//! the last must start it at most R ticks of true time after the first.

use crate::run::{hold, Tally};
use engine::{number, words, Engine, Spacing};
use random::Random;
use reference::Fraction;

/// Where the limits begin: of how far apart the clocks are, and of how long after the first the last starts.
pub const FIRST: usize = 42;

/// Window, precision and drift of the table.
pub const EXAMPLES: [Asked; 6] = [
    asked(1, 0, 1),
    asked(998, 997, 1000),
    asked(167_772, 41_944, 100),
    asked(1_000_000, 998_998, 1000),
    asked(1_000_000, 500_000, 1),
    asked(1_000_000, 0, 1),
];

#[derive(Clone, Copy, Debug, PartialEq, Eq)]
pub struct Asked {
    pub window: u32,
    pub precision: u32,
    pub drift: u32,
}

const fn asked(window: u32, precision: u32, drift: u32) -> Asked {
    Asked { window, precision, drift }
}

/// What was met at an example, in parts of a tick: see `parts`.
#[derive(Clone, Copy, Debug, Default, PartialEq, Eq)]
pub struct Row {
    pub least: u64,
    pub greatest: u64,
    /// How far apart the clocks were with the greatest interval, and are at worst with one more.
    pub gap: i128,
    pub gap_past: i128,
    /// How late the last started with the least interval, and does at worst with one less, where that is one.
    pub late: i128,
    pub late_past: Option<i128>,
    /// How long before that the first starts its next round with the least interval, where its clock stays as it is.
    pub early: i128,
}

/// Parts of a tick in the table.
const PARTS: i128 = 10_000_000;

/// A fraction in whole parts, those below it.
pub fn parts(ticks: Fraction) -> i128 {
    (ticks * Fraction::whole(PARTS)).floor()
}

/// Parts as ticks with a point.
pub fn in_ticks(parts: i128) -> String {
    format!("{}.{:07}", parts / PARTS, parts % PARTS)
}

#[derive(Default)]
pub struct Drifted {
    /// Intervals granted, and those that are none, or refused under 17.
    pub granted: u64,
    pub misgranted: u64,
    /// Refusals under 18, and those where there is an interval.
    pub refused: u64,
    pub misrefused: u64,
    /// How often the worst clocks pass the window a tick above the greatest interval, and do not.
    pub past_window: u64,
    pub not_past_window: u64,
    /// How often the worst clocks break the order a tick below the least, and do not.
    pub past_order: u64,
    pub not_past_order: u64,
    pub rows: [Option<Row>; EXAMPLES.len()],
}

impl Drifted {
    /// What is counted beside the limits: how often it was seen, how often it was broken, and its name.
    pub fn counted(&self) -> [(u64, u64, &'static str); 4] {
        [
            (self.granted, self.misgranted, "drift    an interval is granted"),
            (self.refused, self.misrefused, "drift    none is left where none is granted"),
            (self.past_window, self.not_past_window, "drift    the window is passed a tick above"),
            (self.past_order, self.not_past_order, "drift    the order is broken a tick below"),
        ]
    }
}

/// Ticks that are taken off each limit.
#[derive(Clone, Copy, Default)]
pub struct Less {
    pub gap: i64,
    pub late: i64,
}

/// Two clocks after a round: their rates, and how many ticks the first is ahead.
#[derive(Clone, Copy)]
pub struct Clocks {
    ahead: Fraction,
    behind: Fraction,
    apart: u32,
}

fn whole(number: u64) -> Fraction {
    Fraction::whole(number)
}

/// 1, and so many halves of a millionth.
fn rate(halves: i64) -> Fraction {
    Fraction::new(2_000_000 + halves as i128, 2_000_000)
}

impl Clocks {
    /// Any rates, most often the slowest and the fastest.
    fn draw(random: &Random, asked: &Asked) -> Clocks {
        let drift = asked.drift as i64;
        let draw_rate = || rate(random.pick(&[-drift, drift, 0, random.between(-drift, drift)]));
        if random.percent(30) {
            return Clocks::worst(asked);
        }
        let apart = random.pick(&[0, asked.precision, asked.precision]);
        Clocks {
            ahead: draw_rate(),
            behind: draw_rate(),
            apart: random.pick(&[apart, random.between(0, asked.precision as i64) as u32]),
        }
    }

    /// The fastest is ahead by all that a round leaves.
    pub fn worst(asked: &Asked) -> Clocks {
        let drift = asked.drift as i64;
        Clocks { ahead: rate(drift), behind: rate(-drift), apart: asked.precision }
    }

    /// How far apart the clocks are after some true time.
    fn apart_after(&self, time: Fraction) -> Fraction {
        (Fraction::whole(self.apart) + (self.ahead - self.behind) * time).size()
    }

    /// When the slower one has gone R ticks.
    fn end(&self, interval: u64) -> Fraction {
        let slower = if self.ahead < self.behind { self.ahead } else { self.behind };
        whole(interval) / slower
    }

    /// How far apart they are then.
    pub fn gap(&self, interval: u64) -> Fraction {
        self.apart_after(self.end(interval))
    }

    /// When the one that is ahead starts the next round, and when the other does.
    fn starts(&self, interval: u64) -> [Fraction; 2] {
        let to_go = whole(interval) + Fraction::whole(self.apart);
        [whole(interval) / self.ahead, to_go / self.behind]
    }

    /// How long after the first the last starts it.
    pub fn late(&self, interval: u64) -> Fraction {
        let [ahead, behind] = self.starts(interval);
        (behind - ahead).size()
    }

    /// How long before that the one that is ahead has gone R ticks again; below 0 where that is after.
    fn early(&self, interval: u64) -> Fraction {
        let [ahead, behind] = self.starts(interval);
        behind - ahead - whole(interval) / self.ahead
    }
}

impl Asked {
    /// In range. Often the drift nearly eats what is left of the window, or does.
    pub fn draw(random: &Random) -> Asked {
        let drift = random.pick(&[1, 1000, random.between(1, 1000), random.between(900, 1000)]);
        let most = 1_000_000;
        let precision = random.pick(&[
            0,
            random.between(0, 12),
            random.between(0, 1000),
            random.between(0, most),
            random.between(most - 2000, most),
        ]);
        let left = match random.below(8) {
            0 => random.between(-2, 2),
            1 => random.between(-precision, 0),
            2 => random.between(0, most),
            3 => most,
            4 => 1,
            _ => precision * drift / 999_000 + random.between(0, 2),
        };
        match random.percent(30) {
            true => random.pick(&EXAMPLES),
            false => {
                let window = (precision + left).clamp(0, most);
                asked(window as u32, precision as u32, drift as u32)
            }
        }
    }

    /// Asks for an interval, lets clocks go for the least, the greatest and one between, and holds the limits.
    pub fn round(
        &self,
        random: &Random,
        engine: &dyn Engine,
        less: Less,
        tally: &mut Tally,
        show: bool,
    ) {
        let given = engine.interval(self.window, self.precision, self.drift);
        if show {
            println!("interval: {self:?}: {given:?}");
        }
        match (number(given.answer), given.least, given.greatest) {
            (0, 1.., 1..) if given.least <= given.greatest => {
                tally.drifted.granted += 1;
                self.hold_intervals(random, &given, less, tally);
                self.hold_outside(&given, tally);
            }
            (18, ..) => {
                tally.drifted.refused += 1;
                if let Some(interval) = self.granted_at_worst() {
                    tally.drifted.misrefused += 1;
                    tally.broken(|| format!("{self:?}: refused 18, and {interval} is one"));
                }
            }
            _ => {
                tally.drifted.misgranted += 1;
                tally.broken(|| format!("{self:?}: {}, {given:?}", words(given.answer)));
            }
        }
    }

    fn hold_intervals(&self, random: &Random, given: &Spacing, less: Less, tally: &mut Tally) {
        let Spacing { least, greatest, .. } = *given;
        let between = random.between(least as i64, greatest as i64) as u64;
        for interval in [least, greatest, between] {
            let clocks = Clocks::draw(random, self);
            let (end, part) = (clocks.end(interval), Fraction::new(random.between(0, 7).into(), 8));
            for time in [end, end * part] {
                let gap = clocks.apart_after(time).ceiling() as i64;
                hold(tally, FIRST, gap, self.window as i64 - less.gap, 0);
            }
            let late = clocks.late(interval).ceiling() as i64;
            hold(tally, FIRST + 1, late, interval as i64 - less.late, 0);
            self.count_row(given, interval, &clocks, tally);
        }
    }

    /// A tick above the greatest, and a tick below the least.
    fn hold_outside(&self, given: &Spacing, tally: &mut Tally) {
        let worst = Clocks::worst(self);
        let more = given.greatest + 1;
        if worst.gap(more) > Fraction::whole(self.window) {
            tally.drifted.past_window += 1;
        } else {
            tally.drifted.not_past_window += 1;
            tally.broken(|| format!("{self:?}: {given:?}, and {more} stays within the window"));
        }
        let fewer = given.least - 1;
        if fewer > 0 && worst.late(fewer) > whole(fewer) {
            tally.drifted.past_order += 1;
        } else if fewer > 0 {
            tally.drifted.not_past_order += 1;
            tally.broken(|| format!("{self:?}: {given:?}, and {fewer} stays in order"));
        }
    }

    /// The greatest interval with which the worst clocks stay within the window, if they stay in order too: once they
    /// pass the window, they do with all above, and once they are in order, they are.
    pub fn granted_at_worst(&self) -> Option<u64> {
        let worst = Clocks::worst(self);
        let within = |interval: u64| worst.gap(interval) <= Fraction::whole(self.window);
        let (mut low, mut high) = (0, 1 << 40);
        while high - low > 1 {
            let middle = (low + high) / 2;
            *(if within(middle) { &mut low } else { &mut high }) = middle;
        }
        (low > 0 && worst.late(low) <= whole(low)).then_some(low)
    }

    fn count_row(&self, given: &Spacing, interval: u64, clocks: &Clocks, tally: &mut Tally) {
        let Some(place) = EXAMPLES.iter().position(|row| row == self) else { return };
        let row = tally.drifted.rows[place].get_or_insert_with(|| self.row(given));
        if interval == given.greatest {
            row.gap = row.gap.max(parts(clocks.gap(interval)));
        }
        if interval == given.least {
            row.late = row.late.max(parts(clocks.late(interval)));
            row.early = row.early.max(parts(clocks.early(interval)));
        }
    }

    /// The row of an example before anything was met.
    fn row(&self, given: &Spacing) -> Row {
        let worst = Clocks::worst(self);
        let fewer = given.least - 1;
        Row {
            least: given.least,
            greatest: given.greatest,
            gap_past: parts(worst.gap(given.greatest + 1)),
            late_past: (fewer > 0).then(|| parts(worst.late(fewer))),
            ..Row::default()
        }
    }

    /// What an example is to show: the sides of the paper's inequalities.
    pub fn exact_row(&self) -> Option<Row> {
        let Asked { window, precision, drift } = *self;
        let given = reference::interval(window, precision, drift).ok()?;
        let (c, rho) = (Fraction::whole(precision), Fraction::new(drift.into(), 1_000_000));
        let two = Fraction::whole(2);
        let gap = |r: u64| parts(c + two * whole(r) * rho / (two - rho));
        let fast = |r: u64| two * whole(r) / (two + rho);
        let late = |r: u64| two * (whole(r) + c) / (two - rho) - fast(r);
        let early = parts(late(given.least) - fast(given.least));
        Some(Row {
            least: given.least,
            greatest: given.greatest,
            gap: gap(given.greatest),
            gap_past: gap(given.greatest + 1),
            late: parts(late(given.least)),
            late_past: (given.least > 1).then(|| parts(late(given.least - 1))),
            early: early.max(0),
        })
    }
}

#[cfg(test)]
mod tests {
    use super::*;
    use engine::Reference;

    /// How often a station breaks each limit.
    fn broken(less: Less) -> [u64; 2] {
        let mut tally = Tally::default();
        for seed in 0..600 {
            let random = Random::new(seed);
            Asked::draw(&random).round(&random, &Reference, less, &mut tally, false);
        }
        for (seen, broken, name) in tally.drifted.counted() {
            assert!(seen > 20 && broken == 0, "{name}: {seen} {broken}");
        }
        [0, 1].map(|limit| tally.met.0[FIRST + limit].broken)
    }

    #[test]
    fn the_limits_of_paper_6_hold() {
        assert_eq!(broken(Less::default()), [0, 0]);
    }

    #[test]
    fn limits_a_tick_tighter_are_broken() {
        let [gap, late] = broken(Less { gap: 1, late: 0 });
        assert!(gap > 20 && late == 0, "finds no tick: {gap} {late}");
        let [gap, late] = broken(Less { gap: 0, late: 1 });
        assert!(gap == 0 && late > 20, "finds no tick: {gap} {late}");
    }

    /// The paper's inequalities say of an interval what the worst clocks do.
    #[test]
    fn the_worst_clocks_are_the_inequalities() {
        let random = Random::new(6);
        for _ in 0..2000 {
            let asked = Asked::draw(&random);
            let Asked { window, precision, drift } = asked;
            let worst = Clocks::worst(&asked);
            let most = random.pick(&[1200, 2_000_000, 1_000_000_000_000]);
            let given = reference::interval(window, precision, drift);
            let ends = given.map_or([1, 1], |given| [given.least, given.greatest]);
            for r in [random.between(1, most) as u64, ends[0], ends[1], ends[0] + 1, ends[1] + 1] {
                let within = worst.gap(r) <= Fraction::whole(window);
                assert_eq!(within, reference::stays_within(window, precision, drift, r));
                let in_order = worst.late(r) <= whole(r);
                assert_eq!(in_order, reference::stays_in_order(precision, drift, r));
            }
            assert_eq!(asked.granted_at_worst(), given.ok().map(|given| given.greatest));
        }
    }

    /// No clocks are further apart, or start later, than the worst.
    #[test]
    fn no_clocks_are_worse() {
        for drift in [1, 2, 3, 1000] {
            let step = drift.max(4) / 4;
            let rates = || (-drift..=drift).step_by(step as usize).map(rate);
            let asked = asked(10, 4, drift as u32);
            let worst = Clocks::worst(&asked);
            for interval in [1, 2, 5, 6000] {
                let (gap, late) = (worst.gap(interval), worst.late(interval));
                for (ahead, behind) in rates().flat_map(|a| rates().map(move |b| (a, b))) {
                    for apart in 0..=4 {
                        let clocks = Clocks { ahead, behind, apart };
                        assert!(clocks.gap(interval) <= gap && clocks.late(interval) <= late);
                    }
                }
            }
        }
    }

    /// The paper takes R ticks of the fast clock for R ticks of true time. A clock that stays fast goes them in less, and
    /// starts its next round before the last has started this one.
    #[test]
    fn a_clock_that_stays_fast_is_early() {
        let early = |asked: Asked| asked.exact_row().unwrap().early;
        assert_eq!(in_ticks(early(EXAMPLES[3])), "499.2476248");
        assert_eq!(early(EXAMPLES[1]), 0);
        for asked in EXAMPLES {
            let row = asked.exact_row().unwrap();
            let fast = whole(row.least) / rate(asked.drift as i64);
            assert!(row.early <= parts(whole(row.least) - fast));
        }
    }

    #[test]
    fn parts_of_a_tick() {
        assert_eq!(in_ticks(parts(Fraction::new(5, 4))), "1.2500000");
        assert_eq!(in_ticks(parts(Fraction::new(1, 30_000_000))), "0.0000000");
        assert_eq!(in_ticks(parts(Fraction::new(1_000_000_000_001, 1_000_000))), "1000000.0000010");
    }
}
