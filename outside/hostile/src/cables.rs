//! One round of a station whose cables differ, by FCA with a spread: paper 2 of document 02. Each sound
//! cabinet reads the good ones in its own way, and the bad ones tell each of them anything.

use crate::liars::{clamp, Aim, Liars, Reading};
use crate::limits::{gap, Apart, GoodSets, Most};
use crate::run::{draw_settings, hold, hold_ceiling, new_value, Tally, ODD_CABLES};
use engine::{words, Engine, Settings};
use random::Random;
use reference::{FCA, MEDIAN};

/// N, m, δ and D with which m liars can reach both limits exactly, but for the odd N, whose gap ends at the
/// ceiling. The first is document 02's; with the other even N the quotient is whole and odd.
pub const EXAMPLES: [Example; 6] = [
    (4, 1, 1, 2),
    (4, 1, 0, 2),
    (4, 1, 100_002, 100_000),
    (7, 2, 167_000, 1_000),
    (16, 5, 16_008, 160),
    (64, 21, 1_000_000, 100_000),
];

type Example = (u8, u8, u32, u32);

/// How the good cabinets are read.
#[derive(Clone, Copy)]
enum Style {
    /// All alike at a cabinet, and a spread apart at two of them.
    Alike,
    /// With one shift for all that a cabinet reads.
    OneShift,
    /// The same, one of them at the low end of δ + D and all others at its high end.
    OneLow,
    /// With a shift for each reading, of values within δ.
    OwnShifts,
    /// With a shift for each reading, of values within δ + D, as far as that span allows.
    InOneSpan,
}

const STYLES: [Style; 5] =
    [Style::Alike, Style::OneShift, Style::OneLow, Style::OwnShifts, Style::InOneSpan];

/// The limits where t are bad.
pub type Limits = fn(&Settings, u32, usize) -> Most;

pub struct Cables {
    settings: Settings,
    spread: u32,
    accuracy: u32,
    bad: Vec<bool>,
    /// What some sound cabinets read, each in its own way: of each good one a reading, of bad ones nothing yet.
    read: Vec<Vec<Reading>>,
    /// The liars act as one: see `Liars`.
    united: bool,
}

pub fn example((n, m, window, spread): Example) -> (Settings, u32) {
    (Settings { n, m, rule: FCA, estimator: MEDIAN, window }, spread)
}

/// What m liars can reach.
pub fn exact_example(row: Example) -> Most {
    let ((settings, spread), t) = (example(row), row.1 as usize);
    let gap = Apart::with_cables(&settings, spread, t).exact();
    Most::of_cables(&settings, spread, t, gap)
}

/// Which of `EXAMPLES` these are.
pub fn example_row(settings: &Settings, spread: u32) -> Option<usize> {
    let Settings { n, m, window, .. } = *settings;
    EXAMPLES.iter().position(|&row| row == (n, m, window, spread))
}

impl Cables {
    /// Settings, and what is read of good cabinets.
    pub fn draw(random: &Random) -> Cables {
        if random.percent(30) {
            return Cables::draw_sharp(random);
        }
        let settings = Settings { rule: FCA, ..draw_settings(random) };
        let spread = draw_spread(random, &settings);
        let m = settings.m as usize;
        let t = random.pick(&[m, m, m, random.below(m + 1)]);
        Cables::with(random, settings, spread, t, random.pick(&STYLES), random.percent(30))
    }

    /// What document 02 writes of Lemma 16: all good readings alike at a cabinet, and a spread apart at
    /// two of them. And what makes the sum of distances the greatest, where liars aim high: one good reading
    /// at the low end of a span, the others at its high end.
    fn draw_sharp(random: &Random) -> Cables {
        let (settings, spread) = if random.percent(60) {
            example(random.pick(&EXAMPLES))
        } else {
            let settings = Settings { rule: FCA, ..draw_settings(random) };
            (settings, draw_spread(random, &settings))
        };
        let style = random.pick(&[Style::Alike, Style::Alike, Style::OneLow]);
        Cables::with(random, settings, spread, settings.m as usize, style, true)
    }

    fn with(
        random: &Random,
        settings: Settings,
        spread: u32,
        t: usize,
        style: Style,
        united: bool,
    ) -> Cables {
        let n = settings.n as usize;
        let mut bad: Vec<bool> = (0..n).map(|c| c < t).collect();
        for c in 0..n {
            bad.swap(c, random.below(n));
        }
        let cabinets = random.pick(&[2, 2, 3, 4]).min(n - t);
        let good = draw_good(random, &settings, spread, style, n - t, cabinets);
        let least = (gap(&good.concat()) + 1) / 2;
        let accuracy =
            random.pick(&[least, least, least + 1, least + spread as i64, 1_000_000_000]);
        let as_read = |good: &Vec<i64>| {
            let mut good = good.iter();
            let reading = |&bad: &bool| match bad {
                true => None,
                false => good.next().map(|&v| clamp(v)),
            };
            bad.iter().map(reading).collect()
        };
        let read = good.iter().map(as_read).collect();
        Cables { settings, spread, accuracy: accuracy as u32, bad, read, united }
    }

    fn span(&self) -> i64 {
        self.settings.window as i64 + self.spread as i64
    }

    /// Settles what each cabinet reads, and holds the limits.
    pub fn round(
        &self,
        random: &Random,
        engine: &dyn Engine,
        limits: Limits,
        tally: &mut Tally,
        show: bool,
    ) {
        if show {
            let Cables { settings, spread, accuracy, .. } = self;
            let bad: Vec<usize> = (0..self.bad.len()).filter(|&c| self.bad[c]).collect();
            println!("cables: {settings:?}, spread {spread}, κ {accuracy}, bad {bad:?}");
        }
        let sheets = self.sheets(random);
        let mut values = Vec::new();
        for sheet in &sheets {
            let settle =
                |sheet: &[u8], tray: &mut [u8]| engine.settle_spread(sheet, self.spread, tray);
            let cables = Some(self.spread);
            let settled = new_value(random, &self.settings, cables, sheet, tally, settle);
            if show {
                println!("{sheet:?}: {}", settled.map_or_else(words, |value| value.to_string()));
            }
            match settled {
                Ok(value) => values.push(value as i64),
                Err(answer) => {
                    tally.refused_with_cables += 1;
                    tally.broken(|| format!("cables: {}", words(answer)));
                }
            }
        }
        tally.settled_with_cables += values.len() as u64;
        self.hold_limits(&sheets, &values, limits, tally);
    }

    /// What each cabinet reads of all.
    fn sheets(&self, random: &Random) -> Vec<Vec<Reading>> {
        let wide = Settings { window: self.span() as u32, ..self.settings };
        let sheet = |(p, read): (usize, &Vec<Reading>)| {
            let aim = match p {
                0 => Aim::Low,
                1 => Aim::High,
                _ => random.pick(&[Aim::Low, Aim::High, Aim::Any]),
            };
            Liars::new(random, &wide, &self.bad, read, self.united).direct(aim)
        };
        self.read.iter().enumerate().map(sheet).collect()
    }

    fn hold_limits(
        &self,
        sheets: &[Vec<Reading>],
        values: &[i64],
        limits: Limits,
        tally: &mut Tally,
    ) {
        let start = self.accuracy as i64;
        for set in self.good_sets(sheets) {
            let most = limits(&self.settings, self.spread, set.t);
            let error = values.iter().map(|&value| set.error(value, start)).max();
            let met = Most { gap: gap(values), error: error.unwrap_or(start) - start };
            hold(tally, 20, met.gap, most.gap, 0);
            hold(tally, 21, start + met.error, start + most.error, start);
            let apart = Apart::with_cables(&self.settings, self.spread, set.t);
            hold_ceiling(tally, ODD_CABLES, met.gap, apart);
            let by_lemma_16 = Most::by_lemma_16(&self.settings, self.spread, set.t);
            tally.past_lemma_16 += (met.gap > by_lemma_16.gap) as u64;
            self.count_example(set.t, met, tally);
        }
    }

    fn count_example(&self, t: usize, met: Most, tally: &mut Tally) {
        let mine = example_row(&self.settings, self.spread);
        if let (Some(row), true) = (mine, t == self.settings.m as usize) {
            let most = tally.examples[row].get_or_insert(met);
            *most = most.or_greater(met.gap, met.error);
        }
    }

    /// The good cabinets as they were drawn, and these with bad ones that happen to be read as good ones are.
    fn good_sets(&self, sheets: &[Vec<Reading>]) -> [GoodSets; 2] {
        let (bad, drawn): (Vec<usize>, Vec<usize>) =
            (0..self.bad.len()).partition(|&c| self.bad[c]);
        assert!(self.are_good(&drawn, sheets), "good ones are read as document 02 says");
        let mut larger = drawn.clone();
        for c in bad {
            larger.push(c);
            if !self.are_good(&larger, sheets) {
                larger.pop();
            }
        }
        [drawn, larger].map(|set| {
            let all = || sheets.iter().flat_map(|sheet| set.iter().filter_map(|&c| sheet[c]));
            let (lowest, highest) = (all().min().unwrap_or(0), all().max().unwrap_or(0));
            let t = self.bad.len() - set.len();
            GoodSets { t, lowest_high: highest as i64, highest_low: lowest as i64 }
        })
    }

    /// Whether these cabinets are read as good ones are: at each cabinet within δ + D of each other, each
    /// of them everywhere within D, and all of it within κ of one true value.
    fn are_good(&self, set: &[usize], sheets: &[Vec<Reading>]) -> bool {
        let present = |&c: &usize| sheets.iter().all(|sheet| sheet[c].is_some());
        let alike = |&c: &usize| apart(sheets.iter().map(|sheet| sheet[c])) <= self.spread as i64;
        let near = |sheet: &Vec<Reading>| apart(set.iter().map(|&c| sheet[c])) <= self.span();
        let all = sheets.iter().flat_map(|sheet| set.iter().map(|&c| sheet[c]));
        set.iter().all(present)
            && set.iter().all(alike)
            && sheets.iter().all(near)
            && apart(all) <= 2 * self.accuracy as i64
    }
}

/// How far apart the present ones of some readings are.
fn apart(readings: impl Iterator<Item = Reading>) -> i64 {
    gap(&readings.flatten().map(i64::from).collect::<Vec<_>>())
}

fn draw_spread(random: &Random, settings: &Settings) -> u32 {
    let near_window = random.between(0, 2 * settings.window as i64) as u32;
    let drawn = match random.below(8) {
        0 => 0,
        1 => random.between(1, 3) as u32,
        2 => random.between(1, 100) as u32,
        3 => 100_000,
        4 => settings.n as u32 * random.between(1, 1000) as u32,
        5 => random.between(0, 100_000) as u32,
        _ => near_window,
    };
    drawn.min(100_000)
}

/// What so many cabinets read of so many good ones.
fn draw_good(
    random: &Random,
    settings: &Settings,
    spread: u32,
    style: Style,
    good: usize,
    cabinets: usize,
) -> Vec<Vec<i64>> {
    let (w, d) = (settings.window as i64, spread as i64);
    let base = draw_base(random, w, d);
    let up_to = |most: i64| random.pick(&[0, most, random.between(0, most)]);
    let width = match style {
        Style::Alike => 0,
        Style::OwnShifts => w,
        Style::OneShift | Style::OneLow | Style::InOneSpan => w + d,
    };
    let above = |i: usize| match style {
        Style::OneLow => width * (i > 0) as i64,
        _ => up_to(width),
    };
    let held: Vec<i64> = (0..good).map(|i| base + above(i)).collect();
    let read_at = |p: usize| {
        let shift = random.pick(&[0, d, up_to(d)]);
        let shift = [0, d].get(p).copied().unwrap_or(shift);
        let reading = |&value: &i64| match style {
            Style::Alike | Style::OneShift | Style::OneLow => value + shift,
            Style::OwnShifts => value + up_to(d),
            Style::InOneSpan => (value + up_to(d)).min(base + w + d),
        };
        held.iter().map(reading).collect()
    };
    (0..cabinets).map(read_at).collect()
}

/// The lowest good reading: often so that lies fit beside, sometimes at an end of 32 bits.
fn draw_base(random: &Random, w: i64, d: i64) -> i64 {
    let (lowest, highest) = (i32::MIN as i64, i32::MAX as i64 - w - 2 * d);
    match random.below(8) {
        0 => lowest,
        1 => highest,
        2 => lowest + w + d,
        3 => highest - w - d,
        4 => random.between(lowest, highest),
        _ => random.between(-20, 20),
    }
}

#[cfg(test)]
mod tests {
    use super::*;
    use engine::Reference;

    /// How often a station of some rounds breaks the limit of the gap, and that of the error.
    fn broken(limits: Limits) -> [u64; 2] {
        let mut tally = Tally::default();
        for seed in 0..400 {
            let random = Random::new(seed);
            Cables::draw(&random).round(&random, &Reference, limits, &mut tally, false);
        }
        assert!(tally.settled_with_cables > 800 && tally.refused_with_cables == 0);
        [20, 21].map(|limit| tally.met.0[limit].broken)
    }

    #[test]
    fn the_limits_of_document_02_hold() {
        assert_eq!(broken(Most::with_cables), [0, 0]);
    }

    /// The paper's Lemma 16 has 2δ + 2D for the hull.
    #[test]
    fn a_limit_by_lemma_16_is_broken() {
        let [gap, error] = broken(Most::by_lemma_16);
        assert!(gap > 20 && error == 0, "by Lemma 16: {gap} {error}");
    }

    #[test]
    fn limits_a_tick_tighter_are_broken() {
        let [gap, error] = broken(|settings, spread, t| {
            let most = Most::with_cables(settings, spread, t);
            Most { gap: most.gap - 1, error: most.error - 1 }
        });
        assert!(gap > 20 && error > 20, "finds no tick: {gap} {error}");
    }

    /// The limit before paper 4, which an odd N keeps.
    #[test]
    fn the_ceiling_is_broken_by_an_even_number() {
        let even = broken(|settings, spread, t| {
            let apart = Apart::with_cables(settings, spread, t);
            let gap = if settings.n % 2 == 0 { apart.ceiling() } else { apart.limit() };
            Most::of_cables(settings, spread, t, gap)
        });
        assert!(even[0] > 20 && even[1] == 0, "by the ceiling: {even:?}");
        let exact = broken(|settings, spread, t| {
            let gap = Apart::with_cables(settings, spread, t).exact();
            Most::of_cables(settings, spread, t, gap)
        });
        assert_eq!(exact, [0, 0], "the exact gap is the ceiling for an odd N");
    }

    #[test]
    fn limits_without_the_spread_are_broken() {
        let [gap, error] = broken(|settings, _, t| Most::with_cables(settings, 0, t));
        assert!(gap > 20 && error > 20, "without the spread: {gap} {error}");
    }
}
