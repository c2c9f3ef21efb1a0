//! One round of a station by the trimming rules: paper 5 of document 02. All sound readings are present, and the others,
//! m at most, tell each sound cabinet anything.

use crate::liars::{clamp, Aim, Reading};
use crate::limits::gap;
use crate::run::{draw_settings, hold, Tally};
use engine::{number, words, Engine, Settings};
use random::Random;
use reference::{TRIMMED_MEAN, TRIMMED_MIDPOINT};

pub const RULES: [u8; 2] = [TRIMMED_MIDPOINT, TRIMMED_MEAN];

/// N, m, t and δ with which the liars can reach the limits of both rules exactly. Half of δ is odd, or δ is; tδ/(N-2m)
/// is not whole, or it is odd and N-2m even.
pub const EXAMPLES: [Example; 6] = [
    (4, 1, 1, 2),
    (7, 2, 1, 5),
    (7, 2, 2, 999_998),
    (16, 5, 5, 22),
    (10, 3, 2, 6),
    (64, 21, 21, 999_998),
];

type Example = (u8, u8, usize, u32);

/// Where the limits of these rules begin: of the gap, of how far below the highest sound reading a new value is, and
/// of how far above the lowest; each for rule 2 and for rule 3.
pub const FIRST: usize = 36;

/// How far apart two new values can be where t are faulty and the sound readings lie within δ.
pub fn most_apart(settings: &Settings, width: i64, t: usize) -> i64 {
    match settings.rule {
        TRIMMED_MIDPOINT => width / 2 + 1,
        _ => t as i64 * width / (settings.n as i64 - 2 * settings.m as i64) + 1,
    }
}

pub fn example((n, m, _, window): Example, rule: u8) -> Settings {
    Settings { n, m, rule, estimator: 0, window }
}

/// The limit of an example, by a rule.
pub fn example_limit(row: Example, rule: u8) -> i64 {
    most_apart(&example(row, rule), row.3 as i64, row.2)
}

/// Ticks that are taken off each limit of the gap, and off both ends of the range.
#[derive(Clone, Copy, Default)]
pub struct Less {
    pub gap: i64,
    pub range: i64,
}

pub struct Trimming {
    settings: Settings,
    faulty: Vec<bool>,
    /// What the sound cabinets hold.
    held: Vec<Reading>,
    /// All liars say the same to a cabinet, at or past an end of what the sound ones hold.
    united: bool,
}

/// The range of the sound readings. A faulty cabinet that told all the same may count as sound.
struct Sound {
    t: usize,
    lowest: i64,
    highest: i64,
}

impl Trimming {
    /// Settings, faulty cabinets and sound readings, which may lie further apart than the sheet's window.
    pub fn draw(random: &Random) -> Trimming {
        if random.percent(40) {
            return Trimming::draw_sharp(random);
        }
        let settings = draw_settings(random);
        let m = settings.m as usize;
        let t = random.pick(&[m, m, m, random.below(m + 1)]);
        let window = settings.window as i64;
        let width = random.pick(&[window, window, random.between(0, window), draw_wide(random)]);
        let base = draw_base(random, width);
        let reading = || base + random.pick(&[0, width, random.between(0, width)]);
        let sound: Vec<i64> = (0..settings.n as usize - t).map(|_| reading()).collect();
        Trimming::shuffled(random, settings, &sound, random.percent(20))
    }

    /// A round that reaches the limits where something can: liars at either end push m sound readings out at the
    /// other, and the sound ones that all keep read the same.
    fn draw_sharp(random: &Random) -> Trimming {
        let (settings, t) = if random.percent(50) {
            let row = random.pick(&EXAMPLES);
            (example(row, TRIMMED_MEAN), row.2)
        } else {
            let settings = draw_settings(random);
            (settings, settings.m as usize)
        };
        let width = settings.window as i64;
        let base = draw_base(random, width);
        let middle = random.pick(&[0, 1, width, random.between(0, width)]).min(width);
        let sound: Vec<i64> = sharp(&settings, t, middle).iter().map(|v| base + v).collect();
        Trimming::shuffled(random, settings, &sound, true)
    }

    fn shuffled(random: &Random, settings: Settings, sound: &[i64], united: bool) -> Trimming {
        let n = settings.n as usize;
        let mut held: Vec<Reading> = sound.iter().map(|&v| Some(clamp(v))).collect();
        held.resize(n, None);
        for c in 0..n {
            held.swap(c, random.below(n));
        }
        let faulty = held.iter().map(Option::is_none).collect();
        Trimming { settings: Settings { estimator: 0, ..settings }, faulty, held, united }
    }

    /// Each sound cabinet settles what it hears by both rules, and the limits are held.
    pub fn round(
        &self,
        random: &Random,
        engine: &dyn Engine,
        less: Less,
        tally: &mut Tally,
        show: bool,
    ) {
        let sheets = self.sheets(random);
        if show {
            let faulty: Vec<usize> = (0..self.held.len()).filter(|&c| self.faulty[c]).collect();
            println!("trimming: {:?}, faulty {faulty:?}", self.settings);
        }
        for rule in RULES {
            let settings = Settings { rule, ..self.settings };
            let mut values = Vec::new();
            for sheet in &sheets {
                let settled = new_value(random, &settings, sheet, engine);
                if show {
                    let new = settled.map_or_else(words, |value| value.to_string());
                    println!("rule {rule}: {sheet:?}: {new}");
                }
                match settled {
                    Ok(value) => values.push(value as i64),
                    Err(answer) => {
                        tally.refused_by_trimming += 1;
                        tally.broken(|| format!("rule {rule}: {}", words(answer)));
                    }
                }
            }
            tally.settled_by_trimming += values.len() as u64;
            for sound in self.sound(&sheets) {
                hold_limits(&settings, &sound, &values, less, tally);
            }
        }
    }

    /// What some sound cabinets hear, each of them something else.
    fn sheets(&self, random: &Random) -> Vec<Vec<Reading>> {
        let sound: Vec<i64> = self.held.iter().flatten().map(|&v| v as i64).collect();
        let (low, high) = (sound.iter().min().unwrap(), sound.iter().max().unwrap());
        let cabinets = random.pick(&[2, 2, 3, 4]).min(sound.len());
        let aim = |p: usize| match p {
            0 => Aim::Low,
            1 => Aim::High,
            _ => random.pick(&[Aim::Low, Aim::High, Aim::Any]),
        };
        let sheet = |p: usize| {
            let aim = aim(p);
            let together = lie(random, aim, *low, *high);
            let said = || if self.united { together } else { lie(random, aim, *low, *high) };
            let heard = |c: usize| if self.faulty[c] { said() } else { self.held[c] };
            (0..self.held.len()).map(heard).collect()
        };
        (0..cabinets).map(sheet).collect()
    }

    /// The sound cabinets, and these with such as told all the same.
    fn sound(&self, sheets: &[Vec<Reading>]) -> [Sound; 2] {
        let told_alike =
            |c: usize| sheets[0][c].is_some() && sheets.iter().all(|s| s[c] == sheets[0][c]);
        let of = |set: Vec<usize>| {
            let values = || set.iter().filter_map(|&c| sheets[0][c]).map(i64::from);
            Sound {
                t: self.held.len() - set.len(),
                lowest: values().min().unwrap(),
                highest: values().max().unwrap(),
            }
        };
        let all = 0..self.held.len();
        [
            of(all.clone().filter(|&c| !self.faulty[c]).collect()),
            of(all.filter(|&c| !self.faulty[c] || told_alike(c)).collect()),
        ]
    }
}

/// What the sound cabinets hold above a base where liars reach the limits: m at either end, of which a cabinet drops all,
/// or m-t where the liars stand at that end; and between these what all keep.
pub fn sharp(settings: &Settings, t: usize, middle: i64) -> Vec<i64> {
    let (n, m) = (settings.n as usize, settings.m as usize);
    let reading = |i: usize| match i {
        i if i < m => 0,
        i if i < n - t - m => middle,
        _ => settings.window as i64,
    };
    (0..n - t).map(reading).collect()
}

/// Nothing, or a reading at or past an end.
fn lie(random: &Random, aim: Aim, low: i64, high: i64) -> Reading {
    let value = match aim {
        Aim::Low => random.pick(&[low, low - 1, low - 1000, i32::MIN as i64]),
        Aim::High => random.pick(&[high, high + 1, high + 1000, i32::MAX as i64]),
        Aim::Any if random.percent(20) => return None,
        Aim::Any => random.pick(&[low, high, random.between(low, high), random.draw() as i64]),
    };
    let missing = match aim {
        Aim::Low => low > 0,
        Aim::High => high < 0,
        Aim::Any => true,
    };
    if missing && random.percent(30) {
        return None;
    }
    Some(clamp(value))
}

/// A width of any 32 bits.
fn draw_wide(random: &Random) -> i64 {
    random.pick(&[u32::MAX as i64, random.between(0, u32::MAX as i64)])
}

/// The lowest sound reading: often beside 0, sometimes at an end of 32 bits.
fn draw_base(random: &Random, width: i64) -> i64 {
    let (lowest, highest) = (i32::MIN as i64, i32::MAX as i64 - width);
    match random.below(6) {
        0 => lowest,
        1 => highest,
        2 => random.between(lowest, highest),
        _ => random.between(-20, 20).min(highest),
    }
}

/// Settles a sheet over a tray with old contents. The new value, or the refusal.
fn new_value(
    random: &Random,
    settings: &Settings,
    entries: &[Reading],
    engine: &dyn Engine,
) -> Result<i32, u64> {
    let (marks, readings) = reference::marks_and_readings(entries);
    let sheet = reference::sheet_bytes(settings, &marks, &readings);
    let mut tray = [random.draw() as u8; 330];
    let answer = engine.settle(&sheet, &mut tray);
    match number(answer) {
        0 => Ok(i32::from_le_bytes(tray[6..10].try_into().unwrap())),
        _ => Err(answer),
    }
}

fn hold_limits(settings: &Settings, sound: &Sound, values: &[i64], less: Less, tally: &mut Tally) {
    let (width, rule) = (sound.highest - sound.lowest, (settings.rule - RULES[0]) as usize);
    let most = most_apart(settings, width, sound.t) - less.gap;
    hold(tally, FIRST + rule, gap(values), most, 0);
    for &value in values {
        hold(tally, FIRST + 2 + rule, sound.highest - value, width - less.range, 0);
        hold(tally, FIRST + 4 + rule, value - sound.lowest, width - less.range, 0);
    }
    let mine = (settings.n, settings.m, sound.t, width as u32);
    if let Some(row) = EXAMPLES.iter().position(|&row| row == mine) {
        let met = &mut tally.trims[row][rule];
        *met = (*met).max(Some(gap(values)));
    }
}

#[cfg(test)]
mod tests {
    use super::*;
    use engine::Reference;

    /// How often a station of some rounds breaks each limit.
    fn broken(less: Less) -> [u64; 6] {
        let mut tally = Tally::default();
        for seed in 0..600 {
            let random = Random::new(seed);
            Trimming::draw(&random).round(&random, &Reference, less, &mut tally, false);
        }
        assert!(tally.settled_by_trimming > 2400 && tally.refused_by_trimming == 0);
        [0, 1, 2, 3, 4, 5].map(|limit| tally.met.0[FIRST + limit].broken)
    }

    #[test]
    fn the_limits_of_paper_5_hold() {
        assert_eq!(broken(Less::default()), [0; 6]);
    }

    #[test]
    fn gaps_a_tick_less_are_broken() {
        let [rule_2, rule_3, range @ ..] = broken(Less { gap: 1, range: 0 });
        assert!(rule_2 > 20 && rule_3 > 20, "finds no tick: {rule_2} {rule_3}");
        assert_eq!(range, [0; 4]);
    }

    #[test]
    fn a_range_a_tick_narrower_is_broken() {
        let [_, _, range @ ..] = broken(Less { gap: 0, range: 1 });
        assert!(range.iter().all(|&broken| broken > 20), "finds no tick: {range:?}");
    }

    /// Half of δ, and tδ/(N-2m), are not enough: halves go apart, and a mean is rounded.
    #[test]
    fn limits_of_the_examples() {
        let limits = EXAMPLES.map(|row| RULES.map(|rule| example_limit(row, rule)));
        assert_eq!(limits[0], [2, 2], "2/2 and 2/2");
        assert_eq!(limits[1], [3, 2], "5/2 and 5/3");
        assert_eq!(limits[4], [4, 4], "6/2 and 12/4");
        assert_eq!(limits[5], [500_000, 954_544], "999998/2 and 20999958/22");
    }

    /// More liars than planned for leave the range, so it is held where t ≤ m alone.
    #[test]
    fn two_liars_where_one_is_planned_for() {
        let settings = Settings { n: 4, m: 1, rule: TRIMMED_MEAN, estimator: 0, window: 0 };
        let heard = [Some(0), Some(0), Some(100), Some(100)];
        assert_eq!(reference::trim(&settings, &heard).new, 50);
    }
}
