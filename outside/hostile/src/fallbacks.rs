//! One round of a station whose cabinets fall back: paper 7 of document 02. Each sound cabinet has a CCA sheet and an FCA
//! sheet of what it heard directly, and settles the one or, after a 10, the other. The liars tell each cabinet what they
//! like, once, help some to settle by CCA, and relay nothing to others.

use crate::liars::{Aim, Liars, Reading, Told};
use crate::limits::{gap, good_sets, is_half, Apart, GoodSets, Most};
use crate::run::{draw_sharp_settings, hold, sharp, Run, Tally};
use engine::{number, words, Engine, Settings, BY_CRUSADERS, BY_DIRECT};
use random::Random;
use reference::{numbers_in, CCA, FCA, MEDIAN};

/// N, m, t and δ with which the liars can reach the exact limits: N ≤ 2m+t.
pub const EXAMPLES: [Example; 8] = [
    (4, 1, 2, 2),
    (4, 1, 2, 167_774),
    (7, 2, 3, 7),
    (7, 2, 3, 167_772),
    (7, 2, 4, 1_000_000),
    (8, 2, 4, 2),
    (10, 3, 5, 999_995),
    (64, 21, 22, 1_000_000),
];

type Example = (u8, u8, usize, u32);

/// How two cabinets settled: both by CCA, one of them, or neither.
const KINDS: usize = 3;
const MIXED: usize = 1;

/// Where the limits of a station that falls back begin, and those of each kind among them: for gaps three, one for each kind of
/// pair, and for errors two, of a cabinet that settled by CCA and of one that fell back.
const DOCUMENT_GAP: usize = 44;
const EXACT_GAP: usize = 47;
const ODD_GAP: usize = 50;
const HALF_GAP: usize = 53;
const DOCUMENT_ERROR: usize = 56;
const EXACT_ERROR: usize = 58;
const HALF_ERROR: usize = 60;
const PLANNED_GAP: usize = 62;
const PLANNED_ERROR: usize = 63;

/// What was met.
#[derive(Default)]
pub struct Fell {
    /// Cabinets that settled by CCA, that fell back, and that were refused.
    pub by_crusaders: u64,
    pub by_direct: u64,
    pub refused: u64,
    /// Refused under another number than 10.
    misrefused: u64,
    /// Where t ≤ m: cabinets that settled by CCA, and others.
    few: u64,
    few_others: u64,
    /// Where m < t: stations with a pair of each kind, and with a cabinet that is refused.
    pub stations: [u64; KINDS],
    with_a_refusal: u64,
    /// How often, with an even N, a gap of each kind passed the ceiling.
    past_ceiling: [u64; KINDS],
    /// How often a gap of mixed cabinets passed the window that is planned next.
    pub past_window: u64,
    /// What was met for each of `EXAMPLES`.
    pub rows: [Row; EXAMPLES.len()],
}

/// The greatest gap of each kind, the greatest error past κ by either sheet, and how often each kind was met.
#[derive(Clone, Copy, Default)]
pub struct Row {
    pub gaps: [Option<i64>; KINDS],
    pub errors: [Option<i64>; 2],
    pub times: [u64; KINDS],
}

impl Fell {
    /// What is counted beside the limits: how often it was seen, how often it was broken, and its name.
    pub fn counted(&self) -> Vec<(u64, u64, &'static str)> {
        vec![
            (self.few, self.few_others, "t ≤ m    nobody falls back or refuses, fallback"),
            (self.by_direct, self.misrefused, "every pair passes all checks but 10, fallback"),
            (self.stations[0], 0, "m < t    two settle by CCA, fallback"),
            (self.stations[1], 0, "m < t    one settles by CCA and one falls back"),
            (self.stations[2], 0, "m < t    two fall back"),
            (self.with_a_refusal, 0, "m < t    one is refused, fallback"),
            (self.past_ceiling[0], 0, "m < t    a gap past the ceiling, fallback by CCA"),
            (self.past_ceiling[1], 0, "m < t    a gap past the ceiling, fallback mixed"),
            (self.past_ceiling[2], 0, "m < t    a gap past the ceiling, fallback by FCA"),
            (self.past_window, 0, "m < t    a gap past the next window, fallback mixed"),
        ]
    }

    /// The examples whose exact limits were not met by all kinds.
    pub fn unmet(&self) -> impl Iterator<Item = Example> + '_ {
        let met = |row: Example, met: &Row| {
            let exact = Most::exact(&example(row), row.2);
            met.gaps == [Some(exact.gap); KINDS] && met.errors == [Some(exact.error); 2]
        };
        EXAMPLES.into_iter().zip(&self.rows).filter(move |(row, was)| !met(*row, was)).map(|x| x.0)
    }
}

pub fn example((n, m, _, window): Example) -> Settings {
    Settings { n, m, rule: CCA, estimator: MEDIAN, window }
}

/// Ticks that are taken off each limit of a gap, and of an error.
#[derive(Clone, Copy, Default)]
pub struct Less {
    pub gap: i64,
    pub error: i64,
}

pub struct Station {
    /// The settings of the CCA sheets, κ, who is faulty, and the first readings.
    run: Run,
    /// The estimator of the FCA sheets.
    estimator: u8,
    /// Each cabinet has estimators of its own.
    mixed: bool,
}

/// What the liars relay to a cabinet.
#[derive(Clone, Copy, Debug)]
enum Relays {
    Helped(Aim),
    Withheld,
}

/// The two sheets of a cabinet.
struct Sheets {
    cabinet: usize,
    crusaders: Vec<Reading>,
    direct: Vec<Reading>,
}

/// The new value of a cabinet.
struct Settled {
    /// 0 by CCA, 1 after a fallback.
    by: usize,
    value: i64,
}

impl Station {
    pub fn draw(random: &Random) -> Station {
        let run = match random.percent(50) {
            true => draw_sharp(random),
            false => Run::draw(random),
        };
        let mixed = random.percent(15);
        let estimator = random.pick(&[run.settings.estimator, MEDIAN, random.below(3) as u8]);
        let settings = Settings { rule: CCA, ..run.settings };
        Station { run: Run { settings, ..run }, estimator, mixed }
    }

    /// Each of some sound cabinets settles what it hears, and the limits are held.
    pub fn round(
        &self,
        random: &Random,
        engine: &dyn Engine,
        less: Less,
        tally: &mut Tally,
        show: bool,
    ) {
        let sets = good_sets(&self.run);
        let few_bad = sets.iter().any(|set| set.t <= self.run.settings.m as usize);
        if show {
            let faulty = (0..self.run.n()).filter(|&c| self.run.faulty[c]).collect::<Vec<_>>();
            println!(
                "fallback: {:?}, FCA by estimator {}, κ {}, faulty {faulty:?}, held {:?}",
                self.run.settings, self.estimator, self.run.accuracy, self.run.held
            );
            println!("good sets {sets:?}");
        }
        let mut settled = Vec::new();
        let mut refused = 0;
        for sheets in self.sheets(random) {
            let answer = self.settle(random, engine, &sheets);
            if show {
                let Sheets { cabinet, crusaders, direct } = &sheets;
                let shown = answer.as_ref().map_or_else(
                    |answer| words(*answer),
                    |Settled { by, value }| format!("{} at {value}", ["CCA", "FCA"][*by]),
                );
                println!("cabinet {cabinet}: {crusaders:?} and {direct:?}: {shown}");
            }
            let fell = &mut tally.fallen;
            let as_planned = matches!(answer, Ok(Settled { by: 0, .. }));
            *(if as_planned { &mut fell.few } else { &mut fell.few_others }) += few_bad as u64;
            if few_bad && !as_planned {
                tally.broken(|| format!("fallback: t ≤ m, and cabinet {} falls", sheets.cabinet));
            }
            match answer {
                Ok(one) => settled.push(one),
                Err(answer) => {
                    refused += 1;
                    tally.fallen.misrefused += (number(answer) != 10) as u64;
                    if number(answer) != 10 {
                        tally.broken(|| format!("fallback: {}", words(answer)));
                    }
                }
            }
        }
        self.count(&settled, refused, few_bad, tally);
        self.hold_limits(&sets, &settled, less, tally);
    }

    fn count(&self, settled: &[Settled], refused: u64, few_bad: bool, tally: &mut Tally) {
        let fell = &mut tally.fallen;
        let by_direct = settled.iter().filter(|one| one.by == 1).count() as u64;
        fell.by_direct += by_direct;
        fell.by_crusaders += settled.len() as u64 - by_direct;
        fell.refused += refused;
        if !few_bad {
            fell.with_a_refusal += (refused > 0) as u64;
            for (kind, gap) in gaps(settled).into_iter().enumerate() {
                fell.stations[kind] += gap.is_some() as u64;
            }
        }
    }

    /// Settles a cabinet's sheets over a tray with old contents.
    fn settle(
        &self,
        random: &Random,
        engine: &dyn Engine,
        sheets: &Sheets,
    ) -> Result<Settled, u64> {
        let mut settings = self.run.settings;
        let mut direct = Settings { rule: FCA, estimator: self.estimator, ..settings };
        if self.mixed {
            settings.estimator = random.below(3) as u8;
            direct.estimator = random.below(3) as u8;
        }
        let mut tray = [random.draw() as u8; 330];
        let given = engine.fallback(
            &bytes(&settings, &sheets.crusaders),
            &bytes(&direct, &sheets.direct),
            &mut tray,
        );
        match (number(given.answer), given.settled_by) {
            (0, BY_CRUSADERS | BY_DIRECT) => Ok(Settled {
                by: (given.settled_by - BY_CRUSADERS) as usize,
                value: numbers_in(&tray[6..10])[0] as i64,
            }),
            _ => Err(given.answer),
        }
    }

    /// The sheets of some sound cabinets, told different things where the liars do.
    fn sheets(&self, random: &Random) -> Vec<Sheets> {
        let Run { settings, faulty, held, united, .. } = &self.run;
        let liars = Liars::new(random, settings, faulty, held, *united);
        let told = if *united { liars.tell_as_one() } else { liars.tell() };
        let relays = || match random.percent(if *united { 50 } else { 35 }) {
            true => Relays::Withheld,
            false => Relays::Helped(random.pick(&[Aim::Low, Aim::High])),
        };
        let sheets = |cabinet: usize| {
            let crusaders = match relays() {
                Relays::Withheld => liars.withheld(&told),
                Relays::Helped(aim) => liars.relayed(&told, aim),
            };
            Sheets { cabinet, crusaders, direct: told.heard(cabinet) }
        };
        self.witnesses(random, &told).into_iter().map(sheets).collect()
    }

    /// Up to four sound cabinets, the first two told different things if any are.
    fn witnesses(&self, random: &Random, told: &Told) -> Vec<usize> {
        let mut sound: Vec<usize> = (0..self.run.n()).filter(|&c| !self.run.faulty[c]).collect();
        let count = sound.len();
        for i in 0..count {
            sound.swap(i, random.below(count));
        }
        let other = sound.iter().position(|&c| told.heard(c) != told.heard(sound[0]));
        if let Some(other) = other {
            sound.swap(1, other);
        }
        sound.truncate(random.pick(&[2, 3, 4, 4]));
        sound
    }

    /// The wide limits for every good set, and the planned ones where t ≤ m and all CCA sheets have one estimator.
    fn hold_limits(&self, sets: &[GoodSets], settled: &[Settled], less: Less, tally: &mut Tally) {
        for set in sets {
            if set.t > self.run.settings.m as usize {
                self.hold_wide(set, settled, less, tally);
                self.count_past(set, settled, less, tally);
                self.count_example(set, settled, tally);
            } else {
                self.hold_wide(set, settled, Less::default(), tally);
                if !self.mixed {
                    self.hold_planned(set, settled, tally);
                }
            }
        }
    }

    /// A good set with t ≤ m: the next window and the planned accuracy of CCA.
    fn hold_planned(&self, set: &GoodSets, settled: &[Settled], tally: &mut Tally) {
        let (settings, start) = (&self.run.settings, self.run.accuracy);
        let by_crusaders = |one: &&Settled| one.by == 0;
        let values: Vec<i64> = settled.iter().filter(by_crusaders).map(|one| one.value).collect();
        hold(tally, PLANNED_GAP, gap(&values), reference::next_window(settings) as i64, 0);
        let (next, start) = (reference::next_accuracy(settings, start) as i64, start as i64);
        for value in values {
            hold(tally, PLANNED_ERROR, set.error(value, start), next, start);
        }
    }

    /// A good set with t < N-m: the exact limits and the documents', between any two.
    fn hold_wide(&self, set: &GoodSets, settled: &[Settled], less: Less, tally: &mut Tally) {
        let (settings, start) = (&self.run.settings, self.run.accuracy as i64);
        let tighter =
            |most: Most| Most { gap: most.gap - less.gap, error: most.error - less.error };
        let document = tighter(Most::document(settings, set.t));
        let exact = tighter(Most::exact(settings, set.t));
        let ceiling = Apart::wide(settings, set.t).ceiling() - less.gap;
        let half = is_half(settings, set.t);
        for (kind, gap) in gaps(settled).into_iter().enumerate() {
            let Some(gap) = gap else { continue };
            hold(tally, DOCUMENT_GAP + kind, gap, document.gap, 0);
            hold(tally, EXACT_GAP + kind, gap, exact.gap, 0);
            if settings.n % 2 == 1 {
                hold(tally, ODD_GAP + kind, gap, ceiling, 0);
            }
            if half {
                hold(tally, HALF_GAP + kind, gap, exact.gap, 0);
            }
        }
        for one in settled {
            let error = set.error(one.value, start);
            hold(tally, DOCUMENT_ERROR + one.by, error, start + document.error, start);
            hold(tally, EXACT_ERROR + one.by, error, start + exact.error, start);
            if half {
                hold(tally, HALF_ERROR + one.by, error, start + exact.error, start);
            }
        }
    }

    /// A good set with m < t < N-m: which gaps pass the ceiling, with an even N, and the next window.
    fn count_past(&self, set: &GoodSets, settled: &[Settled], less: Less, tally: &mut Tally) {
        let settings = &self.run.settings;
        let ceiling = Apart::wide(settings, set.t).ceiling() - less.gap;
        let next = reference::next_window(settings) as i64;
        for (kind, gap) in gaps(settled).into_iter().enumerate() {
            let Some(gap) = gap else { continue };
            let past = settings.n % 2 != 1 && gap > ceiling;
            tally.fallen.past_ceiling[kind] += past as u64;
            tally.fallen.past_window += (kind == MIXED && gap > next) as u64;
        }
    }

    fn count_example(&self, set: &GoodSets, settled: &[Settled], tally: &mut Tally) {
        let (Settings { n, m, window, .. }, start) = (self.run.settings, self.run.accuracy as i64);
        let Some(row) = EXAMPLES.iter().position(|&row| row == (n, m, set.t, window)) else {
            return;
        };
        let row = &mut tally.fallen.rows[row];
        for (kind, gap) in gaps(settled).into_iter().enumerate() {
            row.gaps[kind] = row.gaps[kind].max(gap);
            row.times[kind] += gap.is_some() as u64;
        }
        for one in settled {
            let error = Some(set.error(one.value, start) - start);
            row.errors[one.by] = row.errors[one.by].max(error);
        }
    }
}

/// A round that reaches the exact limits: see `Run::draw_sharp`. Of the examples, most often.
fn draw_sharp(random: &Random) -> Run {
    let (settings, t) = if random.percent(70) {
        let row = random.pick(&EXAMPLES);
        (example(row), row.2)
    } else {
        draw_sharp_settings(random)
    };
    let w = settings.window as i64;
    let good = sharp(&settings, t, || random.between(1, w - 1));
    let accuracy = random.pick(&[(w + 1) / 2, w, 1_000_000_000]);
    Run::against_united(random, settings, accuracy, random.between(0, 1), &good, 1)
}

fn bytes(settings: &Settings, entries: &[Reading]) -> Vec<u8> {
    let (marks, readings) = reference::marks_and_readings(entries);
    reference::sheet_bytes(settings, &marks, &readings)
}

/// The greatest gap of a pair of each kind, if there is one.
fn gaps(settled: &[Settled]) -> [Option<i64>; KINDS] {
    let [crusaders, direct] = [0, 1].map(|by| {
        let mine = settled.iter().filter(|one| one.by == by);
        mine.map(|one| one.value).collect::<Vec<_>>()
    });
    let of = |values: &[i64]| (values.len() > 1).then(|| gap(values));
    let pairs = crusaders.iter().flat_map(|a| direct.iter().map(move |b| (a - b).abs()));
    [of(&crusaders), pairs.max(), of(&direct)]
}

#[cfg(test)]
mod tests {
    use super::*;
    use engine::Reference;

    fn station(less: Less) -> Tally {
        let mut tally = Tally::default();
        for seed in 0..1500 {
            let random = Random::new(seed);
            Station::draw(&random).round(&random, &Reference, less, &mut tally, false);
        }
        let Fell { by_crusaders, by_direct, refused, misrefused, few_others, .. } = tally.fallen;
        assert!(by_crusaders > 1000 && by_direct > 1000 && refused > 100);
        assert_eq!((misrefused, few_others), (0, 0));
        tally
    }

    /// How often some limits are broken.
    fn broken<const COUNT: usize>(tally: &Tally, first: usize) -> [u64; COUNT] {
        std::array::from_fn(|limit| tally.met.0[first + limit].broken)
    }

    #[test]
    fn the_wider_limits_hold_between_any_two() {
        let tally = station(Less::default());
        assert_eq!(broken(&tally, DOCUMENT_GAP), [0; 20]);
        assert!(tally.met.0[DOCUMENT_GAP..].iter().take(20).all(|met| met.times > 100));
        assert!(tally.fallen.stations.iter().all(|&times| times > 100));
    }

    #[test]
    fn gaps_a_tick_less_are_broken() {
        let tally = station(Less { gap: 1, error: 0 });
        let [document, exact, odd, half] =
            [DOCUMENT_GAP, EXACT_GAP, ODD_GAP, HALF_GAP].map(|first| broken::<3>(&tally, first));
        for gaps in [document, exact, odd, half] {
            assert!(gaps.iter().all(|&broken| broken > 5), "finds no tick: {gaps:?}");
        }
        assert_eq!(broken(&tally, DOCUMENT_ERROR), [0; 6]);
    }

    #[test]
    fn errors_a_tick_less_are_broken() {
        let tally = station(Less { gap: 0, error: 1 });
        let errors: [u64; 6] = broken(&tally, DOCUMENT_ERROR);
        assert!(errors.iter().all(|&broken| broken > 5), "finds no tick: {errors:?}");
        assert_eq!(broken(&tally, DOCUMENT_GAP), [0; 12]);
    }

    /// No planned window follows a fallback: one that settles by CCA and one that falls back are further apart.
    #[test]
    fn the_next_window_is_passed() {
        let tally = station(Less::default());
        assert!(tally.fallen.past_window > 100, "{}", tally.fallen.past_window);
    }

    /// A hundred rounds of four cabinets, planned for one fault, that read 0, 2, 1 and nothing.
    fn four(faulty: [bool; 4], mixed: bool) -> Tally {
        let run = Run {
            settings: Settings { n: 4, m: 1, rule: CCA, estimator: MEDIAN, window: 2 },
            accuracy: 2,
            faulty: faulty.to_vec(),
            held: vec![Some(0), Some(2), Some(1), None],
            rounds: 1,
            united: true,
        };
        let station = Station { run, estimator: MEDIAN, mixed };
        let mut tally = Tally::default();
        for seed in 0..100 {
            let random = Random::new(seed);
            station.round(&random, &Reference, Less::default(), &mut tally, false);
        }
        tally
    }

    /// Liars that relay nothing do not have a cabinet fall back where they are m at most.
    #[test]
    fn nobody_falls_back_where_t_is_at_most_m() {
        let fell = |faulty: [bool; 4]| {
            let fallen = four(faulty, false).fallen;
            (fallen.by_direct > 0, fallen.few > 0)
        };
        assert_eq!(fell([false, false, false, true]), (false, true));
        assert_eq!(fell([false, false, true, true]), (true, false));
    }

    /// Where t ≤ m the wide limits are held too, also where each cabinet has estimators of its own; the planned ones
    /// where all CCA sheets have one.
    #[test]
    fn where_t_is_at_most_m_limits_are_held() {
        let held = |mixed: bool| {
            let tally = four([false, false, false, true], mixed);
            assert_eq!(broken(&tally, DOCUMENT_GAP), [0; 20]);
            assert_eq!(tally.fallen.past_window, 0);
            [DOCUMENT_GAP, EXACT_GAP, DOCUMENT_ERROR, EXACT_ERROR, PLANNED_GAP, PLANNED_ERROR]
                .map(|limit| tally.met.0[limit].times >= 100)
        };
        assert_eq!(held(false), [true; 6]);
        assert_eq!(held(true), [true, true, true, true, false, false]);
    }
}
