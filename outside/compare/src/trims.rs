//! What is met of the trimming rules.

use crate::calls::PLANNING;
use engine::{number, Settings};
use reference::{accepted, in_order, numbers_in, TRIMMED_MEAN, TRIMMED_MIDPOINT};

/// What can be met of a settled sheet.
pub const ROUNDS: [&str; 22] = [
    "a kept reading is missing",
    "a dropped reading is missing",
    "equal readings on both sides of the low cut",
    "equal readings on both sides of the high cut",
    "a missing reading and a present 0 on both sides of a cut",
    "half the sum of the extremes goes up, to 0 or above",
    "half the sum of the extremes goes up, to a value below 0",
    "half the sum of the extremes goes down, to 0 or above",
    "half the sum of the extremes goes down, to a value below 0",
    "the mean's half goes up, to 0 or above",
    "the mean's half goes up, to a value below 0",
    "the mean's half goes down, to 0 or above",
    "the mean's half goes down, to a value below 0",
    "the sum of the extremes is below 32 bits",
    "the sum of the extremes is above 32 bits",
    "the new value is the lowest of 32 bits",
    "the new value is the highest of 32 bits",
    "no span holds N-m readings, which FCA would refuse under 10",
    "of more than 32 readings none is dropped",
    "of more than 32 readings no dropped one is equal to one that is kept",
    "of more than 32 readings equal ones are on both sides of the low cut alone",
    "of more than 32 readings equal ones are on both sides of the high cut alone",
];

/// The numbers under which each call can refuse a trimming rule, and whether it can grant it. A refusal under 4 is
/// met where no other number would be: for the estimator alone, by the planner for the rule alone.
pub const REFUSALS: [(bool, &[usize]); 9] = [
    (true, &[2, 3, 4, 5, 6, 7, 8, 9]),
    (true, &[2, 3, 4, 5, 6, 7, 8, 9]),
    (true, &[2, 3, 4, 5, 6, 7, 8, 9]),
    (true, &[]),
    (false, &[2, 3, 4]),
    (false, &[2, 3, 4]),
    (false, &[2, 3, 4]),
    (false, &[2, 3, 4, 5, 13]),
    (true, &[2, 3, 4, 5, 6, 7, 8, 9, 16]),
];

pub struct Trims {
    /// Sheets of these rules, sound or damaged, and those with several faults at once.
    pub sheets: u64,
    pub several_faults: u64,
    /// How often a call granted these rules, or refused them under each number.
    pub outcomes: [[u64; 17]; 9],
    /// How often a sheet settled, for each rule and N.
    pub settled: [[u64; 65]; 2],
    /// How often each of `ROUNDS` was met.
    pub rounds: [u64; ROUNDS.len()],
}

/// The first eight bytes of a sheet or a trace, unchecked.
fn sizes(bytes: &[u8]) -> Option<Settings> {
    let window = u32::from_le_bytes(bytes.get(4..8)?.try_into().ok()?);
    Some(Settings { n: bytes[0], m: bytes[1], rule: bytes[2], estimator: bytes[3], window })
}

impl Trims {
    pub fn new() -> Trims {
        Trims {
            sheets: 0,
            several_faults: 0,
            outcomes: [[0; 17]; 9],
            settled: [[0; 65]; 2],
            rounds: [0; ROUNDS.len()],
        }
    }

    pub fn count_sheet(&mut self, settings: &Settings, faults: u64) {
        if settings.trims() {
            self.sheets += 1;
            self.several_faults += (faults > 1) as u64;
        }
    }

    /// Counts the answer of a call with these settings.
    pub fn count(&mut self, call: usize, settings: &Settings, answer: u64) {
        let without = Settings { estimator: 0, ..*settings };
        let alone = if PLANNING.contains(&call) { settings } else { &without };
        if settings.trims() && (number(answer) != 4 || alone.check().is_ok()) {
            self.outcomes[call][number(answer).min(16)] += 1;
        }
    }

    /// The same with a sheet or a trace.
    pub fn count_bytes(&mut self, call: usize, bytes: &[u8], answer: u64) {
        if let Some(settings) = sizes(bytes) {
            self.count(call, &settings, answer);
        }
    }

    /// Counts what is met of a settled sheet with this answer sheet; nothing where the rule is another.
    pub fn count_round(&mut self, sheet: &[u8], answer: &[u8]) {
        let Some(settings) = reference::settings_of(sheet).ok().filter(Settings::trims) else {
            return;
        };
        let Ok(readings) = reference::entries_of(sheet, &settings) else { return };
        self.settled[(settings.rule - TRIMMED_MIDPOINT) as usize][settings.n as usize] += 1;
        let round = Round::new(&settings, &readings);
        let new = numbers_in(&answer[6..10])[0];
        let met = [round.cuts(), round.halves(), round.ends(new), round.many()].concat();
        for (times, met) in self.rounds.iter_mut().zip(met) {
            *times += met as u64;
        }
    }
}

/// A settled sheet.
struct Round<'a> {
    settings: &'a Settings,
    readings: &'a [Option<i32>],
    /// The cabinets in order of their readings.
    order: Vec<usize>,
}

impl<'a> Round<'a> {
    fn new(settings: &'a Settings, readings: &'a [Option<i32>]) -> Round<'a> {
        Round { settings, readings, order: in_order(readings) }
    }

    /// What the readings of those left count as, in order.
    fn kept(&self) -> Vec<i64> {
        let m = self.settings.m as usize;
        let kept = &self.order[m..self.order.len() - m];
        kept.iter().map(|&c| self.readings[c].unwrap_or(0) as i64).collect()
    }

    /// The first five of `ROUNDS`.
    fn cuts(&self) -> Vec<bool> {
        let (n, m) = (self.order.len(), self.settings.m as usize);
        let at = |place: usize| self.readings[self.order[place]];
        let counted = |place: usize| at(place).unwrap_or(0);
        let missing = |place: usize| at(place).is_none();
        let equal = |place: usize| m > 0 && counted(place - 1) == counted(place);
        let mixed = |place: usize| equal(place) && missing(place - 1) != missing(place);
        vec![
            (m..n - m).any(missing),
            (0..m).chain(n - m..n).any(missing),
            equal(m),
            equal(n - m),
            mixed(m) || mixed(n - m),
        ]
    }

    /// Those about halves.
    fn halves(&self) -> Vec<bool> {
        let kept = self.kept();
        let ends = [kept[0], kept[kept.len() - 1]];
        let of = |rule: u8, values: &[i64]| {
            let (sum, count) = (values.iter().sum::<i64>(), values.len() as i64);
            let half = self.settings.rule == rule && 2 * sum.rem_euclid(count) == count;
            let (below, up) = (sum.div_euclid(count), sum.div_euclid(count) % 2 != 0);
            [up && below >= -1, up && below < -1, !up && below >= 0, !up && below < 0]
                .map(|met| half && met)
        };
        [of(TRIMMED_MIDPOINT, &ends), of(TRIMMED_MEAN, &kept)].concat()
    }

    /// The five before the last four.
    fn ends(&self, new: i32) -> Vec<bool> {
        let kept = self.kept();
        let extremes = kept[0] + kept[kept.len() - 1];
        let (need, window) = (self.settings.need(), self.settings.window);
        vec![
            self.settings.rule == TRIMMED_MIDPOINT && extremes < i32::MIN as i64,
            self.settings.rule == TRIMMED_MIDPOINT && extremes > i32::MAX as i64,
            new == i32::MIN,
            new == i32::MAX,
            !accepted(self.readings, need, window).contains(&true),
        ]
    }

    /// The last four, which the library drops in another way than few.
    fn many(&self) -> Vec<bool> {
        let many = self.order.len() > 32;
        let cuts = self.cuts();
        let (low, high) = (cuts[2], cuts[3]);
        let none = self.settings.m == 0;
        vec![
            many && none,
            many && !none && !low && !high,
            many && low && !high,
            many && !low && high,
        ]
    }
}
