//! Pairs of sheets, CCA and then FCA, and what is met of falling back from the one to the other.

use crate::draw::{self, clamp, Paper};
use engine::{number, Fallen, Settings, BY_CRUSADERS, BY_DIRECT};
use random::Random;
use reference::{
    entries_of, marks_and_readings, numbers_in, settings_of, CCA, FCA, TRIMMED_MEAN,
    TRIMMED_MIDPOINT,
};

/// What can be met.
pub const MET: [&str; 47] = [
    "no. 1 of the CCA sheet, the FCA sheet being sound",
    "no. 2 of the CCA sheet, the FCA sheet being sound",
    "no. 3 of the CCA sheet, the FCA sheet being sound",
    "no. 4 of the CCA sheet, the FCA sheet being sound",
    "no. 5 of the CCA sheet, the FCA sheet being sound",
    "no. 6 of the CCA sheet, the FCA sheet being sound",
    "no. 1 of the FCA sheet, while CCA settles",
    "no. 2 of the FCA sheet, while CCA settles",
    "no. 3 of the FCA sheet, while CCA settles",
    "no. 4 of the FCA sheet, while CCA settles",
    "no. 5 of the FCA sheet, while CCA settles",
    "no. 6 of the FCA sheet, while CCA settles",
    "1 to 6 of the CCA sheet, and a lower number of the FCA sheet",
    "1 to 6 of the CCA sheet, and a higher number of the FCA sheet",
    "19 for N alone",
    "19 for m alone",
    "19 for the window alone",
    "19 for the window alone, whose lower 16 bits are the same",
    "19 for two of N, m and the window",
    "19 for FCA twice",
    "19 for CCA twice",
    "19 for FCA and then CCA",
    "19 for rule 2 as the second",
    "19 for rule 3 as the second",
    "19 for a trimming rule as the first",
    "19, and the buffer is too short",
    "19, and a mark or a ghost on the CCA sheet",
    "1 to 6 of the FCA sheet, and 19 would follow",
    "7, and a mark or a ghost on the CCA sheet",
    "7 for a byte, while CCA settles",
    "7 for a byte, where a fallback would settle",
    "7 for an empty buffer",
    "a buffer of just 10 + 5N bytes, settled by CCA",
    "a buffer of just 10 + 5N bytes, after a fallback",
    "8 of the CCA sheet, where the FCA sheet settles",
    "9 of the CCA sheet, where the FCA sheet settles",
    "8 or 9 of the CCA sheet, and of the FCA sheet",
    "8 of the FCA sheet after a 10",
    "9 of the FCA sheet after a 10",
    "8 or 9 of the FCA sheet after a 10, with a place above 0",
    "settled by CCA, with a mark at fault on the FCA sheet",
    "settled by CCA, with a ghost on the FCA sheet",
    "settled by CCA, where the FCA sheet would be refused under 10",
    "10 of both",
    "10 of both, where the estimators differ",
    "after a fallback the new value is the lowest of 32 bits",
    "after a fallback the new value is the highest of 32 bits",
];

/// Two sheets, often a CCA sheet and then an FCA sheet.
pub struct Pair {
    pub crusaders: Vec<u8>,
    pub direct: Vec<u8>,
}

pub struct Fallbacks {
    pub several_faults: u64,
    /// How often each N was settled by CCA, after a fallback, or refused under 10 by both.
    pub by_n: [[u64; 65]; 3],
    /// How often each pair of estimators was settled by CCA, or after a fallback.
    pub by_estimators: [[u64; 9]; 2],
    /// How often each of `MET` was met.
    pub met: [u64; MET.len()],
}

impl Pair {
    /// A pair, and how many things are wrong with it.
    pub fn draw(random: &Random) -> (Pair, u64) {
        let settings = Settings { rule: CCA, ..draw::settings(random) };
        let estimator = random.pick(&[settings.estimator, random.below(3) as u8]);
        let mut both = [settings, Settings { rule: FCA, estimator, ..settings }];
        let mismatches = random.pick(&[0, 0, 0, 0, 0, 0, 0, 0, 0, 1, 1, 2]);
        (0..mismatches).for_each(|_| part(random, &mut both));
        let mut papers = both.map(|settings| paper(random, settings));
        let mut faults = mismatches;
        for paper in &mut papers {
            if random.percent(30) {
                faults += draw::damage_paper(random, paper);
            }
        }
        let [crusaders, direct] = papers.map(|paper| draw::sheet(random, &paper));
        (Pair { crusaders, direct }, faults)
    }

    pub fn in_words(&self) -> String {
        let words =
            |sheet: &[u8]| format!("{} bytes: {:?}..", sheet.len(), &sheet[..sheet.len().min(20)]);
        format!("{} and {}", words(&self.crusaders), words(&self.direct))
    }

    /// Whether an answer shows the readings of the sheet that settled, and beside a refusal nothing.
    pub fn is_shown(&self, given: &Fallen) -> bool {
        let Fallen { answer, settled_by, start, length } = *given;
        let sheet = match (number(answer), settled_by) {
            (0, BY_CRUSADERS) => &self.crusaders,
            (0, BY_DIRECT) => &self.direct,
            (0, _) => return false,
            _ => return (settled_by, start, length) == (0, 0, 0),
        };
        let entries = sheet.len().saturating_sub(8) as u32 / 5;
        (start, length) == (8 + entries, 4 * entries)
    }
}

/// Makes the two settings differ, or not be of CCA and then FCA. Each stays one that checks 2 to 5 let through.
fn part(random: &Random, both: &mut [Settings; 2]) {
    let which = random.below(2);
    let other = &mut both[which];
    match random.below(9) {
        0 => {
            let least = 3 * other.m as i64 + 1;
            other.n = random.between(least, random.pick(&[64, (least + 4).min(64)])) as u8;
        }
        1 => other.m = random.between(0, (other.n as i64 - 1) / 3) as u8,
        2 => other.window = random.pick(&[other.window.wrapping_sub(1), other.window + 1]),
        3 => other.window ^= random.pick(&[1 << 16, 1 << 17, 1 << 8]),
        4 => both.iter_mut().for_each(|settings| settings.rule = FCA),
        5 => both.iter_mut().for_each(|settings| settings.rule = CCA),
        6 => both.swap(0, 1),
        _ => {
            other.rule = random.pick(&[TRIMMED_MIDPOINT, TRIMMED_MEAN]);
            other.estimator = 0;
        }
    }
    for settings in both {
        settings.window = settings.window.min(1_000_000);
    }
}

fn paper(random: &Random, settings: Settings) -> Paper {
    let entries = match settings.rule {
        CCA => crusaders(random, &settings),
        _ => direct(random, &settings),
    };
    let (marks, readings) = marks_and_readings(&entries);
    Paper { settings, marks, readings }
}

/// Copies of readings, as likely as not so that no reading is accepted.
fn crusaders(random: &Random, settings: &Settings) -> Vec<Option<i32>> {
    let (n, m) = (settings.n as usize, settings.m as usize);
    let copied = |readings: Vec<Option<i32>>| {
        readings.into_iter().flat_map(|value| draw::copies(random, settings, value)).collect()
    };
    match random.below(20) {
        0..=8 => copied(draw::readings(random, settings)),
        9..=10 => copied(too_few(random, settings)),
        11 => vec![None; n * n],
        _ => {
            let undecided = random.pick(&[m, m + 1, m + 1, n, random.below(n + 1)]).min(n);
            let rows = draw::readings(random, settings).into_iter().enumerate();
            let row = |(r, value): (usize, Option<i32>)| match r < undecided {
                true => undecided_row(random, settings, value),
                false => draw::copies(random, settings, value),
            };
            draw::shuffled(random, rows.map(row).collect()).concat()
        }
    }
}

/// A row in which m+1 copies, or more, are missing or another value.
fn undecided_row(random: &Random, settings: &Settings, value: Option<i32>) -> Vec<Option<i32>> {
    let (n, m) = (settings.n as usize, settings.m as usize);
    let others = random.pick(&[m + 1, m + 1, random.between(m as i64 + 1, n as i64) as usize]);
    let other = match random.below(3) {
        0 if n > 1 && others == m + 1 => value.map(|v| v ^ 1),
        _ => None,
    };
    draw::shuffled(random, (0..n).map(|s| if s < others { other } else { value }).collect())
}

/// What is heard directly, which most often settles.
fn direct(random: &Random, settings: &Settings) -> Vec<Option<i32>> {
    match random.below(10) {
        0..=1 => too_few(random, settings),
        2 => vec![None; settings.n as usize],
        3 => vec![Some(random.pick(&[i32::MIN, i32::MAX])); settings.n as usize],
        _ => draw::readings(random, settings),
    }
}

/// N readings of which no span holds N-m: one less is in a span, or all are further apart, or m+1 are missing.
fn too_few(random: &Random, settings: &Settings) -> Vec<Option<i32>> {
    let (n, need, w) = (settings.n as i64, settings.need() as i64, settings.window as i64);
    let highest = i32::MAX as i64 - n * (w + 1);
    let base = random.pick(&[0, i32::MIN as i64, highest, random.between(-1000, 1000)]);
    let kind = random.below(3);
    let reading = |i: i64| match kind {
        0 if n > 1 && i < need - 1 => Some(base),
        0 | 1 if n > 1 => Some(base + i * (w + 1)),
        _ if i < need - 1 => Some(base + random.between(0, w)),
        _ => None,
    };
    draw::shuffled(random, (0..n).map(|i| reading(i).map(clamp)).collect())
}

impl Fallbacks {
    pub fn new() -> Fallbacks {
        Fallbacks {
            several_faults: 0,
            by_n: [[0; 65]; 3],
            by_estimators: [[0; 9]; 2],
            met: [0; MET.len()],
        }
    }

    /// Counts what is met of an answer into a buffer of that length.
    pub fn count(&mut self, pair: &Pair, faults: u64, given: &Fallen, tray: &[u8]) {
        self.several_faults += (faults > 1) as u64;
        let one = One::new(pair, given, tray);
        let outcome = match (number(given.answer), given.settled_by) {
            (0, BY_CRUSADERS) => Some(0),
            (0, _) => Some(1),
            (10, _) => Some(2),
            _ => None,
        };
        if let (Some(outcome), Ok(first), Ok(second)) = (outcome, one.first, one.second) {
            self.by_n[outcome][first.n as usize] += 1;
            if outcome < 2 {
                self.by_estimators[outcome][(3 * first.estimator + second.estimator) as usize] += 1;
            }
        }
        let met = [one.of_sizes(), one.of_19(), one.of_7(), one.of_marks(), one.of_rounds()];
        for (times, met) in self.met.iter_mut().zip(met.concat()) {
            *times += met as u64;
        }
    }
}

/// A pair, what each of its sheets is by itself, and the answer.
struct One<'a> {
    /// Settings, or the number of the refusal under 1 to 6.
    first: Result<Settings, usize>,
    second: Result<Settings, usize>,
    /// What each sheet gives where it is settled alone, with a long buffer: 0, or the number of a refusal.
    alone: [usize; 2],
    given: &'a Fallen,
    tray: &'a [u8],
    /// The number of the refusal, 0 for a grant.
    number: usize,
}

impl<'a> One<'a> {
    fn new(pair: &Pair, given: &'a Fallen, tray: &'a [u8]) -> One<'a> {
        let sizes = |sheet: &[u8]| settings_of(sheet).map_err(|refusal| refusal.number as usize);
        let alone = |sheet: &[u8]| match settings_of(sheet) {
            Err(refusal) => refusal.number as usize,
            Ok(settings) => match entries_of(sheet, &settings) {
                Err(refusal) => refusal.number as usize,
                Ok(_) => reference::settle(sheet, &mut [0; 330])
                    .map_or_else(|refusal| refusal.number as usize, |_| 0),
            },
        };
        One {
            first: sizes(&pair.crusaders),
            second: sizes(&pair.direct),
            alone: [alone(&pair.crusaders), alone(&pair.direct)],
            given,
            tray,
            number: number(given.answer),
        }
    }

    /// The first fourteen of `MET`.
    fn of_sizes(&self) -> Vec<bool> {
        let first = (1..=6).map(|k| self.first == Err(k) && self.alone[1] == 0);
        let second = (1..=6).map(|k| self.second == Err(k) && self.alone[0] == 0);
        let mut met: Vec<bool> = first.chain(second).collect();
        let both = |holds: fn(&usize, &usize) -> bool| match (&self.first, &self.second) {
            (Err(first), Err(second)) => holds(first, second),
            _ => false,
        };
        met.extend([both(|first, second| second < first), both(|first, second| second > first)]);
        met
    }

    /// The next fourteen.
    fn of_19(&self) -> Vec<bool> {
        let (Ok(first), Ok(second)) = (self.first, self.second) else {
            let would = self.first.is_ok_and(|settings| settings.rule != CCA);
            return (0..14).map(|i| i == 13 && would && self.second.is_err()).collect();
        };
        let rules = (first.rule, second.rule);
        let differ = [first.n != second.n, first.m != second.m, first.window != second.window];
        let alone = |which: usize| {
            rules == (CCA, FCA) && (0..3).all(|field| differ[field] == (field == which))
        };
        let same_sizes = differ == [false; 3];
        let low_bits = first.window as u16 == second.window as u16;
        let refused = self.number == 19;
        vec![
            alone(0),
            alone(1),
            alone(2),
            alone(2) && low_bits,
            differ.into_iter().filter(|&differs| differs).count() == 2,
            same_sizes && rules == (FCA, FCA),
            same_sizes && rules == (CCA, CCA),
            same_sizes && rules == (FCA, CCA),
            same_sizes && rules == (CCA, TRIMMED_MIDPOINT),
            same_sizes && rules == (CCA, TRIMMED_MEAN),
            same_sizes && rules.0 > CCA && rules.1 == FCA,
            refused && self.tray.len() < first.answer_length(),
            refused && [8, 9].contains(&self.alone[0]),
            false,
        ]
    }

    /// The next six.
    fn of_7(&self) -> Vec<bool> {
        let length = self.first.map_or(0, |settings| settings.answer_length());
        let refused = self.number == 7;
        let a_byte = refused && self.tray.len() + 1 == length;
        let just = self.number == 0 && self.tray.len() == length;
        vec![
            refused && [8, 9].contains(&self.alone[0]),
            a_byte && self.alone[0] == 0,
            a_byte && self.alone == [10, 0],
            refused && self.tray.is_empty(),
            just && self.given.settled_by == BY_CRUSADERS,
            just && self.given.settled_by == BY_DIRECT,
        ]
    }

    /// The next eight.
    fn of_marks(&self) -> Vec<bool> {
        let of_crusaders = self.number == self.alone[0];
        let after_10 = self.alone[0] == 10;
        let (mark, ghost) = (self.number == 8, self.number == 9);
        let settled = self.number == 0 && self.given.settled_by == BY_CRUSADERS;
        vec![
            mark && of_crusaders && self.alone[1] == 0,
            ghost && of_crusaders && self.alone[1] == 0,
            (mark || ghost) && of_crusaders && [8, 9].contains(&self.alone[1]),
            mark && after_10,
            ghost && after_10,
            (mark || ghost) && after_10 && self.given.answer as u32 > 0,
            settled && self.alone[1] == 8,
            settled && self.alone[1] == 9,
        ]
    }

    /// The last five.
    fn of_rounds(&self) -> Vec<bool> {
        let settled = self.number == 0;
        let fell = settled && self.given.settled_by == BY_DIRECT;
        let new = || numbers_in(&self.tray[6..10])[0];
        let differ =
            matches!((self.first, self.second), (Ok(a), Ok(b)) if a.estimator != b.estimator);
        vec![
            settled && !fell && self.alone[1] == 10,
            self.number == 10,
            self.number == 10 && differ,
            fell && new() == i32::MIN,
            fell && new() == i32::MAX,
        ]
    }
}
