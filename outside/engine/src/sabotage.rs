//! Engines that are wrong in a named way, to show that the checks can fail.

use crate::wrong_fallback::wrong_fallback;
use crate::wrong_interval::wrong_interval;
use crate::wrong_plan::{wrong_part, wrong_plan, wrong_step, wrong_target};
use crate::wrong_replay::wrong_replay;
use crate::wrong_spread::wrong_spread;
use crate::wrong_sum::wrong_mean;
use crate::wrong_trim::{taken_for, wrong_trim};
use crate::{fallback_by_hand, number, packed, Engine, Fallen, Plan, Refusal, Settings, Spacing};
use reference::{Round, AVERAGE, FCA, MEDIAN, MIDPOINT};
use std::hash::{DefaultHasher, Hasher};

/// Names, and what is wrong. The first `OF_THE_ROUND` are about the round itself, by FCA and CCA.
pub const SABOTAGES: &[(&str, &str)] = &[
    ("need-low", "N-m-1 readings in a span are enough"),
    ("need-high", "N-m+1 readings in a span are needed"),
    ("strict", "a span must be narrower than the window"),
    ("pairwise", "N-m readings within the window of a reading are enough, without one common span"),
    ("distinct", "equal readings are counted once"),
    ("row-low", "N-m-1 equal copies decide a row"),
    ("middle-two", "the median averages the middle two"),
    ("all-readings", "the estimate is over all present readings"),
    ("truncate", "the mean is rounded towards zero, not down"),
    ("half-up", "a half goes up"),
    ("half-down", "a half goes down"),
    ("half-away", "a half goes away from zero"),
    ("half-odd", "a half goes to the odd neighbour"),
    ("half-negative", "a half goes up from an odd number above zero alone: -1 % 2 is not 1"),
    ("average-even", "the average is rounded as the mean is"),
    ("midpoint-even", "the midpoint is rounded as the mean is"),
    ("tick-off", "the new value is a tick high on about half of the sheets"),
    ("span-wide", "a span may be a tick wider than the window"),
    ("highest", "the estimate is the highest accepted reading"),
    ("refuse-need", "a sheet with just N-m accepted readings is refused as too many faults"),
    ("spread-ignored", "the spread plays no part in the round"),
    (
        "spread-start",
        "a reading is held against the window alone, other readings against window and spread",
    ),
    ("spread-count", "readings in a span are counted by the window alone"),
    ("spread-10", "too many faults is said where no span as wide as the window alone holds N-m"),
    ("spread-tick", "a span with a spread is a tick narrower"),
    ("spread-twice", "the spread counts on both sides"),
    ("spread-bits", "the lower 16 bits of a spread are taken for it"),
    ("spread-wraps", "the end of a span with a spread wraps at 32 bits"),
    ("sum-cut", "the sum of distances from the lowest accepted reading ends at N spans"),
    ("sum-unsigned", "distances are from the estimate, and their sum is taken as unsigned"),
    ("sum-estimate", "distances are from the estimate, and their sum is divided towards zero"),
    ("sum-first", "distances are from the first accepted reading, and divided towards zero"),
    ("sum-readings", "the used values themselves are added up, and divided towards zero"),
    ("sum-present", "distances are from the lowest present reading, and the sum wraps at 32 bits"),
    ("sum-missing", "a missing or unaccepted reading has a distance of 0"),
    ("sum-quotient", "a half goes by the parity of the sum's whole part, not of the new value"),
    ("sum-lowest", "a half goes by the parity of the lowest accepted reading"),
    (
        "sum-half-odd",
        "half of an odd N is rounded down, and a remainder of so much taken for a half",
    ),
    ("sum-back", "N times the lowest is added back to the sum, in 32 bits, before it is divided"),
    (
        "sum-end",
        "a tick too many is added back, up to the highest reading, and below a half taken off",
    ),
    ("order", "marks are checked before the tray"),
    ("ghost-first", "a ghost before the first bad mark is refused as 9"),
    ("place", "the highest entry at fault is given as the place"),
    ("past", "one byte past the answer is touched"),
    ("refused-tray", "a refusal touches the tray"),
    ("read-past", "the reader touches an entry past E"),
    ("write-past", "the writer touches a byte past the sheet"),
    ("from-one", "rows are numbered from one"),
    ("repeat", "the plan repeats the first window"),
    ("plan-one", "the plan's next window is 1 where m or the window is 0"),
    (
        "plan-ceiling",
        "the plan's next window is the ceiling of 2mδ/N, or mδ/N, also where that is whole",
    ),
    ("plan-accuracy", "the plan's accuracy grows by the whole part of mδ/N plus one"),
    ("step-late", "a step after 32 rounds is granted"),
    ("step-wide", "a step does not narrow the window"),
    ("step-one", "a step's next window is 1 where m or the window is 0"),
    (
        "step-ceiling",
        "a step's next window is the ceiling of 2mδ/N, or mδ/N, also where that is whole",
    ),
    ("step-accuracy", "a step's accuracy grows by the whole part of mδ/N plus one"),
    ("target-short", "the target's count is one round too few"),
    ("target-one", "the target is tried against a window of 1 where m or the window is 0"),
    ("target-ceiling", "the target is tried against ceilings, also where 2mδ/N or mδ/N is whole"),
    ("spread-early", "16 is asked before 5"),
    ("spread-late", "16 is asked after 6"),
    ("spread-last", "16 is asked after 9"),
    ("spread-crusaders", "a spread is let through with CCA, and plays no part"),
    ("spread-direct", "CCA is refused under 16 with a spread of 0 too"),
    ("spread-under", "a spread of 100,000 is refused"),
    ("spread-over", "a spread of 100,001 is let through"),
    ("spread-one", "a spread of 0 is taken for 1"),
    ("spread-place", "the spread is the place of 16"),
    ("spread-writes", "a refusal under 16 touches the tray"),
    ("replay-swapped", "a replay takes senders for receivers"),
    ("replay-at-once", "a replay uses new values within the same round"),
    ("replay-wide", "a replay has the first window in every round"),
    ("replay-early", "a replay steps the window before the first round"),
    ("replay-late", "a replay steps the window a round late"),
    ("replay-one", "a replay's next window is 1 where m or the window is 0"),
    ("replay-ceiling", "a replay's next window is the ceiling of 2mδ/N, also where that is whole"),
    ("replay-tick", "a replay's values are a tick high at cabinets of odd number"),
    ("replay-from-zero", "a replay's refusal 15 counts rounds from 0"),
    ("replay-highest", "a replay's refusal 15 names the highest cabinet"),
    ("replay-last", "a replay's refusal 15 names the last such round"),
    ("replay-receivers", "a replay does not ask 14 of entries to faulty receivers"),
    ("replay-roles", "a replay takes a role of 2 for sound"),
    ("replay-33", "a replay lets 33 rounds through"),
    ("replay-cca", "a replay takes CCA for FCA"),
    ("replay-stub", "a replay of exactly 8 bytes is refused as too short"),
    ("replay-place", "a replay's refusals 8 and 9 name the highest entry at fault"),
    ("replay-ghosts", "a replay asks 8 and 9 of entries to sound receivers only"),
    ("replay-order", "a replay asks 14 before 8 and 9"),
    ("replay-tray", "a replay asks 7 after 8 and 9"),
    ("replay-refused", "a replay writes values and then refuses under 15"),
    ("replay-past", "a replay touches a byte past the values"),
    ("replay-faulty", "a replay leaves faulty places as they were"),
    ("replay-first", "a replay has the first readings of faulty cabinets in their places"),
    ("trim-count", "a trimming rule's count is of the readings left that are present"),
    ("trim-divisor", "rule 3 divides by the number of readings left that are present"),
    ("trim-ties", "of equal readings the highest number comes first"),
    ("trim-missing", "missing readings are left out of the order"),
    ("trim-lowest", "missing readings count as the lowest"),
    ("trim-fewer", "m-1 readings are dropped at each end"),
    ("trim-wraps", "rule 2's sum wraps at 32 bits"),
    ("trim-truncate", "a trimming rule rounds towards zero"),
    ("trim-half-up", "a trimming rule's half goes up"),
    ("trim-half-down", "a trimming rule's half goes down"),
    ("trim-half-away", "a trimming rule's half goes away from zero"),
    ("trim-half-negative", "a trimming rule's half goes up from an odd number above zero alone"),
    ("trim-tick", "a trimming rule's new value is a tick high on about half of the sheets"),
    ("trim-zero", "a trimming rule's estimate field is 0"),
    (
        "trim-midpoint",
        "a trimming rule's estimate field is the midpoint of those left, rounded down",
    ),
    ("trim-shown", "a missing reading that is left is shown as 0"),
    ("trim-marked", "a missing reading that is left has mark 1"),
    ("trim-own", "a dropped reading is shown, not the new value"),
    ("trim-swapped", "rules 2 and 3 are swapped"),
    ("trim-four", "rule 4 is taken for rule 3"),
    ("trim-estimator", "a trimming rule's estimator byte is not checked"),
    ("trim-window", "a trimming rule's window is not checked"),
    ("trim-10", "a trimming rule refuses under 10 where no span holds N-m readings"),
    ("read-trimmed", "the reader refuses a trimming rule under 4"),
    ("write-trimmed", "the writer refuses a trimming rule under 4"),
    ("row-trimmed", "no row of a trimming rule is shown"),
    ("plan-trimmed", "the planner takes a trimming rule for FCA"),
    ("step-trimmed", "a step takes a trimming rule for FCA"),
    ("target-trimmed", "a target takes a trimming rule for FCA"),
    ("spread-trimmed", "a spread is let through with a trimming rule, and plays no part"),
    ("replay-trimmed", "a replay takes a trimming rule for FCA"),
    ("replay-13", "a replay refuses a trimming rule under 13 whatever its estimator byte"),
    ("interval-low", "the greatest interval is cut to 32 bits"),
    ("interval-greatest-up", "the greatest interval is rounded up"),
    ("interval-strict", "the greatest interval must leave room in the window"),
    ("interval-twice", "the greatest interval is for half the drift"),
    ("interval-least-down", "the least interval is rounded down"),
    ("interval-zero", "the least interval is 0 where the precision is"),
    ("interval-precision", "the least interval is the precision"),
    ("interval-square", "ρ² is left out"),
    ("interval-square-ten", "ρ² counts ten times"),
    ("interval-square-million", "ρ² counts a million times, r² as ρr"),
    ("interval-square-added", "ρ² is added, not taken off"),
    ("interval-rates", "2-ρ and 2+ρ are swapped"),
    ("interval-rate", "2-ρ is taken for 2 in the greatest interval"),
    ("interval-swapped", "window and precision are swapped"),
    ("interval-wraps", "the window less the precision wraps at 32 bits"),
    ("interval-distance", "a window below the precision counts as one above it"),
    ("interval-equal", "an interval is granted where the window is the precision"),
    ("interval-alone", "18 is said where a single interval meets both"),
    ("interval-empty", "least and greatest are granted where none meets both"),
    ("interval-late", "18 is asked before 17"),
    ("interval-below-17", "a window below the precision is refused under 17"),
    ("interval-drift-0", "a drift of 0 is taken for 1"),
    ("interval-drift-1001", "a drift of 1001 is let through"),
    ("interval-window-over", "a window of 1,000,001 is taken for 1,000,000"),
    ("interval-precision-over", "a precision of 1,000,001 is taken for 1,000,000"),
    ("interval-window-unasked", "the window's range is not asked"),
    ("interval-precision-unasked", "the precision's range is not asked"),
    ("interval-drift-bits", "the lower 16 bits of a drift are taken for it"),
    ("interval-window-bits", "the lower 16 bits of a window are taken for it"),
    ("interval-precision-bits", "the lower 16 bits of a precision are taken for it"),
    ("interval-window-end", "a window of 1,000,000 is refused"),
    ("interval-precision-end", "a precision of 1,000,000 is refused under 17"),
    ("interval-drift-1", "a drift of 1 is refused"),
    ("interval-drift-1000", "a drift of 1000 is refused"),
    ("interval-place-17", "the place of 17 is which input is at fault"),
    ("interval-place-18", "the precision is the place of 18"),
    ("interval-shown-17", "least and greatest beside 17 are 1"),
    ("interval-shown-18", "least and greatest beside 18 are what the formulas give"),
    ("fallback-tray-first", "7 is asked before 19"),
    ("fallback-tray-last", "7 is asked after 8 and 9 of the CCA sheet"),
    ("fallback-tray-exact", "a buffer of just 10 + 5N bytes is too short"),
    ("fallback-early", "8 and 9 of the FCA sheet are asked before the CCA sheet is settled"),
    ("fallback-late", "1 to 6 of the FCA sheet, and 19, are asked after a 10 alone"),
    ("fallback-direct-first", "1 to 6 of the FCA sheet are asked before those of the CCA sheet"),
    ("fallback-pair-first", "19 is asked before 1 to 6 of the FCA sheet"),
    ("fallback-marks-first", "8 and 9 of the CCA sheet are asked before 19"),
    ("fallback-any", "the FCA sheet is tried after an 8 or a 9 of the CCA sheet too"),
    ("fallback-never", "a 10 of the CCA sheet stands"),
    ("fallback-always", "the FCA sheet settles the round wherever it can"),
    ("fallback-estimators", "sheets whose estimators differ are refused under 19"),
    ("fallback-estimator", "the FCA sheet is settled by the CCA sheet's estimator"),
    ("fallback-cabinets", "19 does not ask whether N is the same"),
    ("fallback-faults", "19 does not ask whether m is the same"),
    ("fallback-window", "19 does not ask whether the window is the same"),
    ("fallback-window-bits", "19 asks whether the lower 16 bits of the windows are the same"),
    ("fallback-rule-2", "rule 2 is let through as the second sheet"),
    ("fallback-rule-3", "rule 3 is let through as the second sheet"),
    ("fallback-first-trimmed", "a trimming rule is let through as the first sheet"),
    ("fallback-direct-twice", "an FCA sheet is let through as the first"),
    ("fallback-crusaders-twice", "a CCA sheet is let through as the second"),
    ("fallback-swapped", "an FCA sheet and then a CCA sheet are taken in the other order"),
    ("fallback-place-19", "the place of 19 is 1"),
    ("fallback-place", "the place of the FCA sheet's 8 and 9 is 0"),
    ("fallback-place-behind", "the FCA sheet's entries are numbered behind those of the CCA sheet"),
    ("fallback-ten", "the CCA sheet's 10 is given where the FCA sheet is refused under 8 or 9"),
    ("fallback-written", "an FCA sheet that is refused after a 10 touches the buffer"),
    ("fallback-past", "one byte past the answer is touched after a fallback"),
    ("fallback-source", "the CCA sheet is said to have settled after a fallback too"),
    ("fallback-source-swapped", "the one sheet is said to have settled where it was the other"),
    ("fallback-source-from-0", "the sheets are numbered from 0"),
    ("fallback-source-refused", "an FCA sheet that is refused is said to have settled"),
    ("fallback-shown-crusaders", "the CCA sheet's readings are shown after a fallback too"),
    ("fallback-shown-marks", "the marks are shown with the readings"),
    ("fallback-shown-early", "the part shown begins at the marks"),
    ("fallback-shown-row", "one row of readings is shown"),
    ("fallback-shown-sheet", "the whole sheet is shown"),
    ("fallback-shown-refused", "the readings of an FCA sheet that is refused are shown"),
];

const OF_THE_ROUND: usize = 40;

pub struct Sabotaged {
    engine: Box<dyn Engine>,
    how: &'static str,
}

impl Sabotaged {
    /// The engine made wrong in the named way; None when there is no such way.
    pub fn new(engine: Box<dyn Engine>, how: &str) -> Option<Sabotaged> {
        let (how, _) = SABOTAGES.iter().find(|(name, _)| *name == how)?;
        Some(Sabotaged { engine, how })
    }

    /// A settling, with a spread or 0, which `right` does for the engine.
    fn wrong_settle(
        &self,
        sheet: &[u8],
        spread: u32,
        answer: &mut [u8],
        right: impl Fn(&mut [u8]) -> u64,
    ) -> u64 {
        let mut tray = answer.to_vec();
        let given = right(&mut tray);
        match (self.how, number(given)) {
            ("order", 7) => {
                let again = right(&mut [0; 330]);
                return if number(again) == 8 { again } else { given };
            }
            ("ghost-first", 8) => {
                let place = given as u32 as usize;
                return match ghosts(sheet).find(|&ghost| ghost < place) {
                    Some(ghost) => packed(Refusal::at(9, ghost)),
                    None => given,
                };
            }
            ("place", 8) => {
                let bad = (0..entries(sheet)).rfind(|entry| sheet[8 + entry] > 1);
                return packed(Refusal::at(8, bad.unwrap()));
            }
            ("place", 9) => return packed(Refusal::at(9, ghosts(sheet).last().unwrap())),
            ("refused-tray", 1..) if !tray.is_empty() => tray[0] ^= 1,
            ("past", 0) if tray.len() > given as usize => tray[given as usize] ^= 1,
            (how, 0 | 10) => match wrong_round(how, sheet, spread).or(wrong_trim(how, sheet)) {
                None => {}
                Some(Err(refusal)) => return packed(refusal),
                Some(Ok(round)) => {
                    answer[..round.len()].copy_from_slice(&round);
                    return round.len() as u64;
                }
            },
            _ => {}
        }
        answer.copy_from_slice(&tray);
        given
    }
}

impl Engine for Sabotaged {
    fn name(&self) -> String {
        format!("{} with sabotage {}", self.engine.name(), self.how)
    }

    fn settle(&self, sheet: &[u8], answer: &mut [u8]) -> u64 {
        if let Some(other) = taken_for(self.how, sheet) {
            return self.engine.settle(&other, answer);
        }
        self.wrong_settle(sheet, 0, answer, |tray| self.engine.settle(sheet, tray))
    }

    fn settle_spread(&self, sheet: &[u8], spread: u32, answer: &mut [u8]) -> u64 {
        let right = |tray: &mut [u8]| self.engine.settle_spread(sheet, spread, tray);
        match wrong_spread(&*self.engine, self.how, sheet, spread, answer) {
            Some(given) => given,
            None => self.wrong_settle(sheet, spread, answer, right),
        }
    }

    fn read(
        &self,
        sheet: &[u8],
        settings: &mut Settings,
        marks: &mut [u8],
        readings: &mut [i32],
    ) -> u64 {
        if self.how == "read-trimmed" && trims(sheet) {
            return packed(Refusal::new(4));
        }
        let given = self.engine.read(sheet, settings, marks, readings);
        if self.how == "read-past" && number(given) == 0 && readings.len() > given as usize {
            readings[given as usize] ^= 1;
        }
        given
    }

    fn write(&self, settings: &Settings, marks: &[u8], readings: &[i32], sheet: &mut [u8]) -> u64 {
        if self.how == "write-trimmed" && settings.trims() && settings.check().is_ok() {
            return packed(Refusal::new(4));
        }
        let given = self.engine.write(settings, marks, readings, sheet);
        if self.how == "write-past" && number(given) == 0 && sheet.len() > given as usize {
            sheet[given as usize] ^= 1;
        }
        given
    }

    fn row<'a>(&self, sheet: &'a [u8], cabinet: u32) -> &'a [u8] {
        if self.how == "from-one" {
            return self.engine.row(sheet, cabinet.wrapping_sub(1));
        }
        if self.how == "row-trimmed" && trims(sheet) {
            return &[];
        }
        self.engine.row(sheet, cabinet)
    }

    fn plan(&self, settings: &Settings, accuracy: u32, rounds: u32, plan: &mut Plan) -> u64 {
        if self.how == "plan-trimmed" && settings.trims() {
            let given = self.engine.plan(&by_fca(settings), accuracy, rounds, plan);
            if number(given) == 0 {
                plan.settings.rule = settings.rule;
            }
            return given;
        }
        let given = self.engine.plan(settings, accuracy, rounds, plan);
        if self.how == "repeat" && number(given) == 0 && rounds > 1 {
            plan.settings.window = reference::next_window(settings);
        }
        if let (Some(part), 0) = (wrong_part(self.how, "plan"), number(given)) {
            *plan = wrong_plan(part, settings, accuracy, rounds);
        }
        given
    }

    fn step(&self, plan: &Plan, next: &mut Plan) -> u64 {
        if self.how == "step-late" && plan.rounds == 32 {
            return self.engine.step(&Plan { rounds: 31, ..*plan }, next);
        }
        if self.how == "step-trimmed" && plan.settings.trims() {
            let taken = Plan { settings: by_fca(&plan.settings), ..*plan };
            let given = self.engine.step(&taken, next);
            if number(given) == 0 {
                next.settings.rule = plan.settings.rule;
            }
            return given;
        }
        let given = self.engine.step(plan, next);
        if self.how == "step-wide" && number(given) == 0 {
            next.settings.window = plan.settings.window;
        }
        if let (Some(part), 0) = (wrong_part(self.how, "step"), number(given)) {
            *next = wrong_step(part, plan);
        }
        given
    }

    fn target(&self, settings: &Settings, accuracy: u32, target: u32) -> u64 {
        if self.how == "target-short" {
            if let Ok(fit) = reference::target(settings, accuracy, target) {
                return fit[0].saturating_sub(1) as u64;
            }
        }
        if self.how == "target-trimmed" && settings.trims() {
            return self.engine.target(&by_fca(settings), accuracy, target);
        }
        let given = self.engine.target(settings, accuracy, target);
        match (wrong_part(self.how, "target"), number(given)) {
            (Some(part), 0 | 12) => wrong_target(part, settings, target),
            _ => given,
        }
    }

    fn interval(&self, window: u32, precision: u32, drift: u32) -> Spacing {
        wrong_interval(&*self.engine, self.how, window, precision, drift)
            .unwrap_or_else(|| self.engine.interval(window, precision, drift))
    }

    /// Of a way that is about the round, by both sheets settled in that way.
    fn fallback(&self, crusaders: &[u8], direct: &[u8], answer: &mut [u8]) -> Fallen {
        if is_of_the_round(self.how) {
            return fallback_by_hand(self, crusaders, direct, answer);
        }
        match wrong_fallback(&*self.engine, self.how, crusaders, direct, answer) {
            Some(given) => given,
            None => self.engine.fallback(crusaders, direct, answer),
        }
    }

    fn replay(&self, trace: &[u8], values: &mut [u8]) -> u64 {
        match wrong_replay(&*self.engine, self.how, trace, values) {
            Some(given) => given,
            None => self.engine.replay(trace, values),
        }
    }
}

fn is_of_the_round(how: &str) -> bool {
    SABOTAGES[..OF_THE_ROUND].iter().any(|(name, _)| *name == how)
}

/// Whether a sheet that passes checks 1 to 6 is of a trimming rule.
fn trims(sheet: &[u8]) -> bool {
    reference::settings_of(sheet).is_ok_and(|settings| settings.trims())
}

fn by_fca(settings: &Settings) -> Settings {
    Settings { rule: FCA, ..*settings }
}

fn entries(sheet: &[u8]) -> usize {
    (sheet.len() - 8) / 5
}

fn ghosts(sheet: &[u8]) -> impl Iterator<Item = usize> + '_ {
    let entries = entries(sheet);
    let readings = sheet[8 + entries..].chunks(4);
    let ghost = move |(entry, bytes): (usize, &[u8])| {
        (sheet[8 + entry] == 0 && bytes != [0; 4]).then_some(entry)
    };
    readings.enumerate().filter_map(ghost)
}

/// The round of a sheet that passed checks 1 to 9, wrong in the named way; None when the way
/// is not about the round, or the rule is a trimming rule.
fn wrong_round(how: &str, sheet: &[u8], spread: u32) -> Option<Result<Vec<u8>, Refusal>> {
    if !is_of_the_round(how) || (how.starts_with("spread-") && spread == 0) {
        return None;
    }
    let settings = reference::settings_of(sheet).ok().filter(|settings| !settings.trims())?;
    let entries = reference::entries_of(sheet, &settings).ok()?;
    let n = settings.n as usize;
    let copies = if how == "row-low" { settings.need() - 1 } else { settings.need() };
    let readings: Vec<Option<i32>> = if settings.rule == reference::CCA {
        entries.chunks(n).map(|row| reference::decide(row, copies)).collect()
    } else {
        entries
    };
    let present: Vec<i64> = readings.iter().flatten().map(|&v| v as i64).collect();
    let is_accepted = |v: i64| wrong_acceptance(how, &settings, spread, &present, v);
    let accepted: Vec<bool> =
        readings.iter().map(|v| v.is_some_and(|v| is_accepted(v as i64))).collect();
    let values: Vec<i64> = readings
        .iter()
        .zip(&accepted)
        .filter_map(|(v, &accepted)| if accepted { v.map(i64::from) } else { None })
        .collect();
    let without_spread = |&v: &i64| wrong_acceptance("", &settings, 0, &present, v);
    if values.is_empty()
        || (how == "refuse-need" && values.len() == settings.need())
        || (how == "spread-10" && !present.iter().any(without_spread))
    {
        return Some(Err(Refusal::new(10)));
    }
    let estimate = wrong_estimate(how, settings.estimator, &values, &present);
    let mut marks = Vec::new();
    let mut used = Vec::new();
    for (v, &accepted) in readings.iter().zip(&accepted) {
        let (mark, value) = match v {
            None => (0, estimate),
            Some(v) if accepted => (1, *v as i64),
            Some(_) => (2, estimate),
        };
        marks.push(mark);
        used.push(value);
    }
    let mut round =
        Round { count: values.len(), estimate, new: reference::mean(&used), marks, used };
    if how == "tick-off" {
        let mut hasher = DefaultHasher::new();
        hasher.write(sheet);
        let tick = hasher.finish() % 2;
        round.new = (round.new + tick as i64).min(i32::MAX as i64);
    }
    let span = settings.window as i64 + spread as i64;
    round.new = wrong_mean(how, &round, &present, span).unwrap_or(round.new);
    Some(Ok(round.bytes()))
}

/// The estimate of a round with these accepted and these present readings, wrong in the named way.
fn wrong_estimate(how: &str, estimator: u8, accepted: &[i64], present: &[i64]) -> i64 {
    match (how, estimator) {
        ("highest", _) => *accepted.iter().max().unwrap(),
        ("middle-two", MEDIAN) => middle_two(accepted),
        ("average-even", AVERAGE) => reference::mean(accepted),
        ("midpoint-even", MIDPOINT) => {
            reference::mean(&[*accepted.iter().min().unwrap(), *accepted.iter().max().unwrap()])
        }
        ("all-readings", _) => reference::estimate(estimator, present),
        _ => reference::estimate(estimator, accepted),
    }
}

fn wrong_acceptance(how: &str, settings: &Settings, spread: u32, present: &[i64], v: i64) -> bool {
    let (tried, counted) = widths(how, settings.window as i64, spread as i64);
    let need = match how {
        "need-low" => settings.need() - 1,
        "need-high" => settings.need() + 1,
        _ => settings.need(),
    };
    if how == "pairwise" {
        return present.iter().filter(|&&other| (v - other).abs() <= counted).count() >= need;
    }
    present.iter().any(|&start| {
        let end = |width: i64| match how {
            "spread-wraps" => (start + width) as i32 as i64,
            _ => start + width,
        };
        let holds = |v: i64, width: i64| start <= v && v <= end(width);
        let in_span = |other: &i64| holds(*other, counted);
        let mut held: Vec<i64> = present.iter().copied().filter(in_span).collect();
        if how == "distinct" {
            held.sort();
            held.dedup();
        }
        holds(v, tried) && held.len() >= need
    })
}

/// How wide a span is for the reading that is tried, and for those that are counted.
fn widths(how: &str, window: i64, spread: i64) -> (i64, i64) {
    let span = window + spread;
    let (tried, counted) = match how {
        "spread-start" => (window, span),
        "spread-count" => (span, window),
        _ => (span, span),
    };
    let wider = match how {
        "span-wide" => 1,
        "strict" => -1,
        "spread-ignored" => -spread,
        "spread-tick" => -1,
        "spread-twice" => spread,
        "spread-bits" => spread % (1 << 16) - spread,
        _ => 0,
    };
    (tried + wider, counted + wider)
}

fn middle_two(values: &[i64]) -> i64 {
    let mut sorted = values.to_vec();
    sorted.sort();
    let count = sorted.len();
    (sorted[(count - 1) / 2] + sorted[count / 2]).div_euclid(2)
}
