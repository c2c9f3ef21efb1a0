//! Fallbacks to the direct sheet that are wrong in a named way: see `sabotage`.

use crate::{number, packed, Engine, Fallen, Refusal, BY_CRUSADERS, BY_DIRECT};
use reference::{entries_of, settings_of, CCA, FCA, TRIMMED_MEAN, TRIMMED_MIDPOINT};

/// The answer of a fallback that is wrong in that way; None where it is the engine's own.
pub fn wrong_fallback(
    engine: &dyn Engine,
    how: &str,
    crusaders: &[u8],
    direct: &[u8],
    answer: &mut [u8],
) -> Option<Fallen> {
    let how = how.strip_prefix("fallback-")?;
    let rules = (crusaders.get(2), direct.get(2));
    let call = match (how, rules) {
        ("swapped", (Some(&FCA), Some(&CCA))) => {
            Call { engine, how, crusaders: direct, direct: crusaders }
        }
        _ => Call { engine, how, crusaders, direct },
    };
    Some(call.fall(answer))
}

/// A call, and the way in which it is wrong.
struct Call<'a> {
    engine: &'a dyn Engine,
    how: &'a str,
    crusaders: &'a [u8],
    direct: &'a [u8],
}

/// What is asked before the CCA sheet is settled: checks 1 to 6 of either sheet, 19, 7, and 8 and 9 of either.
#[derive(Clone, Copy)]
enum Stage {
    First,
    Second,
    Pair,
    Tray,
    FirstMarks,
    SecondMarks,
}

/// The bytes of a sheet with N, m and δ; None of a stub.
fn sizes(sheet: &[u8]) -> Option<(u8, u8, u32)> {
    let window = sheet.get(4..8)?.try_into().ok()?;
    Some((sheet[0], sheet[1], u32::from_le_bytes(window)))
}

fn entries(sheet: &[u8]) -> usize {
    (sheet.len() - 8) / 5
}

impl Call<'_> {
    fn stages(&self) -> &'static [Stage] {
        use Stage::*;
        match self.how {
            "tray-first" => &[First, Second, Tray, Pair],
            "tray-last" => &[First, Second, Pair, FirstMarks, Tray],
            "early" => &[First, Second, Pair, Tray, SecondMarks],
            "late" => &[First, Tray],
            "direct-first" => &[Second, First, Pair, Tray],
            "pair-first" => &[First, Pair, Second, Tray],
            "marks-first" => &[First, Second, FirstMarks, Pair, Tray],
            _ => &[First, Second, Pair, Tray],
        }
    }

    fn ask(&self, stage: Stage, room: usize) -> Result<(), Refusal> {
        let marks = |sheet: &[u8]| entries_of(sheet, &settings_of(sheet)?);
        match stage {
            Stage::First => settings_of(self.crusaders).map(drop),
            Stage::Second => settings_of(self.direct).map(drop),
            Stage::Pair if self.is_pair() => Ok(()),
            Stage::Pair => Err(Refusal { number: 19, place: (self.how == "place-19") as u32 }),
            Stage::Tray => {
                let needed = settings_of(self.crusaders)?.answer_length();
                match room < needed || (self.how == "tray-exact" && room == needed) {
                    true => Err(Refusal::new(7)),
                    false => Ok(()),
                }
            }
            Stage::FirstMarks => marks(self.crusaders).map(drop),
            Stage::SecondMarks => marks(self.direct).map(drop),
        }
    }

    /// Whether check 19 lets the sheets through, stubs too.
    fn is_pair(&self) -> bool {
        let (first, second) = (self.crusaders, self.direct);
        let (Some((n, m, window)), Some((other_n, other_m, other_window))) =
            (sizes(first), sizes(second))
        else {
            return true;
        };
        let same_window = match self.how {
            "window" => true,
            "window-bits" => window as u16 == other_window as u16,
            _ => window == other_window,
        };
        let same_estimator = self.how != "estimators" || first[3] == second[3];
        let rules = match (self.how, first[2], second[2]) {
            (_, CCA, FCA) => true,
            ("direct-twice", FCA, FCA) => true,
            ("crusaders-twice", CCA, CCA) => true,
            ("rule-2", CCA, rule) => rule == TRIMMED_MIDPOINT,
            ("rule-3", CCA, rule) => rule == TRIMMED_MEAN,
            ("first-trimmed", rule, FCA) => rule > CCA,
            _ => false,
        };
        (n == other_n || self.how == "cabinets")
            && (m == other_m || self.how == "faults")
            && same_window
            && same_estimator
            && rules
    }

    fn fall(&self, answer: &mut [u8]) -> Fallen {
        for &stage in self.stages() {
            if let Err(refusal) = self.ask(stage, answer.len()) {
                return Fallen::refused(packed(refusal));
            }
        }
        let given = self.engine.settle(self.crusaders, answer);
        match (number(given), self.how) {
            (0, "always") => self.by_direct(answer, given),
            (0, _) => self.shown(given, BY_CRUSADERS, self.crusaders),
            (10, "never") => Fallen::refused(given),
            (10, _) | (8 | 9, "any") => self.by_direct(answer, given),
            _ => Fallen::refused(given),
        }
    }

    /// The FCA sheet's result, after this one of the CCA sheet.
    fn by_direct(&self, answer: &mut [u8], before: u64) -> Fallen {
        if self.how == "late" {
            for stage in [Stage::Second, Stage::Pair] {
                if let Err(refusal) = self.ask(stage, answer.len()) {
                    return Fallen::refused(packed(refusal));
                }
            }
        }
        let mut direct = self.direct.to_vec();
        if self.how == "estimator" {
            direct[3] = self.crusaders[3];
        }
        let given = self.engine.settle(&direct, answer);
        match (number(given), self.how) {
            (0, "past") if answer.len() > given as usize => answer[given as usize] ^= 1,
            (1.., "written") => answer[0] ^= 1,
            (1.., "always") if number(before) == 0 => {
                return self.shown(before, BY_CRUSADERS, self.crusaders);
            }
            (8 | 9, "ten") => return Fallen::refused(before),
            (8 | 9, "place") => return Fallen::refused(given >> 32 << 32),
            (8 | 9, "place-behind") => {
                return Fallen::refused(given + entries(self.crusaders) as u64);
            }
            (1.., "source-refused") => {
                return Fallen { settled_by: BY_DIRECT, ..Fallen::refused(given) };
            }
            (1.., "shown-refused") => {
                let shown = self.shown(given, 0, self.direct);
                return Fallen { answer: given, ..shown };
            }
            _ => {}
        }
        match number(given) {
            0 => self.shown(given, BY_DIRECT, self.direct),
            _ => Fallen::refused(given),
        }
    }

    /// Settled by a sheet.
    fn shown(&self, answer: u64, settled_by: u32, sheet: &[u8]) -> Fallen {
        let sheet = if self.how == "shown-crusaders" { self.crusaders } else { sheet };
        let (entries, n) = (entries(sheet), sheet[0] as usize);
        let (start, length) = match self.how {
            "shown-marks" => (8, 5 * entries),
            "shown-early" => (8, 4 * entries),
            "shown-row" => (8 + entries, 4 * n),
            "shown-sheet" => (0, sheet.len()),
            _ => (8 + entries, 4 * entries),
        };
        let settled_by = match self.how {
            "source" => BY_CRUSADERS,
            "source-swapped" if settled_by > 0 => BY_CRUSADERS + BY_DIRECT - settled_by,
            "source-from-0" => settled_by.saturating_sub(1),
            _ => settled_by,
        };
        Fallen { answer, settled_by, start: start as u32, length: length as u32 }
    }
}
