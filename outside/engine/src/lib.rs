//! The calls of an agreement engine, in the manner of the C interface: an answer below 2^32 is
//! a grant, any other is number × 2^32 + place of a refusal.
#![deny(unsafe_code)]

/// The calls that an engine without its own leaves to the reference.
macro_rules! others_by_reference {
    () => {
        fn write(
            &self,
            settings: &Settings,
            marks: &[u8],
            readings: &[i32],
            sheet: &mut [u8],
        ) -> u64 {
            crate::Reference.write(settings, marks, readings, sheet)
        }

        fn row<'a>(&self, sheet: &'a [u8], cabinet: u32) -> &'a [u8] {
            crate::Reference.row(sheet, cabinet)
        }

        fn plan(&self, settings: &Settings, accuracy: u32, rounds: u32, plan: &mut Plan) -> u64 {
            crate::Reference.plan(settings, accuracy, rounds, plan)
        }

        fn step(&self, plan: &Plan, next: &mut Plan) -> u64 {
            crate::Reference.step(plan, next)
        }

        fn target(&self, settings: &Settings, accuracy: u32, target: u32) -> u64 {
            crate::Reference.target(settings, accuracy, target)
        }
    };
}

mod by_hand;
#[cfg(feature = "before")]
#[allow(unsafe_code)]
mod direct;
#[cfg(feature = "linked")]
mod linked;
#[cfg(feature = "linked")]
mod recorded;
pub mod sabotage;
pub mod traces;
#[cfg(feature = "linked")]
#[allow(unsafe_code)]
mod whole;
mod wrong_fallback;
mod wrong_interval;
mod wrong_plan;
mod wrong_replay;
mod wrong_spread;
mod wrong_sum;
mod wrong_trim;

pub use by_hand::{fallback_by_hand, replay_by_hand};
use plain::{Plain, Steps, Tuned};
use reference::Source;
pub use reference::{Plan, Refusal, Settings};

pub trait Engine {
    fn name(&self) -> String;

    /// The length of the answer sheet.
    fn settle(&self, sheet: &[u8], answer: &mut [u8]) -> u64;

    /// The same with a spread.
    fn settle_spread(&self, sheet: &[u8], spread: u32, answer: &mut [u8]) -> u64;

    /// E, the number of entries filled.
    fn read(
        &self,
        sheet: &[u8],
        settings: &mut Settings,
        marks: &mut [u8],
        readings: &mut [i32],
    ) -> u64;

    /// The length of the sheet.
    fn write(&self, settings: &Settings, marks: &[u8], readings: &[i32], sheet: &mut [u8]) -> u64;

    /// The part of the sheet that holds a cabinet's readings, or an empty part.
    fn row<'a>(&self, sheet: &'a [u8], cabinet: u32) -> &'a [u8];

    /// The rounds done, which the plan holds too.
    fn plan(&self, settings: &Settings, accuracy: u32, rounds: u32, plan: &mut Plan) -> u64;

    /// The rounds done, which the next plan holds too.
    fn step(&self, plan: &Plan, next: &mut Plan) -> u64;

    /// A count of rounds that fits.
    fn target(&self, settings: &Settings, accuracy: u32, target: u32) -> u64;

    /// The least and the greatest interval between rounds.
    fn interval(&self, window: u32, precision: u32, drift: u32) -> Spacing;

    /// The same as C hands it back, where the engine goes through a wrapper, which hands on nothing beside a refusal.
    fn interval_in_c(&self, _window: u32, _precision: u32, _drift: u32) -> Option<Spacing> {
        None
    }

    /// Settles a CCA sheet and, after a 10, an FCA sheet in its place.
    fn fallback(&self, crusaders: &[u8], direct: &[u8], answer: &mut [u8]) -> Fallen;

    /// The same as C hands it back, where the engine goes through a wrapper, which hands on nothing beside a refusal.
    fn fallback_in_c(
        &self,
        _crusaders: &[u8],
        _direct: &[u8],
        _answer: &mut [u8],
    ) -> Option<Fallen> {
        None
    }

    /// The length of the final values of a recorded run, 4N.
    fn replay(&self, trace: &[u8], values: &mut [u8]) -> u64;

    /// Whether the engine has settling with a spread, as the library of an earlier commit may not.
    fn has_spread(&self) -> bool {
        true
    }

    /// Whether the engine has the trimming rules, as the library of an earlier commit may not: it settles a sheet of one
    /// cabinet by rule 2.
    fn has_trimming(&self) -> bool {
        let sheet = [1, 0, reference::TRIMMED_MIDPOINT, 0, 0, 0, 0, 0, 1, 5, 0, 0, 0];
        number(self.settle(&sheet, &mut [0; 15])) == 0
    }

    /// A digest of all answers so far, where the engine keeps one.
    fn digest(&self) -> Option<u64> {
        None
    }
}

/// An answer of 0, and the least and the greatest interval; or a refusal, and beside it two times 0.
#[derive(Clone, Copy, Debug, PartialEq, Eq)]
pub struct Spacing {
    pub answer: u64,
    pub least: u64,
    pub greatest: u64,
}

impl Spacing {
    pub fn granted(least: u64, greatest: u64) -> Spacing {
        Spacing { answer: 0, least, greatest }
    }

    pub fn refused(answer: u64) -> Spacing {
        Spacing { answer, least: 0, greatest: 0 }
    }
}

/// The length of the answer sheet, which sheet settled, 1 the CCA sheet and 2 the FCA sheet, and where its readings begin and
/// how long they are; or a refusal, and beside it three times 0.
#[derive(Clone, Copy, Debug, PartialEq, Eq)]
pub struct Fallen {
    pub answer: u64,
    pub settled_by: u32,
    pub start: u32,
    pub length: u32,
}

/// Which sheet settled.
pub const BY_CRUSADERS: u32 = Source::Crusaders as u32;
pub const BY_DIRECT: u32 = Source::Direct as u32;

impl Fallen {
    pub fn refused(answer: u64) -> Fallen {
        Fallen { answer, settled_by: 0, start: 0, length: 0 }
    }

    /// Settled by a sheet, of which these are the readings.
    pub fn showing(answer: u64, settled_by: u32, sheet: &[u8], readings: &[u8]) -> Fallen {
        let start = (readings.as_ptr() as usize).wrapping_sub(sheet.as_ptr() as usize);
        let start = u32::try_from(start).unwrap_or(u32::MAX);
        Fallen { answer, settled_by, start, length: readings.len() as u32 }
    }
}

pub fn packed(refusal: Refusal) -> u64 {
    ((refusal.number as u64) << 32) + refusal.place as u64
}

/// The number of refusal in an answer, 0 for a grant.
pub fn number(answer: u64) -> usize {
    (answer >> 32) as usize
}

/// An answer in words.
pub fn words(answer: u64) -> String {
    match answer >> 32 {
        0 => format!("granted {answer}"),
        number => format!("refused {number} {}", answer as u32),
    }
}

/// The reference: the documents in plain safe Rust.
pub struct Reference;

impl Engine for Reference {
    fn name(&self) -> String {
        "reference".into()
    }

    fn settle(&self, sheet: &[u8], answer: &mut [u8]) -> u64 {
        reference::settle(sheet, answer).map_or_else(packed, |length| length as u64)
    }

    fn settle_spread(&self, sheet: &[u8], spread: u32, answer: &mut [u8]) -> u64 {
        reference::settle_spread(sheet, spread, answer).map_or_else(packed, |length| length as u64)
    }

    fn read(
        &self,
        sheet: &[u8],
        settings: &mut Settings,
        marks: &mut [u8],
        readings: &mut [i32],
    ) -> u64 {
        match reference::read(sheet, marks, readings) {
            Err(refusal) => packed(refusal),
            Ok(given) => {
                *settings = given;
                given.entries() as u64
            }
        }
    }

    fn write(&self, settings: &Settings, marks: &[u8], readings: &[i32], sheet: &mut [u8]) -> u64 {
        reference::write(settings, marks, readings, sheet)
            .map_or_else(packed, |length| length as u64)
    }

    fn row<'a>(&self, sheet: &'a [u8], cabinet: u32) -> &'a [u8] {
        reference::row(sheet, cabinet)
    }

    fn plan(&self, settings: &Settings, accuracy: u32, rounds: u32, plan: &mut Plan) -> u64 {
        hand_back(reference::plan(settings, accuracy, rounds), plan)
    }

    fn step(&self, plan: &Plan, next: &mut Plan) -> u64 {
        hand_back(reference::step(plan), next)
    }

    fn target(&self, settings: &Settings, accuracy: u32, target: u32) -> u64 {
        reference::target(settings, accuracy, target).map_or_else(packed, |fit| fit[0] as u64)
    }

    fn interval(&self, window: u32, precision: u32, drift: u32) -> Spacing {
        match reference::interval(window, precision, drift) {
            Ok(given) => Spacing::granted(given.least, given.greatest),
            Err(refusal) => Spacing::refused(packed(refusal)),
        }
    }

    fn fallback(&self, crusaders: &[u8], direct: &[u8], answer: &mut [u8]) -> Fallen {
        match reference::fallback(crusaders, direct, answer) {
            Err(refusal) => Fallen::refused(packed(refusal)),
            Ok(reference::Fallback { length, source, readings }) => {
                let sheet = match source {
                    Source::Crusaders => crusaders,
                    Source::Direct => direct,
                };
                Fallen::showing(length as u64, source as u32, sheet, readings)
            }
        }
    }

    fn replay(&self, trace: &[u8], values: &mut [u8]) -> u64 {
        reference::replay(trace, values).map_or_else(packed, |length| length as u64)
    }
}

fn hand_back(given: Result<Plan, Refusal>, plan: &mut Plan) -> u64 {
    match given {
        Err(refusal) => packed(refusal),
        Ok(given) => {
            *plan = given;
            given.rounds as u64
        }
    }
}

/// Settles, reads, falls back and replays by the steps of outside/plain, which has the interval too; its other calls are
/// the reference's.
pub struct Own<S>(pub S);

impl<S: Steps> Engine for Own<S> {
    fn name(&self) -> String {
        S::NAME.into()
    }

    fn settle(&self, sheet: &[u8], answer: &mut [u8]) -> u64 {
        plain::settle::<S>(sheet, answer)
    }

    fn settle_spread(&self, sheet: &[u8], spread: u32, answer: &mut [u8]) -> u64 {
        plain::settle_spread::<S>(sheet, spread, answer)
    }

    fn read(
        &self,
        sheet: &[u8],
        settings: &mut Settings,
        marks: &mut [u8],
        readings: &mut [i32],
    ) -> u64 {
        let answer = plain::read::<S>(sheet, marks, readings);
        if number(answer) == 0 {
            *settings = Settings {
                n: sheet[0],
                m: sheet[1],
                rule: sheet[2],
                estimator: sheet[3],
                window: u32::from_le_bytes([sheet[4], sheet[5], sheet[6], sheet[7]]),
            };
        }
        answer
    }

    fn interval(&self, window: u32, precision: u32, drift: u32) -> Spacing {
        match plain::interval(window, precision, drift) {
            Ok((least, greatest)) => Spacing::granted(least, greatest),
            Err(answer) => Spacing::refused(answer),
        }
    }

    fn fallback(&self, crusaders: &[u8], direct: &[u8], answer: &mut [u8]) -> Fallen {
        let plain::Fallback { answer, settled_by, start, length } =
            plain::fallback::<S>(crusaders, direct, answer);
        Fallen { answer, settled_by, start, length }
    }

    fn replay(&self, trace: &[u8], values: &mut [u8]) -> u64 {
        plain::replay::<S>(trace, values)
    }

    others_by_reference!();
}

/// The engine of that name. `linked` and `recorded` are known when the library was built in, `now` and `before` when that
/// of an earlier commit was too.
pub fn named(name: &str) -> Option<Box<dyn Engine>> {
    match name {
        "reference" => Some(Box::new(Reference)),
        "plain" => Some(Box::new(Own(Plain))),
        "tuned" => Some(Box::new(Own(Tuned))),
        #[cfg(feature = "linked")]
        "linked" => Some(Box::new(linked::Linked)),
        #[cfg(feature = "before")]
        "now" => Some(Box::new(direct::NOW)),
        #[cfg(feature = "before")]
        "before" => Some(Box::new(direct::BEFORE)),
        #[cfg(feature = "linked")]
        "recorded" => Some(Box::new(recorded::Recorded::new())),
        _ => None,
    }
}

/// The engine that is checked unless another is named.
pub const CHECKED: &str = if cfg!(feature = "linked") { "linked" } else { "plain" };
