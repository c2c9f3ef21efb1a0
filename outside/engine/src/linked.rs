//! The proved library behind its C interface, through the wrapper of bindings/rust, compiled with
//! the feature `linked`. So the checks hold the wrapper to the documents too.

use crate::{whole, Engine, Fallen, Plan, Settings, Spacing};

fn packed<A>(given: Result<A, tohiranga::Refusal>, granted: impl FnOnce(A) -> u64) -> u64 {
    given.map_or_else(|refusal| ((refusal.number as u64) << 32) + refusal.place as u64, granted)
}

pub fn settings_to(settings: &Settings) -> tohiranga::Settings {
    let Settings { n, m, rule, estimator, window } = *settings;
    tohiranga::Settings { n, m, rule, estimator, window }
}

pub fn settings_from(settings: tohiranga::Settings) -> Settings {
    let tohiranga::Settings { n, m, rule, estimator, window } = settings;
    Settings { n, m, rule, estimator, window }
}

pub fn plan_to(plan: &Plan) -> tohiranga::Plan {
    let Plan { settings, accuracy, rounds } = plan;
    tohiranga::Plan { settings: settings_to(settings), accuracy: *accuracy, rounds: *rounds }
}

pub fn plan_from(plan: tohiranga::Plan) -> Plan {
    let tohiranga::Plan { settings, accuracy, rounds } = plan;
    Plan { settings: settings_from(settings), accuracy, rounds }
}

fn hand_back(given: Result<tohiranga::Plan, tohiranga::Refusal>, plan: &mut Plan) -> u64 {
    packed(given, |given| {
        *plan = plan_from(given);
        given.rounds as u64
    })
}

pub struct Linked;

impl Engine for Linked {
    fn name(&self) -> String {
        "linked".into()
    }

    fn settle(&self, sheet: &[u8], answer: &mut [u8]) -> u64 {
        packed(tohiranga::settle(sheet, answer), |length| length as u64)
    }

    fn settle_spread(&self, sheet: &[u8], spread: u32, answer: &mut [u8]) -> u64 {
        packed(tohiranga::settle_spread(sheet, spread, answer), |length| length as u64)
    }

    fn read(
        &self,
        sheet: &[u8],
        settings: &mut Settings,
        marks: &mut [u8],
        readings: &mut [i32],
    ) -> u64 {
        packed(tohiranga::read(sheet, marks, readings), |given| {
            *settings = settings_from(given);
            given.entries() as u64
        })
    }

    fn write(&self, settings: &Settings, marks: &[u8], readings: &[i32], sheet: &mut [u8]) -> u64 {
        packed(tohiranga::write(settings_to(settings), marks, readings, sheet), |length| {
            length as u64
        })
    }

    fn row<'a>(&self, sheet: &'a [u8], cabinet: u32) -> &'a [u8] {
        tohiranga::row(sheet, cabinet)
    }

    fn plan(&self, settings: &Settings, accuracy: u32, rounds: u32, plan: &mut Plan) -> u64 {
        hand_back(settings_to(settings).plan(accuracy, rounds), plan)
    }

    fn step(&self, plan: &Plan, next: &mut Plan) -> u64 {
        hand_back(plan_to(plan).step(), next)
    }

    fn target(&self, settings: &Settings, accuracy: u32, target: u32) -> u64 {
        packed(settings_to(settings).rounds_for(accuracy, target), |rounds| rounds as u64)
    }

    fn interval(&self, window: u32, precision: u32, drift: u32) -> Spacing {
        match tohiranga::interval(window, precision, drift) {
            Ok(given) => Spacing::granted(given.least, given.greatest),
            Err(refusal) => Spacing::refused(packed(Err(refusal), |()| 0)),
        }
    }

    fn interval_in_c(&self, window: u32, precision: u32, drift: u32) -> Option<Spacing> {
        Some(whole::interval(window, precision, drift))
    }

    fn fallback(&self, crusaders: &[u8], direct: &[u8], answer: &mut [u8]) -> Fallen {
        match tohiranga::fallback(crusaders, direct, answer) {
            Err(refusal) => Fallen::refused(packed(Err(refusal), |()| 0)),
            Ok(tohiranga::Fallback { settled_by, length, readings }) => {
                let sheet = match settled_by {
                    tohiranga::SettledBy::Crusaders => crusaders,
                    tohiranga::SettledBy::Direct => direct,
                };
                Fallen::showing(length as u64, settled_by as u32, sheet, readings)
            }
        }
    }

    fn fallback_in_c(&self, crusaders: &[u8], direct: &[u8], answer: &mut [u8]) -> Option<Fallen> {
        Some(whole::fallback(crusaders, direct, answer))
    }

    fn replay(&self, trace: &[u8], values: &mut [u8]) -> u64 {
        packed(tohiranga::replay(trace, values), |length| length as u64)
    }
}
