//! Planners that are wrong in a named way, the last word of which says what is wrong: see `sabotage`.

use crate::{packed, Plan, Refusal, Settings};
use reference::{next_accuracy, next_window, sums_apart};

/// What is wrong, in a way of that call; None where the way is another.
pub fn wrong_part<'a>(how: &'a str, call: &str) -> Option<&'a str> {
    let part = how.strip_prefix(call)?.strip_prefix('-')?;
    ["one", "ceiling", "accuracy"].contains(&part).then_some(part)
}

pub fn wrong_window(part: &str, settings: &Settings) -> u32 {
    let n = settings.n as u64;
    match part {
        "one" => (sums_apart(settings) / n + 1) as u32,
        "ceiling" => sums_apart(settings).div_ceil(n) as u32,
        _ => next_window(settings),
    }
}

/// The plan one round on.
pub fn wrong_step(part: &str, plan: &Plan) -> Plan {
    let Settings { n, m, window, .. } = plan.settings;
    let growth = m as u64 * window as u64 / n as u64 + 1;
    Plan {
        settings: Settings { window: wrong_window(part, &plan.settings), ..plan.settings },
        accuracy: match part {
            "accuracy" => plan.accuracy + growth as u32,
            _ => next_accuracy(&plan.settings, plan.accuracy),
        },
        rounds: plan.rounds + 1,
    }
}

/// The plan after so many rounds.
pub fn wrong_plan(part: &str, settings: &Settings, accuracy: u32, rounds: u32) -> Plan {
    let start = Plan { settings: *settings, accuracy, rounds: 0 };
    (0..rounds).fold(start, |plan, _| wrong_step(part, &plan))
}

/// The first count of rounds that fits a target, or refusal 12.
pub fn wrong_target(part: &str, settings: &Settings, target: u32) -> u64 {
    let fits = |rounds: &u32| wrong_plan(part, settings, 0, *rounds).settings.window <= target;
    (0..=32).find(fits).map_or(packed(Refusal::new(12)), u64::from)
}
