//! The round planner.

use crate::checks::{Refusal, Settings, CCA, MEDIAN};

/// A plan: the settings with the window as it is now, the accuracy now, and the rounds done.
#[repr(C)]
#[derive(Clone, Copy, Debug, Default, PartialEq, Eq)]
pub struct Plan {
    pub settings: Settings,
    pub accuracy: u32,
    pub rounds: u32,
}

/// 2mδ, or mδ for CCA with median: how far apart the sums of two sound cabinets' used values can be.
pub fn sums_apart(settings: &Settings) -> u64 {
    let Settings { m, rule, estimator, window, .. } = *settings;
    let times = if rule == CCA && estimator == MEDIAN { 1 } else { 2 };
    times * m as u64 * window as u64
}

/// 0 when m or δ is 0; else the whole part of 2mδ/N plus one, or of mδ/N for CCA with median.
pub fn next_window(settings: &Settings) -> u32 {
    if settings.m == 0 || settings.window == 0 {
        return 0;
    }
    (sums_apart(settings) / settings.n as u64 + 1) as u32
}

/// The accuracy, grown by ⌈mδ/N⌉.
pub fn next_accuracy(settings: &Settings, accuracy: u32) -> u32 {
    accuracy + (settings.m as u64 * settings.window as u64).div_ceil(settings.n as u64) as u32
}

fn forward(plan: &Plan) -> Plan {
    Plan {
        settings: Settings { window: next_window(&plan.settings), ..plan.settings },
        accuracy: next_accuracy(&plan.settings, plan.accuracy),
        rounds: plan.rounds + 1,
    }
}

fn after(settings: &Settings, accuracy: u32, rounds: u32) -> Plan {
    let mut plan = Plan { settings: *settings, accuracy, rounds: 0 };
    for _ in 0..rounds {
        plan = forward(&plan);
    }
    plan
}

/// The plan after so many rounds, under checks 2 to 5 and 11.
pub fn plan(settings: &Settings, accuracy: u32, rounds: u32) -> Result<Plan, Refusal> {
    settings.check_plan()?;
    if accuracy > 1_000_000_000 || rounds > 32 {
        return Err(Refusal::new(11));
    }
    Ok(after(settings, accuracy, rounds))
}

/// The plan one round forward, under checks 2 to 5 and 11.
pub fn step(plan: &Plan) -> Result<Plan, Refusal> {
    plan.settings.check_plan()?;
    if plan.rounds >= 32 || plan.accuracy > 1_100_000_000 {
        return Err(Refusal::new(11));
    }
    Ok(forward(plan))
}

/// All counts of rounds, 0 to 32, whose window is at or below the target.
pub fn counts_that_fit(settings: &Settings, target: u32) -> Vec<u32> {
    (0..=32).filter(|&rounds| after(settings, 0, rounds).settings.window <= target).collect()
}

/// All counts that fit, under checks 2 to 5, 11 and 12. A granted answer is never empty.
pub fn target(settings: &Settings, accuracy: u32, target: u32) -> Result<Vec<u32>, Refusal> {
    settings.check_plan()?;
    if accuracy > 1_000_000_000 {
        return Err(Refusal::new(11));
    }
    if after(settings, accuracy, 32).settings.window > target {
        return Err(Refusal::new(12));
    }
    Ok(counts_that_fit(settings, target))
}
