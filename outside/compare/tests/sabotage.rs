//! Each sabotage is found, and nothing is found without one.

use engine::sabotage::SABOTAGES;
use std::process::Command;

fn compare(words: &[&str]) -> (Option<i32>, String) {
    let output = Command::new(env!("CARGO_BIN_EXE_compare")).args(words).output().unwrap();
    (output.status.code(), String::from_utf8(output.stdout).unwrap())
}

#[test]
fn no_difference() {
    let (status, text) = compare(&["--sheets", "3000"]);
    assert_eq!(status, Some(0), "{text}");
    assert!(text.contains("PASSED"), "{text}");
}

/// How often an outcome was met, by its line.
fn times(line: &str) -> Option<u64> {
    line.split_once(" times ")?.0.trim().parse().ok()
}

/// Whether so many outcomes are listed, and each was met more often than that.
fn all_met(times: impl Iterator<Item = u64>, outcomes: usize, least: u64) -> bool {
    let times: Vec<u64> = times.collect();
    times.len() == outcomes && times.iter().all(|&times| times > least)
}

/// Sums past N spans, halves, and readings at both ends of 32 bits are not rare.
#[test]
fn sums_are_met() {
    let (_, text) = compare(&["--engines", "reference,reference", "--sheets", "6000"]);
    let listed = text.split_once("lowest accepted reading:\n").expect("the sums are listed").1;
    assert!(all_met(listed.lines().map_while(times), 12, 15), "{text}");
}

/// What is rare of the trimming rules is met too: of 20,000 sheets often enough that none of it is left to chance in 200,000.
#[test]
fn trims_are_met() {
    let (_, text) = compare(&["--engines", "reference,reference", "--sheets", "20000"]);
    let listed = text.split_once(" sheets by a trimming rule").expect("they are listed").1;
    let listed = listed.split_once(" intervals, ").expect("the intervals are listed below").0;
    assert!(all_met(listed.lines().filter_map(times), 22, 5), "{text}");
}

/// The same of the interval between rounds.
#[test]
fn intervals_are_met() {
    let (_, text) = compare(&["--engines", "reference,reference", "--sheets", "6000"]);
    let listed = text.split_once(" intervals, ").expect("they are listed").1;
    let listed = listed.split_once(" pairs of sheets, ").expect("the pairs are listed below").0;
    assert!(all_met(listed.lines().filter_map(times), 32, 15), "{text}");
}

/// The same of falling back.
#[test]
fn fallbacks_are_met() {
    let (_, text) = compare(&["--engines", "reference,reference", "--sheets", "20000"]);
    let listed = text.split_once(" pairs of sheets, ").expect("they are listed").1;
    assert!(all_met(listed.lines().filter_map(times), 47, 3), "{text}");
}

#[test]
fn plain_and_tuned_are_the_reference() {
    for name in ["plain", "tuned"] {
        let engines = format!("{name},reference");
        let (status, text) = compare(&["--engines", &engines, "--sheets", "20000"]);
        assert_eq!(status, Some(0), "{text}");
    }
}

/// The call at which a line shows a difference.
fn call(line: &str) -> Option<&str> {
    line.strip_prefix("DIFFERENCE at sheet ")?
        .split_once(", ")?
        .1
        .split_once(": ")
        .map(|(call, _)| call)
}

/// Those of replay or of a planner's call at that call, those of the spread at settling with one and those of the interval
/// and of a fallback at it and nowhere else, the others at another call than a replay too.
#[test]
fn sabotages_are_found() {
    for (name, _) in SABOTAGES {
        let (status, text) = compare(&["--sheets", "3000", "--sabotage", name]);
        assert_eq!(status, Some(1), "{name} was not found\n{text}");
        let calls: Vec<&str> = text.lines().filter_map(call).collect();
        let found = match name.split('-').next() {
            Some(call @ ("replay" | "plan" | "step" | "target")) => calls.contains(&call),
            Some(own @ ("interval" | "spread" | "fallback")) => {
                !calls.is_empty() && calls.iter().all(|call| *call == own)
            }
            _ => calls.iter().any(|call| *call != "replay"),
        };
        assert!(found, "{name} was not found\n{text}");
    }
}

/// A wrong step is found by the replays too: a loop over the engine's own calls gives other values.
#[test]
fn replays_are_compared_with_a_loop_over_the_other_calls() {
    for name in ["step-wide", "step-one", "step-ceiling", "half-up", "half-down"] {
        let all = ["--sheets", "3000", "--differences", "10000", "--sabotage", name];
        let (_, text) = compare(&all);
        assert!(text.contains(", replay: ") && text.contains(" / by hand "), "{name}\n{text}");
    }
}

/// A fallback is held to the engine's own settling, and what it shows to the sheet, apart from the other engine's.
#[test]
fn fallbacks_are_compared_with_settling() {
    for name in
        ["place", "past", "fallback-early", "fallback-any", "fallback-ten", "fallback-written"]
    {
        let all = ["--sheets", "3000", "--differences", "10000", "--sabotage", name];
        let (_, text) = compare(&all);
        assert!(text.contains(", by hand Fallen {"), "{name}\n{text}");
    }
    for name in ["shown-crusaders", "shown-marks", "shown-refused", "source", "source-refused"] {
        let name = format!("fallback-{name}");
        let (_, text) = compare(&["--sheets", "3000", "--sabotage", &name]);
        let held = format!("with sabotage {name} shows Fallen {{");
        assert!(text.contains(&held), "{name}\n{text}");
    }
}

#[test]
fn a_spread_of_0_is_compared_with_settling() {
    let (_, text) = compare(&["--sheets", "3000", "--sabotage", "spread-one"]);
    assert!(text.contains("a spread of 0 is not none"), "{text}");
}

/// An answer is held to the inequalities, and what stands beside a refusal to 0, apart from the other engine's.
#[test]
fn intervals_are_held_to_the_inequalities() {
    for name in
        ["low", "greatest-up", "least-down", "zero", "square", "empty", "shown-17", "shown-18"]
    {
        let name = format!("interval-{name}");
        let (_, text) = compare(&["--sheets", "3000", "--sabotage", &name]);
        let held = format!("with sabotage {name}: Spacing {{");
        assert!(text.contains(&held), "{name}\n{text}");
    }
}

#[test]
fn programs_are_compared() {
    let programs = std::path::Path::new(env!("CARGO_BIN_EXE_compare")).parent().unwrap();
    for (option, program, right) in [
        ("--replay", "reference-replay", true),
        ("--replay", "reference-settle", false),
        ("--fallback", "reference-fallback", true),
        ("--fallback", "reference-settle", false),
    ] {
        let path = programs.join(program).to_str().unwrap().to_string();
        let (status, text) = compare(&[option, &path, "--sheets", "200"]);
        assert_eq!(status, Some(!right as i32), "{text}");
        assert!(text.contains(if right { "PASSED" } else { "FAILED" }), "{text}");
    }
}
