//! Compares two engines on many inputs from fixed seeds, call by call and byte by byte.
#![forbid(unsafe_code)]

mod calls;
mod draw;
mod fallbacks;
mod intervals;
mod program;
mod traces;
mod trims;

use calls::{Comparison, CALLS, ENDS, LAST, NEXT, PLANNING, SHEETS_FOR_A_TRACE, SUMS};
use engine::sabotage::{Sabotaged, SABOTAGES};
use engine::Engine;
use random::Random;
use std::process::ExitCode;
use std::time::Instant;

const USAGE: &str = "compare [--engines A,B] [--sheets COUNT] [--seed SEED] [--sabotage NAME] [--differences COUNT] [--digest COUNT]
compare --program PATH [--sheets COUNT] [--seed SEED]
compare --replay PATH [--sheets COUNT] [--seed SEED]
compare --fallback PATH [--sheets COUNT] [--seed SEED]
compare --sabotages
  --engines      reference, plain, tuned; when built in linked, and recorded, which is linked with a digest
  --sabotage     makes the first engine wrong in a named way
  --sabotages    lists the ways
  --differences  stops after so many, 10 unless said
  --digest       prints the digest of the first engine, recorded, after every so many sheets
  --program      compares the text of a program `settle` with the reference's
  --replay       the same for a program `replay`, on so many traces
  --fallback     the same for a program `fallback`, on so many pairs";

/// The numbers under which each call can refuse. Rows refuse nothing.
const REFUSALS: [&[usize]; CALLS.len()] = [
    &[1, 2, 3, 4, 5, 6, 7, 8, 9, 10],
    &[1, 2, 3, 4, 5, 6, 7, 8, 9],
    &[2, 3, 4, 5, 6, 7, 8, 9],
    &[],
    &[2, 3, 4, 5, 11],
    &[2, 3, 4, 5, 11],
    &[2, 3, 4, 5, 11, 12],
    &[1, 2, 3, 4, 5, 7, 8, 9, 13, 14, 15],
    &[1, 2, 3, 4, 5, 6, 7, 8, 9, 10, 16],
    &[17, 18],
    &[1, 2, 3, 4, 5, 6, 7, 8, 9, 10, 19],
];

struct Options {
    engines: String,
    sheets: Option<u64>,
    seed: u64,
    sabotage: Option<String>,
    program: Option<String>,
    replay: Option<String>,
    fallback: Option<String>,
    differences: u64,
    digest: u64,
}

fn options() -> Option<Options> {
    let mut options = Options {
        engines: format!("{},reference", engine::CHECKED),
        sheets: None,
        seed: 1,
        sabotage: None,
        program: None,
        replay: None,
        fallback: None,
        differences: 10,
        digest: u64::MAX,
    };
    let mut words = std::env::args().skip(1);
    while let Some(word) = words.next() {
        let value = words.next();
        match word.as_str() {
            "--engines" => options.engines = value?,
            "--sheets" => options.sheets = Some(value?.parse().ok()?),
            "--seed" => options.seed = value?.parse().ok()?,
            "--sabotage" => options.sabotage = Some(value?),
            "--program" => options.program = Some(value?),
            "--replay" => options.replay = Some(value?),
            "--fallback" => options.fallback = Some(value?),
            "--differences" => options.differences = value?.parse().ok()?,
            "--digest" => options.digest = value?.parse().ok().filter(|&count| count > 0)?,
            _ => return None,
        }
    }
    Some(options)
}

fn engines(options: &Options) -> Option<(Box<dyn Engine>, Box<dyn Engine>)> {
    let (a, b) = options.engines.split_once(',')?;
    let (a, b) = (engine::named(a)?, engine::named(b)?);
    match &options.sabotage {
        None => Some((a, b)),
        Some(how) => Some((Box::new(Sabotaged::new(a, how)?), b)),
    }
}

fn main() -> ExitCode {
    if std::env::args().nth(1).as_deref() == Some("--sabotages") {
        for (name, what) in SABOTAGES {
            println!("{name:24} {what}");
        }
        return ExitCode::SUCCESS;
    }
    let Some(options) = options() else {
        eprintln!("{USAGE}");
        return ExitCode::from(2);
    };
    let few = options.sheets.unwrap_or(1000);
    if let Some(path) = &options.program {
        return program::compare_settle(path, few, options.seed);
    }
    if let Some(path) = &options.replay {
        return program::compare_replay(path, few, options.seed);
    }
    if let Some(path) = &options.fallback {
        return program::compare_fallback(path, few, options.seed);
    }
    let Some((a, b)) = engines(&options) else {
        eprintln!("no such engine or sabotage\n{USAGE}");
        return ExitCode::from(2);
    };
    let sheets = options.sheets.unwrap_or(200_000);
    println!("{} / {}: {sheets} sheets, seed {}", a.name(), b.name(), options.seed);
    if options.engines.contains("plain") || options.engines.contains("tuned") {
        println!("plain and tuned settle, read, fall back, replay and have the interval; their other calls are the reference's.");
    }
    let start = Instant::now();
    let mut comparison = Comparison::new(&*a, &*b);
    for now in 0..sheets {
        let random = Random::new((options.seed << 32) + now);
        comparison.all_calls(&random, now);
        if comparison.differences >= options.differences.max(1) {
            println!("FAILED: {} differences in {} sheets", comparison.differences, now + 1);
            return ExitCode::FAILURE;
        }
        if let Some(digest) = a.digest().filter(|_| (now + 1) % options.digest == 0) {
            println!("{} sheets: digest {digest:016x}", now + 1);
        }
    }
    let unmet = report(&comparison, sheets);
    println!("{:.1} s", start.elapsed().as_secs_f64());
    if comparison.differences > 0 {
        println!("FAILED: {} differences in {sheets} sheets", comparison.differences);
        ExitCode::FAILURE
    } else if unmet > 0 {
        println!("FAILED: no difference, but {unmet} outcomes were not met");
        ExitCode::FAILURE
    } else {
        println!("PASSED: no difference on {sheets} sheets, every outcome met");
        ExitCode::SUCCESS
    }
}

/// Prints how often each outcome was met; answers how many were not.
fn report(comparison: &Comparison, sheets: u64) -> usize {
    let mut unmet = 0;
    print!("call     granted");
    for number in 1..=LAST {
        print!("{:>8}", format!("no. {number}"));
    }
    println!();
    for (call, name) in CALLS.iter().enumerate() {
        if *name == "row" {
            continue;
        }
        let outcomes = &comparison.outcomes[call];
        print!("{name:8}{:>8}", outcomes[0]);
        unmet += (outcomes[0] == 0) as usize;
        for (number, &count) in outcomes.iter().enumerate().skip(1) {
            if REFUSALS[call].contains(&number) {
                print!("{count:>8}");
                unmet += (count == 0) as usize;
            } else {
                print!("{:>8}", "-");
            }
        }
        println!();
    }
    println!("row     {:>8} shown, {} empty", comparison.rows_shown, comparison.rows_empty);
    println!("{} sheets had several faults at once.", comparison.several_faults);
    let by_kind = comparison.settled.iter().flatten().flat_map(|by_n| &by_n[1..]);
    println!(
        "Of {} sheets settled by FCA and CCA, {} had every reading accepted.",
        by_kind.clone().sum::<u64>(),
        comparison.all_accepted
    );
    let least = by_kind.clone().min().unwrap();
    println!(
        "Each N from 1 to 64 settled by FCA and CCA with each estimator at least {least} times."
    );
    let replayed = report_replays(comparison, sheets);
    let spreads = report_spreads(comparison, sheets);
    println!("Distances of used values from the lowest accepted reading:");
    for (what, times) in SUMS.iter().zip(&comparison.sums) {
        println!("{times:>8} times {what}");
    }
    let next = report_next(comparison);
    let trims = report_trims(comparison);
    let intervals = report_intervals(comparison, sheets);
    let fallbacks = report_fallbacks(comparison, sheets);
    if sheets < 100_000 {
        println!("Each of these is asked of 100,000 sheets and more.");
    } else {
        let demanded = by_kind.chain(replayed).chain(spreads).chain(&comparison.sums).chain(next);
        let demanded = demanded.chain(trims).chain(intervals).chain(fallbacks);
        unmet += demanded.filter(|&&count| count == 0).count();
    }
    unmet
}

/// Prints from what next windows were planned; answers the counts that must not be 0.
fn report_next<'a>(comparison: &'a Comparison) -> impl Iterator<Item = &'a u64> + 'a {
    let names = PLANNING.map(|call| format!("{:>8}", CALLS[call]));
    println!("{} next windows:", names.join(""));
    for (i, what) in NEXT.iter().enumerate() {
        let times = comparison.next.map(|by_call| format!("{:>8}", by_call[i]));
        println!("{} times {what}", times.join(""));
    }
    comparison.next.as_flattened().iter()
}

/// Prints what was met of the trimming rules; answers the counts that must not be 0.
fn report_trims<'a>(comparison: &'a Comparison) -> impl Iterator<Item = &'a u64> + 'a {
    let trims = &comparison.trims;
    println!(
        "{} sheets by a trimming rule, {} with several faults at once:",
        trims.sheets, trims.several_faults
    );
    let mut demanded = Vec::new();
    for (call, (name, (granted, refused))) in CALLS.iter().zip(trims::REFUSALS).enumerate() {
        let numbers = granted.then_some(0).into_iter().chain(refused.iter().copied());
        let times = |number: usize| &trims.outcomes[call][number];
        let listed = numbers.clone().map(|number| match number {
            0 => format!("granted {} times", times(0)),
            _ => format!("no. {number} {}", times(number)),
        });
        println!("{name:8}{}", listed.collect::<Vec<_>>().join(", "));
        demanded.extend(numbers.map(times));
    }
    let settled = trims.settled.iter().flat_map(|by_n| &by_n[1..]);
    println!("each N from 1 to 64 settled at least {} times;", settled.clone().min().unwrap());
    for (what, times) in trims::ROUNDS.iter().zip(&trims.rounds) {
        println!("{times:>8} times {what}");
    }
    demanded.into_iter().chain(settled).chain(&trims.rounds)
}

/// Prints what was met of the interval between rounds; answers the counts that must not be 0.
fn report_intervals<'a>(
    comparison: &'a Comparison,
    sheets: u64,
) -> impl Iterator<Item = &'a u64> + 'a {
    let intervals = &comparison.intervals;
    println!("{sheets} intervals, {} with several faults at once:", intervals.several_faults);
    for (what, times) in intervals::MET.iter().zip(&intervals.met) {
        println!("{times:>8} times {what}");
    }
    intervals.met.iter()
}

/// Prints what was met of falling back; answers the counts that must not be 0.
fn report_fallbacks<'a>(
    comparison: &'a Comparison,
    sheets: u64,
) -> impl Iterator<Item = &'a u64> + 'a {
    let fallbacks = &comparison.fallbacks;
    println!("{sheets} pairs of sheets, {} with several faults at once:", fallbacks.several_faults);
    let by_n = fallbacks.by_n.iter().flat_map(|by_n| &by_n[1..]);
    let sums = fallbacks.by_n.each_ref().map(|by_n| by_n.iter().sum::<u64>());
    println!(
        "{} settled by CCA, {} after a fallback and {} refused under 10 by both, each N from 1 to 64 at least {} times,",
        sums[0],
        sums[1],
        sums[2],
        by_n.clone().min().unwrap()
    );
    let by_estimators = fallbacks.by_estimators.as_flattened();
    println!(
        "and each pair of estimators was settled by CCA and after a fallback at least {} times;",
        by_estimators.iter().min().unwrap()
    );
    for (what, times) in fallbacks::MET.iter().zip(&fallbacks.met) {
        println!("{times:>8} times {what}");
    }
    by_n.chain(by_estimators).chain(&fallbacks.met)
}

/// Prints what was replayed; answers the counts that must not be 0.
fn report_replays<'a>(
    comparison: &'a Comparison,
    sheets: u64,
) -> impl Iterator<Item = &'a u64> + 'a {
    let replays = &comparison.replays;
    let traces = sheets.div_ceil(SHEETS_FOR_A_TRACE);
    println!("{traces} traces, {} with several faults at once:", replays.several_faults);
    println!(
        "each N from 1 to 64 was replayed at least {} times, each number of rounds at least {} times;",
        replays.by_n[1..].iter().min().unwrap(),
        replays.by_rounds.iter().min().unwrap()
    );
    let later: u64 = replays.stopped_in[2..].iter().sum();
    println!("{} runs stopped in round 1, {later} later;", replays.stopped_in[1]);
    println!("{} were replayed with other readings for faulty cabinets.", replays.other_for_faulty);
    let stopped = &replays.stopped_in[1..4];
    replays.by_n[1..].iter().chain(&replays.by_rounds).chain(stopped)
}

/// Prints what was settled with a spread; answers the counts that must not be 0.
fn report_spreads<'a>(
    comparison: &'a Comparison,
    sheets: u64,
) -> impl Iterator<Item = &'a u64> + 'a {
    let spreads = &comparison.spreads;
    println!(
        "{} sheets with a spread, {} with several faults at once:",
        sheets / SHEETS_FOR_A_TRACE,
        spreads.several_faults
    );
    let listed =
        ENDS.iter().zip(&spreads.at_end).map(|(end, times)| format!("{end} {times} times"));
    println!("it was {};", listed.collect::<Vec<_>>().join(", "));
    let settled = spreads.settled.iter().flat_map(|by_n| &by_n[1..]);
    println!(
        "each N from 1 to 64 settled with one above 0 and each estimator at least {} times,",
        settled.clone().min().unwrap()
    );
    println!(
        "{} in all, and in {} of these a span ends past 32 bits;",
        settled.clone().sum::<u64>(),
        spreads.past_32_bits
    );
    println!(
        "{} have another outcome with a tick less, {} with a tick more.",
        spreads.tick_less, spreads.tick_more
    );
    let edges = [&spreads.past_32_bits, &spreads.tick_less, &spreads.tick_more];
    spreads.at_end.iter().chain(settled).chain(edges)
}
