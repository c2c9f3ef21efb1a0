//! A hostile station: runs of up to 32 rounds with lying and two-faced cabinets, against the
//! limits for sound cabinets of document 01, as paper 4 of document 02 rewrites them. Its FCA runs are replayed too,
//! as paper 1 says, and after each run come a round with cables that differ, as paper 2 says, one by the trimming
//! rules of paper 5, clocks that drift apart between rounds, as paper 6 says, and a station whose cabinets fall back, as
//! paper 7 says. Each sheet that FCA or CCA settles, but for the last, is held to the limits of paper 3's sum.
#![forbid(unsafe_code)]

mod cables;
mod drift;
#[cfg(test)]
mod every_n;
mod fallbacks;
mod liars;
mod limits;
mod run;
#[cfg(test)]
mod small_rounds;
mod sums;
mod tape;
mod trimming;

use cables::{exact_example, example, Cables, EXAMPLES};
use engine::sabotage::Sabotaged;
use engine::Engine;
use fallbacks::Station;
use limits::{Met, Most};
use random::Random;
use run::{Question, Run, Tally, LIMITS, QUESTIONS};
use std::process::ExitCode;
use std::time::Instant;
use trimming::{example_limit, Less, Trimming};

const USAGE: &str = "hostile [--engine NAME] [--runs COUNT] [--seed SEED] [--sabotage NAME]
hostile [--engine NAME] [--sabotage NAME] --run SEED
  --engine    reference, plain, tuned, linked (when built in)
  --sabotage  makes the engine wrong in a named way (see compare --sabotages)
  --run       shows one run, whose seed a failure names";

struct Options {
    engine: String,
    runs: u64,
    seed: u64,
    sabotage: Option<String>,
    run: Option<u64>,
}

fn options() -> Option<Options> {
    let mut options = Options {
        engine: engine::CHECKED.into(),
        runs: 100_000,
        seed: 1,
        sabotage: None,
        run: None,
    };
    let mut words = std::env::args().skip(1);
    while let Some(word) = words.next() {
        let value = words.next()?;
        match word.as_str() {
            "--engine" => options.engine = value,
            "--runs" => options.runs = value.parse().ok()?,
            "--seed" => options.seed = value.parse().ok()?,
            "--sabotage" => options.sabotage = Some(value),
            "--run" => options.run = Some(value.parse().ok()?),
            _ => return None,
        }
    }
    Some(options)
}

fn engine(options: &Options) -> Option<Box<dyn Engine>> {
    let engine = engine::named(&options.engine)?;
    match &options.sabotage {
        None => Some(engine),
        Some(how) => Some(Box::new(Sabotaged::new(engine, how)?)),
    }
}

/// One run from its seed. The same seed gives the same run.
fn run(seed: u64, engine: &dyn Engine, tally: &mut Tally, show: bool) {
    let random = Random::new(seed);
    Run::draw(&random).run(&random, engine, tally, show);
    Cables::draw(&random).round(&random, engine, Most::with_cables, tally, show);
    Trimming::draw(&random).round(&random, engine, Less::default(), tally, show);
    drift::Asked::draw(&random).round(&random, engine, drift::Less::default(), tally, show);
    Station::draw(&random).round(&random, engine, fallbacks::Less::default(), tally, show);
}

fn main() -> ExitCode {
    let Some(options) = options() else {
        eprintln!("{USAGE}");
        return ExitCode::from(2);
    };
    let Some(engine) = engine(&options) else {
        eprintln!("no such engine or sabotage\n{USAGE}");
        return ExitCode::from(2);
    };
    let mut tally = Tally::default();
    if let Some(seed) = options.run {
        run(seed, &*engine, &mut tally, true);
        return match tally.first {
            None => ExitCode::SUCCESS,
            Some(broken) => {
                println!("BROKEN: {broken}");
                ExitCode::FAILURE
            }
        };
    }
    println!("{}: {} runs, seed {}", engine.name(), options.runs, options.seed);
    let start = Instant::now();
    for i in 0..options.runs {
        let seed = (options.seed << 32) + i;
        let before = tally.first.is_some();
        run(seed, &*engine, &mut tally, false);
        if let (Some(broken), false) = (&tally.first, before) {
            println!("BROKEN at run {seed}: {broken}\nThe run again, with all that was sent:");
            run(seed, &*engine, &mut Tally::default(), true);
        }
    }
    report(&tally);
    println!("{:.1} s", start.elapsed().as_secs_f64());
    let faults = tally.faults();
    if faults.is_empty() {
        println!("PASSED: in {} runs every limit was held, reached and not broken", options.runs);
        return ExitCode::SUCCESS;
    }
    for fault in &faults {
        println!("{fault}");
    }
    println!("FAILED: {} faults in {} runs", faults.len(), options.runs);
    ExitCode::FAILURE
}

fn report(tally: &Tally) {
    println!(
        "{} runs with t ≤ m, in which {} sheets were settled and {} refused",
        tally.few_bad, tally.few_settled, tally.few_refused
    );
    println!("{} runs with m < t < N-m", tally.many_bad);
    println!(
        "{} rounds; {} sheets settled, {} refused as too many faults",
        tally.rounds, tally.settled, tally.refused
    );
    println!("{} answers of the planner, {} of them wrong", tally.plans, tally.wrong_plans);
    println!(
        "{} replays of the station's own FCA runs, {} of which a refusal stopped; {} ended otherwise",
        tally.replays, tally.stopped_replays, tally.wrong_replays
    );
    println!(
        "{} of them with t ≤ m, of which {} were refused",
        tally.few_replays, tally.few_refused_replays
    );
    println!(
        "{} sheets settled with cables that differ, {} refused; {} gaps past Lemma 16's limit",
        tally.settled_with_cables, tally.refused_with_cables, tally.past_lemma_16
    );
    println!(
        "{} sums of distances from the lowest accepted reading, {} past N spans; {} new values are not their mean",
        tally.settled + tally.settled_with_cables,
        tally.past_n_spans,
        tally.wrong_means
    );
    println!(
        "{} gaps past the ceiling of the quotient, with an even N",
        tally.past_ceiling.iter().sum::<u64>()
    );
    println!(
        "{} rounds with t ≤ m after which all are to be alike, {} after which they are not",
        tally.alike.iter().sum::<u64>(),
        tally.not_alike.iter().sum::<u64>()
    );
    println!(
        "{} sheets settled by the trimming rules, {} refused",
        tally.settled_by_trimming, tally.refused_by_trimming
    );
    println!(
        "{} intervals between rounds granted, {} refused where none is left",
        tally.drifted.granted, tally.drifted.refused
    );
    let fell = &tally.fallen;
    println!(
        "{} cabinets with two sheets settled by CCA, {} fell back, {} refused; {} gaps past the next window",
        fell.by_crusaders, fell.by_direct, fell.refused, fell.past_window
    );
    println!(
        "{} stations with m < t in which two settled by CCA, {} in which one did and one fell back, {} in which two fell back",
        fell.stations[0], fell.stations[1], fell.stations[2]
    );
    limits(tally);
    for (question, answers) in QUESTIONS.iter().zip(&tally.answers) {
        answer(question, answers);
    }
    with_cables(tally);
    with_distances(tally);
    by_trimming(tally);
    by_drift(tally);
    by_fallback(tally);
}

/// How close each limit was met.
fn limits(tally: &Tally) {
    println!(
        "{:38} {:>8} {:>8} {:>8} {:>8} {:>8} {:>8}",
        "limit", "held", "share", "large", "reached", "largest", "broken"
    );
    for (name, met) in LIMITS.iter().zip(&tally.met.0) {
        let Met { times, share, share_of_large, reached, largest, broken } = met;
        println!(
            "{name:38} {times:>8} {share:>8.3} {share_of_large:>8.3} {reached:>8} {largest:>8} \
             {broken:>8}"
        );
    }
    println!("share    the largest share of the limit that was used; above 1 it would be broken");
    println!("large    the same for limits of 1000 ticks and more, where rounding plays no part");
    println!("reached  how often the limit was reached exactly");
    println!("largest  the largest limit, in ticks, that was reached exactly");
    println!("broken   how often it was passed");
    println!(
        "An error counts by its growth past the starting κ. Limits of 0 are held, not counted."
    );
    println!("A sum's limit is N+m-1 spans, the exact one, and 2N spans, document 02's, which none reaches.");
    println!("odd N    the ceiling of the quotient, where document 02 has its whole part plus one");
    println!("half     the exact limits where (m+t)δ/N is a half");
    println!("range    how far from the other end of the sound readings a new value is");
    println!("window   how far apart clocks are between rounds; reached within a tick");
    println!("order    how late the last starts a round; the limit is the interval, in true time");
}

/// The greatest gaps that were met by the trimming rules, beside the limits.
fn by_trimming(tally: &Tally) {
    println!("Trimming rules, t faulty, sound readings within the width, one round, in ticks");
    println!(
        "{:>3} {:>3} {:>3} {:>9} {:>11} {:>9} {:>11} {:>9}",
        "N", "m", "t", "width", "rule 2 met", "limit", "rule 3 met", "limit"
    );
    for (row, met) in trimming::EXAMPLES.into_iter().zip(&tally.trims) {
        let (n, m, t, width) = row;
        print!("{n:>3} {m:>3} {t:>3} {width:>9}");
        for (rule, met) in trimming::RULES.into_iter().zip(met) {
            let met = met.map_or("-".into(), |met| met.to_string());
            print!(" {met:>11} {:>9}", example_limit(row, rule));
        }
        println!();
    }
}

/// How far apart clocks were met between rounds, and how late the last starts, beside the window and the interval.
fn by_drift(tally: &Tally) {
    println!("Clocks between rounds, each up to half the drift off, in ticks; late and early in true time");
    println!(
        "{:>9} {:>9} {:>5} {:>12} {:>15} {:>15} {:>8} {:>15} {:>15} {:>12}",
        "window",
        "precision",
        "drift",
        "greatest",
        "gap met",
        "one tick more",
        "least",
        "late met",
        "one tick less",
        "early"
    );
    for (asked, row) in drift::EXAMPLES.iter().zip(&tally.drifted.rows) {
        let drift::Asked { window, precision, drift } = asked;
        print!("{window:>9} {precision:>9} {drift:>5}");
        let Some(row) = row else {
            println!(" {:>12}", "-");
            continue;
        };
        let in_ticks = drift::in_ticks;
        let less = row.late_past.map_or("-".into(), in_ticks);
        println!(
            " {:>12} {:>15} {:>15} {:>8} {:>15} {less:>15} {:>12}",
            row.greatest,
            in_ticks(row.gap),
            in_ticks(row.gap_past),
            row.least,
            in_ticks(row.late),
            in_ticks(row.early)
        );
    }
    println!("early    how long before the last starts a round a clock that stays fast starts the next one");
}

/// The greatest gaps and errors that were met where cabinets fall back, beside the limits, and how often each kind of pair
/// was met.
fn by_fallback(tally: &Tally) {
    println!("A cabinet that settles by CCA and one that falls back, t bad, in ticks; the error is past κ");
    println!(
        "{:>3} {:>3} {:>3} {:>9} {:>9} {:>9} {:>9} {:>9} {:>9} {:>9} {:>11} {:>9} {:>9} {:>19}",
        "N",
        "m",
        "t",
        "window",
        "mixed met",
        "by CCA",
        "by FCA",
        "exact",
        "document",
        "next",
        "error, FCA",
        "CCA",
        "document",
        "times"
    );
    for (row, met) in fallbacks::EXAMPLES.into_iter().zip(&tally.fallen.rows) {
        let (n, m, t, window) = row;
        let settings = fallbacks::example(row);
        let (exact, document) = (Most::exact(&settings, t), Most::document(&settings, t));
        let next = reference::next_window(&settings);
        let shown = |met: Option<i64>| met.map_or("-".into(), |met| met.to_string());
        let [by_crusaders, mixed, by_direct] = met.gaps.map(shown);
        let [error, direct_error] = met.errors.map(shown);
        let times = met.times.map(|times| times.to_string()).join("/");
        println!(
            "{n:>3} {m:>3} {t:>3} {window:>9} {mixed:>9} {by_crusaders:>9} {by_direct:>9} {:>9} {:>9} {next:>9} {direct_error:>11} {error:>9} {:>9} {times:>19}",
            exact.gap, document.gap, document.error
        );
    }
    println!(
        "next     the window that is planned next by CCA with median, which no fallback keeps"
    );
    println!(
        "times    stations in which two settled by CCA, one did and one fell back, two fell back"
    );
}

/// The greatest sums of distances that were met with cables, beside the limits.
fn with_distances(tally: &Tally) {
    println!("Sums of distances from the lowest accepted reading, one round with cables, in ticks");
    println!(
        "{:>3} {:>3} {:>9} {:>11} {:>11} {:>11} {:>11}",
        "N", "m", "span", "sum met", "N+m-1 spans", "2N spans", "N spans"
    );
    for (row, met) in EXAMPLES.into_iter().zip(&tally.sums) {
        let (settings, spread) = example(row);
        let (n, m, span) = (settings.n, settings.m, settings.window + spread);
        let (exact, document) = (settings.greatest_sum(span), settings.sum_limit(span));
        println!(
            "{n:>3} {m:>3} {span:>9} {met:>11} {exact:>11} {document:>11} {:>11}",
            n as u32 * span
        );
    }
}

/// What was met with cables that differ, beside document 02's limits and what Lemma 16 would give.
fn with_cables(tally: &Tally) {
    println!("Cables that differ by D, m bad, one round, in ticks; the error is past κ");
    println!(
        "{:>3} {:>3} {:>9} {:>9} {:>9} {:>9} {:>9} {:>9} {:>9} {:>9}",
        "N", "m", "window", "D", "gap met", "exact", "limit", "Lemma 16", "error met", "limit"
    );
    for (row, met) in EXAMPLES.into_iter().zip(&tally.examples) {
        let (n, m, window, spread) = row;
        let (settings, t) = (example(row).0, m as usize);
        let limit = Most::with_cables(&settings, spread, t);
        let paper = Most::by_lemma_16(&settings, spread, t);
        let [gap, error] = in_figures(met);
        println!(
            "{n:>3} {m:>3} {window:>9} {spread:>9} {gap:>9} {:>9} {:>9} {:>9} {error:>9} {:>9}",
            exact_example(row).gap,
            limit.gap,
            paper.gap,
            limit.error
        );
    }
}

/// The greatest gap and error that were met, if any were.
fn in_figures(met: &Option<Most>) -> [String; 2] {
    match met {
        None => ["-".into(), "-".into()],
        Some(met) => [met.gap.to_string(), met.error.to_string()],
    }
}

/// What was met of a question beside the exact limits and the documents'.
fn answer(question: &Question, answers: &[Option<Most>]) {
    let Question { n, m, t, .. } = *question;
    println!("N {n}, m {m}, {t} bad, the first round, in ticks; the error is past κ");
    println!(
        "{:>9} {:>9} {:>9} {:>9} {:>9} {:>9} {:>9}",
        "window", "gap met", "exact", "document", "error met", "exact", "document"
    );
    for (&window, met) in question.windows.iter().zip(answers) {
        let settings = question.settings(window);
        let (exact, document) = (Most::exact(&settings, t), Most::document(&settings, t));
        let [gap, error] = in_figures(met);
        println!(
            "{window:>9} {gap:>9} {:>9} {:>9} {error:>9} {:>9} {:>9}",
            exact.gap, document.gap, exact.error, document.error
        );
    }
}
