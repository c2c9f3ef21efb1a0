//! The time that engines take to settle and to read the same sheets, to fall back from one to another, to replay the same
//! traces, and to give the same intervals between rounds, side by side: the first beside each of the others.
#![forbid(unsafe_code)]

mod fallbacks;
mod intervals;
mod picture;
mod replays;
mod sheets;

use engine::{Engine, Settings};
use sheets::{Kind, KINDS, RULES, SIZES, SPREAD, TRIMMING};
use std::hint::black_box;
use std::process::ExitCode;
use std::time::{Duration, Instant};

const USAGE: &str = "bench [--engines A,B,..] [--slices COUNT] [--svg PATH] [--sheets]
  --engines  two or more of reference, plain, tuned, linked, now and before (when built in)
  --slices   short slices of each engine, in turn, for each line (default 41)
  --svg      where the picture goes (default bench.svg)
  --sheets   time settling and reading alone, and draw nothing";

const SLICE: Duration = Duration::from_micros(1000);

/// One line of the table: ns per sheet of each engine.
pub struct Cell {
    rule: u8,
    kind: Kind,
    n: u8,
    ns: Vec<f64>,
}

impl Cell {
    /// How many times as long as each other engine the first takes.
    fn ratios(&self) -> impl Iterator<Item = f64> + '_ {
        self.ns[1..].iter().map(|other| self.ns[0] / other)
    }

    /// The power of N by which each engine's time grew since a smaller N.
    fn growth<'a>(&'a self, before: &'a Cell) -> impl Iterator<Item = f64> + 'a {
        let larger = (self.n as f64 / before.n as f64).ln();
        self.ns.iter().zip(&before.ns).map(move |(now, then)| (now / then).ln() / larger)
    }

    fn start_of_line(&self, what: &str) -> String {
        let mut rules = RULES.iter().chain(&TRIMMING);
        let (_, rule) = rules.find(|(rule, _)| *rule == self.rule).expect("a rule");
        of_engines(&self.ns, &format!("{rule:4} {what:14} {:>3}", self.n))
    }
}

/// A line with the time of each engine, and how many times as long as each other the first takes.
fn of_engines(ns: &[f64], start: &str) -> String {
    let mut line = start.to_string();
    ns.iter().for_each(|ns| line += &format!(" {ns:>11.1}"));
    ns[1..].iter().for_each(|other| line += &format!(" {:>7.2}", ns[0] / other));
    line
}

type Engines = [Box<dyn Engine>];

struct Options {
    engines: String,
    slices: usize,
    svg: String,
    sheets: bool,
}

fn options() -> Option<Options> {
    let known = ["linked", "plain", "tuned"].iter().filter(|name| engine::named(name).is_some());
    let mut options = Options {
        engines: known.copied().collect::<Vec<_>>().join(","),
        slices: 41,
        svg: "bench.svg".into(),
        sheets: false,
    };
    let mut words = std::env::args().skip(1);
    while let Some(word) = words.next() {
        if word == "--sheets" {
            options.sheets = true;
            continue;
        }
        let value = words.next()?;
        match word.as_str() {
            "--engines" => options.engines = value,
            "--slices" => options.slices = value.parse().ok().filter(|&count| count > 0)?,
            "--svg" => options.svg = value,
            _ => return None,
        }
    }
    Some(options)
}

fn engines(names: &str) -> Option<Vec<Box<dyn Engine>>> {
    let engines: Vec<_> = names.split(',').map(engine::named).collect::<Option<_>>()?;
    (engines.len() > 1).then_some(engines)
}

/// What is timed.
#[derive(Clone, Copy)]
enum Call {
    Settle,
    /// Settling with `SPREAD`.
    Spread,
    Read,
    Replay,
}

/// Makes the call for all sheets, or traces, so many times over.
fn time(engine: &dyn Engine, call: Call, sheets: &[Vec<u8>], times: u32) -> Duration {
    let mut answer = [0; 330];
    let mut settings = Settings::default();
    let (mut marks, mut readings) = ([0; 4096], [0; 4096]);
    let start = Instant::now();
    for _ in 0..times {
        for sheet in sheets {
            let sheet = black_box(sheet);
            black_box(match call {
                Call::Settle => engine.settle(sheet, black_box(&mut answer)),
                Call::Spread => {
                    engine.settle_spread(sheet, black_box(SPREAD), black_box(&mut answer))
                }
                Call::Read => engine.read(
                    sheet,
                    &mut settings,
                    black_box(&mut marks),
                    black_box(&mut readings),
                ),
                Call::Replay => engine.replay(sheet, black_box(&mut answer)),
            });
        }
    }
    start.elapsed()
}

/// How often all inputs are gone through in one slice.
fn times_in_a_slice(engine: &dyn Engine, time: impl Fn(&dyn Engine, u32) -> Duration) -> u32 {
    let mut times = 1;
    while time(engine, times) < SLICE {
        times *= 2;
    }
    times
}

/// In ns per sheet, over slices that alternate between the engines: a quarter of them were faster.
fn side_by_side(engines: &Engines, call: Call, sheets: &[Vec<u8>], slices: usize) -> Vec<f64> {
    in_turn(engines, sheets.len(), slices, |engine, times| time(engine, call, sheets, times))
}

/// The same of anything that an engine does with so many inputs, so many times over.
fn in_turn(
    engines: &Engines,
    inputs: usize,
    slices: usize,
    time: impl Fn(&dyn Engine, u32) -> Duration,
) -> Vec<f64> {
    let times: Vec<u32> = engines.iter().map(|e| times_in_a_slice(&**e, &time)).collect();
    let mut ns = vec![Vec::new(); engines.len()];
    for _ in 0..slices {
        for (i, engine) in engines.iter().enumerate() {
            let settled = times[i] as f64 * inputs as f64;
            ns[i].push(time(&**engine, times[i]).as_nanos() as f64 / settled);
        }
    }
    let quarter = |mut slices: Vec<f64>| {
        slices.sort_by(f64::total_cmp);
        slices[slices.len() / 4]
    };
    ns.into_iter().map(quarter).collect()
}

/// All engines give the same answers, and sheets of refusal are refused under 10. An earlier library may round otherwise:
/// it must grant the same sheets.
fn agree(engines: &Engines, call: Call, sheets: &[Vec<u8>], kind: Kind) -> bool {
    let settled = |engine: &dyn Engine, sheet: &[u8]| {
        let mut tray = [0; 330];
        let answer = match call {
            Call::Spread => engine.settle_spread(sheet, SPREAD, &mut tray),
            _ => engine.settle(sheet, &mut tray),
        };
        (answer, tray)
    };
    sheets.iter().all(|sheet| {
        let (answer, tray) = settled(&*engines[0], sheet);
        let number = if kind == Kind::WorstRefusal { 10 } else { 0 };
        let trimmed = sheet[2] > reference::CCA;
        let all = trimmed || kind != Kind::AllAccepted || tray[0] == tray[1];
        let same = engines[1..].iter().all(|engine| {
            let (other, bytes) = settled(&**engine, sheet);
            other == answer && (engine.name() == "before" || bytes == tray)
        });
        same && engine::number(answer) == number && all
    })
}

/// The table of settling; nothing where the engines do not agree.
fn show_settling(engines: &Engines, slices: usize) -> Option<Vec<Cell>> {
    println!("Settling the same sheets, in ns per sheet, in {slices} slices of 1 ms for each");
    println!("engine in turn, of which a quarter were faster than what is written.");
    println!("The answer buffers are not cleared between sheets, for no engine.");
    println!("/NAME is {}'s time divided by NAME's;", engines[0].name());
    println!("growth is the power of N by which each time grew since the N before.");
    println!();
    print!("{:4} {:14} {:>3}", "rule", "sheets", "N");
    engines.iter().for_each(|engine| print!(" {:>11}", engine.name()));
    engines[1..].iter().for_each(|engine| print!(" {:>7}", format!("/{}", engine.name())));
    engines.iter().for_each(|_| print!(" {:>7}", "growth"));
    println!();
    let mut cells: Vec<Cell> = Vec::new();
    for (rule, rule_name) in RULES {
        for kind in KINDS {
            for n in SIZES {
                let sheets = sheets::sheets(n, rule, kind);
                if !agree(engines, Call::Settle, &sheets, kind) {
                    let kind = kind.name();
                    println!(
                        "FAILED: {rule_name}, {kind}, N {n}: the answers are not as they should be"
                    );
                    return None;
                }
                let ns = side_by_side(engines, Call::Settle, &sheets, slices);
                let cell = Cell { rule, kind, n, ns };
                print!("{}", cell.start_of_line(kind.name()));
                if n > SIZES[0] {
                    let before = cells.last().expect("the N before");
                    cell.growth(before).for_each(|power| print!(" {power:>7.2}"));
                }
                println!();
                cells.push(cell);
            }
        }
    }
    Some(cells)
}

fn show_means(engines: &Engines, cells: &[Cell]) {
    println!();
    for (i, other) in engines[1..].iter().enumerate() {
        let logs: f64 = cells.iter().map(|cell| cell.ratios().nth(i).unwrap().ln()).sum();
        println!(
            "Geometric mean of the {} ratios: {} takes {:.2} times as long as {}",
            cells.len(),
            engines[0].name(),
            (logs / cells.len() as f64).exp(),
            other.name()
        );
    }
}

/// Settling with a spread; false where the engines do not agree.
fn show_spreads(engines: &Engines, slices: usize) -> bool {
    println!();
    if let Some(without) = engines.iter().find(|engine| !engine.has_spread()) {
        println!("Settling with a spread is not timed: {} has no such call.", without.name());
        return true;
    }
    println!(
        "Settling the same FCA sheets with a spread of {SPREAD} and a window that is less by it:"
    );
    let mut cells = Vec::new();
    for kind in KINDS {
        for n in SIZES {
            let sheets = sheets::sheets_with_spread(n, kind);
            let name = kind.name_with_spread();
            if !agree(engines, Call::Spread, &sheets, kind) {
                println!("FAILED: {name}, N {n}: the answers are not as they should be");
                return false;
            }
            let ns = side_by_side(engines, Call::Spread, &sheets, slices);
            let cell = Cell { rule: reference::FCA, kind, n, ns };
            println!("{}", cell.start_of_line(name));
            cells.push(cell);
        }
    }
    show_means(engines, &cells);
    true
}

/// Settling by the trimming rules; false where the engines do not agree.
fn show_trimming(engines: &Engines, slices: usize) -> bool {
    println!();
    if let Some(without) = engines.iter().find(|engine| !engine.has_trimming()) {
        println!("The trimming rules are not timed: {} refuses them.", without.name());
        return true;
    }
    println!("Settling by the trimming rules, 2 and 3: sheets whose readings all lie within the");
    println!("window, and sheets of which m are missing or far off:");
    let mut cells = Vec::new();
    for ((rule, name), kind) in TRIMMING
        .into_iter()
        .flat_map(|rule| [Kind::AllAccepted, Kind::SomeLiars].map(|k| (rule, k)))
    {
        for n in SIZES {
            let sheets = sheets::sheets_to_trim(n, rule, kind);
            let what = kind.name_to_trim();
            if !agree(engines, Call::Settle, &sheets, kind) {
                println!("FAILED: {name}, {what}, N {n}: the answers are not as they should be");
                return false;
            }
            let ns = side_by_side(engines, Call::Settle, &sheets, slices);
            let cell = Cell { rule, kind, n, ns };
            println!("{}", cell.start_of_line(what));
            cells.push(cell);
        }
    }
    show_means(engines, &cells);
    true
}

/// Reading sheets whose readings are all present.
fn show_reading(engines: &Engines, slices: usize) {
    println!();
    println!("Reading the same sheets into lent arrays, all readings present:");
    for (rule, _) in RULES {
        for n in SIZES {
            let kind = Kind::AllAccepted;
            let ns = side_by_side(engines, Call::Read, &sheets::sheets(n, rule, kind), slices);
            println!("{}", Cell { rule, kind, n, ns }.start_of_line("read"));
        }
    }
}

/// Settling and reading sheets with gaps; false where the engines do not agree.
fn show_gaps(engines: &Engines, slices: usize) -> bool {
    println!();
    println!("Settling and reading sheets of good readings of which one in eight is missing:");
    for (rule, rule_name) in RULES {
        for n in SIZES {
            let (sheets, kind) = (sheets::sheets_with_gaps(n, rule), Kind::SomeLiars);
            if !agree(engines, Call::Settle, &sheets, kind) {
                println!("FAILED: {rule_name}, gaps, N {n}: the answers are not as they should be");
                return false;
            }
            for (call, name) in [(Call::Settle, "gaps"), (Call::Read, "read, gaps")] {
                let ns = side_by_side(engines, call, &sheets, slices);
                println!("{}", Cell { rule, kind, n, ns }.start_of_line(name));
            }
        }
    }
    true
}

/// Falling back from a CCA sheet to an FCA sheet; false where the engines do not agree.
fn show_fallbacks(engines: &Engines, slices: usize) -> bool {
    println!();
    println!(
        "Falling back from CCA sheets to FCA sheets, in ns per pair: pairs of which the CCA sheet"
    );
    println!(
        "settles, of which it is refused under 10 and the FCA sheet settles, and of which both are"
    );
    println!("refused; liars as above, and the worst refusals:");
    let mut cells = Vec::new();
    for end in &fallbacks::ENDS {
        for n in SIZES {
            let pairs = fallbacks::pairs(n, end);
            if !fallbacks::agree(engines, &pairs, end) {
                println!("FAILED: {}, N {n}: the answers are not as they should be", end.name);
                return false;
            }
            let ns = in_turn(engines, pairs.len(), slices, |engine, times| {
                fallbacks::time(engine, &pairs, times)
            });
            println!("{}", of_engines(&ns, &format!("{:4} {:14} {n:>3}", "pair", end.name)));
            cells.push(Cell { rule: reference::CCA, kind: end.kinds[0], n, ns });
        }
    }
    show_means(engines, &cells);
    true
}

/// Replays, and the settlings of the same sheets; false where the engines do not agree.
fn show_replays(engines: &Engines, slices: usize) -> bool {
    println!();
    println!(
        "Replaying the same traces of {} rounds in which m cabinets lie, in ns per replay,",
        replays::ROUNDS
    );
    println!("and settling the sheets of such a run one by one:");
    let plain = engines.iter().position(|engine| engine.name() == "plain");
    let mut beside = Vec::new();
    for n in replays::SIZES {
        let traces = replays::traces(n);
        let bytes: Vec<Vec<u8>> = traces.iter().map(|trace| trace.bytes()).collect();
        let sheets: Vec<Vec<u8>> = traces.iter().flat_map(replays::sheets).collect();
        if !replays_agree(engines, &bytes) {
            println!("FAILED: replays of N {n}: the answers are not as they should be");
            return false;
        }
        let (rule, kind) = (reference::FCA, Kind::SomeLiars);
        let replayed = side_by_side(engines, Call::Replay, &bytes, slices);
        let of_a_run = sheets.len() as f64 / traces.len() as f64;
        let settled = side_by_side(engines, Call::Settle, &sheets, slices);
        let settled: Vec<f64> = settled.iter().map(|ns| ns * of_a_run).collect();
        if let Some(plain) = plain {
            beside.push(format!("N {n} {:.2}", replayed[0] / settled[plain]));
        }
        println!("{}", Cell { rule, kind, n, ns: replayed }.start_of_line("replay"));
        println!("{}", Cell { rule, kind, n, ns: settled }.start_of_line("its sheets"));
    }
    if plain.is_some() {
        let first = engines[0].name();
        println!("A replay by {first} over its sheets settled by plain: {}", beside.join(", "));
    }
    true
}

/// All engines replay alike, and refuse nothing.
fn replays_agree(engines: &Engines, traces: &[Vec<u8>]) -> bool {
    let replayed = |engine: &dyn Engine, trace| {
        let mut values = [0; 4 * 64];
        (engine.replay(trace, &mut values), values)
    };
    traces.iter().all(|trace| {
        let first = replayed(&*engines[0], trace);
        let same = engines[1..].iter().all(|engine| replayed(&**engine, trace) == first);
        same && engine::number(first.0) == 0
    })
}

/// Intervals between rounds; false where the engines do not agree.
fn show_intervals(engines: &Engines, slices: usize) -> bool {
    println!();
    println!("The least and the greatest interval between rounds, in ns per call:");
    for (granted, name) in [(true, "granted"), (false, "none is left")] {
        let inputs = intervals::inputs(granted);
        if !intervals::agree(engines, &inputs, granted) {
            println!("FAILED: intervals, {name}: the answers are not as they should be");
            return false;
        }
        let ns = in_turn(engines, inputs.len(), slices, |engine, times| {
            intervals::time(engine, &inputs, times)
        });
        println!("{}", of_engines(&ns, &format!("{:23}", format!("interval, {name}"))));
    }
    true
}

fn main() -> ExitCode {
    let Some(options) = options() else {
        eprintln!("{USAGE}");
        return ExitCode::from(2);
    };
    let Some(engines) = engines(&options.engines) else {
        eprintln!("no such engine, or only one\n{USAGE}");
        return ExitCode::from(2);
    };
    let Some(cells) = show_settling(&engines, options.slices) else {
        return ExitCode::FAILURE;
    };
    show_means(&engines, &cells);
    if !show_spreads(&engines, options.slices) {
        return ExitCode::FAILURE;
    }
    show_reading(&engines, options.slices);
    if !show_gaps(&engines, options.slices) {
        return ExitCode::FAILURE;
    }
    if !show_trimming(&engines, options.slices) {
        return ExitCode::FAILURE;
    }
    if options.sheets {
        return ExitCode::SUCCESS;
    }
    for show in [show_fallbacks, show_replays, show_intervals] {
        if !show(&engines, options.slices) {
            return ExitCode::FAILURE;
        }
    }
    let names: Vec<String> = engines.iter().map(|engine| engine.name()).collect();
    if let Err(error) = std::fs::write(&options.svg, picture::svg(&names, &cells)) {
        println!("FAILED: {}: {error}", options.svg);
        return ExitCode::FAILURE;
    }
    println!("The picture is in {}", options.svg);
    ExitCode::SUCCESS
}
