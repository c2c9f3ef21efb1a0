//! Each call to both engines: answers and every lent byte are compared with each other, and
//! each with what the documents say of bytes that must survive.

use crate::fallbacks::{Fallbacks, Pair};
use crate::intervals::{Asked, Intervals};
use crate::trims::Trims;
use crate::{draw, traces};
use engine::traces::redraw_for_faulty;
use engine::{fallback_by_hand, number, replay_by_hand, words, Engine, Plan, Settings};
use random::Random;
use reference::{next_window, sums_apart, Distances, Trace, CCA, FCA, MEDIAN};

pub const CALLS: [&str; 11] = [
    "settle", "read", "write", "row", "plan", "step", "target", "replay", "spread", "interval",
    "fallback",
];

/// The highest number of a refusal.
pub const LAST: usize = 19;

/// A trace is replayed for every so many sheets. For the others a sheet is settled with a spread.
pub const SHEETS_FOR_A_TRACE: u64 = 2;

/// What was settled with a spread.
pub struct Spreads {
    pub several_faults: u64,
    /// How often the spread was each of `ENDS`.
    pub at_end: [u64; ENDS.len()],
    /// How often a sheet settled with a spread above 0, for each estimator and N.
    pub settled: [[u64; 65]; 3],
    /// How often a span that starts at an accepted reading ends past 32 bits.
    pub past_32_bits: u64,
    /// How often the outcome would be another with a spread a tick less, and a tick more.
    pub tick_less: u64,
    pub tick_more: u64,
}

/// Both sides of the limits of a spread.
pub const ENDS: [u32; 6] = [0, 1, 99_999, 100_000, 100_001, u32::MAX];

/// What can be met of the distances of a settled sheet's used values from its lowest accepted reading.
pub const SUMS: [&str; 12] = [
    "a sum above N spans",
    "a sum of N+m-1 spans",
    "the lowest at the low end of 32 bits",
    "a used value at the high end",
    "the remainder next below a half, N being odd",
    "a half going up, to 0 or above",
    "a half going up, to a value below 0",
    "a half going down, to 0 or above",
    "a half going down, to a value below 0",
    "a half beside the low end of 32 bits",
    "a half beside the high end",
    "a half above an odd lowest reading",
];

/// What can be met of the settings from which a next window is planned.
pub const NEXT: [&str; 7] = [
    "m is 0, and the window is not",
    "the window is 0, and m is not",
    "2mδ/N is whole, by FCA",
    "2mδ/N is whole, by CCA with average or midpoint",
    "mδ/N is whole, by CCA with median",
    "mδ/N is whole, by which the accuracy grows",
    "the window stays as it is, above 0",
];

/// The calls that plan a next window.
pub const PLANNING: [usize; 3] = [4, 5, 6];

/// What was replayed.
pub struct Replays {
    pub by_n: [u64; 65],
    pub by_rounds: [u64; 33],
    /// How often a sound cabinet met "too many faults" in each round.
    pub stopped_in: [u64; 33],
    pub several_faults: u64,
    /// How often a run was replayed with other readings for faulty cabinets.
    pub other_for_faulty: u64,
}

pub struct Comparison<'a> {
    pub a: &'a dyn Engine,
    pub b: &'a dyn Engine,
    /// How often each call was granted, or refused under each number.
    pub outcomes: [[u64; LAST + 1]; CALLS.len()],
    /// How often a sheet settled by FCA or CCA, for each rule, estimator and N.
    pub settled: [[[u64; 65]; 3]; 2],
    pub all_accepted: u64,
    pub several_faults: u64,
    pub rows_shown: u64,
    pub rows_empty: u64,
    pub replays: Replays,
    pub spreads: Spreads,
    pub trims: Trims,
    pub intervals: Intervals,
    pub fallbacks: Fallbacks,
    /// How often each of `SUMS` was met.
    pub sums: [u64; SUMS.len()],
    /// How often each of `NEXT` was met, at each of `PLANNING`.
    pub next: [[u64; NEXT.len()]; PLANNING.len()],
    pub differences: u64,
    /// The sheet that is compared now.
    pub now: u64,
}

impl<'a> Comparison<'a> {
    pub fn new(a: &'a dyn Engine, b: &'a dyn Engine) -> Comparison<'a> {
        Comparison {
            a,
            b,
            outcomes: [[0; LAST + 1]; CALLS.len()],
            settled: [[[0; 65]; 3]; 2],
            all_accepted: 0,
            several_faults: 0,
            rows_shown: 0,
            rows_empty: 0,
            replays: Replays {
                by_n: [0; 65],
                by_rounds: [0; 33],
                stopped_in: [0; 33],
                several_faults: 0,
                other_for_faulty: 0,
            },
            spreads: Spreads {
                several_faults: 0,
                at_end: [0; ENDS.len()],
                settled: [[0; 65]; 3],
                past_32_bits: 0,
                tick_less: 0,
                tick_more: 0,
            },
            trims: Trims::new(),
            intervals: Intervals::new(),
            fallbacks: Fallbacks::new(),
            sums: [0; SUMS.len()],
            next: [[0; NEXT.len()]; PLANNING.len()],
            differences: 0,
            now: 0,
        }
    }

    /// All calls, on inputs from one seed.
    pub fn all_calls(&mut self, random: &Random, now: u64) {
        self.now = now;
        let mut paper = draw::paper(random);
        let faults = draw::damage_paper(random, &mut paper);
        self.several_faults += (faults > 1) as u64;
        self.trims.count_sheet(&paper.settings, faults);
        let sheet = draw::sheet(random, &paper);
        self.settle(random, &sheet);
        self.read(random, &sheet);
        self.rows(random, &sheet);
        self.write(random, &paper);
        self.plan(random);
        self.step(random);
        self.target(random);
        if now.is_multiple_of(SHEETS_FOR_A_TRACE) {
            self.replay(random);
        } else {
            self.settle_spread(random);
        }
        self.interval(random);
        self.fallback(random);
    }

    /// Counts and shows a difference when something demanded does not hold.
    fn demand(&mut self, holds: bool, call: &str, what: impl FnOnce() -> String) {
        if !holds {
            self.differences += 1;
            println!("DIFFERENCE at sheet {}, {call}: {}", self.now, what());
        }
    }

    fn answers(&mut self, call: usize, a: u64, b: u64, input: impl FnOnce() -> String) {
        self.outcomes[call][number(a).min(LAST)] += 1;
        self.demand(a == b, CALLS[call], || format!("{} / {}; {}", words(a), words(b), input()));
    }

    /// Bytes that must survive a call.
    fn survived<T: PartialEq>(&mut self, call: &str, who: &dyn Engine, before: &[T], after: &[T]) {
        self.demand(before == after, call, || format!("{} wrote where it must not", who.name()));
    }

    /// A call that fills a lent tray from lent bytes. The first engine's answer and tray.
    fn fill(
        &mut self,
        call: usize,
        bytes: &[u8],
        old: &[u8],
        make: impl Fn(&dyn Engine, &[u8], &mut [u8]) -> u64,
    ) -> (u64, Vec<u8>) {
        let (mut tray_a, mut tray_b) = (old.to_vec(), old.to_vec());
        let a = make(self.a, bytes, &mut tray_a);
        let b = make(self.b, bytes, &mut tray_b);
        self.answers(call, a, b, || in_words(bytes));
        for (who, answer, tray) in [(self.a, a, &tray_a), (self.b, b, &tray_b)] {
            let written = if number(answer) == 0 { (answer as usize).min(old.len()) } else { 0 };
            self.survived(CALLS[call], who, &old[written..], &tray[written..]);
        }
        self.demand(tray_a == tray_b, CALLS[call], || {
            let at = (0..old.len()).find(|&i| tray_a[i] != tray_b[i]).unwrap();
            format!("byte {at} is {} / {}; {}", tray_a[at], tray_b[at], in_words(bytes))
        });
        (a, tray_a)
    }

    fn settle(&mut self, random: &Random, sheet: &[u8]) {
        let n = cabinets(sheet);
        let old = answer_tray(random, n);
        let settle = |who: &dyn Engine, sheet: &[u8], tray: &mut [u8]| who.settle(sheet, tray);
        let (answer, tray) = self.fill(0, sheet, &old, settle);
        self.trims.count_bytes(0, sheet, answer);
        if number(answer) == 0 && sheet[2] > CCA {
            self.trims.count_round(sheet, &tray);
        } else if number(answer) == 0 {
            self.settled[sheet[2] as usize][sheet[3] as usize][n] += 1;
            self.all_accepted += (tray[0] == tray[1]) as u64;
            self.count_sum(sheet, 0, &tray);
        }
    }

    fn count_sum(&mut self, sheet: &[u8], spread: u32, tray: &[u8]) {
        let (Ok(settings), Some(distances)) =
            (reference::settings_of(sheet), Distances::of_answer(tray))
        else {
            return;
        };
        let (n, span) = (settings.n as u32, settings.window + spread);
        let sum = distances.sum().unwrap_or(0);
        let to_the_end = distances.lowest.abs_diff(i32::MAX);
        let of_the_sum = [
            sum > n * span,
            span > 0 && sum == settings.greatest_sum(span),
            distances.lowest == i32::MIN,
            distances.above.contains(&to_the_end),
            n % 2 == 1 && sum % n == n / 2 && n > 1,
        ];
        let halves = halves(n, distances.lowest, sum);
        for (times, met) in self.sums.iter_mut().zip(of_the_sum.into_iter().chain(halves)) {
            *times += met as u64;
        }
    }

    /// Counts the settings from which a call plans a next window.
    fn count_next(&mut self, call: usize, answer: u64, settings: &Settings) {
        if ![0, 12].contains(&number(answer)) || settings.check_plan().is_err() {
            return;
        }
        let Settings { n, m, rule, estimator, window } = *settings;
        let some = m > 0 && window > 0;
        let whole = |product: u64| some && product.is_multiple_of(n as u64);
        let apart = whole(sums_apart(settings));
        let met = [
            m == 0 && window > 0,
            m > 0 && window == 0,
            apart && rule == FCA,
            apart && rule == CCA && estimator != MEDIAN,
            apart && rule == CCA && estimator == MEDIAN,
            whole(m as u64 * window as u64),
            some && next_window(settings) == window,
        ];
        let row =
            PLANNING.iter().position(|&planning| planning == call).expect("a call that plans");
        for (times, met) in self.next[row].iter_mut().zip(met) {
            *times += met as u64;
        }
    }

    /// With a spread of 0 it is settling.
    fn settle_spread(&mut self, random: &Random) {
        let spread = draw::spread(random);
        let mut paper = draw::paper_with_spread(random, spread);
        self.spreads.several_faults += (draw::damage_paper(random, &mut paper) > 1) as u64;
        let sheet = draw::sheet(random, &paper);
        let old = answer_tray(random, cabinets(&sheet));
        let settle = |who: &dyn Engine, sheet: &[u8], tray: &mut [u8]| {
            who.settle_spread(sheet, spread, tray)
        };
        let (answer, tray) = self.fill(8, &sheet, &old, settle);
        self.trims.count_bytes(8, &sheet, answer);
        for who in [self.a, self.b] {
            let (mut with, mut without) = (old.clone(), old.clone());
            let answers =
                (who.settle_spread(&sheet, 0, &mut with), who.settle(&sheet, &mut without));
            self.demand(answers.0 == answers.1 && with == without, "spread", || {
                format!("{}: a spread of 0 is not none; {}", who.name(), in_words(&sheet))
            });
        }
        self.count_spread(spread, &sheet, answer, &tray);
    }

    fn count_spread(&mut self, spread: u32, sheet: &[u8], answer: u64, tray: &[u8]) {
        for (end, times) in ENDS.iter().zip(&mut self.spreads.at_end) {
            *times += (spread == *end) as u64;
        }
        let known = |spread: u32| {
            let mut tray = [0; 330];
            (reference::settle_spread(sheet, spread, &mut tray), tray)
        };
        if [0, 10].contains(&number(answer)) && (1..100_000).contains(&spread) {
            self.spreads.tick_less += (known(spread) != known(spread - 1)) as u64;
            self.spreads.tick_more += (known(spread) != known(spread + 1)) as u64;
        }
        if number(answer) == 0 && sheet[2] <= CCA {
            self.count_sum(sheet, spread, tray);
        }
        if let (0, Ok(settings), 1..) = (number(answer), reference::settings_of(sheet), spread) {
            let (n, span) = (settings.n as usize, settings.window as i64 + spread as i64);
            let used = tray.get(10 + n..10 + 5 * n).map_or(vec![], reference::numbers_in);
            let past = |v: i32| v as i64 + span > i32::MAX as i64;
            self.spreads.past_32_bits += used.into_iter().any(past) as u64;
            self.spreads.settled[settings.estimator as usize][n] += 1;
        }
    }

    /// A replay is what a loop over the engine's own calls gives, and what faulty cabinets read at first
    /// and receive plays no part in it.
    fn replay(&mut self, random: &Random) {
        let mut trace = traces::trace(random);
        self.replays.several_faults += (traces::damage(random, &mut trace) > 1) as u64;
        let bytes = traces::bytes(random, &trace);
        let old = random.bytes(draw::length(random, 4 * cabinets(&bytes)));
        let replay = |who: &dyn Engine, trace: &[u8], tray: &mut [u8]| who.replay(trace, tray);
        let given = self.fill(7, &bytes, &old, replay);
        self.trims.count_bytes(7, &bytes, given.0);

        let mut tray = old.clone();
        let by_hand = (replay_by_hand(self.a, &bytes, &mut tray), tray);
        self.same_replay("by hand", &given, &by_hand, &bytes);
        if let (0 | 15, Ok(trace)) = (number(given.0), Trace::open(&bytes)) {
            let mut other = trace.clone();
            redraw_for_faulty(random, &mut other);
            let other = other.bytes();
            let mut tray = old;
            let again = (self.a.replay(&other, &mut tray), tray);
            self.same_replay("with other readings for faulty cabinets", &given, &again, &bytes);
            self.replays.other_for_faulty += (other != bytes) as u64;
            self.count_replay(&trace, given.0);
        }
    }

    fn same_replay(&mut self, how: &str, a: &(u64, Vec<u8>), b: &(u64, Vec<u8>), bytes: &[u8]) {
        self.demand(a == b, "replay", || {
            let values = if a.1 == b.1 { "the same values" } else { "other values" };
            format!("{} / {how} {}, {values}; {}", words(a.0), words(b.0), in_words(bytes))
        });
    }

    fn count_replay(&mut self, trace: &Trace, answer: u64) {
        if number(answer) == 0 {
            self.replays.by_n[trace.n()] += 1;
            self.replays.by_rounds[trace.rounds as usize] += 1;
        } else {
            self.replays.stopped_in[(answer as u32 as usize / 64).min(32)] += 1;
        }
    }

    fn read(&mut self, random: &Random, sheet: &[u8]) {
        let entries = sheet.len().saturating_sub(8) / 5;
        let marks_length = draw::length(random, entries);
        let old_marks = random.bytes(marks_length);
        let readings_length = draw::length(random, entries);
        let old_readings = draw::readings_of_any_kind(random, readings_length);
        let old_settings = draw::settings(random);
        let read = |who: &dyn Engine| {
            let mut settings = old_settings;
            let (mut marks, mut readings) = (old_marks.clone(), old_readings.clone());
            let answer = who.read(sheet, &mut settings, &mut marks, &mut readings);
            (answer, settings, marks, readings)
        };
        let (a, b) = (read(self.a), read(self.b));
        self.answers(1, a.0, b.0, || in_words(sheet));
        self.trims.count_bytes(1, sheet, a.0);
        for (who, (answer, settings, marks, readings)) in [(self.a, &a), (self.b, &b)] {
            let granted = number(*answer) == 0;
            let filled = if granted { *answer as usize } else { 0 };
            let (kept_marks, kept_readings) =
                (filled.min(marks_length), filled.min(readings_length));
            self.survived("read", who, &old_marks[kept_marks..], &marks[kept_marks..]);
            self.survived("read", who, &old_readings[kept_readings..], &readings[kept_readings..]);
            if !granted {
                self.survived("read", who, &[old_settings], &[*settings]);
            } else if filled <= marks_length.min(readings_length) {
                self.written_again(who, sheet, settings, &marks[..filled], &readings[..filled]);
            }
        }
        self.demand(a == b, "read", || format!("settings or arrays differ; {}", in_words(sheet)));
    }

    /// A sheet read and written again has the same bytes.
    fn written_again(
        &mut self,
        who: &dyn Engine,
        sheet: &[u8],
        settings: &Settings,
        marks: &[u8],
        readings: &[i32],
    ) {
        let mut again = vec![0; sheet.len()];
        let length = who.write(settings, marks, readings, &mut again);
        self.demand(length == sheet.len() as u64 && again == sheet, "read and write", || {
            format!("{} does not write what it read; {}", who.name(), in_words(sheet))
        });
    }

    fn write(&mut self, random: &Random, paper: &draw::Paper) {
        let settings = paper.settings;
        let mut marks = paper.marks.clone();
        let mut readings = paper.readings.clone();
        if random.percent(5) {
            match random.below(4) {
                0 => marks.push(1),
                1 => readings.push(1),
                2 => marks.truncate(marks.len() - 1),
                _ => readings.truncate(random.below(readings.len())),
            }
        }
        let length = draw::length(random, 8 + 5 * marks.len());
        let old = random.bytes(length);
        let (mut sheet_a, mut sheet_b) = (old.clone(), old.clone());
        let a = self.a.write(&settings, &marks, &readings, &mut sheet_a);
        let b = self.b.write(&settings, &marks, &readings, &mut sheet_b);
        self.answers(2, a, b, || format!("{settings:?}"));
        self.trims.count(2, &settings, a);
        for (who, answer, sheet) in [(self.a, a, &sheet_a), (self.b, b, &sheet_b)] {
            let written = if number(answer) == 0 { (answer as usize).min(length) } else { 0 };
            self.survived("write", who, &old[written..], &sheet[written..]);
            if number(answer) == 0 {
                self.read_back(who, &sheet[..written], &settings, &marks, &readings);
            }
        }
        self.demand(sheet_a == sheet_b, "write", || format!("sheets differ; {settings:?}"));
    }

    /// A sheet written reads back the same.
    fn read_back(
        &mut self,
        who: &dyn Engine,
        sheet: &[u8],
        settings: &Settings,
        marks: &[u8],
        readings: &[i32],
    ) {
        let mut settings_back = Settings::default();
        let (mut marks_back, mut readings_back) = (vec![9; marks.len()], vec![9; readings.len()]);
        let entries = who.read(sheet, &mut settings_back, &mut marks_back, &mut readings_back);
        let same = settings_back == *settings && marks_back == marks && readings_back == readings;
        self.demand(entries == marks.len() as u64 && same, "write and read", || {
            format!("{} does not read back what it wrote; {settings:?}", who.name())
        });
    }

    fn rows(&mut self, random: &Random, sheet: &[u8]) {
        let n = sheet.first().copied().unwrap_or(0) as u32;
        let any = random.draw() as u32;
        let some = random.below(n as usize + 1) as u32;
        for cabinet in [0, some, n.wrapping_sub(1), n, random.pick(&[255, 256, u32::MAX, any])] {
            let (a, b) = (self.a.row(sheet, cabinet), self.b.row(sheet, cabinet));
            let counter = if a.is_empty() { &mut self.rows_empty } else { &mut self.rows_shown };
            *counter += 1;
            if !a.is_empty() {
                self.trims.count_bytes(3, sheet, 0);
            }
            let same_part = a.len() == b.len() && (a.is_empty() || a.as_ptr() == b.as_ptr());
            self.demand(same_part, "row", || {
                format!("cabinet {cabinet}: {a:?} / {b:?}; {}", in_words(sheet))
            });
        }
    }

    fn plan(&mut self, random: &Random) {
        let settings = draw::plan_settings(random);
        let (accuracy, rounds) = (draw::accuracy(random), draw::rounds(random));
        let old = draw::plan(random);
        let (mut plan_a, mut plan_b) = (old, old);
        let a = self.a.plan(&settings, accuracy, rounds, &mut plan_a);
        let b = self.b.plan(&settings, accuracy, rounds, &mut plan_b);
        let input = || format!("{settings:?}, accuracy {accuracy}, rounds {rounds}");
        self.answers(4, a, b, input);
        self.trims.count(4, &settings, a);
        if rounds > 0 {
            self.count_next(4, a, &settings);
        }
        self.plans("plan", old, (a, plan_a), (b, plan_b), input);
    }

    fn step(&mut self, random: &Random) {
        let plan = draw::plan(random);
        let old = draw::plan(random);
        let (mut next_a, mut next_b) = (old, old);
        let a = self.a.step(&plan, &mut next_a);
        let b = self.b.step(&plan, &mut next_b);
        self.answers(5, a, b, || format!("{plan:?}"));
        self.trims.count(5, &plan.settings, a);
        self.count_next(5, a, &plan.settings);
        self.plans("step", old, (a, next_a), (b, next_b), || format!("{plan:?}"));
    }

    fn plans(
        &mut self,
        call: &str,
        old: Plan,
        a: (u64, Plan),
        b: (u64, Plan),
        input: impl Fn() -> String,
    ) {
        for (who, (answer, plan)) in [(self.a, a), (self.b, b)] {
            if number(answer) != 0 {
                self.survived(call, who, &[old], &[plan]);
            } else {
                let same = answer == plan.rounds as u64;
                self.demand(same, call, || format!("{} miscounts; {}", who.name(), input()));
            }
        }
        self.demand(a.1 == b.1, call, || format!("{:?} / {:?}; {}", a.1, b.1, input()));
    }

    /// Where an interval is granted, the inequalities hold at both ends and not a tick outside.
    fn interval(&mut self, random: &Random) {
        let (asked, faults) = Asked::draw(random);
        let Asked { window, precision, drift } = asked;
        let ask = |who: &dyn Engine| who.interval(window, precision, drift);
        let (a, b) = (ask(self.a), ask(self.b));
        self.answers(9, a.answer, b.answer, || format!("{asked:?}"));
        let same = a == b || a.answer != b.answer;
        self.demand(same, "interval", || format!("{a:?} / {b:?}; {asked:?}"));
        for (who, given) in [(self.a, a), (self.b, b)] {
            let right = match number(given.answer) {
                0 => asked.holds(&given),
                _ => (given.least, given.greatest) == (0, 0),
            };
            self.demand(right, "interval", || format!("{}: {given:?}; {asked:?}", who.name()));
            let in_c = who.interval_in_c(window, precision, drift).unwrap_or(given);
            self.demand(in_c == given, "interval", || {
                format!("{}: {given:?}, and in C {in_c:?}; {asked:?}", who.name())
            });
        }
        self.intervals.count(&asked, faults, &b);
    }

    /// What is shown is of the sheet that settled, and all of it is what settling the sheets one after the other gives.
    fn fallback(&mut self, random: &Random) {
        let (pair, faults) = Pair::draw(random);
        let (crusaders, direct) = (&pair.crusaders[..], &pair.direct[..]);
        let old = answer_tray(random, cabinets(crusaders));
        let fall = |who: &dyn Engine| {
            let mut tray = old.clone();
            (who.fallback(crusaders, direct, &mut tray), tray)
        };
        let (a, b) = (fall(self.a), fall(self.b));
        self.answers(10, a.0.answer, b.0.answer, || pair.in_words());
        for (who, given) in [(self.a, &a), (self.b, &b)] {
            let granted = number(given.0.answer) == 0;
            let written = if granted { (given.0.answer as usize).min(old.len()) } else { 0 };
            self.survived("fallback", who, &old[written..], &given.1[written..]);
            self.demand(pair.is_shown(&given.0), "fallback", || {
                format!("{} shows {:?}; {}", who.name(), given.0, pair.in_words())
            });
            let mut tray = old.clone();
            let by_hand = (fallback_by_hand(who, crusaders, direct, &mut tray), tray);
            self.demand(by_hand == *given, "fallback", || {
                let (fell, by_hand) = (given.0, by_hand.0);
                format!("{}: {fell:?}, by hand {by_hand:?}; {}", who.name(), pair.in_words())
            });
            let mut tray = old.clone();
            let in_c = who.fallback_in_c(crusaders, direct, &mut tray).map(|fell| (fell, tray));
            self.demand(in_c.is_none_or(|in_c| in_c == *given), "fallback", || {
                format!("{}: in C it is another; {}", who.name(), pair.in_words())
            });
        }
        let same = a == b || a.0.answer != b.0.answer;
        self.demand(same, "fallback", || {
            let trays = if a.1 == b.1 { "the same tray" } else { "other trays" };
            format!("{:?} / {:?}, {trays}; {}", a.0, b.0, pair.in_words())
        });
        self.fallbacks.count(&pair, faults, &b.0, &b.1);
    }

    /// The counts need not be equal; each must be one that fits.
    fn target(&mut self, random: &Random) {
        let settings = draw::plan_settings(random);
        let accuracy = draw::accuracy(random);
        let target = draw::target(random, &settings);
        let a = self.a.target(&settings, accuracy, target);
        let b = self.b.target(&settings, accuracy, target);
        let granted = number(a) == 0 && number(b) == 0;
        let input = || format!("{settings:?}, accuracy {accuracy}, target {target}");
        self.answers(6, a, if granted { a } else { b }, input);
        self.trims.count(6, &settings, a);
        self.count_next(6, a, &settings);
        if granted {
            let fit = reference::counts_that_fit(&settings, target);
            for (who, answer) in [(self.a, a), (self.b, b)] {
                self.demand(fit.contains(&(answer as u32)), "target", || {
                    format!("{} says {answer}; {fit:?} fit; {}", who.name(), input())
                });
            }
        }
    }
}

/// Which of the last of `SUMS` a sum of distances from the lowest meets.
fn halves(n: u32, lowest: i32, sum: u32) -> [bool; 7] {
    let half = 2 * (sum % n) == n;
    let below = lowest as i64 + (sum / n) as i64;
    let up = below % 2 != 0;
    [
        up && below >= -1,
        up && below < -1,
        !up && below >= 0,
        !up && below < 0,
        below == i32::MIN as i64,
        below + 1 == i32::MAX as i64,
        lowest % 2 != 0,
    ]
    .map(|met| half && met)
}

/// N, as the first byte of a sheet or a trace has it, or one that could be.
fn cabinets(bytes: &[u8]) -> usize {
    bytes.first().map_or(4, |&n| n as usize % 65)
}

/// A tray for the answer of so many cabinets, with old contents.
fn answer_tray(random: &Random, n: usize) -> Vec<u8> {
    random.bytes(draw::length(random, 10 + 5 * n))
}

/// The first bytes of a sheet and its length.
fn in_words(sheet: &[u8]) -> String {
    format!("{} bytes: {:?}..", sheet.len(), &sheet[..sheet.len().min(40)])
}
