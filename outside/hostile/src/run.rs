//! One run, as document 01 writes it out: a start, then rounds of sending, sheets and settling.

use crate::cables::{exact_example, example, EXAMPLES};
use crate::drift::{self, Drifted};
use crate::fallbacks::Fell;
use crate::liars::{clamp, outermost, Aim, Liars, Reading};
use crate::limits::{gap, good_sets, is_half, Apart, GoodSets, Met, Most};
use crate::sums;
use crate::tape::{End, Heard, Tape};
use crate::trimming;
use engine::{number, words, Engine, Plan, Settings};
use random::Random;
use reference::{AVERAGE, CCA, FCA, MEDIAN};

/// The limits, by name. Each is counted apart.
pub const LIMITS: [&str; 64] = [
    "t ≤ m    gap   round 1  FCA",
    "t ≤ m    gap   round 1  CCA, median",
    "t ≤ m    gap   round 1  CCA, others",
    "t ≤ m    gap   later    FCA",
    "t ≤ m    gap   later    CCA, median",
    "t ≤ m    gap   later    CCA, others",
    "t ≤ m    error round 1  FCA",
    "t ≤ m    error round 1  CCA",
    "t ≤ m    error later    FCA",
    "t ≤ m    error later    CCA",
    "m < t    gap   document FCA",
    "m < t    gap   document CCA",
    "m < t    error document FCA",
    "m < t    error document CCA",
    "m < t    gap   exact    FCA",
    "m < t    gap   exact    CCA",
    "m < t    error exact    FCA",
    "m < t    error exact    CCA",
    "t ≤ m    gap   replay   FCA",
    "t ≤ m    error replay   FCA",
    "t ≤ m    gap   cables   FCA",
    "t ≤ m    error cables   FCA",
    "any t    sum   document all",
    "any t    sum   exact    FCA",
    "any t    sum   exact    CCA",
    "any t    sum   exact    cables",
    "t ≤ m    gap   odd N    FCA",
    "t ≤ m    gap   odd N    CCA, median",
    "t ≤ m    gap   odd N    CCA, others",
    "m < t    gap   odd N    FCA",
    "m < t    gap   odd N    CCA",
    "t ≤ m    gap   odd N    cables",
    "m < t    gap   half     FCA",
    "m < t    gap   half     CCA",
    "m < t    error half     FCA",
    "m < t    error half     CCA",
    "t ≤ m    gap   trimmed  rule 2",
    "t ≤ m    gap   trimmed  rule 3",
    "t ≤ m    range low end  rule 2",
    "t ≤ m    range low end  rule 3",
    "t ≤ m    range high end rule 2",
    "t ≤ m    range high end rule 3",
    "drift    gap   interval window",
    "drift    late  interval order",
    "fallback gap   document by CCA",
    "fallback gap   document mixed",
    "fallback gap   document by FCA",
    "fallback gap   exact    by CCA",
    "fallback gap   exact    mixed",
    "fallback gap   exact    by FCA",
    "fallback gap   odd N    by CCA",
    "fallback gap   odd N    mixed",
    "fallback gap   odd N    by FCA",
    "fallback gap   half     by CCA",
    "fallback gap   half     mixed",
    "fallback gap   half     by FCA",
    "fallback error document by CCA",
    "fallback error document by FCA",
    "fallback error exact    by CCA",
    "fallback error exact    by FCA",
    "fallback error half     by CCA",
    "fallback error half     by FCA",
    "fallback gap   t ≤ m    by CCA",
    "fallback error t ≤ m    by CCA",
];

/// Where the limits by the ceiling begin, which an odd N keeps: for t ≤ m one for each kind of run, for m < t
/// one for each rule, one with cables.
const ODD: usize = 26;
const ODD_WIDE: usize = 3;
pub const ODD_CABLES: usize = 5;

/// Where the exact limits begin, again, of (m+t)δ/N that is a half.
const HALF_GAP: usize = 32;
const HALF_ERROR: usize = 34;

/// The ceilings that an even N passes, by what comes after `ODD`. Of CCA with average or midpoint no round is known
/// that does.
const PASSED: [(usize, &str); 5] = [
    (0, "t ≤ m    a gap past the ceiling, FCA"),
    (1, "t ≤ m    a gap past the ceiling, CCA, median"),
    (ODD_WIDE, "m < t    a gap past the ceiling, FCA"),
    (ODD_WIDE + 1, "m < t    a gap past the ceiling, CCA"),
    (ODD_CABLES, "t ≤ m    a gap past the ceiling, cables"),
];

/// More bad ones than planned for, at some windows.
pub struct Question {
    pub n: u8,
    pub m: u8,
    pub t: usize,
    pub windows: [u32; 6],
}

/// The regulator's, three of seven; and four of eight, most of whose windows make halves.
pub const QUESTIONS: [Question; 2] = [
    Question { n: 7, m: 2, t: 3, windows: [2, 7, 1_677, 16_777, 167_772, 1_000_000] },
    Question { n: 8, m: 2, t: 4, windows: [1, 2, 6, 1_678, 167_774, 999_998] },
];

impl Question {
    pub fn settings(&self, window: u32) -> Settings {
        Settings { n: self.n, m: self.m, rule: FCA, estimator: MEDIAN, window }
    }

    fn asks(&self, settings: &Settings, t: usize) -> bool {
        (self.n, self.m, self.t) == (settings.n, settings.m, t)
    }
}

/// How close each of `LIMITS` was met.
pub struct AllMet(pub [Met; LIMITS.len()]);

impl Default for AllMet {
    fn default() -> AllMet {
        AllMet([Met::default(); LIMITS.len()])
    }
}

#[derive(Default)]
pub struct Tally {
    pub met: AllMet,
    /// The greatest gap, and the greatest error past κ, that were met at the windows of each of `QUESTIONS`.
    pub answers: [[Option<Most>; 6]; 2],
    /// The same for each of `EXAMPLES`, whose cables differ.
    pub examples: [Option<Most>; EXAMPLES.len()],
    pub few_bad: u64,
    pub many_bad: u64,
    pub rounds: u64,
    pub settled: u64,
    pub refused: u64,
    /// Sheets settled, and refused, where t ≤ m.
    pub few_settled: u64,
    pub few_refused: u64,
    /// Sheets refused under another number than 10.
    pub misrefused: u64,
    /// Answers of the planner, and wrong ones among them.
    pub plans: u64,
    pub wrong_plans: u64,
    /// Replays of the station's own FCA runs; those of a run that a refusal stopped; those that did not
    /// end as the station did.
    pub replays: u64,
    pub stopped_replays: u64,
    pub wrong_replays: u64,
    /// Replays, and refused ones, where t ≤ m.
    pub few_replays: u64,
    pub few_refused_replays: u64,
    /// Sheets settled, and refused, where cables differ.
    pub settled_with_cables: u64,
    pub refused_with_cables: u64,
    /// How often a gap passed the limit that Lemma 16 would give.
    pub past_lemma_16: u64,
    /// New values that are not the mean by distances.
    pub wrong_means: u64,
    /// How often a sum of distances passed N spans.
    pub past_n_spans: u64,
    /// The greatest sum that was met for each of `EXAMPLES`.
    pub sums: [u32; EXAMPLES.len()],
    /// How often, with an even N, a gap passed each ceiling.
    pub past_ceiling: [u64; 6],
    /// Where t ≤ m: rounds after which all are planned to be alike, for m is 0, or the window; and those after
    /// which they are not.
    pub alike: [u64; 2],
    pub not_alike: [u64; 2],
    /// Sheets settled, and refused, by the trimming rules.
    pub settled_by_trimming: u64,
    pub refused_by_trimming: u64,
    /// The greatest gap that was met for each of `trimming::EXAMPLES`, by either rule.
    pub trims: [[Option<i64>; 2]; trimming::EXAMPLES.len()],
    /// What was met of clocks between rounds.
    pub drifted: Drifted,
    /// What was met of cabinets that fall back.
    pub fallen: Fell,
    /// What was broken first.
    pub first: Option<String>,
}

impl Tally {
    pub fn broken(&mut self, what: impl FnOnce() -> String) {
        if self.first.is_none() {
            self.first = Some(what());
        }
    }

    /// Everything that the station is to show and did not.
    pub fn faults(&self) -> Vec<String> {
        let mut faults = Vec::new();
        for (limit, (name, met)) in LIMITS.iter().zip(&self.met.0).enumerate() {
            match met {
                Met { broken: 1.., .. } => faults.push(format!("broken: {name}")),
                Met { times: 0, .. } => faults.push(format!("never held: {name}")),
                Met { reached: 0, .. } if limit != sums::DOCUMENT => {
                    faults.push(format!("never reached: {name}"))
                }
                _ => {}
            }
        }
        for (times, broken, name) in self.counted() {
            match (times, broken) {
                (_, 1..) => faults.push(format!("broken: {name}")),
                (0, _) => faults.push(format!("never held: {name}")),
                _ => {}
            }
        }
        self.table_faults(&mut faults);
        faults
    }

    /// What is counted beside the limits: how often it was seen, how often it was broken, and its name.
    fn counted(&self) -> Vec<(u64, u64, &'static str)> {
        let mut counted = vec![
            (self.few_settled, self.few_refused, "t ≤ m    no sound cabinet refuses"),
            (self.plans, self.wrong_plans, "the planner's windows and accuracies"),
            (self.few_replays, self.few_refused_replays, "t ≤ m    no replay is refused"),
            (self.replays, self.wrong_replays, "a replay ends as the station did"),
            (self.stopped_replays, 0, "a replay of a run that stopped"),
            (self.settled, self.misrefused, "every sheet and tray passes checks 1 to 9"),
            (
                self.settled_with_cables,
                self.refused_with_cables,
                "t ≤ m    no cabinet refuses, cables",
            ),
            (self.past_lemma_16, 0, "a gap past Lemma 16, cables"),
            (self.settled, self.wrong_means, "a new value is the mean by distances"),
            (self.past_n_spans, 0, "a sum past N spans"),
            (self.alike[0], self.not_alike[0], "t ≤ m    all are alike, m 0"),
            (self.alike[1], self.not_alike[1], "t ≤ m    all are alike, window 0"),
            (
                self.settled_by_trimming,
                self.refused_by_trimming,
                "t ≤ m    no cabinet refuses, trimmed",
            ),
        ];
        counted.extend(PASSED.map(|(ceiling, name)| (self.past_ceiling[ceiling], 0, name)));
        counted.extend(self.drifted.counted());
        counted.extend(self.fallen.counted());
        counted
    }

    /// What the tables are to show.
    fn table_faults(&self, faults: &mut Vec<String>) {
        for (question, answers) in QUESTIONS.iter().zip(&self.answers) {
            let Question { n, t, .. } = question;
            for (&window, met) in question.windows.iter().zip(answers) {
                if *met != Some(Most::exact(&question.settings(window), *t)) {
                    faults.push(format!("{t} of {n}, window {window}: the exact limits not met"));
                }
            }
        }
        for (i, row) in EXAMPLES.into_iter().enumerate() {
            let (settings, spread) = example(row);
            if self.examples[i] != Some(exact_example(row)) {
                faults.push(format!("cables {row:?}: the limits not met"));
            }
            if self.sums[i] != settings.greatest_sum(settings.window + spread) {
                faults.push(format!("cables {row:?}: the greatest sum not met"));
            }
        }
        for (row, met) in trimming::EXAMPLES.into_iter().zip(&self.trims) {
            let limits = trimming::RULES.map(|rule| Some(trimming::example_limit(row, rule)));
            if *met != limits {
                faults.push(format!("trimming {row:?}: the limits not reached"));
            }
        }
        for (asked, met) in drift::EXAMPLES.iter().zip(&self.drifted.rows) {
            if *met != asked.exact_row() {
                faults.push(format!("interval {asked:?}: the sides of the inequalities not met"));
            }
        }
        for row in self.fallen.unmet() {
            faults.push(format!("fallback {row:?}: not every kind of pair reaches the limits"));
        }
    }
}

pub struct Run {
    pub settings: Settings,
    pub accuracy: u32,
    pub faulty: Vec<bool>,
    pub held: Vec<Reading>,
    pub rounds: u32,
    /// The liars act as one: see `Liars`.
    pub united: bool,
}

impl Run {
    pub fn n(&self) -> usize {
        self.settings.n as usize
    }

    /// Settings, faulty cabinets and first readings.
    pub fn draw(random: &Random) -> Run {
        match random.below(100) {
            0..=11 => return Run::draw_sharp(random),
            12..=16 => return Run::draw_close(random),
            17..=19 => return Run::draw_alike(random),
            _ => {}
        }
        let settings = draw_settings(random);
        let (n, m) = (settings.n as usize, settings.m as usize);
        let w = settings.window as i64;
        let accuracy = match random.below(8) {
            0 => 0,
            1 => random.between(0, 5),
            2 => w / 2,
            3 => (w + 1) / 2,
            4 => random.between(0, w),
            5 => 1_000_000_000,
            6 => random.between(0, 1_000_000_000),
            _ => w,
        };
        let t = match random.below(10) {
            0..=4 => m,
            5 | 6 => random.below(m + 1),
            _ if n == 1 => 0,
            _ => random.between(m as i64 + 1, (n - m) as i64 - 1) as usize,
        };
        let f = if random.percent(60) { t } else { random.below(t + 1) };
        let good = draw_good(random, &settings, accuracy, t);
        let mut cabinets: Vec<(bool, Reading)> = Vec::new();
        cabinets.extend(good.iter().map(|&v| (false, Some(clamp(v)))));
        cabinets.extend((f..t).map(|_| (false, draw_bad(random, &settings, &good, t))));
        cabinets.extend((0..f).map(|_| (true, None)));
        let most_rounds = if settings.rule == CCA && n > 16 { 4 } else { 32 };
        let rounds = random.pick(&[1, 2, 3, 8, 32, random.below(33) as u32]).min(most_rounds);
        Run::shuffled(random, settings, accuracy, cabinets, rounds, false)
    }

    /// A round that reaches the exact limits for m < t < N-m, where N ≤ 2m+t. With k = N-m-t,
    /// k good ones read 0, k read δ and the others lie between; the liars say -δ to one cabinet
    /// and 2δ to another. The median is then a liar's at both.
    fn draw_sharp(random: &Random) -> Run {
        let (settings, t) = draw_sharp_settings(random);
        let w = settings.window as i64;
        let good = sharp(&settings, t, || random.between(1, w - 1));
        let accuracy = random.pick(&[(w + 1) / 2, w, 1_000_000_000]);
        Run::against_united(random, settings, accuracy, random.between(0, 1), &good, 1)
    }

    /// A round that reaches the next window. By CCA the liar's row is decided at one cabinet and not at
    /// another.
    fn draw_close(random: &Random) -> Run {
        let (n, rule, estimator, window, good) = random.pick(&CLOSE);
        let settings = Settings { n, m: 1, rule, estimator, window };
        Run::against_united(random, settings, random.between(2, 5), 0, good, 3)
    }

    /// A round that passes the ceiling of 2mδ/N, which is whole, and often odd: all good ones hold the same,
    /// the liars say δ less to one cabinet and δ more to another, and both means are halves.
    fn draw_alike(random: &Random) -> Run {
        let n = 2 * random.between(2, random.pick(&[6, 32]));
        let m = random.between(1, (n - 1) / 3);
        let whole = (1..=n).find(|w| 2 * m * w % n == 0).unwrap_or(n);
        let odd = 2 * random.between(0, random.pick(&[3, 7_000])) + 1;
        let settings = Settings {
            n: n as u8,
            m: m as u8,
            rule: FCA,
            estimator: random.below(3) as u8,
            window: (whole * odd) as u32,
        };
        let good = vec![0; (n - m) as usize];
        Run::against_united(random, settings, random.between(0, 5), random.between(0, 1), &good, 2)
    }

    /// Good cabinets that hold these readings above a base of that parity, sometimes so that lies just fit beside
    /// them into 32 bits; all others are liars that act as one.
    pub fn against_united(
        random: &Random,
        settings: Settings,
        accuracy: i64,
        parity: i64,
        good: &[i64],
        rounds: u32,
    ) -> Run {
        let w = settings.window as i64;
        let (low, high) = (i32::MIN as i64 + w, i32::MAX as i64 - 2 * w);
        let other = |end: i64| (end - parity).rem_euclid(2);
        let base = random.pick(&[parity, parity, low + other(low), high - other(high)]);
        let mut cabinets: Vec<(bool, Reading)> = Vec::new();
        cabinets.extend(good.iter().map(|v| (false, Some(clamp(base + v)))));
        cabinets.resize(settings.n as usize, (true, None));
        Run::shuffled(random, settings, accuracy, cabinets, rounds, true)
    }

    fn shuffled(
        random: &Random,
        settings: Settings,
        accuracy: i64,
        mut cabinets: Vec<(bool, Reading)>,
        rounds: u32,
        united: bool,
    ) -> Run {
        let n = cabinets.len();
        for i in 0..n {
            cabinets.swap(i, random.below(n));
        }
        Run {
            settings,
            accuracy: accuracy as u32,
            faulty: cabinets.iter().map(|c| c.0).collect(),
            held: cabinets.iter().map(|c| c.1).collect(),
            rounds,
            united,
        }
    }

    /// Runs the rounds and holds every limit against them. What is broken is tallied.
    pub fn run(mut self, random: &Random, engine: &dyn Engine, tally: &mut Tally, show: bool) {
        let sets = good_sets(&self);
        let m = self.settings.m as usize;
        let few: Vec<GoodSets> = sets.iter().copied().filter(|set| set.t <= m).collect();
        let few_bad = !few.is_empty();
        *(if few_bad { &mut tally.few_bad } else { &mut tally.many_bad }) += 1;
        let start = self.accuracy;
        let mut plan = Plan::default();
        let answer = engine.plan(&self.settings, start, 0, &mut plan);
        let mut plan = same_plan(tally, answer, plan, reference::plan(&self.settings, start, 0));
        if show {
            println!("{:?}, κ {start}, {} rounds", self.settings, self.rounds);
            println!("faulty {:?}", (0..self.n()).filter(|&c| self.faulty[c]).collect::<Vec<_>>());
            println!("first readings {:?}", self.held);
            println!("good sets {sets:?}");
        }
        // With more than m bad ones, only the first round has limits; a run that is replayed goes on
        // until it stops.
        let mut tape = Tape::start(&self);
        let rounds = if few_bad || tape.is_some() { self.rounds } else { self.rounds.min(1) };
        let steady = random.percent(40).then(|| random.pick(&[Aim::Low, Aim::High]));
        for round in 1..=rounds {
            let settings = plan.settings;
            let heard = self.round(random, engine, &settings, steady, few_bad, tally, show);
            if let Some(tape) = &mut tape {
                tape.record(round, &heard, &self.held);
            }
            let values = self.values();
            if few_bad {
                self.planned_limits(tally, &plan, &few, &values);
            }
            if round == 1 {
                self.wide_limits(tally, &sets, &values);
            }
            let mut next = Plan::default();
            let answer = engine.step(&plan, &mut next);
            plan = same_plan(tally, answer, next, reference::step(&plan));
            tally.rounds += 1;
            if !few_bad && tape.as_ref().is_some_and(Tape::stopped) {
                break;
            }
        }
        if let Some(tape) = tape {
            let end = End { few: &few, plan, start: start as i64 };
            tape.replay(random, engine, &self.held, &end, tally, show);
        }
    }

    fn kind(&self) -> usize {
        match (self.settings.rule, self.settings.estimator) {
            (FCA, _) => 0,
            (_, MEDIAN) => 1,
            _ => 2,
        }
    }

    /// The new values of sound cabinets that were not refused.
    fn values(&self) -> Vec<i64> {
        let sound = (0..self.n()).filter(|&c| !self.faulty[c]);
        sound.filter_map(|c| self.held[c]).map(i64::from).collect()
    }

    /// Good sets with t ≤ m, after a round that this plan is for: the next window and the planned accuracy.
    fn planned_limits(&self, tally: &mut Tally, plan: &Plan, few: &[GoodSets], values: &[i64]) {
        let start = self.accuracy as i64;
        let (kind, late) = (self.kind(), (plan.rounds > 0) as usize);
        let next_window = reference::next_window(&plan.settings) as i64;
        let next_accuracy = reference::next_accuracy(&plan.settings, plan.accuracy) as i64;
        let gap = gap(values);
        hold(tally, 3 * late + kind, gap, next_window, 0);
        hold_ceiling(tally, kind, gap, Apart::planned(&plan.settings));
        if next_window == 0 && values.len() > 1 {
            let cause = (self.settings.m > 0) as usize;
            tally.alike[cause] += 1;
            tally.not_alike[cause] += (gap > 0) as u64;
        }
        for set in few {
            for &value in values {
                let limit = 6 + 2 * late + (kind > 0) as usize;
                hold(tally, limit, set.error(value, start), next_accuracy, start);
            }
        }
    }

    /// Good sets with m < t < N-m, first round: the exact limits, and the documents'.
    fn wide_limits(&self, tally: &mut Tally, sets: &[GoodSets], values: &[i64]) {
        let start = self.accuracy as i64;
        let crusaders = (self.kind() > 0) as usize;
        let gap = gap(values);
        for set in sets.iter().filter(|set| set.t > self.settings.m as usize) {
            let document = Most::document(&self.settings, set.t);
            let exact = Most::exact(&self.settings, set.t);
            let half = is_half(&self.settings, set.t);
            hold(tally, 10 + crusaders, gap, document.gap, 0);
            hold(tally, 14 + crusaders, gap, exact.gap, 0);
            hold_ceiling(tally, ODD_WIDE + crusaders, gap, Apart::wide(&self.settings, set.t));
            if half {
                hold(tally, HALF_GAP + crusaders, gap, exact.gap, 0);
            }
            for &value in values {
                let error = set.error(value, start);
                hold(tally, 12 + crusaders, error, start + document.error, start);
                hold(tally, 16 + crusaders, error, start + exact.error, start);
                if half {
                    hold(tally, HALF_ERROR + crusaders, error, start + exact.error, start);
                }
            }
            self.count_answer(tally, set, values);
        }
    }

    fn count_answer(&self, tally: &mut Tally, set: &GoodSets, values: &[i64]) {
        let start = self.accuracy as i64;
        let error = values.iter().map(|&v| set.error(v, start) - start).max().unwrap_or(0);
        let met = Most { gap: gap(values), error };
        for (question, answers) in QUESTIONS.iter().zip(&mut tally.answers) {
            let asked = question.windows.iter().position(|&w| w == self.settings.window);
            if let (Some(row), true) = (asked, question.asks(&self.settings, set.t)) {
                let most = answers[row].get_or_insert(met);
                *most = most.or_greater(met.gap, met.error);
            }
        }
    }

    /// One round, and what was heard in it. Cabinets that the liars show the same face have the same
    /// sheet, byte for byte, which is settled once for all of them.
    #[allow(clippy::too_many_arguments)]
    fn round(
        &mut self,
        random: &Random,
        engine: &dyn Engine,
        settings: &Settings,
        steady: Option<Aim>,
        few_bad: bool,
        tally: &mut Tally,
        show: bool,
    ) -> Vec<Heard> {
        let mut heard = Vec::new();
        let (faces, face_of) = self.faces(random, steady);
        let liars = Liars::new(random, settings, &self.faulty, &self.held, self.united);
        let told = (settings.rule == CCA).then(|| liars.tell());
        let mut next = self.held.clone();
        for (face, &aim) in faces.iter().enumerate() {
            let members: Vec<usize> =
                (0..self.n()).filter(|&c| !self.faulty[c] && face_of[c] == face).collect();
            if members.is_empty() {
                continue;
            }
            // The liars try a few sheets and keep the one that leads furthest.
            let mut kept: Option<(i64, Reading, Vec<Reading>)> = None;
            let tries = if self.united { 4 } else { random.pick(&[1, 2, 4]) };
            for _ in 0..tries {
                let entries = match &told {
                    Some(told) => liars.relayed(told, aim),
                    None => liars.direct(aim),
                };
                let settle = |sheet: &[u8], tray: &mut [u8]| engine.settle(sheet, tray);
                let answer = new_value(random, settings, None, &entries, tally, settle);
                let (worth, new) = match answer {
                    Ok(new) => {
                        tally.settled += 1;
                        tally.few_settled += few_bad as u64;
                        (new as i64 * if aim == Aim::Low { -1 } else { 1 }, Some(new))
                    }
                    Err(answer) => {
                        tally.refused += 1;
                        tally.few_refused += few_bad as u64;
                        tally.misrefused += (number(answer) != 10) as u64;
                        if few_bad || number(answer) != 10 {
                            tally.broken(|| format!("cabinet {} {}", members[0], words(answer)));
                        }
                        (i64::MIN, None)
                    }
                };
                if kept.as_ref().is_none_or(|kept| worth > kept.0) {
                    kept = Some((worth, new, entries));
                }
            }
            let (_, new, entries) = kept.unwrap();
            if show {
                println!(
                    "window {}: {members:?} aim {aim:?} {entries:?}: {new:?}",
                    settings.window
                );
            }
            for &c in &members {
                next[c] = new;
            }
            heard.push(Heard { members, entries });
        }
        self.held = next;
        heard
    }

    /// The faces that the liars show, and which one each cabinet sees.
    fn faces(&self, random: &Random, steady: Option<Aim>) -> (Vec<Aim>, Vec<usize>) {
        if self.united {
            let alone = (0..self.n()).find(|&c| !self.faulty[c]);
            let face = |c: usize| (Some(c) == alone || random.percent(30)) as usize;
            return (vec![Aim::Low, Aim::High], (0..self.n()).map(face).collect());
        }
        if let Some(aim) = steady {
            if random.percent(80) {
                return (vec![aim], vec![0; self.n()]);
            }
        }
        let mut faces = vec![Aim::Low, Aim::High];
        let all = [Aim::Low, Aim::High, Aim::Any];
        for _ in 0..random.pick(&[0, 0, 0, 1, 2, self.n().min(6)]) {
            faces.push(random.pick(&all));
        }
        let middle = gap(&self.values()) / 2 + self.values().iter().min().unwrap_or(&0);
        let style = random.below(4);
        let alone = random.below(self.n());
        let face = |c: usize| {
            let high = self.held[c].is_some_and(|v| v as i64 > middle);
            match style {
                0 => high as usize,
                1 => !high as usize,
                2 => (c == alone) as usize,
                _ => random.below(faces.len()),
            }
        };
        let face_of = (0..self.n()).map(face).collect();
        (faces, face_of)
    }
}

/// Holds a limit. What is counted is the part of it past `from`.
pub fn hold(tally: &mut Tally, limit: usize, used: i64, most: i64, from: i64) {
    tally.met.0[limit].count(used - from, most - from);
    if used > most {
        tally.broken(|| format!("{}: {used}, and the limit is {most}", LIMITS[limit]));
    }
}

/// Holds a gap to the ceiling where N is odd, and counts where an even N passes it.
pub fn hold_ceiling(tally: &mut Tally, ceiling: usize, gap: i64, apart: Apart) {
    if apart.n % 2 == 1 {
        hold(tally, ODD + ceiling, gap, apart.ceiling(), 0);
    } else {
        tally.past_ceiling[ceiling] += (gap > apart.ceiling()) as u64;
    }
}

/// Holds a plan to the reference's, with which the run goes on.
fn same_plan(
    tally: &mut Tally,
    answer: u64,
    given: Plan,
    right: Result<Plan, engine::Refusal>,
) -> Plan {
    let right = right.expect("a run's plan is granted");
    tally.plans += 1;
    if number(answer) != 0 || given != right {
        tally.wrong_plans += 1;
        tally.broken(|| format!("the plan: {}, {given:?}, not {right:?}", words(answer)));
    }
    right
}

/// Settles a sheet over a tray with old contents, where cables differ with their spread, and holds the sum of
/// distances. The new value, or the refusal.
pub fn new_value(
    random: &Random,
    settings: &Settings,
    cables: Option<u32>,
    entries: &[Reading],
    tally: &mut Tally,
    settle: impl Fn(&[u8], &mut [u8]) -> u64,
) -> Result<i32, u64> {
    let (marks, readings) = reference::marks_and_readings(entries);
    let sheet = reference::sheet_bytes(settings, &marks, &readings);
    let mut tray = [random.draw() as u8; 330];
    let answer = settle(&sheet, &mut tray);
    match number(answer) {
        0 => {
            sums::hold_sum(tally, settings, cables, &tray);
            Ok(i32::from_le_bytes(tray[6..10].try_into().unwrap()))
        }
        _ => Err(answer),
    }
}

pub fn draw_settings(random: &Random) -> Settings {
    let n = match random.below(100) {
        0..=79 => random.between(1, 13),
        80..=95 => random.between(14, 25),
        _ => random.between(26, 64),
    } as u8;
    let most = (n - 1) / 3;
    let window = match random.below(10) {
        0 => random.between(0, 3),
        1..=3 => random.between(1, 30),
        4 => n as i64 * random.between(1, 50),
        5 | 6 => random.between(1, 2000),
        7 => 1_000_000,
        _ => random.between(0, 1_000_000),
    } as u32;
    Settings {
        n,
        m: if random.percent(80) { most } else { random.below(most as usize + 1) as u8 },
        rule: random.pick(&[FCA, CCA]),
        estimator: random.below(3) as u8,
        window,
    }
}

/// N, rule, estimator and window, one liar, and what the others hold. With N 4 the means are halves, which go apart
/// where the base is even; the first two then pass the ceiling.
const CLOSE: [(u8, u8, u8, u32, &[i64]); 4] = [
    (4, FCA, MEDIAN, 2, &[0, 1, 2]),
    (4, CCA, MEDIAN, 4, &[0, 0, 2]),
    (4, CCA, AVERAGE, 3, &[0, 1, 1]),
    (5, CCA, AVERAGE, 5, &[0, 2, 2, 2]),
];

/// What the good ones hold where t are bad, N ≤ 2m+t, and liars reach the exact limits: with k = N-m-t, k hold
/// 0, k hold δ, and the others what is given, between these, or δ where nothing is.
pub fn sharp(settings: &Settings, t: usize, between: impl Fn() -> i64) -> Vec<i64> {
    let w = settings.window as i64;
    let k = settings.need() - t;
    let reading = |i: usize| match i {
        i if i < k => 0,
        i if i < 2 * k || w < 2 => w,
        _ => between(),
    };
    (0..settings.n as usize - t).map(reading).collect()
}

/// Settings with N ≤ 2m+t and t of m < t < N-m: most often those of a question.
pub fn draw_sharp_settings(random: &Random) -> (Settings, usize) {
    let rule = random.pick(&[FCA, CCA]);
    if random.percent(50) {
        let question = &QUESTIONS[random.below(2)];
        let window = random.pick(&question.windows);
        return (Settings { rule, ..question.settings(window) }, question.t);
    }
    let n = if random.percent(80) { random.between(4, 13) } else { random.between(14, 64) };
    let m = random.between(1, (n - 1) / 3);
    let t = random.between((m + 1).max(n - 2 * m), n - m - 1);
    let window = match random.below(5) {
        0 => random.between(1, 30),
        1 => n * random.between(1, 15_000),
        2 => random.between(1, 2000),
        3 => (n + 1) / 2 * (2 * random.between(0, 7_000) + 1),
        _ => random.between(1, 1_000_000),
    };
    let window = window as u32;
    (Settings { n: n as u8, m: m as u8, rule, estimator: MEDIAN, window }, t as usize)
}

/// First readings of N-t cabinets, within the window of each other and twice κ.
fn draw_good(random: &Random, settings: &Settings, accuracy: i64, t: usize) -> Vec<i64> {
    let w = settings.window as i64;
    let count = settings.n as usize - t;
    let widest = w.min(2 * accuracy);
    let span = random.pick(&[0, 1, widest, widest, widest, random.between(0, widest)]).min(widest);
    let (lowest, highest) = (i32::MIN as i64, i32::MAX as i64 - span);
    let base = match random.below(8) {
        0 => highest,
        1 => lowest,
        2 => highest - w,
        3 => lowest + w,
        4 => random.between(lowest, highest),
        _ => random.between(-20, 20),
    };
    let just = settings.need().saturating_sub(t);
    let low = random.pick(&[1, count / 2, count - 1, just, just + 1, count - just.min(count)]);
    let style = random.below(4);
    let reading = |i: usize| match style {
        0 => base,
        1 => base + if i < low { 0 } else { span },
        2 if i < just => base,
        2 if i < 2 * just => base + span,
        2 => base + random.pick(&[0, span / 2, span]),
        _ => base + random.between(0, span),
    };
    (0..count).map(reading).collect()
}

/// The bad first reading of a sound cabinet.
fn draw_bad(random: &Random, settings: &Settings, good: &[i64], t: usize) -> Reading {
    let w = settings.window as i64;
    let low = random.percent(50);
    let edge = outermost(good, settings.need(), w, low, t);
    let value = match random.below(10) {
        0..=4 => edge,
        5 => edge + if low { -1 } else { 1 },
        6 => good[0] + random.between(-2 * w - 1, 2 * w + 1),
        7 => random.draw() as i32 as i64,
        _ => return None,
    };
    Some(clamp(value))
}
