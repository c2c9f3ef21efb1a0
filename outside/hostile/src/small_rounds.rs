//! Every round of some cabinets with small windows, in which the bad ones tell each cabinet anything: without
//! cables that differ, with them, and by the trimming rules.

use crate::limits::{gap, near, Apart, Most};
use crate::trimming::{most_apart, RULES};
use engine::Settings;
use reference::{settle_readings, trim, AVERAGE, CCA, FCA, MEDIAN, MIDPOINT, TRIMMED_MIDPOINT};

const ESTIMATORS: [u8; 3] = [AVERAGE, MEDIAN, MIDPOINT];

/// All ways to take so many of these values, in order.
fn taken(size: usize, low: i64, high: i64) -> Vec<Vec<i64>> {
    if size == 0 {
        return vec![vec![]];
    }
    let first =
        |v: i64| taken(size - 1, v, high).into_iter().map(move |rest| [vec![v], rest].concat());
    (low..=high).flat_map(first).collect()
}

/// The new value of a cabinet that reads this of the good ones and hears these lies; None where it refuses.
fn new(settings: &Settings, spread: u32, good: &[i64], lies: &[i64]) -> Option<i64> {
    let mut readings: Vec<Option<i32>> = good.iter().chain(lies).map(|&v| Some(v as i32)).collect();
    readings.resize(settings.n as usize, None);
    settle_readings(settings, spread, &readings).ok().map(|round| round.new)
}

fn span(settings: &Settings, spread: u32) -> i64 {
    settings.window as i64 + spread as i64
}

/// The lowest and the highest of these values.
fn ends(values: &[i64]) -> (i64, i64) {
    (*values.iter().min().unwrap(), *values.iter().max().unwrap())
}

/// All lies of t cabinets: those further out than a span are not accepted, as if they were missing.
fn lies(settings: &Settings, spread: u32, good: &[i64], t: usize) -> Vec<Vec<i64>> {
    let ((low, high), span) = (ends(good), span(settings, spread));
    taken(t, low - span - 1, high + span)
}

/// All ways to leave out some of these values.
fn some_of(values: &[i64]) -> Vec<Vec<i64>> {
    let kept = |which: usize| (0..values.len()).filter(move |i| which >> i & 1 == 1);
    (0..1 << values.len()).map(|which| kept(which).map(|i| values[i]).collect()).collect()
}

/// The new values that two cabinets can have at once. By FCA they hear any lies. By CCA a bad row has one value, which
/// some of them decide, but where N ≤ 2m+t any at each of them; and where t > m some of them decide a good row.
fn together(settings: &Settings, good: &[i64], t: usize) -> Vec<Vec<i64>> {
    let (n, m) = (settings.n as usize, settings.m as usize);
    let any_lies = settings.rule == FCA || n <= 2 * m + t;
    let goods = match settings.rule == CCA && t > m {
        true => some_of(good),
        false => vec![good.to_vec()],
    };
    let values = |lies: Vec<i64>| -> Vec<i64> {
        let decided = if any_lies { vec![lies] } else { some_of(&lies) };
        let heard = goods.iter().flat_map(|good| decided.iter().map(move |lies| (good, lies)));
        heard.filter_map(|(good, lies)| new(settings, 0, good, lies)).collect()
    };
    let each: Vec<Vec<i64>> = lies(settings, 0, good, t).into_iter().map(values).collect();
    if any_lies {
        vec![each.concat()]
    } else {
        each
    }
}

/// The greatest gap, and the greatest error past κ, of all rounds with t bad ones, from an even and an odd base.
fn greatest(settings: &Settings, t: usize) -> Most {
    let mut most = Most { gap: 0, error: 0 };
    for base in [0, 1] {
        let all = taken(settings.n as usize - t, base, base + settings.window as i64);
        for good in all.iter().filter(|good| good[0] == base) {
            let (low, high) = ends(good);
            for values in together(settings, good, t).iter().filter(|values| !values.is_empty()) {
                let (lowest, highest) = ends(values);
                most = most.or_greater(gap(values), (highest - high).max(low - lowest));
            }
        }
    }
    most
}

/// Settings that plan for some faults, with windows that leave no more rounds than can be tried.
fn small() -> Vec<Settings> {
    let mut small = Vec::new();
    for (n, widest) in [(4, 6), (5, 6), (6, 5), (7, 4), (8, 2)] {
        for (m, window) in (1..=(n - 1) / 3).flat_map(|m| (0..=widest).map(move |w| (m, w))) {
            small.push(Settings { n, m, rule: FCA, estimator: MEDIAN, window });
        }
    }
    small
}

/// t ≤ m: what the sums allow is reached, by FCA with every estimator and by CCA with median. It is at most the
/// next window, passes the ceiling with an even N alone, and by CCA with average or midpoint never.
#[test]
fn gaps_with_few_bad_ones_are_the_exact_ones() {
    let mut past_ceiling = 0;
    for settings in small() {
        let t = settings.m as usize;
        let (n, error) = (settings.n as i64, settings.m as i64 * settings.window as i64);
        for (rule, estimator) in [FCA, CCA].into_iter().flat_map(|r| ESTIMATORS.map(|e| (r, e))) {
            let settings = Settings { rule, estimator, ..settings };
            let (met, apart) = (greatest(&settings, t), Apart::planned(&settings));
            let past = met.gap > apart.ceiling();
            if rule == FCA || estimator == MEDIAN {
                assert_eq!(met.gap, apart.exact(), "{settings:?}");
                assert_eq!(met.error, near(error, n), "{settings:?}");
                past_ceiling += past as u32;
            }
            assert!(met.gap <= reference::next_window(&settings) as i64, "{settings:?}");
            assert!(!past || n % 2 == 0, "{settings:?}");
            assert!(!past || rule == FCA || estimator == MEDIAN, "{settings:?}");
        }
    }
    assert!(past_ceiling > 5, "the ceiling was passed {past_ceiling} times");
}

/// m < t < N-m: the exact limits hold, and with N ≤ 2m+t and the median both are reached. The ceiling of the
/// documents' gap is passed with an even N alone. By CCA there is more to try, and so fewer settings.
#[test]
fn exact_limits_with_many_bad_ones_are_met() {
    let mut past_ceiling = [0; 2];
    for (settings, rule) in small().into_iter().flat_map(|s| [FCA, CCA].map(|rule| (s, rule))) {
        let (n, m) = (settings.n as usize, settings.m as usize);
        if rule == CCA && (n > 6 || settings.window > 3) {
            continue;
        }
        for (t, estimator) in (m + 1..n - m).flat_map(|t| ESTIMATORS.map(|e| (t, e))) {
            let settings = Settings { rule, estimator, ..settings };
            let (met, exact) = (greatest(&settings, t), Most::exact(&settings, t));
            assert!(met.gap <= exact.gap && met.error <= exact.error, "{settings:?}, t {t}");
            if n <= 2 * m + t && estimator == MEDIAN {
                assert_eq!(met, exact, "{settings:?}, t {t}");
            }
            let past = met.gap > Apart::wide(&settings, t).ceiling();
            assert!(!past || n % 2 == 0, "{settings:?}, t {t}");
            past_ceiling[rule as usize] += past as u32;
        }
    }
    assert_eq!(past_ceiling, [3, 1], "N 4, windows 2 and 6; N 8, m 2, t 4, window 2");
}

/// The lowest and the highest new value with a rule and an estimator, if any settles.
fn extremes(settings: &Settings, good: &[i64], t: usize) -> Option<(i64, i64)> {
    let values = together(settings, good, t).concat();
    (!values.is_empty()).then(|| ends(&values))
}

/// One cabinet settles by CCA and the other falls back, m < t < N-m, with every pair of estimators: what liars tell the
/// one directly is free of what they have decided at the other. The exact limit holds, and with N ≤ 2m+t and the median on
/// both sheets it is reached.
#[test]
fn exact_limits_with_mixed_cabinets_are_met() {
    let pairs =
        || ESTIMATORS.into_iter().flat_map(|first| ESTIMATORS.map(|second| (first, second)));
    for settings in small().into_iter().filter(|s| s.n <= 6 && s.window <= 3) {
        let (n, m) = (settings.n as usize, settings.m as usize);
        for t in m + 1..n - m {
            let mut most = [[0; 3]; 3];
            for base in [0, 1] {
                let all = taken(n - t, base, base + settings.window as i64);
                for good in all.iter().filter(|good| good[0] == base) {
                    let of = |rule| {
                        let with = |estimator| Settings { rule, estimator, ..settings };
                        ESTIMATORS.map(|estimator| extremes(&with(estimator), good, t))
                    };
                    let (crusaders, direct) = (of(CCA), of(FCA));
                    for (first, second) in pairs() {
                        let met = (crusaders[first as usize], direct[second as usize]);
                        if let (Some((low, high)), Some((lowest, highest))) = met {
                            let most = &mut most[first as usize][second as usize];
                            *most = (high - lowest).max(highest - low).max(*most);
                        }
                    }
                }
            }
            let exact = Most::exact(&settings, t).gap;
            for (first, second) in pairs() {
                let most = most[first as usize][second as usize];
                assert!(most <= exact, "{settings:?}, t {t}, {first} and {second}");
            }
            if n <= 2 * m + t {
                assert_eq!(most[MEDIAN as usize][MEDIAN as usize], exact, "{settings:?}, t {t}");
            }
        }
    }
}

/// What a cabinet reads of three good ones, and its lowest and its highest new value, whatever the fourth says.
struct Reads {
    good: Vec<i64>,
    lowest: i64,
    highest: i64,
}

fn reads(settings: &Settings, spread: u32, good: Vec<i64>) -> Reads {
    let all = lies(settings, spread, &good, 1);
    let heard = |lies: &Vec<i64>| new(settings, spread, &good, lies).expect("nobody refuses");
    let (lowest, highest) = ends(&all.iter().map(heard).collect::<Vec<_>>());
    Reads { good, lowest, highest }
}

/// The greatest gap, and the greatest error past κ, of all rounds with cables that differ: the lowest reading of
/// one cabinet is an even base, or an odd one.
fn greatest_with_cables(settings: &Settings, spread: u32) -> Most {
    let (w, d) = (settings.window as i64, spread as i64);
    let each = || -d..=w + 2 * d + 1;
    let triples = each().flat_map(|a| each().flat_map(move |b| each().map(move |c| vec![a, b, c])));
    let near = triples.filter(|good| gap(good) <= w + d);
    let all: Vec<Reads> = near.map(|good| reads(settings, spread, good)).collect();
    let mut most = Most { gap: 0, error: 0 };
    for p in all.iter().filter(|p| [0, 1].contains(&ends(&p.good).0)) {
        let (low, high) = ends(&p.good);
        most = most.or_greater(0, (p.highest - high).max(low - p.lowest));
        let alike = |q: &&Reads| p.good.iter().zip(&q.good).all(|(v, u)| (v - u).abs() <= d);
        for q in all.iter().filter(alike) {
            most = most.or_greater((p.highest - q.lowest).max(q.highest - p.lowest), 0);
        }
    }
    most
}

/// Every round of four cabinets: what the sums allow is met. The gap passes the ceiling where the quotient is whole
/// and odd, and Lemma 16's limit in some of these settings.
#[test]
fn limits_with_cables_are_met() {
    let (mut past_lemma_16, mut past_ceiling) = (0, 0);
    for estimator in ESTIMATORS {
        for (window, spread) in (0..=3).flat_map(|w| (0..=3).map(move |d| (w, d))) {
            let settings = Settings { n: 4, m: 1, rule: FCA, estimator, window };
            let met = greatest_with_cables(&settings, spread);
            let apart = Apart::with_cables(&settings, spread, 1);
            let right = Most { gap: apart.exact(), error: near(span(&settings, spread), 4) };
            assert_eq!(met, right, "{settings:?}, spread {spread}");
            let limit = Most::with_cables(&settings, spread, 1);
            assert!(met.gap <= limit.gap && met.error <= limit.error);
            past_ceiling += (met.gap > apart.ceiling()) as u32;
            past_lemma_16 += (met.gap > Most::by_lemma_16(&settings, spread, 1).gap) as u32;
        }
    }
    assert_eq!((past_lemma_16, past_ceiling), (15, 12), "of 48");
}

/// All new values by a trimming rule of cabinets that hear this of the sound ones. A missing reading is the lie 0, and
/// lies further out than a tick are dropped as one a tick out is.
fn trimmed(settings: &Settings, sound: &[i64], t: usize) -> Vec<i64> {
    let (low, high) = ends(sound);
    let new = |lies: Vec<i64>| {
        let heard: Vec<_> = sound.iter().chain(&lies).map(|&v| Some(v as i32)).collect();
        trim(settings, &heard).new
    };
    taken(t, low - 1, high + 1).into_iter().map(new).collect()
}

/// The greatest gap that the trimming rules leave: half of δ, or tδ/(N-2m), and past it as means go.
fn greatest_trimmed(settings: &Settings, t: usize) -> i64 {
    let (width, left) = (settings.window as i64, settings.n as i64 - 2 * settings.m as i64);
    match settings.rule {
        _ if t == 0 => 0,
        TRIMMED_MIDPOINT => Apart { sums: width, n: 2 }.exact(),
        _ => Apart { sums: t as i64 * width, n: left }.exact(),
    }
}

/// Every round by the trimming rules, below zero too: new values stay within the range of the sound readings and reach
/// both of its ends, and their gap is what means allow. It reaches the limit where the quotient is not whole, and where
/// it is odd and the mean is of an even number.
#[test]
fn trimming_rules_keep_and_reach_their_limits() {
    let mut reached = [0; 2];
    for (n, m, widest) in [(4, 1, 8), (5, 1, 6), (6, 1, 4), (7, 2, 3)] {
        let all = (0..=widest).flat_map(|w| RULES.map(|rule| (w, rule)));
        for (t, (window, rule)) in (0..=m).flat_map(|t| all.clone().map(move |a| (t, a))) {
            let settings = Settings { n, m, rule, estimator: 0, window };
            let (mut most, mut at_ends) = (0, [false; 2]);
            for base in [-5, 0, 1] {
                let high = base + window as i64;
                let within = taken((n - t) as usize, base, high);
                for sound in within.iter().filter(|sound| ends(sound) == (base, high)) {
                    let values = trimmed(&settings, sound, t as usize);
                    let (lowest, highest) = ends(&values);
                    assert!(base <= lowest && highest <= high, "{settings:?}, {sound:?}");
                    at_ends = [at_ends[0] || lowest == base, at_ends[1] || highest == high];
                    most = most.max(gap(&values));
                }
            }
            let limit = most_apart(&settings, window as i64, t as usize);
            assert!(most <= limit, "{settings:?}, t {t}");
            assert_eq!(most, greatest_trimmed(&settings, t as usize), "{settings:?}, t {t}");
            assert!(m == 0 || at_ends == [true; 2], "{settings:?}, t {t}");
            reached[(rule - RULES[0]) as usize] += (most == limit) as u32;
        }
    }
    assert_eq!(reached, [20, 18], "of 29 each with t above 0");
}
