//! The limits that liars can reach, for every N from 4 on.

use crate::liars::clamp;
use crate::limits::{gap, is_half, Apart, Most};
use crate::run::{new_value, sharp, Tally};
use crate::trimming;
use engine::{named, Settings, BY_CRUSADERS, BY_DIRECT};
use random::Random;
use reference::{marks_and_readings, next_window, numbers_in, sheet_bytes, CCA, FCA, MEDIAN};

/// The new value of a cabinet to which the good ones say this above a base, and all others the same lie.
fn new(settings: &Settings, base: i64, good: &[i64], lie: i64) -> i64 {
    let mut entries: Vec<_> = good.iter().map(|v| Some(clamp(base + v))).collect();
    entries.resize(settings.n as usize, Some(clamp(base + lie)));
    let tuned = named("tuned").expect("it is always there");
    let settle = |sheet: &[u8], tray: &mut [u8]| tuned.settle(sheet, tray);
    let (random, mut tally) = (Random::new(0), Tally::default());
    new_value(&random, settings, None, &entries, &mut tally, settle).expect("it settles") as i64
}

/// The greatest gap of two cabinets, and the greatest error past κ, where the liars say a window less than 0 to one
/// and a window more than the highest good reading to the other; from an even and from an odd base.
fn greatest(settings: &Settings, good: &[i64]) -> Most {
    let (w, high) = (settings.window as i64, *good.iter().max().unwrap());
    let mut most = Most { gap: 0, error: 0 };
    for base in [0, 1] {
        let values = [-w, high + w].map(|lie| new(settings, base, good, lie));
        most = most.or_greater(gap(&values), (base - values[0]).max(values[1] - base - high));
    }
    most
}

/// All N, m and t of m < t < N-m with N ≤ 2m+t.
fn overloads() -> impl Iterator<Item = (u8, u8, usize)> {
    let of = |n: usize, m: usize| (m + 1).max(n - 2 * m)..n - m;
    let planned = (4..=64).flat_map(|n| (1..=(n - 1) / 3).map(move |m| (n, m)));
    planned.flat_map(move |(n, m)| of(n, m).map(move |t| (n as u8, m as u8, t)))
}

/// Every even N makes halves. With an even window, where these pass the ceiling, it does if four divides it.
#[test]
fn exact_limits_are_reached() {
    let mut halves = [[0; 65]; 2];
    for (n, m, t) in overloads() {
        let half = n as u32 / 2;
        for window in [1, 2, 3, half, 3 * half, half / 2 * 3, n as u32, 999_999, 1_000_000] {
            let settings = Settings { n, m, rule: FCA, estimator: MEDIAN, window };
            let (exact, document) = (Most::exact(&settings, t), Most::document(&settings, t));
            let met = greatest(&settings, &sharp(&settings, t, || 1));
            assert_eq!(met, exact, "{settings:?}, t {t}");
            assert!(met.gap <= document.gap && met.error <= document.error);
            let past = met.gap > Apart::wide(&settings, t).ceiling();
            assert_eq!(past, is_half(&settings, t) && window % 2 == 0, "{settings:?}, t {t}");
            halves[window as usize % 2][n as usize] += is_half(&settings, t) as u32;
        }
    }
    for n in 4..=64 {
        let [even, odd] = halves.map(|by_n| by_n[n] > 0);
        assert_eq!((even, even || odd), (n % 4 == 0, n % 2 == 0), "N {n}");
    }
}

/// The new value of one of two cabinets, where the liars told so many of the good ones the first lie and the others the
/// second. One settles by CCA, at the first lie or the second, which all liars relay to it; or they relay nothing to it.
fn mixed(
    settings: &Settings,
    good: &[i64],
    told: usize,
    lies: [i64; 2],
    cabinet: usize,
    relayed: Option<i64>,
) -> i64 {
    let n = settings.n as usize;
    let said = |s: usize| lies[(s >= told) as usize];
    let entry = |e: usize| match (e / n, e % n) {
        (r, s) if s < good.len() => Some(*good.get(r).unwrap_or(&said(s))),
        (r, _) => relayed.map(|lie| *good.get(r).unwrap_or(&lie)),
    };
    let sheet = |rule: u8, entries: Vec<Option<i64>>| {
        let entries: Vec<_> = entries.into_iter().map(|v| v.map(clamp)).collect();
        let (marks, readings) = marks_and_readings(&entries);
        sheet_bytes(&Settings { rule, ..*settings }, &marks, &readings)
    };
    let crusaders = sheet(CCA, (0..n * n).map(entry).collect());
    let heard = (0..n).map(|r| Some(*good.get(r).unwrap_or(&said(cabinet)))).collect();
    let mut tray = [0; 330];
    let tuned = named("tuned").expect("it is always there");
    let given = tuned.fallback(&crusaders, &sheet(FCA, heard), &mut tray);
    let by = if relayed.is_some() { BY_CRUSADERS } else { BY_DIRECT };
    assert_eq!((given.answer, given.settled_by), (settings.answer_length() as u64, by));
    numbers_in(&tray[6..10])[0] as i64
}

/// One cabinet settles by CCA and the other falls back, the one at either end.
#[test]
fn exact_limits_are_reached_by_mixed_cabinets() {
    for (n, m, t) in overloads() {
        for window in [1, 2, n as u32 / 2 * 3] {
            let settings = Settings { n, m, rule: CCA, estimator: MEDIAN, window };
            let (w, just) = (window as i64, settings.need() - t);
            let mut most = 0;
            for base in [0, 1] {
                let good: Vec<i64> = sharp(&settings, t, || 1).iter().map(|v| base + v).collect();
                let lies = [base - w, base + 2 * w];
                let last = good.len() - 1;
                let new = |cabinet, relayed| mixed(&settings, &good, just, lies, cabinet, relayed);
                let up = new(last, None) - new(0, Some(lies[0]));
                let down = new(last, Some(lies[1])) - new(0, None);
                most = most.max(up).max(down);
            }
            assert_eq!(most, Most::exact(&settings, t).gap, "{settings:?}, t {t}");
        }
    }
}

/// Where 2mδ/N is whole and odd, which some m and δ make it for every even N, halves pass the ceiling.
#[test]
fn the_next_window_is_reached_past_the_ceiling() {
    for n in (4..=64).step_by(2) {
        let mut passed = 0;
        for (m, window) in (1..=(n - 1) / 3).flat_map(|m| (1..=n as u32).map(move |w| (m, w))) {
            let settings = Settings { n, m, rule: FCA, estimator: MEDIAN, window };
            let apart = Apart::planned(&settings);
            let met = greatest(&settings, &vec![0; settings.need()]).gap;
            assert!(met <= apart.exact(), "{settings:?}");
            if apart.exact() > apart.ceiling() {
                assert_eq!(met, next_window(&settings) as i64, "{settings:?}");
                passed += 1;
            }
        }
        assert!(passed > 0, "N {n}");
    }
}

/// The greatest gap by a trimming rule of two cabinets to which t liars say less and more than all sound ones, over what
/// those read that all keep.
fn greatest_trimmed(settings: &Settings, t: usize) -> i64 {
    let tuned = named("tuned").expect("it is always there");
    let new = |sound: &[i64], lie: i64| {
        let mut readings: Vec<i32> = sound.iter().map(|&v| clamp(v)).collect();
        readings.resize(settings.n as usize, clamp(lie));
        let sheet = sheet_bytes(settings, &vec![1; readings.len()], &readings);
        let mut tray = [0; 330];
        assert_eq!(tuned.settle(&sheet, &mut tray), settings.answer_length() as u64);
        numbers_in(&tray[6..10])[0] as i64
    };
    let width = settings.window as i64;
    let gaps = (0..=width).map(|middle| {
        let sound = trimming::sharp(settings, t, middle);
        gap(&[new(&sound, -1), new(&sound, width + 1)])
    });
    gaps.max().unwrap_or(0)
}

/// One liar, and m of them, with small windows. Every N and m reaches both limits with some of them.
#[test]
fn limits_of_the_trimming_rules_are_reached() {
    for (n, m) in (4..=64).flat_map(|n| (1..=(n - 1) / 3).map(move |m| (n, m))) {
        for (rule, t) in trimming::RULES.into_iter().flat_map(|rule| [(rule, 1), (rule, m)]) {
            let mut reached = 0;
            for window in [1, 2, 3, 6, (n - 2 * m) as u32 + 1] {
                let settings = Settings { n, m, rule, estimator: 0, window };
                let met = greatest_trimmed(&settings, t as usize);
                let limit = trimming::most_apart(&settings, window as i64, t as usize);
                assert!(met <= limit, "{settings:?}, t {t}");
                reached += (met == limit) as u32;
            }
            assert!(reached > 0, "N {n}, m {m}, t {t}, rule {rule}");
        }
    }
}
