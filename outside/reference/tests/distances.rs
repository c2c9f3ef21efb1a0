//! Paper 3 of document 02: the mean by distances in 32 bits is the mean, and their sum has its limits. A half
//! goes to the even tick, as paper 4 says.

use random::Random;
use reference::*;

const ESTIMATORS: [u8; 3] = [AVERAGE, MEDIAN, MIDPOINT];

/// FCA and median.
fn of(n: u8, m: u8, window: u32) -> Settings {
    Settings { n, m, rule: FCA, estimator: MEDIAN, window }
}

/// Holds an answer sheet to paper 3; answers the sum.
fn held(settings: &Settings, span: u32, answer: &[u8]) -> u32 {
    let distances = Distances::of_answer(answer).expect("no used value is below the lowest");
    let sum = distances.sum().expect("32 bits hold the sum");
    let new = numbers_in(&answer[6..10])[0];
    assert_eq!(distances.mean(), Some(new), "{settings:?}, {distances:?}");
    assert!(distances.above.iter().all(|&distance| distance <= 2 * span), "{distances:?}");
    assert!(sum <= settings.greatest_sum(span), "{settings:?}, {distances:?}");
    assert!(sum <= settings.sum_limit(span), "{settings:?}, {distances:?}");
    sum
}

/// The sum of a round, which is held; None where it is refused.
fn sum_of(settings: &Settings, spread: u32, readings: &[Option<i32>]) -> Option<u32> {
    let round = settle_readings(settings, spread, readings).ok()?;
    Some(held(settings, settings.window + spread, &round.bytes()))
}

/// One reading at the low end of a span, as many as are needed at its high end, and m a span above that.
fn steep(settings: &Settings, span: u32, lowest: i32) -> Vec<Option<i32>> {
    let need = settings.need();
    let spans = |c: usize| (c > 0) as i32 + (c >= need) as i32;
    (0..settings.n as usize).map(|c| Some(lowest + spans(c) * span as i32)).collect()
}

/// Every round of so many cabinets whose readings are missing or one of some neighbours, around 0 and at both
/// ends of 32 bits. Where the neighbours are two spans wide, the greatest sum occurs.
fn every_round(n: u8, m: u8, neighbours: i32, spans: &[u32]) {
    for (&window, estimator) in spans.iter().flat_map(|s| ESTIMATORS.map(|e| (s, e))) {
        let settings = Settings { estimator, ..of(n, m, window) };
        for lowest in [i32::MIN, -neighbours / 2, i32::MAX - neighbours + 1] {
            let drawn = |code: usize, c: u32| {
                let digit = (code / (neighbours as usize + 1).pow(c)) as i32 % (neighbours + 1);
                (digit > 0).then(|| lowest + digit - 1)
            };
            let rounds = 0..(neighbours as usize + 1).pow(n as u32);
            let readings = |code| (0..n as u32).map(|c| drawn(code, c)).collect::<Vec<_>>();
            let most = rounds.filter_map(|code| sum_of(&settings, 0, &readings(code))).max();
            assert!(neighbours <= 2 * window as i32 || most == Some(settings.greatest_sum(window)));
        }
    }
}

#[test]
fn every_small_round() {
    for n in 1..=3 {
        every_round(n, 0, 7, &[0, 1, 2, 3]);
    }
    every_round(4, 0, 5, &[0, 1, 2]);
    every_round(4, 1, 7, &[0, 1, 2, 3]);
    every_round(5, 1, 5, &[0, 1, 2]);
    every_round(7, 2, 4, &[1]);
}

/// A reading of any kind around some spans above the lowest, and sometimes anywhere at all.
fn any_reading(random: &Random, lowest: i64, span: i64) -> Option<i32> {
    let value = match random.below(12) {
        0 => lowest,
        1..=3 => lowest + span,
        4..=5 => lowest + 2 * span,
        6 => lowest + 2 * span + 1,
        7..=9 => lowest + random.between(0, 2 * span),
        10 => random.draw() as i32 as i64,
        _ => return None,
    };
    Some(value.clamp(i32::MIN as i64, i32::MAX as i64) as i32)
}

/// A sheet by either rule whose cabinets say what they like: by CCA to each relay too, and what it relays.
fn any_sheet(random: &Random, settings: &Settings, span: u32) -> Vec<u8> {
    let (low, high, span) = (i32::MIN as i64, i32::MAX as i64, span as i64);
    let lowest = random.pick(&[low, low + 1, -span, high - 2 * span, high]);
    let n = settings.n as usize;
    let straight = random.percent(70);
    let mut entries = Vec::new();
    for _ in 0..n {
        let reading = any_reading(random, lowest, span);
        let again = |_| match straight || random.percent(90) {
            true => reading,
            false => any_reading(random, lowest, span),
        };
        entries.extend((0..settings.entries() / n).map(again));
    }
    let (marks, readings) = marks_and_readings(&entries);
    sheet_bytes(settings, &marks, &readings)
}

#[test]
fn rounds_at_both_ends_of_32_bits() {
    let mut settled = [[0; 3]; 2];
    for seed in 0..40_000 {
        let random = Random::new(seed);
        let n = random.pick(&[1, 2, 4, 5, 7, 8, 10, random.between(1, 24) as u8]);
        let mut settings = Settings {
            m: random.pick(&[(n - 1) / 3, random.below((n as usize - 1) / 3 + 1) as u8]),
            rule: random.pick(&[FCA, CCA]),
            estimator: random.pick(&ESTIMATORS),
            window: random.pick(&[0, 1, 3, 10, 1_000_000, random.between(0, 1_000_000) as u32]),
            ..of(n, 0, 0)
        };
        let spread = random.pick(&[0, 0, 1, 100_000]);
        if spread > 0 {
            settings.rule = FCA;
        }
        let span = settings.window + spread;
        let mut tray = [0; 330];
        if settle_spread(&any_sheet(&random, &settings, span), spread, &mut tray).is_ok() {
            held(&settings, span, &tray);
            settled[settings.rule as usize][settings.estimator as usize] += 1;
        }
    }
    assert!(settled.as_flattened().iter().all(|&times| times > 500), "{settled:?}");
}

/// Five in the span from the lowest on and two a span further out: eight spans for seven cabinets.
#[test]
fn n_spans_are_no_limit() {
    for (window, spread) in [(1, 0), (10, 0), (1_000_000, 0), (1_000_000, 100_000)] {
        let (settings, w) = (of(7, 2, window), window + spread);
        for lowest in [i32::MIN, -3, i32::MAX - 2 * w as i32] {
            let readings = [0, 1, 1, 1, 1, 2, 2].map(|spans| Some(lowest + spans * w as i32));
            assert_eq!(sum_of(&settings, spread, &readings), Some(8 * w));
            assert!(8 * w > 7 * w && 8 * w < settings.sum_limit(w));
        }
    }
}

/// By every estimator, for every N and m.
#[test]
fn the_greatest_sum_occurs() {
    let mut greatest = 0;
    for (n, estimator) in (1..=64).flat_map(|n| ESTIMATORS.map(|e| (n, e))) {
        for m in 0..=(n - 1) / 3 {
            for (window, spread) in [(1, 0), (1_000_000, 100_000)] {
                let (settings, span) =
                    (Settings { estimator, ..of(n, m, window) }, window + spread);
                for lowest in [i32::MIN, i32::MAX - 2 * span as i32] {
                    let readings = steep(&settings, span, lowest);
                    let most = settings.greatest_sum(span);
                    assert_eq!(sum_of(&settings, spread, &readings), Some(most));
                    assert_eq!(most > n as u32 * span, m > 1, "{settings:?}");
                    greatest = greatest.max(most);
                }
            }
        }
    }
    assert_eq!(greatest, 92_400_000);
    assert_eq!(of(64, 21, 1_000_000).greatest_sum(1_100_000), 92_400_000);
    assert_eq!(of(64, 21, 1_000_000).sum_limit(1_100_000), 140_800_000);
}

/// Two of four are a half, which goes by the new value's parity, not by that of the quotient, here always 0;
/// of five there is none: two are below it and three above.
#[test]
fn a_remainder_of_half_of_n_goes_to_the_even_tick() {
    let by_distances = |used: &[i32]| {
        let lowest = *used.iter().min().unwrap();
        Distances { lowest, above: used.iter().map(|v| v.abs_diff(lowest)).collect() }.mean()
    };
    assert_eq!(by_distances(&[0, 0, 0, 1]), Some(0));
    assert_eq!(by_distances(&[0, 0, 1, 1]), Some(0));
    assert_eq!(by_distances(&[1, 1, 2, 2]), Some(2));
    assert_eq!(by_distances(&[-1, -1, -2, -2]), Some(-2));
    assert_eq!(by_distances(&[-2, -2, -3, -3]), Some(-2));
    assert_eq!(by_distances(&[-3, -3, -4, -4]), Some(-4));
    assert_eq!(by_distances(&[0, 0, 0, 1, 1]), Some(0));
    assert_eq!(by_distances(&[0, 0, 1, 1, 1]), Some(1));
    assert_eq!(by_distances(&[-1, -1, -2, -2, -2]), Some(-2));
}

/// Every N and every remainder, below 0, across it and above, and at both ends of 32 bits.
#[test]
fn every_remainder() {
    for n in 1..=64 {
        for sum in 0..=2 * n {
            for lowest in [i32::MIN, i32::MIN + 1, -4, -3, -1, 0, 1, i32::MAX - sum] {
                let mut used = vec![lowest as i64; n as usize];
                used[0] += sum as i64;
                let above = used.iter().map(|value| (value - lowest as i64) as u32).collect();
                let given = Distances { lowest, above }.mean();
                assert_eq!(given.map(i64::from), Some(mean(&used)), "{used:?}");
            }
        }
    }
}

#[test]
fn lowest_and_highest_reading() {
    let (low, high) = (i32::MIN, i32::MAX);
    let new = |readings: [i32; 4]| {
        let round = settle_readings(&of(4, 1, 1), 0, &readings.map(Some)).unwrap();
        held(&of(4, 1, 1), 1, &round.bytes());
        round.new as i32
    };
    assert_eq!((new([low; 4]), new([high; 4])), (low, high));
    assert_eq!(new([low, low, low, low + 1]), low);
    assert_eq!(new([low, low, low + 1, low + 1]), low, "a half");
    assert_eq!(new([low + 1, low + 1, low + 2, low + 2]), low + 2, "a half");
    assert_eq!(new([high - 1, high - 1, high - 1, high]), high - 1);
    assert_eq!(new([high - 1, high - 1, high, high]), high - 1, "a half");
    assert_eq!(new([high - 2, high - 2, high - 1, high - 1]), high - 1, "a half");
    assert_eq!(new([high - 1, high, high, high]), high, "the high end itself is odd");
    assert_eq!(new([high, high, high, low]), high, "the lowest reading is not accepted");
}

/// What is no settled round has no mean by distances.
#[test]
fn nothing_wraps() {
    let of = |lowest: i32, above: &[u32]| Distances { lowest, above: above.to_vec() };
    assert_eq!(of(0, &[u32::MAX, 1]).sum(), None);
    assert_eq!(of(i32::MAX, &[0, 1]).mean(), None);
    assert_eq!(of(i32::MAX, &[]).mean(), None);
    let answer = |marks: [u8; 2], used: [i32; 2]| {
        let head = [2, 1, 0, 0, 0, 0, 0, 0, 0, 0];
        Distances::of_answer(&[&head[..], &marks, &bytes_of(&used)].concat())
    };
    assert_eq!(answer([1, 2], [5, 7]), Some(of(5, &[0, 2])));
    assert_eq!(answer([2, 0], [5, 7]), None, "nothing is accepted");
    assert_eq!(answer([2, 1], [5, 7]), None, "5 is below the lowest");
    assert_eq!(answer([1, 1], [i32::MIN, i32::MAX]), None, "too far apart");
    assert_eq!(Distances::of_answer(&[]), None);
    assert_eq!(Distances::of_answer(&[1; 14]), None);
}
