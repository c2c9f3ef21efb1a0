//! No limit is broken; engines that break limits are found, each limit by itself; and a station
//! that holds or reaches too little fails.

use std::process::Command;

/// All that the station holds, in the words of its report.
const HELD: [&str; 96] = [
    "t ≤ m    gap   round 1  FCA",
    "t ≤ m    gap   round 1  CCA, median",
    "t ≤ m    gap   round 1  CCA, others",
    "t ≤ m    gap   later    FCA",
    "t ≤ m    gap   later    CCA, median",
    "t ≤ m    gap   later    CCA, others",
    "t ≤ m    error round 1  FCA",
    "t ≤ m    error round 1  CCA",
    "t ≤ m    error later    FCA",
    "t ≤ m    error later    CCA",
    "m < t    gap   document FCA",
    "m < t    gap   document CCA",
    "m < t    error document FCA",
    "m < t    error document CCA",
    "m < t    gap   exact    FCA",
    "m < t    gap   exact    CCA",
    "m < t    error exact    FCA",
    "m < t    error exact    CCA",
    "t ≤ m    gap   replay   FCA",
    "t ≤ m    error replay   FCA",
    "t ≤ m    gap   cables   FCA",
    "t ≤ m    error cables   FCA",
    "t ≤ m    no sound cabinet refuses",
    "the planner's windows and accuracies",
    "t ≤ m    no replay is refused",
    "a replay ends as the station did",
    "a replay of a run that stopped",
    "every sheet and tray passes checks 1 to 9",
    "t ≤ m    no cabinet refuses, cables",
    "a gap past Lemma 16, cables",
    "any t    sum   document all",
    "any t    sum   exact    FCA",
    "any t    sum   exact    CCA",
    "any t    sum   exact    cables",
    "a new value is the mean by distances",
    "a sum past N spans",
    "t ≤ m    gap   odd N    FCA",
    "t ≤ m    gap   odd N    CCA, median",
    "t ≤ m    gap   odd N    CCA, others",
    "m < t    gap   odd N    FCA",
    "m < t    gap   odd N    CCA",
    "t ≤ m    gap   odd N    cables",
    "m < t    gap   half     FCA",
    "m < t    gap   half     CCA",
    "m < t    error half     FCA",
    "m < t    error half     CCA",
    "t ≤ m    all are alike, m 0",
    "t ≤ m    all are alike, window 0",
    "t ≤ m    a gap past the ceiling, FCA",
    "t ≤ m    a gap past the ceiling, CCA, median",
    "m < t    a gap past the ceiling, FCA",
    "m < t    a gap past the ceiling, CCA",
    "t ≤ m    a gap past the ceiling, cables",
    "t ≤ m    gap   trimmed  rule 2",
    "t ≤ m    gap   trimmed  rule 3",
    "t ≤ m    range low end  rule 2",
    "t ≤ m    range low end  rule 3",
    "t ≤ m    range high end rule 2",
    "t ≤ m    range high end rule 3",
    "t ≤ m    no cabinet refuses, trimmed",
    "drift    gap   interval window",
    "drift    late  interval order",
    "drift    an interval is granted",
    "drift    none is left where none is granted",
    "drift    the window is passed a tick above",
    "drift    the order is broken a tick below",
    "fallback gap   document by CCA",
    "fallback gap   document mixed",
    "fallback gap   document by FCA",
    "fallback gap   exact    by CCA",
    "fallback gap   exact    mixed",
    "fallback gap   exact    by FCA",
    "fallback gap   odd N    by CCA",
    "fallback gap   odd N    mixed",
    "fallback gap   odd N    by FCA",
    "fallback gap   half     by CCA",
    "fallback gap   half     mixed",
    "fallback gap   half     by FCA",
    "fallback error document by CCA",
    "fallback error document by FCA",
    "fallback error exact    by CCA",
    "fallback error exact    by FCA",
    "fallback error half     by CCA",
    "fallback error half     by FCA",
    "fallback gap   t ≤ m    by CCA",
    "fallback error t ≤ m    by CCA",
    "t ≤ m    nobody falls back or refuses, fallback",
    "every pair passes all checks but 10, fallback",
    "m < t    two settle by CCA, fallback",
    "m < t    one settles by CCA and one falls back",
    "m < t    two fall back",
    "m < t    one is refused, fallback",
    "m < t    a gap past the ceiling, fallback by CCA",
    "m < t    a gap past the ceiling, fallback mixed",
    "m < t    a gap past the ceiling, fallback by FCA",
    "m < t    a gap past the next window, fallback mixed",
];

fn hostile(words: &[&str]) -> (Option<i32>, String) {
    let output = Command::new(env!("CARGO_BIN_EXE_hostile")).args(words).output().unwrap();
    (output.status.code(), String::from_utf8(output.stdout).unwrap())
}

/// What the report names as broken, where it fails.
fn broken(sabotage: &str) -> Vec<String> {
    broken_in("3000", sabotage)
}

fn broken_in(runs: &str, sabotage: &str) -> Vec<String> {
    let (status, text) = hostile(&["--runs", runs, "--sabotage", sabotage]);
    assert_eq!(status, Some(1), "{sabotage} was not found\n{text}");
    assert!(text.contains("BROKEN at run") && text.contains("FAILED"), "{sabotage}\n{text}");
    text.lines().filter_map(|line| line.strip_prefix("broken: ")).map(String::from).collect()
}

#[test]
fn no_limit_is_broken() {
    for engine in ["reference", "plain", "tuned"] {
        let (status, text) = hostile(&["--engine", engine, "--runs", "3000"]);
        assert_eq!(status, Some(0), "{text}");
        assert!(text.contains("PASSED") && !text.contains("BROKEN"), "{text}");
    }
}

#[test]
fn a_station_without_runs_fails() {
    let (status, text) = hostile(&["--runs", "0"]);
    assert_eq!(status, Some(1), "{text}");
    for limit in HELD {
        assert!(text.lines().any(|line| line == format!("never held: {limit}")), "{limit}\n{text}");
    }
    assert_eq!(text.matches("the exact limits not met").count(), 12, "{text}");
    assert_eq!(text.matches("): the limits not met").count(), 6, "{text}");
    assert_eq!(text.matches("): the greatest sum not met").count(), 6, "{text}");
    assert_eq!(text.matches("): the limits not reached").count(), 6, "{text}");
    assert_eq!(text.matches("the sides of the inequalities not met").count(), 6, "{text}");
    assert_eq!(text.matches("): not every kind of pair reaches the limits").count(), 8, "{text}");
}

#[test]
fn a_station_that_reaches_too_little_fails() {
    let (status, text) = hostile(&["--runs", "100"]);
    assert_eq!(status, Some(1), "{text}");
    assert!(text.contains("never reached: ") && !text.contains("broken: "), "{text}");
}

/// A new value a tick off breaks each of the limits, and one of a replay those of replays.
#[test]
fn each_limit_finds_a_tick() {
    let (runs, others) = HELD[..22].split_at(18);
    let (replays, cables) = others.split_at(2);
    let (of_paper_4, of_paper_7) = (&HELD[36..46], &HELD[66..86]);
    for (sabotage, limits) in [
        ("tick-off", [runs, cables, of_paper_4, of_paper_7].concat()),
        ("replay-tick", replays.into()),
    ] {
        let found = broken(sabotage);
        for limit in limits {
            assert!(found.iter().any(|name| name == limit), "{limit} finds no tick: {found:?}");
        }
    }
}

/// A tick more leaves the range at its high end and goes too far apart; readings that are not dropped leave it at both
/// ends; and an engine that says "too many faults" by a trimming rule is found.
#[test]
fn trimming_rules_are_held() {
    let trimmed = &HELD[53..60];
    for (sabotage, limits) in [
        ("trim-tick", [&trimmed[..2], &trimmed[4..6]].concat()),
        ("trim-fewer", trimmed[..6].to_vec()),
        ("trim-wraps", vec![trimmed[0], trimmed[2], trimmed[4]]),
        ("trim-10", vec![trimmed[6]]),
    ] {
        let found = broken(sabotage);
        for limit in limits {
            assert!(found.iter().any(|name| name == limit), "{sabotage}, {limit}: {found:?}");
        }
    }
}

/// Engines that grant too much or too little, each by the limit that it breaks.
#[test]
fn intervals_are_held() {
    let [window, order, granted, refused, above, below] = HELD[60..66] else { panic!() };
    for (sabotage, limits) in [
        ("greatest-up", vec![window]),
        ("rate", vec![window]),
        ("twice", vec![window]),
        ("least-down", vec![order]),
        ("precision", vec![order]),
        ("square", vec![order]),
        ("swapped", vec![refused]),
        ("equal", vec![window]),
        ("distance", vec![window]),
        ("alone", vec![refused]),
        ("empty", vec![granted]),
        ("zero", vec![granted]),
        ("below-17", vec![granted]),
        ("low", vec![above]),
        ("strict", vec![above]),
        ("square-ten", vec![below]),
        ("square-million", vec![below, refused]),
    ] {
        let found = broken_in("800", &format!("interval-{sabotage}"));
        for limit in limits {
            assert!(found.iter().any(|name| name == limit), "{sabotage}, {limit}: {found:?}");
        }
    }
}

/// Engines that fall back where they must not, or refuse, by what they break; and those that never fall back, or do not say
/// so, by what is never held.
#[test]
fn fallbacks_are_held() {
    let [nobody, passes, ..] = HELD[86..] else { panic!() };
    for (sabotage, limit) in [
        ("fallback-always", nobody),
        ("refuse-need", nobody),
        ("fallback-source-swapped", nobody),
        ("fallback-estimators", passes),
    ] {
        let found = broken(sabotage);
        assert!(found.iter().any(|name| name == limit), "{sabotage}, {limit}: {found:?}");
    }
    for sabotage in ["fallback-never", "fallback-source"] {
        let (status, text) = hostile(&["--runs", "3000", "--sabotage", sabotage]);
        assert_eq!(status, Some(1), "{sabotage}\n{text}");
        for limit in [HELD[67], HELD[70], HELD[89]] {
            let never = format!("never held: {limit}");
            assert!(text.lines().any(|line| line == never), "{sabotage}, {limit}\n{text}");
        }
    }
}

/// In every row of the table one that settles by CCA and one that falls back are as far apart as two that settle alike: the
/// exact limit, which is past the next window.
#[test]
fn mixed_cabinets_reach_the_limits() {
    let (status, text) = hostile(&["--engine", "reference", "--runs", "3000"]);
    assert_eq!(status, Some(0), "{text}");
    let table = text.split_once("and one that falls back, t bad").expect("a table of it").1;
    let rows: Vec<Vec<i64>> = table
        .lines()
        .map(|line| line.split_whitespace().map_while(|word| word.parse().ok()).collect())
        .filter(|row: &Vec<i64>| row.len() == 13)
        .collect();
    assert_eq!(rows.len(), 8, "{table}");
    for row in &rows {
        let (mixed, exact, document, next) = (row[4], row[7], row[8], row[9]);
        assert_eq!(row[4..7], [exact; 3]);
        assert!(document - mixed <= 1 && mixed > next, "{table}");
        assert!(row[10] == row[11] && row[12] - row[10] <= 1, "{table}");
    }
    assert_eq!(rows[0][4..9], [6; 5], "two of four, window 2");
    assert_eq!(rows[2][4..9], [17, 17, 17, 17, 18], "three of seven, window 7");
}

/// In every row of the table the clocks are within the window and in order, and with a tick more or less they are not.
#[test]
fn clocks_come_near_both_limits() {
    let (status, text) = hostile(&["--engine", "reference", "--runs", "3000"]);
    assert_eq!(status, Some(0), "{text}");
    let table = text.split_once("Clocks between rounds").expect("a table of clocks").1;
    let number = |word: &str| word.replace('.', "").parse::<i128>().ok();
    let rows: Vec<Vec<Option<i128>>> = table
        .lines()
        .map(|line| line.split_whitespace().map(number).collect())
        .filter(|row: &Vec<_>| row.len() == 10 && row[0].is_some())
        .collect();
    assert_eq!(rows.len(), 6, "{table}");
    for row in rows {
        let parts = |ticks: Option<i128>| ticks.unwrap() * 10_000_000;
        let (window, least) = (parts(row[0]), parts(row[6]));
        let (gap, gap_past) = (row[4].unwrap(), row[5].unwrap());
        assert!(gap <= window && window < gap_past && gap_past - gap < 11_000, "{table}");
        let late = row[7].unwrap();
        assert!(late <= least, "{table}");
        match row[8] {
            Some(past) => assert!(past > least - 10_000_000 && late - past < 11_000, "{table}"),
            None => assert_eq!(least, 10_000_000, "{table}"),
        }
    }
}

/// Both limits of the gap are reached in every row of the table.
#[test]
fn gaps_by_the_trimming_rules_reach_the_limits() {
    let (status, text) = hostile(&["--engine", "reference", "--runs", "3000"]);
    assert_eq!(status, Some(0), "{text}");
    let table = text.split_once("Trimming rules").expect("a table of the trimming rules").1;
    let rows: Vec<Vec<i64>> = table
        .lines()
        .map(|line| line.split_whitespace().map_while(|word| word.parse().ok()).collect())
        .filter(|row: &Vec<i64>| row.len() == 8)
        .collect();
    assert_eq!(rows.len(), 6, "{table}");
    for row in rows {
        let (n, m, t, width) = (row[0], row[1], row[2], row[3]);
        let (rule_2, rule_3) = (width / 2 + 1, t * width / (n - 2 * m) + 1);
        assert_eq!(row[4..], [rule_2, rule_2, rule_3, rule_3]);
    }
}

/// An engine that refuses where t ≤ m, those whose plan is another, and one whose estimate is no median, each by the
/// limit that it breaks.
#[test]
fn refusals_plans_and_medians_are_held() {
    let names = |sabotage: &str, limit: &str| {
        let found = broken(sabotage);
        assert!(found.iter().any(|name| name == limit), "{sabotage}, {limit}: {found:?}");
    };
    names("refuse-need", HELD[22]);
    for name in ["step-wide", "step-one", "step-ceiling", "step-accuracy"] {
        names(name, HELD[23]);
    }
    names("highest", HELD[1]);
    names("highest", HELD[4]);
}

/// Replays that are not the station's run, and two that refuse where t ≤ m: halves go further apart than a window by
/// the ceiling.
#[test]
fn replays_are_held_to_the_station() {
    for name in ["replay-swapped", "replay-at-once", "replay-wide", "replay-highest", "replay-one"]
    {
        let found = broken(name);
        assert!(found.iter().any(|broken| broken == HELD[25]), "{name}: {found:?}");
    }
    for name in ["replay-early", "replay-ceiling"] {
        let found = broken(name);
        assert!(found.iter().any(|broken| broken == HELD[24]), "{name}: {found:?}");
    }
}

#[test]
fn engines_that_break_limits_are_found() {
    let break_limits = [
        "need-low",
        "need-high",
        "strict",
        "pairwise",
        "distinct",
        "row-low",
        "all-readings",
        "truncate",
        "span-wide",
    ];
    for name in break_limits {
        assert!(!broken(name).is_empty(), "{name} was not found");
    }
}

/// With cables that differ: a spread that is forgotten refuses where t ≤ m, one that counts twice lets
/// values go too far apart.
#[test]
fn spreads_are_held() {
    let refused = "t ≤ m    no cabinet refuses, cables";
    let held = [
        ("spread-ignored", refused),
        ("spread-count", refused),
        ("spread-tick", refused),
        ("spread-twice", "t ≤ m    gap   cables   FCA"),
    ];
    for (name, limit) in held {
        let found = broken(name);
        assert!(found.iter().any(|broken| broken == limit), "{name}, {limit}: {found:?}");
    }
}

/// N spans would be too tight a limit of a sum: eight of them are met where N is 7 and m is 2.
#[test]
fn sums_pass_n_spans() {
    let (status, text) = hostile(&["--engine", "reference", "--runs", "3000"]);
    assert_eq!(status, Some(0), "{text}");
    let before = text.split_once(" past N spans").expect("the sums are counted").0;
    let passed: u64 = before.rsplit(' ').next().unwrap().parse().unwrap();
    assert!(passed > 100, "N spans are passed {passed} times");
    let table = text.split_once("2N spans     N spans").expect("a table of sums").1;
    let rows: Vec<Vec<u32>> = table
        .lines()
        .map(|line| line.split_whitespace().map_while(|word| word.parse().ok()).collect())
        .filter(|row: &Vec<u32>| row.len() == 7)
        .collect();
    assert_eq!(rows.len(), 6, "{table}");
    for row in &rows {
        let (n, m, span, met) = (row[0], row[1], row[2], row[3]);
        assert_eq!(met, (n + m - 1) * span);
        assert_eq!(met > n * span, m > 1);
    }
    assert_eq!(rows[5], [64, 21, 1_100_000, 92_400_000, 92_400_000, 140_800_000, 70_400_000]);
}

/// Readings accepted too far out and an estimate over all of them pass each limit of a sum; a sum that ends at
/// N spans gives another mean, and so does a half that goes wrong.
#[test]
fn sums_are_held() {
    for name in ["span-wide", "all-readings"] {
        let found = broken(name);
        for limit in &HELD[30..34] {
            assert!(found.iter().any(|broken| broken == limit), "{name}, {limit}: {found:?}");
        }
    }
    for name in ["sum-cut", "sum-end", "half-up", "half-negative", "sum-quotient"] {
        let found = broken(name);
        assert!(found.iter().any(|broken| broken == HELD[34]), "{name}: {found:?}");
    }
}

/// Halves away from zero go apart at both ends whatever the window's parity, further than the exact gap.
#[test]
fn halves_are_held_to_the_exact_gap() {
    let found = broken("half-away");
    for limit in &HELD[42..44] {
        assert!(found.iter().any(|broken| broken == limit), "{limit}: {found:?}");
    }
}

/// With an even N a gap passes the ceiling of the quotient, and reaches the limit that the table shows.
#[test]
fn gaps_pass_the_ceiling() {
    let (status, text) = hostile(&["--engine", "reference", "--runs", "3000"]);
    assert_eq!(status, Some(0), "{text}");
    let before = text.split_once(" gaps past the ceiling").expect("they are counted").0;
    let passed: u64 = before.rsplit('\n').next().unwrap().parse().unwrap();
    assert!(passed > 100, "the ceiling is passed {passed} times");
    let table = text.split_once("N 8, m 2, 4 bad").expect("a table of four in eight").1;
    let rows: Vec<Vec<i64>> = table
        .lines()
        .map(|line| line.split_whitespace().map_while(|word| word.parse().ok()).collect())
        .take_while(|row: &Vec<i64>| row.len() == 7 || row.is_empty())
        .filter(|row| row.len() == 7)
        .collect();
    assert_eq!(rows.len(), 6, "{table}");
    for row in rows {
        let (window, met, exact, document) = (row[0], row[1], row[2], row[3]);
        assert_eq!((met, exact), (document, document));
        assert_eq!(met > (20 * window + 7) / 8, window % 4 == 2, "20/8 of {window}");
    }
}
