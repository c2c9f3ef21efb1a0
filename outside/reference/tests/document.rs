//! The cases and remarks of document 01, with what paper 4 of document 02 changes in them.

use reference::*;

fn settings(n: u8, m: u8, rule: u8, estimator: u8, window: u32) -> Settings {
    Settings { n, m, rule, estimator, window }
}

fn sheet(settings: Settings, entries: &[Option<i32>]) -> Vec<u8> {
    let (marks, readings) = marks_and_readings(entries);
    sheet_bytes(&settings, &marks, &readings)
}

fn fca(n: u8, m: u8, estimator: u8, window: u32, readings: &[i32]) -> Vec<u8> {
    let entries: Vec<Option<i32>> = readings.iter().map(|&v| Some(v)).collect();
    sheet(settings(n, m, FCA, estimator, window), &entries)
}

/// Settles over a tray with old contents, which must survive past the answer, or wholly.
fn settled(sheet: &[u8]) -> Result<Vec<u8>, Refusal> {
    let mut tray = [0xa5; 400];
    match settle(sheet, &mut tray) {
        Ok(length) => {
            assert!(tray[length..].iter().all(|&b| b == 0xa5));
            Ok(tray[..length].to_vec())
        }
        Err(refusal) => {
            assert_eq!(tray, [0xa5; 400]);
            Err(refusal)
        }
    }
}

fn number(answer: &[u8], at: usize) -> i32 {
    i32::from_le_bytes(answer[at..at + 4].try_into().unwrap())
}

/// Count, estimate and new value.
fn outcome(sheet: &[u8]) -> (u8, i32, i32) {
    let answer = settled(sheet).expect("not refused");
    (answer[1], number(&answer, 2), number(&answer, 6))
}

fn new_value(sheet: &[u8]) -> i32 {
    outcome(sheet).2
}

fn refusal(sheet: &[u8]) -> (u8, u32) {
    let refusal = settled(sheet).expect_err("refused");
    (refusal.number, refusal.place)
}

#[test]
fn case_1() {
    let sheet = fca(4, 1, MEDIAN, 10, &[0, 4, 10, 500]);
    assert_eq!(outcome(&sheet), (3, 4, 4), "18/4");
    let answer = settled(&sheet).unwrap();
    assert_eq!(answer.len(), 30);
    assert_eq!(answer[10..14], [1, 1, 1, 2]);
    let used: Vec<i32> = (0..4).map(|c| number(&answer, 14 + 4 * c)).collect();
    assert_eq!(used, [0, 4, 10, 4]);
}

#[test]
fn case_2() {
    assert_eq!(refusal(&fca(4, 1, MEDIAN, 9, &[0, 4, 10, 500])), (10, 0));
}

#[test]
fn case_3() {
    assert_eq!(outcome(&fca(4, 1, MIDPOINT, 10, &[0, 4, 10, 500])), (3, 5, 5));
}

#[test]
fn case_4() {
    assert_eq!(new_value(&fca(1, 0, MEDIAN, 0, &[-3])), -3);
}

#[test]
fn case_5() {
    assert_eq!(new_value(&fca(2, 0, MEDIAN, 1, &[-1, 0])), 0);
    assert_eq!(new_value(&fca(2, 0, MEDIAN, 1, &[0, 1])), 0);
}

#[test]
fn case_6() {
    assert_eq!(new_value(&fca(5, 1, MEDIAN, 20, &[0, 0, 10, 20, 30])), 6);
    assert_eq!(new_value(&fca(5, 1, MEDIAN, 20, &[40, 40, 10, 20, 30])), 32);
}

#[test]
fn cases_7_and_8() {
    let (count, _, new) = outcome(&fca(7, 2, MEDIAN, 10, &[0, 0, 10, 10, 10, 20, 20]));
    assert_eq!((count, new), (7, 10));
    let sheet = fca(7, 2, MEDIAN, 10, &[0, 0, 10, 10, 10, 20, 0]);
    let answer = settled(&sheet).unwrap();
    assert_eq!(answer[15], 2, "cabinet 5 is present and not accepted");
    assert_eq!(number(&answer, 17 + 4 * 5), 0, "20 is replaced by 0");
    assert_eq!(new_value(&sheet), 4);
    assert_eq!(next_window(&settings(7, 2, FCA, MEDIAN, 10)), 6);
}

#[test]
fn case_9() {
    let row = |copies: [i32; 4]| decide(&copies.map(Some), 3);
    assert_eq!(row([7, 7, 7, 9]), Some(7));
    assert_eq!(row([7, 7, 9, 9]), None);
}

/// Four rows of four equal copies, the last row as given.
fn crusaders(last: [i32; 4]) -> Vec<u8> {
    let rows = [[-10; 4], [0; 4], [10; 4], last];
    let entries: Vec<Option<i32>> = rows.concat().into_iter().map(Some).collect();
    sheet(settings(4, 1, CCA, MEDIAN, 20), &entries)
}

#[test]
fn case_10() {
    let known_faulty = settled(&crusaders([7, 7, 9, 9])).unwrap();
    assert_eq!(number(&known_faulty, 6), 0);
    assert_eq!(known_faulty[10..14], [1, 1, 1, 0], "known faulty is marked 0");
    assert_eq!(new_value(&crusaders([20; 4])), 5);
}

#[test]
fn case_11() {
    let start = settings(4, 1, FCA, MEDIAN, 100);
    let after = |rounds| {
        let plan = plan(&start, 100, rounds).unwrap();
        (plan.settings.window, plan.accuracy, plan.rounds)
    };
    assert_eq!(after(0), (100, 100, 0));
    assert_eq!(after(1), (51, 125, 1));
    assert_eq!(after(2), (26, 138, 2));
    assert_eq!(after(3), (14, 145, 3));
    assert_eq!((after(6).0, after(7).0, after(32).0), (3, 2, 2), "the window settles at 2");
    let mut stepped = plan(&start, 100, 0).unwrap();
    for rounds in 1..=32 {
        stepped = step(&stepped).unwrap();
        assert_eq!(stepped, plan(&start, 100, rounds).unwrap());
    }
    assert_eq!(step(&stepped), Err(Refusal::new(11)));
}

#[test]
fn case_12() {
    let start = settings(4, 1, FCA, MEDIAN, 100);
    assert_eq!(target(&start, 100, 0), Err(Refusal::new(12)));
    assert_eq!(target(&start, 100, 1), Err(Refusal::new(12)));
    let counts = target(&start, 100, 2).unwrap();
    assert_eq!(*counts.last().unwrap(), 32);
    for rounds in 0..=32 {
        let fits = plan(&start, 100, rounds).unwrap().settings.window <= 2;
        assert_eq!(counts.contains(&rounds), fits);
    }
}

#[test]
fn listing() {
    let text = "round 4 3 4 4\n0 1 0\n1 1 4\n2 1 10\n3 2 4\n";
    assert_eq!(settle_text(&fca(4, 1, MEDIAN, 10, &[0, 4, 10, 500])), text);
    assert_eq!(settle_text(&fca(4, 1, MEDIAN, 9, &[0, 4, 10, 500])), "refused 10 0\n");
    assert_eq!(settle_text(&fca(1, 0, MEDIAN, 0, &[-3])), "round 1 1 -3 -3\n0 1 -3\n");
    assert_eq!(settle_text(&[]), "refused 1 0\n");
}

/// The longest sheet settles; one byte more, or any longer input, is of wrong length.
#[test]
fn longest_input() {
    let mut longest = sheet(settings(64, 21, CCA, MEDIAN, 0), &[Some(5); 4096]);
    assert_eq!(longest.len(), 20_488);
    assert!(settle_text(&longest).starts_with("round 64 64 5 5\n"));
    longest.push(0);
    assert_eq!(settle_text(&longest), "refused 6 0\n");
    longest.resize(100_000, 0);
    assert_eq!(settle_text(&longest), "refused 6 0\n");
    longest[3] = 3;
    assert_eq!(settle_text(&longest), "refused 4 0\n");
}

#[test]
fn boundaries() {
    let check = |n, m, window| settings(n, m, FCA, MEDIAN, window).check().map_err(|r| r.number);
    assert_eq!(check(4, 1, 0), Ok(()));
    assert_eq!(check(3, 1, 0), Err(3));
    assert_eq!(check(4, 1, 1_000_000), Ok(()));
    assert_eq!(check(4, 1, 1_000_001), Err(5));
    assert_eq!(check(0, 0, 0), Err(2));
    assert_eq!(check(64, 21, 0), Ok(()));
    assert_eq!(check(64, 22, 0), Err(3));
    assert_eq!(check(65, 0, 0), Err(2));
    assert_eq!(check(4, 85, 0), Err(3), "3m+1 is 256 here, which a byte does not hold");
    assert_eq!(check(4, 86, 0), Err(3));
}

#[test]
fn order_of_checks() {
    let good = fca(4, 1, MEDIAN, 10, &[0, 4, 10, 500]);
    let with = |changes: &[(usize, u8)]| {
        let mut sheet = good.clone();
        for &(at, byte) in changes {
            sheet[at] = byte;
        }
        sheet
    };
    assert_eq!(refusal(&good[..7]), (1, 0));
    assert_eq!(refusal(&good[..8]), (6, 0));
    assert_eq!(refusal(&with(&[(0, 0), (1, 9), (2, 7), (7, 9)])), (2, 0));
    assert_eq!(refusal(&with(&[(1, 9), (2, 7), (7, 9)])), (3, 0));
    assert_eq!(refusal(&with(&[(2, 7), (7, 9)])), (4, 0));
    assert_eq!(refusal(&with(&[(3, 3), (7, 9)])), (4, 0));
    assert_eq!(refusal(&with(&[(7, 9), (8, 9)])), (5, 0));
    assert_eq!(refusal(&with(&[(10, 2), (11, 9)])), (8, 2), "the lowest entry");
    assert_eq!(refusal(&with(&[(9, 0), (11, 2)])), (8, 3), "all marks before any ghost");
    assert_eq!(refusal(&with(&[(9, 0), (10, 0)])), (9, 1));
    assert_eq!(refusal(&with(&[(8, 0), (15, 1)])), (9, 0), "only the top byte set");
    assert_eq!(settle(&with(&[(8, 9)]), &mut [0; 29]), Err(Refusal::new(7)));
    assert_eq!(settle(&good[..27], &mut [0; 29]), Err(Refusal::new(6)));
}

#[test]
fn rounding_goes_down_below_zero_too() {
    assert_eq!(estimate(AVERAGE, &[-1, 0]), -1);
    assert_eq!(estimate(MIDPOINT, &[-1, 0]), -1);
    assert_eq!(estimate(MIDPOINT, &[-2, -1]), -2);
    assert_eq!(estimate(MEDIAN, &[3, 1, 4, 2]), 2, "the lower of the middle two");
}

/// 10 is within the window of N-m readings, itself included, but no one span holds N-m.
#[test]
fn one_common_span() {
    assert_eq!(refusal(&fca(4, 1, MEDIAN, 10, &[0, 10, 20, 500])), (10, 0));
}

#[test]
fn ends_of_32_bits() {
    let (low, high) = (i32::MIN, i32::MAX);
    assert_eq!(new_value(&fca(4, 1, AVERAGE, 1_000_000, &[high; 4])), high);
    assert_eq!(new_value(&fca(4, 1, AVERAGE, 1_000_000, &[low; 4])), low);
    let ends = [high, high, high - 1, low];
    assert_eq!(outcome(&fca(4, 1, MIDPOINT, 1, &ends)), (3, high - 1, high - 1), "a half");
}

#[test]
fn missing_readings() {
    let entries = [Some(0), None, Some(10), Some(4)];
    let answer = settled(&sheet(settings(4, 1, FCA, MEDIAN, 10), &entries)).unwrap();
    assert_eq!(answer[10..14], [1, 0, 1, 1]);
    assert_eq!(number(&answer, 6), 4);
    let none = sheet(settings(4, 1, FCA, MEDIAN, 10), &[None; 4]);
    assert_eq!(refusal(&none), (10, 0));
}

#[test]
fn reader() {
    let sheet = fca(4, 1, MEDIAN, 10, &[0, -4, 10, 500]);
    let (mut marks, mut readings) = ([7; 6], [7; 5]);
    let read_back = read(&sheet, &mut marks, &mut readings).unwrap();
    assert_eq!(read_back, settings(4, 1, FCA, MEDIAN, 10));
    assert_eq!((marks, readings), ([1, 1, 1, 1, 7, 7], [0, -4, 10, 500, 7]));
    let (mut marks, mut readings) = ([7; 4], [7; 3]);
    assert_eq!(read(&sheet, &mut marks, &mut readings), Err(Refusal::new(7)));
    assert_eq!((marks, readings), ([7; 4], [7; 3]));
}

#[test]
fn writer() {
    let settings = settings(4, 1, FCA, MEDIAN, 10);
    let sheet = fca(4, 1, MEDIAN, 10, &[0, -4, 10, 500]);
    let readings = [0, -4, 10, 500];
    let mut buffer = [7; 29];
    assert_eq!(write(&settings, &[1; 4], &readings, &mut buffer), Ok(28));
    assert_eq!((&buffer[..28], buffer[28]), (&sheet[..], 7));
    let mut buffer = [7; 27];
    let mut refused = |marks: &[u8], length: usize| {
        write(&settings, marks, &readings, &mut buffer[..length]).map_err(|r| (r.number, r.place))
    };
    assert_eq!(refused(&[1; 5], 27), Err((6, 0)), "6 before 7");
    assert_eq!(refused(&[2; 4], 27), Err((7, 0)), "7 before 8");
    let mut buffer = [7; 28];
    let mut refused = |marks: &[u8]| {
        write(&settings, marks, &readings, &mut buffer).map_err(|r| (r.number, r.place))
    };
    assert_eq!(refused(&[1, 0, 1, 2]), Err((8, 3)));
    assert_eq!(refused(&[0, 1, 0, 0]), Err((9, 2)));
    assert_eq!(buffer, [7; 28]);
}

#[test]
fn rows() {
    let sheet = fca(4, 1, MEDIAN, 10, &[0, -4, 10, 500]);
    assert_eq!(row(&sheet, 1), (-4i32).to_le_bytes());
    assert_eq!(row(&sheet, 4), []);
    assert_eq!(row(&sheet[..27], 1), []);
    let mut ghost = sheet.clone();
    ghost[8 + 3] = 0;
    assert_eq!(row(&ghost, 1), [], "check 9 is of the whole sheet");
    let crusaders = crusaders([7, 7, 9, 9]);
    assert_eq!(row(&crusaders, 3), &crusaders[8 + 16 + 48..]);
    let refused_10 = fca(4, 1, MEDIAN, 9, &[0, 4, 10, 500]);
    assert_eq!(row(&refused_10, 2), 10i32.to_le_bytes(), "check 10 plays no part");
}

#[test]
fn planner_limits() {
    let start = settings(4, 1, FCA, MEDIAN, 100);
    assert!(plan(&start, 1_000_000_000, 32).is_ok());
    assert_eq!(plan(&start, 1_000_000_001, 0), Err(Refusal::new(11)));
    assert_eq!(plan(&start, 0, 33), Err(Refusal::new(11)));
    assert_eq!(target(&start, 1_000_000_001, 0), Err(Refusal::new(11)), "11 before 12");
    let at = |accuracy, rounds| step(&Plan { settings: start, accuracy, rounds });
    assert!(at(1_100_000_000, 31).is_ok());
    assert_eq!(at(1_100_000_001, 0), Err(Refusal::new(11)));
    assert_eq!(at(0, 32), Err(Refusal::new(11)));
    let cca = settings(7, 2, CCA, MEDIAN, 10);
    assert_eq!((next_window(&cca), next_accuracy(&cca, 5)), (3, 8));
}

/// 2mδ/N and mδ/N whole, which the accuracy's growth keeps as they are.
#[test]
fn a_whole_quotient() {
    let at = |n, m, rule, estimator, window| {
        let settings = settings(n, m, rule, estimator, window);
        (next_window(&settings), next_accuracy(&settings, 0))
    };
    assert_eq!(at(4, 1, FCA, MEDIAN, 4), (3, 1));
    assert_eq!(at(4, 1, CCA, AVERAGE, 4), (3, 1));
    assert_eq!(at(4, 1, CCA, MEDIAN, 4), (2, 1));
    assert_eq!(at(4, 1, CCA, MEDIAN, 2), (1, 1), "2/4");
    assert_eq!(at(7, 2, FCA, MIDPOINT, 7), (5, 2), "for an odd N too");
    assert_eq!(at(64, 21, FCA, MEDIAN, 1_000_000), (656_251, 328_125));
}

/// The window is 0 after one without faults planned for or without a window, and otherwise never.
#[test]
fn a_window_of_0() {
    for (rule, estimator) in [FCA, CCA].into_iter().flat_map(|r| [0, 1, 2].map(|e| (r, e))) {
        for window in [0, 1, 2, 4, 1_000_000] {
            assert_eq!(next_window(&settings(64, 0, rule, estimator, window)), 0);
            let planned = settings(4, 1, rule, estimator, window);
            assert_eq!(next_window(&planned) == 0, window == 0);
            let after = plan(&planned, 7, 32).unwrap();
            assert_eq!(after.settings.window == 0, window == 0);
            assert_eq!(target(&planned, 7, 0).is_ok(), window == 0);
        }
        let alone = settings(1, 0, rule, estimator, 1_000_000);
        assert_eq!(plan(&alone, 7, 32).unwrap().accuracy, 7);
        assert_eq!(target(&alone, 7, 0), Ok((1..=32).collect()));
    }
}

#[test]
fn no_window_grows() {
    for (n, m) in (1..=64).flat_map(|n| (0..=(n - 1) / 3).map(move |m| (n, m))) {
        for (rule, estimator) in [(FCA, MEDIAN), (CCA, MEDIAN), (CCA, AVERAGE)] {
            for window in (0..=130).chain([999_999, 1_000_000]) {
                let settings = settings(n, m, rule, estimator, window);
                assert!(next_window(&settings) <= window, "{settings:?}");
            }
        }
    }
}

/// Spans that start at present readings are enough: any whole span gives the same.
#[test]
fn any_span() {
    let values = [None, Some(-2), Some(-1), Some(0), Some(1), Some(2), Some(3)];
    for code in 0..7usize.pow(4) {
        let readings = [1, 7, 49, 343].map(|power| values[code / power % 7]);
        for (need, window) in [(3, 0), (3, 1), (3, 2), (3, 3), (4, 2), (4, 3)] {
            let any_span = |v: i32| {
                (v - window..=v).any(|start| {
                    let held = |&&other: &&i32| start <= other && other <= start + window;
                    readings.iter().flatten().filter(held).count() >= need
                })
            };
            let right = readings.map(|reading| reading.is_some_and(any_span));
            assert_eq!(accepted(&readings, need, window as u32), right, "{readings:?}");
        }
    }
}

#[test]
fn nearest_with_a_half_going_to_the_even_neighbour() {
    for n in 1..=8 {
        for sum in -50..=50 {
            let mut values = vec![0; n as usize];
            values[0] = sum;
            let mean = mean(&values);
            let past = 2 * (sum - n * mean);
            assert!(-n <= past && past <= n, "{sum}/{n}");
            assert!(past.abs() < n || mean % 2 == 0, "{sum}/{n}");
        }
    }
}

#[test]
fn halves() {
    let of_two = [[-4, -3], [-3, -2], [-2, -1], [-1, 0], [0, 1], [1, 2], [2, 3], [3, 4]];
    assert_eq!(of_two.map(|pair| mean(&pair)), [-4, -2, -2, 0, 0, 2, 2, 4]);
    assert_eq!((mean(&[-1, -1, -2]), mean(&[-1, -2, -2]), mean(&[2, 3, 3])), (-1, -2, 3));
}

/// N 4, m 1, δ 2 and a liar who says 3 to one cabinet and -1 to another: 6/4 and 2/4 go two apart. The
/// ceiling of 2mδ/N is 1, and the next window 2.
#[test]
fn halves_of_odd_and_even_ticks_part() {
    for estimator in [AVERAGE, MEDIAN, MIDPOINT] {
        let new = |lie| new_value(&fca(4, 1, estimator, 2, &[0, 1, 2, lie]));
        assert_eq!((new(3), new(-1)), (2, 0));
        assert_eq!(next_window(&settings(4, 1, FCA, estimator, 2)), 2);
    }
}
