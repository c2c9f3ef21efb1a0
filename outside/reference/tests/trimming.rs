//! Paper 5 of document 02: the trimming rules.

use reference::*;

const LOWEST: i32 = i32::MIN;
const HIGHEST: i32 = i32::MAX;

fn sheet(m: u8, rule: u8, readings: &[Option<i32>]) -> Vec<u8> {
    let settings = Settings { n: readings.len() as u8, m, rule, estimator: 0, window: 10 };
    let (marks, readings) = marks_and_readings(readings);
    sheet_bytes(&settings, &marks, &readings)
}

/// The answer sheet, over a tray with old contents, which must survive past it.
fn answer(m: u8, rule: u8, readings: &[Option<i32>]) -> Vec<u8> {
    let mut tray = [0xa5; 400];
    let length = settle(&sheet(m, rule, readings), &mut tray).expect("granted");
    assert_eq!(length, 10 + 5 * readings.len());
    assert!(tray[length..].iter().all(|&byte| byte == 0xa5));
    tray[..length].to_vec()
}

/// The new value, the marks and the used values; N, count and estimate field are as paper 5 says of all.
fn settled(m: u8, rule: u8, readings: &[Option<i32>]) -> (i32, Vec<u8>, Vec<i32>) {
    let answer = answer(m, rule, readings);
    let n = readings.len();
    let [estimate, new] = numbers_in(&answer[2..10])[..] else { panic!("two numbers") };
    assert_eq!((answer[0] as usize, answer[1] as usize), (n, n - 2 * m as usize));
    assert_eq!(estimate, new, "the estimate field shows the new value");
    (new, answer[10..10 + n].to_vec(), numbers_in(&answer[10 + n..]))
}

/// The new values by rule 2 and by rule 3.
fn new(m: u8, readings: &[i32]) -> [i32; 2] {
    let readings: Vec<Option<i32>> = readings.iter().copied().map(Some).collect();
    [TRIMMED_MIDPOINT, TRIMMED_MEAN].map(|rule| settled(m, rule, &readings).0)
}

/// A present reading.
fn p(reading: i32) -> Option<i32> {
    Some(reading)
}

#[test]
fn one_cabinet_keeps_its_reading() {
    for rule in [TRIMMED_MIDPOINT, TRIMMED_MEAN] {
        for reading in [-3, 0, LOWEST, HIGHEST] {
            assert_eq!(settled(0, rule, &[p(reading)]), (reading, vec![1], vec![reading]));
        }
        assert_eq!(settled(0, rule, &[None]), (0, vec![0], vec![0]));
    }
}

/// 0 and 500 are dropped: 14/2. The window of 10 plays no part.
#[test]
fn four_cabinets() {
    for rule in [TRIMMED_MIDPOINT, TRIMMED_MEAN] {
        let readings = [p(0), p(4), p(10), p(500)];
        assert_eq!(settled(1, rule, &readings), (7, vec![2, 1, 1, 2], vec![7, 4, 10, 7]));
        let spread_out = [p(LOWEST), p(-1_000_000_000), p(1_000_000_000), p(HIGHEST)];
        assert_eq!(settled(1, rule, &spread_out).0, 0, "refusal 10 does not arise");
    }
}

/// Of seven with m 2, 3, 4 and 11 are left: 14/2 and 18/3.
#[test]
fn extremes_and_mean() {
    let readings = [p(11), p(900), p(1), p(3), p(-8), p(4), p(700)];
    let marks = vec![1, 2, 2, 1, 2, 1, 2];
    let midpoint = settled(2, TRIMMED_MIDPOINT, &readings);
    assert_eq!(midpoint, (7, marks.clone(), vec![11, 7, 7, 3, 7, 4, 7]));
    let mean = settled(2, TRIMMED_MEAN, &readings);
    assert_eq!(mean, (6, marks, vec![11, 6, 6, 3, 6, 4, 6]));
    assert_eq!(new(0, &[0, 0, 0, 9]), [4, 2], "with m 0 nothing is dropped: 9/2 and 9/4");
}

/// Of equal readings at a cut the lowest number comes first.
#[test]
fn ties_across_a_cut() {
    for rule in [TRIMMED_MIDPOINT, TRIMMED_MEAN] {
        let marks = |readings: &[Option<i32>]| settled(1, rule, readings).1;
        assert_eq!(marks(&[p(5), p(5), p(5), p(5)]), [2, 1, 1, 2]);
        assert_eq!(marks(&[p(9), p(5), p(5), p(7)]), [2, 2, 1, 1], "the low cut");
        assert_eq!(marks(&[p(7), p(9), p(9), p(5)]), [1, 1, 2, 2], "the high cut");
        let seven = [p(2), p(1), p(1), p(1), p(2), p(2), p(2)];
        assert_eq!(settled(2, rule, &seven).1, [1, 2, 2, 1, 1, 2, 2], "both");
    }
}

/// A missing reading counts as 0 and is ordered by number among present zeros.
#[test]
fn missing_readings_kept_and_dropped() {
    let kept = [p(-6), None, p(3), p(8)];
    for rule in [TRIMMED_MIDPOINT, TRIMMED_MEAN] {
        assert_eq!(settled(1, rule, &kept), (2, vec![2, 0, 1, 2], vec![2, 2, 3, 2]), "3/2");
        let dropped = [None, p(5), p(7), p(8)];
        assert_eq!(settled(1, rule, &dropped), (6, vec![0, 1, 1, 2], vec![6, 5, 7, 6]));
        let first = [None, p(0), p(0), p(8)];
        assert_eq!(settled(1, rule, &first).1, [0, 1, 1, 2], "before the present zeros");
        let last = [p(0), p(0), p(8), None];
        assert_eq!(settled(1, rule, &last).1, [2, 1, 2, 0], "after them");
        assert_eq!(settled(1, rule, &[None; 4]), (0, vec![0; 4], vec![0; 4]));
    }
}

/// The mean is over N-2m, whatever is missing: 10/3, and 10/5.
#[test]
fn the_divisor_counts_missing_readings() {
    let readings = [p(-9), None, p(3), p(7), p(20)];
    let (new, marks, used) = settled(1, TRIMMED_MEAN, &readings);
    assert_eq!((new, marks, used), (3, vec![2, 0, 1, 1, 2], vec![3, 3, 3, 7, 3]));
    let gaps = [None, None, None, p(3), p(7), p(9), p(-1)];
    assert_eq!(settled(1, TRIMMED_MEAN, &gaps).0, 2);
    assert_eq!(settled(1, TRIMMED_MIDPOINT, &gaps).0, 4, "7/2");
}

#[test]
fn halves_go_to_the_even_neighbour() {
    assert_eq!(new(0, &[0, 1]), [0, 0]);
    assert_eq!(new(0, &[1, 2]), [2, 2]);
    assert_eq!(new(0, &[-1, 0]), [0, 0]);
    assert_eq!(new(0, &[-2, -1]), [-2, -2]);
    assert_eq!(new(0, &[-3, -2]), [-2, -2]);
    assert_eq!(new(0, &[-3, -3, -3, -1]), [-2, -2], "-4/2 and -10/4");
    assert_eq!(new(0, &[-1, -1, -2, -2]), [-2, -2]);
    assert_eq!(new(0, &[-1, -1, -2]), [-2, -1], "-3/2 and -4/3");
    assert_eq!(new(0, &[0, 0, -1, -2]), [-1, -1], "-2/2 and -3/4");
}

/// The sum of the extremes takes 33 bits, that of all 38.
#[test]
fn both_ends_of_32_bits() {
    assert_eq!(new(0, &[HIGHEST, HIGHEST]), [HIGHEST; 2]);
    assert_eq!(new(0, &[LOWEST, LOWEST]), [LOWEST; 2]);
    assert_eq!(new(0, &[LOWEST, LOWEST + 1]), [LOWEST; 2]);
    assert_eq!(new(0, &[LOWEST + 1, LOWEST + 2]), [LOWEST + 2; 2]);
    assert_eq!(new(0, &[HIGHEST - 1, HIGHEST]), [HIGHEST - 1; 2]);
    assert_eq!(new(0, &[LOWEST, HIGHEST]), [0; 2], "-1/2");
    assert_eq!(new(21, &[HIGHEST; 64]), [HIGHEST; 2]);
    assert_eq!(new(0, &[LOWEST; 64]), [LOWEST; 2]);
}

/// Checks 1 to 9 as they were but 4, and 16 after 5. Settling without a spread, reading and writing have the same.
#[test]
fn refusals() {
    let right = sheet(1, TRIMMED_MEAN, &[p(0), p(4), None, p(500)]);
    let with = |changes: &[(usize, u8)]| {
        let mut sheet = right.clone();
        changes.iter().for_each(|&(at, byte)| sheet[at] = byte);
        sheet
    };
    let refused = |sheet: &[u8], spread: u32| {
        let mut tray = [0xa5; 30];
        let given = settle_spread(sheet, spread, &mut tray);
        assert!(given.is_ok() || tray == [0xa5; 30]);
        given.map_or_else(|refusal| (refusal.number, refusal.place), |_| (0, 0))
    };
    for rule in [TRIMMED_MIDPOINT, TRIMMED_MEAN] {
        let of_rule = |estimator: u8| with(&[(2, rule), (3, estimator)]);
        assert_eq!(refused(&of_rule(0), 0), (0, 0));
        for estimator in [1, 2, 3, 255] {
            assert_eq!(refused(&of_rule(estimator), 0), (4, 0), "the estimator byte must be 0");
            assert_eq!(refused(&of_rule(estimator), 1), (4, 0), "4 is before 16");
        }
        for spread in [1, 100_000, 100_001] {
            assert_eq!(refused(&of_rule(0), spread), (16, 0));
        }
        assert_eq!(refused(&with(&[(2, rule), (6, 16)]), 1), (5, 0), "5 is before 16");
    }
    assert_eq!(refused(&with(&[(2, 4)]), 0), (4, 0));
    assert_eq!(refused(&with(&[(2, 255)]), 0), (4, 0));
    assert_eq!(refused(&with(&[(1, 2)]), 0), (3, 0));
    assert_eq!(refused(&right[..27], 0), (6, 0), "E is N");
    assert_eq!(refused(&right[..27], 1), (16, 0));
    assert_eq!(refused(&with(&[(11, 2)]), 0), (8, 3));
    assert_eq!(refused(&with(&[(20, 1)]), 0), (9, 2));
    assert_eq!(settle(&right, &mut [0; 29]), Err(Refusal::new(7)));
}

#[test]
fn a_sheet_is_read_written_and_shown() {
    for rule in [TRIMMED_MIDPOINT, TRIMMED_MEAN] {
        let sheet = sheet(1, rule, &[p(0), p(-4), None, p(500)]);
        let (mut marks, mut readings) = ([9; 5], [9; 5]);
        let settings = read(&sheet, &mut marks, &mut readings).expect("granted");
        assert_eq!((settings.rule, settings.entries()), (rule, 4));
        assert_eq!((marks, readings), ([1, 1, 0, 1, 9], [0, -4, 0, 500, 9]));
        let mut again = [7; 29];
        assert_eq!(write(&settings, &marks[..4], &readings[..4], &mut again), Ok(28));
        assert_eq!((&again[..28], again[28]), (&sheet[..], 7));
        assert_eq!(row(&sheet, 1), (-4i32).to_le_bytes());
        assert!(row(&sheet, 4).is_empty());
        let other = Settings { estimator: 1, ..settings };
        assert_eq!(write(&other, &marks[..4], &readings[..4], &mut again), Err(Refusal::new(4)));
    }
}

#[test]
fn there_is_no_plan() {
    for rule in [TRIMMED_MIDPOINT, TRIMMED_MEAN] {
        let settings = Settings { n: 4, m: 1, rule, estimator: 0, window: 10 };
        let start = Plan { settings, accuracy: 0, rounds: 0 };
        assert_eq!(plan(&settings, 0, 0), Err(Refusal::new(4)));
        assert_eq!(step(&start), Err(Refusal::new(4)));
        assert_eq!(target(&settings, 0, 10), Err(Refusal::new(4)));
        let wider = Settings { window: 1_000_001, ..settings };
        assert_eq!(plan(&wider, u32::MAX, 33), Err(Refusal::new(4)), "4 is before 5 and 11");
    }
}

/// Checks 1 to 5 come first, and then 13.
#[test]
fn there_is_no_replay() {
    for rule in [TRIMMED_MIDPOINT, TRIMMED_MEAN] {
        let settings = Settings { n: 4, m: 1, rule, estimator: 0, window: 10 };
        let refused = |settings: Settings| {
            let trace = Trace::silent(settings, 1, vec![SOUND; 4], vec![0; 4]);
            replay(&trace.bytes(), &mut [0; 16]).expect_err("refused").number
        };
        assert_eq!(refused(settings), 13);
        assert_eq!(refused(Settings { estimator: 1, ..settings }), 4);
        assert_eq!(refused(Settings { window: 1_000_001, ..settings }), 5);
        assert_eq!(refused(Settings { rule: 4, ..settings }), 4);
    }
}

/// δ 2, one liar: one cabinet hears 1, 2, 3 and -9, another 1, 2, 3 and 9. 3/2 goes up and 5/2 down; from an even
/// base on, the halves go apart, one past δ/2.
#[test]
fn the_limits_are_reached() {
    let gap = |base: i32| {
        let [low, high] = [-9, 9].map(|lie| new(1, &[base, base + 1, base + 2, lie]));
        [high[0] - low[0], high[1] - low[1]]
    };
    assert_eq!(gap(1), [0, 0], "3/2 and 5/2");
    assert_eq!(gap(0), [2, 2], "1/2 and 3/2");
    assert_eq!([2 / 2 + 1, 2 / (4 - 2) + 1], [2, 2]);
    let seven = |lie: i32| new(2, &[0, 0, 1, 5, 5, lie, lie]);
    assert_eq!((seven(-9), seven(9)), ([0, 0], [3, 4]), "1/2 and 1/3, 6/2 and 11/3");
    assert_eq!([5 / 2 + 1, 2 * 5 / (7 - 4) + 1], [3, 4]);
}
