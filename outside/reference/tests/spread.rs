//! Paper 2 of document 02: settling with a spread.

use reference::*;

/// Four cabinets, planned for one fault: median.
fn four(rule: u8, window: u32, entries: &[i32]) -> Vec<u8> {
    let settings = Settings { n: 4, m: 1, rule, estimator: MEDIAN, window };
    sheet_bytes(&settings, &vec![1; entries.len()], entries)
}

/// Count, estimate, new value and marks.
type Outcome = (u8, i32, i32, Vec<u8>);

/// Settles over a tray with old contents, which must survive past the
/// answer, or wholly.
fn settled(sheet: &[u8], spread: u32) -> Result<Outcome, (u8, u32)> {
    let mut tray = [0xa5; 400];
    let given = settle_spread(sheet, spread, &mut tray);
    let written = given.unwrap_or(0);
    assert!(tray[written..].iter().all(|&byte| byte == 0xa5));
    let numbers = numbers_in(&tray[2..10]);
    let answer = (tray[1], numbers[0], numbers[1], tray[10..10 + tray[0] as usize % 65].to_vec());
    given.map(|_| answer).map_err(|refusal| (refusal.number, refusal.place))
}

fn refusal(sheet: &[u8], spread: u32) -> (u8, u32) {
    settled(sheet, spread).expect_err("refused")
}

/// With a spread of 1, the sheet of case 2 settles as that of case 1.
#[test]
fn the_span_is_window_and_spread() {
    let case_1 = Ok((3, 4, 4, vec![1, 1, 1, 2]));
    let readings = [0, 4, 10, 500];
    assert_eq!(settled(&four(FCA, 9, &readings), 0), Err((10, 0)));
    assert_eq!(settled(&four(FCA, 9, &readings), 1), case_1);
    assert_eq!(settled(&four(FCA, 0, &readings), 9), Err((10, 0)));
    assert_eq!(settled(&four(FCA, 0, &readings), 10), case_1);
    assert_eq!(settled(&four(FCA, 0, &readings), 495), case_1);
    assert_eq!(settled(&four(FCA, 0, &readings), 496), Ok((4, 4, 128, vec![1; 4])));
}

/// δ 1 and D 2: one cabinet reads 0 of all good ones, another D, and the liar stands at -(δ+D) and at
/// D + (δ+D), 2δ + 3D apart. A tick further out neither is accepted.
#[test]
fn the_hull_is_twice_the_window_and_three_spreads() {
    let read = |good: i32, lie: i32| settled(&four(FCA, 1, &[good, good, good, lie]), 2).unwrap();
    assert_eq!(read(0, -3), (4, 0, -1, vec![1; 4]));
    assert_eq!(read(2, 5), (4, 2, 3, vec![1; 4]));
    assert_eq!(read(0, -4), (3, 0, 0, vec![1, 1, 1, 2]));
    assert_eq!(read(2, 6), (3, 2, 2, vec![1, 1, 1, 2]));
    let limit = (3 * 2 + (2 + 3 * 2)) / 4 + 1;
    assert_eq!(limit, 4, "and 3 - (-1) reaches it");
}

/// δ 0 and D 2: 12/4 is whole. From an odd tick on, the halves at both ends go outwards, one past it.
#[test]
fn halves_at_both_ends_reach_a_whole_limit_and_one() {
    let new = |good: i32, lie: i32| settled(&four(FCA, 0, &[good, good, good, lie]), 2).unwrap().2;
    assert_eq!((new(1, -1), new(3, 5)), (0, 4), "2/4 and 14/4");
    assert_eq!((new(0, -2), new(2, 4)), (0, 2), "-2/4 and 10/4: inwards");
    assert_eq!((3 * 2 + 3 * 2) / 4 + 1, 4);
}

#[test]
fn the_limits_of_the_spread() {
    let direct = four(FCA, 0, &[0, 0, 100_000, 100_000]);
    assert_eq!(refusal(&direct, 99_999), (10, 0));
    assert!(settled(&direct, 100_000).is_ok());
    assert_eq!(refusal(&direct, 100_001), (16, 0));
    assert_eq!(refusal(&direct, u32::MAX), (16, 0));
    let crusaders = four(CCA, 10, &[7; 16]);
    assert!(settled(&crusaders, 0).is_ok());
    assert_eq!(refusal(&crusaders, 1), (16, 0));
    assert_eq!(refusal(&crusaders, 100_001), (16, 0));
}

/// A sheet with some bytes changed.
fn with(changes: &[(usize, u8)]) -> Vec<u8> {
    let mut sheet = four(FCA, 10, &[0, 4, 10, 500]);
    for &(at, byte) in changes {
        sheet[at] = byte;
    }
    sheet
}

/// Check 16 stands after 5 and before 6.
#[test]
fn order_of_checks() {
    let refused = |changes: &[(usize, u8)]| refusal(&with(changes), 100_001);
    assert_eq!(refusal(&with(&[])[..7], 100_001), (1, 0));
    assert_eq!(refused(&[(0, 65), (1, 9), (2, 7), (7, 9)]), (2, 0));
    assert_eq!(refused(&[(1, 2), (2, 7), (7, 9)]), (3, 0));
    assert_eq!(refused(&[(2, 2), (7, 9)]), (4, 0));
    assert_eq!(refused(&[(3, 3), (7, 9)]), (4, 0));
    assert_eq!(refused(&[(7, 9)]), (5, 0));
    assert_eq!(refusal(&with(&[])[..27], 100_001), (16, 0), "16 before 6");
    assert_eq!(refusal(&with(&[(2, CCA)]), 1), (16, 0), "16 before 6");
    assert_eq!(refusal(&with(&[(2, CCA)]), 0), (6, 0));
    assert_eq!(refused(&[(8, 2)]), (16, 0), "16 before 8");
    assert_eq!(refused(&[(8, 0), (12, 1)]), (16, 0), "16 before 9");
    assert_eq!(settle_spread(&with(&[]), 100_001, &mut [0; 29]), Err(Refusal::new(16)), "and 7");
    assert_eq!(settle_spread(&with(&[(8, 2)]), 1, &mut [0; 29]), Err(Refusal::new(7)));
    assert_eq!(refusal(&with(&[(11, 2), (10, 2)]), 1), (8, 2));
    assert_eq!(refusal(&with(&[(11, 0), (9, 0)]), 1), (9, 1));
}

/// The widest span is 1,100,000; where one starts, it may end past 32 bits.
#[test]
fn ends_of_32_bits() {
    for (end, inwards) in [(i32::MAX, -1), (i32::MIN, 1)] {
        let readings = |apart: i32| [end, end, end + inwards * apart, end + inwards * apart];
        assert!(settled(&four(FCA, 1_000_000, &readings(1_100_000)), 100_000).is_ok());
        assert_eq!(refusal(&four(FCA, 1_000_000, &readings(1_100_001)), 100_000), (10, 0));
        let other_end = end.wrapping_sub(inwards);
        let sheet = four(FCA, 1_000_000, &[end, end, other_end, other_end]);
        assert_eq!(refusal(&sheet, 100_000), (10, 0), "the two ends are not near each other");
    }
}

/// A spread of 0 is no spread, by both rules; a spread with FCA is a wider window.
#[test]
fn no_spread_and_a_wider_window() {
    let answer = |sheet: &[u8], spread: u32| {
        let mut tray = [7; 40];
        (settle_spread(sheet, spread, &mut tray), tray)
    };
    for readings in [[0, 4, 10, 500], [0, 10, 20, 30], [-3, 0, 0, 12], [5; 4]] {
        for window in [0, 9, 10, 20, 1_000_001] {
            let direct = four(FCA, window, &readings);
            for sheet in [&direct, &direct[..27], &four(CCA, window, &readings.repeat(4))] {
                let mut tray = [7; 40];
                assert_eq!((settle(sheet, &mut tray), tray), answer(sheet, 0));
            }
            let wider = four(FCA, window + 11, &readings);
            if window <= 20 {
                assert_eq!(answer(&direct, 11), answer(&wider, 0));
            }
        }
    }
}
