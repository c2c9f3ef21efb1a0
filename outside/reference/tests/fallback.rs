//! Paper 7 of document 02: fall back to the direct sheet.

use reference::*;

const SETTINGS: Settings = Settings { n: 4, m: 1, rule: CCA, estimator: MEDIAN, window: 2 };

fn sheet(settings: Settings, entries: &[Option<i32>]) -> Vec<u8> {
    let (marks, readings) = marks_and_readings(entries);
    sheet_bytes(&settings, &marks, &readings)
}

fn present(values: &[i32]) -> Vec<Option<i32>> {
    values.iter().map(|&value| Some(value)).collect()
}

fn direct_with(settings: Settings, values: &[i32]) -> Vec<u8> {
    sheet(Settings { rule: FCA, ..settings }, &present(values))
}

fn direct(values: &[i32]) -> Vec<u8> {
    direct_with(SETTINGS, values)
}

/// Cabinets 0 and 1 hold 0 and 2; 2 and 3 told cabinet 0 -2 and cabinet 1 4, and relay all of it to cabinet 0, as it
/// was told.
fn settles() -> Vec<u8> {
    let rows = [[0, 0, 0, 0], [2, 2, 2, 2], [-2, 4, -2, -2], [-2, 4, -2, -2]];
    sheet(SETTINGS, &present(&rows.concat()))
}

/// To cabinet 1 they relay nothing.
fn refuses() -> Vec<u8> {
    let rows = [[0, 0], [2, 2], [-2, 4], [-2, 4]];
    let row = |[a, b]: [i32; 2]| [Some(a), Some(b), None, None];
    sheet(SETTINGS, &rows.map(row).concat())
}

/// What a granted call gives: which sheet, where its readings begin and how long they are, and the answer sheet.
#[derive(Debug, PartialEq)]
struct Settled {
    source: Source,
    start: usize,
    length: usize,
    answer: Vec<u8>,
}

impl Settled {
    fn new_value(&self) -> i32 {
        numbers_in(&self.answer[6..10])[0]
    }
}

/// Falls back over a tray with old contents, of which all that is not the answer sheet must survive.
fn fallen(crusaders: &[u8], direct: &[u8], tray: usize) -> Result<Settled, (u8, u32)> {
    let mut answer = vec![0xa5; tray];
    let given = fallback(crusaders, direct, &mut answer);
    let written = given.map_or(0, |given| given.length);
    assert!(answer[written..].iter().all(|&byte| byte == 0xa5));
    let given = given.map_err(|refusal| (refusal.number, refusal.place))?;
    let from = match given.source {
        Source::Crusaders => crusaders,
        Source::Direct => direct,
    };
    let start = given.readings.as_ptr() as usize - from.as_ptr() as usize;
    answer.truncate(written);
    Ok(Settled { source: given.source, start, length: given.readings.len(), answer })
}

fn refusal(crusaders: &[u8], direct: &[u8]) -> (u8, u32) {
    fallen(crusaders, direct, 330).expect_err("refused")
}

/// The answer sheet of a sheet that is settled alone.
fn alone(sheet: &[u8]) -> Vec<u8> {
    let mut answer = [0; 330];
    let length = settle(sheet, &mut answer).expect("it settles");
    answer[..length].to_vec()
}

/// A sheet with some bytes changed.
fn with(sheet: &[u8], changes: &[(usize, u8)]) -> Vec<u8> {
    let mut sheet = sheet.to_vec();
    for &(at, byte) in changes {
        sheet[at] = byte;
    }
    sheet
}

#[test]
fn numbers_of_the_sources() {
    assert_eq!((Source::Crusaders as u32, Source::Direct as u32), (1, 2));
}

/// Two of four are bad: -2 by CCA and 4 after falling back, 6 apart, which is the whole part of (4+4+2)2/4 plus one.
#[test]
fn one_settles_and_the_other_falls_back() {
    let by_crusaders = fallen(&settles(), &direct(&[0, 2, -2, -2]), 30).unwrap();
    let answer = alone(&settles());
    assert_eq!(
        by_crusaders,
        Settled { source: Source::Crusaders, start: 24, length: 64, answer: answer.clone() }
    );
    let told = direct(&[0, 2, 4, 4]);
    let fell_back = fallen(&refuses(), &told, 30).unwrap();
    assert_eq!(
        fell_back,
        Settled { source: Source::Direct, start: 12, length: 16, answer: alone(&told) }
    );
    assert_eq!((by_crusaders.new_value(), fell_back.new_value()), (-2, 4));
    assert_eq!(6, (4 + 2 * 2 + 2) * 2 / 4 + 1);
}

/// Three of seven: -5 and 12. No mean of seven is a half, and 17 is the ceiling of 17·7/7.
#[test]
fn three_of_seven() {
    let settings = Settings { n: 7, m: 2, rule: CCA, estimator: MEDIAN, window: 7 };
    let rows = |relay: fn(i32) -> Option<i32>| {
        let row = |r: usize| {
            let held = [0, 0, 7, 7, -7, -7, -7][r];
            let told = move |s: usize| Some(if r > 3 && s == 1 { 14 } else { held });
            (0..7).map(move |s| if s < 4 { told(s) } else { relay(held) })
        };
        (0..7).flat_map(row).collect::<Vec<_>>()
    };
    let (to_0, to_others) = (sheet(settings, &rows(Some)), sheet(settings, &rows(|_| None)));
    let told_0 = direct_with(settings, &[0, 0, 7, 7, -7, -7, -7]);
    let told_1 = direct_with(settings, &[0, 0, 7, 7, 14, 14, 14]);
    let by_crusaders = fallen(&to_0, &told_0, 45).unwrap();
    let fell_back = fallen(&to_others, &told_1, 45).unwrap();
    assert_eq!((by_crusaders.source, by_crusaders.new_value()), (Source::Crusaders, -5));
    assert_eq!((by_crusaders.start, by_crusaders.length), (8 + 49, 4 * 49));
    assert_eq!((fell_back.source, fell_back.new_value()), (Source::Direct, 12));
    assert_eq!((fell_back.start, fell_back.length), (8 + 7, 4 * 7));
    assert_eq!(fallen(&to_others, &told_0, 45).unwrap().new_value(), -5);
}

/// A sheet that each of checks 1 to 6 refuses.
fn damaged(sheet: &[u8]) -> [(u8, Vec<u8>); 6] {
    [
        (1, sheet[..7].to_vec()),
        (2, with(sheet, &[(0, 65)])),
        (3, with(sheet, &[(1, 2)])),
        (4, with(sheet, &[(2, 4)])),
        (5, with(sheet, &[(4, 65), (5, 66), (6, 15)])),
        (6, sheet[..sheet.len() - 1].to_vec()),
    ]
}

/// 1 to 6 of the CCA sheet, and then of the FCA sheet, whatever else is wrong.
#[test]
fn checks_1_to_6_of_either_sheet() {
    for crusaders in [settles(), refuses()] {
        let told = direct(&[0, 2, 4, 4]);
        for (number, bad) in damaged(&crusaders) {
            assert_eq!(refusal(&bad, &told), (number, 0));
            assert_eq!(fallen(&bad, &told, 0), Err((number, 0)), "before 7");
            for (_, other) in damaged(&told) {
                assert_eq!(refusal(&bad, &other), (number, 0), "before those of the FCA sheet");
            }
        }
        for (number, bad) in damaged(&told) {
            assert_eq!(refusal(&crusaders, &bad), (number, 0));
            assert_eq!(fallen(&crusaders, &bad, 29), Err((number, 0)), "before 7");
            let mark = with(&crusaders, &[(8, 2)]);
            assert_eq!(refusal(&mark, &bad), (number, 0), "before 8 of the CCA sheet");
            let swapped = refusal(&told, &bad);
            assert_eq!(swapped, (number, 0), "before 19: the first is no CCA sheet");
        }
    }
    assert_eq!(refusal(&[], &[]), (1, 0));
    let wide = with(&settles(), &[(4, 64), (5, 66), (6, 15)]);
    let told = with(&direct(&[0, 2, 4, 4]), &[(4, 64), (5, 66), (6, 15)]);
    assert!(fallen(&wide, &told, 30).is_ok(), "1,000,000");
}

/// Several faults in one sheet: the lowest number.
#[test]
fn the_first_fault_of_a_sheet() {
    let told = direct(&[0, 2, 4, 4]);
    let all = [(0, 0), (1, 2), (2, 4), (4, 65), (5, 66), (6, 15)];
    for (first, number) in [(0, 2), (1, 3), (2, 4), (3, 5)] {
        let changes = &all[first..];
        assert_eq!(refusal(&with(&refuses(), changes), &told).0, number);
        assert_eq!(refusal(&refuses(), &with(&told, changes)).0, number);
    }
}

/// 19: N, m or δ differ.
#[test]
fn sheets_of_different_stations() {
    let of = |settings: Settings| direct_with(settings, &vec![0; settings.n as usize]);
    for crusaders in [settles(), refuses()] {
        assert_eq!(refusal(&crusaders, &of(Settings { n: 5, ..SETTINGS })), (19, 0));
        assert_eq!(refusal(&crusaders, &of(Settings { m: 0, ..SETTINGS })), (19, 0));
        assert_eq!(refusal(&crusaders, &of(Settings { window: 3, ..SETTINGS })), (19, 0));
        assert_eq!(refusal(&crusaders, &of(Settings { window: 258, ..SETTINGS })), (19, 0));
        assert_eq!(refusal(&crusaders, &of(Settings { window: 65_538, ..SETTINGS })), (19, 0));
        assert!(fallen(&crusaders, &of(SETTINGS), 30).is_ok());
    }
}

/// 19: not CCA then FCA. The trimming rules are neither.
#[test]
fn sheets_of_other_rules() {
    let told = direct(&[0, 2, 4, 4]);
    for crusaders in [settles(), refuses()] {
        assert_eq!(refusal(&told, &crusaders), (19, 0), "swapped");
        assert_eq!(refusal(&crusaders, &crusaders), (19, 0), "CCA twice");
        assert_eq!(refusal(&told, &told), (19, 0), "FCA twice");
        for rule in [TRIMMED_MIDPOINT, TRIMMED_MEAN] {
            let trimmed = with(&told, &[(2, rule), (3, 0)]);
            assert_eq!(refusal(&crusaders, &trimmed), (19, 0));
            assert_eq!(refusal(&trimmed, &told), (19, 0));
            assert_eq!(refusal(&trimmed, &trimmed), (19, 0));
            let estimator = with(&trimmed, &[(3, 1)]);
            assert_eq!(refusal(&crusaders, &estimator), (4, 0), "its estimator byte is not 0");
            assert_eq!(refusal(&estimator, &told), (4, 0));
        }
    }
}

/// Each sheet is settled by its own estimator: the FCA sheet accepts 0, 1 and 6.
#[test]
fn estimators_may_differ() {
    let told = direct_with(Settings { window: 6, ..SETTINGS }, &[0, 1, 6, 99]);
    let crusaders = with(&refuses(), &[(4, 6)]);
    for (estimator, estimate) in [(AVERAGE, 2), (MEDIAN, 1), (MIDPOINT, 3)] {
        for of_crusaders in [AVERAGE, MEDIAN, MIDPOINT] {
            let crusaders = with(&crusaders, &[(3, of_crusaders)]);
            let told = with(&told, &[(3, estimator)]);
            let settled = fallen(&crusaders, &told, 30).unwrap();
            assert_eq!(settled.source, Source::Direct);
            assert_eq!(numbers_in(&settled.answer[2..6]), [estimate]);
            let settled = fallen(&with(&settles(), &[(3, of_crusaders), (4, 6)]), &told, 30);
            let settled = settled.unwrap();
            assert_eq!(settled.source, Source::Crusaders);
            let estimate = [-1, -2, 0][of_crusaders as usize];
            assert_eq!(numbers_in(&settled.answer[2..6]), [estimate], "of -2, -2, 0 and 2");
        }
    }
}

/// 7 is asked after 19, and before 8 of the CCA sheet.
#[test]
fn the_tray() {
    let told = direct(&[0, 2, 4, 4]);
    for (crusaders, source) in [(settles(), Source::Crusaders), (refuses(), Source::Direct)] {
        for tray in [0, 1, 10, 28, 29] {
            assert_eq!(fallen(&crusaders, &told, tray), Err((7, 0)));
            assert_eq!(fallen(&crusaders, &with(&told, &[(4, 3)]), tray), Err((19, 0)));
            assert_eq!(fallen(&told, &crusaders, tray), Err((19, 0)));
            assert_eq!(fallen(&with(&crusaders, &[(9, 2)]), &told, tray), Err((7, 0)));
            assert_eq!(fallen(&crusaders, &with(&told, &[(9, 2)]), tray), Err((7, 0)));
        }
        for tray in [30, 31, 330] {
            assert_eq!(fallen(&crusaders, &told, tray).unwrap().source, source);
        }
    }
}

/// 19 stands before 8 and 9 of both.
#[test]
fn sheets_of_different_stations_with_bad_marks() {
    let told = with(&direct(&[0, 2, 4, 4]), &[(1, 0), (8, 2)]);
    assert_eq!(refusal(&with(&refuses(), &[(8, 2)]), &told), (19, 0));
    assert_eq!(refusal(&with(&settles(), &[(8, 0), (24, 1)]), &told), (19, 0));
}

/// 8 and 9 of the CCA sheet stand: nothing is tried after them.
#[test]
fn marks_and_ghosts_of_the_crusaders_sheet() {
    let told = direct(&[0, 2, 4, 4]);
    for crusaders in [settles(), refuses()] {
        let mark = with(&crusaders, &[(8 + 13, 2), (8 + 5, 255)]);
        assert_eq!(refusal(&mark, &told), (8, 5));
        let bad_too = with(&told, &[(8, 2)]);
        assert_eq!(refusal(&mark, &bad_too), (8, 5), "before those of the FCA sheet");
        let ghost = with(&crusaders, &[(8 + 15, 0), (24 + 63, 1), (8 + 6, 0), (24 + 27, 1)]);
        assert_eq!(refusal(&ghost, &told), (9, 6));
        assert_eq!(refusal(&ghost, &bad_too), (9, 6));
        let both = with(&ghost, &[(8 + 15, 2)]);
        assert_eq!(refusal(&both, &told), (8, 15), "marks before ghosts");
    }
}

/// A damaged FCA sheet is noticed after a 10 alone, with its own place.
#[test]
fn marks_and_ghosts_of_the_direct_sheet() {
    let told = direct(&[0, 2, 4, 4]);
    let mark = with(&told, &[(8 + 3, 2), (8 + 2, 2)]);
    let ghost = with(&told, &[(8 + 3, 0), (8 + 1, 0)]);
    let both = with(&ghost, &[(8 + 2, 7)]);
    for (bad, right) in [(&mark, (8, 2)), (&ghost, (9, 1)), (&both, (8, 2))] {
        assert_eq!(refusal(&refuses(), bad), right);
        let settled = fallen(&settles(), bad, 30).unwrap();
        assert_eq!((settled.source, settled.answer), (Source::Crusaders, alone(&settles())));
    }
}

/// A fallback to a refusal, and an FCA sheet that would be refused while CCA settles.
#[test]
fn too_many_faults_on_both_sheets() {
    let scattered = direct(&[0, 10, 20, 30]);
    assert_eq!(refusal(&refuses(), &scattered), (10, 0));
    assert_eq!(fallen(&settles(), &scattered, 30).unwrap().source, Source::Crusaders);
    let silent = sheet(Settings { rule: FCA, ..SETTINGS }, &[None; 4]);
    assert_eq!(refusal(&refuses(), &silent), (10, 0));
    assert_eq!(fallen(&refuses(), &silent, 29), Err((7, 0)));
}

#[test]
fn the_text() {
    let fell_back = "settled by direct\nround 4 3 4 4\n0 2 4\n1 1 2\n2 1 4\n3 1 4\n";
    assert_eq!(fallback_text(&refuses(), &direct(&[0, 2, 4, 4])), fell_back);
    let settled = fallback_text(&settles(), &direct(&[0, 2, -2, -2]));
    assert_eq!(settled, "settled by crusaders\n".to_string() + &settle_text(&settles()));
    assert_eq!(fallback_text(&refuses(), &direct(&[0, 10, 20, 30])), "refused 10 0\n");
    assert_eq!(fallback_text(&[], &[]), "refused 1 0\n");
}

/// All pairs of one cabinet: a mark of 0, 1 or 2 and a reading of 0 or 5 on either sheet.
#[test]
fn one_cabinet() {
    let settings = Settings { n: 1, m: 0, rule: CCA, estimator: MEDIAN, window: 0 };
    let entries = [(0, 0), (0, 5), (1, 0), (1, 5), (2, 0), (2, 5)];
    let of = |rule: u8, (mark, reading)| {
        sheet_bytes(&Settings { rule, ..settings }, &[mark], &[reading])
    };
    for (first, second) in entries.into_iter().flat_map(|a| entries.map(|b| (a, b))) {
        let given = fallen(&of(CCA, first), &of(FCA, second), 15);
        let right = match (first, second) {
            ((1, reading), _) => Ok((Source::Crusaders, reading)),
            ((2, _), _) => Err((8, 0)),
            ((_, 5), _) => Err((9, 0)),
            (_, (1, reading)) => Ok((Source::Direct, reading)),
            (_, (2, _)) => Err((8, 0)),
            (_, (_, 5)) => Err((9, 0)),
            _ => Err((10, 0)),
        };
        let shown = given.as_ref().map_or((9, 4), |settled| (settled.start, settled.length));
        assert_eq!(shown, (9, 4));
        let given = given.map(|settled| (settled.source, settled.new_value()));
        assert_eq!(given, right, "{first:?} {second:?}");
    }
}

/// The longest sheets, and both ends of 32 bits.
#[test]
fn sixty_four_cabinets() {
    let settings = Settings { n: 64, m: 21, rule: CCA, estimator: MIDPOINT, window: 0 };
    for end in [i32::MIN, i32::MAX] {
        let told = direct_with(settings, &[end; 64]);
        let crusaders = sheet(settings, &[Some(end); 4096]);
        let settled = fallen(&crusaders, &told, 330).unwrap();
        assert_eq!((settled.source, settled.new_value()), (Source::Crusaders, end));
        assert_eq!((settled.start, settled.length), (4104, 16_384));
        let settled = fallen(&sheet(settings, &[None; 4096]), &told, 330).unwrap();
        assert_eq!((settled.source, settled.new_value()), (Source::Direct, end));
        assert_eq!((settled.start, settled.length), (72, 256));
    }
}
