//! Paper 6 of document 02: how long between rounds.

use random::Random;
use reference::*;

/// The least and the greatest, or the number of the refusal.
fn asked(window: u32, precision: u32, drift: u32) -> Result<(u64, u64), u8> {
    let answer = interval(window, precision, drift);
    answer.map(|given| (given.least, given.greatest)).map_err(|refusal| {
        assert_eq!(refusal.place, 0);
        refusal.number
    })
}

/// The first inequality over whole numbers, multiplied by 2ρ.
fn whole_window(d: u32, c: u32, r: u32, interval: u64) -> bool {
    2 * r as i128 * interval as i128 <= (d as i128 - c as i128) * (2_000_000 - r as i128)
}

/// The second, multiplied by 4-ρ².
fn whole_order(c: u32, r: u32, interval: u64) -> bool {
    let (c, r, million) = (c as i128, r as i128, 1_000_000);
    let times = 4 * million * million - 4 * million * r - r * r;
    interval as i128 * times >= 2 * c * (2 * million + r) * million
}

#[test]
fn numbers_of_the_request() {
    assert_eq!(asked(998, 997, 1000), Ok((999, 999)));
    assert_eq!(asked(1001, 1000, 1000), Err(18));
    assert_eq!(asked(1, 0, 1), Ok((1, 999_999)));
    assert_eq!(asked(1_000_000, 0, 1), Ok((1, 999_999_500_000)), "the greatest of all");
    assert_eq!(asked(1_000_000, 0, 1000), Ok((1, 999_500_000)));
}

/// 0 to 1,000,000, the same, and 1 to 1,000.
#[test]
fn both_ends_of_each_range() {
    assert_eq!(asked(1_000_000, 500_000, 500), Ok((500_376, 999_750_000)));
    assert_eq!(asked(1_000_001, 500_000, 500), Err(17));
    assert_eq!(asked(u32::MAX, 500_000, 500), Err(17));
    assert_eq!(asked(0, 0, 500), Err(18));
    assert_eq!(asked(1_000_000, 999_000, 500), Ok((999_750, 1_999_500)));
    assert_eq!(asked(1_000_000, 1_000_000, 500), Err(18));
    assert_eq!(asked(1_000_000, 1_000_001, 500), Err(17));
    assert_eq!(asked(1_000_000, u32::MAX, 500), Err(17));
    assert_eq!(asked(1000, 0, 500), Ok((1, 1_999_500)));
    assert_eq!(asked(1000, 500, 0), Err(17));
    assert_eq!(asked(1000, 500, 1), Ok((501, 499_999_750)));
    assert_eq!(asked(1000, 500, 1000), Ok((501, 499_750)));
    assert_eq!(asked(1000, 500, 1001), Err(17));
    assert_eq!(asked(1000, 500, 65_537), Err(17), "not cut to 16 bits");
    assert_eq!(asked(1000, 500, u32::MAX), Err(17));
}

/// 17 is asked of all three before anything else.
#[test]
fn several_faults_at_once() {
    assert_eq!(asked(1_000_001, 1_000_001, 1001), Err(17));
    assert_eq!(asked(0, 1_000_001, 500), Err(17), "the window is below the precision too");
    assert_eq!(asked(1_000_001, 1_000_001, 500), Err(17), "the window is the precision too");
    assert_eq!(asked(5, 5, 0), Err(17), "the window is the precision too");
    assert_eq!(asked(5, 6, 1001), Err(17), "the window is below the precision too");
    assert_eq!(asked(1001, 1000, 1001), Err(17), "the drift eats the tick that is left too");
}

/// A window that is not wider than the precision leaves nothing, and one that is a tick wider does up to a precision.
#[test]
fn window_and_precision() {
    for drift in [1, 2, 500, 999, 1000] {
        for precision in [0, 1, 2, 997, 65_536, 999_998, 999_999] {
            assert_eq!(asked(precision, precision, drift), Err(18));
            assert_eq!(asked(precision, precision + 1, drift), Err(18));
            assert_eq!(asked(0, precision + 1, drift), Err(18));
        }
    }
    let a_tick_wider = |precision: u32| asked(precision + 1, precision, 1000);
    assert_eq!(a_tick_wider(995), Ok((997, 999)));
    assert_eq!(a_tick_wider(996), Ok((998, 999)));
    assert_eq!(a_tick_wider(997), Ok((999, 999)));
    for precision in [998, 999, 1000, 1001, 999_999] {
        assert_eq!(a_tick_wider(precision), Err(18), "precision {precision}");
    }
}

/// The least, worked out with ρ² and without it, and with another power of ten.
#[test]
fn rho_squared_counts() {
    assert_eq!(asked(1_000_000, 998_001, 1000), Ok((999_500, 1_998_000)));
    let least = |precision: u64, times: u64| {
        let denominator = 4_000_000_000_000 - 4_000_000 * 1000 - times * 1000 * 1000;
        (2 * precision * 2_001_000 * 1_000_000).div_ceil(denominator)
    };
    let differs = |times: u64| (997_000..998_000).find(|&c| least(c, 1) != least(c, times));
    for (times, what) in
        [(0, "without"), (10, "with ten times"), (1_000_000, "with ρ in its place")]
    {
        let precision = differs(times).expect(what);
        let given = asked(1_000_000, precision as u32, 1000).expect(what);
        assert_eq!(given.0, least(precision, 1), "{what}");
    }
    assert_eq!(differs(1), None);
}

/// Both inequalities are met at the least, the greatest and between, and not a tick outside; and there the issue's
/// inequalities over whole numbers say the same as the paper's fractions.
fn held_at_both_ends(window: u32, precision: u32, drift: u32, random: &Random) -> bool {
    let whole =
        |r: u64| whole_window(window, precision, drift, r) && whole_order(precision, drift, r);
    let same = |r: u64| {
        assert_eq!(
            stays_within(window, precision, drift, r),
            whole_window(window, precision, drift, r)
        );
        assert_eq!(stays_in_order(precision, drift, r), whole_order(precision, drift, r));
        assert_eq!(meets(window, precision, drift, r), whole(r));
        whole(r)
    };
    match asked(window, precision, drift) {
        Ok((least, greatest)) => {
            let between = random.between(least as i64, greatest as i64) as u64;
            assert!(1 <= least && [least, between, greatest].into_iter().all(same));
            assert!(least == 1 || !same(least - 1), "{window} {precision} {drift}");
            assert!(!same(greatest + 1), "{window} {precision} {drift}");
            assert!(!same(greatest + 1 + between) && !same(u64::MAX));
            true
        }
        Err(number) => {
            assert_eq!(number, 18);
            let any = random.between(1, 1_000_000_000_000) as u64;
            assert!(![1, any, precision as u64 + 1, u64::MAX].into_iter().any(same));
            false
        }
    }
}

#[test]
fn many_intervals() {
    let random = Random::new(6);
    let mut granted = 0;
    for _ in 0..40_000 {
        let drift = random.pick(&[1, 1000, random.between(1, 1000)]) as u32;
        let precision = random.pick(&[0, random.between(0, 1000), random.between(0, 999_999)]);
        let wider = random.pick(&[1, random.between(0, 1000), random.between(0, 1_000_000)]);
        let window = (precision + wider).min(1_000_000) as u32;
        granted += held_at_both_ends(window, precision as u32, drift, &random) as u64;
    }
    assert!((20_000..40_000).contains(&granted), "{granted} were granted");
}

/// Every number of ticks is tried.
#[test]
fn small_intervals() {
    for drift in [250, 333, 500, 999, 1000] {
        for (window, precision) in (0..=4).flat_map(|window| (0..=5).map(move |c| (window, c))) {
            let met: Vec<u64> =
                (1..20_000).filter(|&r| meets(window, precision, drift, r)).collect();
            let right = match met[..] {
                [] => Err(18),
                [only] => Ok((only, only)),
                [least, .., greatest] => {
                    assert_eq!(met.len() as u64, greatest - least + 1, "none is left out");
                    Ok((least, greatest))
                }
            };
            assert_eq!(asked(window, precision, drift), right, "{window} {precision} {drift}");
        }
    }
    for precision in 970..1010 {
        let met: Vec<u64> =
            (1..2100).filter(|&r| meets(precision + 1, precision, 1000, r)).collect();
        let right = met.first().map(|&least| (least, *met.last().unwrap())).ok_or(18);
        assert_eq!(asked(precision + 1, precision, 1000), right, "precision {precision}");
    }
}

#[test]
fn fractions() {
    let half = Fraction::new(1, 2);
    assert_eq!(half, Fraction::new(-3, -6));
    assert_eq!(half + Fraction::new(1, 3), Fraction::new(5, 6));
    assert_eq!(half + half, Fraction::whole(1));
    assert_eq!(half - Fraction::new(1, 3), Fraction::new(1, 6));
    assert_eq!(half * Fraction::new(-2, 3), Fraction::new(-1, 3));
    assert_eq!(half / Fraction::new(-2, 3), Fraction::new(3, -4));
    assert_eq!((Fraction::new(-7, 2).floor(), Fraction::new(-7, 2).ceiling()), (-4, -3));
    assert_eq!((Fraction::new(7, 2).floor(), Fraction::new(7, 2).ceiling()), (3, 4));
    assert_eq!((Fraction::new(8, 2).floor(), Fraction::new(8, 2).ceiling()), (4, 4));
    assert_eq!(Fraction::new(-7, 2).size(), Fraction::new(7, 2));
    assert!(Fraction::new(1, 3) < half && Fraction::new(-1, 2) < Fraction::new(1, -3));
    assert!(Fraction::whole(2) > Fraction::new(1_999_999, 1_000_000));
}

#[test]
#[should_panic(expected = "a product of 128 bits")]
fn fractions_do_not_wrap() {
    let _ = Fraction::new(i128::MAX / 2, 1) * Fraction::whole(3);
}

#[test]
#[should_panic(expected = "nothing is divided by 0")]
fn nothing_is_divided_by_0() {
    let _ = Fraction::whole(1) / Fraction::whole(0);
}
