//! Means that are wrong in a named way: see `sabotage`.

use reference::Round;

/// The mean of a settled round that is wrong in that way, from its used values; None where the way is another.
pub fn wrong_mean(how: &str, round: &Round, present: &[i64], span: i64) -> Option<i64> {
    let Round { used, marks, estimate, .. } = round;
    let n = used.len() as i64;
    let accepted = || used.iter().zip(marks).filter(|(_, &mark)| mark == 1).map(|(&v, _)| v);
    let sum_from = |base: i64| used.iter().map(|v| v - base).sum::<i64>();
    let lowest = accepted().min()?;
    let sum = sum_from(lowest);
    let towards_zero = |base: i64| to_even(base, sum_from(base), n);
    let as_unsigned = |base: i64| to_even(base, sum_from(base) as u32 as i64, n);
    let mean = match how {
        "truncate" => (2 * sum_from(0) + n) / (2 * n),
        "sum-cut" => to_even(lowest, sum.min(n * span), n),
        "sum-unsigned" => as_unsigned(*estimate),
        "sum-estimate" => towards_zero(*estimate),
        "sum-first" => towards_zero(accepted().next()?),
        "sum-readings" => towards_zero(0),
        "sum-present" => as_unsigned(*present.iter().min()?),
        "sum-missing" => to_even(lowest, accepted().map(|v| v - lowest).sum(), n),
        "sum-back" => {
            let back = (sum + n * lowest) as i32 as i64;
            to_even(back.div_euclid(n), back.rem_euclid(n), n)
        }
        "sum-end" => {
            let up = (lowest + sum / n + 1).min(i32::MAX as i64);
            up - (to_even(lowest, sum, n) == lowest + sum / n) as i64
        }
        _ => wrong_half(how, lowest, sum, n)?,
    };
    Some(mean.clamp(i32::MIN as i64, i32::MAX as i64))
}

/// A sum of n distances divided, towards zero, and added to their base; a half goes to the even neighbour.
fn to_even(base: i64, sum: i64, n: i64) -> i64 {
    let whole = base + sum / n;
    whole + (n < 2 * (sum % n) + (whole & 1)) as i64
}

/// The mean by distances from the lowest whose half goes the wrong way.
fn wrong_half(how: &str, lowest: i64, sum: i64, n: i64) -> Option<i64> {
    let (quotient, rest) = (sum / n, sum % n);
    let whole = lowest + quotient;
    let half = if how == "sum-half-odd" { n / 2 * 2 } else { n };
    let half_goes_up = match how {
        "half-up" => true,
        "half-down" => false,
        "half-away" => whole >= 0,
        "half-odd" => whole % 2 == 0,
        "half-negative" => whole % 2 == 1,
        "sum-quotient" => quotient % 2 == 1,
        "sum-lowest" => lowest % 2 != 0,
        "sum-half-odd" => whole % 2 != 0,
        _ => return None,
    };
    Some(whole + (2 * rest > half || (2 * rest == half && half_goes_up)) as i64)
}
