//! How long between rounds: both inequalities over whole numbers of 64 bits.

use crate::{refusal, MOST_WINDOW};

const MOST_PRECISION: u32 = 1_000_000;
const MOST_DRIFT: u32 = 1000;

/// Parts of a million.
const MILLION: u64 = 1_000_000;

/// An answer of 0, and the least and the greatest interval; or number × 2^32, and two times 0.
struct Answer {
    answer: u64,
    least: u64,
    greatest: u64,
}

/// The least and the greatest interval, or number × 2^32. It hands on the answer of a function that is not compiled into
/// it, as the wrapper of the proved library does.
pub fn interval(window: u32, precision: u32, drift: u32) -> Result<(u64, u64), u64> {
    let Answer { answer, least, greatest } = answer(window, precision, drift);
    match answer {
        0 => Ok((least, greatest)),
        refusal => Err(refusal),
    }
}

#[inline(never)]
fn answer(window: u32, precision: u32, drift: u32) -> Answer {
    if window > MOST_WINDOW || precision > MOST_PRECISION || drift == 0 || drift > MOST_DRIFT {
        return Answer { answer: refusal(17, 0), least: 0, greatest: 0 };
    }
    let least = least(precision as u64, drift as u64);
    let greatest = greatest(window as u64, precision as u64, drift as u64);
    if greatest < least {
        return Answer { answer: refusal(18, 0), least: 0, greatest: 0 };
    }
    Answer { answer: 0, least, greatest }
}

/// R(4·10^12 - 4·10^6·r - r²) ≥ 2c(2·10^6 + r)·10^6.
fn least(precision: u64, drift: u64) -> u64 {
    let coefficient = 4 * MILLION * MILLION - 4 * MILLION * drift - drift * drift;
    let product = 2 * precision * (2 * MILLION + drift) * MILLION;
    product.div_ceil(coefficient).max(1)
}

/// 2rR ≤ (d-c)(2·10^6 - r).
fn greatest(window: u64, precision: u64, drift: u64) -> u64 {
    if window <= precision {
        return 0;
    }
    (window - precision) * (2 * MILLION - drift) / (2 * drift)
}
