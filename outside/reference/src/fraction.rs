//! Fractions of whole numbers, for the inequalities of document 02's paper 6. Nothing is rounded, and what 128 bits do
//! not hold ends the program.

use std::cmp::Ordering;
use std::ops::{Add, Div, Mul, Sub};

/// The bottom is above 0. The fraction need not be in its lowest terms.
#[derive(Clone, Copy, Debug)]
pub struct Fraction {
    top: i128,
    bottom: i128,
}

fn times(a: i128, b: i128) -> i128 {
    a.checked_mul(b).expect("a product of 128 bits")
}

fn plus(a: i128, b: i128) -> i128 {
    a.checked_add(b).expect("a sum of 128 bits")
}

impl Fraction {
    pub fn new(top: i128, bottom: i128) -> Fraction {
        assert!(bottom != 0, "nothing is divided by 0");
        Fraction { top: times(top, bottom.signum()), bottom: times(bottom, bottom.signum()) }
    }

    pub fn whole(number: impl Into<i128>) -> Fraction {
        Fraction { top: number.into(), bottom: 1 }
    }

    /// The whole number at or next below it.
    pub fn floor(self) -> i128 {
        self.top.div_euclid(self.bottom)
    }

    /// The whole number at or next above it.
    pub fn ceiling(self) -> i128 {
        -(-self.top).div_euclid(self.bottom)
    }

    /// Without its sign.
    pub fn size(self) -> Fraction {
        Fraction { top: self.top.abs(), ..self }
    }
}

impl Add for Fraction {
    type Output = Fraction;

    fn add(self, other: Fraction) -> Fraction {
        if self.bottom == other.bottom {
            return Fraction { top: plus(self.top, other.top), ..self };
        }
        let top = plus(times(self.top, other.bottom), times(other.top, self.bottom));
        Fraction { top, bottom: times(self.bottom, other.bottom) }
    }
}

impl Sub for Fraction {
    type Output = Fraction;

    fn sub(self, other: Fraction) -> Fraction {
        self + Fraction { top: -other.top, ..other }
    }
}

impl Mul for Fraction {
    type Output = Fraction;

    fn mul(self, other: Fraction) -> Fraction {
        Fraction { top: times(self.top, other.top), bottom: times(self.bottom, other.bottom) }
    }
}

impl Div for Fraction {
    type Output = Fraction;

    fn div(self, other: Fraction) -> Fraction {
        Fraction::new(times(self.top, other.bottom), times(self.bottom, other.top))
    }
}

impl PartialEq for Fraction {
    fn eq(&self, other: &Fraction) -> bool {
        self.partial_cmp(other) == Some(Ordering::Equal)
    }
}

impl PartialOrd for Fraction {
    fn partial_cmp(&self, other: &Fraction) -> Option<Ordering> {
        times(self.top, other.bottom).partial_cmp(&times(other.top, self.bottom))
    }
}
