//! Exact fractions of 0 up to, not including, 1.

use std::cmp::Ordering;

/// In lowest terms, so that equal fractions are equal values.
#[derive(Clone, Copy, Debug, PartialEq, Eq)]
pub struct Fraction {
    numerator: i128,
    denominator: i128,
}

impl Fraction {
    pub const ZERO: Fraction = Fraction { numerator: 0, denominator: 1 };

    /// The whole part of a quotient, rounded toward minus infinity, and the fraction above it.
    pub fn split(numerator: i128, denominator: i128) -> (i128, Fraction) {
        assert!(denominator > 0);
        let whole = numerator.div_euclid(denominator);
        let rest = numerator.rem_euclid(denominator);
        let divisor = common_divisor(rest, denominator);
        let fraction = Fraction { numerator: rest / divisor, denominator: denominator / divisor };
        (whole, fraction)
    }

    pub fn is_zero(&self) -> bool {
        self.numerator == 0
    }

    /// The sum, as a whole part and a fraction.
    pub fn plus(&self, other: &Fraction) -> (i128, Fraction) {
        Fraction::split(
            self.numerator * other.denominator + other.numerator * self.denominator,
            self.denominator * other.denominator,
        )
    }
}

impl Ord for Fraction {
    fn cmp(&self, other: &Fraction) -> Ordering {
        let left = self.numerator * other.denominator;
        let right = other.numerator * self.denominator;
        left.cmp(&right)
    }
}

impl PartialOrd for Fraction {
    fn partial_cmp(&self, other: &Fraction) -> Option<Ordering> {
        Some(self.cmp(other))
    }
}

fn common_divisor(mut x: i128, mut y: i128) -> i128 {
    while x != 0 {
        (x, y) = (y % x, x);
    }
    y
}
