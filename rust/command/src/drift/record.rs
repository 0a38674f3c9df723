//! A stored record beside its exact value.

use reference::reckoning::{ExactMean, ExactWear, Fraction, Whole};

use super::length::Length;

const UNIT: Length = Length::units(1);
const HALF_UNIT: Length = Length::half_units(1);

/// A mean or a wear as the package stores it, with its exact value and its
/// bound, all in the record's own unit.
#[derive(Clone, Debug)]
pub struct Record {
    pub stored: i64,
    pub exact: Fraction,
    /// Twice the bound, so that it is whole.
    pub doubled_bound: i64,
    unit: Length,
}

impl Record {
    /// A mean, u; its bound is K/2.
    pub fn mean(stored: i64, exact: &ExactMean) -> Self {
        Record {
            stored,
            exact: exact.value.clone(),
            doubled_bound: exact.factor,
            unit: UNIT,
        }
    }

    /// A wear, h.
    pub fn wear(stored: i64, exact: &ExactWear) -> Self {
        Record {
            stored,
            exact: exact.value.clone(),
            doubled_bound: exact.doubled_bound,
            unit: HALF_UNIT,
        }
    }

    /// The mean that a correction by the mean used up, from the corrected wear before and after: what c added to the stored wear, to the
    /// exact wear and to the bound, for each unit of c.
    pub fn corrected_mean(correction: i64, before: &Record, after: &Record) -> Self {
        let factor = (after.stored - before.stored) / correction;
        let added = after.exact.add_times(-1, &before.exact);
        Record {
            stored: correction,
            exact: Fraction {
                over: &Whole::from(factor.signum()) * &added.over,
                under: &Whole::from(factor.abs()) * &added.under,
            },
            doubled_bound: (after.doubled_bound - before.doubled_bound) / factor.abs(),
            unit: UNIT,
        }
    }

    /// Whether the stored value lies within the bound of the exact one, compared
    /// in whole numbers.
    pub fn is_within_bound(&self) -> bool {
        self.exact.is_within_half(self.stored, self.doubled_bound)
    }

    pub fn stored_length(&self) -> Length {
        Length(self.stored * self.unit.0)
    }

    /// The exact value, rounded.
    pub fn exact_length(&self) -> Length {
        Length(nearest(&self.exact, self.unit.0))
    }

    pub fn bound_length(&self) -> Length {
        Length(self.doubled_bound * self.unit.0 / 2)
    }
}

/// A record's lengths at a part.
#[derive(Clone, Copy, Debug)]
pub struct Stand {
    pub part: usize,
    pub stored: Length,
    pub exact: Length,
    pub bound: Length,
    /// Whether the stored value lies within the bound.
    pub inside: bool,
}

impl Stand {
    pub fn of(part: usize, record: &Record) -> Self {
        Stand {
            part,
            stored: record.stored_length(),
            exact: record.exact_length(),
            bound: record.bound_length(),
            inside: record.is_within_bound(),
        }
    }

    pub fn upper(&self) -> Length {
        self.exact + self.bound
    }

    pub fn lower(&self) -> Length {
        self.exact - self.bound
    }

    /// What a diagram of the record has to hold.
    pub fn lengths(&self) -> [Length; 3] {
        [self.stored, self.upper(), self.lower()]
    }
}

/// No exact value of a record has this many parts of a micrometre.
const FAR: i64 = 1 << 40;

/// The whole number nearest to `scale` times a fraction, the upper one of two:
/// the greatest n with 2n - 1 ≤ 2·scale·over/under.
fn nearest(fraction: &Fraction, scale: i64) -> i64 {
    let doubled = &Whole::from(2 * scale) * &fraction.over;
    let (mut reached, mut beyond) = (-FAR, FAR);
    while beyond - reached > 1 {
        let middle = (reached + beyond) / 2;
        if &Whole::from(2 * middle - 1) * &fraction.under <= doubled {
            reached = middle;
        } else {
            beyond = middle;
        }
    }
    reached
}

#[cfg(test)]
mod tests {
    use super::*;

    fn fraction(over: i64, under: i64) -> Fraction {
        Fraction {
            over: Whole::from(over),
            under: Whole::from(under),
        }
    }

    #[test]
    fn fractions_are_rounded_to_the_nearest() {
        // 37/64 = 0.578125
        assert_eq!(nearest(&fraction(37, 64), 1_000), 578);
        assert_eq!(nearest(&fraction(-37, 64), 1_000), -578);
        assert_eq!(nearest(&fraction(1, 2_000), 1_000), 1);
        assert_eq!(nearest(&fraction(-1, 2_000), 1_000), 0);
        assert_eq!(nearest(&fraction(-32_768, 1), 1_000), -32_768_000);
    }

    #[test]
    fn bounds_are_compared_exactly() {
        let mut mean = Record {
            stored: 0,
            exact: fraction(3, 2),
            doubled_bound: 3,
            unit: UNIT,
        };
        assert!(mean.is_within_bound());
        mean.exact = fraction(3_000_000_000_000_001, 2_000_000_000_000_000);
        assert_eq!(mean.exact_length(), Length(1_500));
        assert!(!mean.is_within_bound());
    }
}
