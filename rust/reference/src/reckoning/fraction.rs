//! Exact fractions.

use super::whole::Whole;

/// "a fraction of two whole numbers"; the lower one is positive. Fractions are
/// not reduced.
#[derive(Clone, Debug)]
pub struct Fraction {
    pub over: Whole,
    pub under: Whole,
}

impl Fraction {
    /// A whole number as a fraction.
    pub fn whole(value: i64) -> Self {
        Fraction {
            over: Whole::from(value),
            under: Whole::from(1),
        }
    }

    /// The sum with `factor` times another fraction.
    pub fn add_times(&self, factor: i64, other: &Fraction) -> Self {
        let term = &Whole::from(factor) * &other.over;
        Fraction {
            over: &(&self.over * &other.under) + &(&term * &self.under),
            under: &self.under * &other.under,
        }
    }

    /// Whether a whole number lies within `doubled`/2 of this fraction, "compared
    /// multiplied out, in whole numbers".
    pub fn is_within_half(&self, value: i64, doubled: i64) -> bool {
        let distance = (&(&Whole::from(value) * &self.under) - &self.over).abs();
        &Whole::from(2) * &distance <= &Whole::from(doubled) * &self.under
    }

    /// Whether this fraction has the same value as `over`/`under`.
    pub fn equals(&self, over: i64, under: i64) -> bool {
        &self.over * &Whole::from(under) == &self.under * &Whole::from(over)
    }
}
