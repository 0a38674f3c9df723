//! Lengths of the picture and the table.

use std::fmt;
use std::ops::{Add, Neg, Sub};

/// A length in ten-thousandths of a micrometre.
#[derive(Clone, Copy, Debug, Default, PartialEq, Eq, PartialOrd, Ord)]
pub struct Length(pub i64);

/// The parts of a micrometre that a length counts, and the units of a millimetre.
const PARTS: i64 = 10_000;

impl Length {
    /// A number of units, 0.1 µm each.
    pub const fn units(number: i64) -> Self {
        Length(1_000 * number)
    }

    /// A number of half units, 0.05 µm each.
    pub const fn half_units(number: i64) -> Self {
        Length(500 * number)
    }

    /// Its share of another length, for drawing.
    pub fn share_of(self, other: Length) -> f64 {
        self.0 as f64 / other.0 as f64
    }

    pub fn divided(self, by: i64) -> Self {
        Length(self.0 / by)
    }

    /// The multiples of a step from `low` to `high`, about as many as wanted; steps are 1, 2 and 5 and their multiples by ten.
    pub fn ticks(low: Length, high: Length, wanted: i64) -> Vec<Length> {
        let least = (high.0 - low.0) / wanted;
        let step = round_step(least);
        let first = low.0.div_euclid(step) + i64::from(low.0.rem_euclid(step) != 0);
        (first..=high.0.div_euclid(step))
            .map(|multiple| Length(multiple * step))
            .collect()
    }
}

/// The least of 1, 2, 5, 10, 20, 50 and so on that is not below a number.
pub fn round_step(least: i64) -> i64 {
    let mut decade = 1;
    while 5 * decade < least {
        decade *= 10;
    }
    let steps = [decade, 2 * decade, 5 * decade];
    steps
        .into_iter()
        .find(|&step| step >= least)
        .unwrap_or(5 * decade)
}

impl Add for Length {
    type Output = Length;

    fn add(self, other: Length) -> Length {
        Length(self.0 + other.0)
    }
}

impl Sub for Length {
    type Output = Length;

    fn sub(self, other: Length) -> Length {
        Length(self.0 - other.0)
    }
}

impl Neg for Length {
    type Output = Length;

    fn neg(self) -> Length {
        Length(-self.0)
    }
}

/// Ten-thousandths as a decimal number, without needless zeros at the end.
fn decimal(ten_thousandths: i64) -> String {
    let sign = if ten_thousandths < 0 { "-" } else { "" };
    let (whole, rest) = (ten_thousandths.abs() / PARTS, ten_thousandths.abs() % PARTS);
    let text = format!("{sign}{whole}.{rest:04}");
    text.trim_end_matches('0').trim_end_matches('.').to_owned()
}

/// Units in millimetres, as setpoints are written.
pub fn millimetres(units: i64) -> String {
    decimal(units)
}

impl fmt::Display for Length {
    /// In micrometres.
    fn fmt(&self, f: &mut fmt::Formatter<'_>) -> fmt::Result {
        f.write_str(&decimal(self.0))
    }
}

#[cfg(test)]
mod tests {
    use super::*;

    #[test]
    fn lengths_are_written_in_micrometres() {
        let written = |length: Length| length.to_string();
        assert_eq!(written(Length::units(-36)), "-3.6");
        assert_eq!(written(Length::units(100)), "10");
        assert_eq!(written(Length::half_units(-1)), "-0.05");
        assert_eq!(written(Length(0)), "0");
        assert_eq!(written(Length(-12_345)), "-1.2345");
    }

    #[test]
    fn ticks_are_round_numbers() {
        let ticks = |low, high| {
            Length::ticks(Length(low), Length(high), 6)
                .iter()
                .map(Length::to_string)
                .collect::<Vec<_>>()
        };
        assert_eq!(ticks(-81_000, 24_000), ["-8", "-6", "-4", "-2", "0", "2"]);
        assert_eq!(ticks(-5_000, 5_000), ["-0.4", "-0.2", "0", "0.2", "0.4"]);
        assert_eq!(
            [1, 2, 3, 5, 6, 11, 40, 51].map(round_step),
            [1, 2, 5, 5, 10, 20, 50, 100]
        );
    }
}
