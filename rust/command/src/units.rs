//! Numbers with their units, and in µm.

/// The unit of a number.
#[derive(Clone, Copy, Debug, PartialEq, Eq)]
pub enum Unit {
    /// 0.1 µm.
    U,
    /// 0.05 µm.
    H,
}

impl Unit {
    /// Its letter.
    pub const fn letter(self) -> &'static str {
        match self {
            Unit::U => "u",
            Unit::H => "h",
        }
    }

    /// A number of this unit in µm, with every digit that it has.
    pub fn micrometres(self, number: i32) -> String {
        let (of_a_micrometre, digits) = match self {
            Unit::U => (10, 1),
            Unit::H => (20, 2),
        };
        let size = number.unsigned_abs();
        let (whole, rest) = (size / of_a_micrometre, size % of_a_micrometre);
        let fraction = rest * 10u32.pow(digits) / of_a_micrometre;
        let sign = if number < 0 { "-" } else { "" };
        format!(
            "{sign}{whole}.{fraction:0width$} µm",
            width = digits as usize
        )
    }
}

#[cfg(test)]
mod tests {
    use super::*;

    #[test]
    fn a_unit_is_a_tenth_and_a_half_unit_a_twentieth() {
        let units = [
            (0, "0.0 µm"),
            (19, "1.9 µm"),
            (-3, "-0.3 µm"),
            (-1300, "-130.0 µm"),
        ];
        for (number, text) in units {
            assert_eq!(Unit::U.micrometres(number), text);
        }
        let halves = [
            (1, "0.05 µm"),
            (150, "7.50 µm"),
            (-37, "-1.85 µm"),
            (i32::MIN, "-107374182.40 µm"),
        ];
        for (number, text) in halves {
            assert_eq!(Unit::H.micrometres(number), text);
        }
    }
}
