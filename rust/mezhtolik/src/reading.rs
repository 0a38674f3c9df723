//! What was read at a touch.

/// How many floats the reports of a measurement have: X, Y, Z of each of four.
pub const REPORTS: usize = 12;

/// X, Y and Z as a float box reports them together, in millimetres. The measured
/// axis picks its float: X, Y, Z for axes 1, 2, 3. The others may be anything.
///
/// Two reports are equal where their bits are, so that one equals itself also
/// where a float is no number.
#[derive(Clone, Copy, Debug, Default)]
pub struct Report {
    /// The abscissa, mm.
    pub x: f32,
    /// The ordinate, mm.
    pub y: f32,
    /// The applicate, mm.
    pub z: f32,
}

impl Report {
    /// X, Y, Z.
    #[inline]
    pub const fn floats(&self) -> [f32; 3] {
        [self.x, self.y, self.z]
    }
}

impl PartialEq for Report {
    fn eq(&self, other: &Report) -> bool {
        self.floats().map(f32::to_bits) == other.floats().map(f32::to_bits)
    }
}

impl Eq for Report {}

/// What was read at a touch: a whole position, or a report of a float box. The
/// float that the measured axis picks times 10,000, rounded to the nearest unit
/// with halves away from zero, is the position that it stands for; one that is
/// no number, infinite or beyond ±1000 mm is refused by
/// [`BadFloat`](crate::Refusal::BadFloat).
#[derive(Clone, Copy, Debug, PartialEq, Eq)]
pub enum Reading {
    /// A position within ±10,000,000 u.
    Whole(i64),
    /// What a float box reported.
    Report(Report),
}

impl Reading {
    /// The whole position, 0 for a report.
    #[inline]
    pub(crate) const fn whole(self) -> i64 {
        match self {
            Reading::Whole(position) => position,
            Reading::Report(_) => 0,
        }
    }

    /// X, Y, Z of a report, zeros for a whole position.
    #[inline]
    pub(crate) const fn floats(self) -> [f32; 3] {
        match self {
            Reading::Whole(_) => [0.0; 3],
            Reading::Report(report) => report.floats(),
        }
    }

    /// 1 for a report, 0 for a whole position.
    #[inline]
    pub(crate) const fn reported(self) -> u32 {
        matches!(self, Reading::Report(_)) as u32
    }
}

impl Default for Reading {
    fn default() -> Self {
        Reading::Whole(0)
    }
}

impl From<i64> for Reading {
    fn from(position: i64) -> Self {
        Reading::Whole(position)
    }
}

impl From<Report> for Reading {
    fn from(report: Report) -> Self {
        Reading::Report(report)
    }
}

#[cfg(test)]
mod tests {
    use super::*;

    #[test]
    fn reports_are_equal_by_their_bits() {
        let report = |x, y, z| Reading::from(Report { x, y, z });
        let none = report(f32::NAN, 0.0, 1.0);
        assert_eq!(none, none);
        assert_ne!(none, report(f32::NAN, -0.0, 1.0));
        assert_ne!(report(0.0, 0.0, 0.0), Reading::default());
        assert_eq!(Reading::from(5), Reading::Whole(5));
    }
}
