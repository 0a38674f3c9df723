//! Why a call was not done.

use core::error::Error;
use core::fmt;

/// Why a call was not done. A refused call leaves the package as it was.
#[derive(Clone, Copy, Debug, PartialEq, Eq, PartialOrd, Ord, Hash)]
#[repr(u8)]
pub enum Refusal {
    /// 1: a lent buffer is too short, or a block has not 80 bytes.
    NoRoom = 1,
    /// 2: a probe, axis, direction, kind, tool, EV, MV or offset that there is
    /// not, or a kind of the other measurement.
    NoSuchNumber = 2,
    /// 3: a position, set centre, setpoint, value or k beyond its range; with a
    /// calibration also its limits.
    OutsideRange = 3,
    /// 4: limits of a measurement out of order or range.
    WrongLimits = 4,
    /// 5: a direction that the measurement needs is not calibrated.
    Uncalibrated = 5,
    /// 6: a pair whose high surface is not above its low one.
    NoWidth = 6,
    /// 7: deviation, shift or change of the trigger beyond TSA.
    BeyondTsa = 7,
    /// 8: deviation beyond TDIF.
    BeyondTdif = 8,
    /// 9: a trigger, wear or offset would leave its range.
    LeavesRange = 9,
    /// 10: a line of a job is malformed or too long. Only answers of lines have
    /// it; the job itself goes on.
    MalformedLine = 10,
    /// 11: the job is empty.
    EmptyJob = 11,
    /// 12: the job has too many bytes or lines, or its last line is unended.
    WrongJob = 12,
    /// 13: a float of a report that is used is no number, infinite or beyond
    /// ±1000 mm. It stands behind 2 and before 3.
    BadFloat = 13,
    /// 100: the area has not 137 numbers. Only [`boundary`](crate::boundary)
    /// has it.
    WrongArea = 100,
    /// 101: a measurement's arguments, or the floats of its reports, are not as
    /// many as they should be. Only
    /// [`boundary`](crate::boundary) has it.
    WrongArguments = 101,
}

impl Refusal {
    /// Every refusal in the order of its number.
    pub const ALL: [Refusal; 15] = [
        Refusal::NoRoom,
        Refusal::NoSuchNumber,
        Refusal::OutsideRange,
        Refusal::WrongLimits,
        Refusal::Uncalibrated,
        Refusal::NoWidth,
        Refusal::BeyondTsa,
        Refusal::BeyondTdif,
        Refusal::LeavesRange,
        Refusal::MalformedLine,
        Refusal::EmptyJob,
        Refusal::WrongJob,
        Refusal::BadFloat,
        Refusal::WrongArea,
        Refusal::WrongArguments,
    ];

    /// Its number in answers, result arrays and job files.
    pub const fn number(self) -> u32 {
        self as u32
    }

    /// The refusal of a number; 0 and numbers that there are not have none.
    pub const fn from_number(number: u32) -> Option<Refusal> {
        match number {
            1..=13 => Some(Refusal::ALL[number as usize - 1]),
            100 => Some(Refusal::WrongArea),
            101 => Some(Refusal::WrongArguments),
            _ => None,
        }
    }

    /// What is wrong and what to do.
    pub const fn message(self) -> &'static str {
        match self {
            Refusal::NoRoom => "a buffer is too short: lend 42 numbers from the place, 80 bytes for a block, 40 bytes for each line of a job",
            Refusal::NoSuchNumber => "a probe, axis, direction, kind, tool, EV, MV or offset does not exist: check the numbers; kinds 0..4 go with tool offset, 100..104 with zero offset",
            Refusal::OutsideRange => "a position, set centre, setpoint, value or k is outside its range: check the units, 1 mm is 10,000 u; a calibration needs 0 <= TZL <= TSA <= 1,000,000",
            Refusal::WrongLimits => "the limits are out of order or range: check 0 <= TZL <= TMV <= TDIF <= TSA <= 1,000,000, TMV <= 32,767 and TLL <= TUL",
            Refusal::Uncalibrated => "a direction that the measurement needs is not calibrated: calibrate it before",
            Refusal::NoWidth => "the high surface is not above the low one: check the order of the raws and the kind; a small hole typed for a shaft does this",
            Refusal::BeyondTsa => "beyond TSA: of a measurement check the kind first, a hole typed for a shaft does this; then part, clamping and stylus, and measure again before you widen TSA",
            Refusal::BeyondTdif => "the deviation is beyond TDIF: clean the part and measure again",
            Refusal::LeavesRange => "a trigger, wear or offset would leave its range: set the wear or offset anew, or check the stylus",
            Refusal::MalformedLine => "the line is malformed or has over 200 bytes: check its letter, the number of its fields and their form",
            Refusal::EmptyJob => "the job is empty: give it at least one line",
            Refusal::WrongJob => "the job has over 65,536 bytes, over 1,000 lines or no line feed at its end: split it, or end its last line",
            Refusal::BadFloat => "a float that is used is no number, infinite or beyond ±1000 mm: check that the box has touched \
                and reports millimetres, and of a G line that the digits stand highest first",
            Refusal::WrongArea => "the area has not 137 numbers: lend the whole area",
            Refusal::WrongArguments => "a measurement has not its 21 or 13 arguments, or its reports not 12 floats: hand all of them over",
        }
    }
}

impl fmt::Display for Refusal {
    fn fmt(&self, f: &mut fmt::Formatter<'_>) -> fmt::Result {
        write!(f, "refused by {}: {}", self.number(), self.message())
    }
}

impl Error for Refusal {}

/// The result of a refusal number.
#[inline]
pub(crate) fn outcome(number: u32) -> Result<(), Refusal> {
    match number {
        0 => Ok(()),
        _ => Err(refused(number)),
    }
}

/// Apart from the calls, so that a caller's loop has nothing of it.
#[cold]
#[inline(never)]
fn refused(number: u32) -> Refusal {
    // the library's contract has no other numbers
    Refusal::from_number(number).expect("a refusal of this library")
}

#[cfg(test)]
mod tests {
    use super::*;

    #[test]
    fn numbers_lead_to_their_refusals() {
        let numbers = Refusal::ALL.map(Refusal::number);
        assert_eq!(
            numbers,
            [1, 2, 3, 4, 5, 6, 7, 8, 9, 10, 11, 12, 13, 100, 101]
        );
        for refusal in Refusal::ALL {
            assert_eq!(Refusal::from_number(refusal.number()), Some(refusal));
            assert_eq!(outcome(refusal.number()), Err(refusal));
            let (wrong, to_do) = refusal.message().split_once(": ").unwrap();
            assert!(!wrong.is_empty() && !to_do.is_empty(), "{refusal}");
        }
        assert_eq!(Refusal::from_number(0), None);
        assert_eq!(Refusal::from_number(14), None);
        assert_eq!(outcome(0), Ok(()));
    }
}
