//! Readings: whole positions, and the reports of the float box.

use std::fmt;

use crate::fault::Fault;
use crate::package::Package;
use crate::ranges::AXES;
use crate::refusal::Refusal;

/// The box "reports X, Y and Z together as three 32-bit IEEE 754 floats in
/// millimetres".
#[derive(Clone, Copy, Default)]
pub struct Report {
    pub x: f32,
    pub y: f32,
    pub z: f32,
}

/// "A reading is now either a whole position or such a float report".
#[derive(Clone, Copy, Debug, PartialEq, Eq)]
pub enum Reading {
    /// In u.
    Whole(i64),
    Report(Report),
}

/// A unit is 0.1 µm: "The exact value times 10,000".
const UNITS: u64 = 10_000;
/// All bits of a float but its sign.
const MAGNITUDE: u32 = 0x7fff_ffff;
/// The bits of a float's fraction.
const FRACTION_BITS: u32 = 23;
/// A float is its significand times 2^(exponent - 150) mm.
const EXPONENT_BIAS: u32 = 150;

/// The units of the float of these bits, none for one "that is not a number,
/// infinite or beyond ±1000 mm". "The exact value times 10,000 is rounded to the
/// nearest unit, halves away from zero; both zeros give 0."
pub fn units(bits: u32) -> Option<i64> {
    let magnitude = bits & MAGNITUDE;
    // magnitudes are in the order of their bits; infinities and what is no
    // number come after all of them
    if magnitude > 1000.0_f32.to_bits() {
        return None;
    }
    let nearest = nearest_units(magnitude) as i64;
    Some(if magnitude == bits { nearest } else { -nearest })
}

/// The units of a magnitude up to 1000 mm, halves up. It is a whole number of
/// times 2^-shift mm, 14 ≤ shift ≤ 149.
fn nearest_units(magnitude: u32) -> u64 {
    let exponent = magnitude >> FRACTION_BITS;
    let fraction = magnitude & ((1 << FRACTION_BITS) - 1);
    let (significand, exponent) = match exponent {
        0 => (fraction, 1),
        _ => (fraction | 1 << FRACTION_BITS, exponent),
    };
    let shift = EXPONENT_BIAS - exponent;
    let scaled = u64::from(significand) * UNITS;
    // with 2^24·10,000 < 2^38 this is less than half a unit
    if shift > 38 {
        return 0;
    }
    (scaled + (1 << (shift - 1))) >> shift
}

impl Report {
    /// The same float for each axis: "a hole uses one float for each r".
    pub fn of_bits(bits: u32) -> Self {
        let float = f32::from_bits(bits);
        Report {
            x: float,
            y: float,
            z: float,
        }
    }

    /// The bits of X, Y, Z.
    pub fn bits(&self) -> [u32; AXES] {
        [self.x, self.y, self.z].map(f32::to_bits)
    }

    /// "the measured axis picks its number: X, Y, Z for axes 1, 2, 3"; here the
    /// axis counts from 0.
    fn picked(&self, axis: usize) -> f32 {
        [self.x, self.y, self.z][axis]
    }
}

/// By their bits, so that a call equals itself where a float is no number.
impl PartialEq for Report {
    fn eq(&self, other: &Report) -> bool {
        self.bits() == other.bits()
    }
}

impl Eq for Report {}

/// Each float with its bits, which tell zeros and what is no number apart.
impl fmt::Debug for Report {
    fn fmt(&self, f: &mut fmt::Formatter<'_>) -> fmt::Result {
        let [x, y, z] = [self.x, self.y, self.z].map(|v| format!("{v:?} = {:08x}", v.to_bits()));
        write!(f, "[{x}, {y}, {z}]")
    }
}

impl Default for Reading {
    fn default() -> Self {
        Reading::Whole(0)
    }
}

impl Reading {
    /// The position of a reading on an axis from 0: "13 for a used float that is
    /// not a number, infinite or beyond ±1000 mm".
    pub fn position(&self, axis: usize) -> Result<i64, Refusal> {
        match self {
            Reading::Whole(position) => Ok(*position),
            Reading::Report(report) => {
                let bits = report.picked(axis).to_bits();
                units(bits).ok_or(Refusal::Float)
            }
        }
    }
}

impl Package {
    /// [`Reading::position`], or what a planted fault makes of it.
    pub(crate) fn position(&self, reading: &Reading, axis: usize) -> Result<i64, Refusal> {
        let position = reading.position(axis);
        match (self.planted(), reading) {
            // FAULT: Y for X
            (Some(Fault::OrdinateForAbscissa), _) if axis == 0 => reading.position(1),
            (Some(Fault::FloatMultiplied), Reading::Report(report)) => {
                // FAULT: the product is rounded to a float before it is rounded to a unit
                position.map(|_| (report.picked(axis) * UNITS as f32).round() as i64)
            }
            (Some(Fault::UnusedFloat), _) => {
                // FAULT: all three floats are looked at
                let mut axes = 0..AXES;
                axes.try_for_each(|axis| reading.position(axis).map(drop))?;
                position
            }
            _ => position,
        }
    }
}
