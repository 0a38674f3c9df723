//! The stored records of a package.

use crate::ranges::{AXES, MEANS, OFFSETS, PLACES, PROBES, TOOLS, TRIGGER};

/// The bits of a "six-bit status".
pub const STATUS_MASK: u8 = 0x3f;

/// "Tools 1..32: radius wear and length wear, h".
#[derive(Clone, Copy, Debug, Default, PartialEq, Eq)]
pub struct Wear {
    pub radius: i32,
    pub length: i32,
}

/// All stores, in the order of the paper's list. Indices begin at 0 where the
/// paper's numbers begin at 1. The fields are what is stored; a measurement
/// reads triggers and status through [`Records::trigger`] and
/// [`Records::status`], so any content is decided.
#[derive(Clone, Debug, Default, PartialEq, Eq)]
pub struct Records {
    pub triggers: [[i32; PLACES]; PROBES],
    pub status: [u8; PROBES],
    pub ev: [i16; MEANS],
    pub mv: [i16; MEANS],
    pub wears: [Wear; TOOLS],
    pub offsets: [[i32; AXES]; OFFSETS],
}

impl Records {
    /// "Fresh: all 0."
    pub fn fresh() -> Self {
        Self::default()
    }

    /// The trigger value that counts: the value within ±100,000 nearest to the
    /// stored one.
    pub fn trigger(&self, probe: usize, place: usize) -> i64 {
        i64::from(self.triggers[probe][place]).clamp(-TRIGGER, TRIGGER)
    }

    /// The status that counts: the six low bits of the stored one.
    pub fn status(&self, probe: usize) -> u8 {
        self.status[probe] & STATUS_MASK
    }

    /// The number of directions calibrated.
    pub fn calibrated_count(&self, probe: usize) -> u32 {
        self.status(probe).count_ones()
    }
}
