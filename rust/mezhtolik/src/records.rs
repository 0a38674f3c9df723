//! The records of a package, read from its area.

use crate::arguments::{NEGATIVE, POSITIVE};
use crate::package::Package;

/// Where each store begins in the area.
const PROBES: usize = 0;
const EMPIRICAL: usize = 21;
const MEANS: usize = 41;
const TOOLS: usize = 61;
const OFFSETS: usize = 125;

/// How many numbers each of them has.
const PROBE: usize = 7;
const WEAR: usize = 2;
const OFFSET: usize = 3;

/// A trigger beyond it counts as it.
const TRIGGER_LIMIT: i32 = 100_000;
/// The bits of a status that count.
const STATUS_BITS: u8 = 0x3f;

/// The two wears of a tool, in h.
#[derive(Clone, Copy, Debug, Default, PartialEq, Eq)]
pub struct Wear {
    /// Radius wear.
    pub radius: i32,
    /// Length wear.
    pub length: i32,
}

/// The index of a number 1..`size`.
fn index(number: usize, size: usize) -> Option<usize> {
    (1..=size).contains(&number).then(|| number - 1)
}

impl Package {
    fn number(&self, place: usize) -> i32 {
        self.area()[place]
    }

    /// The nearest value that a record of two bytes holds.
    fn value(&self, place: usize) -> i16 {
        self.number(place).clamp(i16::MIN.into(), i16::MAX.into()) as i16
    }

    /// The empirical value `ev` (1..20), u.
    pub fn empirical(&self, ev: usize) -> Option<i16> {
        index(ev, 20).map(|index| self.value(EMPIRICAL + index))
    }

    /// The mean value `mv` (1..20), u.
    pub fn mean(&self, mv: usize) -> Option<i16> {
        index(mv, 20).map(|index| self.value(MEANS + index))
    }

    /// Both wears of a tool (1..32).
    pub fn wear(&self, tool: usize) -> Option<Wear> {
        let place = TOOLS + WEAR * index(tool, 32)?;
        Some(Wear {
            radius: self.number(place),
            length: self.number(place + 1),
        })
    }

    /// A zero offset (1..4) on axes 1, 2 and 3, h.
    pub fn offset(&self, offset: usize) -> Option<[i32; 3]> {
        let place = OFFSETS + OFFSET * index(offset, 4)?;
        Some([0, 1, 2].map(|axis| self.number(place + axis)))
    }

    /// The trigger value of a probe (1..3) on an axis (1..3) in a direction, u.
    pub fn trigger(&self, probe: usize, axis: usize, direction: i64) -> Option<i32> {
        let place = match direction {
            NEGATIVE => 0,
            POSITIVE => 1,
            _ => return None,
        };
        let place = PROBES + PROBE * index(probe, 3)? + 2 * index(axis, 3)? + place;
        Some(self.number(place).clamp(-TRIGGER_LIMIT, TRIGGER_LIMIT))
    }

    /// The status of a probe (1..3), as [`probe_status`](Self::probe_status)
    /// has it in its bits.
    pub fn status(&self, probe: usize) -> Option<u8> {
        let place = PROBES + PROBE * index(probe, 3)? + 6;
        Some(self.number(place).clamp(0, 255) as u8 & STATUS_BITS)
    }
}
