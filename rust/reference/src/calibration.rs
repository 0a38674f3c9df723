//! "Calibration" and probe status.

use crate::direction::{trigger_index, Direction};
use crate::package::Package;
use crate::ranges::{
    require, require_within, store_index, within, AXES, LIMIT, POSITION, PROBES, TRIGGER,
};
use crate::reading::Reading;
use crate::refusal::Refusal;

/// The arguments of a calibration, in the order of a C line.
#[derive(Clone, Copy, Debug, Default, PartialEq, Eq)]
pub struct Calibration {
    pub probe: i64,
    pub axis: i64,
    pub direction: i64,
    pub setpoint: i64,
    pub raw: Reading,
    pub tzl: i64,
    pub tsa: i64,
}

/// "Probe status returns the bits and the number of directions calibrated."
#[derive(Clone, Copy, Debug, Default, PartialEq, Eq)]
pub struct ProbeStatus {
    pub bits: u8,
    pub count: u32,
}

/// What an accepted calibration does.
#[derive(Clone, Copy, Debug, PartialEq, Eq)]
pub enum Calibrated {
    /// "If |d| > TZL, t is stored".
    Stored,
    /// "else the old one stays".
    Kept,
}

impl Package {
    /// "New trigger t = s·(setpoint - raw); d = t - stored. If |d| > TSA it is
    /// refused. If |d| > TZL, t is stored; else the old one stays. Either way
    /// the bit is set."
    pub fn calibrate(&mut self, call: &Calibration) -> Result<Calibrated, Refusal> {
        let probe = store_index(call.probe, PROBES)?;
        let axis = store_index(call.axis, AXES)?;
        let direction = Direction::from_number(call.direction)?;
        let raw = self.position(&call.raw, axis)?;
        require_within(call.setpoint, POSITION)?;
        require_within(raw, POSITION)?;
        let ordered = 0 <= call.tzl && call.tzl <= call.tsa && call.tsa <= LIMIT;
        require(ordered, Refusal::Range)?;

        let place = trigger_index(axis, direction);
        let trigger = direction.sign() * (call.setpoint - raw);
        let change = (trigger - self.records.trigger(probe, place)).abs();
        require(change <= call.tsa, Refusal::SafeArea)?;
        // "9 t beyond ±100,000 though it would not be stored"
        require(within(trigger, TRIGGER), Refusal::Store)?;

        self.records.status[probe] = self.records.status(probe) | 1 << place;
        if change > call.tzl {
            self.records.triggers[probe][place] = trigger as i32;
            Ok(Calibrated::Stored)
        } else {
            Ok(Calibrated::Kept)
        }
    }

    /// The status of a probe. "Status: 2, returning zeros."
    pub fn status(&self, probe: i64) -> Result<ProbeStatus, Refusal> {
        let probe = store_index(probe, PROBES)?;
        Ok(ProbeStatus {
            bits: self.records.status(probe),
            count: self.records.calibrated_count(probe),
        })
    }
}
