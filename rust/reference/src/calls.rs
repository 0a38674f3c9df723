//! All calls as values, with everything that can be observed of their answers.

use crate::calibration::Calibration;
use crate::package::Package;
use crate::refusal::Refusal;
use crate::tool_offset::{Measured, ToolMeasurement};
use crate::zero_offset::ZeroMeasurement;

/// One call with all its arguments. "Lent buffers belong to a call's arguments,
/// with any length and content."
#[derive(Clone, Debug, PartialEq, Eq)]
pub enum Call {
    SetEmpirical {
        number: i64,
        value: i64,
    },
    SetWear {
        tool: i64,
        radius: i64,
        length: i64,
    },
    SetOffset {
        offset: i64,
        values: [i64; 3],
    },
    Calibrate(Calibration),
    Status {
        probe: i64,
    },
    MeasureTool {
        measurement: ToolMeasurement,
        array: Vec<i32>,
        place: usize,
    },
    MeasureZero {
        measurement: ZeroMeasurement,
        array: Vec<i32>,
        place: usize,
    },
    Load {
        block: Vec<u8>,
    },
    Save {
        buffer: Vec<u8>,
    },
    RunJob {
        text: Vec<u8>,
        buffer: Vec<u8>,
    },
}

/// Everything that a caller sees of a call. What a call does not answer is 0 or
/// empty.
#[derive(Clone, Debug, Default, PartialEq, Eq)]
pub struct Answer {
    /// The alarm number, 0 when done.
    pub refusal: u8,
    pub branch: u8,
    pub verdict: u8,
    pub bits: u8,
    pub count: u32,
    /// The lent result array after the call.
    pub array: Vec<i32>,
    /// The lent byte buffer after the call.
    pub buffer: Vec<u8>,
    /// The length that a job wrote.
    pub length: usize,
}

impl Answer {
    fn plain<T>(result: Result<T, Refusal>) -> Self {
        Answer {
            refusal: result.map_or_else(Refusal::number, |_| 0),
            ..Answer::default()
        }
    }

    /// "A measurement returns branch and verdict with it, both 0 when refused."
    fn measured(result: Result<Measured, Refusal>, array: Vec<i32>) -> Self {
        let (branch, verdict) =
            result.map_or((0, 0), |done| (done.branch.number(), done.verdict.number()));
        Answer {
            branch,
            verdict,
            array,
            ..Answer::plain(result)
        }
    }
}

impl Package {
    /// Makes the call and gathers its answer.
    pub fn apply(&mut self, call: &Call) -> Answer {
        match call {
            Call::SetEmpirical { number, value } => {
                Answer::plain(self.set_empirical(*number, *value))
            }
            Call::SetWear {
                tool,
                radius,
                length,
            } => Answer::plain(self.set_wear(*tool, *radius, *length)),
            Call::SetOffset { offset, values } => Answer::plain(self.set_offset(*offset, *values)),
            Call::Calibrate(calibration) => Answer::plain(self.calibrate(calibration)),
            Call::Status { probe } => self.apply_status(*probe),
            Call::MeasureTool {
                measurement,
                array,
                place,
            } => {
                let mut array = array.clone();
                let result = self.measure_tool(measurement, &mut array, *place);
                Answer::measured(result, array)
            }
            Call::MeasureZero {
                measurement,
                array,
                place,
            } => {
                let mut array = array.clone();
                let result = self.measure_zero(measurement, &mut array, *place);
                Answer::measured(result, array)
            }
            Call::Load { block } => Answer::plain(self.load(block)),
            Call::Save { buffer } => self.apply_save(buffer),
            Call::RunJob { text, buffer } => self.apply_job(text, buffer),
        }
    }

    fn apply_status(&self, probe: i64) -> Answer {
        let result = self.status(probe);
        let status = result.unwrap_or_default();
        Answer {
            bits: status.bits,
            count: status.count,
            ..Answer::plain(result)
        }
    }

    fn apply_save(&self, buffer: &[u8]) -> Answer {
        let mut buffer = buffer.to_vec();
        let result = self.save(&mut buffer);
        Answer {
            buffer,
            ..Answer::plain(result)
        }
    }

    /// "Job (also returns the length written, 0 if refused)".
    fn apply_job(&mut self, text: &[u8], buffer: &[u8]) -> Answer {
        let mut buffer = buffer.to_vec();
        let result = self.run_job(text, &mut buffer);
        Answer {
            buffer,
            length: result.unwrap_or(0),
            ..Answer::plain(result)
        }
    }
}
