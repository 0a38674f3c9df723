//! Reference of the probe measuring cycles: tolerance, mean value and wear.
//!
//! Written from the paper alone, for use in differential tests. Doc comments
//! quote the sentence of the paper that the code below them renders. A unit (u)
//! is 0.1 µm, a half unit (h) is 0.05 µm.

pub mod calibration;
pub mod calls;
pub mod direction;
pub mod fault;
pub mod feature;
pub mod generate;
pub mod job;
pub mod line;
pub mod package;
pub mod ranges;
pub mod reading;
pub mod reckoning;
pub mod records;
pub mod refusal;
pub mod result_array;
pub mod tolerance;
pub mod tool_offset;
pub mod zero_offset;

pub use calibration::{Calibrated, Calibration, ProbeStatus};
pub use calls::{Answer, Call};
pub use fault::Fault;
pub use feature::{Feature, Kind};
pub use package::{Package, BLOCK};
pub use reading::{Reading, Report};
pub use records::{Records, Wear};
pub use refusal::Refusal;
pub use result_array::RESULT;
pub use tolerance::{next_mean, Branch, Tolerance, Verdict};
pub use tool_offset::{Measured, ToolMeasurement};
pub use zero_offset::ZeroMeasurement;
