//! Mezhtolik: the evaluation core of a touch-probe measuring package.
//!
//! Calibration, measured sizes, tolerance decisions, weighted means, tool and
//! zero offset corrections, result array and memory block. [`Package`] owns all
//! records; its calls are done by the proved library and need no heap. Every
//! call takes any argument and answers a result or a [`Refusal`].
//!
//! A unit (u) is 0.1 µm: positions, limits, empirical and mean values. A half
//! unit (h) is 0.05 µm: wears and zero offsets. What was read at a touch is a
//! [`Reading`]: a whole position in u, or a [`Report`] of a float box in mm.
//!
//! To build it, run `tests/library` at the root of the repository, or
//! set `MEZHTOLIK_LIB_DIR` to the folder of `libboundary.a`.
#![no_std]

mod arguments;
pub mod boundary;
mod decision;
mod package;
mod reading;
mod records;
mod refusal;
mod results;

pub use arguments::{
    kind, Calibration, Limits, Probing, ToolMeasurement, ZeroMeasurement, NEGATIVE, POSITIVE,
    TOOL_ARGUMENTS, ZERO_ARGUMENTS,
};
pub use decision::{Branch, Decision, ProbeStatus, Verdict};
pub use package::{job_room, Package, AREA, BLOCK};
pub use reading::{Reading, Report, REPORTS};
pub use records::Wear;
pub use refusal::Refusal;
pub use results::{Results, RESULTS};

/// The snippets of the README, compiled and run as they stand.
#[cfg(doctest)]
#[doc = include_str!("../../../README.md")]
struct Readme;
