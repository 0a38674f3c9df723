//! What the picture and the command say of a series.

use super::length::millimetres;
use super::series::{Part, Series};
use crate::words::kind;

pub const NO_PARTS: &str = "no measurement with tool offset (T or G line) was done, so there is nothing to draw; ./mezhtolik run says why";
pub const NO_MEANS: &str = "no part names a mean value (field mv of its T or G line); --mean 0 draws the parts that are measured without one";

/// A number of things.
pub fn count(number: usize, thing: &str) -> String {
    match number {
        1 => format!("1 {thing}"),
        _ => format!("{number} {thing}s"),
    }
}

/// What the parts of a series do.
pub fn with_mean(mean: i64) -> String {
    match mean {
        0 => "is measured without a mean value".to_owned(),
        mean => format!("names mean value {mean}"),
    }
}

/// The means that a job names.
pub fn others(named: &[i64]) -> String {
    let named: Vec<String> = named.iter().map(i64::to_string).collect();
    match named.is_empty() {
        true => "this job names none".to_owned(),
        false => format!("this job names {}", named.join(", ")),
    }
}

/// What was written, and what it shows.
pub fn written(file: &str, chosen: &[&Series]) -> String {
    let row = |series: &&Series| {
        format!(
            "{}: {}\n{}\n",
            title(series),
            subtitle(series),
            verdict(series)
        )
    };
    chosen
        .iter()
        .fold(format!("{file} is written\n"), |text, series| {
            text + &row(series)
        })
}

pub fn title(series: &Series) -> String {
    let parts = count(series.parts.len(), "part");
    match series.mean {
        0 => format!("{parts} without a mean value"),
        mean => format!("Mean value {mean} over {parts}"),
    }
}

/// What is measured, and what came of it.
pub fn subtitle(series: &Series) -> String {
    let corrections = count(series.corrections(), "correction");
    let refused = count(series.refused.len(), "refused measurement");
    format!("{}; {corrections}, {refused}", feature(series))
}

/// The feature, where all parts have the same.
fn feature(series: &Series) -> String {
    let of = |part: &Part| {
        (
            part.measurement.feature.kind,
            part.measurement.feature.setpoint,
        )
    };
    let first = of(&series.parts[0]);
    match kind(first.0) {
        Some(kind) if series.parts.iter().all(|part| of(part) == first) => {
            format!("{kind}, setpoint {} mm", millimetres(first.1))
        }
        _ => "several features".to_owned(),
    }
}

/// Whether every record lies within its bound.
pub fn verdict(series: &Series) -> String {
    match (series.outside(), series.mean) {
        (0, 0) => "Compared exactly: each wear lies within its bound.".to_owned(),
        (0, _) => "Compared exactly: each stored mean lies within K/2 of the exact mean, each wear within its bound.".to_owned(),
        (outside, _) => format!("{} outside the bound, marked by a red ring.", count(outside, "stored value")),
    }
}
