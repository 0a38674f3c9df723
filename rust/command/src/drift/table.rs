//! The series as numbers: comma-separated values with a header row.

use super::length::Length;
use super::record::Record;
use super::series::{Part, Refused, Series};

/// All lengths are in micrometres. A refused measurement has the first three columns only; one that names no mean has none of the mean's.
const HEADER: &str = "mean,line,refusal,part,tool,k,branch,verdict,deviation_um,tzl_um,correction_um,\
    stored_mean_um,exact_mean_um,mean_bound_um,stored_radius_wear_um,exact_radius_wear_um,radius_wear_bound_um,\
    stored_length_wear_um,exact_length_wear_um,length_wear_bound_um,outside_bound\n";

/// The table of these series, in the order of their means and then of the lines.
pub fn table(all: &[&Series]) -> String {
    let rows = all.iter().flat_map(|series| rows(series));
    rows.fold(HEADER.to_owned(), |table, row| table + &row + "\n")
}

fn rows(series: &Series) -> Vec<String> {
    let done = series.parts.iter().enumerate();
    let done = done.map(|(index, part)| (part.line, part_row(series.mean, index + 1, part)));
    let refused = series.refused.iter();
    let refused = refused.map(|refused| (refused.line, refused_row(series.mean, refused)));
    let mut rows: Vec<(usize, String)> = done.chain(refused).collect();
    rows.sort();
    rows.into_iter().map(|(_, row)| row).collect()
}

fn refused_row(mean: i64, refused: &Refused) -> String {
    let empty = ",".repeat(HEADER.matches(',').count() - 2);
    format!("{mean},{},{}{empty}", refused.line, refused.refusal)
}

fn part_row(mean: i64, number: usize, part: &Part) -> String {
    let (measurement, answer) = (&part.measurement, &part.answer);
    let [radius, length] = &part.wears;
    let fields = [
        format!(
            "{mean},{},0,{number},{},{}",
            part.line, measurement.tool, measurement.k
        ),
        format!(
            "{},{},{}",
            answer.branch,
            answer.verdict,
            Length::units(answer.deviation.into())
        ),
        format!(
            "{},{}",
            Length::units(measurement.tolerance.tzl),
            Length::units(answer.correction.into())
        ),
        part.mean.as_ref().map_or(",,".to_owned(), columns),
        columns(radius),
        columns(length),
        part.outside().to_string(),
    ];
    fields.join(",")
}

fn columns(record: &Record) -> String {
    format!(
        "{},{},{}",
        record.stored_length(),
        record.exact_length(),
        record.bound_length()
    )
}
