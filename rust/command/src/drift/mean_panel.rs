//! The diagrams of a mean: the deviations with the stored and the exact mean, and the distance between the two.

use std::mem;

use super::legend::Sign;
use super::length::Length;
use super::panel::{Panel, RIGHT};
use super::record::Stand;
use super::series::{Part, Series, BY_DEVIATION, BY_MEAN, IN_FULL};
use super::svg::{Drawing, Place};

/// The radius of a part's point: as many as there are have to stand beside each other.
const GREATEST_POINT: f64 = 3.0;
const SMALLEST_POINT: f64 = 1.7;
/// The height of a label.
const LABEL: f64 = 13.0;
/// How far above the lower edge a refused measurement is marked.
const RIM: f64 = 9.0;

/// The mean of a series: where each part led it, and the same from each of its starts to the next.
pub struct Course {
    stands: Vec<Stand>,
    runs: Vec<Vec<Stand>>,
}

/// A mean starts at 0; before the first part that is part 0.
fn start(part: usize) -> Stand {
    let zero = Length::default();
    Stand {
        part,
        stored: zero,
        exact: zero,
        bound: zero,
        inside: true,
    }
}

/// The first start is at the left edge.
fn place(panel: &Panel, stand: &Stand, length: Length) -> Place {
    panel.place((stand.part as f64).max(0.5), length)
}

fn distance(stand: &Stand) -> Length {
    stand.stored - stand.exact
}

impl Course {
    /// A correction by the mean ends a run, one in full cuts it off; the mean then starts again.
    pub fn of(series: &Series) -> Self {
        let (mut stands, mut runs, mut run) = (Vec::new(), Vec::new(), vec![start(0)]);
        for (index, part) in series.parts.iter().enumerate() {
            let Some(mean) = &part.mean else { continue };
            if part.answer.branch == IN_FULL {
                runs.push(mem::take(&mut run));
            }
            let stand = Stand::of(index + 1, mean);
            stands.push(stand);
            run.push(stand);
            if part.answer.branch == BY_MEAN {
                runs.push(mem::replace(&mut run, vec![start(index + 1)]));
            }
        }
        runs.push(run);
        Course { stands, runs }
    }

    /// What the diagram of the means has to hold.
    pub fn lengths(&self) -> impl Iterator<Item = Length> + '_ {
        self.stands.iter().flat_map(Stand::lengths)
    }

    /// What the diagram of the distances has to hold.
    pub fn distances(&self) -> impl Iterator<Item = Length> + '_ {
        self.stands
            .iter()
            .flat_map(|stand| [distance(stand), stand.bound, -stand.bound])
    }

    /// The places of a length along each run.
    fn runs(&self, panel: &Panel, length: fn(&Stand) -> Length) -> Vec<Vec<Place>> {
        let along = |run: &Vec<Stand>| {
            run.iter()
                .map(|stand| place(panel, stand, length(stand)))
                .collect()
        };
        self.runs.iter().map(along).collect()
    }

    fn mark_outside(&self, drawing: &mut Drawing, panel: &Panel, length: fn(&Stand) -> Length) {
        for stand in self.stands.iter().filter(|stand| !stand.inside) {
            let words = format!(
                "part {}: the stored mean lies outside its bound",
                stand.part
            );
            Sign::Outside.mark(drawing, place(panel, stand, length(stand)), &words);
        }
    }

    /// Draws the band around the exact mean.
    pub fn draw_band(&self, drawing: &mut Drawing, panel: &Panel) {
        let edges = self
            .runs(panel, Stand::upper)
            .into_iter()
            .zip(self.runs(panel, Stand::lower));
        drawing.areas(Sign::Band.class(), &edges.collect::<Vec<_>>());
    }

    /// Draws the stored and the exact mean.
    pub fn draw_means(&self, drawing: &mut Drawing, panel: &Panel) {
        drawing.runs(Sign::Exact.class(), &self.runs(panel, |stand| stand.exact));
        drawing.runs(
            Sign::Stored.class(),
            &self.runs(panel, |stand| stand.stored),
        );
        self.mark_outside(drawing, panel, |stand| stand.stored);
    }

    /// Draws the stored less the exact mean, between the bounds.
    pub fn draw_distances(&self, drawing: &mut Drawing, panel: &Panel) {
        let edge = |length: fn(&Stand) -> Length| over_parts(panel, self.stands.iter().map(length));
        drawing.areas(
            Sign::Band.class(),
            &[(edge(|stand| stand.bound), edge(|stand| -stand.bound))],
        );
        drawing.runs(Sign::Stored.class(), &self.runs(panel, distance));
        self.mark_outside(drawing, panel, distance);
    }
}

/// A line that keeps each part's value over the part's width.
fn over_parts(panel: &Panel, values: impl Iterator<Item = Length>) -> Vec<Place> {
    let values: Vec<(f64, Length)> = (0..)
        .zip(values)
        .map(|(behind, value)| (f64::from(behind) + 0.5, value))
        .collect();
    panel.stairs(&values, panel.parts as f64 + 0.5)
}

/// Draws each part's deviation.
pub fn draw_deviations(drawing: &mut Drawing, panel: &Panel, parts: &[Part]) {
    let radius = ((panel.x(2.0) - panel.x(1.0)) / 2.0).clamp(SMALLEST_POINT, GREATEST_POINT);
    for (index, part) in parts.iter().enumerate() {
        let deviation = Length::units(part.answer.deviation.into());
        let words = format!(
            "part {}, line {}: deviation {deviation} µm",
            index + 1,
            part.line
        );
        drawing.point(
            Sign::Part.class(),
            panel.place(index as f64 + 1.0, deviation),
            radius,
            &words,
        );
    }
}

/// Draws TZL above and below 0, with its name.
pub fn draw_limits(drawing: &mut Drawing, panel: &Panel, parts: &[Part]) {
    let limits = || {
        parts
            .iter()
            .map(|part| Length::units(part.measurement.tolerance.tzl))
    };
    let upper = over_parts(panel, limits());
    let lower = over_parts(panel, limits().map(|tzl| -tzl));
    let ends = [upper.last(), lower.last()].map(|end| end.map_or(0.0, |end| end.1));
    drawing.runs(Sign::Tzl.class(), &[upper, lower]);
    name_limits(drawing, ends);
}

/// Names both lines of TZL at their right ends, or one for both where they are close.
fn name_limits(drawing: &mut Drawing, [upper, lower]: [f64; 2]) {
    let mut name = |y: f64, words: &str| drawing.text("tick", (RIGHT + 6.0, y + 4.0), words);
    if lower - upper < LABEL {
        return name((upper + lower) / 2.0, "±TZL");
    }
    name(upper, "+TZL");
    name(lower, "-TZL");
}

/// The sign of a part's correction.
fn correction_sign(part: &Part) -> Option<Sign> {
    match part.answer.branch {
        BY_DEVIATION => Some(Sign::ByDeviation),
        BY_MEAN if part.answer.correction > 0 => Some(Sign::UpByMean),
        BY_MEAN => Some(Sign::DownByMean),
        IN_FULL => Some(Sign::InFull),
        _ => None,
    }
}

/// What stands in the diagram of the deviations.
pub fn mean_signs(series: &Series) -> Vec<(Sign, &'static str)> {
    let first = |branch: u32| {
        series
            .parts
            .iter()
            .find(|part| part.answer.branch == branch)
            .and_then(correction_sign)
    };
    let mean = series.mean != 0;
    let limit = match mean {
        true => "± TZL, a mean beyond it corrects",
        false => "± TZL, a deviation beyond it corrects",
    };
    let signs = [
        (Some(Sign::Part), "deviation of a part"),
        (mean.then_some(Sign::Stored), "stored mean"),
        (mean.then_some(Sign::Exact), "exact mean N/P"),
        (mean.then_some(Sign::Band), "exact mean ± K/2"),
        (Some(Sign::Tzl), limit),
        (
            first(BY_DEVIATION),
            "correction by the deviation (branch 2)",
        ),
        (first(BY_MEAN), "correction by the mean (branch 4)"),
        (first(IN_FULL), "correction in full (branch 5)"),
        (
            series.refused.first().map(|_| Sign::Refused),
            "refused measurement",
        ),
    ];
    signs
        .into_iter()
        .filter_map(|(sign, words)| Some((sign?, words)))
        .collect()
}

/// Marks the corrections at their size, and the refused measurements at the lower edge.
pub fn draw_marks(drawing: &mut Drawing, panel: &Panel, series: &Series) {
    for (index, part) in series.parts.iter().enumerate() {
        let Some(sign) = correction_sign(part) else {
            continue;
        };
        let correction = Length::units(part.answer.correction.into());
        let words = format!(
            "part {}, line {}: corrected by {correction} µm (branch {})",
            index + 1,
            part.line,
            part.answer.branch
        );
        sign.mark(drawing, panel.place(index as f64 + 1.0, correction), &words);
    }
    for refused in &series.refused {
        let words = format!("line {}: refused by {}", refused.line, refused.refusal);
        Sign::Refused.mark(
            drawing,
            (panel.x(refused.behind as f64 + 0.5), panel.bottom() - RIM),
            &words,
        );
    }
}
