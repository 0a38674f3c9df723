//! The picture of a job's series: an SVG file that stands alone.

use super::panel::WIDTH;
use super::series::Series;
use super::sheet::Sheet;
use super::svg::{escaped, Drawing};
use super::words::{title, verdict};

const STYLE: &str = include_str!("style.css");

/// The picture of these series, one below the other. `job` is the name of the job's file.
pub fn picture(job: &str, all: &[&Series]) -> String {
    let mut drawing = Drawing::default();
    let mut height = 0.0;
    for series in all {
        height = Sheet::new(series, &mut drawing, height).draw(job);
    }
    document(job, all, &drawing.into_text(), height)
}

fn document(job: &str, all: &[&Series], elements: &str, height: f64) -> String {
    let words = all
        .iter()
        .map(|series| format!("{}. {}", title(series), verdict(series)));
    let words = escaped(&words.collect::<Vec<_>>().join(" "));
    let title = escaped(&format!("Drift of {job}"));
    format!(
        "<svg xmlns=\"http://www.w3.org/2000/svg\" width=\"{WIDTH:.0}\" height=\"{height:.0}\" viewBox=\"0 0 {WIDTH:.0} {height:.0}\" role=\"img\">\n\
        <title>{title}</title>\n<desc>{words}</desc>\n<style>\n{STYLE}</style>\n\
        <rect class=\"background\" width=\"{WIDTH:.0}\" height=\"{height:.0}\"/>\n{elements}</svg>\n"
    )
}
