//! The weighting factors of a series.

use super::panel::{x, LEFT};
use super::series::Part;
use super::svg::Drawing;

/// The height of the strip, where its text stands, and what a label takes of its width.
const HEIGHT: f64 = 21.0;
const TEXT: f64 = 15.0;
const LABEL: f64 = 46.0;

/// Parts that follow each other with the same weighting factor.
struct Span {
    first: usize,
    last: usize,
    k: i64,
}

pub struct Weightings {
    spans: Vec<Span>,
    parts: usize,
}

impl Weightings {
    pub fn of(parts: &[Part]) -> Self {
        let mut spans: Vec<Span> = Vec::new();
        for (number, part) in (1..).zip(parts) {
            let k = part.measurement.k;
            match spans.last_mut() {
                Some(span) if span.k == k => span.last = number,
                _ => spans.push(Span {
                    first: number,
                    last: number,
                    k,
                }),
            }
        }
        Weightings {
            spans,
            parts: parts.len(),
        }
    }

    /// Behind how many parts k changes.
    pub fn changes(&self) -> impl Iterator<Item = usize> + '_ {
        self.spans.iter().skip(1).map(|span| span.first - 1)
    }

    /// Draws a strip that names each factor, and gives the height below it.
    pub fn draw(&self, drawing: &mut Drawing, top: f64) -> f64 {
        for span in &self.spans {
            let left = x(span.first as f64 - 0.5, self.parts);
            let width = x(span.last as f64 + 0.5, self.parts) - left;
            drawing.rectangle("k-span", (left, top), (width, HEIGHT));
            if width > LABEL {
                let words = format!("k = {}", span.k);
                drawing.text("middle", (left + width / 2.0, top + TEXT), &words);
            }
        }
        drawing.text("tick left", (LEFT - 7.0, top + TEXT), "factor k");
        top + HEIGHT
    }
}
