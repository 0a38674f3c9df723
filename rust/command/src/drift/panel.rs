//! A diagram of the picture: its scales, frame and grid.

use std::ops::Range;

use super::length::{round_step, Length};
use super::svg::{Drawing, Place};

/// The picture's width, and what is left free beside the diagrams.
pub const WIDTH: f64 = 920.0;
pub const LEFT: f64 = 70.0;
pub const RIGHT: f64 = 864.0;
/// How many parts or lengths the scales name, about.
const PART_TICKS: i64 = 10;
const LENGTH_TICKS: i64 = 6;
/// Around the values a diagram leaves a margin, as a share of them.
const MARGIN: i64 = 14;

/// Parts to the right, from the left edge of the first to the right edge of the last; micrometres upwards.
pub struct Panel {
    pub top: f64,
    pub height: f64,
    pub parts: usize,
    low: Length,
    high: Length,
}

/// Where a part number stands; an edge between parts has a half.
pub fn x(part: f64, parts: usize) -> f64 {
    LEFT + (part - 0.5) / parts as f64 * (RIGHT - LEFT)
}

impl Panel {
    /// A diagram that holds these values.
    pub fn new(vertical: Range<f64>, parts: usize, values: impl Iterator<Item = Length>) -> Self {
        let (least, greatest) = values.fold(
            Default::default(),
            |(least, greatest): (Length, Length), value| (least.min(value), greatest.max(value)),
        );
        let margin = (greatest - least)
            .divided(MARGIN)
            .max(Length::half_units(1));
        Panel {
            top: vertical.start,
            height: vertical.end - vertical.start,
            parts,
            low: least - margin,
            high: greatest + margin,
        }
    }

    pub fn x(&self, part: f64) -> f64 {
        x(part, self.parts)
    }

    pub fn y(&self, length: Length) -> f64 {
        self.top + (self.high - length).share_of(self.high - self.low) * self.height
    }

    pub fn place(&self, part: f64, length: Length) -> Place {
        (self.x(part), self.y(length))
    }

    pub fn bottom(&self) -> f64 {
        self.top + self.height
    }

    /// A line that keeps each value from its place to the next, the last one to `end`.
    pub fn stairs(&self, values: &[(f64, Length)], end: f64) -> Vec<Place> {
        let mut values = values.to_vec();
        values.dedup_by_key(|value| value.1);
        let ends = values.iter().skip(1).map(|next| next.0).chain([end]);
        let steps = values.iter().zip(ends);
        steps
            .flat_map(|(&(start, value), end)| [self.place(start, value), self.place(end, value)])
            .collect()
    }

    /// A line behind so many parts.
    pub fn upright(&self, drawing: &mut Drawing, class: &str, behind: usize) {
        let x = self.x(behind as f64 + 0.5);
        drawing.line(class, (x, self.top), (x, self.bottom()));
    }

    /// Frame, grid, the scale's numbers and what they are.
    pub fn frame(&self, drawing: &mut Drawing, label: &str) {
        drawing.rectangle("frame", (LEFT, self.top), (RIGHT - LEFT, self.height));
        for part in part_ticks(self.parts) {
            drawing.line(
                "grid",
                (self.x(part as f64), self.top),
                (self.x(part as f64), self.bottom()),
            );
        }
        for tick in Length::ticks(self.low, self.high, LENGTH_TICKS) {
            let class = if tick == Length::default() {
                "zero"
            } else {
                "grid"
            };
            drawing.line(class, (LEFT, self.y(tick)), (RIGHT, self.y(tick)));
            drawing.text(
                "tick left",
                (LEFT - 7.0, self.y(tick) + 4.0),
                &tick.to_string(),
            );
        }
        drawing.upward_text("label", (16.0, self.top + self.height / 2.0), label);
    }
}

/// The part numbers that the scale names.
pub fn part_ticks(parts: usize) -> impl Iterator<Item = usize> {
    let step = round_step(parts as i64 / PART_TICKS) as usize;
    (step..=parts).step_by(step)
}
