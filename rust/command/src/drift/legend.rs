//! The signs of the picture, and the legends that name them.

use super::panel::{LEFT, RIGHT};
use super::svg::{Drawing, Place};

/// What stands in a diagram. Each is a class of the picture's style.
#[derive(Clone, Copy, PartialEq, Eq)]
pub enum Sign {
    Part,
    Stored,
    Exact,
    Band,
    Tzl,
    UpByMean,
    DownByMean,
    ByDeviation,
    InFull,
    Refused,
    KChange,
    WearSet,
    Outside,
}

enum Shape {
    Line,
    Area,
    Upright,
    Point {
        radius: f64,
    },
    /// The corners around the place.
    Polygon(&'static [Place]),
    Cross,
}

/// Half the size of a correction's sign and of a cross.
const HALF: f64 = 5.0;
const ARM: f64 = 4.0;
const UPWARDS: [Place; 3] = [(-HALF, HALF), (0.0, -HALF), (HALF, HALF)];
const DOWNWARDS: [Place; 3] = [(-HALF, -HALF), (HALF, -HALF), (0.0, HALF)];
const DIAMOND: [Place; 4] = [(-HALF, 0.0), (0.0, -HALF), (HALF, 0.0), (0.0, HALF)];
const CROSS: [[Place; 2]; 2] = [[(-ARM, -ARM), (ARM, ARM)], [(-ARM, ARM), (ARM, -ARM)]];
const SQUARE: [Place; 4] = [(-4.5, -4.5), (4.5, -4.5), (4.5, 4.5), (-4.5, 4.5)];

/// A legend: its columns and rows, what a sample of a line takes, and where the text begins behind the sample's left edge.
const COLUMNS: usize = 3;
const ROW: f64 = 19.0;
const SAMPLE: f64 = 24.0;
const TEXT: f64 = 32.0;

impl Sign {
    pub fn class(self) -> &'static str {
        match self {
            Sign::Part => "part",
            Sign::Stored => "stored",
            Sign::Exact => "exact",
            Sign::Band => "band",
            Sign::Tzl => "tzl",
            Sign::UpByMean | Sign::DownByMean => "by-mean",
            Sign::ByDeviation => "by-deviation",
            Sign::InFull => "in-full",
            Sign::Refused => "refused",
            Sign::KChange => "k-change",
            Sign::WearSet => "wear-set",
            Sign::Outside => "outside",
        }
    }

    fn shape(self) -> Shape {
        match self {
            Sign::Stored | Sign::Exact | Sign::Tzl => Shape::Line,
            Sign::Band => Shape::Area,
            Sign::KChange | Sign::WearSet => Shape::Upright,
            Sign::Part => Shape::Point { radius: 2.5 },
            Sign::Outside => Shape::Point { radius: 5.5 },
            Sign::UpByMean => Shape::Polygon(&UPWARDS),
            Sign::DownByMean => Shape::Polygon(&DOWNWARDS),
            Sign::ByDeviation => Shape::Polygon(&DIAMOND),
            Sign::InFull => Shape::Polygon(&SQUARE),
            Sign::Refused => Shape::Cross,
        }
    }

    /// Marks a place, with the words that a viewer shows when it is pointed at.
    pub fn mark(self, drawing: &mut Drawing, (x, y): Place, words: &str) {
        let class = self.class();
        let at = |corner: &Place| (x + corner.0, y + corner.1);
        let around = |corners: &[Place]| corners.iter().map(at).collect::<Vec<_>>();
        match self.shape() {
            Shape::Point { radius } => drawing.point(class, (x, y), radius, words),
            Shape::Polygon(corners) => drawing.named_polygon(class, &around(corners), words),
            Shape::Cross => drawing.named_runs(class, &CROSS.map(|arm| around(&arm)), words),
            Shape::Line | Shape::Area | Shape::Upright => {}
        }
    }

    /// A sample whose left middle is at a place.
    fn sample(self, drawing: &mut Drawing, (x, y): Place) {
        let (class, middle) = (self.class(), x + SAMPLE / 2.0);
        match self.shape() {
            Shape::Line => drawing.line(class, (x, y), (x + SAMPLE, y)),
            Shape::Area => drawing.rectangle(class, (x, y - HALF), (SAMPLE, 2.0 * HALF)),
            Shape::Upright => drawing.line(class, (middle, y - 8.0), (middle, y + 8.0)),
            _ => self.mark(drawing, (middle, y), ""),
        }
    }
}

/// Draws a legend below a height, and gives the height below it. The last text of a row may run on.
pub fn legend(drawing: &mut Drawing, top: f64, entries: &[(Sign, String)]) -> f64 {
    drawing.open_group("signs");
    for (index, (sign, words)) in entries.iter().enumerate() {
        let (row, column) = (index / COLUMNS, index % COLUMNS);
        let x = LEFT + column as f64 * (RIGHT - LEFT) / COLUMNS as f64;
        let y = top + (row as f64 + 0.5) * ROW;
        sign.sample(drawing, (x, y));
        drawing.text("legend", (x + TEXT, y + 4.0), words);
    }
    drawing.close_group();
    top + entries.len().div_ceil(COLUMNS) as f64 * ROW
}
