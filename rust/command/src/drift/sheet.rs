//! The diagrams of one series, below each other.

use std::mem;

use super::legend::{legend, Sign};
use super::length::Length;
use super::mean_panel::{draw_deviations, draw_limits, draw_marks, mean_signs, Course};
use super::panel::{part_ticks, x, Panel, LEFT, RIGHT};
use super::series::Series;
use super::svg::Drawing;
use super::wear_panel::{Setting, Wear};
use super::weighting::Weightings;
use super::words::{subtitle, title, verdict};

/// Heights: of the diagrams, and of what stands around them.
const MEANS: f64 = 290.0;
const DISTANCES: f64 = 100.0;
const WEARS: f64 = 150.0;
const TITLE: f64 = 34.0;
const GAP: f64 = 8.0;
/// Above a diagram of a wear that is set, and about the width of a character there.
const ROOM: f64 = 12.0;
const CHARACTER: f64 = 6.5;

/// What a diagram is called and shows, before its values are drawn.
struct Plan {
    class: &'static str,
    title: String,
    label: &'static str,
    legend: Vec<(Sign, String)>,
    /// The W lines to draw.
    settings: Vec<Setting>,
    /// Room between legend and diagram.
    room: f64,
    height: f64,
}

pub struct Sheet<'a> {
    series: &'a Series,
    drawing: &'a mut Drawing,
    weightings: Weightings,
    wears: Vec<Wear>,
    /// How far down it is drawn.
    y: f64,
}

impl<'a> Sheet<'a> {
    /// A sheet that begins at this height.
    pub fn new(series: &'a Series, drawing: &'a mut Drawing, y: f64) -> Self {
        let (weightings, wears) = (Weightings::of(&series.parts), Wear::of(series));
        Sheet {
            series,
            drawing,
            weightings,
            wears,
            y,
        }
    }

    /// Draws it and gives the height at its end.
    pub fn draw(mut self, job: &str) -> f64 {
        self.drawing.open_group("series");
        self.heading(job);
        let course = Course::of(self.series);
        self.means(&course);
        if self.series.mean != 0 {
            self.distances(&course);
        }
        for wear in mem::take(&mut self.wears) {
            self.wear(&wear);
        }
        self.y = self.weightings.draw(self.drawing, self.y + GAP);
        self.scale();
        self.drawing.close_group();
        self.y
    }

    fn heading(&mut self, job: &str) {
        let class = if self.series.outside() == 0 {
            "subtitle"
        } else {
            "verdict-outside"
        };
        let words = format!("{job}: {}", subtitle(self.series));
        self.drawing
            .text("title", (LEFT, self.y + 34.0), &title(self.series));
        self.drawing.text("subtitle", (LEFT, self.y + 55.0), &words);
        self.drawing
            .text(class, (LEFT, self.y + 73.0), &verdict(self.series));
        self.y += 73.0;
    }

    /// Opens a group for a diagram and draws its title, legend and frame, the changes of k and the W lines.
    fn panel(&mut self, plan: Plan, values: impl Iterator<Item = Length>) -> Panel {
        self.drawing.open_group(plan.class);
        self.drawing
            .text("panel-title", (LEFT, self.y + TITLE), &plan.title);
        let top = legend(self.drawing, self.y + TITLE + GAP, &plan.legend) + GAP + plan.room;
        let panel = Panel::new(top..top + plan.height, self.series.parts.len(), values);
        panel.frame(self.drawing, plan.label);
        for edge in self.weightings.changes() {
            panel.upright(self.drawing, Sign::KChange.class(), edge);
        }
        for setting in &plan.settings {
            panel.upright(self.drawing, Sign::WearSet.class(), setting.behind);
        }
        self.y = panel.bottom();
        panel
    }

    /// The legend of the first diagram: what stands in it, and how many values are outside.
    fn mean_legend(&self) -> Vec<(Sign, String)> {
        let mut entries = mean_signs(self.series);
        if self.weightings.changes().next().is_some() {
            entries.push((Sign::KChange, "weighting factor k changed"));
        }
        if !self.settings().is_empty() {
            entries.push((Sign::WearSet, "wear set, as for a new tool"));
        }
        let outside = match self.series.outside() {
            0 => "outside its bound: none".to_owned(),
            outside => format!("outside its bound: {outside}"),
        };
        let named = entries
            .into_iter()
            .map(|(sign, words)| (sign, words.to_owned()));
        named.chain([(Sign::Outside, outside)]).collect()
    }

    /// The settings of every wear that is drawn.
    fn settings(&self) -> Vec<Setting> {
        self.wears.iter().flat_map(Wear::settings).collect()
    }

    fn means(&mut self, course: &Course) {
        let parts = &self.series.parts;
        let limits = parts
            .iter()
            .map(|part| Length::units(part.measurement.tolerance.tzl));
        let lengths = limits.flat_map(|tzl| [tzl, -tzl]).chain(course.lengths());
        let lengths = lengths.chain(
            parts
                .iter()
                .map(|part| Length::units(part.answer.deviation.into())),
        );
        let title = match self.series.mean {
            0 => "Deviation of each part",
            _ => "Deviation of each part, and the mean value",
        };
        let plan = Plan {
            class: "means",
            title: title.to_owned(),
            label: "deviation, µm",
            legend: self.mean_legend(),
            settings: self.settings(),
            room: 0.0,
            height: MEANS,
        };
        let panel = self.panel(plan, lengths);
        course.draw_band(self.drawing, &panel);
        draw_limits(self.drawing, &panel, parts);
        draw_deviations(self.drawing, &panel, parts);
        course.draw_means(self.drawing, &panel);
        draw_marks(self.drawing, &panel, self.series);
        self.drawing.close_group();
    }

    fn distances(&mut self, course: &Course) {
        let plan = Plan {
            class: "distances",
            title: "Distance of the stored mean from the exact mean".to_owned(),
            label: "distance, µm",
            legend: vec![
                (Sign::Stored, "stored less exact mean".to_owned()),
                (
                    Sign::Band,
                    "bound ± K/2, in units of 0.1 µm; K is the greatest k since the mean last began"
                        .to_owned(),
                ),
            ],
            settings: self.settings(),
            room: 0.0,
            height: DISTANCES,
        };
        let panel = self.panel(plan, course.distances());
        course.draw_distances(self.drawing, &panel);
        self.drawing.close_group();
    }

    fn wear(&mut self, wear: &Wear) {
        let settings: Vec<Setting> = wear.settings().collect();
        let plan = Plan {
            class: "wear",
            title: wear.title(),
            label: "wear, µm",
            legend: vec![
                (Sign::Stored, "stored wear".to_owned()),
                (Sign::Exact, "exact wear".to_owned()),
                (Sign::Band, "exact wear ± its bound".to_owned()),
            ],
            room: if settings.is_empty() { 0.0 } else { ROOM },
            settings: settings.clone(),
            height: WEARS,
        };
        let panel = self.panel(plan, wear.lengths());
        wear.draw(self.drawing, &panel);
        self.name(&settings, &panel);
        self.drawing.close_group();
    }

    /// Names settings above their diagram, as far as there is room between them.
    fn name(&mut self, settings: &[Setting], panel: &Panel) {
        let mut free = LEFT;
        for setting in settings {
            let words = format!("W: set to {} µm", setting.value);
            let half = CHARACTER * words.chars().count() as f64 / 2.0;
            let middle = panel
                .x(setting.behind as f64 + 0.5)
                .clamp(LEFT + half, RIGHT - half);
            if middle - half >= free {
                self.drawing
                    .text("tick middle", (middle, panel.top - 5.0), &words);
                free = middle + half;
            }
        }
    }

    /// The numbers of the parts.
    fn scale(&mut self) {
        let parts = self.series.parts.len();
        for part in part_ticks(parts) {
            self.drawing.text(
                "tick middle",
                (x(part as f64, parts), self.y + 16.0),
                &part.to_string(),
            );
        }
        let label = match self.series.mean {
            0 => "part, in the order of the measurements done without a mean value".to_owned(),
            mean => format!("part, in the order of the measurements done with mean value {mean}"),
        };
        self.drawing
            .text("label", ((LEFT + RIGHT) / 2.0, self.y + 36.0), &label);
        self.y += 52.0;
    }
}
