//! The diagram of a tool's wear, stored and exact.

use super::legend::Sign;
use super::length::Length;
use super::panel::Panel;
use super::record::Stand;
use super::series::{Part, Series};
use super::svg::{Drawing, Place};

/// The names of a tool's wears, in their order.
const NAMES: [&str; 2] = ["Radius wear", "Length wear"];

/// A wear that a W line set, behind so many parts.
#[derive(Clone, Copy)]
pub struct Setting {
    pub behind: usize,
    pub value: Length,
}

/// A wear over the parts of a series.
pub struct Wear {
    tool: i64,
    /// Radius or length, by its place in [`NAMES`].
    which: usize,
    /// After each part that measures with the tool.
    stands: Vec<Stand>,
    settings: Vec<Setting>,
    parts: usize,
}

impl Wear {
    /// The wears that a series corrects; of a tool that it never corrects, the radius wear.
    pub fn of(series: &Series) -> Vec<Wear> {
        let wear = |part: &Part| part.corrected.map(|which| (part.measurement.tool, which));
        let mut wears: Vec<(i64, usize)> = series.parts.iter().filter_map(wear).collect();
        for tool in series.parts.iter().map(|part| part.measurement.tool) {
            if !wears.iter().any(|wear| wear.0 == tool) {
                wears.push((tool, 0));
            }
        }
        wears.sort();
        wears.dedup();
        let new = |(tool, which)| Wear::new(series, tool, which);
        wears.into_iter().map(new).collect()
    }

    fn new(series: &Series, tool: i64, which: usize) -> Self {
        let parts = (1..).zip(&series.parts);
        let parts = parts.filter(|(_, part)| part.measurement.tool == tool);
        let before_the_last = 0..series.parts.len();
        let set = series
            .wears_set
            .iter()
            .filter(|set| set.tool == tool && before_the_last.contains(&set.behind));
        Wear {
            tool,
            which,
            stands: parts
                .map(|(number, part)| Stand::of(number, &part.wears[which]))
                .collect(),
            settings: set
                .map(|set| Setting {
                    behind: set.behind,
                    value: Length::half_units(set.values[which]),
                })
                .collect(),
            parts: series.parts.len(),
        }
    }

    pub fn title(&self) -> String {
        format!("{} of tool {}", NAMES[self.which], self.tool)
    }

    /// The settings between two parts.
    pub fn settings(&self) -> impl Iterator<Item = Setting> + '_ {
        self.settings
            .iter()
            .copied()
            .filter(|setting| setting.behind > 0)
    }

    /// What the diagram has to hold.
    pub fn lengths(&self) -> impl Iterator<Item = Length> + '_ {
        let set = self.settings.iter().map(|setting| setting.value);
        self.stands.iter().flat_map(Stand::lengths).chain(set)
    }

    /// A length of the wear from where each part or setting left it to the next.
    fn course(&self, panel: &Panel, length: fn(&Stand) -> Length) -> Vec<Place> {
        let measured = self
            .stands
            .iter()
            .map(|stand| (stand.part as f64, length(stand)));
        let set = self
            .settings
            .iter()
            .map(|setting| (setting.behind as f64 + 0.5, setting.value));
        let mut course: Vec<(f64, Length)> = measured.chain(set).collect();
        course.sort_by(|a, b| a.0.total_cmp(&b.0));
        panel.stairs(&course, self.parts as f64 + 0.5)
    }

    /// Draws the band, the exact and the stored wear.
    pub fn draw(&self, drawing: &mut Drawing, panel: &Panel) {
        let course = |length| self.course(panel, length);
        drawing.areas(
            Sign::Band.class(),
            &[(course(Stand::upper), course(Stand::lower))],
        );
        drawing.runs(Sign::Exact.class(), &[course(|stand| stand.exact)]);
        drawing.runs(Sign::Stored.class(), &[course(|stand| stand.stored)]);
        for stand in self.stands.iter().filter(|stand| !stand.inside) {
            let words = format!(
                "part {}: the stored wear lies outside its bound",
                stand.part
            );
            Sign::Outside.mark(
                drawing,
                panel.place(stand.part as f64, stand.stored),
                &words,
            );
        }
    }
}
