//! Shapes and text of an SVG file.

use std::fmt::Display;

/// A place in the picture, in pixels from its upper left corner.
pub type Place = (f64, f64);

/// The elements so far. Their colours and widths come from the picture's style, by class.
#[derive(Default)]
pub struct Drawing(String);

/// A text with the characters that XML keeps for itself, and those that it does not allow, replaced.
pub fn escaped(text: &str) -> String {
    text.chars()
        .map(|character| match character {
            '&' => "&amp;".to_owned(),
            '<' => "&lt;".to_owned(),
            '>' => "&gt;".to_owned(),
            '"' => "&quot;".to_owned(),
            '\u{fffe}' | '\u{ffff}' => "\u{fffd}".to_owned(),
            control if control.is_control() => "\u{fffd}".to_owned(),
            other => other.to_string(),
        })
        .collect()
}

impl Drawing {
    pub fn into_text(self) -> String {
        self.0
    }

    fn add(&mut self, element: impl Display) {
        self.0 += &format!("{element}\n");
    }

    pub fn open_group(&mut self, class: &str) {
        self.add(format_args!("<g class=\"{class}\">"));
    }

    pub fn close_group(&mut self) {
        self.add("</g>");
    }

    pub fn text(&mut self, class: &str, (x, y): Place, text: &str) {
        let text = escaped(text);
        self.add(format_args!(
            "<text class=\"{class}\" x=\"{x:.2}\" y=\"{y:.2}\">{text}</text>"
        ));
    }

    /// Text that reads upwards.
    pub fn upward_text(&mut self, class: &str, (x, y): Place, text: &str) {
        let text = escaped(text);
        self.add(format_args!("<text class=\"{class}\" transform=\"translate({x:.2} {y:.2}) rotate(-90)\">{text}</text>"));
    }

    pub fn line(&mut self, class: &str, (x1, y1): Place, (x2, y2): Place) {
        self.add(format_args!(
            "<line class=\"{class}\" x1=\"{x1:.2}\" y1=\"{y1:.2}\" x2=\"{x2:.2}\" y2=\"{y2:.2}\"/>"
        ));
    }

    pub fn rectangle(&mut self, class: &str, (x, y): Place, (width, height): Place) {
        self.add(format_args!("<rect class=\"{class}\" x=\"{x:.2}\" y=\"{y:.2}\" width=\"{width:.2}\" height=\"{height:.2}\"/>"));
    }

    /// A point, with the words that a viewer shows when it is pointed at.
    pub fn point(&mut self, class: &str, (x, y): Place, radius: f64, words: &str) {
        let shape =
            format!("circle class=\"{class}\" cx=\"{x:.2}\" cy=\"{y:.2}\" r=\"{radius:.2}\"");
        self.add(titled("circle", &shape, words));
    }

    /// Lines through the places of each run, with such words; runs are not joined.
    pub fn named_runs(&mut self, class: &str, runs: &[Vec<Place>], words: &str) {
        let runs: String = runs.iter().map(|run| steps(run)).collect();
        self.add(titled(
            "path",
            &format!("path class=\"{class}\" d=\"{runs}\""),
            words,
        ));
    }

    /// A shape with these corners, with such words.
    pub fn named_polygon(&mut self, class: &str, corners: &[Place], words: &str) {
        let shape = format!("path class=\"{class}\" d=\"{}Z\"", steps(corners));
        self.add(titled("path", &shape, words));
    }

    pub fn runs(&mut self, class: &str, runs: &[Vec<Place>]) {
        self.named_runs(class, runs, "");
    }

    /// The areas between the upper and the lower edge of each run.
    pub fn areas(&mut self, class: &str, edges: &[(Vec<Place>, Vec<Place>)]) {
        let outline = |(upper, lower): &(Vec<Place>, Vec<Place>)| {
            let around: Vec<Place> = upper.iter().chain(lower.iter().rev()).copied().collect();
            steps(&around) + "Z"
        };
        let outlines: String = edges.iter().map(outline).collect();
        self.add(format_args!("<path class=\"{class}\" d=\"{outlines}\"/>"));
    }
}

/// An element with a title, or without one where there are no words.
fn titled(name: &str, element: &str, words: &str) -> String {
    match words {
        "" => format!("<{element}/>"),
        words => format!("<{element}><title>{}</title></{name}>", escaped(words)),
    }
}

/// "M x y L x y L x y".
fn steps(places: &[Place]) -> String {
    let step = |(index, (x, y)): (usize, &Place)| {
        let letter = if index == 0 { 'M' } else { 'L' };
        format!("{letter}{x:.2} {y:.2}")
    };
    places.iter().enumerate().map(step).collect()
}
