//! What may differ.

use std::fmt;

use crate::layout;
use reference::reckoning::Breach;
use reference::Answer;

/// The first difference of a list.
#[derive(Clone, Debug, PartialEq, Eq)]
pub enum Difference {
    /// What a call answers: package, reference.
    Answers(Box<[Answer; 2]>),
    /// Numbers of the area after a call: place, package, reference.
    Area(Vec<(usize, i32, i32)>),
    /// What the accessors show of the records.
    Accessors(String),
    /// Records of the package outside the bounds of the exact reckoning.
    Bounds(Vec<Breach>),
    /// A slice of a wrong length: what was not as it should be.
    Length(String),
    /// The same measurement, lent as readings, answers or leaves something else.
    Lent(String),
}

impl fmt::Display for Difference {
    fn fmt(&self, f: &mut fmt::Formatter<'_>) -> fmt::Result {
        match self {
            Difference::Answers(both) => {
                let [package, reference] = both.each_ref().map(shown);
                write!(f, "the answers differ{}", first_byte(both))?;
                write!(f, "\n  package   {package}\n  reference {reference}")
            }
            Difference::Area(places) => {
                write!(f, "the records differ")?;
                places.iter().try_for_each(|(place, package, reference)| {
                    let name = layout::name(*place);
                    write!(f, "\n  {name}: package {package}, reference {reference}")
                })
            }
            Difference::Accessors(what) => write!(f, "the accessors differ\n{what}"),
            Difference::Bounds(breaches) => {
                write!(
                    f,
                    "the package's records leave the exact bounds: {breaches:?}"
                )
            }
            Difference::Length(what) => write!(f, "a slice of a wrong length: {what}"),
            Difference::Lent(what) => write!(f, "the same lent as readings differs\n{what}"),
        }
    }
}

/// Bytes of a buffer that are shown.
const SHOWN: usize = 600;

/// Where the buffers of both answers part, if they do.
fn first_byte([package, reference]: &[Answer; 2]) -> String {
    let mut both = package.buffer.iter().zip(&reference.buffer);
    let place = both.position(|(package, reference)| package != reference);
    place.map_or(String::new(), |place| {
        format!(", the buffers from byte {place} on")
    })
}

/// An answer with its bytes readable, long buffers cut.
fn shown(answer: &Answer) -> String {
    let Answer {
        refusal,
        branch,
        verdict,
        bits,
        count,
        array,
        buffer,
        length,
    } = answer;
    let buffer = buffer[..buffer.len().min(SHOWN)].escape_ascii();
    format!(
        "refusal {refusal}, branch {branch}, verdict {verdict}, bits {bits:06b}, count {count}, \
         array {array:?}, length {length}, buffer \"{buffer}\""
    )
}
