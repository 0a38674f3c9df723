//! The letters of job lines in words: a row for each, with those of its fields that say what the line is about.

use reference::line::read_bits;

use crate::floats;
use crate::units::Unit;
use crate::words;

/// How a field is said.
enum Field {
    /// A number under this name.
    Number(&'static str),
    /// The number of a store that may be left out by 0.
    Optional(&'static str),
    /// A length under this name.
    Length(&'static str, Unit),
    Kind,
    Axis,
    Direction,
    /// A raw of this number that a float box read, where the line's kind uses it.
    Float(usize),
}

/// One letter. Fields are counted from 0, behind the letter.
struct Letter {
    letter: &'static str,
    words: &'static str,
    fields: &'static [(usize, Field)],
}

const LETTERS: [Letter; 7] = [
    Letter {
        letter: "E",
        words: "sets an empirical value",
        fields: &[
            (0, Field::Number("EV")),
            (1, Field::Length("value", Unit::U)),
        ],
    },
    Letter {
        letter: "W",
        words: "sets the wears of a tool",
        fields: &[
            (0, Field::Number("tool")),
            (1, Field::Length("radius", Unit::H)),
            (2, Field::Length("length", Unit::H)),
        ],
    },
    Letter {
        letter: "O",
        words: "sets a zero offset",
        fields: &[
            (0, Field::Number("offset")),
            (1, Field::Length(words::AXES[0], Unit::H)),
            (2, Field::Length(words::AXES[1], Unit::H)),
            (3, Field::Length(words::AXES[2], Unit::H)),
        ],
    },
    Letter {
        letter: "C",
        words: "calibrates a direction of a probe",
        fields: &[
            (0, Field::Number("probe")),
            (1, Field::Axis),
            (2, Field::Direction),
        ],
    },
    Letter {
        letter: "T",
        words: "measures with tool offset",
        fields: &[
            (0, Field::Kind),
            (1, Field::Number("probe")),
            (11, Field::Number("tool")),
            (12, Field::Optional("EV")),
            (13, Field::Optional("MV")),
        ],
    },
    Letter {
        letter: "Z",
        words: "measures with zero offset",
        fields: &[
            (0, Field::Kind),
            (1, Field::Number("probe")),
            (11, Field::Number("offset")),
        ],
    },
    Letter {
        letter: "G",
        words: "measures with tool offset what a float box read",
        fields: &[
            (0, Field::Kind),
            (1, Field::Number("probe")),
            (7, Field::Float(1)),
            (8, Field::Float(2)),
            (9, Field::Float(3)),
            (10, Field::Float(4)),
            (11, Field::Number("tool")),
            (12, Field::Optional("EV")),
            (13, Field::Optional("MV")),
        ],
    },
];

/// A number in words, or the number under its name where it has none.
fn named(words: Option<&'static str>, name: &str, number: i32) -> String {
    words.map_or_else(|| format!("{name} {number}"), String::from)
}

/// The word at a place counted from `first`.
fn word(words: &[&'static str], first: i32, number: i32) -> Option<&'static str> {
    words.get(usize::try_from(number - first).ok()?).copied()
}

/// A raw of a line, its bits in millimetres and units; none where the kind does not use it.
fn float(raw: usize, kind: &str, bits: &str) -> Option<String> {
    let used = raw <= words::raws(kind.parse().ok()?);
    let bits = read_bits(bits.as_bytes()).filter(|_| used)?;
    Some(format!("r{raw} {}", floats::said(bits)))
}

impl Field {
    /// What a field of a line of this kind says, if it says something.
    fn said(&self, text: &str, kind: &str) -> Option<String> {
        let number = || text.parse().ok();
        match self {
            Field::Number(name) => number().map(|number: i32| format!("{name} {number}")),
            Field::Optional(name) => number().map(|number: i32| match number {
                0 => format!("no {name}"),
                _ => format!("{name} {number}"),
            }),
            Field::Length(name, unit) => {
                number().map(|number| format!("{name} {}", unit.micrometres(number)))
            }
            Field::Kind => number().map(|n: i32| named(words::kind(n.into()), "kind", n)),
            Field::Axis => number().map(|n| named(word(&words::AXES, 1, n), "axis", n)),
            Field::Direction => {
                number().map(|n| named(word(&words::DIRECTIONS, 0, n), "direction", n))
            }
            Field::Float(raw) => float(*raw, kind, text),
        }
    }
}

/// What a line of a job is about. A malformed line has its letter alone, if that is one.
pub fn line(text: &[u8], malformed: bool) -> String {
    let text = String::from_utf8_lossy(text);
    let mut parts = text.split(',');
    let first = parts.next().unwrap_or_default();
    let Some(letter) = LETTERS.iter().find(|row| row.letter == first) else {
        let known = LETTERS.map(|row| row.letter).join(", ");
        return format!("no letter of a job line, which are {known}");
    };
    let named = format!("{}, {}", letter.letter, letter.words);
    if malformed {
        return named;
    }
    let given: Vec<&str> = parts.collect();
    let kind = given.first().copied().unwrap_or_default();
    let fields = letter
        .fields
        .iter()
        .filter_map(|(place, field)| field.said(given.get(*place)?, kind));
    format!("{named}: {}", fields.collect::<Vec<_>>().join(", "))
}

#[cfg(test)]
mod tests {
    use super::*;

    fn said(kind: &str, raws: &str) -> String {
        let text = format!("G,{kind},1,2,0,200000,0,0,{raws},4,0,2,5,20,100,150,-150,300,1000");
        let said = line(text.as_bytes(), false);
        let (named, fields) = said.split_once(": ").unwrap();
        assert_eq!(named, "G, measures with tool offset what a float box read");
        fields.to_owned()
    }

    #[test]
    fn floats_are_said_where_the_kind_uses_them() {
        let raws = "c11f374c,411f47ae,7fc00000,3f800000";
        let (low, high) = ("r1 -9.951 mm (-99510 u)", "r2 9.955 mm (99550 u)");
        let rest = "tool 4, no EV, MV 2";
        assert_eq!(said("0", raws), format!("plane, probe 1, {low}, {rest}"));
        assert_eq!(
            said("3", raws),
            format!("groove, probe 1, {low}, {high}, {rest}")
        );
        assert_eq!(
            said("1", raws),
            format!("hole, probe 1, {low}, {high}, r3 no number, r4 1 mm (10000 u), {rest}")
        );
        assert_eq!(said("9", raws), format!("kind 9, probe 1, {rest}"));
    }
}
