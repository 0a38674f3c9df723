//! The package's numbers in words.

use mezhtolik::{kind, Branch, Verdict};

/// The axes 1, 2, 3.
pub const AXES: [&str; 3] = ["abscissa", "ordinate", "applicate"];
/// The directions 0 and 1.
pub const DIRECTIONS: [&str; 2] = ["positive", "negative"];

/// A kind with tool offset, with zero offset 100 more: its number, its name, and how many raws it uses.
type Kind = (i64, &'static str, usize);

const KINDS: [Kind; 5] = [
    (kind::PLANE, "plane", 1),
    (kind::HOLE, "hole", 4),
    (kind::SHAFT, "shaft", 4),
    (kind::GROOVE, "groove", 2),
    (kind::WEB, "web", 2),
];

fn row(number: i64) -> Option<&'static Kind> {
    let same = |row: &&Kind| [row.0, row.0 + kind::ZERO_OFFSET].contains(&number);
    KINDS.iter().find(same)
}

/// A kind of a measurement in words, if there is such a kind.
pub fn kind(number: i64) -> Option<&'static str> {
    row(number).map(|row| row.1)
}

/// How many raws a kind uses, from the first on; none if there is no such kind.
pub fn raws(number: i64) -> usize {
    row(number).map_or(0, |row| row.2)
}

/// What a measurement did with the deviation.
pub const fn branch(branch: Branch) -> &'static str {
    match branch {
        Branch::WithinZero => "deviation within TZL, nothing is corrected",
        Branch::Deviation => "deviation beyond TZL, corrected by the deviation",
        Branch::MeanKept => "new mean value within TZL, it is kept and nothing is corrected",
        Branch::MeanCorrection => "new mean value beyond TZL, corrected by it and the mean value begins again at 0",
        Branch::Full => "deviation beyond TMV, corrected by the deviation; a mean value that is named begins again at 0",
        Branch::ZeroOffset => "the zero offset is moved by what was measured",
    }
}

/// How the part stands to its tolerance.
pub const fn verdict(verdict: Verdict) -> &'static str {
    match verdict {
        Verdict::Within => "in tolerance",
        Verdict::Oversize => "oversize, above TUL",
        Verdict::Undersize => "undersize, below TLL",
    }
}
