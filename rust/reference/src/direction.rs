//! Directions of a touch and the trigger places that belong to them.

use crate::refusal::Refusal;

/// "Direction 0 is positive (s = 1), 1 negative (s = -1), as the manual's _MD."
#[derive(Clone, Copy, Debug, PartialEq, Eq)]
pub enum Direction {
    Positive,
    Negative,
}

/// "A constant list gives each axis and direction its trigger place: axis 1
/// negative 1, positive 2; axis 2: 3, 4; axis 3: 5, 6." Indexed by axis, then
/// by the direction's number; places count from 1.
const TRIGGER_PLACES: [[usize; 2]; 3] = [[2, 1], [4, 3], [6, 5]];

impl Direction {
    /// The direction of a number; any other number is refused by 2.
    pub fn from_number(number: i64) -> Result<Self, Refusal> {
        match number {
            0 => Ok(Direction::Positive),
            1 => Ok(Direction::Negative),
            _ => Err(Refusal::Number),
        }
    }

    /// The paper's s.
    pub fn sign(self) -> i64 {
        match self {
            Direction::Positive => 1,
            Direction::Negative => -1,
        }
    }

    /// The other direction.
    pub fn reverse(self) -> Self {
        match self {
            Direction::Positive => Direction::Negative,
            Direction::Negative => Direction::Positive,
        }
    }
}

/// Index (place - 1) of the trigger of an axis (0..2) and a direction; "Bit
/// place-1 of the status marks it."
pub fn trigger_index(axis: usize, direction: Direction) -> usize {
    let column = match direction {
        Direction::Positive => 0,
        Direction::Negative => 1,
    };
    TRIGGER_PLACES[axis][column] - 1
}
