//! "Measured sizes": what is touched, and what comes out of the touches.

use crate::direction::{trigger_index, Direction};
use crate::fault::Fault;
use crate::package::Package;
use crate::ranges::{require, require_within, store_index, AXES, POSITION, PROBES};
use crate::reading::Reading;
use crate::records::Records;
use crate::refusal::Refusal;

/// The arguments that both measuring calls share, in the order of a line.
#[derive(Clone, Copy, Debug, Default, PartialEq, Eq)]
pub struct Feature {
    pub kind: i64,
    pub probe: i64,
    pub axis: i64,
    pub direction: i64,
    pub setpoint: i64,
    /// "c1, c2 are set centres in u on axes 1, 2."
    pub centre: [i64; 2],
    /// "Raws stand low, high, in the order above."
    pub raws: [Reading; 4],
}

/// "0 plane, 1 hole, 2 shaft, 3 groove, 4 web".
#[derive(Clone, Copy, Debug, PartialEq, Eq)]
pub enum Kind {
    Plane,
    Hole,
    Shaft,
    Groove,
    Web,
}

impl Kind {
    /// All kinds in the order of their numbers.
    pub const ALL: [Kind; 5] = [
        Kind::Plane,
        Kind::Hole,
        Kind::Shaft,
        Kind::Groove,
        Kind::Web,
    ];

    /// The kind of a number of a call whose kinds begin at `first`; "a kind not
    /// of this call (0..4 with tool offset, 100..104 with zero offset)" is 2.
    fn from_number(number: i64, first: i64) -> Result<Kind, Refusal> {
        let place = number.checked_sub(first).and_then(|n| n.try_into().ok());
        let place: usize = place.ok_or(Refusal::Number)?;
        Kind::ALL.get(place).copied().ok_or(Refusal::Number)
    }

    /// "Inside kinds (hole, groove)".
    pub fn is_inside(self) -> bool {
        matches!(self, Kind::Hole | Kind::Groove)
    }
}

/// One touch of the probe, its raw a reading or a position; the axis counts
/// from 0.
#[derive(Clone, Copy, Debug, PartialEq, Eq)]
pub(crate) struct Touch<Raw = i64> {
    pub axis: usize,
    pub direction: Direction,
    pub raw: Raw,
}

/// What a measurement touches: with readings after its numbers passed, with
/// positions after its floats passed too.
#[derive(Clone, Debug, PartialEq, Eq)]
pub(crate) struct Plan<Raw = i64> {
    pub kind: Kind,
    pub probe: usize,
    pub touches: Vec<Touch<Raw>>,
}

/// What the touches tell.
#[derive(Clone, Copy, Debug, PartialEq, Eq)]
pub(crate) struct Sizes {
    /// The plane's surface, or the width; "The diameter is the ordinate width."
    pub measured: i64,
    /// "A centre is low + high, in h", on the measured axes only.
    pub centres: [Option<i64>; 2],
}

impl Feature {
    /// The part of refusal 2 that both calls share: kind, probe and, where the
    /// kind uses them, axis and direction.
    pub(crate) fn plan(&self, first_kind: i64) -> Result<Plan<Reading>, Refusal> {
        let kind = Kind::from_number(self.kind, first_kind)?;
        let probe = store_index(self.probe, PROBES)?;
        let touches = match kind {
            Kind::Plane => vec![Touch {
                axis: store_index(self.axis, AXES)?,
                direction: Direction::from_number(self.direction)?,
                raw: self.raws[0],
            }],
            Kind::Groove | Kind::Web => self.pair(kind, store_index(self.axis, 2)?, 0).to_vec(),
            Kind::Hole | Kind::Shaft => [self.pair(kind, 0, 0), self.pair(kind, 1, 2)].concat(),
        };
        Ok(Plan {
            kind,
            probe,
            touches,
        })
    }

    /// "Inside kinds (hole, groove) touch low in the negative direction and high
    /// in the positive; outside kinds the reverse."
    fn pair(&self, kind: Kind, axis: usize, first_raw: usize) -> [Touch<Reading>; 2] {
        let low = if kind.is_inside() {
            Direction::Negative
        } else {
            Direction::Positive
        };
        [(low, first_raw), (low.reverse(), first_raw + 1)].map(|(direction, raw)| Touch {
            axis,
            direction,
            raw: self.raws[raw],
        })
    }

    /// "3 used positions and set centres, setpoint".
    pub(crate) fn check_ranges(&self, plan: &Plan) -> Result<(), Refusal> {
        for touch in &plan.touches {
            require_within(touch.raw, POSITION)?;
        }
        for axis in plan.pair_axes() {
            require_within(self.centre[axis], POSITION)?;
        }
        // "a width setpoint in 1..10,000,000"
        require_within(self.setpoint, POSITION)?;
        let width = plan.kind != Kind::Plane;
        require(!width || self.setpoint >= 1, Refusal::Range)
    }

    /// Centre - 2·set centre, h, on a measured axis.
    pub(crate) fn centre_shift(&self, sizes: &Sizes, axis: usize) -> Option<i64> {
        sizes.centres[axis].map(|centre| centre - 2 * self.centre[axis])
    }
}

impl Plan<Reading> {
    /// The plan with a position for each reading and its axis.
    fn with_positions(
        &self,
        position: impl Fn(&Reading, usize) -> Result<i64, Refusal>,
    ) -> Result<Plan, Refusal> {
        let touches = self.touches.iter().map(|touch| {
            Ok(Touch {
                axis: touch.axis,
                direction: touch.direction,
                raw: position(&touch.raw, touch.axis)?,
            })
        });
        Ok(Plan {
            kind: self.kind,
            probe: self.probe,
            touches: touches.collect::<Result<_, _>>()?,
        })
    }
}

impl Package {
    /// The plan with the positions of its readings, in this order: 13 "for a used
    /// float ... after 2 and before 3", then 3 as `in_range` tests it.
    pub(crate) fn positions(
        &self,
        feature: &Feature,
        plan: &Plan<Reading>,
        in_range: impl Fn(&Plan) -> Result<(), Refusal>,
    ) -> Result<Plan, Refusal> {
        if self.has(Fault::FloatAfterRange) {
            // FAULT: 3 comes first; a float that is none is taken as 0
            let lenient = |raw: &Reading, axis| Ok(raw.position(axis).unwrap_or(0));
            in_range(&plan.with_positions(lenient)?)?;
        }
        if self.has(Fault::UnusedFloat) {
            // FAULT: all four raws are looked at
            let mut raws = feature.raws.iter();
            raws.try_for_each(|raw| self.position(raw, 0).map(drop))?;
        }
        let plan = plan.with_positions(|raw, axis| self.position(raw, axis))?;
        in_range(&plan)?;
        Ok(plan)
    }
}

impl Plan {
    /// The axes of the measured pairs; a plane has none.
    pub(crate) fn pair_axes(&self) -> impl Iterator<Item = usize> + '_ {
        self.touches.chunks_exact(2).map(|pair| pair[0].axis)
    }

    /// Refusals 5 and 6, and the sizes if neither applies.
    pub(crate) fn sizes(&self, records: &Records) -> Result<Sizes, Refusal> {
        let status = records.status(self.probe);
        let calibrated = |touch: &Touch| {
            let place = trigger_index(touch.axis, touch.direction);
            status >> place & 1 == 1
        };
        require(self.touches.iter().all(calibrated), Refusal::Uncalibrated)?;

        let mut sizes = Sizes {
            measured: self.surface(records, &self.touches[0]),
            centres: [None, None],
        };
        for pair in self.touches.chunks_exact(2) {
            let low = self.surface(records, &pair[0]);
            let high = self.surface(records, &pair[1]);
            require(high > low, Refusal::Inverted)?;
            sizes.centres[pair[0].axis] = Some(low + high);
            sizes.measured = high - low;
        }
        Ok(sizes)
    }

    /// "A surface is raw + s·t."
    fn surface(&self, records: &Records, touch: &Touch) -> i64 {
        let place = trigger_index(touch.axis, touch.direction);
        touch.raw + touch.direction.sign() * records.trigger(self.probe, place)
    }
}
