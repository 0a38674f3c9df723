//! Measuring with tool offset.

use crate::direction::Direction;
use crate::fault::Fault;
use crate::feature::{Feature, Kind, Plan, Sizes};
use crate::package::Package;
use crate::ranges::{
    optional_index, require, store_index, within, AXES, MEANS, TOOLS, WEAR, WEIGHT,
};
use crate::reading::Reading;
use crate::refusal::Refusal;
use crate::result_array::{result_part, Numbers};
use crate::tolerance::{Branch, Decision, Tolerance, Verdict};

/// The arguments of a measurement with tool offset, in the order of a T line.
#[derive(Clone, Copy, Debug, Default, PartialEq, Eq)]
pub struct ToolMeasurement {
    pub feature: Feature,
    pub tool: i64,
    pub ev: i64,
    pub mv: i64,
    /// The weighting factor k.
    pub k: i64,
    pub tolerance: Tolerance,
}

/// "A measurement returns branch and verdict with it".
#[derive(Clone, Copy, Debug, PartialEq, Eq)]
pub struct Measured {
    pub branch: Branch,
    pub verdict: Verdict,
}

/// Which of a tool's two wears is corrected, and the factor of c in h.
#[derive(Clone, Copy, Debug, PartialEq, Eq)]
pub(crate) struct WearTerm {
    pub on_length: bool,
    pub factor: i64,
}

/// The numbers of a measurement that passed refusal 2.
struct Used {
    plan: Plan<Reading>,
    tool: usize,
    ev: Option<usize>,
    mv: Option<usize>,
}

/// Everything an accepted measurement changes and reports.
struct Effect {
    used: Used,
    decision: Decision,
    term: WearTerm,
    wear: i64,
    numbers: Numbers,
}

/// "inside kinds add c h to radius wear, outside kinds subtract c h. Plane adds
/// 2·s·c h, to length wear on axis 3, to radius wear on axes 1 and 2."
pub(crate) fn wear_term(feature: &Feature, kind: Kind) -> WearTerm {
    let factor = match kind {
        Kind::Hole | Kind::Groove => 1,
        Kind::Shaft | Kind::Web => -1,
        Kind::Plane => 2 * Direction::from_number(feature.direction).map_or(0, Direction::sign),
    };
    WearTerm {
        on_length: kind == Kind::Plane && feature.axis == AXES as i64,
        factor,
    }
}

impl ToolMeasurement {
    /// "2 any used number, or a kind not of this call".
    fn used(&self) -> Result<Used, Refusal> {
        Ok(Used {
            plan: self.feature.plan(0)?,
            tool: store_index(self.tool, TOOLS)?,
            ev: optional_index(self.ev, MEANS)?,
            mv: optional_index(self.mv, MEANS)?,
        })
    }

    /// "3 used positions and set centres, setpoint, and k even without a mean".
    fn check_ranges(&self, plan: &Plan) -> Result<(), Refusal> {
        self.feature.check_ranges(plan)?;
        require((1..=WEIGHT).contains(&self.k), Refusal::Range)
    }

    fn numbers(&self, plan: &Plan, sizes: &Sizes, empirical: i64, decision: &Decision) -> Numbers {
        let limits = &self.tolerance;
        let mut numbers = Numbers::of_feature(&self.feature, plan, sizes, empirical, limits.tsa);
        numbers.ovr(8, self.feature.setpoint + limits.tul);
        numbers.ovr(12, self.feature.setpoint + limits.tll);
        numbers.ovr(20, decision.correction);
        numbers.ovr(27, limits.tzl);
        numbers.ovr(29, limits.tdif);
        numbers.ovr(30, empirical);
        numbers.ovr(31, decision.mean_left);
        numbers.ovi(0, self.tool);
        numbers.ovi(4, self.k);
        numbers.ovi(6, self.mv);
        numbers.ovi(7, self.ev);
        numbers.ovi(8, self.tool);
        numbers
    }
}

impl Package {
    /// A measurement with tool offset. "1 leaves the array; the others write 42
    /// zeros save OVI[9] = the number."
    pub fn measure_tool(
        &mut self,
        call: &ToolMeasurement,
        array: &mut [i32],
        place: usize,
    ) -> Result<Measured, Refusal> {
        let part = result_part(array, place)?;
        match self.tool_effect(call) {
            Err(refusal) => {
                Numbers::refused(refusal).write(part);
                Err(refusal)
            }
            Ok(effect) => {
                effect.numbers.write(part);
                Ok(self.correct_tool(&effect))
            }
        }
    }

    /// Refusals 2, 13 and 3 to 9 in their order, and what the call does if none applies.
    fn tool_effect(&self, call: &ToolMeasurement) -> Result<Effect, Refusal> {
        let used = call.used()?;
        let plan = self.positions(&call.feature, &used.plan, |plan| call.check_ranges(plan))?;
        call.tolerance.check()?;
        let sizes = plan.sizes(&self.records)?;

        // "D = measured - EV - setpoint (EV number 0 means EV is 0)"
        let empirical = used.ev.map_or(0, |index| i64::from(self.records.ev[index]));
        let deviation = sizes.measured - empirical - call.feature.setpoint;
        call.tolerance.check_deviation(deviation)?;
        let mean = used.mv.map(|index| i64::from(self.records.mv[index]));
        let decision = call
            .tolerance
            .decide(deviation, mean, call.k, self.planted());

        let mut term = wear_term(&call.feature, plan.kind);
        if self.has(Fault::ShaftSign) && plan.kind == Kind::Shaft {
            term.factor = 1; // FAULT: the hole's sign
        }
        let stored = self.records.wears[used.tool];
        let old = if term.on_length {
            stored.length
        } else {
            stored.radius
        };
        let wear = i64::from(old) + term.factor * decision.correction;
        require(within(wear, WEAR), Refusal::Store)?;
        Ok(Effect {
            numbers: call.numbers(&plan, &sizes, empirical, &decision),
            used,
            decision,
            term,
            wear,
        })
    }

    /// "changes only that mean and that wear or offset."
    fn correct_tool(&mut self, effect: &Effect) -> Measured {
        if let Some(index) = effect.used.mv {
            self.records.mv[index] = effect.decision.mean_left as i16;
        }
        let wear = &mut self.records.wears[effect.used.tool];
        if effect.term.on_length {
            wear.length = effect.wear as i32;
        } else {
            wear.radius = effect.wear as i32;
        }
        Measured {
            branch: effect.decision.branch,
            verdict: effect.decision.verdict,
        }
    }
}
