//! Measuring with zero offset.

use crate::fault::Fault;
use crate::feature::{Feature, Kind, Plan, Sizes};
use crate::package::Package;
use crate::ranges::{require, store_index, within, AXES, LIMIT, OFFSET, OFFSETS};
use crate::refusal::Refusal;
use crate::result_array::{result_part, Numbers};
use crate::tolerance::{Branch, Verdict};
use crate::tool_offset::Measured;

/// "100..104 are the same with zero offset."
pub const FIRST_KIND: i64 = 100;

/// The arguments of a measurement with zero offset, in the order of a Z line.
#[derive(Clone, Copy, Debug, Default, PartialEq, Eq)]
pub struct ZeroMeasurement {
    pub feature: Feature,
    pub offset: i64,
    pub tsa: i64,
}

/// How far an axis is off, in h.
#[derive(Clone, Copy, Debug, PartialEq, Eq)]
struct Shift {
    axis: usize,
    amount: i64,
}

impl ZeroMeasurement {
    /// Plane: "offset of that axis grows by 2·(m - setpoint) h". Pairs: "centre -
    /// 2·set centre, h, ... added on the axis measured".
    fn shifts(&self, plan: &Plan, sizes: &Sizes) -> Vec<Shift> {
        if plan.kind == Kind::Plane {
            return vec![Shift {
                axis: plan.touches[0].axis,
                amount: 2 * (sizes.measured - self.feature.setpoint),
            }];
        }
        let of_axis = |axis| Shift {
            axis,
            amount: self.feature.centre_shift(sizes, axis).unwrap_or(0),
        };
        plan.pair_axes().map(of_axis).collect()
    }

    /// "Zero kinds report setpoint and size too, with 0 in OVR 8, 12, 20, 27,
    /// 29, 30, 31 and OVI 4, 6, 7".
    fn numbers(&self, plan: &Plan, sizes: &Sizes) -> Numbers {
        let mut numbers = Numbers::of_feature(&self.feature, plan, sizes, 0, self.tsa);
        // "0 offset number, 8 zero"
        numbers.ovi(0, self.offset);
        numbers
    }
}

impl Package {
    /// A measurement with zero offset. "Branch 6, verdict 0."
    pub fn measure_zero(
        &mut self,
        call: &ZeroMeasurement,
        array: &mut [i32],
        place: usize,
    ) -> Result<Measured, Refusal> {
        let part = result_part(array, place)?;
        match self.move_offset(call) {
            Err(refusal) => {
                Numbers::refused(refusal).write(part);
                Err(refusal)
            }
            Ok(numbers) => {
                numbers.write(part);
                Ok(Measured {
                    branch: Branch::ZeroOffset,
                    verdict: Verdict::Within,
                })
            }
        }
    }

    /// Refusals 2, 13 and 3 to 9 in their order; "hole and shaft do both axes or neither".
    fn move_offset(&mut self, call: &ZeroMeasurement) -> Result<Numbers, Refusal> {
        let plan = call.feature.plan(FIRST_KIND)?;
        let offset = store_index(call.offset, OFFSETS)?;
        let in_range = |plan: &Plan| call.feature.check_ranges(plan);
        let plan = self.positions(&call.feature, &plan, in_range)?;
        // "Only TSA (0..1,000,000) applies"
        require((0..=LIMIT).contains(&call.tsa), Refusal::Limits)?;
        let sizes = plan.sizes(&self.records)?;

        let shifts = call.shifts(&plan, &sizes);
        let moved = self.moved(offset, &shifts, call.tsa);
        if self.has(Fault::HalfHole) && moved.is_err() {
            // FAULT: each axis for itself
            for shift in &shifts {
                if let Ok(values) = self.moved(offset, std::slice::from_ref(shift), call.tsa) {
                    self.records.offsets[offset] = values;
                }
            }
        }
        self.records.offsets[offset] = moved?;
        Ok(call.numbers(&plan, &sizes))
    }

    /// The offset after all shifts. Each shift in h is held "against 2·TSA"; a
    /// plane's |m - setpoint| against TSA is the same comparison, doubled.
    fn moved(&self, offset: usize, shifts: &[Shift], tsa: i64) -> Result<[i32; AXES], Refusal> {
        let inside = |shift: &Shift| within(shift.amount, 2 * tsa);
        require(shifts.iter().all(inside), Refusal::SafeArea)?;
        let mut values = self.records.offsets[offset];
        for shift in shifts {
            let value = i64::from(values[shift.axis]) + shift.amount;
            require(within(value, OFFSET), Refusal::Store)?;
            values[shift.axis] = value as i32;
        }
        Ok(values)
    }
}
