//! "Result array": 42 signed 32-bit numbers.

use crate::feature::{Feature, Kind, Plan, Sizes};
use crate::refusal::Refusal;

/// "42 signed 32-bit numbers: places 0..31 as _OVR, 32..41 as _OVI[0..9]."
pub const RESULT: usize = 42;
const OVI: usize = 32;

/// The 42 numbers of one measurement.
#[derive(Clone, Copy, Debug, PartialEq, Eq)]
pub(crate) struct Numbers([i32; RESULT]);

impl Numbers {
    /// "42 zeros save OVI[9] = the number."
    pub(crate) fn refused(refusal: Refusal) -> Self {
        let mut numbers = Numbers([0; RESULT]);
        numbers.ovi(9, i64::from(refusal.number()));
        numbers
    }

    /// The places that both calls fill alike: setpoint, size, centres, TSA,
    /// cycle, kind and probe.
    pub(crate) fn of_feature(
        feature: &Feature,
        plan: &Plan,
        sizes: &Sizes,
        empirical: i64,
        tsa: i64,
    ) -> Self {
        let mut numbers = Numbers([0; RESULT]);
        numbers.ovr(0, feature.setpoint);
        numbers.ovr(4, sizes.measured - empirical);
        numbers.ovr(16, sizes.measured - empirical - feature.setpoint);
        numbers.ovr(28, tsa);
        // "centres stand only on measured axes"
        for axis in plan.pair_axes() {
            numbers.ovr(1 + axis, feature.centre[axis]);
            numbers.ovr(5 + axis, sizes.centres[axis].unwrap_or(0));
            numbers.ovr(17 + axis, feature.centre_shift(sizes, axis).unwrap_or(0));
        }
        // "2 is 977, plane 978; 3 kind"
        numbers.ovi(2, if plan.kind == Kind::Plane { 978 } else { 977 });
        numbers.ovi(3, feature.kind);
        numbers.ovi(5, feature.probe);
        numbers
    }

    /// Writes `_OVR[place]`.
    pub(crate) fn ovr(&mut self, place: usize, value: i64) {
        debug_assert!(place < OVI);
        self.0[place] = value as i32;
    }

    /// Writes `_OVI[place]`.
    pub(crate) fn ovi(&mut self, place: usize, value: i64) {
        self.0[OVI + place] = value as i32;
    }

    /// Writes the 42 numbers into the part lent for them.
    pub(crate) fn write(&self, part: &mut [i32; RESULT]) {
        *part = self.0;
    }
}

/// "The result goes to the 42 numbers that begin at the given place"; "1 fewer
/// than 42 places from the given one".
pub(crate) fn result_part(array: &mut [i32], place: usize) -> Result<&mut [i32; RESULT], Refusal> {
    array
        .get_mut(place..)
        .and_then(|rest| rest.first_chunk_mut())
        .ok_or(Refusal::Room)
}
