//! Readings of both forms, and the floats of G lines.

use super::rng::Rng;
use crate::calibration::Calibration;
use crate::calls::Call;
use crate::feature::{Feature, Kind};
use crate::ranges::{AXES, POSITION};
use crate::reading::{units, Reading, Report};

/// The bits of floats on both sides of every boundary, without their sign.
const EDGES: [u32; 18] = [
    // 0, the least and the greatest below the normal floats, the least normal one
    0x0000_0000,
    0x0000_0001,
    0x007f_ffff,
    0x0080_0000,
    // 0.00005 mm, half a unit, lies between these two
    0x3851_b717,
    0x3851_b718,
    // 312.5 u, just half a unit, and its neighbours
    0x3cff_ffff,
    0x3d00_0000,
    0x3d00_0001,
    // 1000 mm and its neighbours
    0x4479_ffff,
    0x447a_0000,
    0x447a_0001,
    // the greatest float, the infinite one, and what is no number
    0x7f7f_ffff,
    0x7f80_0000,
    0x7f80_0001,
    0x7fbf_ffff,
    0x7fc0_0000,
    0x7fff_ffff,
];

/// The bit of a float's sign.
const SIGN: u32 = 1 << 31;

/// A reading whose float for this axis has these bits.
type Fill = fn(&mut Rng, u32, usize) -> Reading;

/// The bits of a float at a boundary, of either sign; seldom any bits.
pub fn edge_bits(rng: &mut Rng) -> u32 {
    match rng.below(8) {
        0 => rng.draw() as u32,
        _ => rng.pick(&EDGES) | rng.pick(&[0, SIGN]),
    }
}

/// The bits of a float at or next to the one of these bits.
pub fn next_bits(rng: &mut Rng, bits: u32) -> u32 {
    rng.pick(&[bits ^ SIGN, bits.wrapping_add(1), bits.wrapping_sub(1)])
}

/// The bits of a float that gives this position, seldom the next one to it. The
/// float lies anywhere between two positions, as a box reports it.
fn bits_near(rng: &mut Rng, position: i64) -> u32 {
    let part = match rng.below(4) {
        0 => 0.0,
        1 => rng.pick(&[-0.5, 0.5]),
        _ => rng.between(-499, 499) as f64 / 1_000.0,
    };
    let millimetres = (position as f64 + part) / 10_000.0;
    (millimetres as f32).to_bits()
}

/// The bits of a float near this position that is just half a unit off any:
/// these are the odd multiples of 1/32 mm, 312.5 u.
fn half_bits(position: i64) -> u32 {
    let odd = 2 * position.div_euclid(625) + 1;
    (odd as f32 / 32.0).to_bits()
}

/// "a hole uses one float for each r": the same float for all axes.
fn one_float(_: &mut Rng, bits: u32, _: usize) -> Reading {
    Reading::Report(Report::of_bits(bits))
}

/// A report with two further floats, which no axis picks.
fn any_report(rng: &mut Rng, bits: u32, axis: usize) -> Reading {
    let mut all = [(); AXES].map(|()| match rng.below(3) {
        0 => edge_bits(rng),
        1 => bits_near(rng, 640_000),
        _ => next_bits(rng, bits),
    });
    all[axis] = bits;
    let [x, y, z] = all.map(f32::from_bits);
    Reading::Report(Report { x, y, z })
}

/// An axis counted from 0; a wrong number gives the nearest.
fn axis_index(number: i64) -> usize {
    (number.clamp(1, AXES as i64) - 1) as usize
}

/// The axes, from 0, of the raws that a feature uses.
fn raw_axes(feature: &Feature) -> Vec<usize> {
    let axis = axis_index(feature.axis);
    let kind = Kind::ALL.get(feature.kind.rem_euclid(100) as usize);
    match kind {
        Some(Kind::Hole | Kind::Shaft) => vec![0, 0, 1, 1],
        Some(Kind::Groove | Kind::Web) => vec![axis, axis],
        _ => vec![axis],
    }
}

/// Makes a whole reading the float just half a unit off that is next to it; how
/// far that moves it.
fn to_half(rng: &mut Rng, raw: &mut Reading, axis: usize, fill: Fill) -> i64 {
    let Reading::Whole(position) = *raw else {
        return 0;
    };
    let bits = half_bits(position);
    *raw = fill(rng, bits, axis);
    units(bits).map_or(0, |moved| moved.saturating_sub(position))
}

/// Moves what is measured so that the low raws are just half a unit off: the
/// high raws, or the setpoint of a plane, go with them.
fn to_halves(rng: &mut Rng, feature: &mut Feature, fill: Fill) {
    let axes = raw_axes(feature);
    for low in (0..axes.len()).step_by(2) {
        let moved = to_half(rng, &mut feature.raws[low], axes[low], fill);
        if axes.len() == 1 {
            feature.setpoint = feature.setpoint.saturating_add(moved);
        } else if let Reading::Whole(high) = &mut feature.raws[low + 1] {
            *high = high.saturating_add(moved);
        }
    }
}

/// The bits for a raw: seldom those of a boundary, and often if it is unused.
fn raw_bits(rng: &mut Rng, position: i64, used: bool) -> u32 {
    if rng.chance(if used { 3 } else { 40 }) {
        edge_bits(rng)
    } else {
        bits_near(rng, position)
    }
}

/// The bits of a float that is refused by 13.
fn refused_bits(rng: &mut Rng) -> u32 {
    let bits = rng.pick(&[0x447a_0001, 0x7f80_0000, 0x7f80_0001, 0x7fc0_0000]);
    bits | rng.pick(&[0, SIGN])
}

/// Gives a feature a float that is refused by 13, and with it a number that is
/// refused by 2 or by 3.
fn refuse_twice(rng: &mut Rng, feature: &mut Feature, fill: Fill) {
    let axis = raw_axes(feature)[0];
    let bits = refused_bits(rng);
    feature.raws[0] = fill(rng, bits, axis);
    match rng.below(3) {
        0 => feature.probe = rng.pick(&[0, 4]),
        _ => feature.setpoint = rng.signed(POSITION + 1),
    }
}

/// Makes reports of so many of a hundred raws.
fn fill_raws(rng: &mut Rng, feature: &mut Feature, percent: usize, fill: Fill) {
    match rng.below(100) {
        0..=24 => to_halves(rng, feature, fill),
        25..=26 => refuse_twice(rng, feature, fill),
        _ => {}
    }
    let axes = raw_axes(feature);
    for (index, raw) in feature.raws.iter_mut().enumerate() {
        let axis = axes.get(index).copied();
        if let Reading::Whole(position) = *raw {
            if rng.chance(percent) {
                let bits = raw_bits(rng, position, axis.is_some());
                *raw = fill(rng, bits, axis.unwrap_or(0));
            }
        }
    }
}

/// Makes the raws of a feature those of a G line.
pub fn as_floats(rng: &mut Rng, feature: &mut Feature) {
    fill_raws(rng, feature, 100, one_float);
}

/// Gives a call readings of both forms, "each by itself whole or float".
pub fn mix(rng: &mut Rng, call: &mut Call) {
    if rng.chance(40) {
        return;
    }
    match call {
        Call::Calibrate(calibration) => mix_calibration(rng, calibration),
        Call::MeasureTool { measurement, .. } => mix_feature(rng, &mut measurement.feature),
        Call::MeasureZero { measurement, .. } => mix_feature(rng, &mut measurement.feature),
        _ => {}
    }
}

fn mix_calibration(rng: &mut Rng, call: &mut Calibration) {
    let axis = axis_index(call.axis);
    let Reading::Whole(position) = call.raw else {
        return;
    };
    match rng.below(100) {
        0..=24 => {
            let moved = to_half(rng, &mut call.raw, axis, any_report);
            call.setpoint = call.setpoint.saturating_add(moved);
        }
        25..=28 => {
            let bits = refused_bits(rng);
            call.raw = any_report(rng, bits, axis);
            call.setpoint = rng.signed(POSITION + 1);
        }
        _ => {
            let bits = raw_bits(rng, position, true);
            call.raw = any_report(rng, bits, axis);
        }
    }
}

fn mix_feature(rng: &mut Rng, feature: &mut Feature) {
    let percent = rng.pick(&[30, 60, 100]);
    fill_raws(rng, feature, percent, any_report);
}
