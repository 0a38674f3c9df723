//! Measurements that hit a wanted deviation or shift, given the records.

use super::rng::Rng;
use super::values::{optional_number, store_number};
use crate::direction::{trigger_index, Direction};
use crate::feature::{Feature, Kind};
use crate::package::Package;
use crate::ranges::{LIMIT, MEANS, MEAN_LIMIT, OFFSETS, TOOLS};
use crate::reading::Reading;
use crate::tolerance::Tolerance;
use crate::tool_offset::ToolMeasurement;
use crate::zero_offset::{ZeroMeasurement, FIRST_KIND};

/// Limits in their order, often narrow.
fn tolerance(rng: &mut Rng) -> Tolerance {
    let step = |rng: &mut Rng| rng.pick(&[0, 1, 3, 10, 20, 100, 300, 1_000, 40_000]);
    let tzl = step(rng).min(MEAN_LIMIT);
    let tmv = (tzl + step(rng)).min(MEAN_LIMIT);
    let tdif = tmv + step(rng) * rng.pick(&[1, 1, 10]);
    let tsa = (tdif + step(rng) * rng.pick(&[1, 1, 20])).min(LIMIT);
    let bound = rng.pick(&[0, 2, tzl, tmv, tmv + 50, tdif]);
    let (tll, tul) = match rng.below(8) {
        0 => (bound, bound),
        1 => (-LIMIT, -bound),
        2 => (bound, LIMIT),
        _ => (-rng.pick(&[bound, tmv]), bound),
    };
    Tolerance {
        tzl,
        tmv,
        tul: tul.clamp(-LIMIT, LIMIT),
        tll: tll.clamp(-LIMIT, LIMIT),
        tdif: tdif.min(tsa),
        tsa,
    }
}

/// A deviation at or next to something that decides about it.
fn deviation(rng: &mut Rng, limits: &Tolerance, mean: i64, k: i64) -> i64 {
    match rng.below(8) {
        // the new mean lands at or next to ±TZL
        0 | 1 => {
            let target = rng.signed(limits.tzl);
            mean + k * (target - mean) + rng.between(-k, k)
        }
        2 => rng.between(-limits.tmv, limits.tmv),
        3 => rng.between(-limits.tdif, limits.tdif),
        // halves: M - D is an odd number of half k
        4 => mean - k * rng.between(-4, 3) - k / 2,
        5 => rng.near(&[limits.tul, limits.tll]),
        _ => {
            let all = [0, limits.tzl, limits.tmv, limits.tdif, limits.tsa];
            let bound = rng.near(&all);
            rng.signed(bound)
        }
    }
}

/// A draft whose raws are yet to be placed.
fn draft(rng: &mut Rng, kind: Kind) -> Feature {
    let width = rng.pick(&[1, 2, 500, 20_000, 200_105, 1_320_000, 9_000_000]);
    let setpoint = match kind {
        Kind::Plane => rng.pick(&[-9_000_000, -width, 0, width, 800_000]),
        _ if rng.chance(3) => 10_000_000,
        _ => width,
    };
    let pair = matches!(kind, Kind::Groove | Kind::Web);
    let mut unused = || match rng.below(8) {
        0 => rng.near(&[-99_999_998, 99_999_998, 10_000_000]),
        _ => 0,
    };
    let raws = [unused(), unused(), unused(), unused()].map(Reading::Whole);
    Feature {
        kind: kind as i64,
        probe: rng.pick(&[1, 1, 1, 1, 1, 1, 1, 1, 2, 2, 3]),
        axis: rng.between(1, if pair { 2 } else { 3 }),
        direction: rng.between(0, 1),
        setpoint,
        centre: [(); 2].map(|()| rng.pick(&[0, 0, 640_000, -3_000_001, 1_000_000])),
        raws,
    }
}

/// The raw of a surface on an axis from 0.
fn raw(package: &Package, probe: i64, axis: usize, direction: Direction, surface: i64) -> i64 {
    let trigger = package
        .records()
        .trigger(probe as usize - 1, trigger_index(axis, direction));
    surface - direction.sign() * trigger
}

/// The low and high raw of a pair of this width and centre (h).
fn pair_raws(package: &Package, probe: i64, inside: bool, axis: usize, span: Span) -> [i64; 2] {
    let (low, high) = if inside {
        (Direction::Negative, Direction::Positive)
    } else {
        (Direction::Positive, Direction::Negative)
    };
    let low_surface = (span.centre - span.width).div_euclid(2);
    [
        raw(package, probe, axis, low, low_surface),
        raw(package, probe, axis, high, low_surface + span.width),
    ]
}

/// Width (u) and centre (h) of a pair.
#[derive(Clone, Copy)]
struct Span {
    width: i64,
    centre: i64,
}

/// Places the raws so that the size and the shifts (h) come out as wanted.
fn place(package: &Package, kind: Kind, feature: &mut Feature, size: i64, spans: [Span; 2]) {
    let probe = feature.probe;
    let inside = kind.is_inside();
    let axis = feature.axis as usize - 1;
    match kind {
        Kind::Plane => {
            let direction = Direction::from_number(feature.direction);
            let direction = direction.unwrap_or(Direction::Positive);
            feature.raws[0] = Reading::Whole(raw(package, probe, axis, direction, size));
        }
        Kind::Groove | Kind::Web => {
            let placed = pair_raws(package, probe, inside, axis, spans[axis]);
            feature.raws[..2].copy_from_slice(&placed.map(Reading::Whole));
        }
        Kind::Hole | Kind::Shaft => {
            for (axis, span) in spans.into_iter().enumerate() {
                let placed = pair_raws(package, probe, inside, axis, span);
                feature.raws[2 * axis..2 * axis + 2].copy_from_slice(&placed.map(Reading::Whole));
            }
        }
    }
}

/// The width of the abscissa, which a hole's deviation does not look at.
fn other_width(rng: &mut Rng, width: i64) -> i64 {
    match rng.below(20) {
        0 => rng.between(-1, 1),
        1 => 20_000,
        _ => width + rng.between(-2, 2),
    }
}

/// A measurement with tool offset.
pub fn tool_measurement(rng: &mut Rng, package: &Package) -> ToolMeasurement {
    let kind = rng.pick(&Kind::ALL);
    let tolerance = tolerance(rng);
    let ev = optional_number(rng, MEANS as i64);
    let mv = optional_number(rng, MEANS as i64);
    let k = rng.pick(&[1, 2, 2, 3, 4, 5, 6, 7, 10, 999, 1_000]);
    let stored = |values: &[i16], number: i64| match number {
        0 => 0,
        _ => i64::from(values[number as usize - 1]),
    };
    let mean = stored(&package.records().mv, mv);
    let deviation = deviation(rng, &tolerance, mean, k);
    let mut feature = draft(rng, kind);
    let size = deviation + stored(&package.records().ev, ev) + feature.setpoint;
    let centres = feature.centre.map(|set| 2 * set + rng.between(-900, 900));
    let mut spans = centres.map(|centre| Span {
        width: size,
        centre,
    });
    if matches!(kind, Kind::Hole | Kind::Shaft) {
        spans[0].width = other_width(rng, size);
    }
    place(package, kind, &mut feature, size, spans);
    ToolMeasurement {
        feature,
        tool: store_number(rng, TOOLS as i64),
        ev,
        mv,
        k,
        tolerance,
    }
}

/// A measurement with zero offset.
pub fn zero_measurement(rng: &mut Rng, package: &Package) -> ZeroMeasurement {
    let kind = rng.pick(&Kind::ALL);
    let tsa = rng.pick(&[0, 1, 50, 12_000, 20_000, 1_000_000]);
    let mut feature = draft(rng, kind);
    let shift = |rng: &mut Rng| match rng.below(3) {
        0 => {
            let bound = rng.near(&[2 * tsa]);
            rng.signed(bound)
        }
        _ => rng.between(-2 * tsa, 2 * tsa),
    };
    let plane = feature.setpoint + shift(rng).div_euclid(2) + rng.between(0, 1);
    let width = feature.setpoint + rng.between(-1, 40);
    let spans = feature.centre.map(|set| {
        let centre = 2 * set + shift(rng);
        let odd = (centre - width).rem_euclid(2);
        Span {
            width: width + odd,
            centre,
        }
    });
    place(package, kind, &mut feature, plane, spans);
    feature.kind += FIRST_KIND;
    ZeroMeasurement {
        feature,
        offset: store_number(rng, OFFSETS as i64),
        tsa,
    }
}
