//! What is timed: parts of all kinds that end in every branch.

use reference::{
    Calibration, Feature, Package, Reading, Report, Tolerance, ToolMeasurement, ZeroMeasurement,
};

/// Every direction of every probe has this trigger.
const TRIGGER: i64 = 500;
/// Measurements of one round.
pub const PARTS: usize = 240;

/// The calibrations of all directions of all probes.
pub fn calibrations() -> Vec<Calibration> {
    let directions = (1..=3).flat_map(|axis| [(axis, 0, 1), (axis, 1, -1)]);
    let probes = (1..=3).flat_map(|probe| directions.clone().map(move |way| (probe, way)));
    let calibration = |(probe, (axis, direction, sign))| Calibration {
        probe,
        axis,
        direction,
        setpoint: 200_000,
        raw: Reading::Whole(200_000 - sign * TRIGGER),
        tzl: 0,
        tsa: 40_000,
    };
    probes.map(calibration).collect()
}

/// Calibrations again, whose trigger changes by less or more than TZL.
pub fn recalibrations() -> Vec<Calibration> {
    let again = |(index, calibration): (usize, Calibration)| {
        let raw = calibration.raw.position(0).expect("a whole position");
        Calibration {
            raw: Reading::Whole(raw + index as i64 % 7 - 3),
            tzl: 2,
            tsa: 1_000,
            ..calibration
        }
    };
    calibrations().into_iter().enumerate().map(again).collect()
}

/// A package with all probes calibrated.
pub fn calibrated() -> Package {
    let mut package = Package::fresh();
    for calibration in calibrations() {
        package.calibrate(&calibration).expect("sound calibrations");
    }
    package
}

/// Low and high raw of a pair of this width around a centre.
fn pair(inside: bool, width: i64, centre: i64) -> [i64; 2] {
    let low = centre - width / 2;
    let sign = if inside { 1 } else { -1 };
    [low + sign * TRIGGER, low + width - sign * TRIGGER]
}

/// A part of a kind (0..4) that deviates by `deviation`; `turn` varies the rest.
fn part(kind: i64, turn: i64, deviation: i64) -> Feature {
    let direction = turn % 2;
    let sign = 1 - 2 * direction;
    let setpoint = 200_105 + 40 * turn;
    let inside = kind == 1 || kind == 3;
    let [c1, c2] = [1_000_000, -800_000];
    let axis = 1 + turn % if kind == 0 { 3 } else { 2 };
    let raws = match kind {
        0 => [setpoint + deviation - sign * TRIGGER, 0, 0, 0],
        1 | 2 => {
            let [r1, r2] = pair(inside, setpoint + deviation, c1 + 3);
            let [r3, r4] = pair(inside, setpoint + deviation, c2 - 5);
            [r1, r2, r3, r4]
        }
        _ => {
            let [r1, r2] = pair(inside, setpoint + deviation, [c1, c2][axis as usize - 1]);
            [r1, r2, 0, 0]
        }
    };
    Feature {
        kind,
        probe: 1 + turn % 3,
        axis,
        direction,
        setpoint,
        centre: [c1, c2],
        raws: raws.map(Reading::Whole),
    }
}

/// Deviations that lead through the branches, some refused by 8 and 7.
const DEVIATIONS: [i64; 12] = [3, 19, -40, 60, 99, -7, 120, 25, -88, 0, 301, 1_001];

/// Measurements with tool offset: all kinds, with and without EV and mean.
pub fn tool_parts() -> Vec<ToolMeasurement> {
    (0..PARTS as i64)
        .map(|turn| ToolMeasurement {
            feature: part(turn % 5, turn, DEVIATIONS[turn as usize % DEVIATIONS.len()]),
            tool: 1 + turn % 32,
            ev: 0,
            mv: [0, 1 + turn % 20][(turn % 3).min(1) as usize],
            k: 1 + turn % 9,
            tolerance: Tolerance {
                tzl: 20,
                tmv: 100,
                tul: 80,
                tll: -80,
                tdif: 300,
                tsa: 1_000,
            },
        })
        .collect()
}

/// What a float box reports for a whole position: the float next to it, and on
/// each axis the same, as on a G line.
fn report(reading: Reading) -> Reading {
    let position = reading.position(0).expect("a whole position");
    let millimetres = (position as f64 / 10_000.0) as f32;
    Reading::Report(Report::of_bits(millimetres.to_bits()))
}

/// The same measurements with tool offset, read by a float box.
pub fn tool_reports() -> Vec<ToolMeasurement> {
    let mut parts = tool_parts();
    for part in &mut parts {
        part.feature.raws = part.feature.raws.map(report);
    }
    parts
}

/// The same measurements with zero offset, read by a float box.
pub fn zero_reports() -> Vec<ZeroMeasurement> {
    let mut parts = zero_parts();
    for part in &mut parts {
        part.feature.raws = part.feature.raws.map(report);
    }
    parts
}

/// The same calibrations again, read by a float box.
pub fn reported_recalibrations() -> Vec<Calibration> {
    let mut all = recalibrations();
    for calibration in &mut all {
        calibration.raw = report(calibration.raw);
    }
    all
}

/// Measurements with zero offset: all kinds, a few refused by 7.
pub fn zero_parts() -> Vec<ZeroMeasurement> {
    (0..PARTS as i64)
        .map(|turn| {
            let mut feature = part(turn % 5, turn, DEVIATIONS[turn as usize % DEVIATIONS.len()]);
            feature.kind += 100;
            ZeroMeasurement {
                feature,
                offset: 1 + turn % 4,
                tsa: 1_000,
            }
        })
        .collect()
}
