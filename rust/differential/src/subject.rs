//! The reference's calls made on the package.

use mezhtolik::{Decision, Limits, Package, Probing, Reading, Refusal, Report};
use reference::{Answer, Call};

/// The package's form of a reading.
fn reading(reading: &reference::Reading) -> Reading {
    match *reading {
        reference::Reading::Whole(position) => Reading::Whole(position),
        reference::Reading::Report(reference::Report { x, y, z }) => {
            Reading::Report(Report { x, y, z })
        }
    }
}

fn probing(feature: &reference::Feature) -> Probing {
    Probing {
        kind: feature.kind,
        probe: feature.probe,
        axis: feature.axis,
        direction: feature.direction,
        setpoint: feature.setpoint,
        set_centre: feature.centre,
        raws: feature.raws.each_ref().map(reading),
    }
}

/// The package's form of a measurement with tool offset.
pub fn tool(measurement: &reference::ToolMeasurement) -> mezhtolik::ToolMeasurement {
    let limits = &measurement.tolerance;
    mezhtolik::ToolMeasurement {
        probing: probing(&measurement.feature),
        tool: measurement.tool,
        ev: measurement.ev,
        mv: measurement.mv,
        k: measurement.k,
        limits: Limits {
            tzl: limits.tzl,
            tmv: limits.tmv,
            tul: limits.tul,
            tll: limits.tll,
            tdif: limits.tdif,
            tsa: limits.tsa,
        },
    }
}

/// The package's form of a measurement with zero offset.
pub fn zero(measurement: &reference::ZeroMeasurement) -> mezhtolik::ZeroMeasurement {
    mezhtolik::ZeroMeasurement {
        probing: probing(&measurement.feature),
        offset: measurement.offset,
        tsa: measurement.tsa,
    }
}

/// The package's form of a calibration.
pub fn calibration(call: &reference::Calibration) -> mezhtolik::Calibration {
    mezhtolik::Calibration {
        probe: call.probe,
        axis: call.axis,
        direction: call.direction,
        setpoint: call.setpoint,
        raw: reading(&call.raw),
        tzl: call.tzl,
        tsa: call.tsa,
    }
}

fn plain<T>(result: Result<T, Refusal>) -> Answer {
    Answer {
        refusal: result.map_or_else(|refusal| refusal.number() as u8, |_| 0),
        ..Answer::default()
    }
}

fn measured(result: Result<Decision, Refusal>, array: Vec<i32>) -> Answer {
    let (branch, verdict) =
        result.map_or((0, 0), |done| (done.branch.number(), done.verdict.number()));
    Answer {
        branch: branch as u8,
        verdict: verdict as u8,
        array,
        ..plain(result)
    }
}

/// Makes a call and gathers everything that is seen of its answer.
pub fn apply(package: &mut Package, call: &Call) -> Answer {
    match call {
        Call::SetEmpirical { number, value } => plain(package.set_empirical(*number, *value)),
        Call::SetWear {
            tool,
            radius,
            length,
        } => plain(package.set_wear(*tool, *radius, *length)),
        Call::SetOffset { offset, values } => plain(package.set_offset(*offset, *values)),
        Call::Calibrate(call) => plain(package.calibrate(&calibration(call))),
        Call::Status { probe } => status(package, *probe),
        Call::MeasureTool {
            measurement,
            array,
            place,
        } => {
            let mut array = array.clone();
            let result = package.measure_tool(&tool(measurement), &mut array, *place);
            measured(result, array)
        }
        Call::MeasureZero {
            measurement,
            array,
            place,
        } => {
            let mut array = array.clone();
            let result = package.measure_zero(&zero(measurement), &mut array, *place);
            measured(result, array)
        }
        Call::Load { block } => plain(package.load(block)),
        Call::Save { buffer } => save(package, buffer),
        Call::RunJob { text, buffer } => job(package, text, buffer),
    }
}

fn status(package: &Package, probe: i64) -> Answer {
    let result = package.probe_status(probe);
    let status = result.unwrap_or_default();
    Answer {
        bits: status.bits,
        count: status.count,
        ..plain(result)
    }
}

fn save(package: &Package, buffer: &[u8]) -> Answer {
    let mut buffer = buffer.to_vec();
    let result = package.save(&mut buffer);
    Answer {
        buffer,
        ..plain(result)
    }
}

fn job(package: &mut Package, text: &[u8], buffer: &[u8]) -> Answer {
    let mut buffer = buffer.to_vec();
    let result = package.run_job(text, &mut buffer);
    Answer {
        buffer,
        length: result.unwrap_or(0),
        ..plain(result)
    }
}
