//! Areas, arguments and floats of a wrong length: refused, and everything is left.

use crate::difference::Difference;
use crate::subject;
use mezhtolik::{boundary, Probing, Reading, Refusal};
use reference::Call;

/// What a call on lent slices answers and leaves.
#[derive(Clone, Debug, PartialEq, Eq)]
struct Lent {
    numbers: [usize; 3],
    area: Vec<i32>,
    array: Vec<i32>,
    buffer: Vec<u8>,
}

/// The lent slices before the call, and a refusal with nothing else.
fn left(area: &[i32], call: &Call, refusal: Refusal) -> Lent {
    let (array, buffer) = match call {
        Call::MeasureTool { array, .. } | Call::MeasureZero { array, .. } => {
            (array.clone(), Vec::new())
        }
        Call::Save { buffer } | Call::RunJob { buffer, .. } => (Vec::new(), buffer.clone()),
        _ => (Vec::new(), Vec::new()),
    };
    Lent {
        numbers: [refusal.number() as usize, 0, 0],
        area: area.to_vec(),
        array,
        buffer,
    }
}

/// By how many elements the arguments of a measurement and the floats of its
/// reports are too long; a negative number is too short.
#[derive(Clone, Copy, Default)]
struct More {
    arguments: isize,
    floats: isize,
}

/// What is lent, longer by so many.
fn resized<T: Copy>(lent: &[T], more: isize, filling: T) -> Vec<T> {
    let mut lent = lent.to_vec();
    lent.resize(lent.len().saturating_add_signed(more), filling);
    lent
}

/// The floats and which raws they are; none where the call with whole raws is
/// meant.
fn readings(probing: &Probing, more: More) -> Option<(Vec<f32>, u32)> {
    let reported = probing.reported();
    let floats = || resized(&probing.reports(), more.floats, 1.0);
    (reported != 0 || more.floats != 0).then(|| (floats(), reported))
}

/// A measurement with more arguments or floats.
fn measurement(lent: &mut Lent, call: &Call, more: More) -> Option<[usize; 3]> {
    let (area, array) = (&mut lent.area, &mut lent.array);
    let decision = match call {
        Call::MeasureTool {
            measurement, place, ..
        } => {
            let tool = subject::tool(measurement);
            let arguments = resized(&tool.numbers(), more.arguments, 1);
            match readings(&tool.probing, more) {
                None => boundary::measure_tool(area, &arguments, array, *place),
                Some((floats, reported)) => {
                    let reports = (&floats[..], reported);
                    boundary::measure_tool_readings(area, &arguments, reports, array, *place)
                }
            }
        }
        Call::MeasureZero {
            measurement, place, ..
        } => {
            let zero = subject::zero(measurement);
            let arguments = resized(&zero.numbers(), more.arguments, 1);
            match readings(&zero.probing, more) {
                None => boundary::measure_zero(area, &arguments, array, *place),
                Some((floats, reported)) => {
                    let reports = (&floats[..], reported);
                    boundary::measure_zero_readings(area, &arguments, reports, array, *place)
                }
            }
        }
        _ => return None,
    };
    let numbers = [decision.refusal, decision.branch, decision.verdict];
    Some(numbers.map(|number| number as usize))
}

fn calibration(area: &mut [i32], calibration: &mezhtolik::Calibration) -> u32 {
    let arguments = calibration.numbers();
    match calibration.raw {
        Reading::Whole(_) => boundary::calibrate(area, arguments),
        Reading::Report(report) => boundary::calibrate_report(area, arguments, report.floats()),
    }
}

/// A setting, calibration or block, which answers its refusal alone.
fn setting(lent: &mut Lent, call: &Call) -> Option<[usize; 3]> {
    let area = &mut lent.area;
    let refusal = match call {
        Call::SetEmpirical { number, value } => boundary::set_empirical(area, *number, *value),
        Call::SetWear {
            tool,
            radius,
            length,
        } => boundary::set_wear(area, *tool, *radius, *length),
        Call::SetOffset { offset, values } => boundary::set_offset(area, *offset, *values),
        Call::Calibrate(call) => calibration(area, &subject::calibration(call)),
        Call::Load { block } => boundary::load(area, block),
        Call::Save { .. } => boundary::save(area, &mut lent.buffer),
        _ => return None,
    };
    Some([refusal as usize, 0, 0])
}

/// A status read or a job.
fn other(lent: &mut Lent, call: &Call) -> Option<[usize; 3]> {
    match call {
        Call::Status { probe } => {
            let status = boundary::probe_status(&lent.area, *probe);
            Some([status.refusal, status.bits, status.count].map(|number| number as usize))
        }
        Call::RunJob { text, .. } => {
            let reply = boundary::run_job(&mut lent.area, text, &mut lent.buffer);
            Some([reply.refusal as usize, reply.length, 0])
        }
        _ => None,
    }
}

/// Makes the call on an area of any length, with more arguments or floats.
fn call_on(area: &[i32], call: &Call, more: More) -> Lent {
    let mut lent = left(area, call, Refusal::WrongArea);
    let numbers = measurement(&mut lent, call, more)
        .or_else(|| setting(&mut lent, call))
        .or_else(|| other(&mut lent, call));
    lent.numbers = numbers.expect("every call is one of these");
    lent
}

fn compare(lent: Lent, expected: Lent, what: &str) -> Result<(), Difference> {
    if lent == expected {
        return Ok(());
    }
    Err(Difference::Length(format!(
        "{what}\n  package   {lent:?}\n  expected  {expected:?}"
    )))
}

/// A call on an area that has `length` numbers and not 137.
pub fn wrong_area(area: &[i32], call: &Call, length: usize) -> Result<(), Difference> {
    let mut area = area.to_vec();
    area.resize(length, 7);
    // the area is looked at before the arguments and the floats
    let more = More {
        arguments: length as isize % 2,
        floats: length as isize % 3,
    };
    let expected = left(&area, call, Refusal::WrongArea);
    compare(call_on(&area, call, more), expected, "area")
}

/// A measurement on a whole area with arguments or floats of a wrong length.
fn wrong_lent(area: &[i32], call: &Call, more: More, what: &str) -> Result<(), Difference> {
    if !matches!(call, Call::MeasureTool { .. } | Call::MeasureZero { .. }) {
        return Ok(());
    }
    let expected = left(area, call, Refusal::WrongArguments);
    compare(call_on(area, call, more), expected, what)
}

/// A measurement on a whole area with arguments longer or shorter by `extra`.
pub fn wrong_arguments(area: &[i32], call: &Call, extra: isize) -> Result<(), Difference> {
    let more = More {
        arguments: extra,
        ..More::default()
    };
    wrong_lent(area, call, more, "arguments")
}

/// A measurement on a whole area with floats longer or shorter by `extra`.
pub fn wrong_floats(area: &[i32], call: &Call, extra: isize) -> Result<(), Difference> {
    let more = More {
        floats: extra,
        ..More::default()
    };
    wrong_lent(area, call, more, "floats")
}
