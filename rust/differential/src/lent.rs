//! A measurement made once more, by the call with readings and with anything in
//! the places that it does not look at.

use crate::difference::Difference;
use crate::subject;
use mezhtolik::boundary::{self, RawDecision};
use mezhtolik::{Probing, REPORTS};
use reference::generate::Rng;
use reference::Call;

/// Where r1 to r4 stand among the arguments.
const RAWS: usize = 7;

/// What is lent for the readings of a measurement.
struct Readings {
    reports: [f32; REPORTS],
    reported: u32,
}

/// Lends readings with other floats for the whole raws, other numbers for the
/// reported ones, and other bits behind the fourth.
fn filled(rng: &mut Rng, probing: &Probing, arguments: &mut [i64]) -> Readings {
    let mut reports = probing.reports();
    let reported = probing.reported();
    for raw in 0..4 {
        if reported >> raw & 1 == 1 {
            arguments[RAWS + raw] = rng.draw() as i64;
        } else {
            let floats = &mut reports[3 * raw..3 * raw + 3];
            floats.fill_with(|| f32::from_bits(rng.draw() as u32));
        }
    }
    let others = (rng.draw() as u32) << 4;
    Readings {
        reports,
        reported: reported | others,
    }
}

/// Answer, area and array of a measurement.
type Made = (RawDecision, Vec<i32>, Vec<i32>);

/// The measurement by the call with readings; none for another call.
fn made(rng: &mut Rng, area: &[i32], call: &Call) -> Option<Made> {
    let mut area = area.to_vec();
    let (decision, array) = match call {
        Call::MeasureTool {
            measurement,
            array,
            place,
        } => {
            let (tool, mut array) = (subject::tool(measurement), array.clone());
            let mut numbers = tool.numbers();
            let lent = filled(rng, &tool.probing, &mut numbers);
            let reports = (&lent.reports[..], lent.reported);
            let area = &mut area;
            let decision =
                boundary::measure_tool_readings(area, &numbers, reports, &mut array, *place);
            (decision, array)
        }
        Call::MeasureZero {
            measurement,
            array,
            place,
        } => {
            let (zero, mut array) = (subject::zero(measurement), array.clone());
            let mut numbers = zero.numbers();
            let lent = filled(rng, &zero.probing, &mut numbers);
            let reports = (&lent.reports[..], lent.reported);
            let area = &mut area;
            let decision =
                boundary::measure_zero_readings(area, &numbers, reports, &mut array, *place);
            (decision, array)
        }
        _ => return None,
    };
    Some((decision, area, array))
}

/// Holds a measurement on an area against the same by the call with readings;
/// how many were tried.
pub fn otherwise(area: &[i32; mezhtolik::AREA], call: &Call, seed: u64) -> Result<u64, Difference> {
    let Some((decision, area_after, array)) = made(&mut Rng::new(seed), area, call) else {
        return Ok(0);
    };
    let mut package = mezhtolik::Package::from_area(*area);
    let answer = subject::apply(&mut package, call);
    let RawDecision {
        refusal,
        branch,
        verdict,
    } = decision;
    let told = [answer.refusal, answer.branch, answer.verdict].map(u32::from);
    if told == [refusal, branch, verdict]
        && answer.array == array
        && package.area()[..] == area_after
    {
        return Ok(1);
    }
    Err(Difference::Lent(format!(
        "  by readings {decision:?}, array {array:?}\n  as it is    {answer:?}"
    )))
}
