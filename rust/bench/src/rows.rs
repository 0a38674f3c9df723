//! The rows of the table. Both sides begin each round with the same records.

use std::hint::black_box;

use crate::inputs;
use crate::job::lines;
use crate::sides::Side;
use crate::timing::Row;
use differential::{layout, subject};
use mezhtolik::boundary;
use reference::{
    Calibrated, Calibration, Measured, ProbeStatus, Refusal, ToolMeasurement, ZeroMeasurement,
};

/// Calls of one round.
const CALLS: usize = 960;

/// Both packages before a round.
pub struct Start {
    package: mezhtolik::Package,
    reference: reference::Package,
}

impl Start {
    pub fn calibrated() -> Self {
        let reference = inputs::calibrated();
        let area = layout::numbers(reference.records());
        Start {
            package: mezhtolik::Package::from_area(area),
            reference,
        }
    }
}

/// A row whose sides make one call for each of their arguments, over and over.
fn row<'a, A: 'a, B: 'a>(
    name: &'static str,
    start: &'a Start,
    (ours, theirs): (Vec<A>, Vec<B>),
    mut package: impl FnMut(&mut mezhtolik::Package, &A) + 'a,
    mut reference: impl FnMut(&mut reference::Package, &B) + 'a,
) -> Row<'a> {
    let times = CALLS / ours.len();
    let mut our_package = start.package.clone();
    let mut their_package = start.reference.clone();
    Row {
        name,
        count: times * ours.len(),
        package: Box::new(move || {
            our_package.clone_from(&start.package);
            for _ in 0..times {
                ours.iter()
                    .for_each(|argument| package(&mut our_package, black_box(argument)));
            }
        }),
        other: Box::new(move || {
            their_package.clone_from(&start.reference);
            for _ in 0..times {
                theirs
                    .iter()
                    .for_each(|argument| reference(&mut their_package, black_box(argument)));
            }
        }),
    }
}

fn both<A, B>(theirs: Vec<B>, ours: impl Fn(&B) -> A) -> (Vec<A>, Vec<B>) {
    (theirs.iter().map(ours).collect(), theirs)
}

fn same<A: Clone>(arguments: Vec<A>) -> (Vec<A>, Vec<A>) {
    both(arguments, A::clone)
}

/// The reference's calls. They go through pointers: the package's are calls of
/// a library, and these stay so too in place of being compiled into the loop.
struct Calls {
    measure_tool: Measure<ToolMeasurement>,
    measure_zero: Measure<ZeroMeasurement>,
    calibrate: fn(&mut reference::Package, &Calibration) -> Result<Calibrated, Refusal>,
    status: fn(&reference::Package, i64) -> Result<ProbeStatus, Refusal>,
    set_empirical: fn(&mut reference::Package, i64, i64) -> Result<(), Refusal>,
    set_wear: fn(&mut reference::Package, i64, i64, i64) -> Result<(), Refusal>,
    set_offset: fn(&mut reference::Package, i64, [i64; 3]) -> Result<(), Refusal>,
    fresh: fn() -> reference::Package,
    load: fn(&mut reference::Package, &[u8]) -> Result<(), Refusal>,
    save: fn(&reference::Package, &mut [u8]) -> Result<(), Refusal>,
}

type Measure<A> = fn(&mut reference::Package, &A, &mut [i32], usize) -> Result<Measured, Refusal>;

fn of_reference() -> Calls {
    black_box(Calls {
        measure_tool: reference::Package::measure_tool,
        measure_zero: reference::Package::measure_zero,
        calibrate: reference::Package::calibrate,
        status: reference::Package::status,
        set_empirical: reference::Package::set_empirical,
        set_wear: reference::Package::set_wear,
        set_offset: reference::Package::set_offset,
        fresh: reference::Package::fresh,
        load: reference::Package::load,
        save: reference::Package::save,
    })
}

/// Measurements with tool offset, whole or read by a float box.
fn tool<'a>(name: &'static str, start: &'a Start, parts: Vec<ToolMeasurement>) -> Row<'a> {
    let Calls { measure_tool, .. } = of_reference();
    let (mut ours, mut theirs) = ([0; 42], [0; 42]);
    row(
        name,
        start,
        both(parts, subject::tool),
        move |package, part| {
            let result = package.measure_tool(part, black_box(&mut ours), 0);
            let _ = black_box(result);
        },
        move |package, part| {
            let result = measure_tool(package, part, black_box(&mut theirs), 0);
            let _ = black_box(result);
        },
    )
}

/// Measurements with zero offset, whole or read by a float box.
fn zero<'a>(name: &'static str, start: &'a Start, parts: Vec<ZeroMeasurement>) -> Row<'a> {
    let Calls { measure_zero, .. } = of_reference();
    let (mut ours, mut theirs) = ([0; 42], [0; 42]);
    row(
        name,
        start,
        both(parts, subject::zero),
        move |package, part| {
            let result = package.measure_zero(part, black_box(&mut ours), 0);
            let _ = black_box(result);
        },
        move |package, part| {
            let result = measure_zero(package, part, black_box(&mut theirs), 0);
            let _ = black_box(result);
        },
    )
}

/// Calibrations, whole or read by a float box.
fn calibration<'a>(name: &'static str, start: &'a Start, all: Vec<Calibration>) -> Row<'a> {
    let Calls { calibrate, .. } = of_reference();
    row(
        name,
        start,
        both(all, subject::calibration),
        |package, calibration| {
            let _ = black_box(package.calibrate(calibration));
        },
        move |package, calibration| {
            let _ = black_box(calibrate(package, calibration));
        },
    )
}

fn measurements(start: &Start) -> [Row<'_>; 4] {
    [
        tool("measure_tool", start, inputs::tool_parts()),
        tool("measure_tool_readings", start, inputs::tool_reports()),
        zero("measure_zero", start, inputs::zero_parts()),
        zero("measure_zero_readings", start, inputs::zero_reports()),
    ]
}

fn probes(start: &Start) -> [Row<'_>; 3] {
    let Calls { status, .. } = of_reference();
    let reported = inputs::reported_recalibrations();
    [
        calibration("calibrate", start, inputs::recalibrations()),
        calibration("calibrate_report", start, reported),
        row(
            "probe_status",
            start,
            same(vec![1, 2, 3]),
            |package, &probe| {
                let _ = black_box(package.probe_status(probe));
            },
            move |package, &probe| {
                let _ = black_box(status(package, probe));
            },
        ),
    ]
}

fn settings(start: &Start) -> [Row<'_>; 2] {
    let Calls {
        set_empirical,
        set_wear,
        ..
    } = of_reference();
    let values = (0..60).map(|turn| (1 + turn % 20, turn - 30));
    let wears = (0..60).map(|turn| (1 + turn % 32, turn - 30, -turn));
    [
        row(
            "set_empirical",
            start,
            same(values.collect()),
            |package, &(ev, value)| {
                let _ = black_box(package.set_empirical(ev, value));
            },
            move |package, &(ev, value)| {
                let _ = black_box(set_empirical(package, ev, value));
            },
        ),
        row(
            "set_wear",
            start,
            same(wears.collect()),
            |package, &(tool, radius, length)| {
                let _ = black_box(package.set_wear(tool, radius, length));
            },
            move |package, &(tool, radius, length)| {
                let _ = black_box(set_wear(package, tool, radius, length));
            },
        ),
    ]
}

fn zero_offsets(start: &Start) -> Row<'_> {
    let Calls { set_offset, .. } = of_reference();
    let offsets = (0..60).map(|turn| (1 + turn % 4, [turn, -turn, 12_000]));
    row(
        "set_offset",
        start,
        same(offsets.collect()),
        |package, &(offset, values)| {
            let _ = black_box(package.set_offset(offset, values));
        },
        move |package, &(offset, values)| {
            let _ = black_box(set_offset(package, offset, values));
        },
    )
}

/// Both make the records that are there fresh ones.
fn fresh(start: &Start) -> Row<'_> {
    let Calls { fresh, .. } = of_reference();
    let mut area = *start.package.area();
    row(
        "fresh",
        start,
        same(vec![(); 16]),
        move |_, ()| {
            black_box(boundary::fresh(black_box(&mut area)));
        },
        move |package, ()| {
            *package = fresh();
            black_box(package);
        },
    )
}

fn blocks(start: &Start) -> [Row<'_>; 2] {
    let Calls { load, save, .. } = of_reference();
    let block =
        |turn: u8| -> Vec<u8> { (0..80).map(|place: u8| place.wrapping_mul(turn)).collect() };
    let (mut ours, mut theirs) = ([0; 80], [0; 80]);
    [
        row(
            "load",
            start,
            same((1..=16).map(block).collect()),
            |package, block| {
                let _ = black_box(package.load(block));
            },
            move |package, block| {
                let _ = black_box(load(package, block));
            },
        ),
        row(
            "save",
            start,
            same(vec![(); 16]),
            move |package, ()| {
                let _ = black_box(package.save(black_box(&mut ours)));
            },
            move |package, ()| {
                let _ = black_box(save(package, black_box(&mut theirs)));
            },
        ),
    ]
}

/// A job of the package against that of another side, a line counting as one.
fn job<'a>(name: &'static str, text: &'a [u8], other: Side) -> Row<'a> {
    Row {
        name,
        count: lines(text),
        package: Side::Package.work(text),
        other: other.work(text),
    }
}

/// A row for each exported call.
pub fn calls<'a>(start: &'a Start, job_text: &'a [u8]) -> Vec<Row<'a>> {
    let mut rows = vec![job("run_job, a line", job_text, Side::Reference)];
    rows.extend(measurements(start));
    rows.extend(probes(start));
    rows.extend(settings(start));
    rows.push(zero_offsets(start));
    rows.extend(blocks(start));
    rows.push(fresh(start));
    rows
}

/// The job against its limit.
pub fn limit(job_text: &[u8]) -> Row<'_> {
    job("a line", job_text, Side::Reading)
}

/// Measurements as T lines, and the same as G lines.
pub fn floats<'a>(whole: &'a [u8], floats: &'a [u8]) -> Row<'a> {
    Row {
        name: "a line",
        count: lines(whole),
        package: Side::Package.work(whole),
        other: Side::Package.work(floats),
    }
}

#[cfg(test)]
mod tests {
    use super::*;
    use differential::Pair;
    use reference::Call;
    use std::{collections::BTreeSet, fs};

    /// Makes the calls on both sides and counts them by branch, 0 for refused.
    fn branches(calls: impl Iterator<Item = Call>) -> [usize; 7] {
        let mut pair = Pair::of_area(layout::numbers(inputs::calibrated().records()));
        let mut counts = [0; 7];
        for call in calls {
            let answer = pair.step(&call).unwrap_or_else(|found| panic!("{found}"));
            counts[usize::from(answer.branch)] += 1;
        }
        counts
    }

    fn tool_call(measurement: ToolMeasurement) -> Call {
        Call::MeasureTool {
            measurement,
            array: vec![0; 42],
            place: 0,
        }
    }

    fn zero_call(measurement: ZeroMeasurement) -> Call {
        Call::MeasureZero {
            measurement,
            array: vec![0; 42],
            place: 0,
        }
    }

    #[test]
    fn parts_end_in_every_branch_and_few_are_refused() {
        let tool = branches(inputs::tool_parts().into_iter().map(tool_call));
        assert!(tool[1..=5].iter().all(|&count| count >= 5), "{tool:?}");
        assert!(tool[0] <= inputs::PARTS / 5, "{tool:?}");
        let zero = branches(inputs::zero_parts().into_iter().map(zero_call));
        assert!(zero[6] >= inputs::PARTS * 4 / 5, "{zero:?}");
        let reported = branches(inputs::tool_reports().into_iter().map(tool_call));
        assert_eq!(reported, tool);
        let reported = branches(inputs::zero_reports().into_iter().map(zero_call));
        assert_eq!(reported, zero);
    }

    /// The names of the calls that the C header declares.
    fn declared() -> BTreeSet<String> {
        let path = concat!(env!("CARGO_MANIFEST_DIR"), "/../../include/mezhtolik.h");
        let header = fs::read_to_string(path).expect("the C header");
        let words = header.split(|c: char| !c.is_alphanumeric() && c != '_' && c != '(');
        let calls = words.filter_map(|word| word.strip_prefix("mezhtolik_")?.split_once('('));
        calls.map(|(name, _)| name.to_owned()).collect()
    }

    #[test]
    fn every_declared_call_has_a_row() {
        let start = Start::calibrated();
        let text = crate::job::text();
        let rows = calls(&start, &text);
        let names = rows.iter().map(|row| row.name.replace(", a line", ""));
        assert_eq!(names.collect::<BTreeSet<_>>(), declared());
    }

    #[test]
    fn recalibrations_are_done() {
        let reported = inputs::reported_recalibrations();
        let calls = inputs::recalibrations().into_iter().chain(reported);
        let calls = calls.map(Call::Calibrate);
        let mut pair = Pair::of_area(layout::numbers(inputs::calibrated().records()));
        for call in calls {
            let answer = pair.step(&call).unwrap_or_else(|found| panic!("{found}"));
            assert_eq!(answer.refusal, 0);
        }
    }
}
