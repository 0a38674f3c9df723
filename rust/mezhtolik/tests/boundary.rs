//! The calls on lent areas of a wrong length: 100, and everything is left.

use mezhtolik::boundary::*;
use mezhtolik::{AREA, REPORTS, TOOL_ARGUMENTS, ZERO_ARGUMENTS};

const LENGTHS: [usize; 5] = [0, 1, AREA - 1, AREA + 1, 2 * AREA];

/// Makes a call on areas of wrong lengths; all of them stay.
fn refused(call: impl Fn(&mut [i32]) -> u32) {
    for length in LENGTHS {
        let mut area = vec![77; length];
        assert_eq!(call(&mut area), 100, "{length} numbers");
        assert_eq!(area, vec![77; length]);
    }
}

#[test]
fn fresh_clears_any_content() {
    let mut area = [77; AREA];
    assert_eq!((fresh(&mut area), area), (0, [0; AREA]));
}

#[test]
fn settings_and_blocks() {
    refused(fresh);
    refused(|area| set_empirical(area, 1, 1));
    refused(|area| set_wear(area, 1, 1, 1));
    refused(|area| set_offset(area, 1, [1, 1, 1]));
    refused(|area| calibrate(area, [1, 1, 0, 0, 0, 0, 0]));
    refused(|area| calibrate_report(area, [1, 1, 0, 0, 0, 0, 0], [f32::NAN; 3]));
    refused(|area| load(area, &[1; 80]));
    refused(|area| {
        let mut buffer = [7; 80];
        let refusal = save(area, &mut buffer);
        assert_eq!(buffer, [7; 80]);
        refusal
    });
}

#[test]
fn status() {
    refused(|area| {
        let status = probe_status(area, 1);
        assert_eq!((status.bits, status.count), (0, 0));
        status.refusal
    });
}

/// What both measurements have in common.
type Measure = fn(&mut [i32], &[i64], &mut [i32], usize) -> RawDecision;

#[test]
fn measurements() {
    let both: [(Measure, usize); 2] = [
        (measure_tool, TOOL_ARGUMENTS),
        (measure_zero, ZERO_ARGUMENTS),
    ];
    for (measure, arguments) in both {
        for count in [0, arguments - 1, arguments, arguments + 1] {
            let mut results = [77; 42];
            refused(|area| {
                let mut results = results;
                let decision = measure(area, &vec![1; count], &mut results, 0);
                assert_eq!(
                    (decision.branch, decision.verdict, results),
                    (0, 0, [77; 42])
                );
                decision.refusal
            });
            let mut area = [77; AREA];
            let decision = measure(&mut area, &vec![1; count], &mut results[..41], 0);
            // arguments of the right number come to the next test, the room
            let refusal = if count == arguments { 1 } else { 101 };
            assert_eq!(
                (decision.refusal, area, results),
                (refusal, [77; AREA], [77; 42])
            );
        }
    }
}

/// What both measurements with readings have in common.
type MeasureReadings = fn(&mut [i32], &[i64], (&[f32], u32), &mut [i32], usize) -> RawDecision;

const BOTH_READINGS: [(MeasureReadings, usize); 2] = [
    (measure_tool_readings, TOOL_ARGUMENTS),
    (measure_zero_readings, ZERO_ARGUMENTS),
];

#[test]
fn measurements_with_readings() {
    for (measure, arguments) in BOTH_READINGS {
        for (count, floats) in [
            (arguments - 1, REPORTS),
            (arguments + 1, REPORTS),
            (0, 0),
            (arguments, REPORTS - 1),
            (arguments, REPORTS + 1),
            (arguments, 0),
            (arguments, REPORTS),
        ] {
            let (numbers, floats) = (vec![1; count], vec![f32::NAN; floats]);
            let lent = |area: &mut [i32], results: &mut [i32]| {
                measure(area, &numbers, (&floats, 15), results, 0)
            };
            refused(|area| {
                let mut results = [77; 42];
                let decision = lent(area, &mut results);
                assert_eq!(results, [77; 42]);
                decision.refusal
            });
            let (mut area, mut results) = ([77; AREA], [77; 42]);
            let decision = lent(&mut area, &mut results[..41]);
            // what is lent of the right number comes to the next test, the room
            let whole = count == arguments && floats.len() == REPORTS;
            let refusal = if whole { 1 } else { 101 };
            let expected = RawDecision {
                refusal,
                ..RawDecision::default()
            };
            assert_eq!((decision, area, results), (expected, [77; AREA], [77; 42]));
        }
    }
}

/// The places that a call with readings does not look at: the floats of a whole
/// raw, the number of a reported one, the bits behind the fourth.
#[test]
fn what_is_not_used_is_not_looked_at() {
    // a groove from 100 to 200 u, its low raw whole, its high one reported
    let tool = [
        3,
        1,
        1,
        0,
        100,
        0,
        0,
        600,
        i64::MIN,
        7,
        7,
        3,
        0,
        0,
        1,
        0,
        100,
        0,
        0,
        200,
        300,
    ];
    let zero = [103, 1, 1, 0, 100, 0, 0, 600, i64::MIN, 7, 7, 2, 1000];
    let mut floats = [f32::NAN; REPORTS];
    floats[3] = -0.03;
    for (bits, both) in [(0b1110, [1, 6]), (0xffff_fff2, [1, 6]), (0xf, [13, 13])] {
        let (mut area, mut results) = ([0; AREA], [0; 42]);
        for (direction, raw) in [(0, -500), (1, 500)] {
            assert_eq!(calibrate(&mut area, [1, 1, direction, 0, raw, 0, 1000]), 0);
        }
        let by_tool = measure_tool_readings(&mut area, &tool, (&floats, bits), &mut results, 0);
        let by_zero = measure_zero_readings(&mut area, &zero, (&floats, bits), &mut results, 0);
        let told = [by_tool, by_zero].map(|decision| decision.refusal.max(decision.branch));
        assert_eq!(told, both, "{bits:b}");
    }
}

#[test]
fn jobs() {
    for (text, room) in [(&b"E,1,5\n"[..], 40), (b"", 0), (b"E,1,5", 0)] {
        refused(|area| {
            let mut output = vec![77; room];
            let reply = run_job(area, text, &mut output);
            assert_eq!((reply.length, output), (0, vec![77; room]));
            reply.refusal
        });
    }
}
