//! The 42 numbers, place by place.

mod common;

use common::{at, call, with, GROOVE, ZERO_GROOVE};
use reference::{Package, Records, Refusal, RESULT};

/// Distinct triggers, an EV and a mean, so that no two places agree by chance.
fn package() -> Package {
    let mut records = Records {
        triggers: [[500, 600, 700, 800, 900, 1000], [0; 6], [0; 6]],
        status: [0x3f, 0, 0],
        ..Records::fresh()
    };
    records.ev[8] = -12;
    records.mv[1] = 8;
    Package::from_records(records)
}

/// 42 zeros with these places filled; `_OVI` begins at 32.
fn expected(places: &[(usize, i32)]) -> Vec<i32> {
    let mut array = vec![0; RESULT];
    for &(place, value) in places {
        array[place] = value;
    }
    array
}

/// Axis 1: low -100000 - 500, high 101000 + 600; axis 2: -99000 - 700, 99550 + 800.
fn hole() -> [i64; 21] {
    let raws = [
        (at::R1, -100_000),
        (at::R2, 101_000),
        (at::R3, -99_000),
        (at::R4, 99_550),
    ];
    let others = [
        (at::KIND, 1),
        (at::SETPOINT, 200_000),
        (at::C1, 333),
        (at::C2, -444),
        (at::EV, 9),
        (at::TLL, -140),
    ];
    with(with(GROOVE, &raws), &others)
}

#[test]
fn tool_hole() {
    let mut package = package();
    let answer = call(&mut package, 'T', &hole());
    // width 200050, EV -12: D = 62; new mean 8 + 54/5 = 19
    let places = [
        (0, 200_000),
        (1, 333),
        (2, -444),
        (4, 200_062),
        (5, 1_100),
        (6, 650),
        (8, 200_150),
        (12, 199_860),
        (16, 62),
        (17, 434),
        (18, 1_538),
        (27, 20),
        (28, 1000),
        (29, 300),
        (30, -12),
        (31, 19),
        (32, 4),
        (34, 977),
        (35, 1),
        (36, 5),
        (37, 1),
        (38, 2),
        (39, 9),
        (40, 4),
    ];
    assert_eq!(answer.array, expected(&places));
    assert_eq!((answer.refusal, answer.branch, answer.verdict), (0, 3, 0));
    assert_eq!(package.records().mv[1], 19);
}

/// Surface 100 - 900 on axis 3, negative: D = -800 + 12 + 700 = -88.
fn plane() -> [i64; 21] {
    let changes = [
        (at::KIND, 0),
        (at::AXIS, 3),
        (at::DIRECTION, 1),
        (at::SETPOINT, -700),
        (at::C1, 5),
        (at::R1, 100),
        (at::EV, 9),
    ];
    with(GROOVE, &changes)
}

#[test]
fn tool_plane_with_and_without_mean() {
    let common = [
        (0, -700),
        (4, -788),
        (8, -550),
        (12, -850),
        (16, -88),
        (28, 1000),
        (29, 300),
        (30, -12),
        (32, 4),
        (34, 978),
        (37, 1),
        (39, 9),
        (40, 4),
    ];
    let with_mean = [(27, 20), (31, -11), (36, 5), (38, 2)];
    let mut package = package();
    let answer = call(&mut package, 'T', &plane());
    assert_eq!(answer.array, expected(&[&common[..], &with_mean].concat()));
    assert_eq!(answer.branch, 3);

    let without_mean = [(20, -88), (27, 20), (36, 5)];
    let answer = call(&mut package, 'T', &with(plane(), &[(at::MV, 0)]));
    assert_eq!(
        answer.array,
        expected(&[&common[..], &without_mean].concat())
    );
    assert_eq!(answer.branch, 2);
    // 2·s·c with s = -1, to length wear
    assert_eq!(package.records().wears[3].length, 176);
    assert_eq!(package.records().wears[3].radius, 0);
    assert_eq!(package.records().mv[1], -11);
}

#[test]
fn zero_web_reports_only_its_axis() {
    // axis 2, outside: low 0 + 800, high 3001 - 700
    let fields = with(
        ZERO_GROOVE,
        &[
            (at::KIND, 104),
            (at::AXIS, 2),
            (at::C1, 77),
            (at::C2, 1500),
            (at::R2, 3001),
        ],
    );
    let mut package = package();
    let answer = call(&mut package, 'Z', &fields);
    let places = [
        (0, 1000),
        (2, 1500),
        (4, 1501),
        (6, 3101),
        (16, 501),
        (18, 101),
        (28, 1000),
        (32, 2),
        (34, 977),
        (35, 104),
        (37, 1),
    ];
    assert_eq!(answer.array, expected(&places));
    assert_eq!((answer.refusal, answer.branch, answer.verdict), (0, 6, 0));
    assert_eq!(package.records().offsets[1], [0, 101, 0]);
}

#[test]
fn shaft_subtracts_and_web_subtracts_and_hole_adds() {
    let raws = [(at::R1, 0), (at::R2, 1101), (at::R3, 0), (at::R4, 1101)];
    for (kind, radius) in [(1, 101), (2, -101), (3, 101), (4, -101)] {
        let mut package = common::calibrated();
        let fields = with(with(GROOVE, &raws), &[(at::KIND, kind)]);
        let answer = call(&mut package, 'T', &fields);
        assert_eq!((answer.branch, answer.array[20]), (5, 101));
        assert_eq!(package.records().wears[3].radius, radius, "kind {kind}");
    }
}

/// "Plane adds 2·s·c h, to length wear on axis 3, to radius wear on axes 1 and 2."
#[test]
fn plane_wear_by_axis_and_direction() {
    for axis in 1..=3 {
        for (direction, sign) in [(0, 1), (1, -1)] {
            let changes = [
                (at::KIND, 0),
                (at::AXIS, axis),
                (at::DIRECTION, direction),
                (at::R1, 1101),
            ];
            let mut package = common::calibrated();
            let answer = call(&mut package, 'T', &with(GROOVE, &changes));
            assert_eq!((answer.branch, answer.array[20]), (5, 101));
            let wear = package.records().wears[3];
            let moved = if axis == 3 {
                [0, 202 * sign]
            } else {
                [202 * sign, 0]
            };
            assert_eq!([wear.radius, wear.length], moved, "axis {axis}");
        }
    }
}

#[test]
fn refusals_write_zeros_and_their_number() {
    let mut package = package();
    let rows: [(&[(usize, i64)], i32); 4] = [
        (&[(at::KIND, 7)], 2),
        (&[(at::K, 0)], 3),
        (&[(at::TZL, -1)], 4),
        (&[(at::PROBE, 2)], 5),
    ];
    for (changes, refusal) in rows {
        let answer = call(&mut package, 'T', &with(GROOVE, changes));
        assert_eq!(answer.array, expected(&[(41, refusal)]));
        assert_eq!((answer.branch, answer.verdict), (0, 0));
    }
}

#[test]
fn only_the_42_numbers_from_the_place_are_written() {
    let fields = with(GROOVE, &[(at::R1, 500), (at::R2, 500)]);
    let reference::Call::MeasureTool { measurement, .. } =
        reference::line::call_of('T', &fields).unwrap()
    else {
        unreachable!("a T line measures with tool offset")
    };
    for (place, length, done) in [
        (0, 42, true),
        (0, 41, false),
        (3, 45, true),
        (3, 44, false),
        (3, 60, true),
        (60, 60, false),
        (61, 60, false),
        (usize::MAX, 60, false),
        (usize::MAX - 41, 60, false),
        (0, 0, false),
    ] {
        let mut array = vec![-9; length];
        let result = package().measure_tool(&measurement, &mut array, place);
        assert_eq!(result != Err(Refusal::Room), done, "{place} of {length}");
        let written = array.iter().enumerate().filter(|(_, &value)| value != -9);
        let written: Vec<usize> = written.map(|(index, _)| index).collect();
        let meant = if done { place..place + 42 } else { 0..0 };
        assert_eq!(written, meant.collect::<Vec<_>>(), "{place} of {length}");
    }
}
