//! Both sides of every limit of measuring with zero offset.

mod common;

use common::{at, calibrated, call, check, check_field, check_unused, with, ZERO_GROOVE};

#[test]
fn zero_groove() {
    check('Z', ZERO_GROOVE, &[(&[], 0)]);
    let kinds = [i64::MIN, -1, 0, 3, 4, 5, 99, 105, 106, i64::MAX];
    check_field('Z', ZERO_GROOVE, at::KIND, &kinds.map(|kind| (kind, 2)));
    check_field(
        'Z',
        ZERO_GROOVE,
        at::PROBE,
        &[(0, 2), (1, 0), (3, 0), (4, 2)],
    );
    check_field('Z', ZERO_GROOVE, at::AXIS, &[(0, 2), (1, 0), (3, 2)]);
    check_field(
        'Z',
        ZERO_GROOVE,
        at::OFFSET,
        &[(0, 2), (1, 0), (4, 0), (5, 2)],
    );
    check_unused('Z', ZERO_GROOVE, &[at::DIRECTION, at::C2, at::R3, at::R4]);
}

#[test]
fn zero_groove_ranges() {
    // the width setpoint is checked though only reported
    let rows = [
        (0, 3),
        (1, 0),
        (10_000_000, 0),
        (10_000_001, 3),
        (i64::MIN, 3),
    ];
    check_field('Z', ZERO_GROOVE, at::SETPOINT, &rows);
    check_field(
        'Z',
        ZERO_GROOVE,
        at::ZERO_TSA,
        &[(-1, 4), (0, 0), (1_000_000, 0), (1_000_001, 4)],
    );
    // the centre (h) is r1 + r2, set 1000: 2·TSA is 2000
    check_field('Z', ZERO_GROOVE, at::R2, &[(3000, 0), (3001, 7), (0, 6)]);
    check_field(
        'Z',
        ZERO_GROOVE,
        at::R1,
        &[(-2000, 0), (-2001, 7), (-10_000_001, 3)],
    );
    let changes = [(at::C1, -10_000_001)];
    check('Z', ZERO_GROOVE, &[(&changes[..], 3)]);
}

#[test]
fn zero_plane_against_tsa_and_store() {
    let plane = with(
        ZERO_GROOVE,
        &[(at::KIND, 100), (at::AXIS, 3), (at::R1, 1000)],
    );
    check_field('Z', plane, at::R1, &[(0, 0), (-1, 7), (2000, 0), (2001, 7)]);
    check_field('Z', plane, at::SETPOINT, &[(0, 0), (-10_000_001, 3)]);
    for (start, refusal) in [(19_998_000, 0), (19_998_001, 9)] {
        for direction in [0, 1] {
            let mut package = calibrated();
            package.set_offset(2, [1, 2, start]).unwrap();
            let fields = with(plane, &[(at::R1, 2000), (at::DIRECTION, direction)]);
            let answer = call(&mut package, 'Z', &fields);
            assert_eq!(answer.refusal, refusal);
            let left = if refusal == 0 { 20_000_000 } else { start };
            assert_eq!(package.records().offsets[1], [1, 2, left as i32]);
        }
    }
}

/// Changed fields.
type Changes = &'static [(usize, i64)];

#[test]
fn zero_hole_moves_both_axes_or_neither() {
    let raws = [(at::R1, 10), (at::R2, 1010), (at::R3, 30), (at::R4, 1030)];
    let centre = [(at::KIND, 101), (at::C2, 500)];
    let hole = with(with(ZERO_GROOVE, &raws), &centre);
    let rows: [(Changes, [i64; 2], u8); 6] = [
        (&[], [0, 0], 0),
        (&[(at::R2, 5000)], [0, 0], 7),
        (&[(at::R4, 5000)], [0, 0], 7),
        (&[], [20_000_000, 0], 9),
        (&[], [0, 20_000_000], 9),
        (&[(at::R4, 5000)], [20_000_000, 0], 7),
    ];
    for (changes, [x, y], refusal) in rows {
        let mut package = calibrated();
        package.set_offset(2, [x, y, 5]).unwrap();
        let before = package.clone();
        let answer = call(&mut package, 'Z', &with(hole, changes));
        assert_eq!(answer.refusal, refusal, "{changes:?}");
        if refusal == 0 {
            assert_eq!(package.records().offsets[1], [20, 60, 5]);
        } else {
            assert_eq!(package, before);
        }
    }
}
