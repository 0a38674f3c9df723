//! Both sides of every limit of settings, calibration and status.

mod common;

use common::{call, check, check_field, with, CALIBRATION};
use reference::{Package, Refusal};

#[test]
fn settings() {
    let rows = [
        (i64::MIN, 2),
        (0, 2),
        (1, 0),
        (20, 0),
        (21, 2),
        (i64::MAX, 2),
    ];
    check_field('E', [1, 0], 0, &rows);
    let rows = [
        (-32_769, 3),
        (-32_768, 0),
        (32_767, 0),
        (32_768, 3),
        (i64::MIN, 3),
    ];
    check_field('E', [1, 0], 1, &rows);
    check_field('W', [1, 0, 0], 0, &[(0, 2), (1, 0), (32, 0), (33, 2)]);
    check_field('O', [1, 0, 0, 0], 0, &[(0, 2), (1, 0), (4, 0), (5, 2)]);
    for (letter, limit, places) in [('W', 2_000_000, 1..3), ('O', 20_000_000, 1..4)] {
        for place in places {
            for (value, refusal) in [(limit, 0), (limit + 1, 3), (i64::MAX, 3)] {
                for value in [value, -value] {
                    let mut fields = vec![1; if letter == 'W' { 3 } else { 4 }];
                    fields[place] = value;
                    let mut package = Package::fresh();
                    let answer = call(&mut package, letter, &fields);
                    assert_eq!(answer.refusal, refusal, "{letter} {fields:?}");
                    assert_eq!(package == Package::fresh(), refusal != 0, "all or nothing");
                }
            }
        }
    }
}

#[test]
fn calibration() {
    check('C', CALIBRATION, &[(&[], 0)]);
    check_field(
        'C',
        CALIBRATION,
        0,
        &[(0, 2), (1, 0), (3, 0), (4, 2), (i64::MIN, 2)],
    );
    check_field(
        'C',
        CALIBRATION,
        1,
        &[(0, 2), (1, 0), (3, 0), (4, 2), (i64::MAX, 2)],
    );
    check_field('C', CALIBRATION, 2, &[(-1, 2), (0, 0), (1, 0), (2, 2)]);
}

#[test]
fn calibration_positions_and_limits() {
    for (setpoint, raw, refusal) in [
        (10_000_000, 9_999_900, 0),
        (10_000_001, 9_999_900, 3),
        (-10_000_000, -9_999_900, 0),
        (-10_000_001, -9_999_900, 3),
        (9_999_900, 10_000_000, 0),
        (9_999_900, 10_000_001, 3),
        (-9_999_900, -10_000_000, 0),
        (-9_999_900, -10_000_001, 3),
        (i64::MIN, i64::MAX, 3),
    ] {
        check('C', CALIBRATION, &[(&[(3, setpoint), (4, raw)], refusal)]);
    }
    check_field(
        'C',
        CALIBRATION,
        5,
        &[(-1, 3), (0, 0), (500, 0), (501, 3), (i64::MIN, 3)],
    );
    check_field(
        'C',
        CALIBRATION,
        6,
        &[(9, 3), (299, 7), (300, 0), (1_000_000, 0), (1_000_001, 3)],
    );
}

#[test]
fn calibration_stores_from_tzl_on_and_always_marks() {
    // |d| is 300
    for (tzl, stored) in [(299, 300), (300, 0)] {
        let mut package = Package::fresh();
        let answer = call(&mut package, 'C', &with(CALIBRATION, &[(5, tzl)]));
        assert_eq!(answer.refusal, 0);
        assert_eq!(package.records().triggers[0], [0, stored, 0, 0, 0, 0]);
        assert_eq!(package.records().status, [0b10, 0, 0]);
    }
}

#[test]
fn trigger_range_counts_even_if_nothing_is_stored() {
    for (change, refusal) in [(100_000, 0), (100_001, 9)] {
        for tzl in [0, 1_000_000] {
            for (raw, direction) in [(1000 - change, 0), (1000 + change, 0), (1000 + change, 1)] {
                let fields = [2, 3, direction, 1000, raw, tzl, 1_000_000];
                let mut package = Package::fresh();
                let answer = call(&mut package, 'C', &fields);
                assert_eq!(answer.refusal, refusal, "{fields:?}");
                assert_eq!(package == Package::fresh(), refusal != 0);
            }
        }
    }
}

#[test]
fn status_of_probes() {
    let mut package = Package::fresh();
    for (axis, direction, bits, count) in [
        (1, 1, 0b1, 1),
        (1, 0, 0b11, 2),
        (2, 1, 0b111, 3),
        (2, 0, 0b1111, 4),
        (3, 1, 0b11111, 5),
        (3, 0, 0b111111, 6),
        (3, 0, 0b111111, 6),
    ] {
        let fields = with(CALIBRATION, &[(0, 3), (1, axis), (2, direction)]);
        assert_eq!(call(&mut package, 'C', &fields).refusal, 0);
        let status = package.status(3).unwrap();
        assert_eq!((status.bits, status.count), (bits, count));
    }
    for probe in [i64::MIN, -1, 0, 4, i64::MAX] {
        assert_eq!(package.status(probe), Err(Refusal::Number));
    }
    assert_eq!(package.status(1).unwrap().count, 0);
}
