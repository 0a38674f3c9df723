//! "5 a needed direction uncalibrated": which directions each kind needs.

mod common;

use common::{at, call, with, GROOVE, ZERO_GROOVE};
use reference::{Package, Records};

/// The trigger places (from 1) without which the line answers 5.
fn needed(letter: char, fields: &[i64]) -> Vec<usize> {
    let without = |place: usize| {
        let records = Records {
            status: [0, 0x3f & !(1 << (place - 1)), 0],
            ..Records::fresh()
        };
        let refusal = call(&mut Package::from_records(records), letter, fields).refusal;
        assert!([0, 5].contains(&refusal), "{fields:?}");
        refusal == 5
    };
    (1..=6).filter(|&place| without(place)).collect()
}

fn check(kind: i64, axis: i64, direction: i64, places: &[usize]) {
    // probe 2, every width 1000, every centre as set, a plane at 0
    let plane = kind == 0;
    let common = [
        (at::KIND, kind),
        (at::PROBE, 2),
        (at::AXIS, axis),
        (at::DIRECTION, direction),
        (at::SETPOINT, if plane { 0 } else { 1000 }),
        (at::C1, 500),
        (at::C2, 500),
        (at::R4, 1000),
    ];
    let tool = with(GROOVE, &common);
    assert_eq!(needed('T', &tool), places, "kind {kind}, axis {axis}");
    let zero = with(with(ZERO_GROOVE, &common), &[(at::KIND, 100 + kind)]);
    assert_eq!(needed('Z', &zero), places, "kind 100 + {kind}, axis {axis}");
}

#[test]
fn a_plane_needs_its_own_direction() {
    for (axis, negative, positive) in [(1, 1, 2), (2, 3, 4), (3, 5, 6)] {
        check(0, axis, 1, &[negative]);
        check(0, axis, 0, &[positive]);
    }
}

#[test]
fn groove_and_web_need_both_directions_of_their_axis() {
    for kind in [3, 4] {
        check(kind, 1, 0, &[1, 2]);
        check(kind, 2, 1, &[3, 4]);
    }
}

#[test]
fn hole_and_shaft_need_four_directions() {
    for kind in [1, 2] {
        check(kind, 1, 0, &[1, 2, 3, 4]);
        check(kind, 3, 7, &[1, 2, 3, 4]);
    }
}

/// A status of another probe does not count.
#[test]
fn each_probe_has_its_own_status() {
    let records = Records {
        status: [0x3f, 0, 0x3f],
        ..Records::fresh()
    };
    for (probe, refusal) in [(1, 0), (2, 5), (3, 0)] {
        let mut package = Package::from_records(records.clone());
        let answer = call(&mut package, 'T', &with(GROOVE, &[(at::PROBE, probe)]));
        assert_eq!(answer.refusal, refusal, "probe {probe}");
    }
}
