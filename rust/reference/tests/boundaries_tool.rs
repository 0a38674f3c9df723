//! Both sides of every limit of measuring with tool offset.

mod common;

use common::{at, calibrated, call, check, check_field, check_unused, with, GROOVE};

#[test]
fn numbers_of_a_tool_groove() {
    check('T', GROOVE, &[(&[], 0)]);
    let kinds = [i64::MIN, -1, 5, 6, 99, 100, 103, 104, 105, i64::MAX];
    check_field('T', GROOVE, at::KIND, &kinds.map(|kind| (kind, 2)));
    check_field('T', GROOVE, at::PROBE, &[(0, 2), (1, 0), (3, 0), (4, 2)]);
    check_field('T', GROOVE, at::AXIS, &[(0, 2), (1, 0), (2, 0), (3, 2)]);
    check_field('T', GROOVE, at::TOOL, &[(0, 2), (1, 0), (32, 0), (33, 2)]);
    check_field('T', GROOVE, at::EV, &[(-1, 2), (0, 0), (20, 0), (21, 2)]);
    check_field('T', GROOVE, at::MV, &[(-1, 2), (0, 0), (20, 0), (21, 2)]);
    check_unused('T', GROOVE, &[at::DIRECTION, at::C2, at::R3, at::R4]);
}

#[test]
fn ranges_of_a_tool_groove() {
    // within its range the setpoint only makes D too great
    let rows = [
        (i64::MIN, 3),
        (0, 3),
        (1, 8),
        (10_000_000, 7),
        (10_000_001, 3),
    ];
    check_field('T', GROOVE, at::SETPOINT, &rows);
    let rows = [
        (-10_000_001, 3),
        (-10_000_000, 0),
        (10_000_000, 0),
        (10_000_001, 3),
    ];
    check_field('T', GROOVE, at::C1, &rows);
    check_field('T', with(GROOVE, &[(at::AXIS, 2)]), at::C2, &rows);
    check_unused('T', with(GROOVE, &[(at::AXIS, 2)]), &[at::C1]);
    check_field(
        'T',
        GROOVE,
        at::R1,
        &[(-10_000_000, 7), (-10_000_001, 3), (i64::MIN, 3)],
    );
    check_field('T', GROOVE, at::R1, &[(10_000_000, 6), (10_000_001, 3)]);
    check_field(
        'T',
        GROOVE,
        at::R2,
        &[(10_000_000, 7), (10_000_001, 3), (i64::MAX, 3)],
    );
}

#[test]
fn weighting_factor_with_and_without_a_mean() {
    for mv in [0, 2] {
        let fields = with(GROOVE, &[(at::MV, mv)]);
        check_field(
            'T',
            fields,
            at::K,
            &[(0, 3), (1, 0), (1000, 0), (1001, 3), (i64::MIN, 3)],
        );
    }
}

#[test]
fn limits_of_a_tool_measurement() {
    check_field('T', GROOVE, at::TZL, &[(-1, 4), (0, 0), (100, 0), (101, 4)]);
    check_field(
        'T',
        GROOVE,
        at::TMV,
        &[(19, 4), (20, 0), (300, 0), (301, 4)],
    );
    check_field(
        'T',
        GROOVE,
        at::TDIF,
        &[(99, 4), (100, 0), (1000, 0), (1001, 4)],
    );
    check_field(
        'T',
        GROOVE,
        at::TSA,
        &[(299, 4), (300, 0), (1_000_000, 0), (1_000_001, 4)],
    );
    check_field(
        'T',
        GROOVE,
        at::TUL,
        &[(-151, 4), (-150, 0), (1_000_000, 0), (1_000_001, 4)],
    );
    check_field(
        'T',
        GROOVE,
        at::TLL,
        &[(151, 4), (150, 0), (-1_000_000, 0), (-1_000_001, 4)],
    );
}

#[test]
fn greatest_tmv_and_wild_limits() {
    let wide = with(GROOVE, &[(at::TDIF, 1_000_000), (at::TSA, 1_000_000)]);
    for mv in [0, 2] {
        let fields = with(wide, &[(at::MV, mv)]);
        check_field('T', fields, at::TMV, &[(32_767, 0), (32_768, 4)]);
    }
    for place in at::TZL..=at::TSA {
        check_field('T', GROOVE, place, &[(i64::MIN, 4), (i64::MAX, 4)]);
    }
}

#[test]
fn deviations_of_a_tool_measurement() {
    // width ≤ 0, then |D| against TSA 1000 and TDIF 300
    let rows = [
        (-1, 6),
        (0, 6),
        (1, 8),
        (699, 8),
        (700, 0),
        (1300, 0),
        (1301, 8),
    ];
    check_field('T', GROOVE, at::R2, &rows);
    check_field('T', GROOVE, at::R2, &[(2000, 8), (2001, 7)]);
    let narrow = with(
        GROOVE,
        &[(at::SETPOINT, 2000), (at::R2, 1000), (at::TDIF, 1000)],
    );
    check('T', narrow, &[(&[], 0), (&[(at::R2, 999)], 7)]);
}

#[test]
fn a_plane_and_a_hole_use_other_fields() {
    let plane = with(GROOVE, &[(at::KIND, 0), (at::R1, 1000)]);
    check_field('T', plane, at::AXIS, &[(0, 2), (1, 0), (3, 0), (4, 2)]);
    check_field(
        'T',
        plane,
        at::DIRECTION,
        &[(-1, 2), (0, 0), (1, 0), (2, 2)],
    );
    check_unused('T', plane, &[at::C1, at::C2, at::R2, at::R3, at::R4]);
    for (setpoint, refusal) in [(-10_000_001, 3), (-10_000_000, 0), (0, 0), (10_000_001, 3)] {
        let changes = [
            (at::SETPOINT, setpoint),
            (at::R1, setpoint.max(-10_000_000)),
        ];
        check('T', plane, &[(&changes[..], refusal)]);
    }
    for kind in [1, 2] {
        let hole = with(GROOVE, &[(at::KIND, kind), (at::R4, 1000)]);
        check_unused('T', hole, &[at::AXIS, at::DIRECTION]);
        check_field('T', hole, at::C2, &[(10_000_000, 0), (10_000_001, 3)]);
        check_field('T', hole, at::R3, &[(10_000_001, 3), (10_000_000, 6)]);
        // the abscissa is compared with nothing but itself
        check_field(
            'T',
            hole,
            at::R2,
            &[(0, 6), (1, 0), (10_000_000, 0), (10_000_001, 3)],
        );
        check_field('T', hole, at::R4, &[(1300, 0), (1301, 8)]);
    }
}

#[test]
fn wear_stays_in_its_range() {
    for (kind, sign) in [(3, 1), (4, -1)] {
        for (start, refusal) in [(1_999_800, 0), (1_999_801, 9)] {
            for end in [1, -1] {
                let mut package = calibrated();
                package.set_wear(4, end * start, 7).unwrap();
                let r2 = 1000 + sign * end * 200;
                let fields = with(GROOVE, &[(at::KIND, kind), (at::R2, r2)]);
                let answer = call(&mut package, 'T', &fields);
                assert_eq!(answer.refusal, refusal, "kind {kind}, wear {}", end * start);
                let left = if refusal == 0 { 2_000_000 } else { start };
                assert_eq!(i64::from(package.records().wears[3].radius), end * left);
            }
        }
    }
}
