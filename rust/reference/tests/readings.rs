//! Readings of calls: "A reading is now either a whole position or such a float
//! report, and the measured axis picks its number".

mod common;

use common::{at, calibrated, with, CALIBRATION, GROOVE, ZERO_GROOVE};
use reference::line::call_of;
use reference::reckoning::Reckoning;
use reference::{Call, Package, Reading, Report};

const NAN: u32 = 0x7fc0_0000;
/// Floats that 13 is for: no number, infinite, beyond ±1000 mm.
const BAD: [u32; 10] = [
    NAN,
    0xffc0_0000,
    0x7f80_0001,
    0xffff_ffff,
    0x7f80_0000,
    0xff80_0000,
    0x447a_0001,
    0xc47a_0001,
    0x7f7f_ffff,
    0xff7f_ffff,
];

/// A report of these bits for X, Y, Z.
fn report(bits: [u32; 3]) -> Reading {
    let [x, y, z] = bits.map(f32::from_bits);
    Reading::Report(Report { x, y, z })
}

/// A report whose float for this axis has these bits; the others are no number.
fn only(axis: i64, bits: u32) -> Reading {
    let mut all = [NAN; 3];
    all[axis as usize - 1] = bits;
    report(all)
}

/// The bits of the float nearest to a position.
fn bits_of(position: i64) -> u32 {
    ((position as f64 / 10_000.0) as f32).to_bits()
}

/// The call of a line with other readings for some of its raws.
fn with_readings(letter: char, fields: &[i64], readings: &[(usize, Reading)]) -> Call {
    let mut call = call_of(letter, fields).expect("fields of a line");
    for &(index, reading) in readings {
        match &mut call {
            Call::Calibrate(calibration) => calibration.raw = reading,
            Call::MeasureTool { measurement, .. } => measurement.feature.raws[index] = reading,
            Call::MeasureZero { measurement, .. } => measurement.feature.raws[index] = reading,
            other => panic!("{other:?} has no reading"),
        }
    }
    call
}

/// The refusal of a call on probes that are all calibrated.
fn refusal(letter: char, fields: &[i64], readings: &[(usize, Reading)]) -> u8 {
    let call = with_readings(letter, fields, readings);
    calibrated().apply(&call).refusal
}

/// All kinds with tool and zero offset on all their axes: letter, fields, and
/// the axis of each raw that is used. Raws are 0, 1000, 0, 1000 or the plane's.
fn kinds() -> Vec<(char, Vec<i64>, Vec<i64>)> {
    let mut found = Vec::new();
    for (kind, axis, axes) in [
        (0, 1, &[1][..]),
        (0, 2, &[2]),
        (0, 3, &[3]),
        (1, 3, &[1, 1, 2, 2]),
        (2, 3, &[1, 1, 2, 2]),
        (3, 1, &[1, 1]),
        (3, 2, &[2, 2]),
        (4, 1, &[1, 1]),
        (4, 2, &[2, 2]),
    ] {
        let raws = match kind {
            0 => vec![(at::R1, 1_000), (at::R2, 0)],
            1 | 2 => vec![(at::R4, 1_000)],
            _ => vec![],
        };
        let changes = [(at::KIND, kind), (at::AXIS, axis), (at::C2, 500)];
        let changes = [&changes[..], &raws].concat();
        found.push(('T', with(GROOVE, &changes).to_vec(), axes.to_vec()));
        let zero = with(ZERO_GROOVE, &changes);
        let zero = with(zero, &[(at::KIND, 100 + kind)]);
        found.push(('Z', zero.to_vec(), axes.to_vec()));
    }
    found
}

#[test]
fn a_report_measures_as_the_position_that_it_gives() {
    for (letter, mut fields, axes) in kinds() {
        // 23 u more than the setpoint, which is branch 2 and is corrected
        fields[at::R1 + axes.len() - 1] += 23;
        if letter == 'T' {
            fields[at::MV] = 0;
        }
        let readings = axes.iter().enumerate().map(|(index, &axis)| {
            let bits = bits_of(fields[at::R1 + index]);
            (index, only(axis, bits))
        });
        let readings: Vec<(usize, Reading)> = readings.collect();
        let mut whole = calibrated();
        let expected = whole.apply(&call_of(letter, &fields).unwrap());
        assert_eq!(expected.refusal, 0, "{letter} {fields:?}");
        assert_ne!(whole, calibrated());
        // all of them reports, then each of them alone
        let alone = readings.iter().map(std::slice::from_ref);
        for readings in alone.chain([&readings[..]]) {
            let call = with_readings(letter, &fields, readings);
            let mut package = calibrated();
            assert_eq!(package.apply(&call), expected, "{call:?}");
            assert_eq!(package, whole, "{call:?}");
        }
    }
}

/// "X, Y, Z for axes 1, 2, 3".
#[test]
fn the_measured_axis_picks() {
    let reading = report([0.1_f32, 0.2, 0.3].map(f32::to_bits));
    for axis in 1..=3 {
        let plane = [(at::KIND, 0), (at::AXIS, axis), (at::SETPOINT, 0)];
        let limits = [(at::TDIF, 3_000), (at::TSA, 3_000)];
        let fields = with(with(GROOVE, &plane), &limits);
        let answer = calibrated().apply(&with_readings('T', &fields, &[(0, reading)]));
        assert_eq!(i64::from(answer.array[4]), 1_000 * axis, "axis {axis}");

        let zero = with(ZERO_GROOVE, &[(at::KIND, 100), (at::AXIS, axis)]);
        let zero = with(zero, &[(at::ZERO_TSA, 3_000)]);
        let answer = calibrated().apply(&with_readings('Z', &zero, &[(0, reading)]));
        assert_eq!(i64::from(answer.array[4]), 1_000 * axis, "axis {axis}");

        let mut package = Package::fresh();
        let fields = with(CALIBRATION, &[(1, axis), (3, 0), (6, 3_000)]);
        assert_eq!(
            package
                .apply(&with_readings('C', &fields, &[(0, reading)]))
                .refusal,
            0
        );
        let place = 2 * axis as usize - 1;
        assert_eq!(
            i64::from(package.records().triggers[0][place]),
            -1_000 * axis
        );
    }
}

/// "so X for a hole's abscissa raws and Y for its ordinate raws".
#[test]
fn a_hole_picks_x_then_y() {
    let of = |x: i64, y: i64| report([bits_of(x), bits_of(y), NAN]);
    let readings = [of(10, -1), of(1_020, -2), of(-3, 30), of(-4, 1_040)];
    let readings: Vec<(usize, Reading)> = readings.into_iter().enumerate().collect();
    let hole = with(GROOVE, &[(at::KIND, 1), (at::AXIS, 3)]);
    let answer = calibrated().apply(&with_readings('T', &hole, &readings));
    assert_eq!(answer.refusal, 0);
    assert_eq!(
        (answer.array[4], answer.array[5], answer.array[6]),
        (1_010, 1_030, 1_070)
    );
}

#[test]
fn a_used_float_is_refused_by_13() {
    for (letter, fields, axes) in kinds() {
        for (index, &axis) in axes.iter().enumerate() {
            for bits in BAD {
                let reading = only(axis, bits);
                assert_eq!(
                    refusal(letter, &fields, &[(index, reading)]),
                    13,
                    "{fields:?}"
                );
            }
        }
    }
    for axis in 1..=3 {
        for bits in BAD {
            let fields = with(CALIBRATION, &[(1, axis)]);
            assert_eq!(refusal('C', &fields, &[(0, only(axis, bits))]), 13);
        }
    }
}

/// A float that no axis picks, and a reading that the kind does not use.
#[test]
fn unused_floats_are_not_looked_at() {
    for (letter, fields, axes) in kinds() {
        for unused in axes.len()..4 {
            for bits in BAD {
                assert_eq!(refusal(letter, &fields, &[(unused, report([bits; 3]))]), 0);
            }
        }
        for (index, &axis) in axes.iter().enumerate() {
            for bits in BAD {
                let mut all = [bits; 3];
                all[axis as usize - 1] = bits_of(fields[at::R1 + index]);
                assert_eq!(refusal(letter, &fields, &[(index, report(all))]), 0);
            }
        }
    }
    // 700 u
    assert_eq!(refusal('C', &CALIBRATION, &[(0, only(1, 0x3d8f_5c29))]), 0);
}

/// "after 2 and before 3": what a bad float gives with each of these changes.
fn check_order<const N: usize>(letter: char, fields: [i64; N], rows: &[((usize, i64), u8)]) {
    let bad = (0, report([NAN; 3]));
    for (change, number) in rows {
        let found = refusal(letter, &with(fields, &[*change]), &[bad]);
        assert_eq!(found, *number, "{letter} with {change:?}");
    }
}

#[test]
fn thirteen_in_a_measurement_with_tool_offset() {
    let rows = [
        ((at::KIND, 5), 2),
        ((at::KIND, 103), 2),
        ((at::PROBE, 0), 2),
        ((at::AXIS, 3), 2),
        ((at::TOOL, 33), 2),
        ((at::EV, 21), 2),
        ((at::MV, -1), 2),
        ((at::SETPOINT, 0), 13),
        ((at::C1, -10_000_001), 13),
        ((at::K, 0), 13),
        ((at::TZL, -1), 13),
        ((at::TSA, 1), 13),
    ];
    check_order('T', GROOVE, &rows);
}

#[test]
fn thirteen_in_a_measurement_with_zero_offset() {
    let rows = [
        ((at::KIND, 3), 2),
        ((at::PROBE, 4), 2),
        ((at::AXIS, 0), 2),
        ((at::OFFSET, 5), 2),
        ((at::SETPOINT, 0), 13),
        ((at::C1, 10_000_001), 13),
        ((at::ZERO_TSA, -1), 13),
    ];
    check_order('Z', ZERO_GROOVE, &rows);
}

/// A whole reading beyond ±10,000,000 is 3, a bad float 13; with both, 13.
#[test]
fn both_forms_in_one_call() {
    let bad = (0, report([NAN; 3]));
    let beyond = (1, Reading::Whole(10_000_001));
    for (letter, fields) in [('T', &GROOVE[..]), ('Z', &ZERO_GROOVE)] {
        assert_eq!(refusal(letter, fields, &[bad]), 13);
        assert_eq!(refusal(letter, fields, &[beyond]), 3);
        assert_eq!(refusal(letter, fields, &[bad, beyond]), 13);
    }
}

#[test]
fn thirteen_in_a_calibration() {
    let rows = [
        ((0, 4), 2),
        ((1, 0), 2),
        ((1, 4), 2),
        ((2, 2), 2),
        ((3, 10_000_001), 13),
        ((5, -1), 13),
        ((6, 9), 13),
        ((6, 1_000_001), 13),
    ];
    check_order('C', CALIBRATION, &rows);
    let bad = [(0, report([NAN; 3]))];
    let mut package = Package::fresh();
    package.apply(&with_readings('C', &CALIBRATION, &bad));
    assert_eq!(package, Package::fresh(), "a refused calibration");
}

/// 1 before 13, which before 5; "the others write 42 zeros save OVI[9]".
#[test]
fn thirteen_in_the_result_array() {
    for (letter, fields, axes) in kinds() {
        let mut call = with_readings(letter, &fields, &[(0, only(axes[0], NAN))]);
        let mut lend = |length: usize| {
            if let Call::MeasureTool { array, .. } | Call::MeasureZero { array, .. } = &mut call {
                *array = vec![-7; length];
            }
            let mut package = Package::fresh();
            let answer = package.apply(&call);
            assert_eq!(package, Package::fresh());
            (answer.refusal, answer.branch, answer.verdict, answer.array)
        };
        let mut zeros = vec![0; 42];
        zeros[41] = 13;
        assert_eq!(lend(42), (13, 0, 0, zeros));
        assert_eq!(lend(41), (1, 0, 0, vec![-7; 41]));
    }
}

/// "beyond ±1000 mm": the exact value, not the rounded one.
#[test]
fn ends_of_the_range() {
    for (bits, wanted, position) in [
        (0x447a_0000, 0, 10_000_000),
        (0x447a_0001, 13, 0),
        (0xc47a_0000, 0, -10_000_000),
        (0xc47a_0001, 13, 0),
    ] {
        let setpoint = if position < 0 {
            -10_000_000
        } else {
            10_000_000
        };
        let plane = [(at::KIND, 0), (at::SETPOINT, setpoint)];
        let readings = [(0, only(1, bits))];
        let call = with_readings('T', &with(GROOVE, &plane), &readings);
        let answer = calibrated().apply(&call);
        assert_eq!(
            (answer.refusal, answer.array[4]),
            (wanted, position),
            "{bits:08x}"
        );
        let fields = with(CALIBRATION, &[(3, setpoint)]);
        assert_eq!(refusal('C', &fields, &readings), wanted, "{bits:08x}");
    }
}

/// Halves of both signs, as they reach the deviation.
#[test]
fn halves_reach_the_deviation() {
    // 1/32 mm and its neighbours
    for (bits, position) in [
        (0x3cff_ffff, 312),
        (0x3d00_0000, 313),
        (0xbcff_ffff, -312),
        (0xbd00_0000, -313),
    ] {
        let plane = with(
            GROOVE,
            &[(at::KIND, 0), (at::SETPOINT, 300), (at::TDIF, 1_000)],
        );
        let answer = calibrated().apply(&with_readings('T', &plane, &[(0, only(1, bits))]));
        assert_eq!(
            (answer.refusal, answer.array[16]),
            (0, position - 300),
            "{bits:08x}"
        );
    }
}

#[test]
fn calls_are_equal_by_their_bits() {
    let call = |bits: u32| with_readings('T', &GROOVE, &[(0, report([0, bits, 0]))]);
    for bits in [NAN, 0xffc0_0000, 0x7f80_0001, 0, 1 << 31] {
        assert_eq!(call(bits), call(bits));
    }
    assert_ne!(call(NAN), call(0xffc0_0000));
    assert_ne!(call(0), call(1 << 31));
    let shown = format!("{:?}", report([0x7fc0_0001, 1 << 31, 0x447a_0000]));
    assert_eq!(
        shown,
        "Report([NaN = 7fc00001, -0.0 = 80000000, 1000.0 = 447a0000])"
    );
}

/// The exact reckoning "is fed the arguments of the calls": reports give it the
/// same numbers as their positions.
#[test]
fn the_reckoning_takes_reports() {
    let mut reckonings = [Reckoning::fresh(), Reckoning::fresh()];
    let mut package = Package::fresh();
    for direction in [0, 1] {
        let fields = [1, 1, direction, 0, 0, 0, 0];
        let call = with_readings('C', &fields, &[(0, only(1, 1 << 31))]);
        package.apply(&call);
        reckonings[0].feed(&call);
        reckonings[1].feed(&call_of('C', &fields).unwrap());
    }
    for (high, k) in [(1_091, 7), (1_099, 5), (1_007, 3), (1_150, 5)] {
        let fields = with(GROOVE, &[(at::R2, high), (at::K, k)]);
        let call = with_readings('T', &fields, &[(1, only(1, bits_of(high)))]);
        assert_eq!(package.apply(&call).refusal, 0);
        // refused, so that nothing is taken in
        reckonings[0].feed(&with_readings('T', &fields, &[(1, only(1, NAN))]));
        reckonings[0].feed(&call);
        reckonings[1].feed(&call_of('T', &fields).unwrap());
        let [reports, whole] = reckonings.each_ref().map(|reckoning| {
            let (mean, wear) = (reckoning.mean(1), reckoning.radius(3));
            format!("{mean:?} {wear:?}")
        });
        assert_eq!(reports, whole);
        assert_eq!(reckonings[0].breaches(package.records()), []);
    }
}
