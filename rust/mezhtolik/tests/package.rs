//! The calls with types: what they hand over, read and refuse.

use mezhtolik::*;

/// All directions of probe 1 calibrated with a trigger of 500.
fn calibrated() -> Package {
    let mut package = Package::fresh();
    for axis in 1..=3 {
        for (direction, raw) in [(POSITIVE, -500), (NEGATIVE, 500)] {
            let calibration = Calibration {
                probe: 1,
                axis,
                direction,
                raw: Reading::Whole(raw),
                tsa: 1000,
                ..Calibration::default()
            };
            assert_eq!(package.calibrate(&calibration), Ok(()));
        }
    }
    package
}

#[test]
fn fresh_is_all_zero() {
    let package = Package::fresh();
    assert_eq!(package.area(), &[0; AREA]);
    assert_eq!(package, Package::default());
    assert_eq!(package.probe_status(3), Ok(ProbeStatus::default()));
}

#[test]
fn records_are_read_by_their_numbers() {
    let mut package = calibrated();
    package.set_empirical(20, -7).unwrap();
    package.set_wear(32, -11, 12).unwrap();
    package.set_offset(4, [21, -22, 23]).unwrap();
    let mut block = [0; BLOCK];
    package.save(&mut block).unwrap();
    block[78..].copy_from_slice(&[0x00, 0x80]);
    package.load(&block).unwrap();
    assert_eq!(
        (package.empirical(1), package.empirical(20)),
        (Some(0), Some(-7))
    );
    assert_eq!(
        (package.mean(1), package.mean(20)),
        (Some(0), Some(-32_768))
    );
    let wear = package.wear(32).unwrap();
    assert_eq!((wear.radius, wear.length), (-11, 12));
    assert_eq!(package.offset(4), Some([21, -22, 23]));
    assert_eq!(package.trigger(1, 3, NEGATIVE), Some(500));
    assert_eq!((package.status(1), package.status(2)), (Some(63), Some(0)));
}

#[test]
fn records_that_there_are_not() {
    let package = Package::fresh();
    for number in [0, 33, usize::MAX] {
        assert_eq!(package.empirical(number), None);
        assert_eq!(package.mean(number), None);
        assert_eq!(package.wear(number), None);
        assert_eq!(package.offset(number), None);
        assert_eq!(package.status(number), None);
        assert_eq!(package.trigger(number, 1, POSITIVE), None);
        assert_eq!(package.trigger(1, number, POSITIVE), None);
    }
    assert_eq!(package.trigger(1, 1, 2), None);
    assert_eq!(package.empirical(21), None);
    assert_eq!(package.offset(5), None);
    assert_eq!(package.status(4), None);
}

#[test]
fn numbers_that_no_record_holds_are_read_as_the_nearest() {
    let mut area = [0; AREA];
    area[0] = i32::MAX;
    area[6] = 1000;
    area[13] = -1;
    area[21] = 70_000;
    area[41] = i32::MIN;
    let mut package = Package::from_area(area);
    assert_eq!(package.trigger(1, 1, NEGATIVE), Some(100_000));
    assert_eq!(package.status(1), Some(63));
    assert_eq!(package.probe_status(1).unwrap().count, 6);
    assert_eq!(package.status(2), Some(0));
    assert_eq!(
        (package.empirical(1), package.mean(1)),
        (Some(32_767), Some(-32_768))
    );
    assert_eq!(package.set_empirical(0, 0), Err(Refusal::NoSuchNumber));
    assert_eq!(package.area(), &area, "a refused call leaves every number");
    assert_eq!(package.set_empirical(2, 5), Ok(()));
    area[22] = 5;
    assert_eq!(package.area(), &area, "the numbers of other records stay");
}

#[test]
fn results_go_to_their_place() {
    let mut package = calibrated();
    let part = ToolMeasurement {
        probing: Probing {
            kind: kind::PLANE,
            probe: 1,
            axis: 3,
            direction: NEGATIVE,
            setpoint: 1000,
            raws: [1540, 0, 0, 0].map(Reading::from),
            ..Probing::default()
        },
        tool: 32,
        k: 1,
        limits: Limits {
            tmv: 100,
            tul: 30,
            tdif: 200,
            tsa: 300,
            ..Limits::default()
        },
        ..ToolMeasurement::default()
    };
    let mut array = [77; 48];
    let decision = package.measure_tool(&part, &mut array, 3).unwrap();
    assert_eq!(decision.branch, Branch::Deviation);
    assert_eq!(decision.verdict, Verdict::Oversize);
    let results = Results::at(&array, 3).unwrap();
    assert_eq!((results.deviation(), results.correction()), (40, 40));
    assert_eq!((results.cycle(), results.tool()), (978, 32));
    assert_eq!(
        (array[..3].to_vec(), array[45..].to_vec()),
        (vec![77; 3], vec![77; 3])
    );
    assert_eq!(package.wear(32).unwrap().length, -80);
    let before = array;
    let refused = package.measure_tool(&part, &mut array, 7);
    assert_eq!((refused, array), (Err(Refusal::NoRoom), before));
}

/// A hole from 100 to 200 u on axis 1 and from 400 to 500 u on axis 2, with
/// triggers of 500, as whole positions.
fn hole() -> Probing {
    Probing {
        kind: kind::HOLE,
        probe: 1,
        setpoint: 100,
        raws: [600, -300, 900, 0].map(Reading::Whole),
        ..Probing::default()
    }
}

/// The same hole by the reports of a box; no axis picks what is no number.
fn reported_hole() -> Probing {
    let none = f32::NAN;
    let report = |x, y| Reading::Report(Report { x, y, z: none });
    Probing {
        raws: [
            report(0.06, none),
            report(-0.03, none),
            report(none, 0.09),
            report(none, -0.0),
        ],
        ..hole()
    }
}

fn tool(probing: Probing) -> ToolMeasurement {
    ToolMeasurement {
        probing,
        tool: 3,
        k: 1,
        limits: Limits {
            tmv: 100,
            tdif: 200,
            tsa: 300,
            ..Limits::default()
        },
        ..ToolMeasurement::default()
    }
}

fn zero(mut probing: Probing) -> ZeroMeasurement {
    probing.kind += kind::ZERO_OFFSET;
    ZeroMeasurement {
        probing,
        offset: 2,
        tsa: 1000,
    }
}

/// Both measurements of a hole: what they answer and write, and the package.
fn measured(probing: Probing) -> ([Result<Decision, Refusal>; 2], [Results; 2], Package) {
    let (mut package, mut results) = (calibrated(), [Results::default(); 2]);
    let [by_tool, by_zero] = &mut results;
    let answers = [
        package.measure_tool(&tool(probing), by_tool.numbers_mut(), 0),
        package.measure_zero(&zero(probing), by_zero.numbers_mut(), 0),
    ];
    (answers, results, package)
}

#[test]
fn each_raw_is_by_itself_whole_or_a_report() {
    let expected = measured(hole());
    assert_eq!(expected.1[0].centre(), [300, 900]);
    assert_eq!(expected.2.offset(2), Some([300, 900, 0]));
    for reported in 0..16 {
        let mut probing = reported_hole();
        for raw in (0..4).filter(|raw| reported >> raw & 1 == 0) {
            probing.raws[raw] = hole().raws[raw];
        }
        assert_eq!(probing.reported(), reported);
        assert_eq!(measured(probing), expected, "{reported:04b}");
    }
}

#[test]
fn a_used_float_that_is_bad_is_refused() {
    for bad in [f32::NAN, f32::INFINITY, -f32::INFINITY, 1000.0001] {
        for (raw, axis) in [(0, 0), (1, 0), (2, 1), (3, 1)] {
            let mut floats = [0.0; 3];
            floats[axis] = bad;
            let [x, y, z] = floats;
            let mut probing = hole();
            probing.raws[raw] = Report { x, y, z }.into();
            let (answers, results, package) = measured(probing);
            assert_eq!(answers, [Err(Refusal::BadFloat); 2], "raw {raw}: {bad}");
            assert_eq!(results.map(|results| results.refusal()), [13, 13]);
            assert_eq!(package, calibrated());
        }
    }
}

/// 13 stands behind 2 and before 3, in a measurement and in a calibration.
#[test]
fn bad_floats_in_their_order() {
    let nowhere = Reading::from(Report {
        x: f32::NAN,
        ..Report::default()
    });
    let refused = |probe, setpoint| {
        let mut probing = hole();
        (probing.probe, probing.setpoint, probing.raws[0]) = (probe, setpoint, nowhere);
        let calibration = Calibration {
            probe,
            axis: 1,
            setpoint,
            raw: nowhere,
            ..Calibration::default()
        };
        let (answers, _, mut package) = measured(probing);
        (answers[0], answers[1], package.calibrate(&calibration))
    };
    for (probe, setpoint, refusal) in [
        (4, 100, Refusal::NoSuchNumber),
        (1, 10_000_001, Refusal::BadFloat),
    ] {
        let expected = (Err(refusal), Err(refusal), Err(refusal));
        assert_eq!(refused(probe, setpoint), expected);
    }
}

#[test]
fn a_calibration_picks_the_float_of_its_axis() {
    for axis in 1..=3 {
        let mut floats = [f32::NAN; 3];
        floats[axis as usize - 1] = -0.03;
        let [x, y, z] = floats;
        let mut package = Package::fresh();
        let calibration = Calibration {
            probe: 3,
            axis,
            direction: POSITIVE,
            raw: Report { x, y, z }.into(),
            tsa: 1000,
            ..Calibration::default()
        };
        assert_eq!(package.calibrate(&calibration), Ok(()));
        assert_eq!(package.trigger(3, axis as usize, POSITIVE), Some(300));
    }
}

#[test]
fn refused_jobs_leave_everything() {
    let long = b"E,1,1\n".repeat(1001);
    for (job, room, refusal) in [
        (&b""[..], 40, Refusal::EmptyJob),
        (b"E,1,1", 40, Refusal::WrongJob),
        (&long, 40_040, Refusal::WrongJob),
        (b"E,1,1\nE,2,1\n", 79, Refusal::NoRoom),
    ] {
        let mut package = calibrated();
        let mut output = vec![77; room];
        assert_eq!(package.run_job(job, &mut output), Err(refusal));
        assert_eq!((package, output), (calibrated(), vec![77; room]));
    }
}

#[test]
fn jobs_run_on_the_records_that_are_there() {
    let mut package = calibrated();
    let job = b"E,20,-7\nE,21,0\n\n";
    let mut output = [77; 125];
    assert_eq!(job_room(job), 120);
    let length = package.run_job(job, &mut output).unwrap();
    assert_eq!(
        output[..length],
        *b"1,0,0,0,0,0\n2,2,0,0,0,0\n3,10,0,0,0,0\n"
    );
    assert!(output[length..].iter().all(|&byte| byte == 77));
    assert_eq!(
        (package.empirical(20), package.status(1)),
        (Some(-7), Some(63))
    );
}

#[test]
fn refusals_are_errors() {
    let error: Box<dyn std::error::Error> = Box::new(Refusal::Uncalibrated);
    assert_eq!(
        error.to_string(),
        "refused by 5: a direction that the measurement needs is not calibrated: calibrate it before"
    );
}
