//! The manual's figures.

mod common;

use common::{at, calibrated, call, with, GROOVE};
use reference::{Package, Records};

/// "Example of mean value calculation and offset": D in µm, TZL 40 µm.
const DEVIATIONS: [i64; 10] = [30, 50, 60, 20, 40, 50, 50, 30, 70, 70];

/// The means of the example, in u, and the measurements that correct.
fn example(k: i64) -> (Vec<i32>, Vec<usize>) {
    let mut package = calibrated();
    let limits = [
        (at::K, k),
        (at::TZL, 400),
        (at::TMV, 1000),
        (at::TDIF, 1000),
        (at::TUL, 1000),
    ];
    let fields = with(GROOVE, &limits);
    let mut means = Vec::new();
    let mut corrected = Vec::new();
    for (index, deviation) in DEVIATIONS.into_iter().enumerate() {
        let r2 = 1000 + 10 * deviation;
        let answer = call(&mut package, 'T', &with(fields, &[(at::R2, r2)]));
        assert!([3, 4].contains(&answer.branch));
        means.push(answer.array[20] + answer.array[31]);
        if answer.branch == 4 {
            corrected.push(index + 1);
        }
    }
    (means, corrected)
}

/// "If k=3 in the 7th and 10th measurement". The manual prints 32,6 for the
/// fifth mean where its own formula gives 33,5; the rounded means follow the
/// formula.
#[test]
fn example_with_k_3() {
    let (means, corrected) = example(3);
    assert_eq!(corrected, [7, 10]);
    assert_eq!(means[..4], [100, 233, 355, 303]);
    assert_eq!(means[4..], [335, 390, 427, 100, 300, 433]);
}

/// "If k=2 in the 3rd, 7th, and 9th meas."
#[test]
fn example_with_k_2() {
    let (means, corrected) = example(2);
    assert_eq!(corrected, [3, 7, 9]);
    let printed = [150, 325, 462, 100, 250, 375, 437, 150, 425, 350];
    for (mean, printed) in means.into_iter().zip(printed) {
        assert!((mean - printed).abs() <= 1, "{mean} for {printed}");
    }
}

/// The manual's hole of 132 mm with T20, EV 10 and mean 10, k 3, TZL 0.01, TMV
/// 0.02, TUL/TLL ±0.03, TDIF 0.06, TSA 1 mm; the ordinate is 132 mm + `over`.
fn hole_of_132_mm(over: i64) -> [i64; 21] {
    let sizes = [(at::KIND, 1), (at::SETPOINT, 1_320_000), (at::TOOL, 20)];
    let raws = [(at::R2, 1_320_000), (at::R4, 1_320_000 + over)];
    let numbers = [(at::EV, 10), (at::MV, 10), (at::K, 3), (at::TZL, 100)];
    let limits = [
        (at::TMV, 200),
        (at::TUL, 300),
        (at::TLL, -300),
        (at::TDIF, 600),
        (at::TSA, 10_000),
    ];
    let fields = with(with(GROOVE, &sizes), &raws);
    with(with(fields, &numbers), &limits)
}

#[test]
fn answers_for_the_hole_of_132_mm() {
    // D -> refusal, branch, verdict, c, mean left
    let rows = [
        (10_001, (7, 0, 0, 0, 40)),
        (601, (8, 0, 0, 0, 40)),
        (600, (0, 5, 1, 600, 0)),
        (301, (0, 5, 1, 301, 0)),
        (300, (0, 5, 0, 300, 0)),
        (-300, (0, 5, 0, -300, 0)),
        (-301, (0, 5, 2, -301, 0)),
        (201, (0, 5, 0, 201, 0)),
        (200, (0, 3, 0, 0, 93)),
        (-200, (0, 3, 0, 0, -40)),
    ];
    for (deviation, expected) in rows {
        let mut package = with_empirical_and_mean(25, 40);
        let answer = call(&mut package, 'T', &hole_of_132_mm(25 + deviation));
        let (c, mean) = (answer.array[20], package.records().mv[9]);
        let got = (answer.refusal, answer.branch, answer.verdict, c, mean);
        assert_eq!(got, expected, "D {deviation}");
        assert_eq!(package.records().wears[19].radius, expected.3);
    }
    let mut package = with_empirical_and_mean(25, 51);
    let answer = call(&mut package, 'T', &hole_of_132_mm(225));
    assert_eq!((answer.branch, answer.array[20]), (4, 101));
    assert_eq!(package.records().mv[9], 0);
}

fn with_empirical_and_mean(empirical: i16, mean: i16) -> Package {
    let mut records = Records {
        status: [0x3f; 3],
        ..Records::fresh()
    };
    records.ev[9] = empirical;
    records.mv[9] = mean;
    Package::from_records(records)
}
