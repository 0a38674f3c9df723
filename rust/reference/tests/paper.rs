//! The figures that the paper prints.

mod common;

use common::{at, calibrated, call, with, GROOVE};
use reference::job::fresh_job;
use reference::line::call_of;
use reference::reckoning::Reckoning;
use reference::{next_mean, Package, Records, Wear};

fn check_stored_job(text: &str, output: &str) {
    let printed = fresh_job(text.as_bytes()).unwrap();
    assert_eq!(String::from_utf8(printed).unwrap(), output);
}

#[test]
fn printed_job() {
    let text = include_str!("data/paper.txt");
    check_stored_job(text, include_str!("data/paper.out"));
    let mut package = Package::fresh();
    common::job(&mut package, text);
    let wear = Wear {
        radius: 150,
        length: 0,
    };
    assert_eq!(package.records().wears[3], wear, "tool 4");
    assert_eq!(package.records().mv, [0; 20]);
}

#[test]
fn stored_jobs() {
    check_stored_job(
        include_str!("data/bore-20H7-drift.txt"),
        include_str!("data/bore-20H7-drift.out"),
    );
    check_stored_job(
        include_str!("data/setup-and-recalibration.txt"),
        include_str!("data/setup-and-recalibration.out"),
    );
}

#[test]
fn worked_means() {
    let rows = [
        (0, -7, 5, -1),
        (10, 0, 3, 7),
        (1, 0, 2, 0),
        (0, 1, 2, 1),
        (0, 1, 3, 0),
        (9, -4, 1, -4),
        (4, 4, 7, 4),
        (-32_768, 32_767, 1, 32_767),
    ];
    for (mean, deviation, k, new) in rows {
        assert_eq!(
            next_mean(mean, deviation, k),
            new,
            "({mean},{deviation},{k})"
        );
    }
}

/// The first eight rows once more, through a measurement that keeps the mean.
#[test]
fn worked_means_as_measured() {
    let rows = [(0, -7, 5, -1), (10, 0, 3, 7), (1, 0, 2, 0), (0, 1, 2, 1)];
    let more = [(0, 1, 3, 0), (9, -4, 1, -4), (4, 4, 7, 4)];
    for (mean, deviation, k, new) in rows.into_iter().chain(more) {
        let mut package = with_mean(mean);
        let fields = with(GROOVE, &[(at::R2, 1000 + deviation), (at::K, k)]);
        let answer = call(&mut package, 'T', &fields);
        assert_eq!((answer.refusal, answer.branch), (0, 3));
        assert_eq!(package.records().mv[1], new, "({mean},{deviation},{k})");
    }
}

#[test]
fn greatest_step_of_a_mean() {
    let mut package = with_mean(-32_768);
    let limits = [
        (at::TZL, 32_767),
        (at::TMV, 32_767),
        (at::TDIF, 32_767),
        (at::TSA, 32_767),
    ];
    let fields = with(with(GROOVE, &limits), &[(at::R2, 33_767), (at::K, 1)]);
    let answer = call(&mut package, 'T', &fields);
    assert_eq!((answer.refusal, answer.branch), (0, 3));
    assert_eq!(package.records().mv[1], 32_767);
}

fn with_mean(mean: i16) -> Package {
    let mut records = Records {
        status: [0x3f; 3],
        ..Records::fresh()
    };
    records.mv[1] = mean;
    Package::from_records(records)
}

#[test]
fn worked_branches() {
    // (M, D) -> refusal, branch, c, mean
    let rows = [
        ((0, 100), (0, 3, 0, 20)),
        ((20, 100), (0, 4, 36, 0)),
        ((7, 101), (0, 5, 101, 0)),
        ((7, 301), (8, 0, 0, 7)),
        ((7, 1001), (7, 0, 0, 7)),
    ];
    for ((mean, deviation), expected) in rows {
        let mut package = with_mean(mean);
        let answer = call(
            &mut package,
            'T',
            &with(GROOVE, &[(at::R2, 1000 + deviation)]),
        );
        let left = package.records().mv[1];
        let got = (answer.refusal, answer.branch, answer.array[20], left);
        assert_eq!(got, expected, "M {mean}, D {deviation}");
        assert_eq!(package.records().wears[3].radius, expected.2);
    }
}

#[test]
fn three_deviations_of_1_with_k_4() {
    let mut package = calibrated();
    let mut reckoning = Reckoning::fresh();
    let calibration = [[1, 1, 0, 0, 0, 0, 0], [1, 1, 1, 0, 0, 0, 0]];
    for fields in calibration {
        reckoning.feed(&call_of('C', &fields).unwrap());
    }
    let line = call_of('T', &with(GROOVE, &[(at::R2, 1001), (at::K, 4)])).unwrap();
    for _ in 0..3 {
        assert_eq!(package.apply(&line).branch, 3);
        reckoning.feed(&line);
    }
    assert_eq!(package.records().mv[1], 0);
    let exact = reckoning.mean(1);
    assert!(exact.value.equals(37, 64), "{exact:?}");
    assert!(!exact.value.equals(36, 64));
    assert_eq!((exact.factor, exact.least, exact.greatest), (4, 0, 1));
    assert_eq!(reckoning.breaches(package.records()), []);
}
