//! The exact reckoning's bounds, and what the planted faults show.

mod common;

use common::{at, calibrated, with, GROOVE};
use reference::generate::CallSource;
use reference::line::call_of;
use reference::reckoning::{Breach, Reckoning};
use reference::{Call, Fault, Package};

/// Feeds a random list to a package and to the reckoning.
fn run_list(mut package: Package, seed: u64, calls: usize) -> (Package, Reckoning) {
    let mut source = CallSource::new(seed);
    let mut reckoning = Reckoning::fresh();
    for _ in 0..calls {
        let call = source.next_call();
        package.apply(&call);
        reckoning.feed(&call);
    }
    (package, reckoning)
}

#[test]
fn bounds_hold_over_long_lists() {
    for seed in 0..8 {
        let (package, reckoning) = run_list(Package::fresh(), seed, 10_000);
        assert_eq!(reckoning.breaches(package.records()), [], "seed {seed}");
    }
}

#[test]
fn bounds_hold_after_each_call() {
    let mut source = CallSource::new(77);
    let mut package = Package::fresh();
    let mut reckoning = Reckoning::fresh();
    let mut inexact = 0;
    for _ in 0..600 {
        let call = source.next_call();
        package.apply(&call);
        reckoning.feed(&call);
        assert_eq!(reckoning.breaches(package.records()), [], "after {call:?}");
        let mean = i64::from(package.records().mv[0]);
        inexact += usize::from(!reckoning.mean(0).value.equals(mean, 1));
    }
    assert!(inexact > 0, "the stored mean never left the exact one");
}

/// A list of lines on a fresh package, calibrated first.
fn lines(lines: &[[i64; 21]]) -> Vec<Call> {
    let directions = [[1, 1, 0, 0, 0, 0, 0], [1, 1, 1, 0, 0, 0, 0]];
    let calibrations = directions.iter().map(|fields| call_of('C', fields));
    let measurements = lines.iter().map(|fields| call_of('T', fields));
    calibrations
        .chain(measurements)
        .map(Option::unwrap)
        .collect()
}

fn reckon(calls: &[Call]) -> Reckoning {
    let mut reckoning = Reckoning::fresh();
    calls.iter().for_each(|call| reckoning.feed(call));
    reckoning
}

#[test]
fn mean_and_wear_of_branch_4() {
    let first = with(GROOVE, &[(at::R2, 1091), (at::K, 7)]);
    let second = with(GROOVE, &[(at::R2, 1099)]);
    // 91/7 = 13, then (4·13 + 99)/5 = 151/5 > 20: K' is 7
    let reckoning = reckon(&lines(&[first, second]));
    assert!(reckoning.radius(3).value.equals(151, 5));
    assert_eq!(reckoning.radius(3).doubled_bound, 7);
    assert!(reckoning.mean(1).value.equals(0, 1));
    assert_eq!(reckoning.mean(1).factor, 0);

    let plane = [(at::KIND, 0), (at::AXIS, 1), (at::DIRECTION, 1)];
    let planes = [(at::R1, 1091, 7), (at::R1, 1099, 5)]
        .map(|(place, raw, k)| with(with(GROOVE, &plane), &[(place, raw), (at::K, k)]));
    let reckoning = reckon(&lines(&planes));
    assert!(reckoning.radius(3).value.equals(-302, 5));
    assert_eq!(reckoning.radius(3).doubled_bound, 14);
    assert_eq!(reckoning.length(3).doubled_bound, 0);
}

#[test]
fn a_load_starts_every_mean_and_a_wear_set_clears_its_bound() {
    let first = with(GROOVE, &[(at::R2, 1091), (at::K, 7)]);
    let second = with(GROOVE, &[(at::R2, 1099)]);
    let mut calls = lines(&[first, second, first]);
    assert_eq!(reckon(&calls).mean(1).factor, 7);
    calls.push(Call::Load {
        block: vec![0xff; 80],
    });
    let reckoning = reckon(&calls);
    let mean = reckoning.mean(1);
    assert!(mean.value.equals(-1, 1));
    assert_eq!((mean.factor, mean.least, mean.greatest), (0, -1, -1));
    assert_eq!(reckoning.radius(3).doubled_bound, 7);
    calls.push(Call::Load { block: vec![0; 79] });
    assert!(reckon(&calls).mean(1).value.equals(-1, 1));
    calls.push(call_of('W', &[4, 9, 8]).unwrap());
    let reckoning = reckon(&calls);
    assert!(reckoning.radius(3).value.equals(9, 1) && reckoning.length(3).value.equals(8, 1));
    assert_eq!(reckoning.radius(3).doubled_bound, 0);
}

#[test]
fn the_check_sees_one_unit_too_much() {
    // N/P = 37/64 with K = 4: means from -1 to 2 are near enough, 0 and 1 in span
    let line = with(GROOVE, &[(at::R2, 1001), (at::K, 4)]);
    let reckoning = reckon(&lines(&[line; 3]));
    let breaches = |mean: i16, radius: i32| {
        let mut records = calibrated().records().clone();
        records.mv[1] = mean;
        records.wears[3].radius = radius;
        reckoning.breaches(&records)
    };
    let (distance, span) = (
        Breach::MeanDistance { number: 2 },
        Breach::MeanSpan { number: 2 },
    );
    assert_eq!(breaches(0, 0), []);
    assert_eq!(breaches(1, 0), []);
    assert_eq!(breaches(2, 0), [span]);
    assert_eq!(breaches(3, 0), [distance, span]);
    assert_eq!(breaches(-1, 0), [span]);
    assert_eq!(breaches(-2, 0), [distance, span]);
    assert_eq!(breaches(0, 1), [Breach::RadiusWear { tool: 4 }]);
    assert_eq!(breaches(0, -1), [Breach::RadiusWear { tool: 4 }]);

    // a wear of 151/5 with bound 7/2: from 27 to 33
    let first = with(GROOVE, &[(at::R2, 1091), (at::K, 7)]);
    let second = with(GROOVE, &[(at::R2, 1099)]);
    let reckoning = reckon(&lines(&[first, second]));
    let inside = |radius: i32| {
        let mut records = calibrated().records().clone();
        records.wears[3].radius = radius;
        reckoning.breaches(&records).is_empty()
    };
    let reached: Vec<i32> = (0..60).filter(|&radius| inside(radius)).collect();
    assert_eq!(reached, (27..=33).collect::<Vec<_>>());
}

/// Whether random calls tell the package from a sound one, by an answer or by
/// the records left.
fn is_seen(mut package: Package, seed: u64, calls: usize) -> bool {
    let mut sound = Package::fresh();
    let mut source = CallSource::new(seed);
    (0..calls).any(|_| {
        let call = source.next_call();
        package.apply(&call) != sound.apply(&call) || package.records() != sound.records()
    })
}

#[test]
fn every_planted_fault_is_seen_on_random_calls() {
    for seed in 100..105 {
        assert!(!is_seen(Package::fresh(), seed, 2_000), "a sound package");
        for fault in Fault::ALL {
            let package = Package::with_fault(fault);
            assert!(is_seen(package, seed, 2_000), "{fault:?}, seed {seed}");
        }
    }
}

/// The faults that touch means and wears also leave the reckoning's bounds.
#[test]
fn faults_of_means_and_wears_leave_the_bounds() {
    for fault in [
        Fault::UnsignedBytes,
        Fault::DeviationAgainstTzl,
        Fault::MeanClearedInBranch3,
        Fault::OversizeWithheld,
        Fault::ShaftSign,
    ] {
        let leaves = |seed| {
            let (package, reckoning) = run_list(Package::with_fault(fault), seed, 400);
            !reckoning.breaches(package.records()).is_empty()
        };
        assert!((0..10).any(leaves), "{fault:?}");
    }
}
