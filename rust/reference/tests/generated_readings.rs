//! The generators reach everything that request 2026-01 tells apart.

use std::collections::BTreeMap;

use reference::generate::{job, CallSource};
use reference::job::{fresh_job, job_lines};
use reference::line::{read_line, RAWS};
use reference::reading::units;
use reference::{Call, Feature, Package, Reading};

/// An axis counted from 0; a wrong number gives the nearest.
fn axis_index(number: i64) -> usize {
    number.clamp(1, 3) as usize - 1
}

/// The raws that a feature uses, each with its axis from 0.
fn used(feature: &Feature) -> Vec<(Reading, usize)> {
    let axis = axis_index(feature.axis);
    let axes = match feature.kind % 100 {
        1 | 2 => vec![0, 0, 1, 1],
        3 | 4 => vec![axis; 2],
        _ => vec![axis],
    };
    feature.raws.into_iter().zip(axes).collect()
}

/// The readings that a call uses.
fn readings(call: &Call) -> Vec<(Reading, usize)> {
    match call {
        Call::Calibrate(call) => vec![(call.raw, axis_index(call.axis))],
        Call::MeasureTool { measurement, .. } => used(&measurement.feature),
        Call::MeasureZero { measurement, .. } => used(&measurement.feature),
        _ => Vec::new(),
    }
}

/// The kind of a measurement, -1 for a calibration.
fn kind(call: &Call) -> i64 {
    match call {
        Call::MeasureTool { measurement, .. } => measurement.feature.kind,
        Call::MeasureZero { measurement, .. } => measurement.feature.kind,
        _ => -1,
    }
}

/// The bits of the float that a report's axis picks.
fn picked((reading, axis): &(Reading, usize)) -> Option<u32> {
    match reading {
        Reading::Whole(_) => None,
        Reading::Report(report) => Some(report.bits()[*axis]),
    }
}

/// Just half a unit off: an odd multiple of 1/32 mm.
fn is_half(bits: u32) -> bool {
    (f32::from_bits(bits) * 32.0).rem_euclid(2.0) == 1.0
}

/// Runs the calls of many lists and counts by what `keys` says of each call and
/// its refusal.
fn count<K: Ord>(keys: impl Fn(&Call, u8) -> Vec<K>) -> BTreeMap<K, usize> {
    let mut found = BTreeMap::new();
    for seed in 0..20 {
        let mut source = CallSource::new(seed);
        let mut package = Package::fresh();
        for _ in 0..2_000 {
            let call = source.next_call();
            let refusal = package.apply(&call).refusal;
            for key in keys(&call, refusal) {
                *found.entry(key).or_default() += 1;
            }
        }
    }
    found
}

#[test]
fn every_kind_is_done_with_reports_and_with_both_forms() {
    let found = count(|call, refusal| {
        let readings = readings(call);
        let reports = readings.iter().filter_map(picked).count();
        let form = match reports {
            0 => "whole",
            _ if reports == readings.len() => "reports",
            _ => "both",
        };
        vec![(kind(call), form, refusal)]
    });
    let often = |kind, form| found.get(&(kind, form, 0)).copied().unwrap_or(0);
    for kind in (0..5).chain(100..105).chain([-1]) {
        for form in ["whole", "reports"] {
            let often = often(kind, form);
            assert!(often >= 100, "kind {kind}, {form}: {often}");
        }
    }
    for kind in [1, 2, 3, 4, 101, 102, 103, 104] {
        let often = often(kind, "both");
        assert!(often >= 100, "kind {kind}, both forms: {often}");
    }
    for kind in (0..5).chain(100..105).chain([-1]) {
        let refused = found.get(&(kind, "reports", 13)).copied().unwrap_or(0);
        assert!(refused >= 5, "kind {kind}, 13: {refused}");
    }
}

/// What a float is.
fn sort(bits: u32) -> &'static str {
    match (bits & 0x7fff_ffff, units(bits)) {
        (0, _) => "zero",
        (1..0x80_0000, _) => "below the normal floats",
        (_, Some(0)) => "under half a unit",
        (0x447a_0000, _) => "1000 mm",
        (0x447a_0001, _) => "next to 1000 mm",
        (0x7f80_0000, _) => "infinite",
        (0x7f80_0001.., _) => "no number",
        _ if is_half(bits) => "half",
        (_, None) => "beyond",
        _ => "plain",
    }
}

#[test]
fn used_floats_are_of_every_sort_and_sign() {
    let found = count(|call, refusal| {
        let floats = readings(call).iter().filter_map(picked).collect::<Vec<_>>();
        let key = |bits| {
            (
                sort(bits),
                bits >> 31,
                if refusal == 0 { 0 } else { refusal },
            )
        };
        floats.into_iter().map(key).collect()
    });
    let often = |sort, sign, refusal| found.get(&(sort, sign, refusal)).copied().unwrap_or(0);
    for sign in [0, 1] {
        for sort in ["next to 1000 mm", "infinite", "no number", "beyond"] {
            let often = often(sort, sign, 13);
            assert!(often >= 8, "{sort}, sign {sign}, 13: {often}");
        }
        for (sort, least) in [("plain", 1_000), ("half", 200), ("zero", 3)] {
            let often = often(sort, sign, 0);
            assert!(often >= least, "{sort}, sign {sign}, done: {often}");
        }
        for sort in ["below the normal floats", "under half a unit", "1000 mm"] {
            let met = found.keys().any(|key| (key.0, key.1) == (sort, sign));
            assert!(met, "{sort}, sign {sign}");
        }
    }
}

/// Floats that no axis picks and readings that are not used are bad in calls
/// that are done.
#[test]
fn unused_floats_are_bad_in_calls_that_are_done() {
    let found = count(|call, refusal| {
        let readings = readings(call);
        let bad = |bits: &u32| units(*bits).is_none();
        let unpicked = readings.iter().any(|(reading, _)| match reading {
            Reading::Whole(_) => false,
            Reading::Report(report) => report.bits().iter().any(bad),
        });
        let unused = match call {
            Call::MeasureTool { measurement, .. } => measurement.feature.raws,
            Call::MeasureZero { measurement, .. } => measurement.feature.raws,
            _ => [Reading::default(); 4],
        };
        let unused = unused.iter().skip(readings.len());
        let unused = unused
            .filter(|reading| reading.position(0).is_err())
            .count();
        vec![(refusal, unpicked, unused > 0)]
    });
    assert!(found[&(0, true, false)] > 500, "{found:?}");
    assert!(found[&(0, false, true)] > 100, "{found:?}");
}

/// Each refusal of G lines, and every kind done.
#[test]
fn jobs_have_g_lines_with_every_refusal_and_kind() {
    let mut refusals: BTreeMap<i64, usize> = BTreeMap::new();
    let mut kinds: BTreeMap<i64, usize> = BTreeMap::new();
    for seed in 0..800 {
        let text = job(seed);
        let Ok(output) = fresh_job(&text) else {
            continue;
        };
        let answers = output.split(|&byte| byte == b'\n');
        for (line, answer) in job_lines(&text).unwrap().iter().zip(answers) {
            if !line.starts_with(b"G,") {
                continue;
            }
            let answer = std::str::from_utf8(answer).unwrap();
            let refusal = answer.split(',').nth(1).unwrap().parse().unwrap();
            *refusals.entry(refusal).or_default() += 1;
            if refusal == 0 {
                *kinds.entry(kind(&read_line(line).unwrap())).or_default() += 1;
            }
        }
    }
    let seen: Vec<i64> = refusals.keys().copied().collect();
    assert_eq!(seen, [0, 2, 3, 4, 5, 6, 7, 8, 9, 10, 13]);
    assert!(refusals[&13] > 50 && refusals[&10] > 200, "{refusals:?}");
    let seen: Vec<i64> = kinds.keys().copied().collect();
    assert_eq!(seen, [0, 1, 2, 3, 4]);
    assert!(kinds.values().all(|&often| often > 100), "{kinds:?}");
}

/// What is wrong with the digits of a raw.
fn wrong_digits(raw: &str) -> Option<&'static str> {
    let digits = raw.bytes().all(|byte| byte.is_ascii_hexdigit());
    let capitals = raw.bytes().any(|byte| byte.is_ascii_uppercase());
    match raw.len() {
        8 if digits && !capitals => None,
        8 if digits => Some("capitals"),
        8 if raw.starts_with(['-', '+']) => Some("sign"),
        7 if digits && !capitals => Some("seven"),
        9 if digits && !capitals => Some("nine"),
        _ => Some("other"),
    }
}

/// Raws of G lines with the right number of fields, by what is wrong with their
/// digits and whether the kind uses them.
#[test]
fn digits_are_damaged_in_every_way() {
    let mut found: BTreeMap<(&str, bool), usize> = BTreeMap::new();
    let texts = (0..800).map(|seed| String::from_utf8_lossy(&job(seed)).into_owned());
    for line in texts.flat_map(|text| text.lines().map(str::to_owned).collect::<Vec<_>>()) {
        let fields: Vec<&str> = line.split(',').skip(1).collect();
        if !line.starts_with("G,") || fields.len() != 21 {
            continue;
        }
        let used = match fields[0] {
            "0" => 1,
            "1" | "2" => 4,
            "3" | "4" => 2,
            _ => continue,
        };
        for (index, raw) in fields[RAWS].iter().enumerate() {
            if let Some(wrong) = wrong_digits(raw) {
                *found.entry((wrong, index < used)).or_default() += 1;
            }
        }
    }
    for wrong in ["capitals", "sign", "seven", "nine", "other"] {
        for used in [false, true] {
            let often = found.get(&(wrong, used)).copied().unwrap_or(0);
            assert!(often >= 10, "{wrong}, used {used}: {found:?}");
        }
    }
}
