//! The generators reach everything that the paper tells apart.

mod common;

use std::collections::{BTreeMap, BTreeSet};

use reference::generate::{every_letter, job, CallSource};
use reference::job::fresh_job;
use reference::{Answer, Call, Fault, Package, Refusal};

/// Name of the call's sort.
fn sort(call: &Call) -> &'static str {
    match call {
        Call::SetEmpirical { .. } => "E",
        Call::SetWear { .. } => "W",
        Call::SetOffset { .. } => "O",
        Call::Calibrate(_) => "C",
        Call::Status { .. } => "status",
        Call::MeasureTool { .. } => "T",
        Call::MeasureZero { .. } => "Z",
        Call::Load { .. } => "load",
        Call::Save { .. } => "save",
        Call::RunJob { .. } => "job",
    }
}

/// Sort of call, refusal, branch, verdict.
type Key = (&'static str, u8, u8, u8);

/// How often each sort of call met each refusal, and each branch and verdict.
fn tally(calls: usize) -> BTreeMap<Key, usize> {
    let mut found = BTreeMap::new();
    for seed in 0..20 {
        let mut source = CallSource::new(seed);
        let mut package = Package::fresh();
        for _ in 0..calls / 20 {
            let call = source.next_call();
            let Answer {
                refusal,
                branch,
                verdict,
                ..
            } = package.apply(&call);
            let key = (sort(&call), refusal, branch, verdict);
            *found.entry(key).or_default() += 1;
        }
    }
    found
}

#[test]
fn each_sort_of_call_reaches_its_refusals_and_no_other() {
    let found = tally(40_000);
    let wanted: [(&str, &[u8]); 10] = [
        ("E", &[0, 2, 3]),
        ("W", &[0, 2, 3]),
        ("O", &[0, 2, 3]),
        ("C", &[0, 2, 3, 7, 9, 13]),
        ("status", &[0, 2]),
        ("T", &[0, 1, 2, 3, 4, 5, 6, 7, 8, 9, 13]),
        ("Z", &[0, 1, 2, 3, 4, 5, 6, 7, 9, 13]),
        ("load", &[0, 1]),
        ("save", &[0, 1]),
        ("job", &[0, 1, 11, 12]),
    ];
    for (sort, refusals) in wanted {
        let seen: BTreeSet<u8> = found
            .keys()
            .filter(|key| key.0 == sort)
            .map(|key| key.1)
            .collect();
        assert_eq!(
            seen,
            BTreeSet::from_iter(refusals.iter().copied()),
            "{sort}"
        );
    }
}

#[test]
fn calls_reach_every_refusal_branch_and_verdict_often() {
    let calls = 40_000;
    let found = tally(calls);
    let count = |matches: &dyn Fn(&Key) -> bool| -> usize {
        let found = found.iter().filter(|(key, _)| matches(key));
        found.map(|(_, count)| count).sum()
    };
    for refusal in (1..=9).chain([13]) {
        let often = count(&|key| key.1 == refusal);
        assert!(often >= calls / 400, "refusal {refusal}: {often}");
    }
    for branch in 1..=5 {
        for verdict in 0..=2 {
            let often = count(&|key| (key.2, key.3) == (branch, verdict));
            assert!(often >= 20, "branch {branch}, verdict {verdict}: {often}");
        }
    }
    assert!(count(&|key| key.2 == 6) >= calls / 100);
}

#[test]
fn calls_bring_the_ends_of_64_bits() {
    let mut source = CallSource::new(3);
    let mut seen = BTreeSet::new();
    for _ in 0..20_000 {
        if let Some((_, fields)) = reference::line::fields_of(&source.next_call()) {
            let ends = fields
                .into_iter()
                .filter(|v| [i64::MIN, i64::MAX].contains(v));
            seen.extend(ends);
        }
    }
    assert_eq!(seen.len(), 2);
}

#[test]
fn jobs_reach_every_refusal_of_jobs_and_lines() {
    let mut jobs: BTreeMap<u8, usize> = BTreeMap::new();
    let mut lines: BTreeMap<(u8, u8, u8), usize> = BTreeMap::new();
    for seed in 0..600 {
        let answer = fresh_job(&job(seed));
        *jobs
            .entry(answer.as_ref().err().map_or(0, |r| r.number()))
            .or_default() += 1;
        for key in answer.iter().flat_map(|output| line_keys(output)) {
            *lines.entry(key).or_default() += 1;
        }
    }
    assert_eq!(jobs.into_keys().collect::<Vec<_>>(), [0, 11, 12]);
    let refusals: BTreeSet<u8> = lines.keys().map(|key| key.0).collect();
    assert_eq!(
        refusals,
        BTreeSet::from_iter([0, 2, 3, 4, 5, 6, 7, 8, 9, 10, 13])
    );
    for branch in 1..=5 {
        for verdict in 0..=2 {
            assert!(
                lines.contains_key(&(0, branch, verdict)),
                "{branch} {verdict}"
            );
        }
    }
}

/// Refusal, branch and verdict of each line of a job's output.
fn line_keys(output: &[u8]) -> Vec<(u8, u8, u8)> {
    let text = String::from_utf8(output.to_vec()).unwrap();
    let key = |line: &str| {
        let fields: Vec<i64> = line
            .split(',')
            .map(|field| field.parse().unwrap())
            .collect();
        assert_eq!(fields.len(), 6);
        (fields[1] as u8, fields[2] as u8, fields[3] as u8)
    };
    text.lines().map(key).collect()
}

#[test]
fn the_same_seed_gives_the_same() {
    let calls = |seed| -> Vec<Call> {
        let mut source = CallSource::new(seed);
        (0..200).map(|_| source.next_call()).collect()
    };
    assert_eq!(calls(9), calls(9));
    assert_ne!(calls(9), calls(10));
    assert_eq!(job(9), job(9));
    assert_ne!(job(9), job(10));
}

#[test]
fn stored_job_has_every_letter_and_refusal() {
    let text = every_letter();
    let stored = include_bytes!("../../../jobs/every-letter-and-refusal-floats.txt");
    let output = include_bytes!("../../../jobs/every-letter-and-refusal-floats.out");
    assert!(text == stored, "the stored job is not the one generated");
    assert!(fresh_job(&text).as_deref() == Ok(&output[..]), "its output");
    assert_eq!(text.iter().filter(|&&byte| byte == b'\n').count(), 1000);

    let keys = line_keys(output);
    let refusals: BTreeSet<u8> = keys.iter().map(|key| key.0).collect();
    assert_eq!(
        refusals,
        BTreeSet::from_iter([0, 2, 3, 4, 5, 6, 7, 8, 9, 10, 13])
    );
    assert!(!refusals.contains(&Refusal::Room.number()));
    let branches: BTreeSet<u8> = keys.iter().map(|key| key.1).collect();
    assert_eq!(branches, BTreeSet::from_iter(0..=6));
    let verdicts: BTreeSet<u8> = keys.iter().map(|key| key.2).collect();
    assert_eq!(verdicts, BTreeSet::from_iter(0..=2));
    for letter in [b'E', b'W', b'O', b'C', b'T', b'Z', b'G'] {
        let mut lines = text.split(|&byte| byte == b'\n').zip(&keys);
        assert!(lines.any(|(line, key)| line.first() == Some(&letter) && key.0 == 0));
    }
}

/// The job that was stored before request 2026-01: it has every letter and
/// refusal of document 01, and its answers stay to the byte.
#[test]
fn the_stored_job_of_before_answers_as_before() {
    let text = include_bytes!("../../../jobs/every-letter-and-refusal.txt");
    let output = include_bytes!("../../../jobs/every-letter-and-refusal.out");
    assert!(fresh_job(text).as_deref() == Ok(&output[..]));
    let refusals: BTreeSet<u8> = line_keys(output).iter().map(|key| key.0).collect();
    assert_eq!(
        refusals,
        BTreeSet::from_iter([0, 2, 3, 4, 5, 6, 7, 8, 9, 10])
    );
}

/// Jobs alone show every fault that their lines can show.
#[test]
fn jobs_show_the_planted_faults() {
    for fault in Fault::ALL {
        let differs = |seed: &u64| {
            let text = job(*seed);
            let mut output = vec![0; 40_000];
            let result = Package::with_fault(fault).run_job(&text, &mut output);
            result.map(|length| output[..length].to_vec()) != fresh_job(&text)
        };
        let seen = (0..400).filter(differs).count();
        assert_eq!(seen > 0, fault.shows_in_jobs(), "{fault:?}: {seen}");
    }
}
