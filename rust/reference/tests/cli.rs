//! The subcommands.

use std::fs;
use std::os::unix::fs::PermissionsExt;
use std::path::PathBuf;
use std::process::{Command, Output};

const REFERENCE: &str = env!("CARGO_BIN_EXE_reference");

fn reference(arguments: &[&str]) -> Output {
    let mut command = Command::new(REFERENCE);
    command.args(arguments).output().expect("the program runs")
}

/// An empty folder of this test's own.
fn folder(name: &str) -> PathBuf {
    let folder = PathBuf::from(env!("CARGO_TARGET_TMPDIR")).join(name);
    let _ = fs::remove_dir_all(&folder);
    fs::create_dir_all(&folder).unwrap();
    folder
}

/// A shell script that stands for a job program; `$1` is the job.
fn program(folder: &str, body: &str) -> String {
    let path = crate::folder(folder).join("program");
    let text = format!("#!/bin/sh\nreference='{REFERENCE}'\n{body}\n");
    fs::write(&path, text).unwrap();
    fs::set_permissions(&path, fs::Permissions::from_mode(0o755)).unwrap();
    path.to_str().unwrap().to_owned()
}

fn lines(text: &[u8]) -> usize {
    String::from_utf8_lossy(text).lines().count()
}

#[test]
fn run_prints_answers_or_one_line_of_error() {
    let data = concat!(env!("CARGO_MANIFEST_DIR"), "/tests/data/paper.txt");
    let ran = reference(&["run", data]);
    assert!(ran.status.success() && ran.stderr.is_empty());
    assert_eq!(ran.stdout, include_bytes!("data/paper.out"));

    let empty = folder("run").join("empty.txt");
    fs::write(&empty, "").unwrap();
    for file in [empty.to_str().unwrap(), "/nowhere/job.txt"] {
        let ran = reference(&["run", file]);
        assert!(!ran.status.success() && ran.stdout.is_empty());
        assert_eq!(lines(&ran.stderr), 1, "{file}");
    }
}

#[test]
fn every_letter_prints_the_stored_job() {
    let ran = reference(&["every-letter"]);
    let stored = include_bytes!("../../../jobs/every-letter-and-refusal-floats.txt");
    assert!(ran.stdout == stored);
}

#[test]
fn write_jobs_writes_pairs() {
    let folder = folder("write");
    let path = folder.to_str().unwrap();
    let ran = reference(&["write-jobs", "--seed", "5", "--count", "12", path]);
    assert!(ran.status.success());
    assert_eq!(fs::read_dir(&folder).unwrap().count(), 24);
    for index in 0..12 {
        let file = folder.join(format!("{index:05}.txt"));
        let expected = fs::read(folder.join(format!("{index:05}.out"))).unwrap();
        let ran = reference(&["run", file.to_str().unwrap()]);
        assert_eq!(ran.stdout, expected);
        assert_eq!(
            fs::read(file).unwrap(),
            reference::generate::job(5 + index),
            "the job of seed 5 + {index}"
        );
    }
}

#[test]
fn compare_agrees_with_itself() {
    let same = program("same", r#"exec "$reference" run "$1""#);
    let ran = reference(&[
        "compare",
        "--program",
        &same,
        "--seed",
        "9",
        "--count",
        "40",
    ]);
    let printed = String::from_utf8(ran.stdout).unwrap();
    assert!(ran.status.success(), "{printed}");
    assert!(ran.stderr.is_empty());
    assert!(printed.starts_with("40 jobs compared, "), "{printed}");
    assert_eq!(printed.lines().count(), 1);
}

#[test]
fn compare_finds_what_differs_and_shrinks_it() {
    // branch 5 is said to be branch 2
    let body = r#""$reference" run "$1" | sed 's/^\([0-9]*\),0,5,/\1,0,2,/'"#;
    let ran = reference(&["compare", "--program", &program("branch", body)]);
    let printed = String::from_utf8(ran.stdout).unwrap();
    assert_eq!(ran.status.code(), Some(1), "{printed}");
    assert!(printed.contains("difference at seed "), "{printed}");
    let job = printed.split("---").nth(1).unwrap();
    assert!(job.lines().count() <= 8, "not shrunk:\n{printed}");
    assert!(job.contains("\nT,"), "{printed}");
}

#[test]
fn compare_looks_at_standard_error_too() {
    for (name, body) in [
        ("silent", r#""$reference" run "$1" 2>/dev/null"#),
        ("talking", r#"echo hello >&2; exec "$reference" run "$1""#),
        ("twice", r#""$reference" run "$1" || echo again >&2"#),
        ("killed", r#""$reference" run "$1"; kill -9 $$"#),
        ("printing", r#""$reference" run "$1" || echo 1,0,0,0,0,0"#),
    ] {
        let ran = reference(&["compare", "--program", &program(name, body)]);
        assert_eq!(ran.status.code(), Some(1), "{name}");
    }
}

#[test]
fn wrong_use_is_said() {
    for arguments in [
        &[][..],
        &["run"],
        &["unknown"],
        &["compare"],
        &["compare", "--program"],
        &["write-jobs", "--count", "x", "/tmp"],
        &["run", "one", "two"],
        &["run", "--unknown", "one"],
    ] {
        let ran = reference(arguments);
        assert_eq!(ran.status.code(), Some(2), "{arguments:?}");
        assert!(ran.stdout.is_empty() && !ran.stderr.is_empty());
    }
}
