//! The command line.

use std::process::{Command, Output};

fn run(arguments: &[&str]) -> Output {
    let command = Command::new(env!("CARGO_BIN_EXE_differential"))
        .args(arguments)
        .output();
    command.expect("the program runs")
}

fn text(bytes: &[u8]) -> String {
    String::from_utf8_lossy(bytes).into_owned()
}

#[test]
fn counts_in_one_line() {
    let ran = run(&["--calls", "2000", "--jobs", "0", "--seed", "7"]);
    assert_eq!(ran.status.code(), Some(0));
    let line = text(&ran.stdout);
    assert_eq!(line.lines().count(), 1);
    for part in [
        "calls in 4 lists",
        "measure_tool: ",
        "by refusal 0: ",
        "by branch 1: ",
    ] {
        assert!(line.contains(part), "{line}");
    }
}

#[test]
fn a_fault_is_shown_with_its_seed() {
    let ran = run(&["--fault", "ShaftSign", "--seed", "3"]);
    assert_eq!(ran.status.code(), Some(1));
    let shown = text(&ran.stdout);
    assert!(shown.starts_with("difference at seed "), "{shown}");
    assert!(
        shown.contains("package") && shown.contains("reference"),
        "{shown}"
    );
    let again = shown
        .split_once("(again: ")
        .unwrap()
        .1
        .split_once(')')
        .unwrap()
        .0;
    let mut arguments: Vec<&str> = again.split(' ').collect();
    arguments.extend(["--fault", "ShaftSign"]);
    assert_eq!(text(&run(&arguments).stdout), shown);
}

#[test]
fn wrong_uses_say_what_is_meant() {
    for arguments in [
        &["--calls"][..],
        &["--calls", "many"],
        &["--fault", "None"],
        &["--fast"],
    ] {
        let ran = run(arguments);
        assert_eq!(ran.status.code(), Some(2), "{arguments:?}");
        assert!(
            text(&ran.stderr).contains("usage: differential"),
            "{arguments:?}"
        );
    }
}
