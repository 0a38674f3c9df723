//! Instructions of a job, counted by callgrind: times depend on what else the
//! machine does, these do not.

use std::process::Command;
use std::{env, fs};

use crate::job;
use crate::sides::Side;

/// How often the job is done more in the second count of two; what begins and
/// ends the program falls out of their difference.
const MORE: u64 = 10;

/// Does a job over and over: what callgrind looks at.
pub fn run(side: Side, times: u64, path: Option<&str>) -> Result<(), String> {
    let text = job_text(path)?;
    let mut work = side.work(&text);
    (0..times).for_each(|_| work());
    Ok(())
}

/// Names of jobs that stand in no file: the same measurements as T and as G lines.
const WHOLE_LINES: &str = "T lines";
const FLOAT_LINES: &str = "G lines";

/// The job of a file or name, or else that of the table.
fn job_text(path: Option<&str>) -> Result<Vec<u8>, String> {
    match path {
        None => Ok(job::text()),
        Some(WHOLE_LINES) => Ok(job::whole_lines()),
        Some(FLOAT_LINES) => Ok(job::float_lines()),
        Some(path) => fs::read(path).map_err(|error| format!("{path}: {error}")),
    }
}

/// The number of callgrind's line 'Collected : n'.
fn collected(said: &str) -> Option<u64> {
    let (_, after) = said.split_once("Collected :")?;
    after.split_whitespace().next()?.parse().ok()
}

/// Instructions of a run of this program.
fn instructions(side: Side, times: u64, path: Option<&str>) -> Result<u64, String> {
    let program = env::current_exe().map_err(|error| error.to_string())?;
    let mut command = Command::new("valgrind");
    command.args(["--tool=callgrind", "--callgrind-out-file=/dev/null"]);
    command.arg(program).args(["--run", side.name()]);
    command.arg(times.to_string()).args(path);
    let ran = command
        .output()
        .map_err(|error| format!("valgrind cannot be run: {error}"))?;
    let said = String::from_utf8_lossy(&ran.stderr);
    let count = collected(&said).filter(|_| ran.status.success());
    count.ok_or_else(|| format!("valgrind counts nothing:\n{said}"))
}

/// Instructions of doing the job once.
fn once(side: Side, path: Option<&str>) -> Result<f64, String> {
    let few = instructions(side, 1, path)?;
    let many = instructions(side, 1 + MORE, path)?;
    Ok(many.saturating_sub(few) as f64 / MORE as f64)
}

/// What the job takes of each side, a line, a byte, and over only reading it.
pub fn print(path: Option<&str>) -> Result<(), String> {
    let text = job_text(path)?;
    let name = path.unwrap_or("job of the table");
    println!("{name}: {}", job::summary(&text)?);
    println!(
        "{:<16} {:>12} {:>12} {:>16}",
        "instructions", "a line", "a byte", "over only read"
    );
    let package = once(Side::Package, path)?;
    let reference = once(Side::Reference, path)?;
    let reading = once(Side::Reading, path)?;
    for (side, count) in Side::ALL.into_iter().zip([package, reference, reading]) {
        println!(
            "{:<16} {:>12.1} {:>12.2} {:>16.2}",
            side.name(),
            count / job::lines(&text) as f64,
            count / text.len() as f64,
            count / reading
        );
    }
    println!("reference over package: {:.2}", reference / package);
    Ok(())
}

/// What the package takes for the same measurements as T and as G lines.
pub fn print_floats() -> Result<(), String> {
    let lines = job::lines(&job::whole_lines()) as f64;
    let whole = once(Side::Package, Some(WHOLE_LINES))?;
    let floats = once(Side::Package, Some(FLOAT_LINES))?;
    println!("the same measurements as T lines and as G lines, instructions of the package a line");
    println!(
        "T {:.1}, G {:.1}, G over T: {:.3}",
        whole / lines,
        floats / lines,
        floats / whole
    );
    Ok(())
}

#[cfg(test)]
mod tests {
    use super::*;

    #[test]
    fn the_count_is_found_in_what_callgrind_says() {
        let said = "==7== Events    : Ir\n==7== Collected : 3575075\n==7==\n";
        assert_eq!(collected(said), Some(3_575_075));
        assert_eq!(collected("==7== Collected : none"), None);
        assert_eq!(collected("valgrind: no such file"), None);
    }

    #[test]
    fn a_job_that_is_not_there_is_told() {
        let missing = print(Some("no such job"));
        assert!(missing.is_err_and(|why| why.starts_with("no such job: ")));
    }
}
