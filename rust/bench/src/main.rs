//! Speed of the package against the reference.

mod count;
mod inputs;
mod job;
mod reading;
mod rows;
mod sides;
mod timing;

use std::process::ExitCode;

use rows::Start;
use sides::Side;
use timing::{Row, Timed};

const USAGE: &str = "usage: bench [--count [JOB ..] | --run SIDE TIMES [JOB]]
  --count  instructions in place of times; valgrind is needed
  --run    a job of a side over and over, for --count";

/// Rounds unless ROUNDS says otherwise.
const ROUNDS: usize = 1_001;

fn per_second(nanoseconds: f64) -> String {
    format!("{:.2} M", 1_000.0 / nanoseconds)
}

fn print_heading([first, second]: [&str; 2]) {
    println!(
        "{:<21} {first:>12} {second:>12} {first:>12} {second:>12} {:>8}",
        "", "ratio"
    );
}

fn print(row: &Row, timed: &Timed) {
    println!(
        "{:<21} {:>9.1} ns {:>9.1} ns {:>10}/s {:>10}/s {:>8.2}",
        row.name,
        timed.package,
        timed.other,
        per_second(timed.package),
        per_second(timed.other),
        timed.ratio()
    );
}

/// Rounds by the environment, at least one.
fn rounds() -> usize {
    let asked = std::env::var("ROUNDS").ok();
    asked
        .and_then(|text| text.parse().ok())
        .unwrap_or(ROUNDS)
        .max(1)
}

fn print_limit(row: &Row, timed: &Timed) {
    println!("the limit: the lines and numbers of the same job only read, nothing evaluated");
    print_heading(["run_job", "only read"]);
    print(row, timed);
    println!("run_job takes {:.1} times as long", 1.0 / timed.ratio());
}

fn print_floats(row: &Row, timed: &Timed) {
    println!("a job of measurements alone: the same parts as T lines and as G lines");
    print_heading(["T", "G"]);
    print(row, timed);
    println!(
        "a G line takes {:.2} times as long as its T line; at most 1.1 is wanted",
        timed.ratio()
    );
}

/// The table of all calls, the job against its limit, G lines against T lines.
fn time() -> Result<(), String> {
    let text = job::text();
    let (whole, floats) = (job::whole_lines(), job::float_lines());
    let start = Start::calibrated();
    let rounds = rounds();
    let mut rows = rows::calls(&start, &text);
    let calls = rows.len();
    rows.extend([rows::limit(&text), rows::floats(&whole, &floats)]);
    let timed = timing::time(&mut rows, rounds);
    println!("job: {}", job::summary(&text)?);
    println!("medians of {rounds} rounds, both sides in turns; ratio is the package's speed over the reference's");
    print_heading(["package", "reference"]);
    for (row, timed) in rows.iter().zip(&timed).take(calls) {
        print(row, timed);
    }
    print_limit(&rows[calls], &timed[calls]);
    print_floats(&rows[calls + 1], &timed[calls + 1]);
    Ok(())
}

fn count(paths: &[&str]) -> Result<(), String> {
    count::print(None)?;
    count::print_floats()?;
    paths.iter().try_for_each(|path| count::print(Some(path)))
}

fn run(side: &str, times: &str, path: Option<&str>) -> Result<(), String> {
    match (Side::named(side), times.parse()) {
        (Some(side), Ok(times)) => count::run(side, times, path),
        _ => Err(USAGE.to_owned()),
    }
}

fn main() -> ExitCode {
    let arguments: Vec<String> = std::env::args().skip(1).collect();
    let arguments: Vec<&str> = arguments.iter().map(String::as_str).collect();
    let done = match arguments[..] {
        [] => time(),
        ["--count", ref paths @ ..] => count(paths),
        ["--run", side, times] => run(side, times, None),
        ["--run", side, times, path] => run(side, times, Some(path)),
        _ => Err(USAGE.to_owned()),
    };
    match done {
        Ok(()) => ExitCode::SUCCESS,
        Err(why) => {
            eprintln!("{why}");
            ExitCode::from(2)
        }
    }
}
