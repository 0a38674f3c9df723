//! The subcommands.

mod compare;
mod options;
mod shrink;

use std::fs;
use std::io::{self, Write};
use std::path::Path;
use std::process::ExitCode;

use options::Options;
use reference::generate;
use reference::job::fresh_job;

const USAGE: &str = "usage:
  reference run FILE
  reference every-letter
  reference write-jobs [--seed S] [--count N] DIR
  reference compare --program PATH [--seed S] [--count N] [--progress]";

/// Runs the subcommand; a message is a wrong use or a failed file.
pub fn run(arguments: &[String]) -> Result<ExitCode, String> {
    let Some((command, rest)) = arguments.split_first() else {
        return Err(USAGE.to_owned());
    };
    let options = Options::read(rest).map_err(|error| format!("{error}\n{USAGE}"))?;
    match (command.as_str(), &options.operand) {
        ("run", Some(file)) => run_job(file),
        ("every-letter", None) => print(&generate::every_letter()).map(|()| ExitCode::SUCCESS),
        ("write-jobs", Some(folder)) => write_jobs(&options, Path::new(folder)),
        ("compare", None) => compare::compare(&options),
        _ => Err(USAGE.to_owned()),
    }
}

fn print(bytes: &[u8]) -> Result<(), String> {
    let written = io::stdout().write_all(bytes);
    written.map_err(|error| format!("standard output: {error}"))
}

/// Prints a job's answers from a fresh package; "for a refused job it prints
/// nothing".
fn run_job(file: &str) -> Result<ExitCode, String> {
    let text = fs::read(file).map_err(|error| format!("{file}: {error}"))?;
    match fresh_job(&text) {
        Ok(output) => print(&output).map(|()| ExitCode::SUCCESS),
        Err(refusal) => {
            let (number, meaning) = (refusal.number(), refusal.meaning());
            eprintln!("{file}: refused by {number}, {meaning}");
            Ok(ExitCode::FAILURE)
        }
    }
}

/// Writes generated jobs and what they print, 00000.txt and 00000.out onwards.
fn write_jobs(options: &Options, folder: &Path) -> Result<ExitCode, String> {
    let failed = |error: io::Error| format!("{}: {error}", folder.display());
    fs::create_dir_all(folder).map_err(failed)?;
    for index in 0..options.count {
        let text = generate::job(options.job_seed(index));
        let output = fresh_job(&text).unwrap_or_default();
        fs::write(folder.join(format!("{index:05}.txt")), text).map_err(failed)?;
        fs::write(folder.join(format!("{index:05}.out")), output).map_err(failed)?;
    }
    Ok(ExitCode::SUCCESS)
}
