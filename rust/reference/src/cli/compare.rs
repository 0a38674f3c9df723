//! A job program compared with the reference.

use std::collections::BTreeMap;
use std::fs;
use std::path::{Path, PathBuf};
use std::process::{Command, ExitCode};

use super::options::Options;
use super::shrink::shrink;
use reference::generate;
use reference::job::fresh_job;

/// The program that is compared, and the file that it reads.
struct Subject<'a> {
    program: &'a str,
    file: PathBuf,
}

/// What a program prints for a job.
struct Printed {
    output: Vec<u8>,
    errors: Vec<u8>,
    /// Whether it came to its end by itself.
    ended: bool,
}

/// What was compared so far.
#[derive(Default)]
struct Tally {
    jobs: u64,
    refused: u64,
    lines: u64,
    by_refusal: BTreeMap<u8, u64>,
}

impl Subject<'_> {
    fn print(&self, text: &[u8]) -> Result<Printed, String> {
        let failed = |error| format!("{}: {error}", self.file.display());
        fs::write(&self.file, text).map_err(failed)?;
        let ran = Command::new(self.program).arg(&self.file).output();
        let ran = ran.map_err(|error| format!("{}: {error}", self.program))?;
        Ok(Printed {
            output: ran.stdout,
            errors: ran.stderr,
            ended: ran.status.code().is_some(),
        })
    }

    /// What is different, if anything.
    fn difference(&self, text: &[u8]) -> Result<Option<&'static str>, String> {
        let printed = self.print(text)?;
        let errors = String::from_utf8_lossy(&printed.errors);
        Ok(match fresh_job(text) {
            _ if !printed.ended => Some("the program was ended by a signal"),
            Ok(output) if output != printed.output => Some("standard output"),
            Ok(_) if !errors.is_empty() => Some("standard error is not empty"),
            Err(_) if !printed.output.is_empty() => Some("output for a refused job"),
            Err(_) if !is_one_line(&errors) => Some("standard error is not one line"),
            _ => None,
        })
    }
}

fn is_one_line(text: &str) -> bool {
    text.lines().count() == 1 && !text.trim().is_empty()
}

impl Tally {
    fn add(&mut self, text: &[u8]) {
        self.jobs += 1;
        let Ok(output) = fresh_job(text) else {
            self.refused += 1;
            return;
        };
        for line in String::from_utf8_lossy(&output).lines() {
            self.lines += 1;
            let refusal = line.split(',').nth(1).and_then(|field| field.parse().ok());
            let refusal = refusal.expect("an answer has a refusal");
            *self.by_refusal.entry(refusal).or_default() += 1;
        }
    }

    fn summary(&self) -> String {
        let by_refusal = self.by_refusal.iter();
        let counts: Vec<String> = by_refusal
            .map(|(refusal, count)| format!("{refusal}: {count}"))
            .collect();
        format!(
            "{} jobs compared, {} refused, {} lines, by refusal {}",
            self.jobs,
            self.refused,
            self.lines,
            counts.join(", ")
        )
    }
}

/// A folder of its own for the jobs, removed at the end.
struct TemporaryFolder(PathBuf);

impl TemporaryFolder {
    fn new() -> Result<Self, String> {
        let name = format!("reference-compare-{}", std::process::id());
        let folder = std::env::temp_dir().join(name);
        fs::create_dir_all(&folder).map_err(|error| format!("{}: {error}", folder.display()))?;
        Ok(TemporaryFolder(folder))
    }
}

impl Drop for TemporaryFolder {
    fn drop(&mut self) {
        // a folder left behind does no harm
        let _ = fs::remove_dir_all(&self.0);
    }
}

/// Compares generated jobs; the first difference ends it with status 1.
pub fn compare(options: &Options) -> Result<ExitCode, String> {
    let program = options.program.as_deref();
    let program = program.ok_or("compare needs --program PATH")?;
    let folder = TemporaryFolder::new()?;
    let subject = Subject {
        program,
        file: folder.0.join("job.txt"),
    };
    let mut tally = Tally::default();
    for index in 0..options.count {
        let seed = options.job_seed(index);
        let text = generate::job(seed);
        if let Some(difference) = subject.difference(&text)? {
            report(&subject, seed, &text, difference)?;
            return Ok(ExitCode::FAILURE);
        }
        tally.add(&text);
        if options.progress && (index + 1) % 500 == 0 {
            eprintln!("{} of {} jobs", index + 1, options.count);
        }
    }
    println!("{}", tally.summary());
    Ok(ExitCode::SUCCESS)
}

/// Prints the seed, the shrunk job and both outputs.
fn report(subject: &Subject, seed: u64, text: &[u8], difference: &str) -> Result<(), String> {
    let differs = |text: &[u8]| {
        let found = subject.difference(text);
        found.map(|found| found == Some(difference))
    };
    let small = shrink(text, differs)?;
    let printed = subject.print(&small)?;
    println!("difference at seed {seed}: {difference}");
    println!("--- job, {} bytes", small.len());
    println!("{}", readable(&small));
    println!("--- reference");
    match fresh_job(&small) {
        Ok(output) => println!("{}", readable(&output)),
        Err(refusal) => println!("refused by {}", refusal.number()),
    }
    println!("--- {}", Path::new(subject.program).display());
    println!("{}", readable(&printed.output));
    println!("--- its standard error");
    println!("{}", readable(&printed.errors));
    Ok(())
}

/// Text with every byte visible, one line for each line; long texts are cut.
fn readable(text: &[u8]) -> String {
    const SHOWN: usize = 6_000;
    let shown = text[..text.len().min(SHOWN)].split_inclusive(|&byte| byte == b'\n');
    let lines: Vec<String> = shown.map(|line| line.escape_ascii().to_string()).collect();
    let cut = if text.len() > SHOWN { "\n..." } else { "" };
    lines.join("\n") + cut
}
