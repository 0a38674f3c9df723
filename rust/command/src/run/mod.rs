//! `run`: a job on a fresh package, or on one that goes on from a file.

mod explain;
mod state;

use mezhtolik::{job_room, Package, Refusal, BLOCK};

use crate::answers::{self, Answer};
use crate::failure::{ended, print, say, Failure};
use crate::files::{self, Replacement};
use crate::options::{self, Given, Option_};
use crate::records;
use crate::status;

const HELP: &str = include_str!("help.txt");

const EXPLAIN: &str = "--explain";
const RECORDS: &str = "--records";
const PLAIN: &str = "--plain";
const MEMORY: &str = "--memory";
const SAVE: &str = "--save";
const STATE: &str = "--state";

const OPTIONS: [Option_; 6] = [
    Option_::alone(EXPLAIN),
    Option_::alone(RECORDS),
    Option_::alone(PLAIN),
    Option_::file(MEMORY),
    Option_::file(SAVE),
    Option_::file(STATE),
];

/// One byte more than the block has.
const BLOCK_READ: u64 = BLOCK as u64 + 1;
/// Far more than a state of any version has.
const STATE_READ: u64 = 1 << 20;

/// The exit status of `run` with these arguments.
pub fn command(arguments: &[String]) -> u8 {
    if options::asks_help(arguments) {
        return ended(print(HELP.as_bytes()).map(|()| status::DONE));
    }
    ended(options::read(&OPTIONS, arguments).and_then(|given| run(&given)))
}

fn run(given: &Given) -> Result<u8, Failure> {
    fits(given)?;
    let job = files::job(given.file)?;
    let mut package = package_before(given)?;
    let mut output = vec![0; job_room(&job)];
    match package.run_job(&job, &mut output) {
        Ok(length) => done(given, &Ran::of(&job, &output[..length], &package)),
        Err(refusal) => refused(given, refusal),
    }
}

/// A job that ran: its text, what the package wrote, and the package after it.
struct Ran<'a> {
    job: &'a [u8],
    output: &'a str,
    answers: Vec<Answer>,
    package: &'a Package,
}

impl<'a> Ran<'a> {
    fn of(job: &'a [u8], output: &'a [u8], package: &'a Package) -> Ran<'a> {
        let output = std::str::from_utf8(output).expect("answers are digits and commas");
        let answers = answers::read(output);
        Ran {
            job,
            output,
            answers,
            package,
        }
    }
}

/// Options that do not go together, and names by which this run would write over a file of its own.
fn fits(given: &Given) -> Result<(), Failure> {
    let texts = [EXPLAIN, RECORDS].into_iter().find(|name| given.has(name));
    if let Some(text) = texts.filter(|_| given.has(PLAIN)) {
        return Err(Failure::usage(format!(
            "{PLAIN} is one line of numbers and goes without {text}"
        )));
    }
    let (job, save, state) = (Some(given.file), given.value(SAVE), given.value(STATE));
    let one_file =
        |a: Option<&str>, b: Option<&str>| a.zip(b).is_some_and(|(a, b)| files::same(a, b));
    let pairs = [
        (save, job, "--save names the job"),
        (state, job, "--state names the job"),
        (save, state, "--save and --state name one file"),
    ];
    match pairs.into_iter().find(|&(a, b, _)| one_file(a, b)) {
        Some((_, _, why)) => Err(Failure::usage(why)),
        None => Ok(()),
    }
}

/// The package before the job: of the state if there is one, then with the memory block.
fn package_before(given: &Given) -> Result<Package, Failure> {
    let mut package = match given.value(STATE) {
        Some(file) => package_of(file)?,
        None => Package::fresh(),
    };
    if let Some(file) = given.value(MEMORY) {
        let block = files::read(file, BLOCK_READ)?;
        let wrong = |_| {
            Failure::file(
                file,
                format!("a memory block has {BLOCK} bytes, and this file has not"),
            )
        };
        package.load(&block).map_err(wrong)?;
    }
    Ok(package)
}

fn package_of(file: &str) -> Result<Package, Failure> {
    match files::read_if_there(file, STATE_READ)? {
        Some(text) => state::read(&text).map_err(|why| Failure::file(file, why)),
        None => {
            say(format_args!(
                "{file} is not there yet: the job begins with a fresh package"
            ));
            Ok(Package::fresh())
        }
    }
}

/// Files are prepared before anything is printed and put in place after it: where one cannot be written, nothing is printed, and where the answers
/// cannot be printed, no file is changed.
fn done(given: &Given, ran: &Ran) -> Result<u8, Failure> {
    let replacements = replacements(given, ran.package)?;
    print(told(given, ran).as_bytes())?;
    replacements.into_iter().try_for_each(Replacement::commit)?;
    Ok(counted(given.file, &ran.answers))
}

/// What is printed of a job that ran.
fn told(given: &Given, ran: &Ran) -> String {
    if given.has(PLAIN) {
        return format!("0,{}\n", ran.output.len());
    }
    let mut text = match given.has(EXPLAIN) {
        true => explain::explained(ran.job, ran.output, &ran.answers),
        false => ran.output.to_string(),
    };
    if given.has(RECORDS) {
        text.push_str(&format!("\n{}", records::listed(ran.package)));
    }
    text
}

/// The exit status by the answers; refused lines are counted on standard error.
fn counted(file: &str, answers: &[Answer]) -> u8 {
    match answers::refused(answers) {
        0 => status::DONE,
        refused => {
            say(format_args!(
                "{file}: {refused} of {} lines refused",
                answers.len()
            ));
            status::LINES_REFUSED
        }
    }
}

/// The new files of a run.
fn replacements(given: &Given, package: &Package) -> Result<Vec<Replacement>, Failure> {
    let mut replacements = Vec::new();
    if let Some(file) = given.value(SAVE) {
        let mut block = [0; BLOCK];
        package.save(&mut block).expect("the block is whole");
        replacements.push(Replacement::prepare(file, &block)?);
    }
    if let Some(file) = given.value(STATE) {
        replacements.push(Replacement::prepare(
            file,
            state::write(package).as_bytes(),
        )?);
    }
    Ok(replacements)
}

/// A job that was refused as a whole: no file is written.
fn refused(given: &Given, refusal: Refusal) -> Result<u8, Failure> {
    if given.has(PLAIN) {
        print(format!("{},0\n", refusal.number()).as_bytes())?;
    }
    say(format_args!("{}: {refusal}", given.file));
    Ok(status::JOB_REFUSED)
}

#[cfg(test)]
mod tests {
    use super::*;

    #[test]
    fn the_help_has_every_option_and_no_other() {
        let told: Vec<&str> = HELP
            .split_whitespace()
            .filter(|word| word.starts_with("--"))
            .collect();
        let options = OPTIONS.iter().map(|option| option.name);
        assert!(options.clone().all(|name| told.contains(&name)));
        assert!(told
            .iter()
            .all(|name| *name == "--help" || options.clone().any(|option| option == *name)));
    }
}
