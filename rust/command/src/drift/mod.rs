//! `drift`: the series of a job as a picture or as numbers.

mod legend;
mod length;
mod mean_panel;
mod panel;
mod picture;
mod record;
mod series;
mod sheet;
mod svg;
mod table;
mod wear_panel;
mod weighting;
mod words;

use std::collections::BTreeMap;
use std::path::Path;

use mezhtolik::Refusal;
use reference::ranges::MEANS;

use crate::failure::{ended, print, say, Failure};
use crate::files::{self, Replacement};
use crate::options::{self, Given, Option_};
use crate::status;
use series::Series;

const HELP: &str = include_str!("help.txt");

const MEAN: &str = "--mean";
const OUTPUT: &str = "--output";
const CSV: &str = "--csv";
const PLAIN: &str = "--plain";

const OPTIONS: [Option_; 4] = [
    Option_ {
        name: MEAN,
        value: Some("the number of a mean value"),
    },
    Option_::file(OUTPUT),
    Option_::alone(CSV),
    Option_::alone(PLAIN),
];

/// The status where a value lies outside its bound.
const OUTSIDE: u8 = 6;

/// The exit status of `drift` with these arguments.
pub fn command(arguments: &[String]) -> u8 {
    if options::asks_help(arguments) {
        return ended(print(HELP.as_bytes()).map(|()| status::DONE));
    }
    ended(options::read(&OPTIONS, arguments).and_then(|given| drift(&given)))
}

fn drift(given: &Given) -> Result<u8, Failure> {
    let (wanted, output) = (wanted_mean(given)?, output_file(given)?);
    let job = files::job(given.file)?;
    match series::of_job(&job) {
        Err(refusal) => refused(given, refusal),
        Ok(all) => {
            let chosen = chosen(&all, wanted);
            drawn(given, output, &chosen.map_err(|why| unusable(given, &why))?)
        }
    }
}

/// The number behind `--mean`.
fn wanted_mean(given: &Given) -> Result<Option<i64>, Failure> {
    let Some(text) = given.value(MEAN) else {
        return Ok(None);
    };
    let numbers = 0..=MEANS as i64;
    let number = text.parse().ok().filter(|number| numbers.contains(number));
    let known = format!("the numbers are 1..{MEANS}, and 0 for the parts measured without one");
    number
        .map(Some)
        .ok_or_else(|| Failure::usage(format!("{MEAN} {text}: {known}")))
}

/// Where to write; nowhere for numbers that go to standard output.
fn output_file(given: &Given) -> Result<Option<String>, Failure> {
    let file = match given.value(OUTPUT) {
        Some(file) => file.to_owned(),
        None if given.has(CSV) && given.has(PLAIN) => {
            let why = format!("{CSV} with {PLAIN} needs {OUTPUT}, both print otherwise");
            return Err(Failure::usage(why));
        }
        None if given.has(CSV) => return Ok(None),
        None => Path::new(&name(given))
            .with_extension("svg")
            .display()
            .to_string(),
    };
    if files::same(&file, given.file) {
        let why = format!("{file} is the job; name another file with {OUTPUT}");
        return Err(Failure::usage(why));
    }
    Ok(Some(file))
}

/// The job's file without its folder.
fn name(given: &Given) -> String {
    let name = Path::new(given.file).file_name().unwrap_or_default();
    name.to_string_lossy().into_owned()
}

fn unusable(given: &Given, why: &str) -> Failure {
    Failure::usage(format!("{}: {why}", given.file))
}

/// The series to draw: of the mean that is wanted, or of every mean.
fn chosen(all: &BTreeMap<i64, Series>, wanted: Option<i64>) -> Result<Vec<&Series>, String> {
    let named: Vec<i64> = all.keys().copied().filter(|&mean| mean != 0).collect();
    match wanted {
        Some(mean) => {
            let why = || {
                format!(
                    "no part {}; {}",
                    words::with_mean(mean),
                    words::others(&named)
                )
            };
            all.get(&mean).map(|series| vec![series]).ok_or_else(why)
        }
        None if all.is_empty() => Err(words::NO_PARTS.to_owned()),
        None if named.is_empty() => Err(words::NO_MEANS.to_owned()),
        None => Ok(named.iter().map(|mean| &all[mean]).collect()),
    }
}

/// Writes the picture or the numbers, and says what they show.
fn drawn(given: &Given, output: Option<String>, chosen: &[&Series]) -> Result<u8, Failure> {
    let text = match given.has(CSV) {
        true => table::table(chosen),
        false => picture::picture(&name(given), chosen),
    };
    match output {
        None => print(text.as_bytes())?,
        Some(file) => {
            let replacement = Replacement::prepare(&file, text.as_bytes())?;
            let said = match given.has(PLAIN) {
                true => numbers(0, chosen),
                false => words::written(&file, chosen),
            };
            print(said.as_bytes())?;
            replacement.commit()?;
        }
    }
    Ok(looked_at(chosen))
}

/// The status that tells whether every value lies within its bound.
fn looked_at(chosen: &[&Series]) -> u8 {
    match chosen.iter().all(|series| series.outside() == 0) {
        true => status::DONE,
        false => OUTSIDE,
    }
}

/// The line for scripts.
fn numbers(refusal: u32, chosen: &[&Series]) -> String {
    let sum =
        |count: fn(&Series) -> usize| chosen.iter().map(|series| count(series)).sum::<usize>();
    format!(
        "{refusal},{},{},{},{},{}\n",
        chosen.len(),
        sum(|series| series.parts.len()),
        sum(Series::corrections),
        sum(|series| series.refused.len()),
        sum(Series::outside)
    )
}

/// A job that was refused as a whole: no file is written.
fn refused(given: &Given, refusal: Refusal) -> Result<u8, Failure> {
    if given.has(PLAIN) {
        print(numbers(refusal.number(), &[]).as_bytes())?;
    }
    say(format_args!("{}: {refusal}", given.file));
    Ok(status::JOB_REFUSED)
}

#[cfg(test)]
mod tests {
    use super::*;

    const JOB: &[u8] = include_bytes!("../../../../jobs/shaft-tool-change.txt");
    const MV: i64 = 3;

    /// The series of the job's mean, with a stored mean and a stored wear that the package never had.
    fn false_series() -> Series {
        let mut series = series::of_job(JOB).unwrap().remove(&MV).unwrap();
        assert_eq!(series.outside(), 0);
        assert_eq!(looked_at(&[&series]), status::DONE);
        let mean = series.parts[7].mean.as_mut().unwrap();
        mean.stored += mean.doubled_bound + 1;
        series.parts[8].wears[0].stored += 1_000;
        series
    }

    /// The signs of values outside their bound that stand in the picture, the legend's aside.
    fn rings(picture: &str) -> usize {
        picture.matches("class=\"outside\"").count() - 1
    }

    #[test]
    fn a_value_outside_its_bound_is_drawn_in_red_and_ends_with_its_own_status() {
        let series = false_series();
        assert_eq!(series.outside(), 2);
        assert_eq!(looked_at(&[&series]), OUTSIDE);
        let picture = picture::picture("job", &[&series]);
        // the mean in its diagram and in that of the distances, the wear in its own
        assert_eq!(rings(&picture), 3);
        assert!(picture.contains("2 stored values outside the bound"));
        assert!(picture.contains("outside its bound: 2"));
        assert!(picture.contains(".outside { fill: none; stroke: #d4001f"));
        assert!(numbers(0, &[&series]).ends_with(",2\n"));
        let table = table::table(&[&series]);
        assert_eq!(table.lines().filter(|row| row.ends_with(",1")).count(), 2);
    }

    #[test]
    fn nothing_is_red_where_every_value_is_within_its_bound() {
        let all = series::of_job(JOB).unwrap();
        let picture = picture::picture("job", &[&all[&MV]]);
        assert_eq!(rings(&picture), 0);
        assert!(picture.contains("outside its bound: none"));
    }

    #[test]
    fn the_help_has_every_option_and_no_other() {
        let told: Vec<&str> = HELP
            .split_whitespace()
            .filter(|word| word.starts_with("--"))
            .collect();
        let options: Vec<&str> = OPTIONS
            .iter()
            .map(|option| option.name)
            .chain(["--help"])
            .collect();
        assert_eq!(told, options);
    }
}
