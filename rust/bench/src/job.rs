//! A job of 1,000 lines as a setter's day has them.

use crate::inputs;
use reference::job::fresh_job;
use reference::line::{fields_of, write_line};
use reference::{Call, ToolMeasurement};

pub const LINES: usize = 1_000;

fn measured(measurement: ToolMeasurement) -> Call {
    Call::MeasureTool {
        measurement,
        array: Vec::new(),
        place: 0,
    }
}

fn tool_call(turn: usize) -> Call {
    measured(inputs::tool_parts()[turn % inputs::PARTS])
}

fn zero_call(turn: usize) -> Call {
    Call::MeasureZero {
        measurement: inputs::zero_parts()[turn % inputs::PARTS],
        array: Vec::new(),
        place: 0,
    }
}

/// Settings, and now and then a number that there is not.
fn setting(turn: usize) -> Call {
    let number = turn as i64;
    match turn % 4 {
        0 => Call::SetEmpirical {
            number: 1 + number % 21,
            value: number % 60 - 30,
        },
        1 | 2 => Call::SetWear {
            tool: 1 + number % 32,
            radius: number % 90,
            length: -number,
        },
        _ => Call::SetOffset {
            offset: 1 + number % 4,
            values: [number, -number, 12_000],
        },
    }
}

fn line(number: usize) -> String {
    let calibrations = inputs::calibrations();
    let call = match (calibrations.get(number), number % 10) {
        (Some(calibration), _) => Call::Calibrate(*calibration),
        (None, 0) => Call::Calibrate(inputs::recalibrations()[number / 10 % 18]),
        (None, 1) => setting(number / 10),
        (None, 2..=6) => tool_call(number),
        (None, 7 | 8) => zero_call(number),
        // malformed
        (None, _) if number % 50 == 9 => return "E,1,007".to_owned(),
        (None, _) => setting(number / 10 + 1),
    };
    written(&call)
}

fn written(call: &Call) -> String {
    let (letter, fields) = fields_of(call).expect("a line holds this call");
    write_line(letter, &fields)
}

/// How often the measurements of a job that measures alone are made.
const TURNS: usize = 2;

/// A job of measurements alone, behind the calibrations that they need.
fn measuring(parts: &[ToolMeasurement]) -> Vec<u8> {
    let calibrations = inputs::calibrations().into_iter().map(Call::Calibrate);
    let parts = (0..TURNS).flat_map(|_| parts.iter().copied().map(measured));
    let lines = calibrations.chain(parts).map(|call| written(&call) + "\n");
    lines.collect::<String>().into_bytes()
}

/// Measurements as T lines.
pub fn whole_lines() -> Vec<u8> {
    measuring(&inputs::tool_parts())
}

/// The same measurements as G lines.
pub fn float_lines() -> Vec<u8> {
    measuring(&inputs::tool_reports())
}

/// The job's bytes.
pub fn text() -> Vec<u8> {
    let lines = (0..LINES).map(|number| line(number) + "\n");
    lines.collect::<String>().into_bytes()
}

/// How many lines a job has.
pub fn lines(text: &[u8]) -> usize {
    text.iter().filter(|&&byte| byte == b'\n').count()
}

/// What a job has, by the reference's answers; one that is refused has none.
pub fn summary(text: &[u8]) -> Result<String, String> {
    let output = fresh_job(text).map_err(|refusal| format!("refused: {}", refusal.meaning()))?;
    let answers = output
        .split(|&byte| byte == b'\n')
        .filter(|line| !line.is_empty());
    let refusal = |line: &[u8]| line.split(|&byte| byte == b',').nth(1) != Some(b"0");
    let refused = answers.filter(|line| refusal(line)).count();
    Ok(format!(
        "{} lines, {} bytes, {refused} lines refused",
        lines(text),
        text.len()
    ))
}

#[cfg(test)]
mod tests {
    use super::*;

    #[test]
    fn lines_and_refusals_are_counted() {
        let summary = |text: &str| summary(text.as_bytes());
        let counted = "3 lines, 20 bytes, 2 lines refused".to_owned();
        assert_eq!(summary("E,1,2\nE,1,02\nE,21,2\n"), Ok(counted));
        assert_eq!(summary(""), Err("refused: job is empty".to_owned()));
    }

    /// The measurements of both jobs, and the answers of one of them.
    #[test]
    fn float_lines_are_those_of_the_whole_ones_and_answer_alike() {
        let (whole, floats) = (whole_lines(), float_lines());
        let letters = |text: &[u8], letter: u8| {
            let lines = text.split(|&byte| byte == b'\n');
            lines.filter(|line| line.first() == Some(&letter)).count()
        };
        assert_eq!(letters(&whole, b'T'), TURNS * inputs::PARTS);
        assert_eq!(letters(&floats, b'G'), TURNS * inputs::PARTS);
        assert_eq!(letters(&floats, b'T'), 0);
        let answers = fresh_job(&whole);
        assert!(answers.is_ok());
        assert_eq!(fresh_job(&floats), answers);
        let mut output = vec![0; mezhtolik::job_room(&floats)];
        let length = mezhtolik::Package::fresh().run_job(&floats, &mut output);
        output.truncate(length.expect("a sound job"));
        assert_eq!(Ok(output), answers);
    }

    #[test]
    fn both_sides_answer_the_job_alike_and_refuse_few_lines() {
        let text = text();
        let mut output = vec![0; 40 * LINES];
        let length = mezhtolik::Package::fresh().run_job(&text, &mut output);
        output.truncate(length.expect("a sound job"));
        assert_eq!(Ok(&output), fresh_job(&text).as_ref());
        let lines = String::from_utf8(output).expect("answers are text");
        let count = |wanted: &dyn Fn(&[&str]) -> bool| {
            let fields = lines
                .lines()
                .map(|line| line.split(',').collect::<Vec<_>>());
            fields.filter(|fields| wanted(fields)).count()
        };
        assert!(count(&|fields| fields[1] != "0") <= LINES / 5);
        for branch in ["1", "2", "3", "4", "5", "6"] {
            assert!(
                count(&|fields| fields[2] == branch) >= 10,
                "branch {branch}"
            );
        }
    }
}
