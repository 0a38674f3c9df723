//! "Job files": a job run line by line.

use std::io::Write;

use crate::calls::{Answer, Call};
use crate::line::read_line;
use crate::package::Package;
use crate::ranges::require;
use crate::refusal::Refusal;

/// "over 65,536 bytes".
pub const JOB_BYTES: usize = 65_536;
/// "over 1,000 lines".
pub const JOB_LINES: usize = 1_000;
/// "40 bytes a line".
pub const OUTPUT_LINE: usize = 40;

/// The lines of a job without their line feeds. "11 empty; 12 over 65,536 bytes,
/// over 1,000 lines or last line unended".
pub fn job_lines(text: &[u8]) -> Result<Vec<&[u8]>, Refusal> {
    require(!text.is_empty(), Refusal::EmptyJob)?;
    require(text.len() <= JOB_BYTES, Refusal::JobForm)?;
    let ended = text.strip_suffix(b"\n").ok_or(Refusal::JobForm)?;
    let lines: Vec<&[u8]> = ended.split(|&byte| byte == b'\n').collect();
    require(lines.len() <= JOB_LINES, Refusal::JobForm)?;
    Ok(lines)
}

/// The lines of a job that would run with a buffer of this length: "1 output
/// shorter than 40 bytes a line; nothing runs or is written."
pub fn runnable_lines(text: &[u8], room: usize) -> Result<Vec<&[u8]>, Refusal> {
    let lines = job_lines(text)?;
    require(room >= OUTPUT_LINE * lines.len(), Refusal::Room)?;
    Ok(lines)
}

impl Package {
    /// Runs a job and answers the length written. "Bytes past the output stay."
    pub fn run_job(&mut self, text: &[u8], output: &mut [u8]) -> Result<usize, Refusal> {
        let lines = runnable_lines(text, output.len())?;
        let room = output.len();
        let mut rest = &mut output[..];
        for (index, line) in lines.iter().enumerate() {
            let answer = self.run_line(line);
            write_answer(&mut rest, index + 1, &answer);
        }
        Ok(room - rest.len())
    }

    /// "A line: 10 malformed or too long, else its operation's."
    fn run_line(&mut self, line: &[u8]) -> Answer {
        match read_line(line) {
            Ok(call) => self.apply(&call),
            Err(refusal) => Answer {
                refusal: refusal.number(),
                ..Answer::default()
            },
        }
    }
}

/// "Each line gives one line out: line number, refusal, branch, verdict,
/// OVR[16], c. A line that is refused or doesn't measure has 0 in the last four".
fn write_answer(output: &mut &mut [u8], number: usize, answer: &Answer) {
    let place = |place: usize| match answer.refusal {
        0 => answer.array.get(place).copied().unwrap_or(0),
        _ => 0,
    };
    let written = writeln!(
        output,
        "{number},{},{},{},{},{}",
        answer.refusal,
        answer.branch,
        answer.verdict,
        place(16),
        place(20)
    );
    written.expect("40 bytes a line hold every answer");
}

/// The answers of a job from a fresh package, as the job program prints them.
pub fn fresh_job(text: &[u8]) -> Result<Vec<u8>, Refusal> {
    let mut output = vec![0; OUTPUT_LINE * JOB_LINES];
    let length = Package::fresh().run_job(text, &mut output)?;
    output.truncate(length);
    Ok(output)
}

/// The calls of a job's well-formed lines; malformed lines are no calls.
pub fn job_calls(lines: &[&[u8]]) -> Vec<Call> {
    let calls = lines.iter().map(|line| read_line(line));
    calls.filter_map(Result::ok).collect()
}
