//! What was compared.

use std::collections::BTreeMap;
use std::fmt;

use reference::{Answer, Call, Reading};

/// Counts of what was compared.
#[derive(Clone, Debug, Default)]
pub struct Tally {
    pub lists: u64,
    /// Lists that began with an area of any content.
    pub odd_lists: u64,
    pub wrong_lengths: u64,
    /// Measurements made once more by the call with readings.
    pub lent_otherwise: u64,
    /// Raws of the calls that were whole, and that were reports.
    whole: u64,
    reports: u64,
    calls: BTreeMap<&'static str, u64>,
    refusals: BTreeMap<u64, u64>,
    branches: BTreeMap<u64, u64>,
    job_lines: u64,
    line_refusals: BTreeMap<u64, u64>,
    line_branches: BTreeMap<u64, u64>,
    /// Lines that begin with G, by their refusal.
    float_lines: BTreeMap<u64, u64>,
}

/// The raws of a call.
fn raws(call: &Call) -> &[Reading] {
    match call {
        Call::Calibrate(calibration) => std::slice::from_ref(&calibration.raw),
        Call::MeasureTool { measurement, .. } => &measurement.feature.raws,
        Call::MeasureZero { measurement, .. } => &measurement.feature.raws,
        _ => &[],
    }
}

fn name(call: &Call) -> &'static str {
    match call {
        Call::SetEmpirical { .. } => "set_empirical",
        Call::SetWear { .. } => "set_wear",
        Call::SetOffset { .. } => "set_offset",
        Call::Calibrate(_) => "calibrate",
        Call::Status { .. } => "probe_status",
        Call::MeasureTool { .. } => "measure_tool",
        Call::MeasureZero { .. } => "measure_zero",
        Call::Load { .. } => "load",
        Call::Save { .. } => "save",
        Call::RunJob { .. } => "run_job",
    }
}

impl Tally {
    pub fn add(&mut self, call: &Call, answer: &Answer) {
        *self.calls.entry(name(call)).or_default() += 1;
        *self.refusals.entry(answer.refusal.into()).or_default() += 1;
        if answer.branch > 0 {
            *self.branches.entry(answer.branch.into()).or_default() += 1;
        }
        let reports = raws(call).iter().filter(|raw| is_report(raw)).count();
        self.reports += reports as u64;
        self.whole += (raws(call).len() - reports) as u64;
        if let Call::RunJob { text, .. } = call {
            let lines = |bytes| <[u8]>::split_inclusive(bytes, |&byte| byte == b'\n');
            let answers = lines(&answer.buffer[..answer.length]);
            lines(text)
                .zip(answers)
                .for_each(|(line, answer)| self.add_line(line, answer));
        }
    }

    /// A job's line, and its answer: number, refusal, branch.
    fn add_line(&mut self, line: &[u8], answer: &[u8]) {
        let field = |index: usize| {
            let text = answer.split(|&byte| byte == b',').nth(index);
            let text = text.and_then(|text| std::str::from_utf8(text).ok());
            text.and_then(|text| text.parse().ok())
                .expect("an answer has numbers")
        };
        self.job_lines += 1;
        *self.line_refusals.entry(field(1)).or_default() += 1;
        if field(2) > 0 {
            *self.line_branches.entry(field(2)).or_default() += 1;
        }
        if line.starts_with(b"G,") {
            *self.float_lines.entry(field(1)).or_default() += 1;
        }
    }

    /// All calls, jobs among them.
    pub fn calls(&self) -> u64 {
        self.calls.values().sum()
    }

    /// The numbers of refusals, 0 among them, that calls answered.
    pub fn refusals(&self) -> Vec<u64> {
        self.refusals.keys().copied().collect()
    }

    /// How many raws of the calls were whole, and how many were reports.
    pub fn readings(&self) -> [u64; 2] {
        [self.whole, self.reports]
    }

    /// How many lines that begin with G were refused by this number, 0 for done.
    pub fn float_lines(&self, refusal: u64) -> u64 {
        self.float_lines.get(&refusal).copied().unwrap_or(0)
    }

    /// The numbers of branches that calls answered.
    pub fn branches(&self) -> Vec<u64> {
        self.branches.keys().copied().collect()
    }
}

fn is_report(reading: &Reading) -> bool {
    matches!(reading, Reading::Report(_))
}

fn counts<K: fmt::Display>(map: &BTreeMap<K, u64>) -> String {
    let counts: Vec<String> = map
        .iter()
        .map(|(key, count)| format!("{key}: {count}"))
        .collect();
    counts.join(", ")
}

impl fmt::Display for Tally {
    fn fmt(&self, f: &mut fmt::Formatter<'_>) -> fmt::Result {
        write!(
            f,
            "{} calls in {} lists, {} from areas of any content ({}); raws: {} whole, {} reports; by refusal {}; by branch {}",
            self.calls(),
            self.lists,
            self.odd_lists,
            counts(&self.calls),
            self.whole,
            self.reports,
            counts(&self.refusals),
            counts(&self.branches)
        )?;
        if self.job_lines > 0 {
            write!(
                f,
                "; {} lines of jobs, by refusal {}; by branch {}; of these G, by refusal {}",
                self.job_lines,
                counts(&self.line_refusals),
                counts(&self.line_branches),
                counts(&self.float_lines)
            )?;
        }
        write!(
            f,
            "; {} with wrong lengths, {} lent once more as readings",
            self.wrong_lengths, self.lent_otherwise
        )
    }
}
