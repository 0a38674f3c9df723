//! "Exact reckoning": means and wears in exact fractions, fed with calls only.

mod fraction;
mod whole;

pub use fraction::Fraction;
pub use whole::Whole;

use crate::calls::Call;
use crate::feature::Kind;
use crate::job::{job_calls, runnable_lines};
use crate::package::Package;
use crate::ranges::{MEANS, TOOLS};
use crate::records::Records;
use crate::tool_offset::{wear_term, ToolMeasurement};

/// "For each mean it also keeps a fraction N/P, a factor K, and a least and a
/// greatest value."
#[derive(Clone, Debug)]
pub struct ExactMean {
    pub value: Fraction,
    pub factor: i64,
    pub least: i64,
    pub greatest: i64,
}

/// "For each radius wear and each length wear it keeps an exact wear and a
/// bound, in h"; the bound is kept doubled, so that it is whole.
#[derive(Clone, Debug)]
pub struct ExactWear {
    pub value: Fraction,
    pub doubled_bound: i64,
}

/// A record that lies outside the bounds of the reckoning; numbers from 1.
#[derive(Clone, Copy, Debug, PartialEq, Eq)]
pub enum Breach {
    /// Not "within K/2 u of N/P".
    MeanDistance { number: usize },
    /// Not "from least to greatest".
    MeanSpan { number: usize },
    /// Not "within its bound of the exact wear".
    RadiusWear { tool: usize },
    /// Not "within its bound of the exact wear".
    LengthWear { tool: usize },
}

/// "It begins fresh and keeps all records in whole numbers by this paper's
/// rules ... which give it each refusal and branch."
#[derive(Clone, Debug)]
pub struct Reckoning {
    whole: Package,
    means: Vec<ExactMean>,
    /// Radius, then length of each tool.
    wears: Vec<[ExactWear; 2]>,
}

impl ExactMean {
    /// "At a start N, least and greatest are the start value, P = 1, K = 0."
    fn start(value: i64) -> Self {
        ExactMean {
            value: Fraction::whole(value),
            factor: 0,
            least: value,
            greatest: value,
        }
    }

    /// "N' = (k-1)·N + P·D, P' = k·P, K' is the larger of K and k, and least and
    /// greatest are widened to hold D."
    fn take_in(&mut self, deviation: i64, k: i64) {
        let Fraction { over, under } = &self.value;
        self.value = Fraction {
            over: &(&Whole::from(k - 1) * over) + &(under * &Whole::from(deviation)),
            under: &Whole::from(k) * under,
        };
        self.factor = self.factor.max(k);
        self.least = self.least.min(deviation);
        self.greatest = self.greatest.max(deviation);
    }
}

impl ExactWear {
    /// "makes the exact wears the values set and their bounds 0".
    fn set(value: i64) -> Self {
        ExactWear {
            value: Fraction::whole(value),
            doubled_bound: 0,
        }
    }
}

impl Reckoning {
    /// "Every mean starts at 0 when fresh"; exact wears and bounds are 0.
    pub fn fresh() -> Self {
        Reckoning {
            whole: Package::fresh(),
            means: vec![ExactMean::start(0); MEANS],
            wears: vec![[ExactWear::set(0), ExactWear::set(0)]; TOOLS],
        }
    }

    /// The exact mean of an index from 0.
    pub fn mean(&self, index: usize) -> &ExactMean {
        &self.means[index]
    }

    /// The exact radius wear of a tool, its index from 0.
    pub fn radius(&self, tool: usize) -> &ExactWear {
        &self.wears[tool][0]
    }

    /// The exact length wear of a tool, its index from 0.
    pub fn length(&self, tool: usize) -> &ExactWear {
        &self.wears[tool][1]
    }

    /// Takes one call in. "A refused call, a status read or a save changes
    /// nothing in it." "A job is a list of the other calls".
    pub fn feed(&mut self, call: &Call) {
        if let Call::RunJob { text, buffer } = call {
            let lines = runnable_lines(text, buffer.len()).unwrap_or_default();
            for line_call in job_calls(&lines) {
                self.feed(&line_call);
            }
            return;
        }
        let answer = self.whole.apply(call);
        if answer.refusal != 0 {
            return;
        }
        match call {
            Call::Load { .. } => self.start_loaded(),
            Call::SetWear {
                tool,
                radius,
                length,
            } => {
                self.wears[*tool as usize - 1] = [ExactWear::set(*radius), ExactWear::set(*length)];
            }
            Call::MeasureTool {
                measurement, place, ..
            } => self.correct(measurement, answer.branch, answer.array[place + 16]),
            _ => {}
        }
    }

    /// "at its loaded value when a load is done".
    fn start_loaded(&mut self) {
        let loaded = self.whole.records().mv;
        self.means = loaded.map(|value| ExactMean::start(value.into())).to_vec();
    }

    /// An accepted measurement with tool offset, by its branch.
    fn correct(&mut self, call: &ToolMeasurement, branch: u8, deviation: i32) {
        let kind = Kind::ALL[call.feature.kind as usize];
        let term = wear_term(&call.feature, kind);
        let wear = &mut self.wears[call.tool as usize - 1][usize::from(term.on_length)];
        let deviation = i64::from(deviation);
        let mean = (call.mv as usize).checked_sub(1);
        let mean = mean.map(|index| &mut self.means[index]);
        match (branch, mean) {
            (3, Some(mean)) => mean.take_in(deviation, call.k),
            (4, Some(mean)) => {
                // "it corrects by N'/P', then the mean starts at 0"
                mean.take_in(deviation, call.k);
                wear.value = wear.value.add_times(term.factor, &mean.value);
                // "K'/2 for pairs, K' for a plane"
                wear.doubled_bound += term.factor.abs() * mean.factor;
                *mean = ExactMean::start(0);
            }
            (2 | 5, mean) => {
                let whole = Fraction::whole(deviation);
                wear.value = wear.value.add_times(term.factor, &whole);
                if let Some(mean) = mean {
                    *mean = ExactMean::start(0);
                }
            }
            _ => {}
        }
    }

    /// "After the list, each of the package's means lies within K/2 u of N/P ...
    /// and from least to greatest, and each of its wears within its bound of the
    /// exact wear." Answers every record for which that is not so.
    pub fn breaches(&self, records: &Records) -> Vec<Breach> {
        let mut found = Vec::new();
        for (index, (&mean, exact)) in records.mv.iter().zip(&self.means).enumerate() {
            let (mean, number) = (i64::from(mean), index + 1);
            if !exact.value.is_within_half(mean, exact.factor) {
                found.push(Breach::MeanDistance { number });
            }
            if !(exact.least..=exact.greatest).contains(&mean) {
                found.push(Breach::MeanSpan { number });
            }
        }
        for (index, (wear, [radius, length])) in records.wears.iter().zip(&self.wears).enumerate() {
            let tool = index + 1;
            let outside = |exact: &ExactWear, stored: i32| {
                let bound = exact.doubled_bound;
                !exact.value.is_within_half(stored.into(), bound)
            };
            if outside(radius, wear.radius) {
                found.push(Breach::RadiusWear { tool });
            }
            if outside(length, wear.length) {
                found.push(Breach::LengthWear { tool });
            }
        }
        found
    }
}
