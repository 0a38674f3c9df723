//! The whole run: lists of calls, then lists of jobs.

use std::fmt;

use crate::list::{List, Stop};
use crate::shrink::shrink;
use crate::tally::Tally;
use reference::{Call, Fault};

/// Calls of one list, and jobs of one list.
pub const LIST_CALLS: usize = 500;
pub const LIST_JOBS: usize = 20;

/// What is run; the defaults are those of the gate.
#[derive(Clone, Debug, PartialEq, Eq)]
pub struct Plan {
    pub calls: u64,
    pub jobs: u64,
    pub seed: u64,
    pub fault: Option<Fault>,
    pub progress: bool,
}

impl Default for Plan {
    fn default() -> Self {
        Plan {
            calls: 400_000,
            jobs: 12_000,
            seed: 1,
            fault: None,
            progress: false,
        }
    }
}

/// A difference, with its list made short.
#[derive(Clone, Debug)]
pub struct Found {
    pub seed: u64,
    pub list: List,
    pub stop: Stop,
    /// The options that run this list alone.
    again: String,
}

impl Plan {
    /// Runs all lists; the first difference ends it.
    pub fn run(&self) -> Result<Tally, Box<Found>> {
        let mut tally = Tally::default();
        let call_lists = self.calls.div_ceil(LIST_CALLS as u64);
        for index in 0..call_lists {
            let seed = self.seed.wrapping_add(index);
            let again = format!("--seed {seed} --calls {LIST_CALLS} --jobs 0");
            self.run_list(List::of_calls(seed, LIST_CALLS), seed, again, &mut tally)?;
            self.show(index, call_lists, "lists of calls");
        }
        let job_lists = self.jobs.div_ceil(LIST_JOBS as u64);
        for index in 0..job_lists {
            let seed = self.seed.wrapping_add(index);
            let again = format!("--seed {seed} --calls 0 --jobs {LIST_JOBS}");
            self.run_list(List::of_jobs(seed, LIST_JOBS), seed, again, &mut tally)?;
            self.show(index, job_lists, "lists of jobs");
        }
        Ok(tally)
    }

    fn run_list(
        &self,
        list: List,
        seed: u64,
        again: String,
        tally: &mut Tally,
    ) -> Result<(), Box<Found>> {
        tally.lists += 1;
        tally.odd_lists += u64::from(list.start.is_some());
        let Err(first) = list.run(self.fault, tally) else {
            return Ok(());
        };
        let list = shrink(&list, self.fault);
        let again_stopped = list.run(self.fault, &mut Tally::default());
        Err(Box::new(Found {
            seed,
            stop: again_stopped.err().unwrap_or(first),
            list,
            again,
        }))
    }

    fn show(&self, index: u64, lists: u64, what: &str) {
        if self.progress && (index + 1).is_multiple_of(100) {
            eprintln!("{} of {lists} {what}", index + 1);
        }
    }
}

/// A call with the text of a job readable.
fn readable(call: &Call) -> String {
    let Call::RunJob { text, buffer } = call else {
        return format!("{call:?}");
    };
    let lines = text.split_inclusive(|&byte| byte == b'\n');
    let lines: Vec<String> = lines
        .map(|line| format!("\n      {}", line.escape_ascii()))
        .collect();
    format!(
        "RunJob with an output of {} bytes{}",
        buffer.len(),
        lines.concat()
    )
}

impl fmt::Display for Found {
    fn fmt(&self, f: &mut fmt::Formatter<'_>) -> fmt::Result {
        writeln!(
            f,
            "difference at seed {} (again: {})",
            self.seed, self.again
        )?;
        match &self.list.start {
            None => writeln!(f, "from a fresh package:")?,
            Some(area) => writeln!(f, "from the area {area:?}:")?,
        }
        for (index, call) in self.list.calls.iter().enumerate() {
            writeln!(f, "  {} {}", index + 1, readable(call))?;
        }
        write!(
            f,
            "after call {}: {}",
            self.stop.calls, self.stop.difference
        )
    }
}
