//! Options of the command line.

use differential::Plan;
use reference::Fault;

pub const USAGE: &str =
    "usage: differential [--calls N] [--jobs N] [--seed S] [--fault NAME] [--progress]
  --fault plants a fault in the reference; the run should find it";

fn whole(text: &str) -> Result<u64, String> {
    text.parse()
        .map_err(|_| format!("{text} is no whole number"))
}

fn fault(text: &str) -> Result<Fault, String> {
    let named = |fault: &Fault| format!("{fault:?}") == text;
    Fault::ALL
        .into_iter()
        .find(named)
        .ok_or_else(|| format!("{text} is no fault; there are {:?}", Fault::ALL))
}

/// Reads the options; a message is a wrong use.
pub fn read(arguments: impl Iterator<Item = String>) -> Result<Plan, String> {
    let mut plan = Plan::default();
    let mut words = arguments;
    while let Some(word) = words.next() {
        let mut value = || words.next().ok_or(format!("{word} needs a value"));
        match word.as_str() {
            "--calls" => plan.calls = whole(&value()?)?,
            "--jobs" => plan.jobs = whole(&value()?)?,
            "--seed" => plan.seed = whole(&value()?)?,
            "--fault" => plan.fault = Some(fault(&value()?)?),
            "--progress" => plan.progress = true,
            _ => return Err(format!("{word} is unknown")),
        }
    }
    Ok(plan)
}
