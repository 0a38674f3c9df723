//! Command line of the differential run.

mod options;

use std::process::ExitCode;

fn main() -> ExitCode {
    let plan = match options::read(std::env::args().skip(1)) {
        Ok(plan) => plan,
        Err(message) => {
            eprintln!("{message}\n{}", options::USAGE);
            return ExitCode::from(2);
        }
    };
    match plan.run() {
        Ok(tally) => {
            println!("{tally}");
            ExitCode::SUCCESS
        }
        Err(found) => {
            println!("{found}");
            ExitCode::FAILURE
        }
    }
}
