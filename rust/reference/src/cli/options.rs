//! Options of the subcommands.

/// What stands behind a subcommand.
#[derive(Debug, PartialEq, Eq)]
pub struct Options {
    pub seed: u64,
    pub count: u64,
    pub program: Option<String>,
    pub progress: bool,
    pub operand: Option<String>,
}

impl Options {
    /// Reads options and at most one operand.
    pub fn read(arguments: &[String]) -> Result<Self, String> {
        let mut options = Options {
            seed: 1,
            count: 1_000,
            program: None,
            progress: false,
            operand: None,
        };
        let mut words = arguments.iter();
        while let Some(word) = words.next() {
            let mut value = || words.next().ok_or(format!("{word} needs a value"));
            match word.as_str() {
                "--seed" => options.seed = whole(value()?)?,
                "--count" => options.count = whole(value()?)?,
                "--program" => options.program = Some(value()?.clone()),
                "--progress" => options.progress = true,
                option if option.starts_with("--") => return Err(format!("{option} is unknown")),
                operand if options.operand.is_none() => options.operand = Some(operand.to_owned()),
                operand => return Err(format!("{operand} is one operand too many")),
            }
        }
        Ok(options)
    }

    /// The seed of one job: `--seed` with it and `--count 1` gives that job alone.
    pub fn job_seed(&self, index: u64) -> u64 {
        self.seed.wrapping_add(index)
    }
}

fn whole(text: &str) -> Result<u64, String> {
    text.parse()
        .map_err(|_| format!("{text} is no whole number"))
}
