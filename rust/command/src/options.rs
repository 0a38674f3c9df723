//! Arguments of a command: one file, and options from its table.

use crate::failure::Failure;

/// An option of a command. `value` names what follows it, if anything does.
pub struct Option_ {
    pub name: &'static str,
    pub value: Option<&'static str>,
}

impl Option_ {
    /// An option that stands alone.
    pub const fn alone(name: &'static str) -> Option_ {
        Option_ { name, value: None }
    }

    /// An option with the name of a file behind it.
    pub const fn file(name: &'static str) -> Option_ {
        Option_ {
            name,
            value: Some("the name of a file"),
        }
    }
}

/// What was given to a command.
#[derive(Debug)]
pub struct Given<'a> {
    pub file: &'a str,
    options: Vec<(&'static str, &'a str)>,
}

impl<'a> Given<'a> {
    /// The value of an option; empty where it has none.
    pub fn value(&self, name: &str) -> Option<&'a str> {
        self.options
            .iter()
            .find(|option| option.0 == name)
            .map(|option| option.1)
    }

    /// Whether an option was given.
    pub fn has(&self, name: &str) -> bool {
        self.value(name).is_some()
    }
}

/// Whether the help of a command is asked for.
pub fn asks_help(arguments: &[String]) -> bool {
    arguments
        .iter()
        .any(|argument| argument == "--help" || argument == "-h")
}

/// A name that a script takes from a variable may be empty: that is an error and no file.
fn named<'a>(what: &str, name: Option<&'a String>) -> Result<&'a str, Failure> {
    match name.map(String::as_str) {
        None => Err(Failure::usage(format!("{what} is missing"))),
        Some("") => Err(Failure::usage(format!("{what} is empty"))),
        Some(name) => Ok(name),
    }
}

fn option<'a>(
    table: &[Option_],
    argument: &str,
    rest: &mut impl Iterator<Item = &'a String>,
) -> Result<(&'static str, &'a str), Failure> {
    let Some(found) = table.iter().find(|option| option.name == argument) else {
        let file = format!("a file whose name begins with - is named ./{argument}");
        return Err(Failure::usage(format!(
            "there is no option {argument}; {file}"
        )));
    };
    let value = match found.value {
        Some(value) => named(&format!("{value} behind {argument}"), rest.next())?,
        None => "",
    };
    Ok((found.name, value))
}

/// The arguments of a command that takes one file and these options, each at most once.
pub fn read<'a>(table: &[Option_], arguments: &'a [String]) -> Result<Given<'a>, Failure> {
    let (mut files, mut options) = (Vec::new(), Vec::new());
    let mut rest = arguments.iter();
    while let Some(argument) = rest.next() {
        if !argument.starts_with('-') {
            files.push(argument);
            continue;
        }
        let (name, value) = option(table, argument, &mut rest)?;
        if options.iter().any(|&(other, _)| other == name) {
            return Err(Failure::usage(format!("{name} is given twice")));
        }
        options.push((name, value));
    }
    if files.len() > 1 {
        return Err(Failure::usage("give the name of one job file"));
    }
    let file = named("the name of the job file", files.first().copied())?;
    Ok(Given { file, options })
}

#[cfg(test)]
mod tests {
    use super::*;
    use crate::status::USAGE;

    const TABLE: [Option_; 2] = [Option_::alone("--flag"), Option_::file("--to")];

    fn words(text: &str) -> Vec<String> {
        text.split(' ').map(String::from).collect()
    }

    #[test]
    fn options_stand_before_and_behind_the_file() {
        for text in [
            "--flag --to x job",
            "job --to x --flag",
            "--to x job --flag",
        ] {
            let arguments = words(text);
            let given = read(&TABLE, &arguments).unwrap();
            assert_eq!(given.file, "job");
            assert!(given.has("--flag"));
            assert_eq!(given.value("--to"), Some("x"));
        }
    }

    #[test]
    fn what_does_not_fit_is_named() {
        for (text, word) in [
            ("a b", "one job file"),
            ("--to x", "job file is missing"),
            ("job --to", "the name of a file behind --to is missing"),
            ("job --to ", "the name of a file behind --to is empty"),
            ("", "job file is empty"),
            ("job --flag --flag", "--flag is given twice"),
            ("job --flags", "no option --flags"),
        ] {
            let failure = read(&TABLE, &words(text)).unwrap_err();
            assert_eq!(failure.status, USAGE);
            assert!(
                failure.message.contains(word),
                "{text}: {}",
                failure.message
            );
        }
    }
}
