//! The command mezhtolik: the measuring package for those who work with its figures. Every answer is the proved library's.

mod answers;
mod drift;
mod failure;
mod files;
mod floats;
mod letters;
mod options;
mod records;
mod run;
mod status;
mod units;
mod words;

use std::env;
use std::ffi::OsString;
use std::process::ExitCode;

use failure::{ended, print, Failure};

const HELP: &str = include_str!("help.txt");

/// A command by its name: its exit status with these arguments.
type Command = (&'static str, fn(&[String]) -> u8);

const COMMANDS: [Command; 2] = [("run", run::command), ("drift", drift::command)];

fn main() -> ExitCode {
    let arguments: Result<Vec<String>, OsString> =
        env::args_os().skip(1).map(OsString::into_string).collect();
    ExitCode::from(match arguments {
        Ok(arguments) => dispatched(&arguments),
        Err(argument) => ended(Err(Failure::usage(format!(
            "{} is no UTF-8",
            argument.display()
        )))),
    })
}

fn dispatched(arguments: &[String]) -> u8 {
    let Some(first) = arguments.first() else {
        return ended(Err(Failure::usage(
            "give a command; ./mezhtolik --help lists them",
        )));
    };
    if let Some((_, command)) = COMMANDS.iter().find(|command| command.0 == first) {
        return command(&arguments[1..]);
    }
    if options::asks_help(&arguments[..1]) {
        return ended(print(HELP.as_bytes()).map(|()| status::DONE));
    }
    ended(Err(Failure::usage(format!(
        "there is no command '{first}'; ./mezhtolik --help lists them"
    ))))
}

#[cfg(test)]
mod tests {
    use super::*;

    #[test]
    fn the_help_names_every_command() {
        for (name, _) in COMMANDS {
            assert!(HELP.contains(&format!("\n  {name} ")), "{name}");
        }
    }
}
