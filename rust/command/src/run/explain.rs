//! The answers with what they mean: each answer as it is, and below it lines that begin with blanks.

use mezhtolik::{Branch, Refusal, Verdict};

use crate::answers::Answer;
use crate::letters;
use crate::units::Unit;
use crate::words;

const INDENT: &str = "    ";

/// A job's output with its explanation.
pub fn explained(job: &[u8], output: &str, answers: &[Answer]) -> String {
    let lines = job
        .split(|&byte| byte == b'\n')
        .zip(output.lines().zip(answers));
    lines
        .map(|(line, (text, answer))| block(line, text, answer))
        .collect()
}

fn block(line: &[u8], text: &str, answer: &Answer) -> String {
    let malformed = answer.refusal == Refusal::MalformedLine.number();
    let about = letters::line(line, malformed);
    let mut block = format!("{text}\n{INDENT}{about}\n");
    for said in outcome(answer) {
        block.push_str(&format!("{INDENT}{said}\n"));
    }
    block
}

/// What came of a line.
fn outcome(answer: &Answer) -> Vec<String> {
    if answer.refusal != 0 {
        return refused(answer.refusal);
    }
    let branch = Branch::ALL
        .into_iter()
        .find(|branch| branch.number() == answer.branch);
    branch.map_or_else(|| vec!["done".into()], |branch| measured(branch, answer))
}

/// A refusal's message has what is wrong and, behind a colon, what to do.
fn refused(number: u32) -> Vec<String> {
    let message = Refusal::from_number(number).map_or("", Refusal::message);
    let (wrong, to_do) = message.split_once(": ").unwrap_or((message, ""));
    vec![
        format!("refused by {number}: {wrong}"),
        format!("what to do: {to_do}"),
    ]
}

fn measured(branch: Branch, answer: &Answer) -> Vec<String> {
    let micrometres = |number| Unit::U.micrometres(number);
    let mut figures = format!("deviation {}", micrometres(answer.deviation));
    // a zero offset corrects no tool and has no tolerance
    if branch != Branch::ZeroOffset {
        figures.push_str(&format!(
            ", correction {}, {}",
            micrometres(answer.correction),
            stands(answer.verdict)
        ));
    }
    vec![
        figures,
        format!("branch {}: {}", answer.branch, words::branch(branch)),
    ]
}

fn stands(number: u32) -> String {
    let verdict = Verdict::ALL
        .into_iter()
        .find(|verdict| verdict.number() == number);
    format!("verdict {number}: {}", verdict.map_or("", words::verdict))
}
