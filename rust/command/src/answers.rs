//! The answers of a job's lines, as the package wrote them.

/// The answer of one line.
#[derive(Clone, Copy, Debug, PartialEq, Eq)]
pub struct Answer {
    pub refusal: u32,
    pub branch: u32,
    pub verdict: u32,
    /// OVR[16], u.
    pub deviation: i32,
    /// u.
    pub correction: i32,
}

/// The six numbers of a line of output: line number, refusal, branch, verdict, OVR[16], c.
fn answer(line: &str) -> Option<Answer> {
    let numbers: Vec<i32> = line
        .split(',')
        .map(|number| number.parse().ok())
        .collect::<Option<_>>()?;
    let [_, refusal, branch, verdict, deviation, correction] = numbers[..] else {
        return None;
    };
    Some(Answer {
        refusal: refusal.try_into().ok()?,
        branch: branch.try_into().ok()?,
        verdict: verdict.try_into().ok()?,
        deviation,
        correction,
    })
}

/// Every answer of a job's output.
pub fn read(output: &str) -> Vec<Answer> {
    // the package's contract has no other form
    output
        .lines()
        .map(|line| answer(line).expect("an answer of the package"))
        .collect()
}

/// How many lines were refused.
pub fn refused(answers: &[Answer]) -> usize {
    answers.iter().filter(|answer| answer.refusal != 0).count()
}
