//! "Tolerance, mean, correction": limits, verdict, branches.

use crate::fault::Fault;
use crate::ranges::{require, within, LIMIT, MEAN_LIMIT};
use crate::refusal::Refusal;

/// The limits of a measurement with tool offset, in the order of a T line.
#[derive(Clone, Copy, Debug, Default, PartialEq, Eq)]
pub struct Tolerance {
    pub tzl: i64,
    pub tmv: i64,
    pub tul: i64,
    pub tll: i64,
    pub tdif: i64,
    pub tsa: i64,
}

/// The branch of a measurement, by the paper's numbers.
#[derive(Clone, Copy, Debug, PartialEq, Eq, PartialOrd, Ord, Hash)]
pub enum Branch {
    /// 1: no mean, |D| ≤ TZL, no correction.
    WithinZero = 1,
    /// 2: no mean, TZL < |D| ≤ TMV, corrected by D.
    Deviation = 2,
    /// 3: the new mean is kept, no correction.
    MeanKept = 3,
    /// 4: corrected by the new mean, which becomes 0.
    MeanCorrection = 4,
    /// 5: |D| > TMV, corrected by D, the mean becomes 0.
    Full = 5,
    /// 6: a zero offset was moved.
    ZeroOffset = 6,
}

/// "Verdict: 1 oversize if D > TUL, 2 undersize if D < TLL, else 0".
#[derive(Clone, Copy, Debug, PartialEq, Eq, PartialOrd, Ord, Hash)]
pub enum Verdict {
    Within = 0,
    Oversize = 1,
    Undersize = 2,
}

impl Branch {
    /// The paper's number.
    pub fn number(self) -> u8 {
        self as u8
    }
}

impl Verdict {
    /// The paper's number.
    pub fn number(self) -> u8 {
        self as u8
    }
}

/// What a deviation leads to.
#[derive(Clone, Copy, Debug, PartialEq, Eq)]
pub struct Decision {
    pub branch: Branch,
    pub verdict: Verdict,
    /// c, in u.
    pub correction: i64,
    /// The mean left in its store; 0 when none is named.
    pub mean_left: i64,
}

impl Tolerance {
    /// "Limits: 0 ≤ TZL ≤ TMV ≤ TDIF ≤ TSA ≤ 1,000,000; TMV ≤ 32,767; TLL ≤
    /// TUL, both within ±1,000,000".
    pub fn check(&self) -> Result<(), Refusal> {
        let chain = [0, self.tzl, self.tmv, self.tdif, self.tsa, LIMIT];
        let tolerance = [-LIMIT, self.tll, self.tul, LIMIT];
        let holds = chain.is_sorted() && self.tmv <= MEAN_LIMIT && tolerance.is_sorted();
        require(holds, Refusal::Limits)
    }

    /// "|D| > TSA and then |D| > TDIF are refused."
    pub fn check_deviation(&self, deviation: i64) -> Result<(), Refusal> {
        require(within(deviation, self.tsa), Refusal::SafeArea)?;
        require(within(deviation, self.tdif), Refusal::Difference)
    }

    fn verdict(&self, deviation: i64) -> Verdict {
        if deviation > self.tul {
            Verdict::Oversize
        } else if deviation < self.tll {
            Verdict::Undersize
        } else {
            Verdict::Within
        }
    }

    /// The branch, with the mean's present value if one is named.
    pub fn decide(
        &self,
        deviation: i64,
        mean: Option<i64>,
        weight: i64,
        fault: Option<Fault>,
    ) -> Decision {
        let (branch, mut correction, mean_left) = if !within(deviation, self.tmv) {
            (Branch::Full, deviation, 0)
        } else if let Some(mean) = mean {
            self.take_in(deviation, next_mean(mean, deviation, weight), fault)
        } else if !within(deviation, self.tzl) {
            (Branch::Deviation, deviation, 0)
        } else {
            (Branch::WithinZero, 0, 0)
        };
        let verdict = self.verdict(deviation);
        if fault == Some(Fault::OversizeWithheld) && verdict == Verdict::Oversize {
            correction = 0; // FAULT: "it stops no correction"
        }
        Decision {
            branch,
            verdict,
            correction,
            mean_left,
        }
    }

    /// "4 if |new M| > TZL: c = new M, the mean becomes 0. Else 3: new M is
    /// kept, c = 0."
    fn take_in(&self, deviation: i64, new: i64, fault: Option<Fault>) -> (Branch, i64, i64) {
        let compared = match fault {
            Some(Fault::DeviationAgainstTzl) => deviation, // FAULT
            _ => new,
        };
        if !within(compared, self.tzl) {
            return (Branch::MeanCorrection, new, 0);
        }
        match fault {
            Some(Fault::MeanClearedInBranch3) => (Branch::MeanKept, 0, 0), // FAULT
            _ => (Branch::MeanKept, 0, new),
        }
    }
}

/// "new M = M - q, where q is (M - D)/k rounded to the nearest whole, halves
/// away from zero."
pub fn next_mean(mean: i64, deviation: i64, weight: i64) -> i64 {
    let gap = mean - deviation;
    // the magnitude is rounded half up, the sign goes back on afterwards
    let step = (2 * gap.abs() + weight) / (2 * weight);
    mean - gap.signum() * step
}
