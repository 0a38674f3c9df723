//! What the calls answer.

use crate::boundary::{RawDecision, RawStatus};
use crate::refusal::{outcome, Refusal};

/// What a measurement did with the deviation.
#[derive(Clone, Copy, Debug, PartialEq, Eq, PartialOrd, Ord, Hash)]
#[repr(u8)]
pub enum Branch {
    /// 1: no mean, deviation within TZL; nothing is corrected.
    WithinZero = 1,
    /// 2: no mean, deviation within TMV; corrected by the deviation.
    Deviation = 2,
    /// 3: the new mean is kept; nothing is corrected.
    MeanKept = 3,
    /// 4: corrected by the new mean, and the mean begins again at 0.
    MeanCorrection = 4,
    /// 5: deviation beyond TMV; corrected by it, and the mean begins at 0.
    Full = 5,
    /// 6: the zero offset was moved.
    ZeroOffset = 6,
}

impl Branch {
    /// Every branch in the order of its number.
    pub const ALL: [Branch; 6] = [
        Branch::WithinZero,
        Branch::Deviation,
        Branch::MeanKept,
        Branch::MeanCorrection,
        Branch::Full,
        Branch::ZeroOffset,
    ];

    /// Its number in job files.
    pub const fn number(self) -> u32 {
        self as u32
    }
}

/// How the part stands to its tolerance. It stops no correction.
#[derive(Clone, Copy, Debug, PartialEq, Eq, PartialOrd, Ord, Hash)]
#[repr(u8)]
pub enum Verdict {
    /// 0: from TLL to TUL, or a zero offset.
    Within = 0,
    /// 1: above TUL.
    Oversize = 1,
    /// 2: below TLL.
    Undersize = 2,
}

impl Verdict {
    /// Every verdict in the order of its number.
    pub const ALL: [Verdict; 3] = [Verdict::Within, Verdict::Oversize, Verdict::Undersize];

    /// Its number in job files.
    pub const fn number(self) -> u32 {
        self as u32
    }
}

/// What a measurement that was done answers.
#[derive(Clone, Copy, Debug, PartialEq, Eq)]
pub struct Decision {
    /// What was corrected.
    pub branch: Branch,
    /// How the part stands to its tolerance.
    pub verdict: Verdict,
}

impl Decision {
    #[inline]
    pub(crate) fn of(raw: RawDecision) -> Result<Decision, Refusal> {
        outcome(raw.refusal)?;
        Ok(Decision {
            // branches count from 1
            branch: Branch::ALL[raw.branch as usize - 1],
            verdict: Verdict::ALL[raw.verdict as usize],
        })
    }
}

/// The directions of a probe that are calibrated.
#[derive(Clone, Copy, Debug, Default, PartialEq, Eq)]
pub struct ProbeStatus {
    /// Bit place - 1 for each direction: axis 1 negative is place 1, positive
    /// 2; axis 2: 3, 4; axis 3: 5, 6.
    pub bits: u8,
    /// How many there are.
    pub count: u32,
}

impl ProbeStatus {
    #[inline]
    pub(crate) fn of(raw: RawStatus) -> Result<ProbeStatus, Refusal> {
        outcome(raw.refusal)?;
        Ok(ProbeStatus {
            bits: raw.bits as u8,
            count: raw.count,
        })
    }
}
