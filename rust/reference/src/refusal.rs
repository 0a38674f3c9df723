//! The paper's alarm numbers.

/// "A call returns the first number that applies in the order given, 0 when
/// done." Each case stands for one of these numbers.
#[derive(Clone, Copy, Debug, PartialEq, Eq, PartialOrd, Ord, Hash)]
pub enum Refusal {
    /// 1: a lent buffer has too few places.
    Room = 1,
    /// 2: a number outside its store, or a kind not of this call.
    Number = 2,
    /// 3: a value, position, set centre, setpoint or k outside its range
    /// (in a calibration the limits too).
    Range = 3,
    /// 4: the limits of a measurement.
    Limits = 4,
    /// 5: "a needed direction uncalibrated".
    Uncalibrated = 5,
    /// 6: "a pair whose high surface ≤ its low one".
    Inverted = 6,
    /// 7: beyond TSA.
    SafeArea = 7,
    /// 8: "|D| > TDIF".
    Difference = 8,
    /// 9: a wear, an offset or a trigger would leave its range.
    Store = 9,
    /// 10: a job's line is "malformed or too long".
    Malformed = 10,
    /// 11: the job is empty.
    EmptyJob = 11,
    /// 12: the job is "over 65,536 bytes, over 1,000 lines or last line unended".
    JobForm = 12,
    /// 13: "a used float that is not a number, infinite or beyond ±1000 mm".
    Float = 13,
}

impl Refusal {
    /// Every refusal in the order of its number.
    pub const ALL: [Refusal; 13] = [
        Refusal::Room,
        Refusal::Number,
        Refusal::Range,
        Refusal::Limits,
        Refusal::Uncalibrated,
        Refusal::Inverted,
        Refusal::SafeArea,
        Refusal::Difference,
        Refusal::Store,
        Refusal::Malformed,
        Refusal::EmptyJob,
        Refusal::JobForm,
        Refusal::Float,
    ];

    /// The paper's number of this refusal.
    pub fn number(self) -> u8 {
        self as u8
    }

    /// A few words for the operator.
    pub fn meaning(self) -> &'static str {
        match self {
            Refusal::Room => "buffer too short",
            Refusal::Number => "number outside its store or kind not of this call",
            Refusal::Range => "value outside its range",
            Refusal::Limits => "limits out of order or range",
            Refusal::Uncalibrated => "needed direction uncalibrated",
            Refusal::Inverted => "high surface not above low surface",
            Refusal::SafeArea => "beyond the safe area TSA",
            Refusal::Difference => "deviation above TDIF",
            Refusal::Store => "stored value would leave its range",
            Refusal::Malformed => "line malformed or too long",
            Refusal::EmptyJob => "job is empty",
            Refusal::JobForm => {
                "job over 65,536 bytes, over 1,000 lines, or last line without line feed"
            }
            Refusal::Float => "float not a number, infinite or beyond ±1000 mm",
        }
    }
}

impl From<Refusal> for u8 {
    fn from(refusal: Refusal) -> u8 {
        refusal.number()
    }
}
