//! Faults that tests plant in the reference.

/// "What setters have met", and ways to do request 2026-01 wrong. A package made
/// by [`Package::with_fault`](crate::Package::with_fault) has one of them; the
/// places that look at it are marked `FAULT`.
#[derive(Clone, Copy, Debug, PartialEq, Eq)]
pub enum Fault {
    /// "Bytes FD FF read as 65533." What a store cannot hold is kept as its
    /// greatest value, 32,767.
    UnsignedBytes,
    /// "Comparing D instead of the new mean with TZL."
    DeviationAgainstTzl,
    /// "Clearing the mean in branch 3."
    MeanClearedInBranch3,
    /// "Withholding correction at oversize."
    OversizeWithheld,
    /// "Shaft corrected with the hole's sign."
    ShaftSign,
    /// "Moving one axis of a hole when the other is refused."
    HalfHole,
    /// A float times 10,000 in 32 bits, and the product rounded to a unit.
    FloatMultiplied,
    /// Y of a report for its X, where axis 1 is measured.
    OrdinateForAbscissa,
    /// 13 after 3 in a measurement.
    FloatAfterRange,
    /// 13 for a float that is not used.
    UnusedFloat,
}

impl Fault {
    /// Every fault, those of document 01 in its order, then those of request
    /// 2026-01.
    pub const ALL: [Fault; 10] = [
        Fault::UnsignedBytes,
        Fault::DeviationAgainstTzl,
        Fault::MeanClearedInBranch3,
        Fault::OversizeWithheld,
        Fault::ShaftSign,
        Fault::HalfHole,
        Fault::FloatMultiplied,
        Fault::OrdinateForAbscissa,
        Fault::FloatAfterRange,
        Fault::UnusedFloat,
    ];

    /// Whether the lines of a job can show it: none loads a block, and the
    /// readings of a G line have the same float for each axis.
    pub fn shows_in_jobs(self) -> bool {
        !matches!(self, Fault::UnsignedBytes | Fault::OrdinateForAbscissa)
    }
}
