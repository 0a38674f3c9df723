//! "Units and stores": the ranges, and the tests of numbers against them.

use crate::refusal::Refusal;

/// "Probes 1..3".
pub const PROBES: usize = 3;
/// "each with six trigger values".
pub const PLACES: usize = 6;
/// "Empirical values EV and means MV, 20 each".
pub const MEANS: usize = 20;
/// "Tools 1..32".
pub const TOOLS: usize = 32;
/// "Zero offsets 1..4".
pub const OFFSETS: usize = 4;
/// "three axes".
pub const AXES: usize = 3;

/// "Positions, set centres and setpoints lie in -10,000,000..10,000,000 u".
pub const POSITION: i64 = 10_000_000;
/// "six trigger values (u, within ±100,000)".
pub const TRIGGER: i64 = 100_000;
/// "radius wear and length wear, h, within ±2,000,000".
pub const WEAR: i64 = 2_000_000;
/// "three axes, h, within ±20,000,000".
pub const OFFSET: i64 = 20_000_000;
/// "TSA ≤ 1,000,000".
pub const LIMIT: i64 = 1_000_000;
/// "TMV ≤ 32,767".
pub const MEAN_LIMIT: i64 = 32_767;
/// "k in 1..1000".
pub const WEIGHT: i64 = 1000;

/// Whether a value lies within ±`limit`.
pub fn within(value: i64, limit: i64) -> bool {
    (-limit..=limit).contains(&value)
}

/// Refusal 3 unless the value lies within ±`limit`.
pub fn require_within(value: i64, limit: i64) -> Result<(), Refusal> {
    require(within(value, limit), Refusal::Range)
}

/// The refusal unless the condition holds.
pub fn require(holds: bool, refusal: Refusal) -> Result<(), Refusal> {
    if holds {
        Ok(())
    } else {
        Err(refusal)
    }
}

/// "2 number outside its store": the index of a number 1..`size`.
pub fn store_index(number: i64, size: usize) -> Result<usize, Refusal> {
    match usize::try_from(number) {
        Ok(found) if (1..=size).contains(&found) => Ok(found - 1),
        _ => Err(Refusal::Number),
    }
}

/// As [`store_index`], with number 0 for none ("EV number 0 means EV is 0",
/// "Mean number 0").
pub fn optional_index(number: i64, size: usize) -> Result<Option<usize>, Refusal> {
    match number {
        0 => Ok(None),
        named => store_index(named, size).map(Some),
    }
}
