//! Values at and next to the boundaries of the paper, and wild ones.

use super::rng::Rng;

/// Every number of the paper that bounds an argument.
const BOUNDARIES: [i64; 24] = [
    0,
    1,
    2,
    3,
    4,
    5,
    20,
    32,
    100,
    104,
    1_000,
    -32_768,
    32_767,
    100_000,
    -100_000,
    1_000_000,
    -1_000_000,
    2_000_000,
    -2_000_000,
    10_000_000,
    -10_000_000,
    20_000_000,
    -20_000_000,
    99_999_999,
];

/// Values that overflow careless arithmetic.
const WILD: [i64; 10] = [
    i64::MIN,
    i64::MIN + 1,
    i64::MAX,
    i64::MAX - 1,
    i32::MIN as i64,
    i32::MAX as i64,
    i32::MIN as i64 - 1,
    i32::MAX as i64 + 1,
    -1 << 62,
    u32::MAX as i64,
];

/// A value at or next to a boundary.
pub fn boundary(rng: &mut Rng) -> i64 {
    rng.near(&BOUNDARIES)
}

/// A value that no sensible caller hands over.
pub fn wild(rng: &mut Rng) -> i64 {
    match rng.below(4) {
        0 => rng.draw() as i64,
        1 => (rng.draw() as i64) >> rng.below(63),
        _ => rng.pick(&WILD),
    }
}

/// A number of a store of `size`, mostly one of its first three.
pub fn store_number(rng: &mut Rng, size: i64) -> i64 {
    match rng.below(10) {
        0 => size,
        1 => rng.between(1, size),
        _ => rng.between(1, size.min(3)),
    }
}

/// As [`store_number`], or 0 for none.
pub fn optional_number(rng: &mut Rng, size: i64) -> i64 {
    if rng.chance(30) {
        0
    } else {
        store_number(rng, size)
    }
}
