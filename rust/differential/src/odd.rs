//! Areas of any content.

use crate::layout::Area;
use mezhtolik::AREA;
use reference::generate::Rng;

/// Ends of what records can hold, and of what calls leave in them.
const ENDS: [i64; 14] = [
    0,
    63,
    64,
    255,
    256,
    32_767,
    -32_768,
    100_000,
    -100_000,
    2_000_000,
    -2_000_000,
    20_000_000,
    -20_000_000,
    300,
];

fn odd_number(rng: &mut Rng) -> i32 {
    match rng.below(6) {
        0 => rng.draw() as i32,
        1 => (rng.draw() as i32) >> rng.below(32),
        2 => rng.pick(&[i32::MIN, i32::MIN + 1, i32::MAX - 1, i32::MAX, -1]),
        3 => rng.near(&ENDS) as i32,
        _ => rng.between(-50, 50) as i32,
    }
}

/// An area of any content; its probes are often calibrated, so that
/// measurements come to the end of their tests.
pub fn odd_area(rng: &mut Rng) -> Area {
    let mut area = [0; AREA];
    for number in &mut area {
        *number = odd_number(rng);
    }
    for probe in 0..3 {
        if rng.chance(70) {
            area[7 * probe + 6] = rng.pick(&[63, 255, 127, 256, i32::MAX]);
        }
    }
    area
}
