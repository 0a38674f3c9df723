//! The positions that the package takes floats for, against those of the
//! reference, which its own tests hold against exact arithmetic.

use mezhtolik::boundary::{calibrate, measure_zero_readings};
use mezhtolik::{AREA, REPORTS, RESULTS};
use reference::generate::Rng;
use reference::reading::units;

const SIGN: u32 = 1 << 31;
/// The bits of a float's fraction.
const FRACTION: u32 = 23;
/// Where the measured size stands in the result array.
const MEASURED: usize = 4;

/// A plane with zero offset, read by a box on each axis in turn.
struct Plane {
    area: [i32; AREA],
    arguments: [i64; 13],
    reports: [f32; REPORTS],
}

impl Plane {
    /// Triggers of 0, so that the surface is the raw.
    fn new() -> Self {
        let mut area = [0; AREA];
        for axis in 1..=3 {
            assert_eq!(calibrate(&mut area, [1, axis, 0, 0, 0, 0, 0]), 0);
        }
        Plane {
            area,
            arguments: [100, 1, 0, 0, 0, 0, 0, 0, 0, 0, 0, 1, 0],
            reports: [f32::NAN; REPORTS],
        }
    }

    /// Holds the position of a float against that of the reference: TSA is 0,
    /// so that any other is refused by 7. Whether it has a position.
    fn compare(&mut self, bits: u32) -> bool {
        let axis = bits as usize % 3;
        let expected = units(bits);
        self.reports[..3].fill(f32::NAN);
        self.reports[axis] = f32::from_bits(bits);
        self.arguments[2] = axis as i64 + 1;
        self.arguments[4] = expected.unwrap_or(0);
        let (mut results, reports) = ([0; RESULTS], (&self.reports[..], 1));
        let decision =
            measure_zero_readings(&mut self.area, &self.arguments, reports, &mut results, 0);
        let found = match decision.refusal {
            0 => Ok(i64::from(results[MEASURED])),
            refusal => Err(refusal),
        };
        assert_eq!(found, expected.ok_or(13), "{bits:08x}");
        found.is_ok()
    }
}

/// A float and its neighbours, of both signs.
fn around(bits: u32, far: u32) -> impl Iterator<Item = u32> {
    let all = bits.saturating_sub(far)..=bits.saturating_add(far).min(SIGN - 1);
    all.flat_map(|bits| [bits, bits | SIGN])
}

/// Where floats change: at each power of two, at 1000 mm, at half a unit, at
/// each float just between two units, and between units where none is.
fn boundaries() -> Vec<u32> {
    let powers = (0..=255).map(|exponent| exponent << FRACTION);
    let limits = [1000.0_f32, 0.000_05, 0.000_1].map(f32::to_bits);
    let mut found: Vec<u32> = powers
        .chain(limits)
        .flat_map(|bits| around(bits, 20))
        .collect();
    // an odd number of times 1/32 mm, which is 312.5 u
    let halves = (1..32_000)
        .step_by(2)
        .map(|odd| (odd as f32 / 32.0).to_bits());
    found.extend(halves.flat_map(|bits| around(bits, 1)));
    let mut rng = Rng::new(13);
    for _ in 0..10_000 {
        let between = (rng.between(0, 9_999_999) as f64 + 0.5) / 10_000.0;
        found.extend(around((between as f32).to_bits(), 1));
    }
    found
}

#[test]
fn floats_around_every_boundary() {
    let all = boundaries();
    assert!(all.len() > 100_000, "{}", all.len());
    let mut plane = Plane::new();
    let taken = all.iter().filter(|bits| plane.compare(**bits)).count();
    assert!(0 < taken && taken < all.len(), "{taken}");
}

/// All 2^32 floats, by hand: `cargo test --release --package differential --test
/// floats -- --ignored --nocapture`.
#[test]
#[ignore = "takes minutes"]
fn every_float() {
    let mut plane = Plane::new();
    let taken = (0..=u32::MAX).filter(|bits| plane.compare(*bits)).count();
    let refused = (1 << 32) - taken;
    println!("{taken} floats give a position, {refused} are refused by 13, as in the reference");
}
