//! Units of a float: "The exact value times 10,000 is rounded to the nearest
//! unit, halves away from zero; both zeros give 0."

use reference::generate::Rng;
use reference::reading::units;
use std::collections::BTreeSet;

const SIGN: u32 = 1 << 31;

/// The float's units by division of whole numbers: it is a significand times a
/// power of two. Below 2^-60 that is taken for 2^-60; both are less than half a
/// unit then.
fn by_division(bits: u32) -> Option<i64> {
    let fraction = i128::from(bits & 0x7f_ffff);
    let (significand, exponent) = match bits >> 23 & 0xff {
        0 => (fraction, 1),
        255 => return None,
        exponent => (fraction + 0x80_0000, exponent),
    };
    let (over, under): (i128, i128) = match exponent {
        151.. => (significand << (exponent - 150).min(60), 1),
        _ => (significand, 1 << (150 - exponent).min(60)),
    };
    if over > 1000 * under {
        return None;
    }
    // away from zero: half a unit more, and what is left over is cut off
    let magnitude = (2 * 10_000 * over + under) / (2 * under);
    let sign = if bits < SIGN { 1 } else { -1 };
    Some((sign * magnitude) as i64)
}

/// Both signs of a float.
fn both(bits: u32) -> [u32; 2] {
    [bits, bits | SIGN]
}

/// As many floats on each side of this one as `reach`, of both signs.
fn around(bits: u32, reach: u32) -> impl Iterator<Item = u32> {
    let places = bits.saturating_sub(reach)..=(bits + reach).min(SIGN - 1);
    places.flat_map(both)
}

#[test]
fn worked_conversions() {
    for (bits, expected) in [
        // 0 and what lies next to it
        (0x0000_0000, Some(0)),
        (0x0000_0001, Some(0)),
        (0x007f_ffff, Some(0)),
        (0x0080_0000, Some(0)),
        // 0.00005 mm, half a unit, is no float; its neighbours are
        (0x3851_b717, Some(0)),
        (0x3851_b718, Some(1)),
        // 1/32 mm is 312.5 u, 3/32 mm 937.5 u; their neighbours
        (0x3cff_ffff, Some(312)),
        (0x3d00_0000, Some(313)),
        (0x3d00_0001, Some(313)),
        (0x3dbf_ffff, Some(937)),
        (0x3dc0_0000, Some(938)),
        (0x3dc0_0001, Some(938)),
        // 0.1 mm, 1 mm, 9.951 mm, and 999.96875 mm, which is 9999687.5 u
        (0x3dcc_cccd, Some(1_000)),
        (0x3f80_0000, Some(10_000)),
        (0x411f_374c, Some(99_510)),
        (0x4479_fe00, Some(9_999_688)),
        (0x4479_fdff, Some(9_999_687)),
        // 1000 mm; the float below is 0.6 u less
        (0x4479_ffff, Some(9_999_999)),
        (0x447a_0000, Some(10_000_000)),
        (0x447a_0001, None),
        (0x7f7f_ffff, None),
        // infinite, and no number
        (0x7f80_0000, None),
        (0x7f80_0001, None),
        (0x7fbf_ffff, None),
        (0x7fc0_0000, None),
        (0x7fff_ffff, None),
    ] {
        assert_eq!(units(bits), expected, "{bits:08x}");
        let negative = expected.map(|units: i64| -units);
        assert_eq!(units(bits | SIGN), negative, "-{bits:08x}");
    }
}

/// The floats just between two units are the odd multiples of 1/32 mm.
#[test]
fn halves_go_away_from_zero() {
    for odd in (1..=31_999).step_by(2) {
        let bits = (odd as f32 / 32.0).to_bits();
        let away = (625 * odd + 1) / 2;
        assert_eq!(units(bits), Some(away), "{odd}/32 mm");
        assert_eq!(units(bits | SIGN), Some(-away), "-{odd}/32 mm");
    }
}

/// Every position has a float, the nearest one, which gives it back.
#[test]
fn whole_positions_come_back() {
    for position in (-10_000_000..=10_000_000).step_by(7) {
        let millimetres = (position as f64 / 10_000.0) as f32;
        assert_eq!(units(millimetres.to_bits()), Some(position));
    }
}

/// Floats around all that decides about them.
fn patterns() -> BTreeSet<u32> {
    let mut rng = Rng::new(2_026);
    let ends = [
        0,
        0x0080_0000,
        0x3851_b717,
        0x447a_0000,
        0x7f80_0000,
        0x7fc0_0000,
    ];
    let mut found: BTreeSet<u32> = ends
        .into_iter()
        .flat_map(|bits| around(bits, 2_000))
        .collect();
    found.extend(both(0x7fff_ffff));
    // each power of two
    found.extend((0..255).flat_map(|exponent| around(exponent << 23, 16)));
    // halves, of which some are floats and some are not
    let halves = (1..32_000).step_by(2).map(|odd| odd as f32 / 32.0);
    found.extend(halves.flat_map(|half| around(half.to_bits(), 1)));
    for _ in 0..10_000 {
        let half = (rng.between(0, 9_999_999) as f64 + 0.5) / 10_000.0;
        found.extend(around((half as f32).to_bits(), 2));
    }
    found.extend((0..20_000).map(|_| rng.draw() as u32));
    found
}

#[test]
fn units_agree_with_division_around_every_boundary() {
    let patterns = patterns();
    assert!(patterns.len() > 200_000, "{}", patterns.len());
    for bits in patterns {
        assert_eq!(units(bits), by_division(bits), "{bits:08x}");
    }
}

/// The law: twice |units - 10,000·x| ≤ 1, and away from zero at equality. A
/// float within ±1000 mm is a multiple of 2^-149; those below 2^-100 are 0.
#[test]
fn units_are_the_nearest() {
    for bits in patterns() {
        let Some(units) = units(bits) else { continue };
        let exponent = (bits >> 23 & 0xff).max(1);
        let shift = 150 - exponent;
        let hidden = u32::from(bits & 0x7f80_0000 != 0) << 23;
        let significand = i128::from(bits & 0x7f_ffff | hidden);
        if shift > 100 {
            assert_eq!(units, 0, "{bits:08x}");
            continue;
        }
        let units = i128::from(units.abs()) << shift;
        let exact = 10_000 * significand;
        let distance = 2 * (units - exact);
        assert!(distance.abs() <= 1 << shift, "{bits:08x}");
        assert!(distance != -(1 << shift), "{bits:08x} towards zero");
    }
}

/// All 2^32 floats, by hand: `cargo test --release --package reference --test
/// floats -- --ignored --nocapture`.
#[test]
#[ignore = "takes minutes"]
fn every_float() {
    let (mut given, mut refused, mut in_64, mut in_32) = (0_u64, 0_u64, 0_u64, 0_u64);
    for bits in 0..=u32::MAX {
        let found = units(bits);
        assert_eq!(found, by_division(bits), "{bits:08x}");
        let float = f32::from_bits(bits);
        // false where the float is no number
        let good = float.abs() <= 1000.0;
        assert_eq!(found.is_some(), good, "{bits:08x}");
        let Some(units) = found else {
            refused += 1;
            continue;
        };
        given += 1;
        in_64 += u64::from((f64::from(float) * 10_000.0).round() as i64 != units);
        in_32 += u64::from((float * 10_000.0).round() as i64 != units);
    }
    println!("{given} floats give a position, {refused} are refused by 13");
    println!("a product in 64 bits differs for {in_64} of them, one in 32 bits for {in_32}");
    assert_eq!((given + refused, in_64), (1 << 32, 0));
    assert!(in_32 > 0);
}
