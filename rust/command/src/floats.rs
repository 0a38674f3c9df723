//! Floats of a float box, in millimetres and units.

use reference::reading::units;

/// Sizes between which a float is written without a power of ten.
const PLAIN: std::ops::Range<f32> = 1e-5..1e7;

/// A float in millimetres, with as few digits as tell it from its neighbours.
fn millimetres(float: f32) -> String {
    match float == 0.0 || PLAIN.contains(&float.abs()) {
        true => format!("{float} mm"),
        false => format!("{float:e} mm"),
    }
}

/// The float of these bits: its millimetres, and the units that a measurement takes it for or why it takes it for none.
pub fn said(bits: u32) -> String {
    let float = f32::from_bits(bits);
    match units(bits) {
        Some(units) => format!("{} ({units} u)", millimetres(float)),
        None if float.is_nan() => "no number".to_owned(),
        None if float.is_infinite() => "infinite".to_owned(),
        None => format!("{} (beyond ±1000 mm)", millimetres(float)),
    }
}

#[cfg(test)]
mod tests {
    use super::*;

    #[test]
    fn floats_are_said_in_millimetres_and_units() {
        for (bits, words) in [
            (0xc11f_374c, "-9.951 mm (-99510 u)"),
            (0x411f_47ae, "9.955 mm (99550 u)"),
            (0xc23b_e000, "-46.96875 mm (-469688 u)"),
            (0x447a_0000, "1000 mm (10000000 u)"),
            (0x447a_0001, "1000.00006 mm (beyond ±1000 mm)"),
            (0x0000_0000, "0 mm (0 u)"),
            (0x8000_0000, "-0 mm (0 u)"),
            (0x0000_0001, "1e-45 mm (0 u)"),
            (0xff7f_ffff, "-3.4028235e38 mm (beyond ±1000 mm)"),
            (0x7f80_0000, "infinite"),
            (0xff80_0000, "infinite"),
            (0x7fc0_0000, "no number"),
            (0xffff_ffff, "no number"),
        ] {
            assert_eq!(said(bits), words, "{bits:08x}");
        }
    }
}
