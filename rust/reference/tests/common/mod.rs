//! What the tests share.
#![allow(dead_code)] // each test uses its own part of it

use reference::line::call_of;
use reference::{Answer, Package, Records};

/// A T line's fields: a groove on axis 1, D = r2 - r1 - setpoint = 0, with the
/// limits of the paper's worked values.
pub const GROOVE: [i64; 21] = [
    3, 1, 1, 0, 1000, 0, 0, 0, 1000, 0, 0, 4, 0, 2, 5, 20, 100, 150, -150, 300, 1000,
];

/// A Z line's fields: a groove on axis 1 whose centre (h) is 1000, as set.
pub const ZERO_GROOVE: [i64; 13] = [103, 1, 1, 0, 1000, 500, 0, 0, 1000, 0, 0, 2, 1000];

/// A C line's fields: t = 300.
pub const CALIBRATION: [i64; 7] = [1, 1, 0, 1000, 700, 10, 500];

/// Places in the fields of T and Z lines.
pub mod at {
    pub const KIND: usize = 0;
    pub const PROBE: usize = 1;
    pub const AXIS: usize = 2;
    pub const DIRECTION: usize = 3;
    pub const SETPOINT: usize = 4;
    pub const C1: usize = 5;
    pub const C2: usize = 6;
    pub const R1: usize = 7;
    pub const R2: usize = 8;
    pub const R3: usize = 9;
    pub const R4: usize = 10;
    pub const TOOL: usize = 11;
    pub const OFFSET: usize = 11;
    pub const ZERO_TSA: usize = 12;
    pub const EV: usize = 12;
    pub const MV: usize = 13;
    pub const K: usize = 14;
    pub const TZL: usize = 15;
    pub const TMV: usize = 16;
    pub const TUL: usize = 17;
    pub const TLL: usize = 18;
    pub const TDIF: usize = 19;
    pub const TSA: usize = 20;
}

/// All probes calibrated with triggers of 0, so that surfaces are raws.
pub fn calibrated() -> Package {
    Package::from_records(Records {
        status: [0x3f; 3],
        ..Records::fresh()
    })
}

/// The fields with some of them changed.
pub fn with<const N: usize>(mut fields: [i64; N], changes: &[(usize, i64)]) -> [i64; N] {
    for &(place, value) in changes {
        fields[place] = value;
    }
    fields
}

/// The answer of a line's call.
pub fn call(package: &mut Package, letter: char, fields: &[i64]) -> Answer {
    package.apply(&call_of(letter, fields).expect("fields of a line"))
}

/// A job's output on a package.
pub fn job(package: &mut Package, text: &str) -> String {
    let mut output = vec![0; 40_000];
    let length = package.run_job(text.as_bytes(), &mut output).unwrap();
    String::from_utf8(output[..length].to_vec()).unwrap()
}

/// Checks the refusal of calls that change some fields.
pub fn check<const N: usize>(letter: char, fields: [i64; N], rows: &[(&[(usize, i64)], u8)]) {
    for (changes, refusal) in rows {
        let answer = call(&mut calibrated(), letter, &with(fields, changes));
        assert_eq!(answer.refusal, *refusal, "{letter} with {changes:?}");
    }
}

/// Checks one field's values.
pub fn check_field<const N: usize>(
    letter: char,
    fields: [i64; N],
    place: usize,
    rows: &[(i64, u8)],
) {
    for &(value, refusal) in rows {
        check(letter, fields, &[(&[(place, value)], refusal)]);
    }
}

/// An unused field takes any value.
pub fn check_unused<const N: usize>(letter: char, fields: [i64; N], places: &[usize]) {
    for &place in places {
        let values = [i64::MIN, -10_000_001, 4, 10_000_001, i64::MAX];
        check_field(letter, fields, place, &values.map(|value| (value, 0)));
    }
}
