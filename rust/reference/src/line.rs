//! The lines of a job, read and written.

use std::ops::Range;

use crate::calibration::Calibration;
use crate::calls::Call;
use crate::feature::Feature;
use crate::reading::{Reading, Report};
use crate::refusal::Refusal;
use crate::result_array::RESULT;
use crate::tolerance::Tolerance;
use crate::tool_offset::ToolMeasurement;
use crate::zero_offset::ZeroMeasurement;

/// "At most 200 bytes a line, its line feed aside."
pub const LINE: usize = 200;
/// The places of r1..r4 among the fields of a T, Z or G line.
pub const RAWS: Range<usize> = 7..11;

/// The call of a line (without its line feed); "10 malformed or too long".
pub fn read_line(line: &[u8]) -> Result<Call, Refusal> {
    if line.len() > LINE {
        return Err(Refusal::Malformed);
    }
    let mut parts = line.split(|&byte| byte == b',');
    let Some(&[letter]) = parts.next() else {
        return Err(Refusal::Malformed);
    };
    let letter = char::from(letter);
    let fields = parts.enumerate().map(|(place, field)| {
        if is_float(letter, place) {
            read_bits(field).map(i64::from)
        } else {
            read_number(field)
        }
    });
    let fields: Option<Vec<i64>> = fields.collect();
    fields
        .and_then(|fields| call_of(letter, &fields))
        .ok_or(Refusal::Malformed)
}

/// "Line G has T's fields, but each r is eight lower-case hexadecimal digits of
/// one float's bits".
pub fn is_float(letter: char, place: usize) -> bool {
    letter == 'G' && RAWS.contains(&place)
}

/// "eight lower-case hexadecimal digits of one float's bits, highest first";
/// "digits of another form are 10".
pub fn read_bits(field: &[u8]) -> Option<u32> {
    let digits: &[u8; 8] = field.try_into().ok()?;
    digits.iter().try_fold(0, |bits, digit| {
        let value = match digit {
            b'0'..=b'9' => digit - b'0',
            b'a'..=b'f' => digit - b'a' + 10,
            _ => return None,
        };
        Some(bits << 4 | u32::from(value))
    })
}

/// "A field is ... an optional minus, one to eight digits, no needless leading
/// zero, no -0."
pub fn read_number(field: &[u8]) -> Option<i64> {
    let digits = field.strip_prefix(b"-").unwrap_or(field);
    let negative = digits.len() < field.len();
    if digits.is_empty() || digits.len() > 8 || !digits.iter().all(u8::is_ascii_digit) {
        return None;
    }
    if digits[0] == b'0' && (digits.len() > 1 || negative) {
        return None;
    }
    let value = digits
        .iter()
        .fold(0, |value, digit| 10 * value + i64::from(digit - b'0'));
    Some(if negative { -value } else { value })
}

/// The call of a letter with as many fields as it takes; the raws of a G line
/// are the bits of their floats.
pub fn call_of(letter: char, fields: &[i64]) -> Option<Call> {
    match (letter, fields) {
        ('E', &[number, value]) => Some(Call::SetEmpirical { number, value }),
        ('W', &[tool, radius, length]) => Some(Call::SetWear {
            tool,
            radius,
            length,
        }),
        ('O', &[offset, v1, v2, v3]) => Some(Call::SetOffset {
            offset,
            values: [v1, v2, v3],
        }),
        ('C', &[probe, axis, direction, setpoint, raw, tzl, tsa]) => {
            Some(Call::Calibrate(Calibration {
                probe,
                axis,
                direction,
                setpoint,
                raw: Reading::Whole(raw),
                tzl,
                tsa,
            }))
        }
        ('T', fields) => tool_call(fields, whole_reading),
        ('G', fields) => tool_call(fields, float_reading),
        ('Z', fields) => zero_call(fields),
        _ => None,
    }
}

fn whole_reading(field: i64) -> Option<Reading> {
    Some(Reading::Whole(field))
}

fn float_reading(field: i64) -> Option<Reading> {
    let bits = u32::try_from(field).ok()?;
    Some(Reading::Report(Report::of_bits(bits)))
}

/// "kind,probe,axis,direction,setpoint,c1,c2,r1,r2,r3,r4".
fn feature_of(fields: &[i64; 11], reading: fn(i64) -> Option<Reading>) -> Option<Feature> {
    let [kind, probe, axis, direction, setpoint, c1, c2, r1, r2, r3, r4] = *fields;
    Some(Feature {
        kind,
        probe,
        axis,
        direction,
        setpoint,
        centre: [c1, c2],
        raws: [reading(r1)?, reading(r2)?, reading(r3)?, reading(r4)?],
    })
}

fn tool_call(fields: &[i64], reading: fn(i64) -> Option<Reading>) -> Option<Call> {
    let (feature, rest) = fields.split_first_chunk()?;
    let &[tool, ev, mv, k, tzl, tmv, tul, tll, tdif, tsa] = rest else {
        return None;
    };
    Some(Call::MeasureTool {
        measurement: ToolMeasurement {
            feature: feature_of(feature, reading)?,
            tool,
            ev,
            mv,
            k,
            tolerance: Tolerance {
                tzl,
                tmv,
                tul,
                tll,
                tdif,
                tsa,
            },
        },
        array: vec![0; RESULT],
        place: 0,
    })
}

fn zero_call(fields: &[i64]) -> Option<Call> {
    let (feature, rest) = fields.split_first_chunk()?;
    let &[offset, tsa] = rest else {
        return None;
    };
    Some(Call::MeasureZero {
        measurement: ZeroMeasurement {
            feature: feature_of(feature, whole_reading)?,
            offset,
            tsa,
        },
        array: vec![0; RESULT],
        place: 0,
    })
}

/// Letter and fields of a call that a line can hold; the raws of a G line are
/// the bits of their floats.
pub fn fields_of(call: &Call) -> Option<(char, Vec<i64>)> {
    Some(match call {
        Call::SetEmpirical { number, value } => ('E', vec![*number, *value]),
        Call::SetWear {
            tool,
            radius,
            length,
        } => ('W', vec![*tool, *radius, *length]),
        Call::SetOffset { offset, values } => ('O', [&[*offset], &values[..]].concat()),
        Call::Calibrate(calibration) => ('C', calibration_fields(calibration)?.to_vec()),
        Call::MeasureTool { measurement: m, .. } => {
            let t = &m.tolerance;
            let rest = [
                m.tool, m.ev, m.mv, m.k, t.tzl, t.tmv, t.tul, t.tll, t.tdif, t.tsa,
            ];
            let (letter, feature) = match feature_fields(&m.feature, whole_field) {
                Some(feature) => ('T', feature),
                None => ('G', feature_fields(&m.feature, float_field)?),
            };
            (letter, [&feature[..], &rest].concat())
        }
        Call::MeasureZero { measurement: m, .. } => {
            let feature = feature_fields(&m.feature, whole_field)?;
            ('Z', [&feature[..], &[m.offset, m.tsa]].concat())
        }
        _ => return None,
    })
}

fn calibration_fields(call: &Calibration) -> Option<[i64; 7]> {
    Some([
        call.probe,
        call.axis,
        call.direction,
        call.setpoint,
        whole_field(&call.raw)?,
        call.tzl,
        call.tsa,
    ])
}

/// A whole reading's field, in a C, T or Z line.
fn whole_field(reading: &Reading) -> Option<i64> {
    match reading {
        Reading::Whole(position) => Some(*position),
        Reading::Report(_) => None,
    }
}

/// The bits of a report that a G line can hold: one float for all axes.
fn float_field(reading: &Reading) -> Option<i64> {
    match reading {
        Reading::Whole(_) => None,
        Reading::Report(report) => {
            let [x, y, z] = report.bits();
            (x == y && x == z).then_some(x.into())
        }
    }
}

fn feature_fields(feature: &Feature, raw: fn(&Reading) -> Option<i64>) -> Option<[i64; 11]> {
    let Feature {
        kind,
        probe,
        axis,
        direction,
        setpoint,
        centre: [c1, c2],
        raws: [r1, r2, r3, r4],
    } = feature;
    let [r1, r2, r3, r4] = [raw(r1)?, raw(r2)?, raw(r3)?, raw(r4)?];
    Some([
        *kind, *probe, *axis, *direction, *setpoint, *c1, *c2, r1, r2, r3, r4,
    ])
}

/// The line of letter and fields, without its line feed; the raws of a G line
/// are the bits of their floats.
pub fn write_line(letter: char, fields: &[i64]) -> String {
    let mut line = letter.to_string();
    for (place, field) in fields.iter().enumerate() {
        line += &match is_float(letter, place) {
            true => format!(",{field:08x}"),
            false => format!(",{field}"),
        };
    }
    line
}
