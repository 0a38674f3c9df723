//! Damage to the lines of a job.

use super::readings::edge_bits;
use super::rng::Rng;
use crate::line::{is_float, write_line, RAWS};

/// Ways to change one field.
const FIELDS: [&str; 18] = [
    "",
    "-",
    "-0",
    "00",
    "007",
    "-012",
    "+5",
    " 5",
    "5 ",
    "123456789",
    "-123456789",
    "000000001",
    "5.0",
    "1e3",
    "0x1f",
    "--1",
    "447a0000",
    "447A0000",
];

/// Letters that open no line, and G, which opens none of another letter's fields.
const LETTERS: [&str; 14] = [
    "G", "S", "D", "K", "R", "X", "t", "c", "TT", "", " T", "T ", "1", "\u{e9}",
];

/// Bytes that stand nowhere in a well-formed line, and some that do.
const BYTES: &[u8] = b"\r\t \0\x7f\xff\",;-+.09,\n";

/// One line of these parts, the letter first.
fn join(parts: &[String]) -> Vec<u8> {
    parts.join(",").into_bytes()
}

fn split(line: &[u8]) -> Vec<String> {
    let text = String::from_utf8_lossy(line);
    text.split(',').map(str::to_owned).collect()
}

/// Changes the parts of a line: letter, fields, their number.
fn damage_parts(rng: &mut Rng, line: &[u8]) -> Vec<u8> {
    let mut parts = split(line);
    let place = rng.below(parts.len());
    let field = place.max(1).min(parts.len() - 1);
    match rng.below(9) {
        0 => parts.insert(place, parts[place].clone()),
        1 => drop(parts.remove(place)),
        2 => parts.push(rng.pick(&["0", "", "5"]).to_owned()),
        3 => parts[0] = rng.pick(&LETTERS).to_owned(),
        4 => drop(parts.pop()),
        5 => parts[field].insert(0, '0'),
        6 => parts[field] = "-0".to_owned(),
        _ => parts[field] = rng.pick(&FIELDS).to_owned(),
    }
    join(&parts)
}

/// Bytes next to the digits of a float, and some that stand in other numbers.
const OTHER_DIGITS: [&str; 9] = ["/", ":", "@", "A", "`", "g", "-", " ", "x"];

/// Changes the digits of one raw of a G line: capitals, seven, nine, a sign,
/// other bytes among them, a number.
fn damage_digits(rng: &mut Rng, line: &[u8]) -> Vec<u8> {
    let mut parts = split(line);
    let raw = &mut parts[1 + RAWS.start + rng.below(RAWS.len())];
    *raw = match rng.below(8) {
        0 => raw.to_uppercase(),
        1 => format!("{}F", &raw[1..]),
        2 => raw[1..].to_owned(),
        3 => format!("{raw}0"),
        4 => format!("0{raw}"),
        5 => format!("{}{}", rng.pick(&["-", "+"]), &raw[1..]),
        6 => format!("{}{}", &raw[..7], rng.pick(&OTHER_DIGITS)),
        _ => rng.between(-99_999_999, 99_999_999).to_string(),
    };
    join(&parts)
}

/// Changes single bytes of a line.
fn damage_bytes(rng: &mut Rng, line: &[u8]) -> Vec<u8> {
    let mut line = line.to_vec();
    let place = rng.below(line.len().max(1));
    match rng.below(6) {
        0 if !line.is_empty() => line[place] ^= 1 << rng.below(8),
        1 if !line.is_empty() => drop(line.remove(place)),
        2 => line.insert(place.min(line.len()), rng.pick(BYTES)),
        3 => line.push(b'\r'),
        4 => line.clear(),
        _ => line.truncate(place),
    }
    line
}

/// A line of exactly this many bytes: well formed if it can be, else padded.
pub fn line_of_length(rng: &mut Rng, length: usize) -> Vec<u8> {
    if (71..=207).contains(&length) && rng.chance(35) {
        return measurement_of_length(rng, 'G', length);
    }
    if (43..=211).contains(&length) && rng.chance(70) {
        return measurement_of_length(rng, 'T', length);
    }
    let mut line = b"E,1,5".to_vec();
    line.resize(length, rng.pick(b"0 ,"));
    line
}

/// A T or G line of exactly this many bytes: 21 fields of one to nine bytes, the
/// floats of eight; what is over goes to random fields.
fn measurement_of_length(rng: &mut Rng, letter: char, length: usize) -> Vec<u8> {
    let mut sizes: [u32; 21] = std::array::from_fn(|place| match is_float(letter, place) {
        true => 8,
        false => 1,
    });
    let numbers = (0..21).filter(|&place| !is_float(letter, place));
    let numbers: Vec<usize> = numbers.collect();
    while 22 + sizes.iter().sum::<u32>() < length as u32 {
        let open = numbers.iter().copied().filter(|&place| sizes[place] < 9);
        let open: Vec<usize> = open.collect();
        sizes[rng.pick(&open)] += 1;
    }
    let fields: [i64; 21] = std::array::from_fn(|place| match sizes[place] {
        _ if is_float(letter, place) => edge_bits(rng).into(),
        9 => -10_i64.pow(7) * rng.between(1, 9),
        size => 10_i64.pow(size - 1) * rng.between(1, 9),
    });
    write_line(letter, &fields).into_bytes()
}

/// The line with one damage.
pub fn damage(rng: &mut Rng, line: &[u8]) -> Vec<u8> {
    match rng.below(10) {
        0 => {
            let length = rng.pick(&[199, 200, 201, 202, 203, 211]);
            line_of_length(rng, length)
        }
        1..=6 if line.starts_with(b"G,") => damage_digits(rng, line),
        1..=4 => damage_bytes(rng, line),
        _ => damage_parts(rng, line),
    }
}
