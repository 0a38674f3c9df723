//! One stored job with every letter and every refusal that a line can have.

use super::calls::CallSource;
use super::damage::line_of_length;
use super::rng::Rng;
use crate::job::JOB_LINES;
use crate::line::write_line;

/// Malformed lines of each kind.
const MALFORMED: &[&str] = &[
    "",
    ",",
    "E",
    "E,",
    "E,1",
    "E,1,",
    "E,,5",
    "E,1,2,3",
    "E,1,2,",
    "E,1,007",
    "E,1,-0",
    "E,1,-",
    "E,1,--5",
    "E,1,+5",
    "E,1, 5",
    "E,1,5 ",
    "E,1,5\r",
    "E,1,123456789",
    "E,1,-123456789",
    "E,1,1.5",
    "E;1;5",
    "E,\"1\",5",
    "e,1,5",
    "EE,1,5",
    " E,1,5",
    ",1,5",
    "1,5",
    "G,1,5",
    "S,0,480",
    "D,1",
    "K,1",
    "R,1",
    "X,1,5",
    "W,1,2",
    "W,1,2,3,4",
    "O,1,2,3",
    "O,1,2,3,4,5",
    "C,1,1,0,0,-500,0",
    "C,1,1,0,0,-500,0,1000,0",
    "T,3,1,1,0,200000,0,0,-99510,99550,0,0,4,0,2,5,20,100,150,-150,300",
    "T,3,1,1,0,200000,0,0,-99510,99550,0,0,4,0,2,5,20,100,150,-150,300,1000,0",
    "T,3,1,1,0,200000,0,0,-99510,99550,00,0,4,0,2,5,20,100,150,-150,300,1000",
    "T,0,1,1,0,200000,-0,0,200000,0,0,0,4,0,2,5,20,100,150,-150,300,1000",
    "Z,100,1,3,1,800000,0,0,829870,0,0,0,1",
    "Z,100,1,3,1,800000,0,0,829870,0,0,0,1,20000,0",
    "Z,100,1,3,1,800000,0,0,829870,,0,0,1,20000",
    "Z,100,1,3,1,800000,0,0,42a5f958,0,0,0,1,20000",
    "C,1,1,0,0,00000000,0,1000",
    "T,3,1,1,0,200000,0,0,c11f374c,411f47ae,0,0,4,0,2,5,20,100,150,-150,300,1000",
    "G,3,1,1,0,200000,0,0,-99510,99550,0,0,4,0,2,5,20,100,150,-150,300,1000",
    "G,3,1,1,0,200000,0,0,C11F374C,411f47ae,00000000,00000000,4,0,2,5,20,100,150,-150,300,1000",
    "G,3,1,1,0,200000,0,0,c11f374c,411f47ae,00000000,7FC00000,4,0,2,5,20,100,150,-150,300,1000",
    "G,3,1,1,0,200000,0,0,c11f374c,411f47a,00000000,00000000,4,0,2,5,20,100,150,-150,300,1000",
    "G,3,1,1,0,200000,0,0,c11f374c,411f47ae,0,00000000,4,0,2,5,20,100,150,-150,300,1000",
    "G,3,1,1,0,200000,0,0,c11f374c0,411f47ae,00000000,00000000,4,0,2,5,20,100,150,-150,300,1000",
    "G,3,1,1,0,200000,0,0,c11f374c,411f47ae,00000000,000000000,4,0,2,5,20,100,150,-150,300,1000",
    "G,3,1,1,0,200000,0,0,-11f374c,411f47ae,00000000,00000000,4,0,2,5,20,100,150,-150,300,1000",
    "G,3,1,1,0,200000,0,0,c11f374g,411f47ae,00000000,00000000,4,0,2,5,20,100,150,-150,300,1000",
    "G,3,1,1,0,200000,0,0,c11f374c,411f47ae,00000000,00000000,4,0,2,5,20,100,150,-150,300",
    "G,3,1,1,0,200000,0,0,c11f374c,411f47ae,00000000,00000000,4,0,2,5,20,100,150,-150,300,1000,0",
];

/// Exactly 1,000 lines, always the same: malformed lines of each kind, lines at
/// 200 bytes and above, and mixed lines between them.
pub fn every_letter() -> Vec<u8> {
    let mut rng = Rng::new(2_026);
    let lengths = [199, 200, 201, 211];
    let long = lengths.map(|length| line_of_length(&mut rng, length));
    let malformed = MALFORMED.iter().map(|line| line.as_bytes().to_vec());
    let mut special: Vec<Vec<u8>> = malformed.chain(long).collect();
    special.reverse();

    let mut source = CallSource::new(1_003);
    let mut text = Vec::new();
    for number in 1..=JOB_LINES {
        let line = match special.pop_if(|_| number % 7 == 0) {
            Some(line) => line,
            None => {
                let (letter, fields) = match number % 9 {
                    0 => short_line(&mut source),
                    _ => source.next_line(),
                };
                write_line(letter, &fields).into_bytes()
            }
        };
        text.extend(line);
        text.push(b'\n');
    }
    text
}

/// Settings between the measurements, which keep the job within its bytes.
fn short_line(source: &mut CallSource) -> (char, Vec<i64>) {
    let rng = source.rng();
    let small = rng.between(-30, 30);
    let (letter, fields) = match rng.below(3) {
        0 => ('E', vec![rng.between(1, 20), small]),
        1 => ('W', vec![rng.between(1, 32), small, -small]),
        _ => ('O', vec![rng.between(1, 4), small, 0, -small]),
    };
    source.follow(letter, &fields);
    (letter, fields)
}
