//! "Line G has T's fields, but each r is eight lower-case hexadecimal digits of
//! one float's bits, highest first".

mod common;

use common::{calibrated, job};
use reference::generate::{job as generated_job, CallSource};
use reference::line::{call_of, read_bits, write_line, LINE, RAWS};
use reference::reading::units;
use reference::Package;

/// A groove of 20 mm from -9.951 mm to 9.955 mm, as the paper's worked job has
/// it; kind, axis and the four raws are left open.
fn line(letter: char, kind: i64, axis: i64, raws: [&str; 4]) -> String {
    let raws = raws.join(",");
    format!("{letter},{kind},1,{axis},0,200000,0,0,{raws},4,0,2,5,20,100,150,-150,300,1000")
}

const LOW: &str = "c11f374c";
const HIGH: &str = "411f47ae";
const ZERO: &str = "00000000";
const NAN: &str = "7fc00000";

fn groove(raws: [&str; 4]) -> String {
    line('G', 3, 1, raws)
}

/// Both directions of axis 1 with triggers of 500, as in the paper's job.
fn package() -> Package {
    let mut package = Package::fresh();
    job(
        &mut package,
        "C,1,1,0,0,-500,0,1000\nC,1,1,1,0,500,0,1000\n",
    );
    package
}

/// What a line answers after its number: refusal, branch, verdict, D, c.
fn answer(line: &str) -> String {
    let output = job(&mut package(), &format!("{line}\n"));
    output.strip_prefix("1,").unwrap().trim_end().to_owned()
}

fn refused(number: u8) -> String {
    format!("{number},0,0,0,0")
}

#[test]
fn the_worked_job_with_floats() {
    assert_eq!(answer(&groove([LOW, HIGH, ZERO, ZERO])), "0,3,0,60,0");
    // 9.964 mm
    assert_eq!(
        answer(&groove([LOW, "411f6c8b", ZERO, ZERO])),
        "0,5,0,150,150"
    );
    assert_eq!(
        answer(&line('G', 3, 2, [LOW, HIGH, ZERO, ZERO])),
        refused(5)
    );
}

/// Fields that are not eight lower-case hexadecimal digits.
const OTHER_FORMS: [&str; 24] = [
    "",
    "0",
    "-0",
    "0000000",
    "000000000",
    "-0000000",
    "+0000000",
    " 0000000",
    "0000000 ",
    "0x000000",
    "7FC00000",
    "7fC00000",
    "0000000A",
    "0000000F",
    "0000000g",
    "0000000/",
    "0000000:",
    "0000000@",
    "0000000`",
    "0000000G",
    "0000000\r",
    "0000.000",
    "\u{e9}000000",
    "\u{661}000000",
];

#[test]
fn digits() {
    for (field, bits) in [
        ("00000000", 0),
        ("00000001", 1),
        ("80000000", 1 << 31),
        ("12345678", 0x1234_5678),
        ("9abcdef0", 0x9abc_def0),
        ("ffffffff", u32::MAX),
    ] {
        assert_eq!(read_bits(field.as_bytes()), Some(bits), "{field}");
        assert_eq!(format!("{bits:08x}"), field);
    }
    for field in OTHER_FORMS {
        assert_eq!(read_bits(field.as_bytes()), None, "{field:?}");
        // "for used and unused raws alike"
        for place in 0..4 {
            let mut raws = [LOW, HIGH, ZERO, ZERO];
            raws[place] = field;
            assert_eq!(answer(&groove(raws)), refused(10), "{raws:?}");
        }
    }
}

/// The raws of a G line alone are digits of floats.
#[test]
fn other_fields_are_numbers() {
    let sound = groove([LOW, HIGH, ZERO, ZERO]);
    let fields: Vec<&str> = sound.split(',').collect();
    for place in (1..fields.len()).filter(|place| !RAWS.contains(&(place - 1))) {
        let mut changed = fields.clone();
        changed[place] = ZERO;
        assert_eq!(answer(&changed.join(",")), refused(10), "field {place}");
    }
    let shorter = sound.rsplit_once(',').unwrap().0;
    for line in [
        shorter.to_owned(),
        format!("{sound},0"),
        format!("{sound},"),
    ] {
        assert_eq!(answer(&line), refused(10), "{line}");
    }
    // "their lines stay whole"
    for whole in [
        line('T', 3, 1, [LOW, HIGH, ZERO, ZERO]),
        line('T', 3, 1, ["-99510", HIGH, "0", "0"]),
        line('T', 3, 1, ["-99510", "99550", ZERO, "0"]),
        line('G', 3, 1, ["-99510", "99550", "0", "0"]),
        line('g', 3, 1, [LOW, HIGH, ZERO, ZERO]),
        format!("C,1,1,0,0,{ZERO},0,1000"),
        format!("Z,103,1,1,0,200000,0,0,{LOW},{HIGH},{ZERO},{ZERO},1,1000"),
        format!("Z,103,1,1,0,200000,0,0,-99510,99550,{ZERO},0,1,1000"),
    ] {
        assert_eq!(answer(&whole), refused(10), "{whole}");
    }
    // eight digits of either form
    assert_eq!(answer(&groove(["12345678", HIGH, ZERO, ZERO])), refused(7));
    assert_eq!(
        answer(&line('T', 3, 1, ["12345678", "99550", "0", "0"])),
        refused(3)
    );
}

#[test]
fn refusals_in_their_order() {
    let [infinite, beyond] = ["ff800000", "447a0001"];
    for bad in [NAN, infinite, beyond] {
        assert_eq!(answer(&groove([bad, HIGH, ZERO, ZERO])), refused(13));
        assert_eq!(answer(&groove([LOW, bad, ZERO, ZERO])), refused(13));
        // "A raw the kind does not use is only checked for its eight digits."
        assert_eq!(answer(&groove([LOW, HIGH, bad, bad])), "0,3,0,60,0");
    }
    let bad = groove([NAN, HIGH, ZERO, ZERO]);
    // 2 before 13, which stands before 3 (setpoint) and 4 (TZL)
    for (from, to, refusal) in [
        ("G,3,1,1", "G,3,4,1", 2),
        ("G,3,1,1", "G,3,1,3", 2),
        ("G,3,1,1", "G,5,1,1", 2),
        ("G,3,1,1", "G,103,1,1", 2),
        (",4,0,2,5,", ",33,0,2,5,", 2),
        (",4,0,2,5,", ",4,0,21,5,", 2),
        (",200000,", ",0,", 13),
        (",4,0,2,5,", ",4,0,2,0,", 13),
        (",20,100,", ",-1,100,", 13),
        ("G,3,1,1", "G,3,1,2", 13),
    ] {
        assert!(bad.contains(from));
        assert_eq!(answer(&bad.replace(from, to)), refused(refusal), "{to}");
    }
}

/// Zero offset kinds are not of this call, whatever their raws are.
#[test]
fn zero_kinds_are_not_of_this_call() {
    for kind in [100, 101, 102, 103, 104, -1, 5, 6, 105, 99_999_999] {
        for raws in [[LOW, HIGH, ZERO, ZERO], [NAN; 4]] {
            assert_eq!(answer(&line('G', kind, 1, raws)), refused(2), "{kind}");
        }
        assert_eq!(
            answer(&line('G', kind, 1, [LOW, HIGH, ZERO, "7FC00000"])),
            refused(10)
        );
    }
}

/// "At most 200 bytes a line": a G line and its T line each by itself.
#[test]
fn bytes_of_a_line() {
    // numbers of eight digits, some of them with a minus
    let of = |letter: char, raw: &str, negative: usize| {
        let number = |place| {
            if place < negative {
                "-11111111"
            } else {
                "11111111"
            }
        };
        let fields = (0..21).map(|place| match RAWS.contains(&place) {
            true => raw,
            false => number(place),
        });
        let fields: Vec<&str> = fields.collect();
        format!("{letter},{}", fields.join(","))
    };
    for (letter, raw, negative, length, refusal) in [
        ('G', ZERO, 6, 196, 2),
        ('G', ZERO, 14, 200, 2),
        ('G', ZERO, 15, 201, 10),
        ('G', ZERO, 21, 207, 10),
        ('T', "0", 15, 173, 2),
        // -1000 mm
        ('G', "c47a0000", 14, 200, 2),
        ('T', "-10000000", 14, 204, 10),
    ] {
        let line = of(letter, raw, negative);
        assert_eq!(line.len(), length, "{line}");
        assert_eq!(answer(&line), refused(refusal), "{line}");
    }
}

/// The fields of the T line of a G line: "the converted raws, 0 for an unused
/// one"; none where a used float is bad.
fn converted(fields: &[i64]) -> Option<Vec<i64>> {
    let used = match fields[0] {
        0 => 1,
        1 | 2 => 4,
        3 | 4 => 2,
        _ => 0,
    };
    let mut fields = fields.to_vec();
    for (index, place) in RAWS.enumerate() {
        fields[place] = match index < used {
            true => units(fields[place] as u32)?,
            false => 0,
        };
    }
    Some(fields)
}

/// "A G line must answer as the T line with the converted raws, 0 for an unused
/// one, where both keep to 200 bytes."
#[test]
fn a_g_line_answers_as_its_t_line() {
    let (mut compared, mut done) = (0, 0);
    for seed in 0..40 {
        let mut source = CallSource::new(seed);
        let mut package = calibrated();
        for _ in 0..400 {
            let (letter, fields) = source.next_line();
            let float = write_line(letter, &fields);
            let mut other = package.clone();
            let output = job(&mut package, &(float.clone() + "\n"));
            let whole = (letter == 'G').then(|| converted(&fields)).flatten();
            let Some(whole) = whole else { continue };
            let whole = write_line('T', &whole);
            if float.len() <= LINE && whole.len() <= LINE {
                assert_eq!(output, job(&mut other, &(whole + "\n")), "{float}");
                assert_eq!(package, other, "{float}");
                compared += 1;
                done += usize::from(output.starts_with("1,0,"));
            }
        }
    }
    assert!(
        compared > 1_500 && done > 600,
        "{compared} lines, {done} done"
    );
}

/// A G line that is read and written is the same line.
#[test]
fn lines_are_written_as_they_are_read() {
    let mut seen = 0;
    for seed in 0..60 {
        for line in generated_job(seed).split(|&byte| byte == b'\n') {
            let Ok(call) = reference::line::read_line(line) else {
                continue;
            };
            let (letter, fields) = reference::line::fields_of(&call).expect("a line's call");
            assert_eq!(write_line(letter, &fields).as_bytes(), line);
            assert_eq!(call_of(letter, &fields), Some(call));
            seen += usize::from(letter == 'G');
        }
    }
    assert!(seen > 100, "{seen}");
}
