//! Jobs: limits of the whole, the form of lines and fields, the output.

mod common;

use common::job;
use reference::job::{fresh_job, job_lines};
use reference::line::read_number;
use reference::{Package, Refusal};

/// The refusal of a job's only line.
fn line_refusal(line: &str) -> u8 {
    let output = job(&mut common::calibrated(), &format!("{line}\n"));
    output.split(',').nth(1).unwrap().parse().unwrap()
}

#[test]
fn fields() {
    for (field, value) in [
        ("0", 0),
        ("7", 7),
        ("-7", -7),
        ("10", 10),
        ("12345678", 12_345_678),
        ("99999999", 99_999_999),
        ("-99999999", -99_999_999),
    ] {
        assert_eq!(read_number(field.as_bytes()), Some(value), "{field}");
    }
    for field in [
        "",
        "-",
        "-0",
        "00",
        "01",
        "-01",
        "+1",
        " 1",
        "1 ",
        "1\r",
        "1.0",
        "1e1",
        "--1",
        "1-",
        "123456789",
        "-123456789",
        "000000000",
        "a",
        "\u{0661}",
        "0x1",
        "1_0",
        "\0",
    ] {
        assert_eq!(read_number(field.as_bytes()), None, "{field:?}");
    }
}

#[test]
fn letters_and_numbers_of_fields() {
    let sound = [
        "E,1,5",
        "W,1,5,6",
        "O,1,5,6,7",
        "C,1,1,0,0,0,0,0",
        "T,3,1,1,0,1000,0,0,0,1000,0,0,4,0,2,5,20,100,150,-150,300,1000",
        "Z,103,1,1,0,1000,500,0,0,1000,0,0,2,1000",
    ];
    for line in sound {
        assert_eq!(line_refusal(line), 0, "{line}");
        let (letter, fields) = line.split_at(1);
        let shorter = line.rsplit_once(',').unwrap().0;
        let damaged = [
            format!("{line},0"),
            format!("{line},"),
            format!("{line}\r"),
            format!(" {line}"),
            format!("{line} "),
            format!(",{line}"),
            shorter.to_owned(),
            format!("{shorter},"),
            format!("{shorter},00"),
            format!("{shorter},-0"),
            format!("{shorter},123456789"),
            letter.to_owned(),
            fields.to_owned(),
            format!("{letter}{line}"),
            format!("{}{fields}", letter.to_lowercase()),
            format!("G{fields}"),
            line.replace(',', ";"),
        ];
        for damaged in damaged {
            assert_eq!(line_refusal(&damaged), 10, "{damaged}");
        }
    }
    assert_eq!(line_refusal(""), 10);
}

#[test]
fn unused_fields_are_read_as_numbers() {
    let plane = |c1| format!("T,0,1,1,0,1000,{c1},0,1000,0,0,0,4,0,2,5,20,100,150,-150,300,1000");
    assert_eq!(line_refusal(&plane("99999999")), 0);
    assert_eq!(line_refusal(&plane("-99999999")), 0);
    for field in ["", "-0", "007", "100000000", "x"] {
        assert_eq!(line_refusal(&plane(field)), 10, "{field}");
    }
    // a kind not of this call is 2 whatever the rest holds, but not whatever its form
    assert_eq!(line_refusal(&plane("5").replace("T,0", "T,100")), 2);
    assert_eq!(line_refusal(&plane("05").replace("T,0", "T,100")), 10);
}

#[test]
fn bytes_of_a_line() {
    // 211 bytes are the longest well-formed line; its kind is refused by 2
    let widths = |length: usize| {
        let mut left = length - 22 - 21;
        let field = |_| {
            let more = left.min(8);
            left -= more;
            let digits = "1".repeat(more.min(7) + 1);
            format!(",{}{digits}", if more == 8 { "-" } else { "" })
        };
        format!("T{}", (0..21).map(field).collect::<String>())
    };
    for (length, refusal) in [(199, 2), (200, 2), (201, 10), (211, 10)] {
        let line = widths(length);
        assert_eq!(line.len(), length);
        assert_eq!(line_refusal(&line), refusal, "{length} bytes");
    }
}

#[test]
fn limits_of_a_job() {
    let lines = |count: usize| "E,1,1\n".repeat(count).into_bytes();
    assert_eq!(job_lines(&lines(1000)).unwrap().len(), 1000);
    assert_eq!(job_lines(&lines(1001)), Err(Refusal::JobForm));
    assert_eq!(job_lines(b""), Err(Refusal::EmptyJob));
    assert_eq!(job_lines(b"\n").unwrap(), [b""]);
    assert_eq!(job_lines(b"E,1,1\nE,1,1"), Err(Refusal::JobForm));
    let bytes = |length: usize| [vec![b'0'; length - 1], vec![b'\n']].concat();
    assert_eq!(fresh_job(&bytes(65_536)).unwrap(), b"1,10,0,0,0,0\n");
    assert_eq!(fresh_job(&bytes(65_537)), Err(Refusal::JobForm));
}

#[test]
fn output_is_written_and_the_rest_stays() {
    let text = b"E,1,5\nx\nE,21,5\n";
    let written = b"1,0,0,0,0,0\n2,10,0,0,0,0\n3,2,0,0,0,0\n";
    for (room, refusal) in [(119, Some(Refusal::Room)), (120, None), (130, None)] {
        let mut package = Package::fresh();
        let mut output = vec![b'~'; room];
        let result = package.run_job(text, &mut output);
        let length = if refusal.is_none() { written.len() } else { 0 };
        assert_eq!(result.err(), refusal);
        assert_eq!(result.unwrap_or(0), length);
        assert_eq!(output[..length], written[..length]);
        assert!(output[length..].iter().all(|&byte| byte == b'~'));
        assert_eq!(package.records().ev[0] == 5, refusal.is_none());
    }
}

#[test]
fn a_job_goes_on_from_the_present_records() {
    let mut package = Package::fresh();
    package.set_empirical(1, 30).unwrap();
    let text = "C,1,1,0,0,0,0,0\nT,0,1,1,0,0,0,0,10,0,0,0,1,1,0,1,5,50,19,-19,60,70\n";
    assert_eq!(job(&mut package, text), "1,0,0,0,0,0\n2,0,2,2,-20,-20\n");
    package.set_empirical(1, -10).unwrap();
    assert_eq!(job(&mut package, text), "1,0,0,0,0,0\n2,0,2,1,20,20\n");
}
