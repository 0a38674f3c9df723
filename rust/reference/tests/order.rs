//! "A call returns the first number that applies in the order given".

mod common;

use common::{at, call, with, CALIBRATION, GROOVE, ZERO_GROOVE};
use reference::line::call_of;
use reference::{Answer, Call, Package, Records, Refusal};

/// A call and the records it meets, both of which a test may break.
struct Trial {
    records: Records,
    fields: Vec<i64>,
    array: usize,
}

type Break = (u8, fn(&mut Trial));

impl Trial {
    fn answer(&self, letter: char) -> Answer {
        let mut made = call_of(letter, &self.fields).unwrap();
        if let Call::MeasureTool { array, .. } | Call::MeasureZero { array, .. } = &mut made {
            *array = vec![-1; self.array];
        }
        Package::from_records(self.records.clone()).apply(&made)
    }
}

/// Each break alone gives its number, any two the one that stands first.
fn check_order(letter: char, sound: impl Fn() -> Trial, breaks: &[Break]) {
    assert_eq!(sound().answer(letter).refusal, 0, "nothing broken");
    for (place, (first, break_first)) in breaks.iter().enumerate() {
        for (second, break_second) in &breaks[place..] {
            let mut trial = sound();
            break_first(&mut trial);
            break_second(&mut trial);
            let refusal = trial.answer(letter).refusal;
            assert_eq!(refusal, *first, "{letter}: {first} before {second}");
            let mut trial = sound();
            break_second(&mut trial);
            assert_eq!(trial.answer(letter).refusal, *second, "{letter} alone");
        }
    }
}

fn calibrated() -> Records {
    Records {
        status: [0x3f; 3],
        ..Records::fresh()
    }
}

#[test]
fn tool_measurement() {
    // D = -1000, branch 5, at TDIF and TSA
    let sound = || Trial {
        records: calibrated(),
        fields: with(GROOVE, &[(at::SETPOINT, 2000), (at::TDIF, 1000)]).to_vec(),
        array: 42,
    };
    let breaks: [Break; 9] = [
        (1, |trial| trial.array = 41),
        (2, |trial| trial.fields[at::PROBE] = 0),
        (3, |trial| trial.fields[at::K] = 0),
        (4, |trial| trial.fields[at::TZL] = -1),
        (5, |trial| trial.records.status[0] &= 0b111110),
        (6, |trial| trial.fields[at::R1] = 1000),
        (7, |trial| trial.fields[at::TDIF..].fill(999)),
        (8, |trial| trial.fields[at::TDIF] = 998),
        (9, |trial| trial.records.wears[3].radius = -1_999_001),
    ];
    check_order('T', sound, &breaks);
}

#[test]
fn zero_measurement() {
    // a hole, off by 2000 h on both axes
    let raws = [(at::R2, 3000), (at::R4, 3000), (at::C2, 500)];
    let sound = || Trial {
        records: calibrated(),
        fields: with(with(ZERO_GROOVE, &raws), &[(at::KIND, 101)]).to_vec(),
        array: 42,
    };
    let breaks: [Break; 8] = [
        (1, |trial| trial.array = 0),
        (2, |trial| trial.fields[at::OFFSET] = 5),
        (3, |trial| trial.fields[at::SETPOINT] = 0),
        (4, |trial| trial.fields[at::ZERO_TSA] = -1),
        (5, |trial| trial.records.status[0] = 0b110111),
        (6, |trial| trial.fields[at::R3] = 3000),
        (7, |trial| {
            let tsa = &mut trial.fields[at::ZERO_TSA];
            *tsa = (*tsa).min(999)
        }),
        (9, |trial| trial.records.offsets[1][0] = 19_999_000),
    ];
    check_order('Z', sound, &breaks);
}

#[test]
fn calibration() {
    let sound = || Trial {
        records: Records::fresh(),
        fields: with(CALIBRATION, &[(4, -99_000), (6, 100_000)]).to_vec(),
        array: 0,
    };
    let breaks: [Break; 5] = [
        (2, |trial| trial.fields[2] = 2),
        (3, |trial| trial.fields[3] = 10_000_001),
        (3, |trial| trial.fields[5] = -1),
        (7, |trial| {
            let tsa = &mut trial.fields[6];
            *tsa = (*tsa).min(99_999)
        }),
        (9, |trial| {
            trial.fields[4] -= 1;
            trial.fields[6] = trial.fields[6].min(100_000) + 1;
        }),
    ];
    // 7 and 9 both speak of t; 7 is broken by one unit less than 9 needs
    check_order('C', sound, &breaks[..4]);
    let mut trial = sound();
    (breaks[4].1)(&mut trial);
    assert_eq!(trial.answer('C').refusal, 9);
    trial.fields[6] = 100_000;
    assert_eq!(trial.answer('C').refusal, 7);
}

#[test]
fn settings() {
    let sound = |fields: &[i64]| {
        let fields = fields.to_vec();
        move || Trial {
            records: Records::fresh(),
            fields: fields.clone(),
            array: 0,
        }
    };
    let breaks: [Break; 2] = [
        (2, |trial| trial.fields[0] = 0),
        (3, |trial| *trial.fields.last_mut().unwrap() = 99_999_999),
    ];
    check_order('E', sound(&[1, 0]), &breaks);
    check_order('W', sound(&[1, 0, 0]), &breaks);
    check_order('O', sound(&[1, 0, 0, 0]), &breaks);
}

#[test]
fn job() {
    let run = |text: &[u8], room: usize| Package::fresh().run_job(text, &mut vec![0; room]);
    assert_eq!(run(b"", 0), Err(Refusal::EmptyJob));
    assert_eq!(run(b"E,1,1", 0), Err(Refusal::JobForm));
    assert_eq!(run(b"E,1,1", 40), Err(Refusal::JobForm));
    assert_eq!(run(b"E,1,1\n", 39), Err(Refusal::Room));
    assert_eq!(run(b"E,1,1\n", 40), Ok(12));
    assert_eq!(run(&b"\n".repeat(1001), 0), Err(Refusal::JobForm));
    assert_eq!(run(&b"\n".repeat(1000), 0), Err(Refusal::Room));
}

#[test]
fn refused_calls_change_no_record() {
    let mut package = Package::from_records(calibrated());
    package.set_wear(4, 2_000_000, -2_000_000).unwrap();
    package.set_offset(2, [20_000_000; 3]).unwrap();
    let before = package.clone();
    let lines: [(char, Vec<i64>, u8); 6] = [
        ('T', with(GROOVE, &[(at::R2, 1101)]).to_vec(), 9),
        ('T', with(GROOVE, &[(at::R2, 1301)]).to_vec(), 8),
        ('T', with(GROOVE, &[(at::R2, 3001)]).to_vec(), 7),
        ('T', with(GROOVE, &[(at::R2, -1)]).to_vec(), 6),
        ('Z', with(ZERO_GROOVE, &[(at::R2, 1001)]).to_vec(), 9),
        ('C', with(CALIBRATION, &[(6, 299)]).to_vec(), 7),
    ];
    for (letter, fields, refusal) in lines {
        assert_eq!(call(&mut package, letter, &fields).refusal, refusal);
        assert_eq!(package, before, "{letter} {fields:?}");
    }
}
