//! The memory block, and records of any content.

mod common;

use common::{at, call, with, CALIBRATION, GROOVE};
use reference::generate::{CallSource, Rng};
use reference::{Package, ProbeStatus, Records, Refusal, BLOCK};

#[test]
fn block_is_signed_and_low_byte_first() {
    let mut block = [0; BLOCK];
    block[..2].copy_from_slice(&[0xfd, 0xff]);
    block[38..42].copy_from_slice(&[0x00, 0x80, 0xff, 0x7f]);
    block[78..].copy_from_slice(&[0x02, 0x01]);
    let mut package = Package::fresh();
    assert_eq!(package.load(&block), Ok(()));
    let records = package.records();
    assert_eq!((records.ev[0], records.ev[19]), (-3, -32_768));
    assert_eq!((records.mv[0], records.mv[19]), (32_767, 258));
    let mut saved = [0x55; BLOCK + 3];
    assert_eq!(package.save(&mut saved), Ok(()));
    assert_eq!(saved[..BLOCK], block);
    assert_eq!(saved[BLOCK..], [0x55; 3]);
}

#[test]
fn every_block_comes_back() {
    let mut rng = Rng::new(5);
    for _ in 0..500 {
        let block: Vec<u8> = (0..BLOCK).map(|_| rng.draw() as u8).collect();
        let mut package = Package::fresh();
        package.load(&block).unwrap();
        let mut saved = vec![0; BLOCK];
        package.save(&mut saved).unwrap();
        assert_eq!(saved, block);
    }
}

#[test]
fn lengths_of_a_block() {
    for (length, loads, saves) in [
        (0, false, false),
        (79, false, false),
        (80, true, true),
        (81, false, true),
    ] {
        let mut package = Package::fresh();
        package.set_empirical(1, 9).unwrap();
        let mut buffer = vec![7; length];
        let expected = |done| if done { Ok(()) } else { Err(Refusal::Room) };
        assert_eq!(package.save(&mut buffer), expected(saves), "{length}");
        assert_eq!(buffer.iter().all(|&byte| byte == 7), !saves);
        assert_eq!(package.load(&vec![1; length]), expected(loads), "{length}");
        assert_eq!(package.records().ev[0], if loads { 257 } else { 9 });
    }
}

/// Records that no list of calls leaves.
fn odd_records() -> Package {
    Package::from_records(Records {
        triggers: [[i32::MIN, i32::MAX, 100_001, -100_001, 0, 0]; 3],
        status: [0xff, 0xc0, 0xc1],
        ..Records::fresh()
    })
}

#[test]
fn odd_status_is_read_as_its_six_low_bits() {
    let package = odd_records();
    let full = ProbeStatus { bits: 63, count: 6 };
    assert_eq!(package.status(1), Ok(full));
    assert_eq!(package.status(2), Ok(ProbeStatus::default()));
    assert_eq!(package.status(3), Ok(ProbeStatus { bits: 1, count: 1 }));
    assert_eq!(package.records().status, [0xff, 0xc0, 0xc1]);
}

#[test]
fn odd_triggers_are_read_as_the_nearest_value() {
    let mut package = odd_records();
    // axis 1: low touched with -100000, high with 100000: both surfaces are 100000 up
    let answer = call(&mut package, 'T', &GROOVE);
    assert_eq!((answer.refusal, answer.array[5]), (0, 201_000));
    // axis 2: low touched with 100000, high with -100000: both are 100000 down
    let answer = call(&mut package, 'T', &with(GROOVE, &[(at::AXIS, 2)]));
    assert_eq!((answer.refusal, answer.array[6]), (0, -199_000));
    assert_eq!(package.records().triggers, odd_records().records().triggers);
}

#[test]
fn calibration_of_odd_records() {
    // t = 99990 on axis 1 positive, stored i32::MAX counts as 100000
    let near = with(CALIBRATION, &[(3, 100_000), (4, 10), (6, 10)]);
    let mut package = odd_records();
    let kept = with(near, &[(0, 2)]);
    assert_eq!(call(&mut package, 'C', &kept).refusal, 0);
    assert_eq!(package.records().triggers[1][1], i32::MAX, "not replaced");
    assert_eq!(package.records().status[1], 0b10);
    let stored = with(near, &[(0, 3), (5, 9)]);
    assert_eq!(call(&mut package, 'C', &stored).refusal, 0);
    assert_eq!(package.records().triggers[2][1], 99_990);
    assert_eq!(package.records().status[2], 0b11);
    let refused = with(near, &[(4, 11)]);
    assert_eq!(call(&mut package, 'C', &refused).refusal, 7);
    assert_eq!(package.records().status[0], 0xff);
}

/// Records with any triggers and status, and the same as they are read.
fn odd_and_read(rng: &mut Rng) -> (Package, Package) {
    let mut odd = Records::fresh();
    let mut read = Records::fresh();
    for probe in 0..3 {
        odd.status[probe] = rng.draw() as u8 | rng.draw() as u8;
        read.status[probe] = odd.status(probe);
        for place in 0..6 {
            odd.triggers[probe][place] = (rng.draw() as i32) >> rng.below(32);
            read.triggers[probe][place] = odd.trigger(probe, place) as i32;
        }
    }
    (Package::from_records(odd), Package::from_records(read))
}

#[test]
fn odd_records_answer_as_what_they_are_read_as() {
    let mut rng = Rng::new(6);
    let mut differing = 0;
    for seed in 0..40 {
        let (mut odd, mut read) = odd_and_read(&mut rng);
        let mut source = CallSource::new(seed);
        for _ in 0..300 {
            let call = source.next_call();
            differing += usize::from(odd != read);
            assert_eq!(odd.apply(&call), read.apply(&call), "{call:?}");
            for probe in 0..3 {
                let trigger = |package: &Package, place| package.records().trigger(probe, place);
                assert!((0..6).all(|place| trigger(&odd, place) == trigger(&read, place)));
                let bits = |package: &Package| package.records().status(probe);
                assert_eq!(bits(&odd), bits(&read));
            }
        }
    }
    assert!(differing > 1_000, "the records were hardly odd");
}
