//! Random calls: mostly sensible ones, some at the boundaries, some wild.

use super::jobs;
use super::measurements::{tool_measurement, zero_measurement};
use super::readings::{as_floats, edge_bits, mix, next_bits};
use super::rng::Rng;
use super::values::{boundary, store_number, wild};
use crate::calibration::Calibration;
use crate::calls::Call;
use crate::direction::{trigger_index, Direction};
use crate::line::{call_of, fields_of, is_float};
use crate::package::{Package, BLOCK};
use crate::ranges::{MEANS, OFFSETS, TOOLS, TRIGGER};
use crate::reading::Reading;
use crate::result_array::RESULT;

/// A source of random calls. It follows the records with a package of its own,
/// so that its measurements come near the limits; the calls depend on the seed
/// alone.
#[derive(Clone, Debug)]
pub struct CallSource {
    rng: Rng,
    package: Package,
}

impl CallSource {
    pub fn new(seed: u64) -> Self {
        CallSource::following(seed, Package::fresh())
    }

    /// A source whose first call meets the records of this package.
    pub fn following(seed: u64, package: Package) -> Self {
        CallSource {
            rng: Rng::new(seed),
            package,
        }
    }

    /// The next call of any sort.
    pub fn next_call(&mut self) -> Call {
        let call = match self.rng.below(100) {
            0..=2 => self.status(),
            3..=6 => self.load(),
            7..=8 => self.save(),
            9..=10 => self.job(),
            _ => {
                let (letter, mut fields) = self.sensible_line();
                self.disturb(letter, &mut fields, wild);
                let mut call = call_of(letter, &fields).expect("fields of a call");
                mix(&mut self.rng, &mut call);
                self.with_array(call)
            }
        };
        self.package.apply(&call);
        call
    }

    /// The next line of a job as letter and fields.
    pub fn next_line(&mut self) -> (char, Vec<i64>) {
        let (letter, mut fields) = self.sensible_line();
        let worse = |rng: &mut Rng| wild(rng).clamp(-99_999_999, 99_999_999);
        self.disturb(letter, &mut fields, worse);
        self.follow(letter, &fields);
        (letter, fields)
    }

    /// Follows a line that came from elsewhere.
    pub fn follow(&mut self, letter: char, fields: &[i64]) {
        if let Some(call) = call_of(letter, fields) {
            self.package.apply(&call);
        }
    }

    /// The source's random numbers.
    pub fn rng(&mut self) -> &mut Rng {
        &mut self.rng
    }

    fn sensible_line(&mut self) -> (char, Vec<i64>) {
        let missing = self.package.records().status[0] != 0x3f;
        let weights = match missing {
            true => [1, 1, 1, 12, 2, 1],
            false => [5, 8, 8, 10, 45, 24],
        };
        let call = match self.rng.weighted(&weights) {
            0 => self.empirical(),
            1 => self.wear(),
            2 => self.offset(),
            3 => self.calibration(missing),
            4 => self.tool_call(),
            _ => Call::MeasureZero {
                measurement: zero_measurement(&mut self.rng, &self.package),
                array: Vec::new(),
                place: 0,
            },
        };
        fields_of(&call).expect("a line holds this call")
    }

    /// The measurement of a T line or of a G line.
    fn tool_call(&mut self) -> Call {
        let mut measurement = tool_measurement(&mut self.rng, &self.package);
        if self.rng.chance(35) {
            as_floats(&mut self.rng, &mut measurement.feature);
        }
        Call::MeasureTool {
            measurement,
            array: Vec::new(),
            place: 0,
        }
    }

    /// Sometimes replaces one to three fields by boundaries or worse.
    fn disturb(&mut self, letter: char, fields: &mut [i64], worse: impl Fn(&mut Rng) -> i64) {
        let rng = &mut self.rng;
        for _ in 0..[0, 1, 2, 3][rng.weighted(&[80, 15, 3, 2])] {
            let place = rng.below(fields.len());
            fields[place] = match rng.below(6) {
                0..=2 if is_float(letter, place) => next_bits(rng, fields[place] as u32).into(),
                _ if is_float(letter, place) => edge_bits(rng).into(),
                0 => worse(rng),
                1 => fields[place].saturating_neg(),
                2 => fields[place].saturating_add(rng.pick(&[-1, 1])),
                _ => boundary(rng),
            };
        }
    }

    fn empirical(&mut self) -> Call {
        let value = match self.rng.below(6) {
            0 => self.rng.near(&[-32_768, 32_767]),
            _ => self.rng.between(-60, 60),
        };
        Call::SetEmpirical {
            number: store_number(&mut self.rng, MEANS as i64),
            value,
        }
    }

    /// A value that often stands at the end of its range, or a small one.
    fn stored_value(&mut self, limit: i64) -> i64 {
        let value = match self.rng.below(3) {
            0 => limit - self.rng.between(0, 40),
            1 => self.rng.between(0, limit),
            _ => self.rng.between(0, 500),
        };
        self.rng.signed(value)
    }

    fn wear(&mut self) -> Call {
        Call::SetWear {
            tool: store_number(&mut self.rng, TOOLS as i64),
            radius: self.stored_value(2_000_000),
            length: self.stored_value(2_000_000),
        }
    }

    fn offset(&mut self) -> Call {
        Call::SetOffset {
            offset: store_number(&mut self.rng, OFFSETS as i64),
            values: [(); 3].map(|()| self.stored_value(20_000_000)),
        }
    }

    /// A calibration whose change comes near its limits; at first one of a
    /// direction of probe 1 that is not yet calibrated.
    fn calibration(&mut self, missing: bool) -> Call {
        let rng = &mut self.rng;
        let (probe, axis, direction) = match missing {
            true => {
                let place = (!self.package.records().status[0]).trailing_zeros() as i64;
                (1, 1 + place / 2, 1 - place % 2)
            }
            false => (
                rng.pick(&[1, 2, 2, 3]),
                rng.between(1, 3),
                rng.between(0, 1),
            ),
        };
        let way = Direction::from_number(direction).unwrap_or(Direction::Positive);
        let place = trigger_index(axis as usize - 1, way);
        let stored = self.package.records().trigger(probe as usize - 1, place);
        let tzl = rng.pick(&[0, 0, 5, 40]);
        let tsa = tzl + rng.pick(&[0, 10, 1_000, 40_000]);
        let change = match rng.below(3) {
            0 => rng.near(&[0, tzl, tsa]),
            _ => rng.between(0, tsa),
        };
        let trigger = match rng.below(12) {
            0 => rng.near(&[TRIGGER, -TRIGGER]),
            _ => stored + rng.signed(change),
        };
        let setpoint = rng.pick(&[0, 200_000, -1_551_230, 9_900_000]);
        Call::Calibrate(Calibration {
            probe,
            axis,
            direction,
            setpoint,
            raw: Reading::Whole(setpoint - way.sign() * trigger),
            tzl,
            tsa: if rng.chance(10) { 1_000_000 } else { tsa },
        })
    }

    fn status(&mut self) -> Call {
        let probe = match self.rng.below(5) {
            0 => wild(&mut self.rng),
            1 => self.rng.between(-1, 5),
            _ => self.rng.between(1, 3),
        };
        Call::Status { probe }
    }

    fn bytes(&mut self, length: usize) -> Vec<u8> {
        (0..length).map(|_| self.rng.draw() as u8).collect()
    }

    /// A block of small numbers, or of any bytes, or one of a wrong length.
    fn load(&mut self) -> Call {
        let mut block = match self.rng.below(3) {
            0 => self.bytes(BLOCK),
            _ => {
                let value = |rng: &mut Rng| rng.between(-50, 50) as i16;
                let numbers = (0..BLOCK / 2).map(|_| value(&mut self.rng));
                numbers.flat_map(i16::to_le_bytes).collect()
            }
        };
        if self.rng.chance(25) {
            block.resize(self.rng.pick(&[0, 1, 79, 81, 160]), 0xfd);
        }
        Call::Load { block }
    }

    fn save(&mut self) -> Call {
        let length = self.rng.pick(&[0, 1, 79, 80, 80, 81, 100]);
        let buffer = self.bytes(length);
        Call::Save { buffer }
    }

    fn job(&mut self) -> Call {
        let text = jobs::small_job(self.rng.draw());
        let lines = text.iter().filter(|&&byte| byte == b'\n').count();
        let room =
            (40 * lines + self.rng.pick(&[0, 0, 7, 40])).saturating_sub(self.rng.pick(&[0, 0, 1]));
        let buffer = self.bytes(room);
        Call::RunJob { text, buffer }
    }

    /// Lends a measurement an array of any content; sometimes it is too short.
    fn with_array(&mut self, mut call: Call) -> Call {
        if let Call::MeasureTool { array, place, .. } | Call::MeasureZero { array, place, .. } =
            &mut call
        {
            let rng = &mut self.rng;
            *place = rng.pick(&[0, 0, 1, 7]);
            let length = *place + RESULT + rng.pick(&[0, 0, 1, 9]);
            *array = (0..length).map(|_| rng.draw() as i32).collect();
            match rng.below(40) {
                0 => array.truncate(*place + RESULT - 1),
                1 => *place = rng.pick(&[length, length + 1, usize::MAX, usize::MAX - 41]),
                2 => *place = length - RESULT + 1,
                3 => array.clear(),
                _ => {}
            }
        }
        call
    }
}
