//! The records of a package by name. Each store is a row of one table: how many records it has, what they are called, how one is read and put.

use mezhtolik::{Calibration, Package, Reading, Refusal, BLOCK, NEGATIVE, POSITIVE};

use crate::units::Unit;
use crate::words;

/// One store. Its records are numbered from 0.
pub struct Store {
    /// The first version of the state file that has it.
    pub since: u32,
    pub records: usize,
    pub unit: Unit,
    pub name: fn(usize) -> String,
    /// The number of a record; none for a direction that is not calibrated.
    pub get: fn(&Package, usize) -> Option<i32>,
    /// Puts a number by a call of the package, which refuses what the record cannot hold.
    pub put: fn(&mut Package, usize, i32) -> Result<(), Refusal>,
    /// What a fresh package has there.
    pub fresh: Option<i32>,
}

/// Every store, in the order of the area and of the state file.
pub const STORES: [Store; 5] = [
    Store {
        since: 1,
        records: 18,
        unit: Unit::U,
        name: |n| Direction::of(n).name(),
        get: |package, n| Direction::of(n).trigger(package),
        put: |package, n, trigger| Direction::of(n).put(package, trigger),
        fresh: None,
    },
    Store {
        since: 1,
        records: 20,
        unit: Unit::U,
        name: |n| format!("empirical value {}", n + 1),
        get: |package, n| package.empirical(n + 1).map(i32::from),
        put: |package, n, value| package.set_empirical(n as i64 + 1, value.into()),
        fresh: Some(0),
    },
    Store {
        since: 1,
        records: 20,
        unit: Unit::U,
        name: |n| format!("mean value {}", n + 1),
        get: |package, n| package.mean(n + 1).map(i32::from),
        put: put_mean,
        fresh: Some(0),
    },
    Store {
        since: 1,
        records: 64,
        unit: Unit::H,
        name: |n| format!("tool {} {} wear", n / 2 + 1, ["radius", "length"][n % 2]),
        get: |package, n| wears(package, n / 2).map(|wears| wears[n % 2]),
        put: put_wear,
        fresh: Some(0),
    },
    Store {
        since: 1,
        records: 12,
        unit: Unit::H,
        name: |n| format!("zero offset {} {}", n / 3 + 1, words::AXES[n % 3]),
        get: |package, n| package.offset(n / 3 + 1).map(|axes| axes[n % 3]),
        put: put_offset,
        fresh: Some(0),
    },
];

/// Each record of some stores: its store, and its number there.
pub fn each(stores: &[Store]) -> impl Iterator<Item = (&Store, usize)> {
    stores
        .iter()
        .flat_map(|store| (0..store.records).map(move |n| (store, n)))
}

/// Every record that is not as a fresh package has it, a line each.
pub fn listed(package: &Package) -> String {
    let lines = each(&STORES).filter_map(|(store, n)| {
        let number = (store.get)(package, n)?;
        let (letter, micrometres) = (store.unit.letter(), store.unit.micrometres(number));
        (store.fresh != Some(number))
            .then(|| format!("{}: {number} {letter}, {micrometres}\n", (store.name)(n)))
    });
    lines.collect()
}

/// One direction of a probe, the place of a trigger.
struct Direction {
    probe: usize,
    axis: usize,
    direction: i64,
}

impl Direction {
    fn of(n: usize) -> Direction {
        Direction {
            probe: n / 6 + 1,
            axis: n % 6 / 2 + 1,
            direction: [NEGATIVE, POSITIVE][n % 2],
        }
    }

    fn name(&self) -> String {
        let (axis, direction) = (
            words::AXES[self.axis - 1],
            words::DIRECTIONS[self.direction as usize],
        );
        format!("probe {} {axis} {direction} trigger", self.probe)
    }

    fn trigger(&self, package: &Package) -> Option<i32> {
        let bit = 2 * (self.axis - 1) + usize::from(self.direction == POSITIVE);
        let calibrated = package.status(self.probe)? >> bit & 1 == 1;
        package
            .trigger(self.probe, self.axis, self.direction)
            .filter(|_| calibrated)
    }

    /// A calibration on the position that gives this trigger, with limits that keep none back.
    fn put(&self, package: &mut Package, trigger: i32) -> Result<(), Refusal> {
        let setpoint = if self.direction == POSITIVE {
            trigger.into()
        } else {
            -i64::from(trigger)
        };
        package.calibrate(&Calibration {
            probe: self.probe as i64,
            axis: self.axis as i64,
            direction: self.direction,
            setpoint,
            raw: Reading::Whole(0),
            tzl: 0,
            tsa: 1_000_000,
        })
    }
}

/// Means are put by the memory block alone: all of them are loaded again with this one changed.
fn put_mean(package: &mut Package, n: usize, value: i32) -> Result<(), Refusal> {
    let value = i16::try_from(value).map_err(|_| Refusal::OutsideRange)?;
    let mut block = [0; BLOCK];
    package.save(&mut block)?;
    let place = BLOCK / 2 + 2 * n;
    block[place..place + 2].copy_from_slice(&value.to_le_bytes());
    package.load(&block)
}

/// Both wears of a tool, radius and length.
fn wears(package: &Package, tool: usize) -> Option<[i32; 2]> {
    package
        .wear(tool + 1)
        .map(|wear| [wear.radius, wear.length])
}

fn put_wear(package: &mut Package, n: usize, value: i32) -> Result<(), Refusal> {
    let mut both = wears(package, n / 2)
        .ok_or(Refusal::NoSuchNumber)?
        .map(i64::from);
    both[n % 2] = value.into();
    package.set_wear(n as i64 / 2 + 1, both[0], both[1])
}

fn put_offset(package: &mut Package, n: usize, value: i32) -> Result<(), Refusal> {
    let mut axes = package
        .offset(n / 3 + 1)
        .ok_or(Refusal::NoSuchNumber)?
        .map(i64::from);
    axes[n % 3] = value.into();
    package.set_offset(n as i64 / 3 + 1, axes)
}
