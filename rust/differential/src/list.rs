//! Lists of calls, and a run of one on both sides.

use crate::difference::Difference;
use crate::layout::{self, Area};
use crate::lengths;
use crate::lent;
use crate::odd::odd_area;
use crate::pair::Pair;
use crate::tally::Tally;
use reference::generate::{job, CallSource, Rng};
use reference::reckoning::Reckoning;
use reference::{Call, Fault, Package};

/// How many of a hundred lists begin with an area of any content.
const ODD_PERCENT: usize = 20;
/// One call in so many is also made with slices of wrong lengths.
const LENGTHS_EVERY: usize = 16;
/// One call in so many, if it measures, is also made by the call with readings.
const LENT_EVERY: usize = 4;

/// Calls and what they begin with; `None` is fresh.
#[derive(Clone, Debug)]
pub struct List {
    pub start: Option<Area>,
    pub calls: Vec<Call>,
}

/// Where a list stopped.
#[derive(Clone, Debug)]
pub struct Stop {
    /// How many calls were made, the last one included.
    pub calls: usize,
    pub difference: Difference,
}

impl List {
    /// Random calls of a seed.
    pub fn of_calls(seed: u64, count: usize) -> List {
        let mut rng = Rng::new(seed ^ 0x6361_6c6c);
        let start = rng.chance(ODD_PERCENT).then(|| odd_area(&mut rng));
        let mut source = match &start {
            None => CallSource::new(seed),
            Some(area) => {
                let records = layout::as_read(&layout::records(area));
                CallSource::following(seed, Package::from_records(records))
            }
        };
        let calls = (0..count).map(|_| source.next_call());
        List {
            start,
            calls: calls.collect(),
        }
    }

    /// Jobs of a seed, one after the other on the same records.
    pub fn of_jobs(seed: u64, count: usize) -> List {
        let mut rng = Rng::new(seed ^ 0x6a6f_6273);
        let start = rng.chance(ODD_PERCENT).then(|| odd_area(&mut rng));
        let calls = (0..count).map(|_| {
            let text = job(rng.draw());
            let buffer = output(&mut rng, &text);
            Call::RunJob { text, buffer }
        });
        List {
            start,
            calls: calls.collect(),
        }
    }

    fn pair(&self, fault: Option<Fault>) -> Pair {
        match self.start {
            None => Pair::fresh(fault),
            Some(area) => Pair::of_area(area),
        }
    }

    /// Makes the calls on both sides; the bounds of the exact reckoning are
    /// those of a list from a fresh package.
    pub fn run(&self, fault: Option<Fault>, tally: &mut Tally) -> Result<(), Stop> {
        let mut pair = self.pair(fault);
        let mut reckoning = self.start.is_none().then(Reckoning::fresh);
        for (index, call) in self.calls.iter().enumerate() {
            let stop = |difference| Stop {
                calls: index + 1,
                difference,
            };
            if index % LENGTHS_EVERY == 0 {
                tally.wrong_lengths += wrong_lengths(&pair, call, index).map_err(stop)?;
            }
            if index % LENT_EVERY == 1 {
                let area = pair.package().area();
                tally.lent_otherwise += lent::otherwise(area, call, index as u64).map_err(stop)?;
            }
            let answer = pair.step(call).map_err(stop)?;
            tally.add(call, &answer);
            if let Some(reckoning) = &mut reckoning {
                reckoning.feed(call);
            }
        }
        self.check_end(&pair, reckoning).map_err(|difference| Stop {
            calls: self.calls.len(),
            difference,
        })
    }

    fn check_end(&self, pair: &Pair, reckoning: Option<Reckoning>) -> Result<(), Difference> {
        pair.compare_accessors()?;
        let Some(reckoning) = reckoning else {
            return Ok(());
        };
        let records = layout::records(pair.package().area());
        let breaches = reckoning.breaches(&records);
        match breaches.is_empty() {
            true => Ok(()),
            false => Err(Difference::Bounds(breaches)),
        }
    }
}

/// An output buffer of any content: just long enough, longer, or too short.
fn output(rng: &mut Rng, text: &[u8]) -> Vec<u8> {
    let room = mezhtolik::job_room(text);
    let length = match rng.below(12) {
        0 => room.saturating_sub(1),
        1 => room / 2,
        2 => 0,
        3..=6 => room + rng.below(50),
        _ => room,
    };
    (0..length).map(|_| rng.draw() as u8).collect()
}

/// The call on slices of lengths that depend on its index; how many were tried.
fn wrong_lengths(pair: &Pair, call: &Call, index: usize) -> Result<u64, Difference> {
    let area = pair.package().area();
    let turn = index / LENGTHS_EVERY;
    let length = [0, 1, 136, 138, 274][turn % 5];
    let extra = [-1, 1, isize::MIN, 5][turn % 4];
    lengths::wrong_area(area, call, length)?;
    lengths::wrong_arguments(area, call, extra)?;
    lengths::wrong_floats(area, call, extra)?;
    Ok(3)
}

#[cfg(test)]
mod tests {
    use super::*;
    use reference::reckoning::Breach;

    /// A mean that no call has set lies outside the bounds of a fresh reckoning.
    #[test]
    fn records_outside_the_bounds_are_seen() {
        let mut area = [0; mezhtolik::AREA];
        let list = List {
            start: None,
            calls: Vec::new(),
        };
        let end = |area| list.check_end(&Pair::of_area(area), Some(Reckoning::fresh()));
        assert_eq!(end(area), Ok(()));
        area[41] = 1;
        let breaches = vec![
            Breach::MeanDistance { number: 1 },
            Breach::MeanSpan { number: 1 },
        ];
        assert_eq!(end(area), Err(Difference::Bounds(breaches)));
    }
}
