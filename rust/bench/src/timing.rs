//! Two sides timed in turns.

use std::time::Instant;

/// One thing that the package does and another side too; a round does it
/// `count` times.
pub struct Row<'a> {
    pub name: &'static str,
    pub count: usize,
    pub package: Box<dyn FnMut() + 'a>,
    pub other: Box<dyn FnMut() + 'a>,
}

/// Nanoseconds of one of them, medians over all rounds.
#[derive(Clone, Copy, Debug)]
pub struct Timed {
    pub package: f64,
    pub other: f64,
}

impl Timed {
    /// The package's speed over the other side's.
    pub fn ratio(&self) -> f64 {
        self.other / self.package
    }
}

fn nanoseconds(work: &mut dyn FnMut()) -> f64 {
    let start = Instant::now();
    work();
    start.elapsed().as_nanos() as f64
}

fn median(mut samples: Vec<f64>) -> f64 {
    samples.sort_by(f64::total_cmp);
    samples[samples.len() / 2]
}

/// Times all rows in turns, so that a slow spell of the machine meets both
/// sides; which side is first changes from round to round.
pub fn time(rows: &mut [Row], rounds: usize) -> Vec<Timed> {
    let mut samples = vec![[Vec::new(), Vec::new()]; rows.len()];
    for round in 0..rounds {
        for (row, [package, other]) in rows.iter_mut().zip(&mut samples) {
            let mut sides = [(&mut row.package, package), (&mut row.other, other)];
            if round % 2 == 1 {
                sides.reverse();
            }
            for (work, samples) in sides {
                samples.push(nanoseconds(work) / row.count as f64);
            }
        }
    }
    let medians = samples.into_iter().map(|sides| sides.map(median));
    let timed = medians.map(|[package, other]| Timed { package, other });
    timed.collect()
}
