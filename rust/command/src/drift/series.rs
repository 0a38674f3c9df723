//! A job run line by line: the records that the package stores after each part, beside those of the exact reckoning, which is fed the same calls.

use std::collections::BTreeMap;

use mezhtolik::{job_room, Branch, Package, Refusal};
use reference::line::read_line;
use reference::ranges::MEANS;
use reference::reckoning::Reckoning;
use reference::{Call, ToolMeasurement};

use super::record::Record;
use crate::answers::{self, Answer};

/// Branches that correct: by the deviation where no mean is named, by the mean, by a deviation beyond TMV.
pub const BY_DEVIATION: u32 = Branch::Deviation.number();
pub const BY_MEAN: u32 = Branch::MeanCorrection.number();
pub const IN_FULL: u32 = Branch::Full.number();

/// A measurement with tool offset that was done.
#[derive(Clone, Debug)]
pub struct Part {
    pub line: usize,
    pub measurement: ToolMeasurement,
    pub answer: Answer,
    /// The mean that the part led to: the one that was kept, or the one that corrected. None with mean number 0.
    pub mean: Option<Record>,
    /// Radius and length wear of the part's tool afterwards.
    pub wears: [Record; 2],
    /// Which of the two the part corrected.
    pub corrected: Option<usize>,
}

/// A measurement that was refused, behind so many parts.
#[derive(Clone, Copy, Debug)]
pub struct Refused {
    pub line: usize,
    pub refusal: u32,
    pub behind: usize,
}

/// Both wears of a tool set by a W line, behind so many parts.
#[derive(Clone, Copy, Debug)]
pub struct WearsSet {
    pub tool: i64,
    pub values: [i64; 2],
    pub behind: usize,
}

/// The measurements of a job that name one mean.
#[derive(Clone, Debug)]
pub struct Series {
    /// The mean's number; 0 for the measurements that name none.
    pub mean: i64,
    pub parts: Vec<Part>,
    pub refused: Vec<Refused>,
    pub wears_set: Vec<WearsSet>,
}

impl Part {
    /// The records that the part led to.
    pub fn records(&self) -> impl Iterator<Item = &Record> {
        self.mean.iter().chain(&self.wears)
    }

    /// How many of them lie outside their bound.
    pub fn outside(&self) -> usize {
        self.records()
            .filter(|record| !record.is_within_bound())
            .count()
    }
}

impl Series {
    fn new(mean: i64) -> Self {
        Series {
            mean,
            parts: Vec::new(),
            refused: Vec::new(),
            wears_set: Vec::new(),
        }
    }

    /// How many records lie outside their bound.
    pub fn outside(&self) -> usize {
        self.parts.iter().map(Part::outside).sum()
    }

    /// How many parts were corrected.
    pub fn corrections(&self) -> usize {
        self.parts
            .iter()
            .filter(|part| part.answer.correction != 0)
            .count()
    }
}

/// The package and the reckoning, and the series so far, in the order of the means' numbers.
struct Bench {
    package: Package,
    reckoning: Reckoning,
    series: Vec<Series>,
}

/// The series of a job from a fresh package, by the number of their mean. A mean that no part names has none.
pub fn of_job(job: &[u8]) -> Result<BTreeMap<i64, Series>, Refusal> {
    Package::fresh().run_job(job, &mut vec![0; job_room(job)])?;
    let mut bench = Bench::fresh();
    for (index, line) in job.split_inclusive(|&byte| byte == b'\n').enumerate() {
        bench.run(index + 1, line);
    }
    let series = bench
        .series
        .into_iter()
        .filter(|series| !series.parts.is_empty());
    Ok(series.map(|series| (series.mean, series)).collect())
}

impl Bench {
    fn fresh() -> Self {
        Bench {
            package: Package::fresh(),
            reckoning: Reckoning::fresh(),
            series: (0..=MEANS as i64).map(Series::new).collect(),
        }
    }

    /// Runs a line, its line feed with it. A malformed line is no call.
    fn run(&mut self, number: usize, line: &[u8]) {
        let call = read_line(&line[..line.len() - 1]);
        let before = call
            .as_ref()
            .ok()
            .and_then(|call| self.measured_wears(call));
        let answer = self.answer(line);
        let Ok(call) = call else { return };
        self.reckoning.feed(&call);
        match call {
            Call::MeasureTool { measurement, .. } => {
                self.measured(number, measurement, answer, before)
            }
            Call::SetWear {
                tool,
                radius,
                length,
            } if answer.refusal == 0 => self.wears_set(tool, [radius, length]),
            _ => {}
        }
    }

    fn answer(&mut self, line: &[u8]) -> Answer {
        let mut output = vec![0; job_room(line)];
        let length = self
            .package
            .run_job(line, &mut output)
            .expect("the job runs, so does its line");
        let output = String::from_utf8_lossy(&output[..length]);
        answers::read(&output)[0]
    }

    /// The wears of the tool that a call measures with.
    fn measured_wears(&self, call: &Call) -> Option<[Record; 2]> {
        match call {
            Call::MeasureTool { measurement, .. } => self.wears(measurement.tool),
            _ => None,
        }
    }

    /// Radius and length wear of a tool, if there is such a tool.
    fn wears(&self, tool: i64) -> Option<[Record; 2]> {
        let tool = usize::try_from(tool).ok()?;
        let stored = self.package.wear(tool)?;
        Some([
            Record::wear(stored.radius.into(), self.reckoning.radius(tool - 1)),
            Record::wear(stored.length.into(), self.reckoning.length(tool - 1)),
        ])
    }

    fn measured(
        &mut self,
        line: usize,
        measurement: ToolMeasurement,
        answer: Answer,
        before: Option<[Record; 2]>,
    ) {
        let wears = self.wears(measurement.tool);
        let mean = usize::try_from(measurement.mv).unwrap_or(usize::MAX);
        let (0, Some(before), Some(wears)) = (answer.refusal, before, wears) else {
            return self.refused(line, mean, answer.refusal);
        };
        let corrected = (0..wears.len()).find(|&wear| before[wear].stored != wears[wear].stored);
        let left = self
            .package
            .mean(mean)
            .map(|left| Record::mean(left.into(), self.reckoning.mean(mean - 1)));
        let part = Part {
            line,
            measurement,
            answer,
            mean: match (answer.branch, corrected) {
                (BY_MEAN, Some(wear)) => Some(Record::corrected_mean(
                    answer.correction.into(),
                    &before[wear],
                    &wears[wear],
                )),
                _ => left,
            },
            wears,
            corrected,
        };
        self.series[mean].parts.push(part);
    }

    /// A measurement that names no mean there is belongs to no series.
    fn refused(&mut self, line: usize, mean: usize, refusal: u32) {
        if let Some(series) = self.series.get_mut(mean) {
            let behind = series.parts.len();
            series.refused.push(Refused {
                line,
                refusal,
                behind,
            });
        }
    }

    /// Of settings with no part between them the last one counts.
    fn wears_set(&mut self, tool: i64, values: [i64; 2]) {
        for series in &mut self.series {
            let behind = series.parts.len();
            series
                .wears_set
                .retain(|set| (set.tool, set.behind) != (tool, behind));
            series.wears_set.push(WearsSet {
                tool,
                values,
                behind,
            });
        }
    }
}

#[cfg(test)]
mod tests {
    use super::*;

    const JOBS: [&[u8]; 2] = [
        include_bytes!("../../../../jobs/every-letter-and-refusal.txt"),
        include_bytes!("../../../../jobs/every-letter-and-refusal-floats.txt"),
    ];

    #[test]
    fn a_job_line_by_line_leaves_the_records_that_it_leaves_as_a_whole() {
        for job in JOBS {
            let mut bench = Bench::fresh();
            for line in job.split_inclusive(|&byte| byte == b'\n') {
                bench.run(1, line);
            }
            let mut package = Package::fresh();
            package.run_job(job, &mut vec![0; job_room(job)]).unwrap();
            assert_eq!(bench.package, package);
        }
    }

    /// A plane at 0.0101 mm, once as a T line and once as a G line.
    #[test]
    fn a_part_that_a_float_box_read_is_a_part() {
        let part = |letter: char, raws: &str| {
            format!("{letter},0,1,3,1,0,0,0,{raws},4,0,2,5,20,100,150,-150,300,1000\n")
        };
        let lines = [
            part('T', "100,0,0,0"),
            part('G', "3c257a78,00000000,ffffffff,00000000"),
            part('G', "7fc00000,00000000,00000000,00000000"),
        ];
        let job = format!("C,1,3,1,0,0,0,1000\n{}", lines.concat());
        let series = of_job(job.as_bytes()).unwrap().remove(&2).unwrap();
        let deviations = series.parts.iter().map(|part| part.answer.deviation);
        assert_eq!(deviations.collect::<Vec<_>>(), [100, 101]);
        assert_eq!(series.outside(), 0);
        let refusals = series.refused.iter().map(|line| line.refusal);
        assert_eq!(refusals.collect::<Vec<_>>(), [13]);
    }

    #[test]
    fn a_correction_by_the_mean_shows_the_mean_that_it_used_up() {
        // the paper's values: k 5, TZL 20, D 100 twice: mean 20, then 36 corrects
        let part = "T,0,1,3,1,0,0,0,100,0,0,0,4,0,2,5,20,100,150,-150,300,1000\n";
        let job = format!("C,1,3,1,0,0,0,1000\n{part}{part}");
        let all = of_job(job.as_bytes()).unwrap();
        let [kept, corrected] = &all[&2].parts[..] else {
            panic!("two parts")
        };
        let means = [kept, corrected].map(|part| part.mean.as_ref().unwrap());
        assert_eq!(means.map(|mean| mean.stored), [20, 36]);
        assert!(means[0].exact.equals(20, 1) && means[1].exact.equals(36, 1));
        assert_eq!(means.map(|mean| mean.doubled_bound), [5, 5]);
        // a plane from above shortens the length wear by twice the mean
        assert_eq!(corrected.corrected, Some(1));
        assert_eq!(corrected.wears[1].stored, -72);
        assert_eq!(corrected.wears[1].doubled_bound, 10);
    }
}
