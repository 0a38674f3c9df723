//! The package and its calls.

use crate::arguments::{Calibration, ToolMeasurement, ZeroMeasurement};
use crate::boundary;
use crate::decision::{Decision, ProbeStatus};
use crate::reading::Reading;
use crate::refusal::{outcome, Refusal};

/// How many numbers hold all records of a package.
pub const AREA: usize = 137;
/// How many bytes the block of all EV and MV has.
pub const BLOCK: usize = 80;

/// All records of a measuring package, and the calls on them.
///
/// A call that is refused leaves the records as they were. Numbers count from
/// 1: probes 1..3, empirical values (EV) and mean values (MV) 1..20, tools
/// 1..32, zero offsets 1..4.
#[derive(Clone, Debug, PartialEq, Eq)]
pub struct Package {
    area: [i32; AREA],
}

impl Default for Package {
    fn default() -> Self {
        Package::fresh()
    }
}

impl Package {
    /// A package whose records are all 0 and whose probes are uncalibrated.
    #[inline]
    pub fn fresh() -> Self {
        let mut area = [0; AREA];
        let refusal = boundary::fresh(&mut area);
        debug_assert_eq!(refusal, 0, "the area is whole");
        Package { area }
    }

    /// A package of these numbers, as [`area`](Self::area) gave them. Any
    /// content is decided: a number that its record cannot hold is read as the
    /// nearest that it can.
    ///
    /// ```
    /// use mezhtolik::Package;
    /// let mut package = Package::fresh();
    /// package.set_wear(4, 150, -20)?;
    /// let kept: [i32; mezhtolik::AREA] = *package.area();
    /// assert_eq!(Package::from_area(kept), package);
    /// # Ok::<(), mezhtolik::Refusal>(())
    /// ```
    #[inline]
    pub fn from_area(area: [i32; AREA]) -> Self {
        Package { area }
    }

    /// All records as numbers: to keep, to compare, to hand to C.
    #[inline]
    pub fn area(&self) -> &[i32; AREA] {
        &self.area
    }

    /// Sets the empirical value `ev` (1..20) to a value of -32,768..32,767 u.
    ///
    /// ```
    /// use mezhtolik::{Package, Refusal};
    /// let mut package = Package::fresh();
    /// assert_eq!(package.set_empirical(5, 12), Ok(()));
    /// assert_eq!(package.empirical(5), Some(12));
    /// assert_eq!(package.set_empirical(0, 12), Err(Refusal::NoSuchNumber));
    /// assert_eq!(package.set_empirical(5, 32_768), Err(Refusal::OutsideRange));
    /// ```
    #[inline]
    pub fn set_empirical(&mut self, ev: i64, value: i64) -> Result<(), Refusal> {
        outcome(boundary::set_empirical(&mut self.area, ev, value))
    }

    /// Sets both wears of a tool (1..32), each within ±2,000,000 h; neither if
    /// one is out of range.
    #[inline]
    pub fn set_wear(&mut self, tool: i64, radius: i64, length: i64) -> Result<(), Refusal> {
        outcome(boundary::set_wear(&mut self.area, tool, radius, length))
    }

    /// Sets a zero offset (1..4) on its three axes, each within ±20,000,000 h;
    /// none if one is out of range.
    #[inline]
    pub fn set_offset(&mut self, offset: i64, values: [i64; 3]) -> Result<(), Refusal> {
        outcome(boundary::set_offset(&mut self.area, offset, values))
    }

    /// Calibrates one direction of a probe. The new trigger replaces the old
    /// one if it differs from it by more than TZL; the direction counts as
    /// calibrated either way.
    ///
    /// ```
    /// use mezhtolik::{Calibration, Package, Reading, Report, NEGATIVE, POSITIVE};
    /// let mut package = Package::fresh();
    /// // C,1,1,0,0,-500,0,1000
    /// package.calibrate(&Calibration {
    ///     probe: 1,
    ///     axis: 1,
    ///     direction: POSITIVE,
    ///     setpoint: 0,
    ///     raw: Reading::Whole(-500),
    ///     tzl: 0,
    ///     tsa: 1000,
    /// })?;
    /// assert_eq!(package.trigger(1, 1, POSITIVE), Some(500));
    ///
    /// // the same wall from the other side, by the X of a float box
    /// package.calibrate(&Calibration {
    ///     probe: 1,
    ///     axis: 1,
    ///     direction: NEGATIVE,
    ///     raw: Reading::Report(Report { x: 0.05, y: 71.25, z: f32::NAN }),
    ///     tsa: 1000,
    ///     ..Default::default()
    /// })?;
    /// assert_eq!(package.trigger(1, 1, NEGATIVE), Some(500));
    /// assert_eq!(package.probe_status(1)?.count, 2);
    /// # Ok::<(), mezhtolik::Refusal>(())
    /// ```
    #[inline]
    pub fn calibrate(&mut self, calibration: &Calibration) -> Result<(), Refusal> {
        let (area, arguments) = (&mut self.area, calibration.numbers());
        outcome(match calibration.raw {
            Reading::Whole(_) => boundary::calibrate(area, arguments),
            Reading::Report(report) => boundary::calibrate_report(area, arguments, report.floats()),
        })
    }

    /// Which directions of a probe (1..3) are calibrated.
    #[inline]
    pub fn probe_status(&self, probe: i64) -> Result<ProbeStatus, Refusal> {
        ProbeStatus::of(boundary::probe_status(&self.area, probe))
    }

    /// Measures with tool offset, corrects the tool's wear by the branch taken,
    /// and writes the result to the 42 numbers of `results` that begin at
    /// `place`; every other number stays. Without room for 42 numbers nothing
    /// is written, any other refusal writes zeros and its number.
    ///
    /// The paper's groove of 20 mm, three times: the mean takes the first part
    /// in, the second is corrected in full, the third is on an axis that is not
    /// calibrated.
    ///
    /// ```
    /// use mezhtolik::*;
    /// let mut package = Package::fresh();
    /// // C,1,1,0,0,-500,0,1000 and C,1,1,1,0,500,0,1000
    /// for (direction, raw) in [(POSITIVE, -500), (NEGATIVE, 500)] {
    ///     let tsa = 1000;
    ///     let raw = Reading::Whole(raw);
    ///     package.calibrate(&Calibration { probe: 1, axis: 1, direction, raw, tsa, ..Default::default() })?;
    /// }
    /// // T,3,1,1,0,200000,0,0,-99510,99550,0,0,4,0,2,5,20,100,150,-150,300,1000
    /// let mut part = ToolMeasurement {
    ///     probing: Probing {
    ///         kind: kind::GROOVE,
    ///         probe: 1,
    ///         axis: 1,
    ///         setpoint: 200_000,
    ///         raws: [-99_510, 99_550, 0, 0].map(Reading::Whole),
    ///         ..Probing::default()
    ///     },
    ///     tool: 4,
    ///     ev: 0,
    ///     mv: 2,
    ///     k: 5,
    ///     limits: Limits { tzl: 20, tmv: 100, tul: 150, tll: -150, tdif: 300, tsa: 1000 },
    /// };
    /// let mut results = Results::default();
    /// let first = package.measure_tool(&part, results.numbers_mut(), 0)?;
    /// assert_eq!((first.branch, first.verdict), (Branch::MeanKept, Verdict::Within));
    /// assert_eq!((results.deviation(), results.correction()), (60, 0));
    ///
    /// // T,3,1,1,0,200000,0,0,-99510,99640,0,0,4,0,2,5,20,100,150,-150,300,1000
    /// part.probing.raws[1] = Reading::Whole(99_640);
    /// let second = package.measure_tool(&part, results.numbers_mut(), 0)?;
    /// assert_eq!(second.branch, Branch::Full);
    /// assert_eq!((results.deviation(), results.correction()), (150, 150));
    ///
    /// // T,3,1,2,0,200000,0,0,-99510,99640,0,0,4,0,2,5,20,100,150,-150,300,1000
    /// part.probing.axis = 2;
    /// let third = package.measure_tool(&part, results.numbers_mut(), 0);
    /// assert_eq!(third, Err(Refusal::Uncalibrated));
    /// assert_eq!(results.refusal(), 5);
    /// assert_eq!(package.wear(4).unwrap().radius, 150);
    ///
    /// // the first part again, its high wall read by a float box
    /// part.probing.axis = 1;
    /// part.probing.raws[1] = Reading::Report(Report { x: 9.955, y: 0.0, z: 0.0 });
    /// package.measure_tool(&part, results.numbers_mut(), 0)?;
    /// assert_eq!(results.deviation(), 60);
    /// part.probing.raws[1] = Reading::Report(Report { x: 9955.0, y: 0.0, z: 0.0 });
    /// let micrometres = package.measure_tool(&part, results.numbers_mut(), 0);
    /// assert_eq!(micrometres, Err(Refusal::BadFloat));
    /// # Ok::<(), Refusal>(())
    /// ```
    #[inline]
    pub fn measure_tool(
        &mut self,
        measurement: &ToolMeasurement,
        results: &mut [i32],
        place: usize,
    ) -> Result<Decision, Refusal> {
        let (area, arguments) = (&mut self.area, measurement.numbers());
        Decision::of(match measurement.probing.reported() {
            0 => boundary::measure_tool(area, &arguments, results, place),
            reported => {
                let reports = measurement.probing.reports();
                let reports = (&reports[..], reported);
                boundary::measure_tool_readings(area, &arguments, reports, results, place)
            }
        })
    }

    /// Measures with zero offset and moves the offset on the axes measured, all
    /// of them or none. Results and refusals as with
    /// [`measure_tool`](Self::measure_tool).
    ///
    /// ```
    /// use mezhtolik::*;
    /// let mut package = Package::fresh();
    /// package.calibrate(&Calibration { probe: 2, axis: 3, direction: NEGATIVE, tsa: 0, ..Default::default() })?;
    /// let probing = Probing {
    ///     kind: kind::ZERO_OFFSET + kind::PLANE,
    ///     probe: 2,
    ///     axis: 3,
    ///     direction: NEGATIVE,
    ///     setpoint: 1000,
    ///     raws: [1040, 0, 0, 0].map(Reading::Whole),
    ///     ..Probing::default()
    /// };
    /// let mut results = Results::default();
    /// let plane = ZeroMeasurement { probing, offset: 4, tsa: 300 };
    /// let decision = package.measure_zero(&plane, results.numbers_mut(), 0)?;
    /// assert_eq!(decision.branch, Branch::ZeroOffset);
    /// assert_eq!(package.offset(4), Some([0, 0, 80]));
    /// # Ok::<(), Refusal>(())
    /// ```
    #[inline]
    pub fn measure_zero(
        &mut self,
        measurement: &ZeroMeasurement,
        results: &mut [i32],
        place: usize,
    ) -> Result<Decision, Refusal> {
        let (area, arguments) = (&mut self.area, measurement.numbers());
        Decision::of(match measurement.probing.reported() {
            0 => boundary::measure_zero(area, &arguments, results, place),
            reported => {
                let reports = measurement.probing.reports();
                let reports = (&reports[..], reported);
                boundary::measure_zero_readings(area, &arguments, reports, results, place)
            }
        })
    }

    /// Replaces all EV and MV by those of a block of [`BLOCK`] bytes: EV 1..20,
    /// then MV 1..20, two bytes each, low byte first, two's complement. Each
    /// mean begins again at the loaded value.
    #[inline]
    pub fn load(&mut self, block: &[u8]) -> Result<(), Refusal> {
        outcome(boundary::load(&mut self.area, block))
    }

    /// Writes the block of all EV and MV to the first [`BLOCK`] bytes of the
    /// buffer and keeps the rest.
    ///
    /// ```
    /// use mezhtolik::{Package, BLOCK};
    /// let mut package = Package::fresh();
    /// package.set_empirical(1, -3)?;
    /// let mut block = [0; BLOCK];
    /// package.save(&mut block)?;
    /// assert_eq!(block[..2], [0xfd, 0xff]);
    /// # Ok::<(), mezhtolik::Refusal>(())
    /// ```
    #[inline]
    pub fn save(&self, buffer: &mut [u8]) -> Result<(), Refusal> {
        outcome(boundary::save(&self.area, buffer))
    }

    /// Runs a job on the records that are there, writes the answer of each line
    /// to `output` and gives the length written; the bytes past it stay. A
    /// refused line has its number in its answer and the next line runs; a
    /// refused job runs no line. [`job_room`] has the room that a job needs.
    ///
    /// ```
    /// use mezhtolik::{job_room, Package};
    /// let job = b"\
    /// C,1,1,0,0,-500,0,1000
    /// C,1,1,1,0,500,0,1000
    /// T,3,1,1,0,200000,0,0,-99510,99550,0,0,4,0,2,5,20,100,150,-150,300,1000
    /// T,3,1,1,0,200000,0,0,-99510,99640,0,0,4,0,2,5,20,100,150,-150,300,1000
    /// T,3,1,2,0,200000,0,0,-99510,99640,0,0,4,0,2,5,20,100,150,-150,300,1000
    /// ";
    /// let mut package = Package::fresh();
    /// let mut output = vec![0; job_room(job)];
    /// let length = package.run_job(job, &mut output)?;
    /// assert_eq!(&output[..length], b"\
    /// 1,0,0,0,0,0
    /// 2,0,0,0,0,0
    /// 3,0,3,0,60,0
    /// 4,0,5,0,150,150
    /// 5,5,0,0,0,0
    /// ");
    /// assert_eq!(package.wear(4).unwrap().radius, 150);
    /// # Ok::<(), mezhtolik::Refusal>(())
    /// ```
    #[inline]
    pub fn run_job(&mut self, job: &[u8], output: &mut [u8]) -> Result<usize, Refusal> {
        let reply = boundary::run_job(&mut self.area, job, output);
        outcome(reply.refusal).map(|()| reply.length)
    }
}

/// The bytes of output that a job needs: 40 for each line.
pub fn job_room(job: &[u8]) -> usize {
    40 * job.iter().filter(|&&byte| byte == b'\n').count()
}
