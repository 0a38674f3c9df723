//! The calls as C has them, on a lent area: numbers in, numbers out.
//!
//! For those who keep the area themselves; [`Package`](crate::Package) is the
//! same with types. Each function answers for slices of any length and any
//! content: an area that has not [`AREA`](crate::AREA) numbers is refused by
//! 100, a measurement's arguments or floats that are not as many as they should
//! be by 101, and both leave everything as it was.
//!
//! Reports of a float box are lent as 12 floats, X, Y, Z of each raw, with a
//! number whose bit n - 1 says that raw n is its report; else raw n is the whole
//! number among the arguments. What is not used is not looked at.
#![allow(unsafe_code)]

/// What a measurement answers; branch and verdict are 0 where it is refused.
#[repr(C)]
#[derive(Clone, Copy, Debug, Default, PartialEq, Eq)]
pub struct RawDecision {
    /// 0 when done.
    pub refusal: u32,
    /// 1 to 6.
    pub branch: u32,
    /// 0 to 2.
    pub verdict: u32,
}

/// What a status read answers; bits and count are 0 where it is refused.
#[repr(C)]
#[derive(Clone, Copy, Debug, Default, PartialEq, Eq)]
pub struct RawStatus {
    /// 0 when done.
    pub refusal: u32,
    /// Bit place - 1 for each direction calibrated.
    pub bits: u32,
    /// How many directions are calibrated.
    pub count: u32,
}

/// What a job answers.
#[repr(C)]
#[derive(Clone, Copy, Debug, Default, PartialEq, Eq)]
pub struct RawJob {
    /// 0 when it ran.
    pub refusal: u32,
    /// The length written, 0 where it is refused.
    pub length: usize,
}

// As in include/mezhtolik.h; a slice is its pointer and then its length.
extern "C" {
    fn mezhtolik_fresh(area: *mut i32, area_length: usize) -> u32;
    fn mezhtolik_set_empirical(area: *mut i32, area_length: usize, ev: i64, value: i64) -> u32;
    fn mezhtolik_set_wear(
        area: *mut i32,
        area_length: usize,
        tool: i64,
        radius: i64,
        length: i64,
    ) -> u32;
    fn mezhtolik_set_offset(
        area: *mut i32,
        area_length: usize,
        offset: i64,
        v1: i64,
        v2: i64,
        v3: i64,
    ) -> u32;
    fn mezhtolik_calibrate(
        area: *mut i32,
        area_length: usize,
        probe: i64,
        axis: i64,
        direction: i64,
        setpoint: i64,
        raw: i64,
        tzl: i64,
        tsa: i64,
    ) -> u32;
    fn mezhtolik_calibrate_report(
        area: *mut i32,
        area_length: usize,
        probe: i64,
        axis: i64,
        direction: i64,
        setpoint: i64,
        x: f32,
        y: f32,
        z: f32,
        tzl: i64,
        tsa: i64,
    ) -> u32;
    fn mezhtolik_probe_status(area: *const i32, area_length: usize, probe: i64) -> RawStatus;
    fn mezhtolik_measure_tool(
        area: *mut i32,
        area_length: usize,
        arguments: *const i64,
        arguments_length: usize,
        results: *mut i32,
        results_length: usize,
        place: usize,
    ) -> RawDecision;
    fn mezhtolik_measure_zero(
        area: *mut i32,
        area_length: usize,
        arguments: *const i64,
        arguments_length: usize,
        results: *mut i32,
        results_length: usize,
        place: usize,
    ) -> RawDecision;
    fn mezhtolik_measure_tool_readings(
        area: *mut i32,
        area_length: usize,
        arguments: *const i64,
        arguments_length: usize,
        reports: *const f32,
        reports_length: usize,
        reported: u32,
        results: *mut i32,
        results_length: usize,
        place: usize,
    ) -> RawDecision;
    fn mezhtolik_measure_zero_readings(
        area: *mut i32,
        area_length: usize,
        arguments: *const i64,
        arguments_length: usize,
        reports: *const f32,
        reports_length: usize,
        reported: u32,
        results: *mut i32,
        results_length: usize,
        place: usize,
    ) -> RawDecision;
    fn mezhtolik_load(
        area: *mut i32,
        area_length: usize,
        block: *const u8,
        block_length: usize,
    ) -> u32;
    fn mezhtolik_save(
        area: *const i32,
        area_length: usize,
        buffer: *mut u8,
        buffer_length: usize,
    ) -> u32;
    fn mezhtolik_run_job(
        area: *mut i32,
        area_length: usize,
        job: *const u8,
        job_length: usize,
        output: *mut u8,
        output_length: usize,
    ) -> RawJob;
}

// Every call below hands over slices that live as long as the call and do not
// overlap, which is all that the library asks.

/// Makes the area a fresh package.
#[inline]
pub fn fresh(area: &mut [i32]) -> u32 {
    unsafe { mezhtolik_fresh(area.as_mut_ptr(), area.len()) }
}

/// Sets one empirical value.
#[inline]
pub fn set_empirical(area: &mut [i32], ev: i64, value: i64) -> u32 {
    unsafe { mezhtolik_set_empirical(area.as_mut_ptr(), area.len(), ev, value) }
}

/// Sets both wears of a tool.
#[inline]
pub fn set_wear(area: &mut [i32], tool: i64, radius: i64, length: i64) -> u32 {
    unsafe { mezhtolik_set_wear(area.as_mut_ptr(), area.len(), tool, radius, length) }
}

/// Sets a zero offset on its three axes.
#[inline]
pub fn set_offset(area: &mut [i32], offset: i64, [v1, v2, v3]: [i64; 3]) -> u32 {
    unsafe { mezhtolik_set_offset(area.as_mut_ptr(), area.len(), offset, v1, v2, v3) }
}

/// Calibrates one direction of a probe; the arguments in the order of a C line.
#[inline]
pub fn calibrate(area: &mut [i32], arguments: [i64; 7]) -> u32 {
    let [probe, axis, direction, setpoint, raw, tzl, tsa] = arguments;
    let (area, length) = (area.as_mut_ptr(), area.len());
    unsafe {
        mezhtolik_calibrate(
            area, length, probe, axis, direction, setpoint, raw, tzl, tsa,
        )
    }
}

/// Calibrates one direction of a probe by a report, X, Y, Z; the arguments in the
/// order of a C line, whose raw is not looked at.
#[inline]
pub fn calibrate_report(area: &mut [i32], arguments: [i64; 7], [x, y, z]: [f32; 3]) -> u32 {
    let [probe, axis, direction, setpoint, _, tzl, tsa] = arguments;
    let (area, length) = (area.as_mut_ptr(), area.len());
    unsafe {
        mezhtolik_calibrate_report(
            area, length, probe, axis, direction, setpoint, x, y, z, tzl, tsa,
        )
    }
}

/// Reads the status of a probe.
#[inline]
pub fn probe_status(area: &[i32], probe: i64) -> RawStatus {
    unsafe { mezhtolik_probe_status(area.as_ptr(), area.len(), probe) }
}

/// One of the two calls that measure.
type Measure =
    unsafe extern "C" fn(*mut i32, usize, *const i64, usize, *mut i32, usize, usize) -> RawDecision;

#[inline]
fn measure(
    call: Measure,
    area: &mut [i32],
    arguments: &[i64],
    results: &mut [i32],
    place: usize,
) -> RawDecision {
    unsafe {
        call(
            area.as_mut_ptr(),
            area.len(),
            arguments.as_ptr(),
            arguments.len(),
            results.as_mut_ptr(),
            results.len(),
            place,
        )
    }
}

/// Measures with tool offset; the 21 arguments in the order of a T line.
#[inline]
pub fn measure_tool(
    area: &mut [i32],
    arguments: &[i64],
    results: &mut [i32],
    place: usize,
) -> RawDecision {
    measure(mezhtolik_measure_tool, area, arguments, results, place)
}

/// Measures with zero offset; the 13 arguments in the order of a Z line.
#[inline]
pub fn measure_zero(
    area: &mut [i32],
    arguments: &[i64],
    results: &mut [i32],
    place: usize,
) -> RawDecision {
    measure(mezhtolik_measure_zero, area, arguments, results, place)
}

/// One of the two calls that measure with readings.
type MeasureReadings = unsafe extern "C" fn(
    *mut i32,
    usize,
    *const i64,
    usize,
    *const f32,
    usize,
    u32,
    *mut i32,
    usize,
    usize,
) -> RawDecision;

#[inline]
fn measure_readings(
    call: MeasureReadings,
    area: &mut [i32],
    arguments: &[i64],
    (reports, reported): (&[f32], u32),
    results: &mut [i32],
    place: usize,
) -> RawDecision {
    unsafe {
        call(
            area.as_mut_ptr(),
            area.len(),
            arguments.as_ptr(),
            arguments.len(),
            reports.as_ptr(),
            reports.len(),
            reported,
            results.as_mut_ptr(),
            results.len(),
            place,
        )
    }
}

/// Measures with tool offset and with readings: the arguments of
/// [`measure_tool`], the 12 floats of the reports, and which raws are reports.
#[inline]
pub fn measure_tool_readings(
    area: &mut [i32],
    arguments: &[i64],
    reports: (&[f32], u32),
    results: &mut [i32],
    place: usize,
) -> RawDecision {
    let call = mezhtolik_measure_tool_readings;
    measure_readings(call, area, arguments, reports, results, place)
}

/// Measures with zero offset and with readings: the arguments of
/// [`measure_zero`], the 12 floats of the reports, and which raws are reports.
#[inline]
pub fn measure_zero_readings(
    area: &mut [i32],
    arguments: &[i64],
    reports: (&[f32], u32),
    results: &mut [i32],
    place: usize,
) -> RawDecision {
    let call = mezhtolik_measure_zero_readings;
    measure_readings(call, area, arguments, reports, results, place)
}

/// Replaces all empirical and mean values by those of a block.
#[inline]
pub fn load(area: &mut [i32], block: &[u8]) -> u32 {
    unsafe { mezhtolik_load(area.as_mut_ptr(), area.len(), block.as_ptr(), block.len()) }
}

/// Writes the block of all empirical and mean values.
#[inline]
pub fn save(area: &[i32], buffer: &mut [u8]) -> u32 {
    unsafe { mezhtolik_save(area.as_ptr(), area.len(), buffer.as_mut_ptr(), buffer.len()) }
}

/// Runs a job and writes the answers of its lines.
#[inline]
pub fn run_job(area: &mut [i32], job: &[u8], output: &mut [u8]) -> RawJob {
    unsafe {
        mezhtolik_run_job(
            area.as_mut_ptr(),
            area.len(),
            job.as_ptr(),
            job.len(),
            output.as_mut_ptr(),
            output.len(),
        )
    }
}
