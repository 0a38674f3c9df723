//! What the calls are given. Any number is allowed everywhere: one that does
//! not fit is refused.

use crate::reading::{Reading, REPORTS};

/// The numbers of the kinds, [`Probing::kind`].
pub mod kind {
    /// One surface.
    pub const PLANE: i64 = 0;
    /// A diameter touched from inside.
    pub const HOLE: i64 = 1;
    /// A diameter touched from outside.
    pub const SHAFT: i64 = 2;
    /// A width touched from inside.
    pub const GROOVE: i64 = 3;
    /// A width touched from outside.
    pub const WEB: i64 = 4;
    /// What a kind has more with zero offset.
    pub const ZERO_OFFSET: i64 = 100;
}

/// The positive direction, in which the axis rises.
pub const POSITIVE: i64 = 0;
/// The negative direction.
pub const NEGATIVE: i64 = 1;

/// How many arguments a measurement with tool offset has.
pub const TOOL_ARGUMENTS: usize = 21;
/// How many arguments a measurement with zero offset has.
pub const ZERO_ARGUMENTS: usize = 13;

/// A calibration of one direction of a probe, as a `C` line; its raw may also be
/// a report.
#[derive(Clone, Copy, Debug, Default, PartialEq, Eq)]
pub struct Calibration {
    /// 1..3.
    pub probe: i64,
    /// 1 abscissa, 2 ordinate, 3 applicate.
    pub axis: i64,
    /// [`POSITIVE`] or [`NEGATIVE`].
    pub direction: i64,
    /// Where the surface is, within ±10,000,000 u.
    pub setpoint: i64,
    /// Where the probe triggered.
    pub raw: Reading,
    /// A change within it leaves the stored trigger; 0..TSA.
    pub tzl: i64,
    /// A change beyond it is refused; at most 1,000,000 u.
    pub tsa: i64,
}

impl Calibration {
    /// In the order of a `C` line; for a raw that is a report 0.
    #[inline]
    pub const fn numbers(&self) -> [i64; 7] {
        [
            self.probe,
            self.axis,
            self.direction,
            self.setpoint,
            self.raw.whole(),
            self.tzl,
            self.tsa,
        ]
    }
}

/// What both measurements are given. A kind uses some of it only.
#[derive(Clone, Copy, Debug, Default, PartialEq, Eq)]
pub struct Probing {
    /// One of [`kind`], with [`kind::ZERO_OFFSET`] more for zero offset.
    pub kind: i64,
    /// 1..3.
    pub probe: i64,
    /// 1..3 of a plane, 1 or 2 of a groove or web.
    pub axis: i64,
    /// [`POSITIVE`] or [`NEGATIVE`], of a plane.
    pub direction: i64,
    /// A plane's position within ±10,000,000 u, else a width 1..10,000,000 u.
    pub setpoint: i64,
    /// The set centre on axes 1 and 2, within ±10,000,000 u.
    pub set_centre: [i64; 2],
    /// Where the probe triggered: plane one, groove and web low and high, hole
    /// and shaft abscissa low, high, ordinate low, high. Each by itself is whole
    /// or a report.
    pub raws: [Reading; 4],
}

impl Probing {
    /// The whole raws, 0 for a report.
    #[inline]
    const fn whole_raws(&self) -> [i64; 4] {
        let [r1, r2, r3, r4] = self.raws;
        [r1.whole(), r2.whole(), r3.whole(), r4.whole()]
    }

    /// Which raws are reports: bit n - 1 for raw n, 0 where all are whole.
    #[inline]
    pub const fn reported(&self) -> u32 {
        let [r1, r2, r3, r4] = self.raws;
        r1.reported() | r2.reported() << 1 | r3.reported() << 2 | r4.reported() << 3
    }

    /// X, Y, Z of each raw, zeros for a whole one.
    #[inline]
    pub const fn reports(&self) -> [f32; REPORTS] {
        let [r1, r2, r3, r4] = self.raws;
        let [x1, y1, z1] = r1.floats();
        let [x2, y2, z2] = r2.floats();
        let [x3, y3, z3] = r3.floats();
        let [x4, y4, z4] = r4.floats();
        [x1, y1, z1, x2, y2, z2, x3, y3, z3, x4, y4, z4]
    }
}

/// The limits of a measurement with tool offset, in u:
/// 0 ≤ TZL ≤ TMV ≤ TDIF ≤ TSA ≤ 1,000,000, TMV ≤ 32,767, TLL ≤ TUL.
#[derive(Clone, Copy, Debug, Default, PartialEq, Eq)]
pub struct Limits {
    /// Up to it nothing is corrected.
    pub tzl: i64,
    /// Up to it the mean takes the deviation in.
    pub tmv: i64,
    /// Above it the part is oversize, within ±1,000,000.
    pub tul: i64,
    /// Below it the part is undersize, within ±1,000,000.
    pub tll: i64,
    /// Beyond it a deviation is refused.
    pub tdif: i64,
    /// Beyond it a deviation is refused, before TDIF is asked.
    pub tsa: i64,
}

/// A measurement with tool offset, as a `T` or `G` line.
#[derive(Clone, Copy, Debug, Default, PartialEq, Eq)]
pub struct ToolMeasurement {
    /// What is touched.
    pub probing: Probing,
    /// The tool whose wear is corrected, 1..32.
    pub tool: i64,
    /// The empirical value, 1..20, or 0 for none.
    pub ev: i64,
    /// The mean value, 1..20, or 0 for none.
    pub mv: i64,
    /// The weighting factor of the mean, 1..1,000, also without a mean.
    pub k: i64,
    /// The limits.
    pub limits: Limits,
}

impl ToolMeasurement {
    /// In the order of a `T` line; for a raw that is a report 0.
    #[inline]
    pub const fn numbers(&self) -> [i64; TOOL_ARGUMENTS] {
        let Probing {
            kind,
            probe,
            axis,
            direction,
            setpoint,
            set_centre: [c1, c2],
            ..
        } = self.probing;
        let [r1, r2, r3, r4] = self.probing.whole_raws();
        let Limits {
            tzl,
            tmv,
            tul,
            tll,
            tdif,
            tsa,
        } = self.limits;
        [
            kind, probe, axis, direction, setpoint, c1, c2, r1, r2, r3, r4, self.tool, self.ev,
            self.mv, self.k, tzl, tmv, tul, tll, tdif, tsa,
        ]
    }
}

/// A measurement with zero offset, as a `Z` line; its raws may also be reports.
#[derive(Clone, Copy, Debug, Default, PartialEq, Eq)]
pub struct ZeroMeasurement {
    /// What is touched.
    pub probing: Probing,
    /// The zero offset that is moved, 1..4.
    pub offset: i64,
    /// A shift beyond it is refused, 0..1,000,000 u.
    pub tsa: i64,
}

impl ZeroMeasurement {
    /// In the order of a `Z` line; for a raw that is a report 0.
    #[inline]
    pub const fn numbers(&self) -> [i64; ZERO_ARGUMENTS] {
        let Probing {
            kind,
            probe,
            axis,
            direction,
            setpoint,
            set_centre: [c1, c2],
            ..
        } = self.probing;
        let [r1, r2, r3, r4] = self.probing.whole_raws();
        [
            kind,
            probe,
            axis,
            direction,
            setpoint,
            c1,
            c2,
            r1,
            r2,
            r3,
            r4,
            self.offset,
            self.tsa,
        ]
    }
}
