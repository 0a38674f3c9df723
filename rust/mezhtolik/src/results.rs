//! The 42 numbers that a measurement writes.

/// How many numbers a measurement writes to its result array.
pub const RESULTS: usize = 42;
/// Where `_OVI` begins behind `_OVR`.
const OVI: usize = 32;

/// The 42 numbers of a measurement, `_OVR[0..31]` and then `_OVI[0..9]`. What a
/// kind has not is 0; a refused measurement has zeros save [`refusal`](Self::refusal).
#[derive(Clone, Copy, Debug, PartialEq, Eq)]
pub struct Results([i32; RESULTS]);

impl Default for Results {
    fn default() -> Self {
        Results([0; RESULTS])
    }
}

impl Results {
    /// The numbers of an array that begin at a place; `None` if there are fewer
    /// than 42.
    pub fn at(array: &[i32], place: usize) -> Option<Results> {
        array.get(place..)?.first_chunk().copied().map(Results)
    }

    /// All of them.
    pub fn numbers(&self) -> &[i32; RESULTS] {
        &self.0
    }

    /// All of them, to lend to a measurement.
    pub fn numbers_mut(&mut self) -> &mut [i32; RESULTS] {
        &mut self.0
    }

    /// OVR 0: the setpoint, u.
    pub fn setpoint(&self) -> i32 {
        self.0[0]
    }

    /// OVR 1, 2: the set centre on axes 1 and 2, u.
    pub fn set_centre(&self) -> [i32; 2] {
        [self.0[1], self.0[2]]
    }

    /// OVR 4: measured size less empirical value, u.
    pub fn measured(&self) -> i32 {
        self.0[4]
    }

    /// OVR 5, 6: the measured centre on axes 1 and 2, h.
    pub fn centre(&self) -> [i32; 2] {
        [self.0[5], self.0[6]]
    }

    /// OVR 8: setpoint + TUL, u.
    pub fn upper_limit(&self) -> i32 {
        self.0[8]
    }

    /// OVR 12: setpoint + TLL, u.
    pub fn lower_limit(&self) -> i32 {
        self.0[12]
    }

    /// OVR 16: the deviation, measured less empirical value less setpoint, u.
    pub fn deviation(&self) -> i32 {
        self.0[16]
    }

    /// OVR 17, 18: centre less twice the set centre on axes 1 and 2, h.
    pub fn centre_deviation(&self) -> [i32; 2] {
        [self.0[17], self.0[18]]
    }

    /// OVR 20: the correction c, u.
    pub fn correction(&self) -> i32 {
        self.0[20]
    }

    /// OVR 27: TZL, u.
    pub fn tzl(&self) -> i32 {
        self.0[27]
    }

    /// OVR 28: TSA, u.
    pub fn tsa(&self) -> i32 {
        self.0[28]
    }

    /// OVR 29: TDIF, u.
    pub fn tdif(&self) -> i32 {
        self.0[29]
    }

    /// OVR 30: the empirical value, u.
    pub fn empirical(&self) -> i32 {
        self.0[30]
    }

    /// OVR 31: the mean left in its store, u.
    pub fn mean(&self) -> i32 {
        self.0[31]
    }

    /// OVI 0: the number of the tool or of the zero offset.
    pub fn corrected(&self) -> i32 {
        self.0[OVI]
    }

    /// OVI 2: 978 of a plane, 977 of the other kinds.
    pub fn cycle(&self) -> i32 {
        self.0[OVI + 2]
    }

    /// OVI 3: the kind.
    pub fn kind(&self) -> i32 {
        self.0[OVI + 3]
    }

    /// OVI 4: the weighting factor k.
    pub fn weight(&self) -> i32 {
        self.0[OVI + 4]
    }

    /// OVI 5: the probe's number.
    pub fn probe(&self) -> i32 {
        self.0[OVI + 5]
    }

    /// OVI 6: the mean's number.
    pub fn mean_number(&self) -> i32 {
        self.0[OVI + 6]
    }

    /// OVI 7: the empirical value's number.
    pub fn empirical_number(&self) -> i32 {
        self.0[OVI + 7]
    }

    /// OVI 8: the tool's number, 0 with zero offset.
    pub fn tool(&self) -> i32 {
        self.0[OVI + 8]
    }

    /// OVI 9: the number of the refusal, 0 when done.
    pub fn refusal(&self) -> i32 {
        self.0[OVI + 9]
    }
}

#[cfg(test)]
mod tests {
    use super::*;

    #[test]
    fn each_accessor_reads_its_place() {
        let mut array = [0; 50];
        (0..50).for_each(|place| array[place] = place as i32);
        let results = Results::at(&array, 8).unwrap();
        let places = results.0.map(|number| number - 8);
        let r = Results(places);
        let pairs = [r.set_centre(), r.centre(), r.centre_deviation()];
        assert_eq!(pairs, [[1, 2], [5, 6], [17, 18]]);
        let ovr = [
            r.setpoint(),
            r.measured(),
            r.upper_limit(),
            r.lower_limit(),
            r.deviation(),
            r.correction(),
            r.tzl(),
            r.tsa(),
            r.tdif(),
            r.empirical(),
            r.mean(),
        ];
        assert_eq!(ovr, [0, 4, 8, 12, 16, 20, 27, 28, 29, 30, 31]);
        let ovi = [
            r.corrected(),
            r.cycle(),
            r.kind(),
            r.weight(),
            r.probe(),
            r.mean_number(),
            r.empirical_number(),
            r.tool(),
            r.refusal(),
        ];
        assert_eq!(ovi.map(|place| place - 32), [0, 2, 3, 4, 5, 6, 7, 8, 9]);
        assert_eq!(Results::at(&array, 9), None);
        assert_eq!(Results::at(&array, usize::MAX), None);
    }
}
