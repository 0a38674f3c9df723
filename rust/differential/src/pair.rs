//! The package and the reference side by side.

use crate::difference::Difference;
use crate::layout::{self, Area};
use crate::subject;
use mezhtolik::AREA;
use reference::job::{job_calls, runnable_lines};
use reference::{Answer, Call, Fault, Records};

/// Both after the same calls, and the area that the package should have.
pub struct Pair {
    package: mezhtolik::Package,
    reference: reference::Package,
    area: Area,
}

impl Pair {
    /// Both fresh; the reference may have a fault.
    pub fn fresh(fault: Option<Fault>) -> Self {
        Pair {
            package: mezhtolik::Package::fresh(),
            reference: fault.map_or_else(Default::default, reference::Package::with_fault),
            area: [0; AREA],
        }
    }

    /// Both with the records of an area.
    pub fn of_area(area: Area) -> Self {
        Pair {
            package: mezhtolik::Package::from_area(area),
            reference: reference::Package::from_records(layout::records(&area)),
            area,
        }
    }

    pub fn package(&self) -> &mezhtolik::Package {
        &self.package
    }

    /// Makes a call on both and gives its answer, unless something differs.
    pub fn step(&mut self, call: &Call) -> Result<Answer, Difference> {
        let package = subject::apply(&mut self.package, call);
        let before = self.reference.clone();
        let reference = self.reference.apply(call);
        if package != reference {
            return Err(Difference::Answers(Box::new([package, reference])));
        }
        match call {
            Call::RunJob { text, buffer } => self.follow_job(before, text, buffer.len()),
            _ => follow(&mut self.area, call, &reference, self.reference.records()),
        }
        self.compare_areas()?;
        Ok(reference)
    }

    /// A job that runs writes what the calls of its lines write.
    fn follow_job(&mut self, mut reference: reference::Package, text: &[u8], room: usize) {
        let lines = runnable_lines(text, room).unwrap_or_default();
        for call in job_calls(&lines) {
            let answer = reference.apply(&call);
            follow(&mut self.area, &call, &answer, reference.records());
        }
    }

    fn compare_areas(&self) -> Result<(), Difference> {
        if *self.package.area() == self.area {
            return Ok(());
        }
        let both = self.package.area().iter().zip(&self.area).enumerate();
        let differing = both.filter(|(_, (package, reference))| package != reference);
        Err(Difference::Area(
            differing
                .map(|(place, (&package, &reference))| (place, package, reference))
                .collect(),
        ))
    }

    /// The accessors against the reference's records.
    pub fn compare_accessors(&self) -> Result<(), Difference> {
        let read = layout::as_read(self.reference.records());
        match layout::shown(&self.package) {
            Some(shown) if shown == read => Ok(()),
            shown => Err(Difference::Accessors(format!(
                "  package   {shown:?}\n  reference {read:?}"
            ))),
        }
    }
}

/// A call that is done writes the numbers of the records that it changes, any
/// other leaves the area; a fault of the reference shows here too. The records
/// are those after the call.
fn follow(area: &mut Area, call: &Call, answer: &Answer, records: &Records) {
    let new = layout::numbers(records);
    if answer.refusal == 0 {
        for places in layout::written(call) {
            area[places.clone()].copy_from_slice(&new[places]);
        }
    }
    if layout::records(area) != *records {
        *area = new;
    }
}
