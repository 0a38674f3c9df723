//! What is done with a job's bytes.

use std::hint::black_box;

use crate::reading;

/// Each begins with a fresh package where it has one.
#[derive(Clone, Copy, Debug, PartialEq, Eq)]
pub enum Side {
    Package,
    Reference,
    /// The lines and numbers only read.
    Reading,
}

impl Side {
    pub const ALL: [Side; 3] = [Side::Package, Side::Reference, Side::Reading];

    pub fn name(self) -> &'static str {
        match self {
            Side::Package => "package",
            Side::Reference => "reference",
            Side::Reading => "only read",
        }
    }

    pub fn named(name: &str) -> Option<Side> {
        Side::ALL.into_iter().find(|side| side.name() == name)
    }

    /// The work on a job, as often as it is called.
    pub fn work(self, text: &[u8]) -> Box<dyn FnMut() + '_> {
        let mut output = vec![0; mezhtolik::job_room(text)];
        match self {
            Side::Package => Box::new(move || {
                let mut package = mezhtolik::Package::fresh();
                let _ = black_box(package.run_job(black_box(text), &mut output));
                black_box(&package);
            }),
            Side::Reference => Box::new(move || {
                let mut package = reference::Package::fresh();
                let _ = black_box(package.run_job(black_box(text), &mut output));
                black_box(&package);
            }),
            Side::Reading => Box::new(move || {
                black_box(reading::checksum(black_box(text)));
            }),
        }
    }
}
