//! The area's numbers and the reference's records, each as the other.

use mezhtolik::AREA;
use reference::{Call, Records, Wear};
use std::ops::Range;

/// Where each store begins in the area.
const EMPIRICAL: usize = 21;
const MEANS: usize = 41;
const TOOLS: usize = 61;
const OFFSETS: usize = 125;

pub type Area = [i32; AREA];

/// The numbers of records.
pub fn numbers(records: &Records) -> Area {
    let mut area = [0; AREA];
    let probes = records.triggers.iter().zip(records.status);
    let probes = probes.flat_map(|(triggers, status)| {
        let status = i32::from(status);
        triggers.iter().copied().chain([status])
    });
    let values = records.ev.iter().chain(&records.mv).copied();
    let wears = records.wears.iter();
    let all = probes
        .chain(values.map(i32::from))
        .chain(wears.flat_map(|wear| [wear.radius, wear.length]))
        .chain(records.offsets.iter().flatten().copied());
    area.iter_mut().zip(all).for_each(|(to, from)| *to = from);
    area
}

/// The records of numbers, each read as the nearest that its record can hold.
pub fn records(area: &Area) -> Records {
    let value = |place: usize| area[place].clamp(-32_768, 32_767) as i16;
    let mut records = Records::fresh();
    for probe in 0..3 {
        let at = 7 * probe;
        records.triggers[probe].copy_from_slice(&area[at..at + 6]);
        records.status[probe] = area[at + 6].clamp(0, 255) as u8;
    }
    for index in 0..20 {
        records.ev[index] = value(EMPIRICAL + index);
        records.mv[index] = value(MEANS + index);
    }
    for tool in 0..32 {
        let at = TOOLS + 2 * tool;
        records.wears[tool] = Wear {
            radius: area[at],
            length: area[at + 1],
        };
    }
    for offset in 0..4 {
        let at = OFFSETS + 3 * offset;
        records.offsets[offset].copy_from_slice(&area[at..at + 3]);
    }
    records
}

/// The places of the numbers that a call writes when it is done; a job has none
/// but those of its lines.
pub fn written(call: &Call) -> Vec<Range<usize>> {
    let part = |start: usize, size: usize, number: i64| {
        let at = start + size * (number as usize - 1);
        at..at + size
    };
    match call {
        Call::SetEmpirical { number, .. } => vec![part(EMPIRICAL, 1, *number)],
        Call::SetWear { tool, .. } => vec![part(TOOLS, 2, *tool)],
        Call::SetOffset { offset, .. } => vec![part(OFFSETS, 3, *offset)],
        Call::Calibrate(calibration) => vec![part(0, 7, calibration.probe)],
        Call::MeasureTool { measurement, .. } => {
            let mean = (measurement.mv != 0).then(|| part(MEANS, 1, measurement.mv));
            let tool = part(TOOLS, 2, measurement.tool);
            mean.into_iter().chain([tool]).collect()
        }
        Call::MeasureZero { measurement, .. } => vec![part(OFFSETS, 3, measurement.offset)],
        Call::Load { .. } => vec![part(EMPIRICAL, TOOLS - EMPIRICAL, 1)],
        Call::Status { .. } | Call::Save { .. } | Call::RunJob { .. } => vec![],
    }
}

/// What stands at a place of the area.
pub fn name(place: usize) -> String {
    let split = |start: usize, size: usize| ((place - start) / size + 1, (place - start) % size);
    match place {
        0..EMPIRICAL => match split(0, 7) {
            (probe, 6) => format!("status of probe {probe}"),
            (probe, trigger) => format!("trigger {} of probe {probe}", trigger + 1),
        },
        EMPIRICAL..MEANS => format!("EV {}", place - EMPIRICAL + 1),
        MEANS..TOOLS => format!("MV {}", place - MEANS + 1),
        TOOLS..OFFSETS => match split(TOOLS, 2) {
            (tool, 0) => format!("radius wear of tool {tool}"),
            (tool, _) => format!("length wear of tool {tool}"),
        },
        _ => {
            let (offset, axis) = split(OFFSETS, 3);
            format!("offset {offset} on axis {}", axis + 1)
        }
    }
}

/// The records as calls read them: triggers within their range, six bits of
/// status.
pub fn as_read(records: &Records) -> Records {
    let mut read = records.clone();
    for probe in 0..3 {
        read.status[probe] = records.status(probe);
        for place in 0..6 {
            read.triggers[probe][place] = records.trigger(probe, place) as i32;
        }
    }
    read
}

/// The records that the accessors of a package show.
pub fn shown(package: &mezhtolik::Package) -> Option<Records> {
    let mut records = Records::fresh();
    for probe in 0..3 {
        records.status[probe] = package.status(probe + 1)?;
        for place in 0..6 {
            // the negative direction comes first
            let direction = 1 - place as i64 % 2;
            records.triggers[probe][place] =
                package.trigger(probe + 1, place / 2 + 1, direction)?;
        }
    }
    for index in 0..20 {
        records.ev[index] = package.empirical(index + 1)?;
        records.mv[index] = package.mean(index + 1)?;
    }
    for tool in 0..32 {
        let mezhtolik::Wear { radius, length } = package.wear(tool + 1)?;
        records.wears[tool] = Wear { radius, length };
    }
    for offset in 0..4 {
        records.offsets[offset] = package.offset(offset + 1)?;
    }
    Some(records)
}
