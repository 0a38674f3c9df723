//! The package: records, setting calls, memory block.

use crate::fault::Fault;
use crate::ranges::{require_within, store_index, MEANS, OFFSET, OFFSETS, TOOLS, WEAR};
use crate::records::{Records, Wear};
use crate::refusal::Refusal;

/// "80 bytes: EV 1..20, then MV 1..20, two bytes each".
pub const BLOCK: usize = 4 * MEANS;

/// A measuring package. Every call takes any argument and answers by the
/// paper's rules; a refused call changes no record.
#[derive(Clone, Debug, Default, PartialEq, Eq)]
pub struct Package {
    pub(crate) records: Records,
    pub(crate) fault: Option<Fault>,
}

impl Package {
    /// "Fresh: all 0."
    pub fn fresh() -> Self {
        Self::default()
    }

    /// A package that holds the given records.
    pub fn from_records(records: Records) -> Self {
        Self {
            records,
            fault: None,
        }
    }

    /// A fresh package with a planted fault.
    pub fn with_fault(fault: Fault) -> Self {
        Self {
            records: Records::fresh(),
            fault: Some(fault),
        }
    }

    /// All stored records.
    pub fn records(&self) -> &Records {
        &self.records
    }

    /// The planted fault, none where the crate is built without them.
    pub(crate) fn planted(&self) -> Option<Fault> {
        self.fault.filter(|_| cfg!(feature = "faults"))
    }

    /// Whether this fault was planted.
    pub(crate) fn has(&self, fault: Fault) -> bool {
        self.planted() == Some(fault)
    }

    /// "Setting calls replace one EV": 2 outside 1..20, 3 outside
    /// -32,768..32,767.
    pub fn set_empirical(&mut self, number: i64, value: i64) -> Result<(), Refusal> {
        let index = store_index(number, MEANS)?;
        self.records.ev[index] = i16::try_from(value).map_err(|_| Refusal::Range)?;
        Ok(())
    }

    /// "one tool's two wears": both are replaced, or none if one is refused.
    pub fn set_wear(&mut self, tool: i64, radius: i64, length: i64) -> Result<(), Refusal> {
        let index = store_index(tool, TOOLS)?;
        require_within(radius, WEAR)?;
        require_within(length, WEAR)?;
        self.records.wears[index] = Wear {
            radius: radius as i32,
            length: length as i32,
        };
        Ok(())
    }

    /// "or one zero offset": its three axes, or none if one is refused.
    pub fn set_offset(&mut self, offset: i64, values: [i64; 3]) -> Result<(), Refusal> {
        let index = store_index(offset, OFFSETS)?;
        for value in values {
            require_within(value, OFFSET)?;
        }
        self.records.offsets[index] = values.map(|value| value as i32);
        Ok(())
    }

    /// "Loading replaces all forty"; "1 unless 80 bytes."
    pub fn load(&mut self, block: &[u8]) -> Result<(), Refusal> {
        let block: &[u8; BLOCK] = block.try_into().map_err(|_| Refusal::Room)?;
        let (empirical, means) = block.split_at(2 * MEANS);
        for index in 0..MEANS {
            self.records.ev[index] = self.number_at(empirical, index);
            self.records.mv[index] = self.number_at(means, index);
        }
        Ok(())
    }

    /// "two bytes each, low byte first, two's complement".
    fn number_at(&self, bytes: &[u8], index: usize) -> i16 {
        let pair = [bytes[2 * index], bytes[2 * index + 1]];
        if self.has(Fault::UnsignedBytes) {
            // FAULT: read without a sign, kept as the nearest value of the store
            return i16::try_from(u16::from_le_bytes(pair)).unwrap_or(i16::MAX);
        }
        i16::from_le_bytes(pair)
    }

    /// "Saving writes the first 80 bytes of the buffer and keeps the rest";
    /// "1 if under 80; buffer kept."
    pub fn save(&self, buffer: &mut [u8]) -> Result<(), Refusal> {
        let block = buffer.get_mut(..BLOCK).ok_or(Refusal::Room)?;
        let values = self.records.ev.iter().chain(&self.records.mv);
        for (pair, value) in block.chunks_exact_mut(2).zip(values) {
            pair.copy_from_slice(&value.to_le_bytes());
        }
        Ok(())
    }
}
