//! The registers in samples.

use crate::linux_perf_event_reader::RawDataU64;

/// The registers of a mask with their values.
#[derive(Debug, Clone, PartialEq, Eq)]
pub struct Regs<'a> {
    regs_mask: u64,
    raw_regs: RawDataU64<'a>,
}

impl<'a> Regs<'a> {
    /// Returns the registers of a mask. The values are those of its bits in ascending order.
    pub fn new(regs_mask: u64, raw_regs: RawDataU64<'a>) -> Self {
        Self {
            regs_mask,
            raw_regs,
        }
    }

    /// Returns the value of a register (`PERF_REG_*`), or `None` if the mask doesn't contain it.
    pub fn get(&self, register: u64) -> Option<u64> {
        let bit = 1_u64.checked_shl(u32::try_from(register).ok()?)?;
        if self.regs_mask & bit == 0 {
            return None;
        }
        let index = (self.regs_mask & (bit - 1)).count_ones();
        self.raw_regs.get(index as usize)
    }
}
