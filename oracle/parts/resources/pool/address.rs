// MMIO and port-I/O pools, which the text given lacks: ruled as the other pools, by the original's own range functions.

mod tables;

use super::{range::*, *};
use crate::DeviceManagerResult;

impl ResourcePools {
    pub fn add_auto_mmio(&mut self, range: Range<u64>) -> DeviceManagerResult {
        insert_range(&mut self.addresses.automatic.mmio, range, "MMIO pool")
    }

    pub fn allow_fixed_mmio(&mut self, range: Range<u64>) -> DeviceManagerResult {
        insert_range(&mut self.addresses.fixed.mmio, range, "MMIO allowlist")
    }

    pub fn reserve_mmio(&mut self, owner: impl Into<String>, range: Range<u64>) -> DeviceManagerResult {
        let owner = nonempty_owner(owner.into())?;
        reserve_range(&mut self.addresses.reserved.mmio, owner, range, "MMIO")
    }

    pub fn add_auto_pio(&mut self, range: Range<u16>) -> DeviceManagerResult {
        insert_range(&mut self.addresses.automatic.pio, range, "port pool")
    }

    pub fn allow_fixed_pio(&mut self, range: Range<u16>) -> DeviceManagerResult {
        insert_range(&mut self.addresses.fixed.pio, range, "port allowlist")
    }

    pub fn reserve_pio(&mut self, owner: impl Into<String>, range: Range<u16>) -> DeviceManagerResult {
        let owner = nonempty_owner(owner.into())?;
        reserve_range(&mut self.addresses.reserved.pio, owner, range, "ports")
    }

    pub(crate) fn auto_mmio(&self) -> &[Range<u64>] {
        &self.addresses.automatic.mmio
    }

    pub(crate) fn fixed_mmio(&self) -> &[Range<u64>] {
        &self.addresses.fixed.mmio
    }

    pub(crate) fn reserved_mmio(&self) -> &[RangeOwner<u64>] {
        &self.addresses.reserved.mmio
    }

    pub(crate) fn auto_pio(&self) -> &[Range<u16>] {
        &self.addresses.automatic.pio
    }

    pub(crate) fn fixed_pio(&self) -> &[Range<u16>] {
        &self.addresses.fixed.pio
    }

    pub(crate) fn reserved_pio(&self) -> &[RangeOwner<u16>] {
        &self.addresses.reserved.pio
    }
}
