// Host IRQ pools, which the text given lacks: ruled as the other pools, by the original's own range functions.

use alloc::format;

use super::{range::*, *};
use crate::{DeviceManagerError, DeviceManagerResult};

impl ResourcePools {
    pub fn add_auto_host_irqs(&mut self, range: Range<usize>) -> DeviceManagerResult {
        insert_range(&mut self.host_irqs.automatic, range, "host IRQ pool")
    }

    pub fn allow_fixed_host_irqs(&mut self, range: Range<usize>) -> DeviceManagerResult {
        insert_range(&mut self.host_irqs.fixed, range, "host IRQ allowlist")
    }

    /// 01's form: a range of numbers for one owner.
    pub fn reserve_host_irqs(&mut self, owner: impl Into<String>, range: Range<usize>) -> DeviceManagerResult {
        let owner = nonempty_owner(owner.into())?;
        reserve_range(&mut self.host_irqs.reserved, owner, range, "host IRQ")
    }

    /// The form that the original's pair call uses: a range of one number. The largest number has no such range.
    pub(super) fn reserve_host_irq(&mut self, owner: impl Into<String>, irq: HostIrqId) -> DeviceManagerResult {
        let owner = nonempty_owner(owner.into())?;
        let Some(end) = irq.value().checked_add(1) else {
            return Err(DeviceManagerError::InvalidConfig {
                operation: "reserve host IRQ",
                detail: format!("no range ends behind {}", irq.value()),
            });
        };
        reserve_range(&mut self.host_irqs.reserved, owner, irq.value()..end, "host IRQ")
    }

    pub(crate) fn auto_host_irqs(&self) -> &[Range<usize>] {
        &self.host_irqs.automatic
    }

    pub(crate) fn fixed_host_irqs(&self) -> &[Range<usize>] {
        &self.host_irqs.fixed
    }

    pub(crate) fn reserved_host_irqs(&self) -> &[RangeOwner<usize>] {
        &self.host_irqs.reserved
    }
}
