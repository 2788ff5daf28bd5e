// What a granted request gets, which the text given lacks.

use axdevice_base::*;

#[derive(Clone, Copy, Debug)]
pub enum ResolvedResource {
    Mmio { base: u64, size: u64 },
    Pio { base: u16, size: u16 },
    WiredIrq(ResolvedWiredIrq),
    HostIrq(HostIrqId),
    Msi(ResolvedMsi),
}

#[derive(Clone, Copy, Debug)]
pub struct ResolvedWiredIrq {
    pub controller: InterruptControllerId,
    pub input: ControllerInputId,
    pub trigger: InterruptTrigger,
    pub sharing: InterruptSharing,
}

impl ResolvedWiredIrq {
    pub const fn new(
        controller: InterruptControllerId,
        input: ControllerInputId,
        trigger: InterruptTrigger,
        sharing: InterruptSharing,
    ) -> Self {
        Self { controller, input, trigger, sharing }
    }
}

#[derive(Clone, Copy, Debug)]
pub struct ResolvedMsi {
    pub controller: InterruptControllerId,
    pub its: ItsId,
    pub device: MsiDeviceId,
    pub event: MsiEventId,
    pub lpi: LpiId,
    pub count: u32,
}

impl ResolvedMsi {
    pub const fn new(
        controller: InterruptControllerId,
        its: ItsId,
        device: MsiDeviceId,
        event: MsiEventId,
        lpi: LpiId,
        count: u32,
    ) -> Self {
        Self { controller, its, device, event, lpi, count }
    }
}
