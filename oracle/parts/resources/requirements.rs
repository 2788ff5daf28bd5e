// What a request says, which the text given lacks: the cases and fields are those that the allocators take apart.

use alloc::string::String;

use axdevice_base::*;

/// The slot's name, carried through and never looked at.
#[derive(Clone, Debug, PartialEq, Eq)]
pub struct ResourceSlot(pub String);

#[derive(Clone, Copy, Debug, PartialEq, Eq)]
pub enum ResourceRequest<T> {
    Auto,
    Fixed(T),
}

#[derive(Clone, Debug)]
pub enum DeviceRequirement {
    Mmio {
        slot: ResourceSlot,
        size: u64,
        alignment: u64,
        request: ResourceRequest<u64>,
    },
    Pio {
        slot: ResourceSlot,
        size: u16,
        alignment: u16,
        request: ResourceRequest<u16>,
    },
    WiredIrq {
        slot: ResourceSlot,
        controller: InterruptControllerId,
        trigger: InterruptTrigger,
        sharing: InterruptSharing,
        request: ResourceRequest<ControllerInputId>,
    },
    HostIrq {
        slot: ResourceSlot,
        request: ResourceRequest<HostIrqId>,
    },
    Msi {
        slot: ResourceSlot,
        request: MsiResourceRequest,
    },
}

/// An MSI request: each of its three choices stands on its own.
#[derive(Clone, Copy, Debug)]
pub struct MsiResourceRequest {
    pub controller: InterruptControllerId,
    pub its: ItsId,
    pub count: u32,
    pub device: ResourceRequest<MsiDeviceId>,
    pub event: ResourceRequest<MsiEventId>,
    pub lpi: ResourceRequest<LpiId>,
}

impl MsiResourceRequest {
    pub const fn controller(&self) -> InterruptControllerId {
        self.controller
    }

    pub const fn its(&self) -> ItsId {
        self.its
    }

    pub const fn count(&self) -> u32 {
        self.count
    }

    pub const fn device(&self) -> ResourceRequest<MsiDeviceId> {
        self.device
    }

    pub const fn event(&self) -> ResourceRequest<MsiEventId> {
        self.event
    }

    pub const fn lpi(&self) -> ResourceRequest<LpiId> {
        self.lpi
    }
}
