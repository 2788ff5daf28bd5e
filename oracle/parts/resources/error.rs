// The error enums, which the text given lacks: the fields are those that the original fills in.

use alloc::string::String;

use axdevice_base::*;

use super::ResourceSlot;

pub type DeviceManagerResult<T = ()> = Result<T, DeviceManagerError>;

/// Refusals of the calls that add pools and reservations.
#[derive(Clone, Debug)]
pub enum DeviceManagerError {
    InvalidInput { operation: &'static str, detail: String },
    InvalidConfig { operation: &'static str, detail: String },
    ResourceConflict { operation: &'static str, detail: String },
}

/// Refusals of requests.
#[derive(Clone, Debug)]
pub enum ResourcePlanningError {
    FixedNotAllowed {
        namespace: ResourceNamespace,
        resource: String,
        requester: String,
        slot: ResourceSlot,
    },
    Exhausted {
        namespace: ResourceNamespace,
        requester: String,
        slot: ResourceSlot,
    },
    Conflict {
        namespace: ResourceNamespace,
        resource: String,
        existing_owner: String,
        requester: String,
        detail: &'static str,
    },
}

#[derive(Clone, Copy, Debug, PartialEq, Eq)]
pub enum ResourceNamespace {
    Mmio,
    Pio,
    ControllerInput(InterruptControllerId),
    HostIrq,
    Its { controller: InterruptControllerId, its: ItsId },
    Lpi(InterruptControllerId),
}

/// The conflict that the MSI allocator asks for by this name.
pub fn conflict(
    namespace: ResourceNamespace,
    resource: String,
    existing_owner: &str,
    requester: &str,
    detail: &'static str,
) -> ResourcePlanningError {
    ResourcePlanningError::Conflict {
        namespace,
        resource,
        existing_owner: existing_owner.into(),
        requester: requester.into(),
        detail,
    }
}
