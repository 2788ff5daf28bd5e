// The original's results and errors in 01's numbers.

use alloc::string::{String, ToString};
use alloc::vec::Vec;

use super::rows::owner_number;
use super::*;
use crate::calls::{no, Record, Refusal, Request};

/// 01's nine numbers for what was granted.
pub(super) fn record(request: &Request, resolved: &ResolvedResource) -> Record {
    let front = |kind: u64| [kind, u64::from(request.requester), u64::from(request.slot)];
    let (front, rest): ([u64; 3], Vec<u64>) = match resolved {
        ResolvedResource::Mmio { base, size } => (front(1), [*base, *size].into()),
        ResolvedResource::Pio { base, size } => (front(2), [u64::from(*base), u64::from(*size)].into()),
        ResolvedResource::WiredIrq(wired) => (
            front(3),
            [
                u64::from(wired.controller.value()),
                wired.input.value() as u64,
                u64::from(wired.trigger.code()),
                u64::from(wired.sharing.code()),
            ]
            .into(),
        ),
        ResolvedResource::HostIrq(irq) => (front(4), [irq.value() as u64].into()),
        ResolvedResource::Msi(msi) => (
            front(5),
            [
                msi.controller.value(),
                msi.its.value(),
                msi.device.value(),
                msi.event.value(),
                msi.lpi.value(),
                msi.count,
            ]
            .map(u64::from)
            .into(),
        ),
    };
    let mut record = [0; 9];
    record[..3].copy_from_slice(&front);
    record[3..3 + rest.len()].copy_from_slice(&rest);
    record
}

pub(super) fn refusal_of_add(error: &DeviceManagerError) -> Refusal {
    match error {
        DeviceManagerError::InvalidInput { .. } => Refusal::plain(no::BAD_OWNER),
        DeviceManagerError::InvalidConfig { .. } => Refusal::plain(no::EMPTY_RANGE),
        // The owner stands nowhere but in the message, as its last word.
        DeviceManagerError::ResourceConflict { detail, .. } => {
            let owner = owner_number(detail.rsplit(' ').next().unwrap_or(""));
            Refusal { owner, ..Refusal::plain(no::RESERVED) }
        }
    }
}

pub(super) fn refusal_of_request(error: &ResourcePlanningError) -> Refusal {
    match error {
        ResourcePlanningError::FixedNotAllowed { namespace, .. } => {
            Refusal { namespace: namespace_number(namespace), ..Refusal::plain(no::FIXED_NOT_ALLOWED) }
        }
        ResourcePlanningError::Exhausted { namespace, .. } => {
            Refusal { namespace: namespace_number(namespace), ..Refusal::plain(no::EXHAUSTED) }
        }
        ResourcePlanningError::Conflict { namespace, existing_owner, detail, .. } => Refusal {
            number: no::CONFLICT,
            namespace: namespace_number(namespace),
            owner: owner_number(existing_owner),
            detail: detail_number(namespace, detail),
        },
    }
}

fn namespace_number(namespace: &ResourceNamespace) -> u32 {
    match namespace {
        ResourceNamespace::Mmio => 1,
        ResourceNamespace::Pio => 2,
        ResourceNamespace::ControllerInput(_) => 3,
        ResourceNamespace::HostIrq => 4,
        ResourceNamespace::Its { .. } => 5,
        ResourceNamespace::Lpi(_) => 6,
    }
}

/// The original says the detail in words; one word of each tells them apart within a namespace.
fn detail_number(namespace: &ResourceNamespace, detail: &str) -> u32 {
    let words: &[(&str, u32)] = match namespace {
        ResourceNamespace::Mmio | ResourceNamespace::Pio => &[("overlap", 1)],
        ResourceNamespace::ControllerInput(_) => &[("trigger", 2), ("exclusive", 3)],
        ResourceNamespace::HostIrq => &[("exclusive", 4)],
        ResourceNamespace::Its { .. } => &[("DeviceID", 5), ("EventID", 6)],
        ResourceNamespace::Lpi(_) => &[("LPI", 7)],
    };
    let mut found = words.iter().filter(|(word, _)| detail.contains(word));
    match (found.next(), found.next()) {
        (Some((_, number)), None) => *number,
        _ => panic!("a detail that 01 does not number: {detail}"),
    }
}

pub(super) fn message(panic: &(dyn std::any::Any + Send)) -> String {
    if let Some(text) = panic.downcast_ref::<&str>() {
        (*text).to_string()
    } else if let Some(text) = panic.downcast_ref::<String>() {
        text.clone()
    } else {
        String::new()
    }
}
