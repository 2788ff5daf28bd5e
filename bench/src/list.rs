// Requests as the proved code lays them out in a list: the structs and enums of crates/request and crates/choose. An enum is the variant's number in a byte, then its fields in order, as in C.
// Nothing here reads the fields: the proved code does.
#![allow(dead_code)]

use oracle::calls::{self, Need};

#[repr(u8)]
#[derive(Clone, Copy)]
pub enum Choice {
    Auto,
    Fixed(u64),
}

/// A DeviceID, an EventID or an LPI.
#[repr(u8)]
#[derive(Clone, Copy)]
pub enum Id {
    Auto,
    Fixed(u32),
}

#[repr(u8)]
#[derive(Clone, Copy)]
pub enum Want {
    Mmio { size: u64, alignment: u64, choice: Choice },
    Pio { size: u64, alignment: u64, choice: Choice },
    Input { controller: u32, trigger: u32, sharing: u32, choice: Choice },
    Host { choice: Choice },
    Msi { controller: u32, its: u32, count: u32, device: Id, event: Id, lpi: Id },
}

#[repr(C)]
#[derive(Clone, Copy)]
pub struct Request {
    pub requester: u32,
    pub slot: u32,
    pub want: Want,
}

impl Request {
    pub fn of(request: &calls::Request) -> Self {
        let want = match request.need {
            Need::Mmio { size, alignment, base } => Want::Mmio { size, alignment, choice: choice(base) },
            Need::Pio { size, alignment, base } => {
                Want::Pio { size: size.into(), alignment: alignment.into(), choice: choice(base) }
            }
            Need::Input { controller, trigger, sharing, input } => {
                Want::Input { controller, trigger, sharing, choice: choice(input) }
            }
            Need::Host { irq } => Want::Host { choice: choice(irq) },
            Need::Msi { controller, its, count, device, event, lpi } => {
                Want::Msi { controller, its, count, device: id(device), event: id(event), lpi: id(lpi) }
            }
        };
        Request { requester: request.requester, slot: request.slot, want }
    }
}

fn choice<T: Into<u64>>(asked: calls::Choice<T>) -> Choice {
    match asked {
        calls::Choice::Auto => Choice::Auto,
        calls::Choice::Fixed(number) => Choice::Fixed(number.into()),
    }
}

fn id<T: Into<u32>>(asked: calls::Choice<T>) -> Id {
    match asked {
        calls::Choice::Auto => Id::Auto,
        calls::Choice::Fixed(number) => Id::Fixed(number.into()),
    }
}
