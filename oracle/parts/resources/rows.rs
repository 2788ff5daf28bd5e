// The original's ranges and holders as 01's rows, and owners as numbers.

use alloc::collections::BTreeMap;
use alloc::string::{String, ToString};
use alloc::vec::Vec;
use core::ops::Range;

use axdevice_base::*;

use super::pool::{IrqOwner, RangeOwner};
use crate::calls::{ranged, wired, Row};

/// An owner's number as the original's string; 0 is the empty one.
pub(crate) fn owner_text(owner: u32) -> String {
    if owner == 0 {
        String::new()
    } else {
        owner.to_string()
    }
}

/// The way back.
pub(crate) fn owner_number(owner: &str) -> u32 {
    if owner.is_empty() {
        0
    } else {
        owner.parse().expect("an owner's number")
    }
}

/// Pool ranges of one domain.
pub(crate) fn pools<T: Copy + Into<u64>>(domain: [u32; 3], ranges: &[Range<T>]) -> Vec<Row> {
    ranges.iter().map(|range| ranged(domain, range, 0)).collect()
}

/// Holders of ranges in one domain.
pub(crate) fn holders<T: Copy + Into<u64>>(domain: [u32; 3], owners: &[RangeOwner<T>]) -> Vec<Row> {
    owners.iter().map(|held| ranged(domain, &held.range, owner_number(&held.owner))).collect()
}

/// Pool ranges of machine words.
pub(crate) fn word_pools(domain: [u32; 3], ranges: &[Range<usize>]) -> Vec<Row> {
    ranges.iter().map(|range| ranged(domain, &words(range), 0)).collect()
}

/// Holders of ranges of machine words.
pub(crate) fn word_holders(domain: [u32; 3], owners: &[RangeOwner<usize>]) -> Vec<Row> {
    owners.iter().map(|held| ranged(domain, &words(&held.range), owner_number(&held.owner))).collect()
}

fn words(range: &Range<usize>) -> Range<u64> {
    range.start as u64..range.end as u64
}

/// Holders of inputs, all controllers.
pub(crate) fn inputs(owners: &BTreeMap<InterruptControllerId, Vec<IrqOwner>>) -> Vec<Row> {
    all(owners, |controller, held| held.iter().map(|one| input(controller.value(), one)).collect())
}

fn input(controller: u32, held: &IrqOwner) -> Row {
    let (trigger, sharing) = (held.trigger.code(), held.sharing.code());
    wired(controller, held.input.value() as u64, trigger, sharing, owner_number(&held.owner))
}

/// The rows of all domains, domains ascending.
pub(crate) fn all<K, V>(map: &BTreeMap<K, V>, rows: impl Fn(&K, &V) -> Vec<Row>) -> Vec<Row> {
    map.iter().flat_map(|(key, value)| rows(key, value)).collect()
}

pub(crate) fn controller_domain(key: &InterruptControllerId) -> [u32; 3] {
    [key.value(), 0, 0]
}

pub(crate) fn its_domain(key: &(InterruptControllerId, ItsId)) -> [u32; 3] {
    [key.0.value(), key.1.value(), 0]
}

pub(crate) fn event_domain(key: &(InterruptControllerId, ItsId, MsiDeviceId)) -> [u32; 3] {
    [key.0.value(), key.1.value(), key.2.value()]
}
