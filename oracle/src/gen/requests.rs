// Random requests on a scene.

use super::rng::Rng;
use super::scene::{sharing, trigger, Scene};
use crate::calls::{Choice, Kind, Need, Request};

impl Scene {
    /// A request for a kind; the three MSI kinds ask for an MSI. `mixed` lets its three choices differ.
    pub fn want(&self, rng: &mut Rng, kind: Kind, mixed: bool) -> Request {
        let need = match kind {
            Kind::Mmio => self.mmio(rng),
            Kind::Pio => self.pio(rng),
            Kind::Input => Need::Input {
                controller: self.controller(rng),
                trigger: trigger(rng),
                sharing: sharing(rng),
                input: self.choice(rng, Kind::Input, |n| n),
            },
            Kind::Host => Need::Host { irq: self.choice(rng, Kind::Host, |n| n) },
            Kind::Device | Kind::Event | Kind::Lpi => self.msi(rng, mixed),
        };
        Request { requester: self.owner(rng), slot: rng.pick(&[0, 1, 2, u32::MAX]), need }
    }

    fn mmio(&self, rng: &mut Rng) -> Need {
        let ruler = self.ruler(Kind::Mmio);
        let (size, alignment) = (size(rng, ruler.cell, u64::MAX), alignment(rng, ruler.cell, 64));
        Need::Mmio { size, alignment, base: self.choice(rng, Kind::Mmio, |n| n) }
    }

    fn pio(&self, rng: &mut Rng) -> Need {
        let ruler = self.ruler(Kind::Pio);
        let size = size(rng, ruler.cell, u64::from(u16::MAX)) as u16;
        let alignment = alignment(rng, ruler.cell, 16) as u16;
        Need::Pio { size, alignment, base: self.choice(rng, Kind::Pio, |n| n as u16) }
    }

    fn msi(&self, rng: &mut Rng, mixed: bool) -> Need {
        let (controller, its) = (self.controller(rng), self.its(rng));
        let count = size(rng, 1, u64::from(u32::MAX)) as u32;
        let all_auto = rng.chance(60);
        let mut choice = |kind| {
            let auto = if mixed { rng.chance(50) } else { all_auto };
            if auto {
                Choice::Auto
            } else {
                Choice::Fixed(self.ruler(kind).point(rng) as u32)
            }
        };
        let (device, event, lpi) = (choice(Kind::Device), choice(Kind::Event), choice(Kind::Lpi));
        Need::Msi { controller, its, count, device, event, lpi }
    }

    fn choice<T>(&self, rng: &mut Rng, kind: Kind, narrow: impl Fn(u64) -> T) -> Choice<T> {
        if rng.chance(60) {
            Choice::Auto
        } else {
            Choice::Fixed(narrow(self.ruler(kind).point(rng)))
        }
    }
}

/// Mostly a cell or a few; the limits now and then.
fn size(rng: &mut Rng, cell: u64, most: u64) -> u64 {
    let size = match rng.below(40) {
        0 => 0,
        1 => most,
        2 => cell * 2 + 1,
        3 => (most >> 1) + 1,
        4..=12 => 1,
        13..=16 => cell * 2,
        17 | 18 => cell * 3,
        19 | 20 => cell.saturating_sub(1).max(1),
        _ => cell,
    };
    size.min(most)
}

/// Mostly one bit at or below the cell; none, two bits or the highest bit now and then.
fn alignment(rng: &mut Rng, cell: u64, bits: u32) -> u64 {
    match rng.below(60) {
        0 => 0,
        1 => 3,
        2 => 1 << (bits - 1),
        3 => (1 << (bits - 1)) + 1,
        4..=9 => 1 << rng.below(u64::from(bits)),
        10..=30 => 1,
        31..=36 => cell.next_power_of_two() * 2 % (1 << (bits - 1)),
        _ => cell.next_power_of_two(),
    }
}
