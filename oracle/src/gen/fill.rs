// Many rows for one table of a scene, to fill it to its last row and beyond.

use super::rng::Rng;
use super::scene::{narrow16, narrow32, Scene};
use crate::calls::{Add, Hold, Kind, PoolRange};

impl Scene {
    /// So many pool ranges of one table, all different, in mixed order.
    pub fn many_pools(&self, rng: &mut Rng, kind: Kind, fixed: bool, rows: u64) -> Vec<Add> {
        let (controller, its) = (self.controller(rng), self.its(rng));
        // twice as many marks as rows, in a power of two: an odd step comes past all of them
        let (order, marks) = (rng.number() | 1, (2 * rows).next_power_of_two());
        let mark = |i: u64| i.wrapping_mul(order) % marks;
        let one = |kind: Kind| self.ruler(kind).at(0)..self.ruler(kind).at(1);
        let row = |i: u64| {
            let span = self.ruler(kind).at(mark(i) / 2)..self.ruler(kind).at(mark(i) / 2 + 1 + mark(i) % 2);
            let range = match kind {
                Kind::Mmio => PoolRange::Mmio(span),
                Kind::Pio => PoolRange::Pio(narrow16(span)),
                Kind::Host => PoolRange::Host(span),
                Kind::Input => PoolRange::Input { controller, inputs: span },
                Kind::Device | Kind::Event | Kind::Lpi => {
                    let pick = |of: Kind| narrow32(if of == kind { span.clone() } else { one(of) });
                    let (devices, events, lpis) = (pick(Kind::Device), pick(Kind::Event), pick(Kind::Lpi));
                    return Add::Domain { fixed, controller, its, devices, events, lpis };
                }
            };
            Add::Pool { fixed, range }
        };
        (0..rows).map(row).collect()
    }

    /// So many reservations of one kind, one cell each.
    pub fn many_holds(&self, rng: &mut Rng, kind: Kind, rows: u64) -> Vec<Add> {
        let (controller, its) = (self.controller(rng), self.its(rng));
        let mut hold = |i: u64| {
            let span = self.ruler(kind).at(i)..self.ruler(kind).at(i + 1);
            let what = match kind {
                Kind::Mmio => Hold::Mmio(span),
                Kind::Pio => Hold::Pio(narrow16(span)),
                Kind::Host => Hold::Host(span),
                Kind::Input => Hold::Input { controller, input: span.start, trigger: i as u32 % 4, sharing: 1 },
                Kind::Device => Hold::Device { controller, its, devices: narrow32(span) },
                Kind::Event => {
                    let device = self.ruler(Kind::Device).at(i % 3) as u32;
                    Hold::Event { controller, its, device, events: narrow32(span) }
                }
                Kind::Lpi => Hold::Lpi { controller, lpis: narrow32(span) },
            };
            Add::Hold { owner: rng.pick(&self.owners), what }
        };
        (0..rows).map(&mut hold).collect()
    }
}
