// A scene: for each kind a short stretch of numbers, often at a boundary, on which pools, holds and wants meet.

use std::ops::Range;

use super::rng::Rng;
use crate::added::{FIRST_LPI, HELD_ROWS};
use crate::calls::{Add, Hold, Kind, PoolRange};

/// Evenly spaced marks from an anchor on, cut off at the width's largest number. Ranges that start below the least
/// number are refused.
#[derive(Clone, Debug)]
pub struct Ruler {
    pub anchor: u64,
    pub cell: u64,
    pub cells: u64,
    pub least: u64,
    pub most: u64,
}

impl Ruler {
    pub fn at(&self, mark: u64) -> u64 {
        self.anchor.saturating_add(mark.saturating_mul(self.cell)).min(self.most)
    }

    /// Marks below the cut.
    fn marks(&self) -> u64 {
        self.cells.min((self.most - self.anchor) / self.cell).max(1)
    }

    /// One number on or beside a mark.
    pub fn point(&self, rng: &mut Rng) -> u64 {
        let number = self.at(rng.below(self.marks()));
        match rng.below(40) {
            0 => number.saturating_sub(1),
            1 => number.saturating_add(1).min(self.most),
            2 => self.most,
            3 if self.least > 0 => self.least - 1,
            4 if self.least > 0 => 0,
            _ => number,
        }
    }

    /// A range of a few cells; now and then empty, turned round, off its marks by one, or too low.
    pub fn span(&self, rng: &mut Rng, longest: u64) -> Range<u64> {
        let first = rng.below(self.marks());
        let (start, end) = (self.at(first), self.at(first + rng.between(1, longest)));
        match rng.below(60) {
            0 => start..start,
            1 => end..start,
            2 => start.saturating_add(1).min(self.most)..end,
            3 => start..end.saturating_sub(1),
            4 => start..self.most,
            5 if self.least > 0 => self.least - 1..end,
            6 if self.least > 0 => 0..end - start,
            7 if self.least > 0 => self.least - 1..self.least - 1,
            8 if self.least > 0 => self.least..end,
            _ => start..end,
        }
    }

    /// Nearly all marks, none too low where some are not.
    pub fn whole(&self, rng: &mut Rng) -> Range<u64> {
        let (first, last) = (rng.below(3), self.marks().saturating_sub(rng.below(3)));
        let whole = if first < last { self.at(first)..self.at(last) } else { self.at(0)..self.at(1) };
        if self.least < whole.end {
            whole.start.max(self.least)..whole.end
        } else {
            whole
        }
    }

    /// A stretch at 0, at a boundary of 16, 32 or 64 bits, or anywhere.
    fn random(rng: &mut Rng, bits: u32, cell: u64, cells: u64) -> Self {
        let most = u64::MAX >> (64 - bits);
        let boundary = rng.pick(&[16u32, 32, 63, 64]).min(bits);
        let before = rng.between(cells / 2, cells + 1) * cell;
        let anchor = match rng.below(5) {
            0 => 0,
            1 => rng.below(100),
            2 | 3 => (u64::MAX >> (64 - boundary)).wrapping_add(1).wrapping_sub(before) & most,
            _ => rng.number() & most,
        };
        Ruler { anchor, cell, cells, least: 0, most }
    }

    /// The same for LPIs: what lies too low is moved up to the least of them, but for a few stretches that stay where they
    /// are or lie on both sides of it.
    fn of_lpis(self) -> Self {
        let least = u64::from(FIRST_LPI);
        let anchor = match self.anchor {
            low @ 85..=89 => low,
            low @ 90..=99 => least + 89 - low,
            low if low < least => least + low,
            high => high,
        };
        Ruler { anchor, least, ..self }
    }
}

/// The widest cell: a range of one is more than a million numbers.
const WIDE: u64 = 1 << 20;

/// Cells of a scene whose tables are to be filled, and of any other.
const MANY: u64 = 3 * HELD_ROWS as u64 / 2;
const FEW: u64 = 12;

/// Rulers for the seven kinds, and the domains in play.
#[derive(Clone, Debug)]
pub struct Scene {
    pub rulers: [Ruler; 7],
    pub controllers: Vec<u32>,
    pub its: Vec<u32>,
    pub owners: Vec<u32>,
    /// The kinds that most lines are about.
    pub kinds: Vec<Kind>,
}

impl Scene {
    /// Three scenes in a hundred are heavy: with room for more rows than a table has.
    pub fn any(rng: &mut Rng) -> (Self, bool) {
        let heavy = rng.chance(3);
        (Scene::random(rng, if heavy { MANY } else { FEW }), heavy)
    }

    pub fn random(rng: &mut Rng, cells: u64) -> Self {
        let mmio_cell = rng.pick(&[1, 2, 16, 256, 4096, 4096, WIDE]);
        let pio_cell = rng.pick(&[1, 1, 8, 16]);
        // now and then a block of host IRQs is a million wide: one that is tried number by number
        let host_cell = if mmio_cell == WIDE { WIDE } else { 1 };
        let rulers = [
            Ruler::random(rng, 64, mmio_cell, cells),
            Ruler::random(rng, 16, pio_cell, cells),
            Ruler::random(rng, 64, 1, cells),
            Ruler::random(rng, 64, host_cell, cells),
            Ruler::random(rng, 32, 1, cells),
            Ruler::random(rng, 32, 1, cells),
            Ruler::random(rng, 32, 1, cells).of_lpis(),
        ];
        let kinds = if rng.chance(60) { vec![rng.pick(&Kind::ALL)] } else { Kind::ALL.to_vec() };
        Scene {
            rulers,
            controllers: some_numbers(rng),
            its: some_numbers(rng),
            owners: vec![1, 2, 3, 9, u32::MAX],
            kinds,
        }
    }

    pub fn ruler(&self, kind: Kind) -> &Ruler {
        &self.rulers[kind as usize]
    }

    pub fn kind(&self, rng: &mut Rng) -> Kind {
        rng.pick(&self.kinds)
    }

    pub fn controller(&self, rng: &mut Rng) -> u32 {
        rng.pick(&self.controllers)
    }

    pub fn its(&self, rng: &mut Rng) -> u32 {
        rng.pick(&self.its)
    }

    /// An owner or requester; 0 now and then.
    pub fn owner(&self, rng: &mut Rng) -> u32 {
        if rng.chance(1) {
            0
        } else {
            rng.pick(&self.owners)
        }
    }

    /// A pool range of a kind, an MSI domain for the three MSI kinds.
    pub fn pool(&self, rng: &mut Rng, kind: Kind) -> Add {
        let fixed = rng.chance(50);
        let longest = rng.pick(&[2, 4, 8, self.ruler(kind).cells]);
        let span = self.ruler(kind).span(rng, longest);
        let controller = self.controller(rng);
        let range = match kind {
            Kind::Mmio => PoolRange::Mmio(span),
            Kind::Pio => PoolRange::Pio(narrow16(span)),
            Kind::Host => PoolRange::Host(span),
            Kind::Input => PoolRange::Input { controller, inputs: span },
            Kind::Device | Kind::Event | Kind::Lpi => return self.domain(rng, fixed, controller, longest),
        };
        Add::Pool { fixed, range }
    }

    /// A pool range that nearly all numbers of the kind's stretch lie in.
    pub fn wide_pool(&self, rng: &mut Rng, kind: Kind, fixed: bool) -> Add {
        let whole = self.ruler(kind).whole(rng);
        let controller = self.controller(rng);
        let range = match kind {
            Kind::Mmio => PoolRange::Mmio(whole),
            Kind::Pio => PoolRange::Pio(narrow16(whole)),
            Kind::Host => PoolRange::Host(whole),
            Kind::Input => PoolRange::Input { controller, inputs: whole },
            Kind::Device | Kind::Event | Kind::Lpi => {
                let its = self.its(rng);
                let mut whole = |kind| narrow32(self.ruler(kind).whole(rng));
                let (devices, events, lpis) = (whole(Kind::Device), whole(Kind::Event), whole(Kind::Lpi));
                return Add::Domain { fixed, controller, its, devices, events, lpis };
            }
        };
        Add::Pool { fixed, range }
    }

    /// Most of the wide pools of the kinds in play.
    pub fn wide_pools(&self, rng: &mut Rng) -> Vec<Add> {
        let mut adds = Vec::new();
        for kind in &self.kinds {
            for fixed in [false, true] {
                if rng.chance(if self.kinds.len() == 1 { 90 } else { 60 }) {
                    adds.push(self.wide_pool(rng, *kind, fixed));
                }
            }
        }
        adds
    }

    fn domain(&self, rng: &mut Rng, fixed: bool, controller: u32, longest: u64) -> Add {
        let mut span = |kind| narrow32(self.ruler(kind).span(rng, longest));
        let (devices, events, lpis) = (span(Kind::Device), span(Kind::Event), span(Kind::Lpi));
        Add::Domain { fixed, controller, its: self.its(rng), devices, events, lpis }
    }

    /// A reservation of a kind.
    pub fn hold(&self, rng: &mut Rng, kind: Kind) -> Add {
        let span = self.ruler(kind).span(rng, 2);
        let (controller, its) = (self.controller(rng), self.its(rng));
        let what = match kind {
            Kind::Mmio => Hold::Mmio(span),
            Kind::Pio => Hold::Pio(narrow16(span)),
            Kind::Host => Hold::Host(span),
            Kind::Input => Hold::Input {
                controller,
                input: self.ruler(kind).point(rng),
                trigger: trigger(rng),
                sharing: sharing(rng),
            },
            Kind::Device => Hold::Device { controller, its, devices: narrow32(span) },
            Kind::Event => {
                let device = self.ruler(Kind::Device).point(rng) as u32;
                Hold::Event { controller, its, device, events: narrow32(span) }
            }
            Kind::Lpi => Hold::Lpi { controller, lpis: narrow32(span) },
        };
        Add::Hold { owner: self.owner(rng), what }
    }
}

/// A trigger code; an unknown one now and then.
pub fn trigger(rng: &mut Rng) -> u32 {
    if rng.chance(1) {
        rng.pick(&[4, 5, u32::MAX])
    } else {
        rng.pick(&[0, 0, 0, 1, 1, 2, 3])
    }
}

/// A sharing code; an unknown one now and then.
pub fn sharing(rng: &mut Rng) -> u32 {
    if rng.chance(1) {
        rng.pick(&[2, u32::MAX])
    } else {
        rng.pick(&[0, 1, 1])
    }
}

pub fn narrow16(span: Range<u64>) -> Range<u16> {
    span.start as u16..span.end as u16
}

pub fn narrow32(span: Range<u64>) -> Range<u32> {
    span.start as u32..span.end as u32
}

fn some_numbers(rng: &mut Rng) -> Vec<u32> {
    let all = [0, 1, 2, u32::MAX];
    (0..rng.pick(&[1, 1, 2, 3])).map(|_| rng.pick(&all)).collect()
}
