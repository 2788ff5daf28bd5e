// Reads the original's private pool and reservation tables, and seats given rows in place of the reservations.
//
// It hangs below `address` because the parent, which is not ours, names its own modules; a module anywhere below the
// parent can see its private fields.

use super::super::*;
use crate::calls::{Kind, Place, Row, Seven};
use crate::resources::rows::{
    all, controller_domain, event_domain, holders, inputs, its_domain, owner_text, pools, word_holders, word_pools,
};

impl ResourcePools {
    /// One table's rows: domains ascending, each domain's rows in the original's order.
    pub(crate) fn rows(&self, place: Place, kind: Kind) -> Vec<Row> {
        match place {
            Place::Auto => self.pool_rows(false, kind),
            Place::Fixed => self.pool_rows(true, kind),
            Place::Held => self.held_rows(kind),
            Place::Owner => panic!("pools have no owner tables"),
        }
    }

    fn pool_rows(&self, fixed: bool, kind: Kind) -> Vec<Row> {
        let addresses = if fixed { &self.addresses.fixed } else { &self.addresses.automatic };
        let msi = if fixed { &self.msi.fixed } else { &self.msi.automatic };
        let wired = if fixed { &self.wired_irqs.fixed } else { &self.wired_irqs.automatic };
        let hosts = if fixed { &self.host_irqs.fixed } else { &self.host_irqs.automatic };
        match kind {
            Kind::Mmio => pools([0; 3], &addresses.mmio),
            Kind::Pio => pools([0; 3], &addresses.pio),
            Kind::Input => all(wired, |key, ranges| word_pools(controller_domain(key), ranges)),
            Kind::Host => word_pools([0; 3], hosts),
            Kind::Device => all(&msi.devices, |key, ranges| pools(its_domain(key), ranges)),
            Kind::Event => all(&msi.events, |key, ranges| pools(its_domain(key), ranges)),
            Kind::Lpi => all(&msi.lpis, |key, ranges| pools(controller_domain(key), ranges)),
        }
    }

    fn held_rows(&self, kind: Kind) -> Vec<Row> {
        let msi = &self.msi.reserved;
        match kind {
            Kind::Mmio => holders([0; 3], &self.addresses.reserved.mmio),
            Kind::Pio => holders([0; 3], &self.addresses.reserved.pio),
            Kind::Input => inputs(&self.wired_irqs.reserved),
            Kind::Host => word_holders([0; 3], &self.host_irqs.reserved),
            Kind::Device => all(&msi.devices, |key, owners| holders(its_domain(key), owners)),
            Kind::Event => all(&msi.events, |key, owners| holders(event_domain(key), owners)),
            Kind::Lpi => all(&msi.lpis, |key, owners| holders(controller_domain(key), owners)),
        }
    }

    /// Makes the given rows the reservations, untested, so that allocators made next begin from them.
    pub(crate) fn seat(&mut self, rows: &Seven) {
        let of = |kind: Kind| rows[kind as usize].iter();
        self.addresses.reserved.mmio = of(Kind::Mmio).map(|row| holder(row, |n| n)).collect();
        self.addresses.reserved.pio = of(Kind::Pio).map(|row| holder(row, |n| n as u16)).collect();
        self.host_irqs.reserved = of(Kind::Host).map(|row| holder(row, |n| n as usize)).collect();
        self.wired_irqs.reserved.clear();
        for row in of(Kind::Input) {
            self.wired_irqs.reserved.entry(controller(row)).or_default().push(input_owner(row));
        }
        self.msi.reserved = MsiReservations::default();
        for row in of(Kind::Device) {
            let key = (controller(row), ItsId::new(row.domain[1]));
            self.msi.reserved.devices.entry(key).or_default().push(holder(row, |n| n as u32));
        }
        for row in of(Kind::Event) {
            let key = (controller(row), ItsId::new(row.domain[1]), MsiDeviceId::new(row.domain[2]));
            self.msi.reserved.events.entry(key).or_default().push(holder(row, |n| n as u32));
        }
        for row in of(Kind::Lpi) {
            self.msi.reserved.lpis.entry(controller(row)).or_default().push(holder(row, |n| n as u32));
        }
    }

    /// Takes all numbers below `first` out of the automatic host IRQ pools (all numbers if there is no first).
    pub(crate) fn cut_auto_host_irqs(&mut self, first: Option<u64>) {
        let Some(first) = first else {
            self.host_irqs.automatic.clear();
            return;
        };
        for pool in &mut self.host_irqs.automatic {
            pool.start = pool.start.max(first as usize);
        }
        self.host_irqs.automatic.retain(|pool| pool.start < pool.end);
    }
}

fn controller(row: &Row) -> InterruptControllerId {
    InterruptControllerId::new(row.domain[0])
}

fn holder<T>(row: &Row, narrow: impl Fn(u64) -> T) -> RangeOwner<T> {
    RangeOwner { range: narrow(row.start)..narrow(row.end), owner: owner_text(row.owner) }
}

fn input_owner(row: &Row) -> IrqOwner {
    IrqOwner {
        input: ControllerInputId::new(row.start as usize),
        trigger: InterruptTrigger::from_code(row.trigger).expect("a known trigger"),
        sharing: InterruptSharing::from_code(row.sharing).expect("a known sharing"),
        owner: owner_text(row.owner),
    }
}
