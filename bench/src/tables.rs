// The proved side's tables as Rust sees them: C's layout, field by field as in crates/tables and crates/kinds.

pub use oracle::added::{HELD_ROWS as ROWS, POOL_ROWS, RECORD};
use oracle::calls::{Kind, Place, Row, Tables};

#[repr(C)]
#[derive(Clone, Copy, PartialEq)]
pub struct Pool {
    pub n: usize,
    pub controller: [u32; POOL_ROWS],
    pub its: [u32; POOL_ROWS],
    pub start: [u64; POOL_ROWS],
    pub end: [u64; POOL_ROWS],
}

#[repr(C)]
#[derive(Clone, Copy, PartialEq)]
pub struct Ranges {
    pub n: usize,
    pub controller: [u32; ROWS],
    pub its: [u32; ROWS],
    pub device: [u32; ROWS],
    pub start: [u64; ROWS],
    pub end: [u64; ROWS],
    pub owner: [u32; ROWS],
}

#[repr(C)]
#[derive(Clone, Copy, PartialEq)]
pub struct Inputs {
    pub n: usize,
    pub controller: [u32; ROWS],
    pub input: [u64; ROWS],
    pub trigger: [u32; ROWS],
    pub sharing: [u32; ROWS],
    pub owner: [u32; ROWS],
}

#[repr(C)]
#[derive(Clone, Copy, PartialEq)]
pub struct Pools {
    pub mmio: Pool,
    pub pio: Pool,
    pub input: Pool,
    pub host: Pool,
    pub device: Pool,
    pub event: Pool,
    pub lpi: Pool,
}

#[repr(C)]
#[derive(Clone, Copy, PartialEq)]
pub struct Holders {
    pub mmio: Ranges,
    pub pio: Ranges,
    pub input: Inputs,
    pub host: Ranges,
    pub device: Ranges,
    pub event: Ranges,
    pub lpi: Ranges,
}

#[repr(C)]
#[derive(Clone, Copy, PartialEq)]
pub struct State {
    pub auto: Pools,
    pub fixed: Pools,
    pub held: Holders,
    pub owners: Holders,
    pub number: u64,
    pub index: u64,
    pub namespace: u64,
    pub owner: u64,
    pub detail: u64,
}

/// The tables of one kind, as its by-value call takes them.
#[repr(C)]
#[derive(Clone, Copy, PartialEq)]
pub struct Set<Held> {
    pub auto: Pool,
    pub fixed: Pool,
    pub held: Held,
    pub owners: Held,
}

#[repr(C)]
#[derive(Clone, Copy, PartialEq)]
pub struct MsiSet {
    pub device: Set<Ranges>,
    pub event: Set<Ranges>,
    pub lpi: Set<Ranges>,
}

impl State {
    /// The judge's rows as columns.
    pub fn of(tables: &Tables) -> Box<Self> {
        Box::new(State {
            auto: pools(tables, Place::Auto),
            fixed: pools(tables, Place::Fixed),
            held: holders(tables, Place::Held),
            owners: holders(tables, Place::Owner),
            number: 0,
            index: 0,
            namespace: 0,
            owner: 0,
            detail: 0,
        })
    }

    pub fn mmio(&self) -> Set<Ranges> {
        Set { auto: self.auto.mmio, fixed: self.fixed.mmio, held: self.held.mmio, owners: self.owners.mmio }
    }

    pub fn pio(&self) -> Set<Ranges> {
        Set { auto: self.auto.pio, fixed: self.fixed.pio, held: self.held.pio, owners: self.owners.pio }
    }

    pub fn input(&self) -> Set<Inputs> {
        Set { auto: self.auto.input, fixed: self.fixed.input, held: self.held.input, owners: self.owners.input }
    }

    pub fn host(&self) -> Set<Ranges> {
        Set { auto: self.auto.host, fixed: self.fixed.host, held: self.held.host, owners: self.owners.host }
    }

    pub fn msi(&self) -> MsiSet {
        let (auto, fixed, held, owners) = (&self.auto, &self.fixed, &self.held, &self.owners);
        MsiSet {
            device: Set { auto: auto.device, fixed: fixed.device, held: held.device, owners: owners.device },
            event: Set { auto: auto.event, fixed: fixed.event, held: held.event, owners: owners.event },
            lpi: Set { auto: auto.lpi, fixed: fixed.lpi, held: held.lpi, owners: owners.lpi },
        }
    }
}

fn pools(tables: &Tables, place: Place) -> Pools {
    let of = |kind| pool(tables.of(place, kind));
    Pools {
        mmio: of(Kind::Mmio),
        pio: of(Kind::Pio),
        input: of(Kind::Input),
        host: of(Kind::Host),
        device: of(Kind::Device),
        event: of(Kind::Event),
        lpi: of(Kind::Lpi),
    }
}

fn holders(tables: &Tables, place: Place) -> Holders {
    let of = |kind| ranges(tables.of(place, kind));
    Holders {
        mmio: of(Kind::Mmio),
        pio: of(Kind::Pio),
        input: inputs(tables.of(place, Kind::Input)),
        host: of(Kind::Host),
        device: of(Kind::Device),
        event: of(Kind::Event),
        lpi: of(Kind::Lpi),
    }
}

fn pool(rows: &[Row]) -> Pool {
    Pool {
        n: rows.len(),
        controller: column(rows, |row| row.domain[0]),
        its: column(rows, |row| row.domain[1]),
        start: column(rows, |row| row.start),
        end: column(rows, |row| row.end),
    }
}

fn ranges(rows: &[Row]) -> Ranges {
    Ranges {
        n: rows.len(),
        controller: column(rows, |row| row.domain[0]),
        its: column(rows, |row| row.domain[1]),
        device: column(rows, |row| row.domain[2]),
        start: column(rows, |row| row.start),
        end: column(rows, |row| row.end),
        owner: column(rows, |row| row.owner),
    }
}

fn inputs(rows: &[Row]) -> Inputs {
    Inputs {
        n: rows.len(),
        controller: column(rows, |row| row.domain[0]),
        input: column(rows, |row| row.start),
        trigger: column(rows, |row| row.trigger),
        sharing: column(rows, |row| row.sharing),
        owner: column(rows, |row| row.owner),
    }
}

fn column<T: Copy + Default, const N: usize>(rows: &[Row], number: impl Fn(&Row) -> T) -> [T; N] {
    let mut numbers = [T::default(); N];
    for (to, row) in numbers.iter_mut().zip(rows) {
        *to = number(row);
    }
    numbers
}
