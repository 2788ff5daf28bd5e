// 01's calls, requests, rows and answers as plain numbers: the one language of judge, generator and text.

use std::ops::Range;

/// The seven kinds of table, in 01's order.
#[derive(Clone, Copy, Debug, PartialEq, Eq)]
pub enum Kind {
    Mmio,
    Pio,
    Input,
    Host,
    Device,
    Event,
    Lpi,
}

impl Kind {
    pub const ALL: [Kind; 7] = [Kind::Mmio, Kind::Pio, Kind::Input, Kind::Host, Kind::Device, Kind::Event, Kind::Lpi];
}

/// Which table of a kind: the two pools, the reservations or the owners.
#[derive(Clone, Copy, Debug, PartialEq, Eq)]
pub enum Place {
    Auto,
    Fixed,
    Held,
    Owner,
}

/// One row of any table. Numbers that its table does not have are 0: a pool row has no owner, a wired holder's row is
/// the one number `start` (its `end` is 0), only a wired holder has codes.
///
/// The domain is nothing for MMIO, PIO and host; the controller for inputs and LPIs; controller and ITS for devices and
/// for pools of events; controller, ITS and DeviceID for holders of events.
#[derive(Clone, Copy, Debug, Default, PartialEq, Eq)]
pub struct Row {
    pub domain: [u32; 3],
    pub start: u64,
    pub end: u64,
    pub trigger: u32,
    pub sharing: u32,
    pub owner: u32,
}

/// One table of each kind.
pub type Seven = [Vec<Row>; 7];

/// All tables, used rows only, in 01's order of rows.
#[derive(Clone, Debug, Default, PartialEq, Eq)]
pub struct Tables {
    pub auto: Seven,
    pub fixed: Seven,
    pub held: Seven,
    pub owners: Seven,
}

impl Tables {
    pub fn of(&self, place: Place, kind: Kind) -> &Vec<Row> {
        &self.seven(place)[kind as usize]
    }

    pub fn of_mut(&mut self, place: Place, kind: Kind) -> &mut Vec<Row> {
        let seven = match place {
            Place::Auto => &mut self.auto,
            Place::Fixed => &mut self.fixed,
            Place::Held => &mut self.held,
            Place::Owner => &mut self.owners,
        };
        &mut seven[kind as usize]
    }

    /// Whether each automatic pool range lies inside a fixed one: whatever is granted can then be asked for by its number.
    pub fn auto_in_fixed(&self) -> bool {
        Kind::ALL.iter().all(|kind| {
            let fixed = self.of(Place::Fixed, *kind);
            let holds =
                |row: &Row, wide: &Row| wide.domain == row.domain && wide.start <= row.start && row.end <= wide.end;
            self.of(Place::Auto, *kind).iter().all(|row| fixed.iter().any(|wide| holds(row, wide)))
        })
    }

    fn seven(&self, place: Place) -> &Seven {
        match place {
            Place::Auto => &self.auto,
            Place::Fixed => &self.fixed,
            Place::Held => &self.held,
            Place::Owner => &self.owners,
        }
    }
}

/// The rows parted by domain, domains ascending, each domain's rows in the order they stood in.
pub fn by_domain(rows: &[Row]) -> Vec<Row> {
    let mut sorted = rows.to_vec();
    sorted.sort_by_key(|row| row.domain);
    sorted
}

/// A call that adds pool ranges or reservations.
#[derive(Clone, Debug, PartialEq, Eq)]
pub enum Add {
    Pool {
        fixed: bool,
        range: PoolRange,
    },
    Domain {
        fixed: bool,
        controller: u32,
        its: u32,
        devices: Range<u32>,
        events: Range<u32>,
        lpis: Range<u32>,
    },
    Hold {
        owner: u32,
        what: Hold,
    },
    /// The original's call that reserves an input and a host IRQ together.
    Pair {
        owner: u32,
        controller: u32,
        input: u64,
        host: u64,
        trigger: u32,
    },
}

#[derive(Clone, Debug, PartialEq, Eq)]
pub enum PoolRange {
    Mmio(Range<u64>),
    Pio(Range<u16>),
    Host(Range<u64>),
    Input { controller: u32, inputs: Range<u64> },
}

#[derive(Clone, Debug, PartialEq, Eq)]
pub enum Hold {
    Mmio(Range<u64>),
    Pio(Range<u16>),
    Host(Range<u64>),
    Input { controller: u32, input: u64, trigger: u32, sharing: u32 },
    Device { controller: u32, its: u32, devices: Range<u32> },
    Event { controller: u32, its: u32, device: u32, events: Range<u32> },
    Lpi { controller: u32, lpis: Range<u32> },
}

/// Left to the planner, or a number asked for.
#[derive(Clone, Copy, Debug, PartialEq, Eq)]
pub enum Choice<T> {
    Auto,
    Fixed(T),
}

#[derive(Clone, Debug, PartialEq, Eq)]
pub struct Request {
    pub requester: u32,
    pub slot: u32,
    pub need: Need,
}

#[derive(Clone, Debug, PartialEq, Eq)]
pub enum Need {
    Mmio { size: u64, alignment: u64, base: Choice<u64> },
    Pio { size: u16, alignment: u16, base: Choice<u16> },
    Input { controller: u32, trigger: u32, sharing: u32, input: Choice<u64> },
    Host { irq: Choice<u64> },
    Msi { controller: u32, its: u32, count: u32, device: Choice<u32>, event: Choice<u32>, lpi: Choice<u32> },
}

impl Need {
    /// The kinds of table that an accepted request adds a row to.
    pub fn kinds(&self) -> &'static [Kind] {
        match self {
            Need::Mmio { .. } => &[Kind::Mmio],
            Need::Pio { .. } => &[Kind::Pio],
            Need::Input { .. } => &[Kind::Input],
            Need::Host { .. } => &[Kind::Host],
            Need::Msi { .. } => &[Kind::Device, Kind::Event, Kind::Lpi],
        }
    }
}

/// Any call on the state.
#[derive(Clone, Debug, PartialEq, Eq)]
pub enum Call {
    Add(Add),
    Start,
    /// A request at the door, which looks at all tables.
    Request(Request),
    /// The by-value call of one kind, which is handed the tables of that kind alone.
    OfKind(Request),
    /// A plan with a results list of so many numbers.
    Plan {
        requests: Vec<Request>,
        results: usize,
    },
    /// Everything granted to a requester goes.
    Withdraw {
        requester: u32,
    },
}

/// 01's nine numbers of a granted request.
pub type Record = [u64; 9];

/// 01's refusal numbers.
pub mod no {
    pub const MALFORMED: u32 = 1;
    pub const BAD_INPUT: u32 = 2;
    pub const BAD_OWNER: u32 = 3;
    pub const EMPTY_RANGE: u32 = 4;
    pub const RESERVED: u32 = 5;
    pub const FIXED_NOT_ALLOWED: u32 = 6;
    pub const EXHAUSTED: u32 = 7;
    pub const CONFLICT: u32 = 8;
    pub const FULL: u32 = 9;
    pub const BAD_LINE: u32 = 10;
    pub const SHORT: u32 = 11;
    pub const BAD_LPI: u32 = 12;
    pub const NOT_FOUND: u32 = 13;
}

/// A refusal as 01 numbers it; what it does not name is 0.
#[derive(Clone, Copy, Debug, Default, PartialEq, Eq)]
pub struct Refusal {
    pub number: u32,
    pub namespace: u32,
    pub owner: u32,
    pub detail: u32,
}

impl Refusal {
    /// A refusal that names nothing.
    pub const fn plain(number: u32) -> Self {
        Self { number, namespace: 0, owner: 0, detail: 0 }
    }
}

/// What came of one call.
#[derive(Clone, Debug, PartialEq, Eq)]
pub enum Answer {
    Accepted,
    Granted(Record),
    Refused(Refusal),
    /// The original stopped with a panic; its message.
    Panicked(String),
}

impl Answer {
    pub const fn plain(number: u32) -> Self {
        Answer::Refused(Refusal::plain(number))
    }

    pub const fn is_refused(&self) -> bool {
        matches!(self, Answer::Refused(_) | Answer::Panicked(_))
    }
}

/// What came of a plan: its answer, the index it names, and the records in the filled part of the results list.
#[derive(Clone, Debug, PartialEq, Eq)]
pub struct PlanAnswer {
    pub answer: Answer,
    pub index: usize,
    pub records: Vec<Record>,
}

/// The rows that a call adds if nothing stands against it, in the order of its turns.
pub fn rows_of_add(add: &Add) -> Vec<(Place, Kind, Row)> {
    match add {
        Add::Pool { fixed, range } => {
            let (kind, row) = row_of_pool(range);
            vec![(pool_place(*fixed), kind, row)]
        }
        Add::Domain { fixed, controller, its, devices, events, lpis } => {
            let place = pool_place(*fixed);
            vec![
                (place, Kind::Device, ranged([*controller, *its, 0], devices, 0)),
                (place, Kind::Event, ranged([*controller, *its, 0], events, 0)),
                (place, Kind::Lpi, ranged([*controller, 0, 0], lpis, 0)),
            ]
        }
        Add::Hold { owner, what } => {
            let (kind, row) = row_of_hold(*owner, what);
            vec![(Place::Held, kind, row)]
        }
        Add::Pair { owner, controller, input, host, trigger } => vec![
            (Place::Held, Kind::Input, wired(*controller, *input, *trigger, 0, *owner)),
            (Place::Held, Kind::Host, ranged([0; 3], &(*host..host.wrapping_add(1)), *owner)),
        ],
    }
}

/// The rows that a granted request adds, told from its record.
pub fn rows_of_record(record: &Record) -> Vec<(Kind, Row)> {
    let [kind, requester, _slot, a, b, c, d, e, f] = *record;
    let owner = requester as u32;
    match kind {
        1 => vec![(Kind::Mmio, ranged([0; 3], &(a..a + b), owner))],
        2 => vec![(Kind::Pio, ranged([0; 3], &(a..a + b), owner))],
        3 => vec![(Kind::Input, wired(a as u32, b, c as u32, d as u32, owner))],
        4 => vec![(Kind::Host, ranged([0; 3], &(a..a + 1), owner))],
        _ => vec![
            (Kind::Device, ranged([a as u32, b as u32, 0], &(c..c + 1), owner)),
            (Kind::Event, ranged([a as u32, b as u32, c as u32], &(d..d + f), owner)),
            (Kind::Lpi, ranged([a as u32, 0, 0], &(e..e + f), owner)),
        ],
    }
}

/// A granted request with its answer written back: it asks for what it was given.
pub fn pinned(request: &Request, record: &Record) -> Request {
    let mut request = request.clone();
    match &mut request.need {
        Need::Mmio { base, .. } => *base = Choice::Fixed(record[3]),
        Need::Pio { base, .. } => *base = Choice::Fixed(record[3] as u16),
        Need::Input { input, .. } => *input = Choice::Fixed(record[4]),
        Need::Host { irq } => *irq = Choice::Fixed(record[3]),
        Need::Msi { device, event, lpi, .. } => {
            let [d, e, l] = [record[5], record[6], record[7]].map(|number| Choice::Fixed(number as u32));
            (*device, *event, *lpi) = (d, e, l);
        }
    }
    request
}

fn pool_place(fixed: bool) -> Place {
    if fixed {
        Place::Fixed
    } else {
        Place::Auto
    }
}

fn row_of_pool(range: &PoolRange) -> (Kind, Row) {
    match range {
        PoolRange::Mmio(r) => (Kind::Mmio, ranged([0; 3], r, 0)),
        PoolRange::Pio(r) => (Kind::Pio, ranged([0; 3], r, 0)),
        PoolRange::Host(r) => (Kind::Host, ranged([0; 3], r, 0)),
        PoolRange::Input { controller, inputs } => (Kind::Input, ranged([*controller, 0, 0], inputs, 0)),
    }
}

fn row_of_hold(owner: u32, what: &Hold) -> (Kind, Row) {
    match what {
        Hold::Mmio(r) => (Kind::Mmio, ranged([0; 3], r, owner)),
        Hold::Pio(r) => (Kind::Pio, ranged([0; 3], r, owner)),
        Hold::Host(r) => (Kind::Host, ranged([0; 3], r, owner)),
        Hold::Input { controller, input, trigger, sharing } => {
            (Kind::Input, wired(*controller, *input, *trigger, *sharing, owner))
        }
        Hold::Device { controller, its, devices } => (Kind::Device, ranged([*controller, *its, 0], devices, owner)),
        Hold::Event { controller, its, device, events } => {
            (Kind::Event, ranged([*controller, *its, *device], events, owner))
        }
        Hold::Lpi { controller, lpis } => (Kind::Lpi, ranged([*controller, 0, 0], lpis, owner)),
    }
}

/// A row that holds a range.
pub fn ranged<T: Copy + Into<u64>>(domain: [u32; 3], range: &Range<T>, owner: u32) -> Row {
    Row { domain, start: range.start.into(), end: range.end.into(), owner, ..Row::default() }
}

/// A wired holder's row.
pub fn wired(controller: u32, input: u64, trigger: u32, sharing: u32, owner: u32) -> Row {
    Row { domain: [controller, 0, 0], start: input, end: 0, trigger, sharing, owner }
}
