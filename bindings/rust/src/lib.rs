//! A safe face of the device planner that hands no number to two devices, but for a wired input that both hold as Shared.
//!
//! The planner itself is proved; what stands here only puts typed requests into its lists of numbers and reads its
//! answers back. A [`Planner`] owns its state, a [`Plan`] its requests and results: nothing is allocated.
//!
//! ```
//! use thurgoleo::{Choice, Kind, Part, Planner, Pool, Refusal, Request, Use, Want};
//!
//! let mut planner = Planner::new()?;
//! planner.add_pool(Use::Automatic, Pool::Mmio { start: 0x1000, end: 0x9000 })?;
//! planner.start()?;
//!
//! let request = Request {
//!     requester: 7,
//!     slot: 0,
//!     want: Want::Mmio { size: 0x1000, alignment: 0x1000, choice: Choice::Auto },
//! };
//! let granted = planner.allocate(&request)?;
//! assert_eq!(granted.numbers(), [1, 7, 0, 0x1000, 0x1000, 0, 0, 0, 0]);
//! assert_eq!(planner.used(Part::Owners, Kind::Mmio), 1);
//!
//! // no automatic host IRQs were pooled
//! let irq = Request { requester: 7, slot: 1, want: Want::HostIrq { choice: Choice::Auto } };
//! let refusal = planner.allocate(&irq).unwrap_err();
//! assert_eq!(refusal, Refusal::Exhausted { namespace: 4 });
//! # Ok::<(), Refusal>(())
//! ```
#![no_std]

mod answer;
mod ask;
mod exported;
mod plan;
mod raw;
mod refusal;
mod registers;
mod sizes;
mod texts;

pub use ask::{Choice, DeviceId, EventId, Hold, Lpi, Pool, Request, Use, Want};
pub use plan::{Granted, Plan, PlanRefusal};
pub use refusal::Refusal;
pub use registers::{registers, Registers};
pub use sizes::{
    ANSWER, FIRST_LPI, MOST, POOL_ROWS, RECORD, REGISTERS, REQUEST, ROWS, STATE_SIZE, TEXT,
    TEXT_OUTPUT, TEXT_STACK,
};
pub use texts::{pin_text, text, TextRefusal};

use sizes::ROW;

const WORDS: usize = STATE_SIZE / 8;

/// Which tables: the pools of automatic requests, those that fixed requests are allowed in, the reservations, the owners.
#[derive(Clone, Copy, Debug, PartialEq, Eq)]
pub enum Part {
    Automatic = 1,
    Fixed = 2,
    Reservations = 3,
    Owners = 4,
}

impl Part {
    /// The rows that a table of this part has.
    pub const fn rows(self) -> usize {
        match self {
            Part::Automatic | Part::Fixed => POOL_ROWS,
            Part::Reservations | Part::Owners => ROWS,
        }
    }
}

/// Which table of a part.
#[derive(Clone, Copy, Debug, PartialEq, Eq)]
pub enum Kind {
    Mmio = 1,
    Pio = 2,
    Input = 3,
    Host = 4,
    Device = 5,
    Event = 6,
    Lpi = 7,
}

/// One row of a table, as it is stored. A row of an input is one number, `start`; its `end` is 0. What a table does not keep is 0.
#[derive(Clone, Copy, Debug, PartialEq, Eq)]
pub struct Row {
    pub controller: u64,
    pub its: u64,
    pub device: u64,
    pub start: u64,
    pub end: u64,
    pub trigger: u64,
    pub sharing: u64,
    pub owner: u64,
}

/// The planner with its tables: [`STATE_SIZE`] bytes, on the stack unless it is put elsewhere; making one takes three of them there, so make it where there is room and keep it. Requests, plans, withdrawals, the calls that add or start and reading back run on a stack of 64 KB; [`text`] and [`pin_text`] keep a state there: give a thread that makes them [`TEXT_STACK`] bytes.
#[derive(Clone)]
pub struct Planner {
    state: [u64; WORDS],
}

impl Planner {
    /// A planner without pools, reservations and owners. Malformed where the library was built for states of another size.
    ///
    /// ```
    /// use thurgoleo::{Kind, Part, Planner};
    /// assert_eq!(Planner::new().unwrap().used(Part::Reservations, Kind::Lpi), 0);
    /// ```
    pub fn new() -> Result<Self, Refusal> {
        let mut planner = Self::from_words([u64::MAX; WORDS])?;
        answer::unsay(&mut planner.state);
        let number = raw::fresh(&mut planner.state);
        answer::said(&planner.state, number)?;
        Ok(planner)
    }

    /// A planner over tables kept elsewhere, whatever they hold: each call judges them and refuses unsound ones, such as tables with LPIs below
    /// [`FIRST_LPI`]. Malformed as [`Planner::new`] is.
    ///
    /// ```
    /// use thurgoleo::{Planner, Refusal, STATE_SIZE};
    /// let mut junk = Planner::from_words([u64::MAX; STATE_SIZE / 8]).unwrap();
    /// assert_eq!(junk.start(), Err(Refusal::Malformed));
    /// ```
    pub fn from_words(state: [u64; WORDS]) -> Result<Self, Refusal> {
        if raw::fits() {
            Ok(Self { state })
        } else {
            Err(Refusal::Malformed)
        }
    }

    /// The tables as they are, to be kept.
    ///
    /// ```
    /// use thurgoleo::Planner;
    /// let planner = Planner::new().unwrap();
    /// let kept = Planner::from_words(*planner.as_words()).unwrap();
    /// assert_eq!(kept.as_words(), planner.as_words());
    /// ```
    pub fn as_words(&self) -> &[u64; WORDS] {
        &self.state
    }

    fn call(&mut self, numbers: &[u64]) -> Result<(), Refusal> {
        answer::unsay(&mut self.state);
        let number = raw::call(&mut self.state, numbers);
        answer::said(&self.state, number)
    }

    /// Adds a range to the pools of a use. An exact duplicate is accepted and adds nothing. An MSI domain adds its three ranges or none
    /// of them: any empty one is EmptyRange, then LPIs that start below [`FIRST_LPI`] are BadLpi, then a row that is lacking is Full.
    ///
    /// ```
    /// use thurgoleo::{Kind, Part, Planner, Pool, Refusal, Use, FIRST_LPI};
    /// let mut planner = Planner::new().unwrap();
    /// assert_eq!(planner.add_pool(Use::Fixed, Pool::Host { start: 5, end: 5 }), Err(Refusal::EmptyRange));
    ///
    /// let domain = |first| Pool::Msi { controller: 0, its: 0, devices: 0..16, events: 0..32, lpis: first..first + 256 };
    /// assert_eq!(planner.add_pool(Use::Automatic, domain(0)), Err(Refusal::BadLpi));
    /// assert_eq!(planner.used(Part::Automatic, Kind::Device), 0);
    /// assert_eq!(planner.add_pool(Use::Automatic, domain(FIRST_LPI)), Ok(()));
    /// ```
    pub fn add_pool(&mut self, used: Use, pool: Pool) -> Result<(), Refusal> {
        self.call(&pool.numbers(used))
    }

    /// Reserves for an owner, so that no request is granted it. LPIs that start below [`FIRST_LPI`] are BadLpi, whoever holds what they meet.
    ///
    /// ```
    /// use thurgoleo::{Hold, Planner, Refusal};
    /// let mut planner = Planner::new().unwrap();
    /// planner.reserve(3, Hold::Pio { start: 0x3f8, end: 0x400 }).unwrap();
    /// let again = planner.reserve(4, Hold::Pio { start: 0x3ff, end: 0x500 });
    /// assert_eq!(again, Err(Refusal::Reserved { owner: 3 }));
    /// ```
    pub fn reserve(&mut self, owner: u32, hold: Hold) -> Result<(), Refusal> {
        self.call(&hold.numbers(owner))
    }

    /// Starts: the owners become the reservations, and all grants are forgotten.
    ///
    /// ```
    /// use thurgoleo::{Hold, Kind, Part, Planner};
    /// let mut planner = Planner::new().unwrap();
    /// planner.reserve(3, Hold::Host { start: 8, end: 9 }).unwrap();
    /// planner.start().unwrap();
    /// assert_eq!(planner.row(Part::Owners, Kind::Host, 0).unwrap().owner, 3);
    /// ```
    pub fn start(&mut self) -> Result<(), Refusal> {
        self.call(&[3])
    }

    /// One request. A refused one changes no table.
    pub fn allocate(&mut self, request: &Request) -> Result<Granted, Refusal> {
        let mut record = [0; RECORD];
        answer::unsay(&mut self.state);
        let number = raw::allocate(&mut self.state, &request.numbers(), &mut record);
        answer::said(&self.state, number).map(|()| Granted::of(record))
    }

    /// Withdraws everything granted to a requester, by plans and single requests, for all its slots; NotFound where there is nothing. Reservations stay, also those
    /// whose owner has the same number, and so does what all others have: their rows close up in order, and later requests may have the rows and numbers that
    /// are free again. The requester may come back; nothing is kept for it. Requester 0 is BadInput.
    ///
    /// ```
    /// use thurgoleo::{Choice, Hold, Kind, Part, Planner, Pool, Refusal, Request, Use, Want};
    /// let mut planner = Planner::new()?;
    /// planner.add_pool(Use::Automatic, Pool::Host { start: 40, end: 60 })?;
    /// planner.reserve(7, Hold::Host { start: 40, end: 41 })?;
    /// planner.start()?;
    /// let irq = |requester, slot| Request { requester, slot, want: Want::HostIrq { choice: Choice::Auto } };
    /// for (requester, slot) in [(7, 0), (8, 0), (7, 1)] {
    ///     planner.allocate(&irq(requester, slot))?;
    /// }
    ///
    /// // 41 and 43 go, 40 is reserved and stays
    /// planner.withdraw(7)?;
    /// let left: Vec<_> = planner.rows(Part::Owners, Kind::Host).map(|row| (row.owner, row.start)).collect();
    /// assert_eq!(left, [(7, 40), (8, 42)]);
    /// assert_eq!(planner.withdraw(7), Err(Refusal::NotFound));
    /// assert_eq!(planner.allocate(&irq(9, 0))?.number(), 41);
    /// # Ok::<(), Refusal>(())
    /// ```
    pub fn withdraw(&mut self, requester: u32) -> Result<(), Refusal> {
        self.call(&[5, requester.into()])
    }

    /// A plan: its requests in order. If one is refused the tables are put back, and the results keep what was granted before it.
    ///
    /// ```
    /// use thurgoleo::{Choice, Plan, Planner, Pool, Refusal, Request, Use, Want};
    /// let mut planner = Planner::new().unwrap();
    /// planner.add_pool(Use::Automatic, Pool::Host { start: 32, end: 33 }).unwrap();
    /// let mut plan = Plan::new();
    /// for slot in 0..2 {
    ///     plan.push(&Request { requester: 1, slot, want: Want::HostIrq { choice: Choice::Auto } }).unwrap();
    /// }
    /// let refused = planner.plan(&mut plan).unwrap_err();
    /// assert_eq!((refused.index, refused.refusal), (1, Refusal::Exhausted { namespace: 4 }));
    /// assert_eq!(plan.granted().count(), 1);
    /// ```
    pub fn plan(&mut self, plan: &mut Plan) -> Result<(), PlanRefusal> {
        answer::unsay(&mut self.state);
        plan.run(&mut self.state)
    }

    fn seen(&self, part: Part, kind: Kind, row: usize) -> Option<[u64; ROW]> {
        let mut out = [0; ROW];
        let number = raw::read(
            &self.state,
            &[part as u64, kind as u64, row as u64],
            &mut out,
        );
        (number == 0).then_some(out)
    }

    /// How many rows of a table are used, as its count says.
    pub fn used(&self, part: Part, kind: Kind) -> u64 {
        self.seen(part, kind, 0).map_or(0, |out| out[0])
    }

    /// A row of a table, used or not; none past its end.
    pub fn row(&self, part: Part, kind: Kind, row: usize) -> Option<Row> {
        self.seen(part, kind, row).map(|x| Row {
            controller: x[1],
            its: x[2],
            device: x[3],
            start: x[4],
            end: x[5],
            trigger: x[6],
            sharing: x[7],
            owner: x[8],
        })
    }

    /// The used rows of a table, in its order.
    ///
    /// ```
    /// use thurgoleo::{Kind, Part, Planner, Pool, Use};
    /// let mut planner = Planner::new().unwrap();
    /// planner.add_pool(Use::Automatic, Pool::Mmio { start: 0x4000, end: 0x5000 }).unwrap();
    /// planner.add_pool(Use::Automatic, Pool::Mmio { start: 0x1000, end: 0x2000 }).unwrap();
    /// let mut rows = planner.rows(Part::Automatic, Kind::Mmio);
    /// assert_eq!(rows.next().unwrap().start, 0x1000);
    /// assert_eq!(rows.next().unwrap().start, 0x4000);
    /// assert!(rows.next().is_none());
    /// ```
    pub fn rows(&self, part: Part, kind: Kind) -> impl Iterator<Item = Row> + '_ {
        let used = usize::try_from(self.used(part, kind))
            .unwrap_or(usize::MAX)
            .min(part.rows());
        (0..used).filter_map(move |i| self.row(part, kind, i))
    }
}
