// Our library behind the face that is compared: every foreign call of this project stands here.

use std::mem::size_of;

use crate::added::{HELD_ROWS as ROWS, POOL_ROWS};
use crate::calls::{Kind, Place, Row, Tables};
use crate::compare::face::{Face, Said, LENT};
use crate::compare::flat::Step;
use crate::pinned::Pinned;
#[cfg(feature = "ours-text")]
use crate::pinned::BYTE;

/// One call in so many is followed by the calls that read back.
const LOOK: u64 = 31;

/// A pool table as the library lays it out.
#[repr(C)]
struct Pool {
    n: u64,
    controller: [u32; POOL_ROWS],
    its: [u32; POOL_ROWS],
    start: [u64; POOL_ROWS],
    end: [u64; POOL_ROWS],
}

/// A table of reservations or owners, of every kind but inputs.
#[repr(C)]
struct Ranges {
    n: u64,
    controller: [u32; ROWS],
    its: [u32; ROWS],
    device: [u32; ROWS],
    start: [u64; ROWS],
    end: [u64; ROWS],
    owner: [u32; ROWS],
}

/// A table of reserved or owned inputs.
#[repr(C)]
struct Inputs {
    n: u64,
    controller: [u32; ROWS],
    input: [u64; ROWS],
    trigger: [u32; ROWS],
    sharing: [u32; ROWS],
    owner: [u32; ROWS],
}

#[repr(C)]
struct Holders {
    mmio: Ranges,
    pio: Ranges,
    input: Inputs,
    host: Ranges,
    device: Ranges,
    event: Ranges,
    lpi: Ranges,
}

/// The whole state, so that every number of every table can be looked at, unused rows too.
#[repr(C)]
pub struct State {
    auto: [Pool; 7],
    fixed: [Pool; 7],
    held: Holders,
    owners: Holders,
    answer: [u64; 5],
}

extern "C" {
    fn planner_state_size() -> u64;
    fn planner_fresh(state: *mut State, size: u64) -> u64;
    fn planner_call(
        state: *mut State,
        size: u64,
        numbers: *const u64,
        length: usize,
        answer: *mut u64,
        answer_length: usize,
    ) -> u64;
    fn planner_allocate(
        state: *mut State,
        size: u64,
        request: *const u64,
        length: usize,
        record: *mut u64,
        record_length: usize,
    ) -> u64;
    fn planner_plan(
        state: *mut State,
        size: u64,
        requests: *const u64,
        length: usize,
        results: *mut u64,
        results_length: usize,
    ) -> u64;
    fn planner_read(
        state: *const State,
        size: u64,
        what: *const u64,
        length: usize,
        out: *mut u64,
        out_length: usize,
    ) -> u64;
    #[cfg(feature = "ours-text")]
    fn planner_text(text: *const u8, length: usize, out: *mut u8, out_length: usize) -> u64;
    #[cfg(feature = "ours-text")]
    fn planner_pin_text(
        text: *const u8,
        length: usize,
        out: *mut u8,
        out_length: usize,
        answer: *mut u64,
        answer_length: usize,
    ) -> u64;
}

/// Bytes that hold any output of the text call.
#[cfg(feature = "ours-text")]
pub const OUTPUT: usize = crate::added::PLAN_REQUESTS * (8 + 8 * FIELD) + 4 + FIELD;

/// A number behind its tab, of twenty digits at the most.
#[cfg(feature = "ours-text")]
const FIELD: usize = 21;

/// The bytes behind a lent buffer that are looked at.
#[cfg(feature = "ours-text")]
const BEHIND: usize = 8;

/// The text call as it is.
#[cfg(feature = "ours-text")]
pub fn text_into(text: &[u8], out: &mut [u8]) -> usize {
    // SAFETY: both lists have their lengths.
    unsafe { planner_text(text.as_ptr(), text.len(), out.as_mut_ptr(), out.len()) as usize }
}

/// The call that writes a text back, as it is.
#[cfg(feature = "ours-text")]
pub fn pin_into(text: &[u8], out: &mut [u8], answer: &mut [u64]) -> usize {
    let (room, told) = (out.len(), answer.len());
    // SAFETY: each list has its length.
    unsafe { planner_pin_text(text.as_ptr(), text.len(), out.as_mut_ptr(), room, answer.as_mut_ptr(), told) as usize }
}

/// A state of the library's own.
pub struct Library {
    state: Box<State>,
    size: u64,
    calls: u64,
    looks: u64,
}

impl Library {
    pub fn new() -> Self {
        // SAFETY: the call takes nothing.
        let size = unsafe { planner_state_size() };
        assert_eq!(size, size_of::<State>() as u64, "the library's state is laid out otherwise");
        // SAFETY: the state is numbers all through, and any number may be handed in.
        let state = unsafe { Box::<State>::new_zeroed().assume_init() };
        let mut library = Self { state, size, calls: 0, looks: 0 };
        library.fresh();
        library
    }

    /// What the library tells of itself, in a list of so many numbers.
    fn read<const N: usize>(&self, what: &[u64]) -> [u64; N] {
        let mut out = [LENT; N];
        // SAFETY: the state has the library's size, and each list its length.
        let said = unsafe { planner_read(&*self.state, self.size, what.as_ptr(), what.len(), out.as_mut_ptr(), N) };
        assert_eq!(said, 0, "nothing told of {what:?}");
        out
    }

    /// Now and then, by the library's own call, the last answer and one row against what is stored: each time another table.
    fn look(&mut self, tables: &Tables) {
        self.calls += 1;
        if !self.calls.is_multiple_of(LOOK) {
            return;
        }
        self.looks += 1;
        assert_eq!(self.read::<5>(&[0]), self.state.answer, "the answer read back is not the answer stored");
        let (part, kind) = (self.looks % 4, self.looks / 4 % 7);
        let place = [Place::Auto, Place::Fixed, Place::Held, Place::Owner][part as usize];
        let rows = tables.of(place, Kind::ALL[kind as usize]);
        let limit = if part < 2 { POOL_ROWS } else { ROWS };
        let at = self.looks / 28 % (rows.len() + 1).min(limit) as u64;
        let row = rows.get(at as usize).copied().unwrap_or_default();
        let [controller, its, device] = row.domain.map(u64::from);
        let [trigger, sharing, owner] = [row.trigger, row.sharing, row.owner].map(u64::from);
        let stored = [rows.len() as u64, controller, its, device, row.start, row.end, trigger, sharing, owner, LENT];
        let told: [u64; 10] = self.read(&[part + 1, kind + 1, at]);
        assert_eq!(told, stored, "row {at} of {place:?} {:?}", Kind::ALL[kind as usize]);
    }
}

impl Default for Library {
    fn default() -> Self {
        Self::new()
    }
}

impl Face for Library {
    fn fresh(&mut self) {
        // SAFETY: the state has the library's size.
        let said = unsafe { planner_fresh(&mut *self.state, self.size) };
        assert_eq!(said, 0, "no fresh state");
    }

    fn step(&mut self, step: &Step) -> Said {
        let (state, size): (*mut State, u64) = (&mut *self.state, self.size);
        let (mut five, mut lent) = ([LENT; 5], vec![LENT; lent_to(step)]);
        let (out, room) = (lent.as_mut_ptr(), lent.len());
        // SAFETY: the state has the library's size, and each list its length.
        let said = unsafe {
            match step {
                Step::Call(numbers) => {
                    planner_call(state, size, numbers.as_ptr(), numbers.len(), five.as_mut_ptr(), five.len())
                }
                Step::Allocate { request, .. } => {
                    planner_allocate(state, size, request.as_ptr(), request.len(), out, room)
                }
                Step::Plan { requests, .. } => planner_plan(state, size, requests.as_ptr(), requests.len(), out, room),
            }
        };
        let answer = self.state.answer;
        let filled = match step {
            Step::Call(_) => {
                assert_eq!((said, five), (answer[0], answer), "the answer told is not the answer stored");
                0
            }
            Step::Allocate { .. } => {
                assert_eq!(said, answer[0], "the number given back is not the answer's");
                0
            }
            Step::Plan { .. } => said as usize,
        };
        Said { answer, filled, lent }
    }

    fn tables(&mut self) -> Tables {
        let state = &*self.state;
        let tables = Tables {
            auto: std::array::from_fn(|kind| pool_rows(&state.auto[kind])),
            fixed: std::array::from_fn(|kind| pool_rows(&state.fixed[kind])),
            held: holder_rows(&state.held),
            owners: holder_rows(&state.owners),
        };
        self.look(&tables);
        tables
    }

    #[cfg(feature = "ours-text")]
    fn text(&mut self, text: &[u8]) -> Vec<u8> {
        let mut out = vec![BYTE; OUTPUT + BEHIND];
        let length = text_into(text, &mut out[..OUTPUT]);
        assert!(length <= OUTPUT, "an output of {length} bytes");
        assert!(out[length..].iter().all(|byte| *byte == BYTE), "bytes behind the output are written");
        out.truncate(length);
        out
    }

    /// Now and then without room for the answer: it is then not told, and all else is the same.
    #[cfg(feature = "ours-text")]
    fn pin(&mut self, text: &[u8], room: usize) -> Pinned {
        let (mut out, mut told) = (vec![BYTE; room + BEHIND], [LENT; 6]);
        let length = pin_into(text, &mut out[..room], &mut told);
        assert_eq!(out[room..], [BYTE; BEHIND], "bytes behind the buffer are written");
        let [answer @ .., sixth] = told;
        assert_eq!(sixth, LENT, "a number behind the answer is written");
        out.truncate(room);
        self.calls += 1;
        if self.calls.is_multiple_of(LOOK) {
            let (mut other, mut short) = (vec![BYTE; room], [LENT; 4]);
            assert_eq!(pin_into(text, &mut other, &mut short), length, "the count without room for the answer");
            assert!((&other, short) == (&out, [LENT; 4]), "what is written without room for the answer");
        }
        Pinned { answer, length, lent: out }
    }

    #[cfg(not(feature = "ours-text"))]
    fn text(&mut self, _text: &[u8]) -> Vec<u8> {
        unreachable!("this library has no text call")
    }

    #[cfg(not(feature = "ours-text"))]
    fn pin(&mut self, _text: &[u8], _room: usize) -> Pinned {
        unreachable!("this library has no text call")
    }
}

/// Numbers lent to a step.
fn lent_to(step: &Step) -> usize {
    match step {
        Step::Call(_) => 0,
        Step::Allocate { lent, .. } => *lent,
        Step::Plan { results, .. } => *results,
    }
}

/// The used rows; an unused row that is not zero is shown behind them, where nothing can be equal to it.
fn rows_of<const N: usize>(n: u64, zero: bool, row: impl Fn(usize) -> Row) -> Vec<Row> {
    let used = (n as usize).min(N);
    let shown = if zero { used } else { N };
    (0..shown).map(row).collect()
}

fn pool_rows(pool: &Pool) -> Vec<Row> {
    let used = (pool.n as usize).min(POOL_ROWS);
    let zero = zeros(&pool.controller[used..])
        && zeros(&pool.its[used..])
        && zeros(&pool.start[used..])
        && zeros(&pool.end[used..]);
    rows_of::<POOL_ROWS>(pool.n, zero, |at| Row {
        domain: [pool.controller[at], pool.its[at], 0],
        start: pool.start[at],
        end: pool.end[at],
        ..Row::default()
    })
}

fn range_rows(table: &Ranges) -> Vec<Row> {
    let used = (table.n as usize).min(ROWS);
    let zero = zeros(&table.controller[used..])
        && zeros(&table.its[used..])
        && zeros(&table.device[used..])
        && zeros(&table.start[used..])
        && zeros(&table.end[used..])
        && zeros(&table.owner[used..]);
    rows_of::<ROWS>(table.n, zero, |at| Row {
        domain: [table.controller[at], table.its[at], table.device[at]],
        start: table.start[at],
        end: table.end[at],
        owner: table.owner[at],
        ..Row::default()
    })
}

fn input_rows(table: &Inputs) -> Vec<Row> {
    let used = (table.n as usize).min(ROWS);
    let zero = zeros(&table.controller[used..])
        && zeros(&table.input[used..])
        && zeros(&table.trigger[used..])
        && zeros(&table.sharing[used..])
        && zeros(&table.owner[used..]);
    rows_of::<ROWS>(table.n, zero, |at| Row {
        domain: [table.controller[at], 0, 0],
        start: table.input[at],
        end: 0,
        trigger: table.trigger[at],
        sharing: table.sharing[at],
        owner: table.owner[at],
    })
}

fn holder_rows(holders: &Holders) -> [Vec<Row>; 7] {
    [
        range_rows(&holders.mmio),
        range_rows(&holders.pio),
        input_rows(&holders.input),
        range_rows(&holders.host),
        range_rows(&holders.device),
        range_rows(&holders.event),
        range_rows(&holders.lpi),
    ]
}

fn zeros<T: Copy + Into<u64>>(numbers: &[T]) -> bool {
    numbers.iter().fold(0, |all, number| all | (*number).into()) == 0
}
