// What ships: the C face, and the doors of the plan over a list of requests.

use crate::list::Request;
use crate::tables::{State, RECORD};
use oracle::added::PLAN_REQUESTS;

/// A request as twelve numbers.
pub type Flat = [u64; 12];

mod exported {
    use super::State;

    // Each list is a pointer and a length.
    extern "C" {
        pub fn planner_call(s: *mut State, size: u64, call: *const u64, n: usize, answer: *mut u64, m: usize) -> u64;
        pub fn planner_allocate(s: *mut State, size: u64, asked: *const u64, n: usize, out: *mut u64, m: usize) -> u64;
        pub fn planner_plan(s: *mut State, size: u64, asked: *const u64, n: usize, out: *mut u64, m: usize) -> u64;
        pub fn planner_read(s: *const State, size: u64, what: *const u64, n: usize, out: *mut u64, m: usize) -> u64;
        pub fn planner_pin(requests: *mut u64, n: usize, results: *const u64, m: usize);
        pub fn planner_text(text: *const u8, n: usize, out: *mut u8, m: usize) -> u64;
        pub fn planner_pin_text(text: *const u8, n: usize, out: *mut u8, m: usize, answer: *mut u64, k: usize) -> u64;
    }
}

/// A slice as the proved code passes it on: behind a pointer to these two.
#[repr(C)]
struct Slice<T> {
    first: *mut T,
    n: usize,
}

mod doors {
    use super::{Request, Slice, State};

    // No exports, but functions of the program `lists`, which `run` makes visible.
    extern "C" {
        #[link_name = "plan::list::plan_in"]
        pub fn plan_in(state: *mut State, requests: *const Slice<Request>, results: *const Slice<u64>);
        #[link_name = "plan::list::plan"]
        pub fn plan(
            part: *mut Slice<u64>,
            state: *mut State,
            requests: *const Slice<Request>,
            results: *const Slice<u64>,
        );
    }
}

const SIZE: u64 = size_of::<State>() as u64;

/// A state with room behind it for the records of the longest plan.
#[repr(C)]
#[derive(Clone)]
pub struct Lent {
    pub state: State,
    pub results: [u64; RECORD * PLAN_REQUESTS],
}

impl Lent {
    pub fn of(state: &State) -> Box<Self> {
        Box::new(Lent { state: *state, results: [0; RECORD * PLAN_REQUESTS] })
    }

    /// One request with its record.
    pub fn allocate(&mut self, asked: &Flat) -> u64 {
        let (state, out) = (&mut self.state, &mut self.results[..RECORD]);
        // SAFETY: a whole state with its size, and whole lists.
        unsafe { exported::planner_allocate(state, SIZE, asked.as_ptr(), asked.len(), out.as_mut_ptr(), out.len()) }
    }

    /// A plan. One of no requests tests the tables and does nothing else.
    pub fn plan(&mut self, asked: &[Flat]) -> u64 {
        let (list, out) = (asked.as_flattened(), &mut self.results);
        // SAFETY: a whole state with its size, and whole lists.
        unsafe { exported::planner_plan(&mut self.state, SIZE, list.as_ptr(), list.len(), out.as_mut_ptr(), out.len()) }
    }

    /// The same plan over a list of requests.
    pub fn list_in(&mut self, asked: &[Request]) {
        let (list, results) = slices(&mut self.results, asked);
        // SAFETY: a whole state and whole lists; the requests are only read.
        unsafe { doors::plan_in(&mut self.state, &list, &results) }
    }

    /// .. and how long the filled part is that it hands back.
    pub fn list_part(&mut self, asked: &[Request]) -> usize {
        let (list, results) = slices(&mut self.results, asked);
        let mut part = Slice { first: std::ptr::null_mut(), n: 0 };
        // SAFETY: as in `list_in`; the part is written by the call.
        unsafe { doors::plan(&mut part, &mut self.state, &list, &results) };
        part.n
    }
}

fn slices(results: &mut [u64], asked: &[Request]) -> (Slice<Request>, Slice<u64>) {
    (
        Slice { first: asked.as_ptr().cast_mut(), n: asked.len() },
        Slice { first: results.as_mut_ptr(), n: results.len() },
    )
}

/// A call that adds or starts, or a request, from its numbers.
pub fn call(state: &mut State, numbers: &[u64]) -> u64 {
    let mut answer = [0; 5];
    // SAFETY: a whole state with its size, and whole lists.
    unsafe { exported::planner_call(state, SIZE, numbers.as_ptr(), numbers.len(), answer.as_mut_ptr(), answer.len()) }
}

pub fn read(state: &State, what: &[u64]) -> u64 {
    let mut out = [0; 16];
    // SAFETY: a whole state with its size, and whole lists.
    unsafe { exported::planner_read(state, SIZE, what.as_ptr(), what.len(), out.as_mut_ptr(), out.len()) }
}

pub fn pin(requests: &mut [Flat], results: &[u64]) {
    let list = requests.as_flattened_mut();
    // SAFETY: whole lists.
    unsafe { exported::planner_pin(list.as_mut_ptr(), list.len(), results.as_ptr(), results.len()) }
}

pub fn text(text: &[u8], out: &mut [u8]) -> u64 {
    // SAFETY: whole lists.
    unsafe { exported::planner_text(text.as_ptr(), text.len(), out.as_mut_ptr(), out.len()) }
}

pub fn pin_text(text: &[u8], out: &mut [u8]) -> u64 {
    let (mut answer, m) = ([0; 5], out.len());
    // SAFETY: whole lists.
    unsafe {
        exported::planner_pin_text(text.as_ptr(), text.len(), out.as_mut_ptr(), m, answer.as_mut_ptr(), answer.len())
    }
}
