//! Plans: requests, their results, and the results written back into the requests.

use crate::{answer, raw, Refusal, Request, MOST, RECORD, REQUEST, WORDS};
use core::fmt;

/// What was granted: nine numbers. Kind, requester, slot; then of memory and ports base and size, of an input controller, input, trigger and
/// sharing, of a host IRQ its number, of an MSI request controller, ITS, device, first event, first LPI and count.
#[derive(Clone, Copy, Debug, PartialEq, Eq)]
pub struct Granted([u64; RECORD]);

impl Granted {
    pub(crate) fn of(record: [u64; RECORD]) -> Self {
        Self(record)
    }

    pub fn numbers(&self) -> [u64; RECORD] {
        self.0
    }

    pub fn requester(&self) -> u64 {
        self.0[1]
    }

    pub fn slot(&self) -> u64 {
        self.0[2]
    }

    /// The number chosen: the base, the input, the host IRQ; of an MSI request the device.
    pub fn number(&self) -> u64 {
        match self.0[0] {
            3 => self.0[4],
            5 => self.0[5],
            _ => self.0[3],
        }
    }
}

/// A refused plan: which request, and why. Of tables or lists that do not do the index is 0.
#[derive(Clone, Copy, Debug, PartialEq, Eq)]
pub struct PlanRefusal {
    pub index: usize,
    pub refusal: Refusal,
}

impl fmt::Display for PlanRefusal {
    fn fmt(&self, f: &mut fmt::Formatter<'_>) -> fmt::Result {
        write!(f, "request {}: {}", self.index, self.refusal)
    }
}

impl core::error::Error for PlanRefusal {}

/// Up to [`MOST`] requests, and room for their results, all of it in the struct: keep it off a small stack.
///
/// ```
/// use thurgoleo::{Choice, Plan, Planner, Pool, Request, Use, Want};
///
/// let mut planner = Planner::new().unwrap();
/// for used in [Use::Automatic, Use::Fixed] {
///     planner.add_pool(used, Pool::Input { controller: 0, start: 16, end: 24 }).unwrap();
/// }
/// let again = planner.clone();
///
/// let mut plan = Plan::new();
/// plan.push(&Request { requester: 1, slot: 0, want: Want::Input { controller: 0, trigger: 0, sharing: 0, choice: Choice::Auto } }).unwrap();
/// planner.plan(&mut plan).unwrap();
/// assert_eq!(plan.granted().next().unwrap().number(), 16);
///
/// // pinned, the plan asks for what it was given, and gets it again
/// plan.pin();
/// assert_eq!(plan.requests()[6..8], [1, 16]);
/// let mut planner = again;
/// planner.plan(&mut plan).unwrap();
/// assert_eq!(plan.granted().next().unwrap().number(), 16);
/// ```
#[derive(Clone)]
pub struct Plan {
    requests: [u64; REQUEST * MOST],
    asked: usize,
    results: [u64; RECORD * MOST],
    filled: usize,
}

impl Default for Plan {
    fn default() -> Self {
        Self::new()
    }
}

impl Plan {
    pub const fn new() -> Self {
        Self {
            requests: [0; REQUEST * MOST],
            asked: 0,
            results: [0; RECORD * MOST],
            filled: 0,
        }
    }

    /// One request more; a plan has at most [`MOST`].
    pub fn push(&mut self, request: &Request) -> Result<(), Refusal> {
        if self.asked == MOST {
            return Err(Refusal::Short);
        }
        self.requests[REQUEST * self.asked..][..REQUEST].copy_from_slice(&request.numbers());
        self.asked += 1;
        Ok(())
    }

    /// The numbers of the requests, twelve each.
    pub fn requests(&self) -> &[u64] {
        &self.requests[..REQUEST * self.asked]
    }

    /// What the last run granted, in the requests' order.
    pub fn granted(&self) -> impl Iterator<Item = Granted> + '_ {
        self.results[..self.filled]
            .chunks_exact(RECORD)
            .map(|x| Granted(core::array::from_fn(|i| x[i])))
    }

    /// Writes what the last run granted back into the requests: what was automatic is then asked for by its number. Requests that were not granted stay.
    /// For a single request there is [`Request::pinned`], for a plan that is a text [`pin_text`](crate::pin_text).
    pub fn pin(&mut self) {
        raw::pin(
            &mut self.requests[..REQUEST * self.asked],
            &self.results[..self.filled],
        );
    }

    /// Runs the requests on a state whose last answer is unsaid, and keeps how much was filled. The count that the call answers with and the answer in the state
    /// must say the same; else nothing counts as filled, and the plan as Malformed.
    pub(crate) fn run(&mut self, state: &mut [u64; WORDS]) -> Result<(), PlanRefusal> {
        self.filled = 0;
        let filled = raw::plan(
            state,
            &self.requests[..REQUEST * self.asked],
            &mut self.results[..RECORD * self.asked],
        );
        let answer = answer::answer(state);
        let granted = match answer[0] {
            0 => self.asked,
            _ => answer[1].min(self.asked as u64) as usize,
        };
        if filled != (RECORD * granted) as u64 {
            return Err(PlanRefusal {
                index: 0,
                refusal: Refusal::Malformed,
            });
        }
        self.filled = RECORD * granted;
        Refusal::of(&answer).map_err(|refusal| PlanRefusal {
            index: granted,
            refusal,
        })
    }
}
