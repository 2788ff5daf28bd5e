// The flat numbers of the C face: calls written as numbers, and what numbers mean, read anew from the face's rules.

use std::ops::Range;

use crate::added::RECORD;
use crate::calls::{Add, Call, Choice, Hold, Need, PoolRange, Request};

/// Numbers of a flat request.
pub const REQUEST: usize = 12;

/// One call of the C face, with all numbers that it is handed.
#[derive(Clone, Debug, PartialEq, Eq)]
pub enum Step {
    /// Adding, starting, one request or a withdrawal.
    Call(Vec<u64>),
    /// One request that is lent so many numbers for its record.
    Allocate { request: Vec<u64>, lent: usize },
    /// A plan that is lent so many numbers for its results.
    Plan { requests: Vec<u64>, results: usize },
}

/// What a step asks for.
#[derive(Clone, Debug, PartialEq, Eq)]
pub enum Meaning {
    Call(Call),
    /// A request that is lent so many numbers for its record.
    Lent(Request, usize),
    /// Numbers that are no call: 2.
    NoAdd,
    /// A list that ends before its call or within a request: 11, after 1 where it asks.
    Cut {
        asks: bool,
    },
}

/// A call as a step. The call of one kind is not in the C face: the door with a lent record is asked in its place.
pub fn step_of(call: &Call) -> Step {
    match call {
        Call::Add(add) => Step::Call(numbers_of_add(add)),
        Call::Start => Step::Call(vec![3]),
        Call::Request(request) => {
            let mut numbers = vec![4];
            numbers.extend(numbers_of_request(request));
            Step::Call(numbers)
        }
        Call::OfKind(request) => Step::Allocate { request: numbers_of_request(request).to_vec(), lent: RECORD },
        Call::Plan { requests, results } => {
            Step::Plan { requests: requests.iter().flat_map(numbers_of_request).collect(), results: *results }
        }
        Call::Withdraw { requester } => Step::Call(vec![5, u64::from(*requester)]),
    }
}

fn numbers_of_add(add: &Add) -> Vec<u64> {
    match add {
        Add::Pool { fixed, range } => {
            let mut numbers = vec![1, u64::from(*fixed)];
            match range {
                PoolRange::Mmio(r) => numbers.extend([1, r.start, r.end]),
                PoolRange::Pio(r) => numbers.extend([2, r.start.into(), r.end.into()]),
                PoolRange::Input { controller, inputs } => {
                    numbers.extend([3, u64::from(*controller), inputs.start, inputs.end])
                }
                PoolRange::Host(r) => numbers.extend([4, r.start, r.end]),
            }
            numbers
        }
        Add::Domain { fixed, controller, its, devices, events, lpis } => {
            let mut numbers = vec![1, u64::from(*fixed), 5, u64::from(*controller), u64::from(*its)];
            for range in [devices, events, lpis] {
                numbers.extend(bounds(range));
            }
            numbers
        }
        Add::Hold { owner, what } => {
            let mut numbers = vec![2, u64::from(*owner)];
            numbers.extend(numbers_of_hold(what));
            numbers
        }
        Add::Pair { owner, controller, input, host, trigger } => {
            vec![2, u64::from(*owner), 8, u64::from(*controller), *input, u64::from(*trigger), *host]
        }
    }
}

fn numbers_of_hold(what: &Hold) -> Vec<u64> {
    match what {
        Hold::Mmio(r) => vec![1, r.start, r.end],
        Hold::Pio(r) => vec![2, r.start.into(), r.end.into()],
        Hold::Input { controller, input, trigger, sharing } => {
            vec![3, u64::from(*controller), *input, u64::from(*trigger), u64::from(*sharing)]
        }
        Hold::Host(r) => vec![4, r.start, r.end],
        Hold::Device { controller, its, devices } => {
            [&[5, u64::from(*controller), u64::from(*its)][..], &bounds(devices)].concat()
        }
        Hold::Event { controller, its, device, events } => {
            [&[6, u64::from(*controller), u64::from(*its), u64::from(*device)][..], &bounds(events)].concat()
        }
        Hold::Lpi { controller, lpis } => [&[7, u64::from(*controller)][..], &bounds(lpis)].concat(),
    }
}

fn bounds(range: &Range<u32>) -> [u64; 2] {
    [range.start.into(), range.end.into()]
}

/// The twelve numbers of a request.
pub fn numbers_of_request(request: &Request) -> [u64; REQUEST] {
    let mut numbers = [0; REQUEST];
    let mut put = |from: usize, some: &[u64]| numbers[from..from + some.len()].copy_from_slice(some);
    let (kind, three, choices): (u64, [u64; 3], [Choice<u64>; 3]) = match request.need {
        Need::Mmio { size, alignment, base } => (1, [size, alignment, 0], [base, Choice::Auto, Choice::Auto]),
        Need::Pio { size, alignment, base } => {
            (2, [size.into(), alignment.into(), 0], [wide(base), Choice::Auto, Choice::Auto])
        }
        Need::Input { controller, trigger, sharing, input } => {
            (3, [controller, trigger, sharing].map(u64::from), [input, Choice::Auto, Choice::Auto])
        }
        Need::Host { irq } => (4, [0; 3], [irq, Choice::Auto, Choice::Auto]),
        Need::Msi { controller, its, count, device, event, lpi } => {
            (5, [controller, its, count].map(u64::from), [wide(device), wide(event), wide(lpi)])
        }
    };
    put(0, &[kind, request.requester.into(), request.slot.into()]);
    put(3, &three);
    for (i, choice) in choices.iter().enumerate() {
        match choice {
            Choice::Auto => put(6 + 2 * i, &[0, 0]),
            Choice::Fixed(number) => put(6 + 2 * i, &[1, *number]),
        }
    }
    numbers
}

fn wide<T: Into<u64>>(choice: Choice<T>) -> Choice<u64> {
    match choice {
        Choice::Auto => Choice::Auto,
        Choice::Fixed(number) => Choice::Fixed(number.into()),
    }
}

/// What a step's numbers say.
pub fn meaning(step: &Step) -> Meaning {
    match step {
        Step::Call(numbers) => meaning_of_call(numbers),
        Step::Allocate { request, lent } if request.len() >= REQUEST => {
            Meaning::Lent(request_of(&request[..REQUEST]), *lent)
        }
        Step::Plan { requests, results } if requests.len() % REQUEST == 0 => {
            let requests = requests.chunks(REQUEST).map(request_of).collect();
            Meaning::Call(Call::Plan { requests, results: *results })
        }
        Step::Allocate { .. } | Step::Plan { .. } => Meaning::Cut { asks: true },
    }
}

/// Numbers behind those that the call needs are not looked at.
fn meaning_of_call(numbers: &[u64]) -> Meaning {
    let at = |place: usize| numbers.get(place).copied().unwrap_or(0);
    let Some(numbers) = numbers.get(..numbers_needed(at(0), at(2))) else {
        return Meaning::Cut { asks: matches!(at(0), 4 | 5) };
    };
    match numbers[0] {
        1 | 2 => add_of(numbers).map_or(Meaning::NoAdd, |add| Meaning::Call(Call::Add(add))),
        3 => Meaning::Call(Call::Start),
        4 => Meaning::Call(Call::Request(request_of(&numbers[1..]))),
        // too large for its field is nobody too, which is 2
        5 => Meaning::Call(Call::Withdraw { requester: narrow(numbers[1]).unwrap_or(0) }),
        _ => Meaning::NoAdd,
    }
}

/// How many numbers a call has, by its first and its kind.
fn numbers_needed(first: u64, kind: u64) -> usize {
    match (first, kind) {
        (1, 1 | 2 | 4) => 5,
        (1, 3) => 6,
        (1, 5) => 11,
        (2, 1 | 2 | 4) => 5,
        (2, 7) => 6,
        (2, 3 | 5 | 8) => 7,
        (2, 6) => 8,
        (1 | 2, _) => 3,
        (4, _) => 1 + REQUEST,
        (5, _) => 2,
        _ => 1,
    }
}

/// A flat request. One whose numbers say nothing is a request of requester 0, which is 2.
pub fn request_of(numbers: &[u64]) -> Request {
    let bad = Request { requester: 0, slot: 0, need: Need::Host { irq: Choice::Auto } };
    read_request(numbers).unwrap_or(bad)
}

fn read_request(numbers: &[u64]) -> Option<Request> {
    let &[kind, requester, slot, a, b, c, code1, n1, code2, n2, code3, n3] = numbers else { return None };
    let need = match kind {
        1 => Need::Mmio { size: a, alignment: b, base: choice(code1, n1)? },
        2 => Need::Pio { size: narrow(a)?, alignment: narrow(b)?, base: choice(code1, n1)? },
        3 => {
            Need::Input { controller: narrow(a)?, trigger: narrow(b)?, sharing: narrow(c)?, input: choice(code1, n1)? }
        }
        4 => Need::Host { irq: choice(code1, n1)? },
        5 => Need::Msi {
            controller: narrow(a)?,
            its: narrow(b)?,
            count: narrow(c)?,
            device: choice(code1, n1)?,
            event: choice(code2, n2)?,
            lpi: choice(code3, n3)?,
        },
        _ => return None,
    };
    Some(Request { requester: narrow(requester)?, slot: narrow(slot)?, need })
}

fn choice<T: TryFrom<u64>>(code: u64, number: u64) -> Option<Choice<T>> {
    match code {
        0 => Some(Choice::Auto),
        1 => Some(Choice::Fixed(narrow(number)?)),
        _ => None,
    }
}

fn narrow<T: TryFrom<u64>>(number: u64) -> Option<T> {
    T::try_from(number).ok()
}

fn range<T: TryFrom<u64>>(start: u64, end: u64) -> Option<Range<T>> {
    Some(narrow(start)?..narrow(end)?)
}

fn add_of(numbers: &[u64]) -> Option<Add> {
    match numbers {
        [1, chosen, rest @ ..] => pool_of(fixed(*chosen)?, rest),
        [2, owner, 8, controller, input, trigger, host] => Some(Add::Pair {
            owner: narrow(*owner)?,
            controller: narrow(*controller)?,
            input: *input,
            host: *host,
            trigger: narrow(*trigger)?,
        }),
        [2, owner, rest @ ..] => Some(Add::Hold { owner: narrow(*owner)?, what: hold_of(rest)? }),
        _ => None,
    }
}

fn fixed(code: u64) -> Option<bool> {
    match code {
        0 => Some(false),
        1 => Some(true),
        _ => None,
    }
}

fn pool_of(fixed: bool, numbers: &[u64]) -> Option<Add> {
    let range = match *numbers {
        [1, start, end] => PoolRange::Mmio(start..end),
        [2, start, end] => PoolRange::Pio(range(start, end)?),
        [3, controller, start, end] => PoolRange::Input { controller: narrow(controller)?, inputs: start..end },
        [4, start, end] => PoolRange::Host(start..end),
        [5, controller, its, d, d_end, e, e_end, l, l_end] => {
            return Some(Add::Domain {
                fixed,
                controller: narrow(controller)?,
                its: narrow(its)?,
                devices: range(d, d_end)?,
                events: range(e, e_end)?,
                lpis: range(l, l_end)?,
            })
        }
        _ => return None,
    };
    Some(Add::Pool { fixed, range })
}

fn hold_of(numbers: &[u64]) -> Option<Hold> {
    Some(match *numbers {
        [1, start, end] => Hold::Mmio(start..end),
        [2, start, end] => Hold::Pio(range(start, end)?),
        [3, controller, input, trigger, sharing] => {
            Hold::Input { controller: narrow(controller)?, input, trigger: narrow(trigger)?, sharing: narrow(sharing)? }
        }
        [4, start, end] => Hold::Host(start..end),
        [5, controller, its, start, end] => {
            Hold::Device { controller: narrow(controller)?, its: narrow(its)?, devices: range(start, end)? }
        }
        [6, controller, its, device, start, end] => Hold::Event {
            controller: narrow(controller)?,
            its: narrow(its)?,
            device: narrow(device)?,
            events: range(start, end)?,
        },
        [7, controller, start, end] => Hold::Lpi { controller: narrow(controller)?, lpis: range(start, end)? },
        _ => return None,
    })
}
