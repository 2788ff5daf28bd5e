// Small spaces of calls, all of them: few numbers, every pool, every hold, every two or three requests, every four calls with withdrawals among them.

use super::flat::{step_of, Step};
use super::run::Family;
use super::Digits;
use crate::added::{FIRST_LPI, POOL_ROWS, RECORD};
use crate::calls::{Add, Answer, Call, Choice, Hold, Need, PoolRange, Request};
use crate::judge::Judge;

/// Set-ups, and requests that are asked upon each of them, so many one after the other.
struct Space {
    name: &'static str,
    setups: Vec<Vec<Add>>,
    needs: Vec<Need>,
    depth: usize,
}

pub fn families(large: bool) -> Vec<Family> {
    let numbers = if large { 4 } else { 3 };
    let mut all: Vec<Family> = [
        addresses("mmio at 0", 0, numbers, mmio),
        addresses("mmio at the top", u64::MAX - numbers, numbers, mmio),
        addresses("pio at the top", u64::from(u16::MAX) - numbers, numbers, pio),
        hosts(numbers),
        inputs(),
        messages(large),
    ]
    .into_iter()
    .map(asked)
    .collect();
    all.push(added("pools", pools(), 3));
    all.push(added("holds", holds(), 3));
    all.push(added("holds of LPIs", lpi_holds(), 3));
    all.push(domains());
    all.push(added("inputs and pairs", pairs(), 3));
    all.extend(needed_thrice().map(|(name, needs)| withdrawn(name, needs, if large { 5 } else { 4 })));
    all
}

/// One sequence for each set-up and first request, with every choice of later ones behind it.
fn asked(space: Space) -> Family {
    let firsts = space.needs.len() as u64;
    let name = format!("all calls of {}", space.name);
    Family::calls(&name, space.setups.len() as u64 * firsts, move |index| {
        let mut digits = Digits(index);
        let first = digits.pick(&space.needs);
        let mut tour = Tour { judge: Judge::fresh(), steps: Vec::new(), path: Vec::new() };
        for add in digits.pick(&space.setups) {
            tour.call(Call::Add(add));
        }
        tour.call(Call::Start);
        tour.visit(&first, &space);
        tour.steps
    })
}

/// Calls that go through every list of requests. What is refused changes nothing, so only a granted one is undone: by a start
/// and the requests before it once more.
struct Tour {
    judge: Judge,
    steps: Vec<Step>,
    path: Vec<Request>,
}

impl Tour {
    fn call(&mut self, call: Call) -> Answer {
        self.steps.push(step_of(&call));
        self.judge.call(&call).answer
    }

    fn visit(&mut self, need: &Need, space: &Space) {
        let request = Request { requester: self.path.len() as u32 + 1, slot: 0, need: need.clone() };
        if self.call(Call::Request(request.clone())).is_refused() {
            return;
        }
        self.path.push(request);
        if self.path.len() < space.depth {
            for need in &space.needs {
                self.visit(need, space);
            }
        }
        self.path.pop();
        self.call(Call::Start);
        for request in self.path.clone() {
            self.call(Call::Request(request));
        }
    }
}

/// Every list of so many of the calls that add, from fresh tables.
fn added(name: &str, adds: Vec<Add>, length: u32) -> Family {
    let count = (adds.len() as u64).pow(length);
    Family::calls(&format!("all calls that add {name}"), count, move |index| {
        let mut digits = Digits(index);
        (0..length).map(|_| step_of(&Call::Add(digits.pick(&adds)))).collect()
    })
}

/// All ranges between a base and so many numbers behind it.
fn ranges(base: u64, numbers: u64) -> Vec<std::ops::Range<u64>> {
    (0..numbers).flat_map(|start| (start + 1..=numbers).map(move |end| base + start..base + end)).collect()
}

fn with_none<T: Clone>(some: &[T]) -> Vec<Option<T>> {
    std::iter::once(None).chain(some.iter().cloned().map(Some)).collect()
}

/// A kind of address: a pool range and a hold of it, and a request by size, alignment and base.
struct Address {
    pool: fn(std::ops::Range<u64>) -> PoolRange,
    hold: fn(std::ops::Range<u64>) -> Hold,
    need: fn(u64, u64, Choice<u64>) -> Need,
}

const fn mmio() -> Address {
    Address {
        pool: PoolRange::Mmio,
        hold: Hold::Mmio,
        need: |size, alignment, base| Need::Mmio { size, alignment, base },
    }
}

const fn pio() -> Address {
    Address {
        pool: |r| PoolRange::Pio(r.start as u16..r.end as u16),
        hold: |r| Hold::Pio(r.start as u16..r.end as u16),
        need: |size, alignment, base| {
            let base = match base {
                Choice::Auto => Choice::Auto,
                Choice::Fixed(number) => Choice::Fixed(number as u16),
            };
            Need::Pio { size: size as u16, alignment: alignment as u16, base }
        },
    }
}

/// One or two pools, for both uses, and a hold or none.
fn range_setups(
    base: u64,
    numbers: u64,
    pool: impl Fn(std::ops::Range<u64>) -> PoolRange,
    hold: impl Fn(std::ops::Range<u64>) -> Hold,
) -> Vec<Vec<Add>> {
    let ranges = ranges(base, numbers);
    let mut setups = Vec::new();
    for first in &ranges {
        for second in with_none(&ranges) {
            for held in with_none(&ranges) {
                let mut adds = Vec::new();
                for range in [Some(first.clone()), second.clone()].into_iter().flatten() {
                    for fixed in [false, true] {
                        adds.push(Add::Pool { fixed, range: pool(range.clone()) });
                    }
                }
                adds.extend(held.map(|range| Add::Hold { owner: 9, what: hold(range) }));
                setups.push(adds);
            }
        }
    }
    setups
}

fn choices(base: u64, numbers: u64) -> Vec<Choice<u64>> {
    let mut choices = vec![Choice::Auto];
    choices.extend((0..=numbers).map(|number| Choice::Fixed(base + number)));
    choices
}

fn addresses(name: &'static str, base: u64, numbers: u64, kind: fn() -> Address) -> Space {
    let Address { pool, hold, need } = kind();
    let mut needs = Vec::new();
    for size in 1..=numbers.min(3) {
        for alignment in if numbers > 3 { vec![1, 2, 4] } else { vec![1, 2] } {
            needs.extend(choices(base, numbers).into_iter().map(|base| need(size, alignment, base)));
        }
    }
    Space { name, setups: range_setups(base, numbers, pool, hold), needs, depth: 2 }
}

fn hosts(numbers: u64) -> Space {
    let needs = choices(0, numbers).into_iter().map(|irq| Need::Host { irq }).collect();
    Space { name: "host", setups: range_setups(0, numbers, PoolRange::Host, Hold::Host), needs, depth: 3 }
}

/// Two numbers, two triggers, both sharings.
fn inputs() -> Space {
    let codes = [(0, 0), (0, 1), (1, 0), (1, 1)];
    let holds: Vec<Hold> = (0..2)
        .flat_map(|input| codes.map(|(trigger, sharing)| Hold::Input { controller: 0, input, trigger, sharing }))
        .collect();
    let mut setups = Vec::new();
    for first in ranges(0, 2) {
        for second in ranges(0, 2) {
            for held in with_none(&holds) {
                let pool = |fixed, inputs| Add::Pool { fixed, range: PoolRange::Input { controller: 0, inputs } };
                let mut adds = vec![pool(false, first.clone()), pool(true, second.clone())];
                adds.extend(held.map(|what| Add::Hold { owner: 9, what }));
                setups.push(adds);
            }
        }
    }
    let mut needs = Vec::new();
    for input in choices(0, 1) {
        needs.extend(codes.map(|(trigger, sharing)| Need::Input { controller: 0, trigger, sharing, input }));
    }
    Space { name: "input", setups, needs, depth: 3 }
}

/// One or two ITSs of one controller; each of the three choices automatic or fixed on its own.
fn messages(large: bool) -> Space {
    let mut setups = Vec::new();
    let ends: &[[u32; 3]] =
        if large { &[[1, 1, 1], [1, 2, 3], [2, 1, 3], [2, 2, 2], [2, 2, 4]] } else { &[[1, 2, 3], [2, 2, 4]] };
    let its = if large { 2 } else { 1 };
    let holds = [
        Hold::Device { controller: 0, its: 0, devices: 0..1 },
        Hold::Event { controller: 0, its: 0, device: 0, events: 0..1 },
        Hold::Lpi { controller: 0, lpis: FIRST_LPI..FIRST_LPI + 1 },
    ];
    for [devices, events, lpis] in ends {
        for held in with_none(&holds) {
            let mut adds = Vec::new();
            for its in 0..its {
                for fixed in [false, true] {
                    let (devices, events, lpis) = (0..*devices, 0..*events, FIRST_LPI..FIRST_LPI + lpis);
                    adds.push(Add::Domain { fixed, controller: 0, its, devices, events, lpis });
                }
            }
            adds.extend(held.map(|what| Add::Hold { owner: 9, what }));
            setups.push(adds);
        }
    }
    let three = [Choice::Auto, Choice::Fixed(0), Choice::Fixed(1)];
    // the first of them is never pooled
    let lpis = [Choice::Auto, Choice::Fixed(FIRST_LPI - 1), Choice::Fixed(FIRST_LPI), Choice::Fixed(FIRST_LPI + 1)];
    let mut needs = Vec::new();
    for its in 0..its {
        for count in [1, 2] {
            for device in three {
                for event in three {
                    needs.extend(lpis.map(|lpi| Need::Msi { controller: 0, its, count, device, event, lpi }));
                }
            }
        }
    }
    Space { name: "msi", setups, needs, depth: 2 }
}

/// Pool ranges of both uses, empty and turned round ones too, and MSI domains; LPIs on both sides of the least.
fn pools() -> Vec<Add> {
    let mut adds = Vec::new();
    for (start, end) in [(0, 1), (0, 2), (1, 2), (1, 3), (2, 2), (3, 1)] {
        let wide = start..end;
        let (narrow, half) = (start as u32..end as u32, start as u16..end as u16);
        for range in [
            PoolRange::Mmio(wide.clone()),
            PoolRange::Pio(half),
            PoolRange::Host(wide.clone()),
            PoolRange::Input { controller: 0, inputs: wide.clone() },
            PoolRange::Input { controller: 1, inputs: wide },
        ] {
            adds.push(Add::Pool { fixed: start == 1, range });
        }
        let lpi = FIRST_LPI..FIRST_LPI + 1;
        let lpis = |first: u32| first + start as u32..first + end as u32;
        for (devices, events, lpis) in [
            (narrow.clone(), 0..1, lpi.clone()),
            (0..1, narrow, lpi),
            (0..1, 0..1, lpis(FIRST_LPI)),
            (0..1, 0..1, lpis(FIRST_LPI - 1)),
        ] {
            adds.push(Add::Domain { fixed: start == 1, controller: 0, its: 1, devices, events, lpis });
        }
    }
    adds
}

/// Reservations of the range kinds in two domains.
fn holds() -> Vec<Add> {
    let mut adds = Vec::new();
    for (owner, start, end) in [(1, 0, 1), (2, 0, 3), (3, 1, 2), (4, 2, 2), (0, 4, 5)] {
        let wide = start..end;
        let narrow = || start as u32..end as u32;
        for what in [
            Hold::Mmio(wide.clone()),
            Hold::Pio(start as u16..end as u16),
            Hold::Host(wide),
            Hold::Device { controller: 0, its: 0, devices: narrow() },
            Hold::Device { controller: 0, its: 1, devices: narrow() },
            Hold::Event { controller: 0, its: 0, device: 0, events: narrow() },
            Hold::Event { controller: 0, its: 0, device: 1, events: narrow() },
            Hold::Lpi { controller: 0, lpis: FIRST_LPI + start as u32..FIRST_LPI + end as u32 },
        ] {
            adds.push(Add::Hold { owner, what });
        }
    }
    adds
}

/// Reservations of LPIs on both sides of the least, empty and turned round ones too.
fn lpi_holds() -> Vec<Add> {
    let mut adds = Vec::new();
    for owner in [0, 1, 2] {
        for (start, end) in [(-2, -1), (-1, 0), (-1, 1), (0, 1), (0, 2), (1, 2), (1, 1), (-3, -3), (-1, -3)] {
            let at = |mark: i32| FIRST_LPI.wrapping_add_signed(mark);
            adds.push(Add::Hold { owner, what: Hold::Lpi { controller: 0, lpis: at(start)..at(end) } });
        }
    }
    adds
}

/// The bounds of a range: a new one, one that is there already, an empty one, one too large for its field.
const BOUNDS: [[u64; 2]; 4] = [[1000, 1005], [0, 5], [7, 7], [0, 1 << 32]];

/// The same for LPIs from the least one on; and low ones: across it, empty, turned round, too large.
fn lpi_bounds(first: u64) -> Vec<[u64; 2]> {
    let low = [[first - 1, first + 1], [5, 5], [9, 5], [5, 1 << 32]];
    BOUNDS.iter().map(|bounds| bounds.map(|number| first + number)).chain(low).collect()
}

/// An MSI domain of every three such ranges, on tables each of which is full or has one row left: asked twice, with a new
/// one and requests behind it.
fn domains() -> Family {
    let firsts = [0, 0, u64::from(FIRST_LPI)];
    let bounds = [BOUNDS.to_vec(), BOUNDS.to_vec(), lpi_bounds(firsts[2])];
    let count = 2 * 8 * bounds.iter().map(|some| some.len() as u64).product::<u64>();
    Family::calls("all MSI domains on tables that are full or nearly", count, move |index| {
        let mut digits = Digits(index);
        let fixed = digits.digit(2);
        let full = [(); 3].map(|()| digits.digit(2) == 1);
        let asked = [0, 1, 2].map(|kind| digits.pick(&bounds[kind]));
        let call = |three: [[u64; 2]; 3]| Step::Call([&[1, fixed, 5, 0, 0][..], &three.concat()].concat());
        let at = |mark: u64| firsts.map(|first| [first + mark, first + mark + 5]);
        // where a row is to be left, the first of them is there twice
        let row = |i: u64| {
            let (all, less) = (at(10 * i), at(10 * i.saturating_sub(1)));
            call([0, 1, 2].map(|kind| if full[kind] { all[kind] } else { less[kind] }))
        };
        let mut steps: Vec<Step> = (0..POOL_ROWS as u64).map(row).collect();
        steps.extend([call(asked), call(asked), call(at(2000)), step_of(&Call::Start)]);
        let lpis = [Choice::Auto, Choice::Fixed(FIRST_LPI - 1), Choice::Fixed(FIRST_LPI)];
        steps.extend(lpis.map(|lpi| {
            let choice = if lpi == Choice::Auto { Choice::Auto } else { Choice::Fixed(0) };
            let need = Need::Msi { controller: 0, its: 0, count: 1, device: choice, event: choice, lpi };
            step_of(&Call::Request(Request { requester: 1, slot: 0, need }))
        }));
        steps
    })
}

/// For each kind of request an automatic one, and one for each of the two numbers that it may have.
fn needed_thrice() -> [(&'static str, [Need; 3]); 5] {
    let wide = |base| Need::Mmio { size: 1, alignment: 1, base };
    let half = |base| Need::Pio { size: 1, alignment: 1, base };
    let shared = |input| Need::Input { controller: 0, trigger: 0, sharing: 1, input };
    let msi = |n: u32| {
        let choice = |first: u32| if n == 0 { Choice::Auto } else { Choice::Fixed(first + n) };
        Need::Msi { controller: 0, its: 0, count: 1, device: choice(0), event: choice(0), lpi: choice(FIRST_LPI) }
    };
    let host = |irq| Need::Host { irq };
    [
        ("mmio", [Choice::Auto, Choice::Fixed(1), Choice::Fixed(2)].map(wide)),
        ("pio", [Choice::Auto, Choice::Fixed(1), Choice::Fixed(2)].map(half)),
        ("input", [Choice::Auto, Choice::Fixed(1), Choice::Fixed(2)].map(shared)),
        ("host", [Choice::Auto, Choice::Fixed(1), Choice::Fixed(2)].map(host)),
        ("msi", [0, 1, 2].map(msi)),
    ]
}

/// Every list of so many requests, plans, withdrawals and starts by and of two requesters, over numbers 0 to 2 of each kind; the
/// first of them is reserved by one of the two. Behind them one more of each kind of request.
fn withdrawn(name: &str, needs: [Need; 3], length: u32) -> Family {
    let ask = |requester: u32, need: &Need| Request { requester, slot: 0, need: need.clone() };
    let plan = |requests: Vec<Request>| Call::Plan { results: RECORD * requests.len(), requests };
    let calls = vec![
        Call::Request(ask(1, &needs[0])),
        Call::Request(ask(2, &needs[0])),
        Call::Request(ask(1, &needs[2])),
        plan(vec![ask(2, &needs[0]), ask(1, &needs[1])]),
        plan(vec![ask(1, &needs[0]), ask(1, &needs[0]), ask(1, &needs[0])]),
        Call::Withdraw { requester: 1 },
        Call::Withdraw { requester: 2 },
        Call::Start,
    ];
    let behind = needs.map(|need| Call::Request(ask(3, &need)));
    let count = (calls.len() as u64).pow(length);
    Family::calls(&format!("all withdrawals of {name}"), count, move |index| {
        let mut digits = Digits(index);
        let mut all: Vec<Call> = three_of_each().into_iter().map(Call::Add).chain([Call::Start]).collect();
        all.extend((0..length).map(|_| digits.pick(&calls)));
        all.extend(behind.iter().cloned());
        all.iter().map(step_of).collect()
    })
}

/// Pools of both uses with numbers 0 to 2 of every kind; of each the first is held by 1.
fn three_of_each() -> Vec<Add> {
    let mut adds = Vec::new();
    for fixed in [false, true] {
        for range in [
            PoolRange::Mmio(0..3),
            PoolRange::Pio(0..3),
            PoolRange::Host(0..3),
            PoolRange::Input { controller: 0, inputs: 0..3 },
        ] {
            adds.push(Add::Pool { fixed, range });
        }
        let lpis = FIRST_LPI..FIRST_LPI + 3;
        adds.push(Add::Domain { fixed, controller: 0, its: 0, devices: 0..3, events: 0..3, lpis });
    }
    for what in [
        Hold::Mmio(0..1),
        Hold::Pio(0..1),
        Hold::Host(0..1),
        Hold::Input { controller: 0, input: 0, trigger: 0, sharing: 1 },
        Hold::Device { controller: 0, its: 0, devices: 0..1 },
        Hold::Event { controller: 0, its: 0, device: 1, events: 0..1 },
        Hold::Lpi { controller: 0, lpis: FIRST_LPI..FIRST_LPI + 1 },
    ] {
        adds.push(Add::Hold { owner: 1, what });
    }
    adds
}

/// Inputs, host IRQs and the two together.
fn pairs() -> Vec<Add> {
    let mut adds = Vec::new();
    for owner in [0, 1, 2] {
        for trigger in [0, 4] {
            adds.push(Add::Hold { owner, what: Hold::Input { controller: 0, input: 0, trigger, sharing: 1 } });
            for (input, host) in [(0, 0), (0, 1), (1, 0), (u64::MAX, u64::MAX - 1), (1, u64::MAX)] {
                adds.push(Add::Pair { owner, controller: 0, input, host, trigger });
            }
        }
        adds.push(Add::Hold { owner, what: Hold::Host(0..1) });
        adds.push(Add::Hold { owner, what: Hold::Host(1..u64::MAX) });
    }
    adds
}
