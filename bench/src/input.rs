// What is timed: sets of tables, light, heavy and full, and one list of mixed requests for all of them.

use crate::face::Flat;
use oracle::added::{FIRST_LPI, HELD_ROWS, PLAN_REQUESTS};
use oracle::calls::{Add, Choice, Hold, Need, PoolRange, Request};

/// The requests of a run, and of a short one.
pub const RUN: usize = PLAN_REQUESTS;
pub const SHORT: usize = 8;

pub struct Input {
    pub name: &'static str,
    pub adds: Vec<Add>,
}

const CONTROLLER: u32 = 1;
const ITS: u32 = 2;
/// Where the fixed pools begin, for each kind's width.
const FIXED_MMIO: u64 = 0x8000_0000;
const FIXED_PIO: u16 = 0x8000;
const FIXED_IRQ: u64 = 4096;
const FIXED_ID: u32 = 4096;

/// Few rows: in each table one pool range and two reservations.
pub fn light() -> Input {
    Input { name: "light", adds: adds(1, 0..2, 1) }
}

/// Many conflicts: half the pool rows, three quarters of the ranges filled to the last number by contiguous reservations in three quarters of the rows.
pub fn heavy() -> Input {
    heavy_of(HELD_ROWS as u64)
}

/// The same as tables of so many rows have it.
pub fn heavy_of(rows: u64) -> Input {
    Input { name: "heavy", adds: adds(rows / 8, 0..rows * 3 / 4, 8) }
}

/// So many reservations in each table, contiguous, in rising or in falling order; one pool range, or one for every four, all but the last without a free number.
pub fn crowded(rows: u64, falls: bool, many: bool) -> Input {
    let order: Vec<u64> = if falls { (0..rows).rev().collect() } else { (0..rows).collect() };
    Input { name: "crowded", adds: adds(if many { rows.div_ceil(4) } else { 1 }, order, 4) }
}

/// `pools` ranges one behind the other, all but the last with room for `each` reservations; reservations of the numbers
/// `held`, in that order.
fn adds(pools: u64, held: impl IntoIterator<Item = u64>, each: u64) -> Vec<Add> {
    let mut adds = Vec::new();
    for i in 0..pools {
        let last = i + 1 == pools;
        let end = |wide: u64| if last { wide } else { (i + 1) * each };
        let mmio = i * each * 0x1000..end(0x8_0000) * 0x1000;
        let pio = (i * each * 16) as u16..(end(2047) * 16) as u16;
        let (low, high) = (i * each, end(4096));
        adds.push(Add::Pool { fixed: false, range: PoolRange::Mmio(mmio) });
        adds.push(Add::Pool { fixed: false, range: PoolRange::Pio(pio) });
        adds.push(Add::Pool { fixed: false, range: PoolRange::Host(low..high) });
        adds.push(Add::Pool { fixed: false, range: PoolRange::Input { controller: CONTROLLER, inputs: low..high } });
        adds.push(domain(false, low as u32, high as u32));
    }
    adds.push(Add::Pool { fixed: true, range: PoolRange::Mmio(FIXED_MMIO..2 * FIXED_MMIO) });
    adds.push(Add::Pool { fixed: true, range: PoolRange::Pio(FIXED_PIO..u16::MAX) });
    adds.push(Add::Pool { fixed: true, range: PoolRange::Host(FIXED_IRQ..2 * FIXED_IRQ) });
    let inputs = FIXED_IRQ..2 * FIXED_IRQ;
    adds.push(Add::Pool { fixed: true, range: PoolRange::Input { controller: CONTROLLER, inputs } });
    adds.push(domain(true, FIXED_ID, 2 * FIXED_ID));
    for i in held {
        let id = i as u32;
        for what in [
            Hold::Mmio(i * 0x1000..(i + 1) * 0x1000),
            Hold::Pio(id as u16 * 16..(id as u16 + 1) * 16),
            Hold::Host(i..i + 1),
            Hold::Input { controller: CONTROLLER, input: i, trigger: 1, sharing: 0 },
            Hold::Device { controller: CONTROLLER, its: ITS, devices: id..id + 1 },
            Hold::Event { controller: CONTROLLER, its: ITS, device: 0, events: id..id + 1 },
            Hold::Lpi { controller: CONTROLLER, lpis: FIRST_LPI + id..FIRST_LPI + id + 1 },
        ] {
            adds.push(Add::Hold { owner: 7, what });
        }
    }
    adds
}

/// The same numbers for devices and events, and for LPIs from the least one on.
fn domain(fixed: bool, low: u32, high: u32) -> Add {
    let lpis = FIRST_LPI + low..FIRST_LPI + high;
    Add::Domain { fixed, controller: CONTROLLER, its: ITS, devices: low..high, events: low..high, lpis }
}

/// A request of each kind, 1 to 5; `turn` keeps the fixed ones apart.
pub fn request(kind: usize, fixed: bool, turn: usize) -> Request {
    let (n, id) = (turn as u64, FIXED_ID + 4 * turn as u32);
    let need = match kind {
        1 => Need::Mmio { size: 0x1000, alignment: 0x1000, base: choice(fixed, FIXED_MMIO + n * 0x1000) },
        2 => Need::Pio { size: 16, alignment: 16, base: choice(fixed, FIXED_PIO + 16 * turn as u16) },
        3 => Need::Input { controller: CONTROLLER, trigger: 1, sharing: 0, input: choice(fixed, FIXED_IRQ + n) },
        4 => Need::Host { irq: choice(fixed, FIXED_IRQ + n) },
        _ => {
            let [device, event, lpi] = [id, id, FIRST_LPI + id].map(|id| choice(fixed, id));
            Need::Msi { controller: CONTROLLER, its: ITS, count: 4, device, event, lpi }
        }
    };
    Request { requester: 1 + turn as u32, slot: turn as u32, need }
}

fn choice<T>(fixed: bool, number: T) -> Choice<T> {
    if fixed {
        Choice::Fixed(number)
    } else {
        Choice::Auto
    }
}

/// The five kinds in turn, five automatic requests and five fixed ones alternating.
pub fn run(length: usize) -> Vec<Request> {
    (0..length).map(|turn| request(turn % 5 + 1, turn / 5 % 2 == 1, turn)).collect()
}

/// The twelve numbers of a request.
pub fn flat(request: &Request) -> Flat {
    let (kind, numbers, choices) = match &request.need {
        Need::Mmio { size, alignment, base } => (1, [*size, *alignment, 0], [code(base), AUTO, AUTO]),
        Need::Pio { size, alignment, base } => {
            (2, [u64::from(*size), u64::from(*alignment), 0], [code(base), AUTO, AUTO])
        }
        Need::Input { controller, trigger, sharing, input } => {
            (3, [controller, trigger, sharing].map(|n| u64::from(*n)), [code(input), AUTO, AUTO])
        }
        Need::Host { irq } => (4, [0; 3], [code(irq), AUTO, AUTO]),
        Need::Msi { controller, its, count, device, event, lpi } => {
            (5, [controller, its, count].map(|n| u64::from(*n)), [code(device), code(event), code(lpi)])
        }
    };
    let [a, b, c] = numbers;
    let [[code1, n1], [code2, n2], [code3, n3]] = choices;
    [kind, request.requester.into(), request.slot.into(), a, b, c, code1, n1, code2, n2, code3, n3]
}

const AUTO: [u64; 2] = [0, 0];

fn code<T: Copy + Into<u64>>(choice: &Choice<T>) -> [u64; 2] {
    match choice {
        Choice::Auto => AUTO,
        Choice::Fixed(number) => [1, (*number).into()],
    }
}
