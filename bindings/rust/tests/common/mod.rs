//! What the tests share: the exported functions themselves, for lists and sizes which the wrapper never hands in; calls that must leave nothing where they are refused; small stacks; a stand with plans for it; random numbers. No test uses all of it.
#![allow(dead_code)]

#[path = "../../src/exported.rs"]
mod exported;

pub mod model;
pub mod texts;

pub use exported::*;

use thurgoleo::{Choice, Hold, Plan, Planner, Pool, Request, Use, Want, MOST, STATE_SIZE};

pub fn small_stack(run: impl FnOnce() + Send + 'static) {
    on_stack(1 << 20, run);
}

/// On a thread whose stack has so many bytes, its own frames among them.
pub fn on_stack(bytes: usize, run: impl FnOnce() + Send + 'static) {
    std::thread::Builder::new()
        .stack_size(bytes)
        .spawn(run)
        .unwrap()
        .join()
        .unwrap();
}

/// The call itself on a state, which names nothing: its answer. Refused, it leaves every number of all tables as it was.
pub fn call_leaving(words: &mut [u64], numbers: &[u64]) -> u64 {
    let (before, mut told, n) = (words.to_vec(), [77; 5], words.len() - 5);
    let (from, to) = (numbers.as_ptr(), told.as_mut_ptr());
    let size = STATE_SIZE as u64;
    let number = unsafe { planner_call(words.as_mut_ptr(), size, from, numbers.len(), to, 5) };
    assert_eq!((told[0], &words[n..]), (number, &told[..]), "{numbers:?}");
    assert_eq!(told[1..], [0; 4], "{numbers:?}");
    let same = words[..n] == before[..n];
    assert!(number == 0 || same, "{numbers:?} left something");
    number
}

/// A planner over a copy of these tables.
pub fn planner(words: &[u64]) -> Box<Planner> {
    Box::new(Planner::from_words(words.try_into().unwrap()).unwrap())
}

/// The numbers of a splitmix64 generator.
pub struct Rng(pub u64);

impl Rng {
    pub fn next(&mut self) -> u64 {
        self.0 = self.0.wrapping_add(0x9e37_79b9_7f4a_7c15);
        let mut x = self.0;
        x = (x ^ (x >> 30)).wrapping_mul(0xbf58_476d_1ce4_e5b9);
        x = (x ^ (x >> 27)).wrapping_mul(0x94d0_49bb_1331_11eb);
        x ^ (x >> 31)
    }

    pub fn below(&mut self, n: usize) -> usize {
        (self.next() % n as u64) as usize
    }

    pub fn shuffle<T>(&mut self, list: &mut [T]) {
        (1..list.len())
            .rev()
            .for_each(|i| list.swap(i, self.below(i + 1)));
    }
}

/// A stand with pools of all kinds, each automatic range a fixed one too, and two reservations; started.
pub fn stand() -> Box<Planner> {
    let mut p = Box::new(Planner::new().unwrap());
    for used in [Use::Automatic, Use::Fixed] {
        p.add_pool(
            used,
            Pool::Mmio {
                start: 0x1000,
                end: 0x100_0000,
            },
        )
        .unwrap();
        p.add_pool(
            used,
            Pool::Pio {
                start: 0x100,
                end: 0xf000,
            },
        )
        .unwrap();
        p.add_pool(
            used,
            Pool::Input {
                controller: 0,
                start: 16,
                end: 200,
            },
        )
        .unwrap();
        p.add_pool(
            used,
            Pool::Host {
                start: 32,
                end: 400,
            },
        )
        .unwrap();
        p.add_pool(
            used,
            Pool::Msi {
                controller: 0,
                its: 0,
                devices: 0..64,
                events: 0..256,
                lpis: 8192..9000,
            },
        )
        .unwrap();
    }
    p.reserve(
        9,
        Hold::Mmio {
            start: 0x2000,
            end: 0x3000,
        },
    )
    .unwrap();
    p.reserve(9, Hold::Host { start: 33, end: 35 }).unwrap();
    p.start().unwrap();
    p
}

/// So many automatic requests, the kinds in turn.
pub fn mixed(n: usize) -> Vec<Request> {
    (0..n as u32)
        .map(|i| {
            let want = match i % 5 {
                0 => Want::Mmio {
                    size: 0x1000 << (i % 3),
                    alignment: 0x1000,
                    choice: Choice::Auto,
                },
                1 => Want::Pio {
                    size: 8,
                    alignment: 8,
                    choice: Choice::Auto,
                },
                2 => Want::Input {
                    controller: 0,
                    trigger: 1,
                    sharing: 0,
                    choice: Choice::Auto,
                },
                3 => Want::HostIrq {
                    choice: Choice::Auto,
                },
                _ => Want::Msi {
                    controller: 0,
                    its: 0,
                    count: 1 + i % 4,
                    device: Choice::Auto,
                    event: Choice::Auto,
                    lpi: Choice::Auto,
                },
            };
            Request {
                requester: 100 + i,
                slot: i,
                want,
            }
        })
        .collect()
}

/// Twelve numbers a request.
pub fn numbers(requests: &[Request]) -> Vec<u64> {
    let mut plan = Box::new(Plan::new());
    let mut all = Vec::new();
    for part in requests.chunks(MOST) {
        *plan = Plan::new();
        part.iter().for_each(|r| plan.push(r).unwrap());
        all.extend_from_slice(plan.requests());
    }
    all
}
