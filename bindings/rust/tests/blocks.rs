//! Wide blocks in the way of an automatic request: the owner table full of them but for one row, one behind the other in any order, for every kind of range, up to the
//! last number that there is. A search that tries one number after another would not end here.

mod common;

use common::{small_stack, Rng};
use thurgoleo::{
    Choice, DeviceId, Hold, Kind, Part, Planner, Pool, Refusal, Request, Use, Want, FIRST_LPI, ROWS,
};

const KINDS: [Kind; 6] = [
    Kind::Mmio,
    Kind::Pio,
    Kind::Host,
    Kind::Device,
    Kind::Event,
    Kind::Lpi,
];
const BLOCKS: u64 = ROWS as u64 - 1;

/// The largest number of a kind's width, at which a range of it ends at the most; the first number of a pool; how wide a block is.
fn nature(kind: Kind) -> (u64, u64, u64) {
    match kind {
        Kind::Mmio | Kind::Host => (u64::MAX, 0, 1_000_000),
        Kind::Pio => (u16::MAX.into(), 0, u64::from(u16::MAX) / (BLOCKS + 1)),
        Kind::Lpi => (u32::MAX.into(), FIRST_LPI.into(), 1_000_000),
        _ => (u32::MAX.into(), 0, 1_000_000),
    }
}

fn pool(kind: Kind, start: u64, end: u64) -> Pool {
    let ids = |of: Kind, first: u32| {
        if of == kind {
            start as u32..end as u32
        } else {
            first..first + 4
        }
    };
    match kind {
        Kind::Mmio => Pool::Mmio { start, end },
        Kind::Pio => Pool::Pio {
            start: start as u16,
            end: end as u16,
        },
        Kind::Host => Pool::Host { start, end },
        _ => Pool::Msi {
            controller: 1,
            its: 2,
            devices: ids(Kind::Device, 0),
            events: ids(Kind::Event, 0),
            lpis: ids(Kind::Lpi, FIRST_LPI),
        },
    }
}

fn block(kind: Kind, start: u64, end: u64) -> Hold {
    let (controller, its, ids) = (1, 2, start as u32..end as u32);
    match kind {
        Kind::Mmio => Hold::Mmio { start, end },
        Kind::Pio => Hold::Pio {
            start: start as u16,
            end: end as u16,
        },
        Kind::Device => Hold::Device {
            controller,
            its,
            devices: ids,
        },
        Kind::Event => Hold::Event {
            controller,
            its,
            device: DeviceId(0),
            events: ids,
        },
        Kind::Lpi => Hold::Lpi {
            controller,
            lpis: ids,
        },
        _ => Hold::Host { start, end },
    }
}

fn request(kind: Kind) -> Request {
    let want = match kind {
        Kind::Mmio => Want::Mmio {
            size: 1,
            alignment: 1,
            choice: Choice::Auto,
        },
        Kind::Pio => Want::Pio {
            size: 1,
            alignment: 1,
            choice: Choice::Auto,
        },
        Kind::Host => Want::HostIrq {
            choice: Choice::Auto,
        },
        _ => Want::Msi {
            controller: 1,
            its: 2,
            count: 1,
            device: Choice::Auto,
            event: Choice::Auto,
            lpi: Choice::Auto,
        },
    };
    Request {
        requester: 5,
        slot: 0,
        want,
    }
}

/// Exhausted, in the namespace of the kind.
fn exhausted(kind: Kind) -> Result<u64, Refusal> {
    let namespace = match kind {
        Kind::Mmio => 1,
        Kind::Pio => 2,
        Kind::Device | Kind::Event => 5,
        Kind::Lpi => 6,
        _ => 4,
    };
    Err(Refusal::Exhausted { namespace })
}

/// Asks once: the number granted, which is where the last row of the kind's owners starts.
fn asked(p: &mut Planner, kind: Kind) -> Result<u64, Refusal> {
    p.allocate(&request(kind))?;
    let last = p.rows(Part::Owners, kind).last();
    Ok(last.unwrap().start)
}

/// Reservations of these blocks, started, over one automatic pool.
fn held(kind: Kind, pooled: (u64, u64), blocks: &[(u64, u64)]) -> Box<Planner> {
    let mut p = Box::new(Planner::new().unwrap());
    p.add_pool(Use::Automatic, pool(kind, pooled.0, pooled.1))
        .unwrap();
    for (i, &(start, end)) in blocks.iter().enumerate() {
        p.reserve(1 + i as u32, block(kind, start, end)).unwrap();
    }
    p.start().unwrap();
    p
}

/// Blocks of a kind one behind the other, as many as leave one owner row free, and the end of the last.
fn behind(kind: Kind) -> (Vec<(u64, u64)>, u64) {
    let (_, first, wide) = nature(kind);
    let cut = |i| first + i * wide;
    (
        (0..BLOCKS).map(|i| (cut(i), cut(i + 1))).collect(),
        cut(BLOCKS),
    )
}

/// Rising, falling, and nine mixed orders.
fn orders(blocks: &[(u64, u64)]) -> Vec<Vec<(u64, u64)>> {
    let mut all = vec![blocks.to_vec(), blocks.iter().rev().copied().collect()];
    for seed in 1..10 {
        let (mut rng, mut mixed) = (Rng(seed), blocks.to_vec());
        for i in (1..mixed.len()).rev() {
            mixed.swap(i, rng.below(i + 1));
        }
        all.push(mixed);
    }
    all
}

/// The least number behind all of them; then the table is full, and where the pool ends with them nothing is left.
#[test]
fn one_behind_the_other() {
    small_stack(|| {
        for kind in KINDS {
            let (blocks, end) = behind(kind);
            let (most, first, _) = nature(kind);
            for blocks in orders(&blocks) {
                let mut p = held(kind, (first, most), &blocks);
                assert_eq!(asked(&mut p, kind), Ok(end), "{kind:?}");
                assert_eq!(p.used(Part::Owners, kind), BLOCKS + 1);
                assert_eq!(asked(&mut p, kind), Err(Refusal::Full), "{kind:?}");
                let mut p = held(kind, (first, end), &blocks);
                assert_eq!(asked(&mut p, kind), exhausted(kind), "{kind:?}");
                assert_eq!(p.used(Part::Owners, kind), BLOCKS);
            }
        }
    });
}

/// One number between two blocks is found, wherever it lies.
#[test]
fn a_gap_of_one_number() {
    small_stack(|| {
        for kind in KINDS {
            let (blocks, _) = behind(kind);
            let (most, first, _) = nature(kind);
            for gap in [0, 1, blocks.len() / 2, blocks.len() - 1] {
                let mut blocks = blocks.clone();
                blocks[gap].1 -= 1;
                let free = blocks[gap].1;
                for blocks in orders(&blocks) {
                    let mut p = held(kind, (first, most), &blocks);
                    assert_eq!(asked(&mut p, kind), Ok(free), "{kind:?}");
                }
            }
        }
    });
}

/// One block up to the last number that can be granted, and one over it: from the pool's start, from before it, and behind a free number.
#[test]
fn up_to_the_last_number() {
    for kind in KINDS {
        let (most, first, wide) = nature(kind);
        for start in [first, first + wide] {
            let mut p = held(kind, (start, most), &[(first, most - 1)]);
            assert_eq!(asked(&mut p, kind), Ok(most - 1), "{kind:?}");
            let mut p = held(kind, (start, most), &[(first, most)]);
            assert_eq!(asked(&mut p, kind), exhausted(kind), "{kind:?}");
        }
        let mut p = held(kind, (first, most), &[(first + 1, most)]);
        assert_eq!(asked(&mut p, kind), Ok(first), "{kind:?}");
    }
}
