//! A stand with a card reader, a kitchen printer and three tills: planned, pinned, and planned again after a power dip.

use thurgoleo::{
    Choice, DeviceId, EventId, Hold, Kind, Lpi, Part, Plan, Planner, Pool, Request, Use, Want,
};

const CARD_READER: u32 = 1;
const PRINTER: u32 = 2;
const TILLS: [u32; 3] = [3, 4, 5];
const BOARD: u32 = 100;

/// What the stand's board gives: the same after every power-up.
fn board() -> Result<Planner, Box<dyn std::error::Error>> {
    let mut planner = Planner::new()?;
    for used in [Use::Automatic, Use::Fixed] {
        planner.add_pool(
            used,
            Pool::Mmio {
                start: 0x1000_0000,
                end: 0x1010_0000,
            },
        )?;
        planner.add_pool(
            used,
            Pool::Input {
                controller: 0,
                start: 32,
                end: 64,
            },
        )?;
        planner.add_pool(used, Pool::Host { start: 40, end: 60 })?;
        planner.add_pool(
            used,
            Pool::Msi {
                controller: 0,
                its: 0,
                devices: 0..16,
                events: 0..32,
                lpis: 8192..8448,
            },
        )?;
    }
    planner.reserve(
        BOARD,
        Hold::Mmio {
            start: 0x1000_0000,
            end: 0x1000_1000,
        },
    )?;
    planner.reserve(
        BOARD,
        Hold::Pair {
            controller: 0,
            input: 32,
            trigger: 0,
            host: 40,
        },
    )?;
    planner.start()?;
    Ok(planner)
}

fn wanted() -> Result<Plan, Box<dyn std::error::Error>> {
    let mut plan = Plan::new();
    let mut ask = |requester, slot, want| {
        plan.push(&Request {
            requester,
            slot,
            want,
        })
    };
    ask(
        CARD_READER,
        0,
        Want::Mmio {
            size: 0x1000,
            alignment: 0x1000,
            choice: Choice::Auto,
        },
    )?;
    ask(
        CARD_READER,
        1,
        Want::Input {
            controller: 0,
            trigger: 0,
            sharing: 0,
            choice: Choice::Auto,
        },
    )?;
    ask(
        PRINTER,
        0,
        Want::Mmio {
            size: 0x4000,
            alignment: 0x4000,
            choice: Choice::Auto,
        },
    )?;
    ask(
        PRINTER,
        1,
        Want::HostIrq {
            choice: Choice::Auto,
        },
    )?;
    for till in TILLS {
        ask(
            till,
            0,
            Want::Mmio {
                size: 0x2000,
                alignment: 0x1000,
                choice: Choice::Auto,
            },
        )?;
        ask(
            till,
            1,
            Want::Msi {
                controller: 0,
                its: 0,
                count: 2,
                device: Choice::Auto,
                event: Choice::Auto,
                lpi: Choice::Auto,
            },
        )?;
    }
    Ok(plan)
}

fn main() -> Result<(), Box<dyn std::error::Error>> {
    let mut planner = board()?;
    let mut plan = wanted()?;
    planner.plan(&mut plan)?;
    let first: Vec<_> = plan.granted().map(|g| g.numbers()).collect();
    for g in plan.granted() {
        println!(
            "device {} slot {}: {:?}",
            g.requester(),
            g.slot(),
            &g.numbers()[3..]
        );
    }
    println!("memory owners: {}", planner.used(Part::Owners, Kind::Mmio));

    // the plan with its answers written back is what the stand keeps
    plan.pin();

    // a power dip: the tables are gone, the board is as it was, and the devices come back in another order
    let mut planner = board()?;
    let kept: Vec<[u64; 12]> = plan
        .requests()
        .chunks_exact(12)
        .map(|r| r.try_into().unwrap())
        .collect();
    for request in kept.iter().rev() {
        let again = replay(&mut planner, request)?;
        assert!(first.contains(&again), "an identity has changed: {again:?}");
    }
    println!("after the dip every device has the numbers it had");
    Ok(())
}

/// One pinned request again.
fn replay(
    planner: &mut Planner,
    numbers: &[u64; 12],
) -> Result<[u64; 9], Box<dyn std::error::Error>> {
    let n32 = |i: usize| numbers[i] as u32;
    let want = match numbers[0] {
        1 => Want::Mmio {
            size: numbers[3],
            alignment: numbers[4],
            choice: Choice::Fixed(numbers[7]),
        },
        3 => Want::Input {
            controller: n32(3),
            trigger: n32(4),
            sharing: n32(5),
            choice: Choice::Fixed(numbers[7]),
        },
        4 => Want::HostIrq {
            choice: Choice::Fixed(numbers[7]),
        },
        _ => Want::Msi {
            controller: n32(3),
            its: n32(4),
            count: n32(5),
            device: Choice::Fixed(DeviceId(n32(7))),
            event: Choice::Fixed(EventId(n32(9))),
            lpi: Choice::Fixed(Lpi(n32(11))),
        },
    };
    Ok(planner
        .allocate(&Request {
            requester: n32(1),
            slot: n32(2),
            want,
        })?
        .numbers())
}
