//! Two PCI readers: sized from what their base address registers read, planned together, and pinned. After a power dip they get the memory and ports that they had.

use std::error::Error;
use thurgoleo::{registers, Granted, Plan, Planner, Pool, Refusal, Use, REGISTERS};

/// What the registers of readers 1 and 2 read after all ones were written: 4096 bytes of memory and 256 ports; 8 ports and 65,536 bytes of memory, which take two
/// words, since they may lie anywhere in 64 bits.
const READERS: [[u32; REGISTERS]; 2] = [
    [0xFFFF_F000, 0xFFFF_FF01, 0, 0, 0, 0],
    [0xFFFF_FFF9, 0xFFFF_000C, 0xFFFF_FFFF, 0, 0, 0],
];

/// What the board gives, to be chosen from and to be asked for.
fn board() -> Result<Planner, Refusal> {
    let (memory, ports) = (0x1000_0000..0x1010_0000, 0xC000..0xD000);
    let mut planner = Planner::new()?;
    for used in [Use::Automatic, Use::Fixed] {
        let (start, end) = (memory.start, memory.end);
        planner.add_pool(used, Pool::Mmio { start, end })?;
        let (start, end) = (ports.start, ports.end);
        planner.add_pool(used, Pool::Pio { start, end })?;
    }
    planner.start()?;
    Ok(planner)
}

fn main() -> Result<(), Box<dyn Error>> {
    let mut plan = Plan::new();
    for (requester, words) in (1..).zip(READERS) {
        for request in registers(words, requester)? {
            plan.push(&request)?;
        }
    }

    // the first start; the pinned plan is what the stand keeps
    board()?.plan(&mut plan)?;
    let first: Vec<Granted> = plan.granted().collect();
    plan.pin();

    // a power dip: the tables are gone
    board()?.plan(&mut plan)?;
    for granted in plan.granted() {
        let (reader, register) = (granted.requester(), granted.slot());
        println!(
            "reader {reader} register {register}: {:#x}",
            granted.number()
        );
    }
    assert!(plan.granted().eq(first));
    println!("after the dip the readers have the memory and ports that they had");
    Ok(())
}
