//! Half-time at a stand. Two card readers and a printer are planned; then one reader is pulled out, and a scale that waited gets its memory, ports and messages.
//! Everyone else keeps what they had. After a power dip those who are there come back, in another order too, with the numbers that they had.

use std::error::Error;
use thurgoleo::{Choice, Granted, Hold, Plan, Planner, Pool, Refusal, Request, Use, Want};

const BOARD: u32 = 1;
const READER: u32 = 21;
const OTHER_READER: u32 = 22;
const PRINTER: u32 = 31;
const SCALE: u32 = 41;

/// A request with its answer written back, and the answer.
type Line = (Request, Granted);

/// What the board gives, to be chosen from and to be asked for; the first page of memory is its own.
fn board() -> Result<Planner, Refusal> {
    let mut planner = Planner::new()?;
    for used in [Use::Automatic, Use::Fixed] {
        let (start, end) = (0x1000_0000, 0x1010_0000);
        planner.add_pool(used, Pool::Mmio { start, end })?;
        let (start, end) = (0xC000, 0xD000);
        planner.add_pool(used, Pool::Pio { start, end })?;
        let messages = Pool::Msi {
            controller: 0,
            its: 0,
            devices: 0..16,
            events: 0..32,
            lpis: 8192..8448,
        };
        planner.add_pool(used, messages)?;
    }
    let (start, end) = (0x1000_0000, 0x1000_1000);
    planner.reserve(BOARD, Hold::Mmio { start, end })?;
    planner.start()?;
    Ok(planner)
}

/// Memory, ports and message interrupts for a device, whichever the planner chooses.
fn wants(requester: u32) -> [Request; 3] {
    let memory = Want::Mmio {
        size: 0x1000,
        alignment: 0x1000,
        choice: Choice::Auto,
    };
    let ports = Want::Pio {
        size: 256,
        alignment: 256,
        choice: Choice::Auto,
    };
    let messages = Want::Msi {
        controller: 0,
        its: 0,
        count: 4,
        device: Choice::Auto,
        event: Choice::Auto,
        lpi: Choice::Auto,
    };
    let slots = [(0, memory), (1, ports), (2, messages)];
    slots.map(|(slot, want)| Request {
        requester,
        slot,
        want,
    })
}

/// Plans the requests as one plan. Each is kept with its answer in it: then it asks for what it was given.
fn plan(planner: &mut Planner, requests: &[Request]) -> Result<Vec<Line>, Box<dyn Error>> {
    let mut plan = Plan::new();
    for request in requests {
        plan.push(request)?;
    }
    planner.plan(&mut plan)?;
    let lines = requests.iter().zip(plan.granted());
    Ok(lines
        .map(|(request, granted)| (request.pinned(&granted), granted))
        .collect())
}

fn show(what: &str, lines: &[Line]) {
    let [memory, ports, messages] = [0, 1, 2].map(|slot| lines[slot].1.numbers());
    println!(
        "{what} {}: memory {:#x}, ports {:#x}, messages from {}",
        memory[1], memory[3], ports[3], messages[7]
    );
}

fn main() -> Result<(), Box<dyn Error>> {
    let mut planner = board()?;
    let devices = [READER, OTHER_READER, PRINTER].map(wants);
    let lines = plan(&mut planner, devices.as_flattened())?;
    let names = ["reader", "reader", "printer"];
    names
        .iter()
        .zip(lines.chunks(3))
        .for_each(|(what, device)| show(what, device));

    // half-time: the first reader goes, and so do its lines; twice it cannot be pulled out
    planner.withdraw(READER)?;
    assert_eq!(planner.withdraw(READER), Err(Refusal::NotFound));
    let (pulled, mut lines): (Vec<Line>, Vec<Line>) = lines
        .into_iter()
        .partition(|line| line.0.requester == READER);
    println!("half-time: reader {READER} is pulled out");

    // the scale gets what is free again
    let scale = plan(&mut planner, &wants(SCALE))?;
    show("scale", &scale);
    let numbers = |line: &Line| line.1.numbers()[2..].to_vec();
    assert!(scale.iter().map(numbers).eq(pulled.iter().map(numbers)));
    lines.extend(scale);

    // a power dip: the lines are all that is left. They come back from the last to the first, and each gets what it had
    let back: Vec<Request> = lines.iter().rev().map(|line| line.0).collect();
    let again = plan(&mut board()?, &back)?;
    assert!(again.iter().rev().eq(&lines));

    // in the order that they had, they make the very tables of half-time
    let back: Vec<Request> = lines.iter().map(|line| line.0).collect();
    let mut after = board()?;
    plan(&mut after, &back)?;
    assert!(after.as_words() == planner.as_words());
    println!("after the dip all have what they had");
    Ok(())
}
