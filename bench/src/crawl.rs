// One automatic host IRQ behind a wide reserved block: the original tries every number of the block, ours goes on at its end.

use std::ops::Range;

use crate::agree;
use crate::face::{Flat, Lent};
use crate::input::{flat, Input};
use crate::theirs::{spelt, Theirs};
use crate::time::{few, paired};
use crate::{started, tested, PAIRED};
use oracle::calls::{Add, Choice, Hold, Need, PoolRange, Request};

/// How wide the block is, and how many other reservations stand before it in the table.
const BLOCKS: [(u64, u64); 5] = [(1, 0), (1_000, 0), (100_000, 0), (1_000_000, 0), (1_000_000, 100)];

pub fn crawls() {
    println!("| host IRQs held before the first free one | other rows | original | `planner_allocate` | the test apart | original / ours |");
    println!("|---|---|---|---|---|---|");
    for (wide, others) in BLOCKS {
        let input = block(wide, others);
        let asked = Request { requester: 1, slot: 0, need: Need::Host { irq: Choice::Auto } };
        agree::check(&input, std::slice::from_ref(&asked));
        let (numbers, words): (Flat, _) = (flat(&asked), spelt(&asked));
        let (state, pools) = (started(&input), Theirs::with(&input.adds));
        let base = few(|| pools.started(), |theirs| assert!(theirs.allocate(&words)));
        let (took, apart) = paired(PAIRED, || Lent::of(&state), tested, |lent| lent.allocate(&numbers));
        println!("| {wide} | {others} | {base:.2} us | {took:.2} us | {apart:.3} us | {:.1} |", base / took);
    }
    println!();
}

/// One pool of host IRQs that begins with the block and has room behind it; the other reservations lie past its end.
fn block(wide: u64, others: u64) -> Input {
    let hold = |held: Range<u64>| Add::Hold { owner: 7, what: Hold::Host(held) };
    let mut adds = vec![Add::Pool { fixed: false, range: PoolRange::Host(0..2 * wide) }];
    adds.extend((0..others).map(|i| hold(2 * wide + i..2 * wide + i + 1)));
    adds.push(hold(0..wide));
    Input { name: "block", adds }
}
