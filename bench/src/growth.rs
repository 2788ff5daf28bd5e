// How the times grow with the rows: each on tables half as large, and on tables as large as they may be.

use crate::agree;
use crate::face::{Flat, Lent};
use crate::input::{crowded, flat, heavy_of, light, request, run, Input};
use crate::theirs::{spelt, Spelt, Theirs};
use crate::time::{by_turns, median, paired};
use crate::{named, singles, started, tested, BATCH, PAIRED};
use oracle::added::HELD_ROWS;
use oracle::calls::Request;

const ALL: u64 = HELD_ROWS as u64;
const HALF: u64 = ALL / 2;

pub fn growth() {
    println!("| rows of a table, or requests of a plan | {HALF} | {ALL} | grows by |");
    println!("|---|---|---|---|");
    for (order, falls) in [("rising", false), ("falling", true)] {
        row(&format!("the test of all tables, all full, {order}"), |rows| test(&crowded(rows, falls, true)));
    }
    for (kind, fixed) in singles() {
        row(&named(kind, fixed), |rows| allocated(&crowded(rows - 1, false, false), &request(kind, fixed, 0)));
    }
    row("MMIO, automatic, a full pool table too", |rows| {
        allocated(&crowded(rows - 1, false, true), &request(1, false, 0))
    });
    for input in [|_| light(), heavy_of] {
        let name = input(ALL).name;
        row(&format!("a plan, {name}"), |rows| planned(&input(rows), &run(rows as usize)));
        row("the same by the original", |rows| theirs(&input(rows), &run(rows as usize)));
    }
    println!();
}

fn row(what: &str, time: impl Fn(u64) -> f64) {
    let [half, all] = by_turns(|| [time(HALF), time(ALL)]);
    println!("| {what} | {half:.3} us | {all:.3} us | {:.2} |", all / half);
}

fn test(input: &Input) -> f64 {
    let state = started(input);
    median(BATCH, || Lent::of(&state), tested)
}

fn allocated(input: &Input, asked: &Request) -> f64 {
    agree::check(input, std::slice::from_ref(asked));
    let (state, numbers) = (started(input), flat(asked));
    paired(PAIRED, || Lent::of(&state), tested, |lent| lent.allocate(&numbers)).1
}

fn planned(input: &Input, asked: &[Request]) -> f64 {
    agree::check_plan(input, asked);
    let (state, numbers) = (started(input), asked.iter().map(flat).collect::<Vec<Flat>>());
    paired(1, || Lent::of(&state), tested, |lent| lent.plan(&numbers)).1
}

fn theirs(input: &Input, asked: &[Request]) -> f64 {
    let (pools, words) = (Theirs::with(&input.adds), asked.iter().map(spelt).collect::<Vec<Spelt>>());
    paired(1, || pools.started(), |_| (), |theirs| words.iter().filter(|one| theirs.allocate(one)).count()).0
}
