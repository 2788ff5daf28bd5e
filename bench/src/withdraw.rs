// One withdrawal through the C face, and one request on the same tables beside it; the original has no withdrawal.

use crate::agree;
use crate::face::{self, Flat, Lent};
use crate::input::{crowded, flat, heavy, light, request, run, Input, RUN, SHORT};
use crate::tables::State;
use crate::time::{by_turns, paired};
use crate::{tested, PAIRED};
use oracle::added::{HELD_ROWS, RECORD};
use oracle::calls::{Answer, Kind, Place, Row, Tables};

/// Owner tables with grants, and who is withdrawn.
struct Granted {
    name: String,
    tables: Tables,
    requester: u32,
}

pub fn withdrawals() {
    println!(
        "| owner tables | rows that go | a withdrawal | the test apart | a request, MMIO, automatic | the test apart |"
    );
    println!("|---|---|---|---|---|---|");
    let all = [planned(&light(), SHORT), planned(&heavy(), RUN), full(8), full(9)];
    all.iter().for_each(timed);
    println!();
}

fn timed(granted: &Granted) {
    let (state, call) = (State::of(&granted.tables), [5, u64::from(granted.requester)]);
    let gone = check(granted);
    let asked: Flat = flat(&request(1, false, 9_999));
    let [took, apart, request, beside] = by_turns(|| {
        let (took, apart) = paired(PAIRED, || Lent::of(&state), tested, |lent| face::call(&mut lent.state, &call));
        let (request, beside) = paired(PAIRED, || Lent::of(&state), tested, |lent| lent.allocate(&asked));
        [took, apart, request, beside]
    });
    println!("| {} | {gone} | {took:.2} us | {apart:.3} us | {request:.2} us | {beside:.3} us |", granted.name);
}

/// The withdrawal leaves the rows that it should; how many go.
fn check(granted: &Granted) -> usize {
    let (mut lent, mut left) = (Lent::of(&State::of(&granted.tables)), granted.tables.clone());
    let mut gone = 0;
    for kind in Kind::ALL {
        let held = left.of(Place::Held, kind).len();
        let rows = left.of_mut(Place::Owner, kind);
        let stays = |(at, row): &(usize, Row)| *at < held || row.owner != granted.requester;
        let kept: Vec<Row> = rows.iter().copied().enumerate().filter(stays).map(|(_, row)| row).collect();
        gone += rows.len() - kept.len();
        *rows = kept;
    }
    let answer = face::call(&mut lent.state, &[5, u64::from(granted.requester)]);
    let mut expected = State::of(&left);
    expected.number = if gone == 0 { 13 } else { 0 };
    assert_eq!(answer, expected.number, "{}", granted.name);
    assert!(lent.state == *expected, "{}: the tables after a withdrawal", granted.name);
    gone
}

/// An input's tables after a plan of so many requests, of which the first is withdrawn.
fn planned(input: &Input, length: usize) -> Granted {
    let mut judge = agree::judge(input);
    let requests = run(length);
    assert_eq!(judge.plan(&requests, RECORD * length).answer, Answer::Accepted, "{}", input.name);
    let name = format!("{}, a plan of {length} granted", input.name);
    Granted { name, tables: judge.tables().clone(), requester: requests[0].requester }
}

/// All seven tables full of grants, every other row of them of 8; 9 has none.
fn full(requester: u32) -> Granted {
    let mut tables = agree::judge(&crowded(HELD_ROWS as u64, false, false)).tables().clone();
    tables.held = Default::default();
    for row in tables.owners.iter_mut().flat_map(|rows| rows.iter_mut().step_by(2)) {
        row.owner = 8;
    }
    let name = if requester == 8 { "all full, every other row" } else { "all full, nothing found" };
    Granted { name: name.to_string(), tables, requester }
}
