// Broken tables after calls that add or start.

use super::{face, Broken};
use crate::added::{self, POOL_ROWS};
use crate::calls::{no, rows_of_add, Add, Answer, Call, Kind, Place, PlanAnswer, Row, Tables};
use crate::compare::face::{judged, Answers};
use crate::compare::Way;
use crate::judge::Judge;

pub const ALL: [Broken; 7] = [
    Broken { name: "puts a pool row at the end", way: Way::Calls, face: face::<Unsorted> },
    Broken { name: "adds a row for a duplicate pool", way: Way::Calls, face: face::<DuplicateRow> },
    Broken {
        name: "a domain with an empty range keeps rows",
        way: Way::Calls,
        face: face::<Keeps<{ no::EMPTY_RANGE }>>,
    },
    Broken { name: "a domain with a low LPI keeps rows", way: Way::Calls, face: face::<Keeps<{ no::BAD_LPI }>> },
    Broken { name: "a Full domain keeps rows", way: Way::Calls, face: face::<Keeps<{ no::FULL }>> },
    Broken { name: "a start keeps the grants", way: Way::Calls, face: face::<StartKeeps> },
    Broken { name: "a reservation reaches the owners at once", way: Way::Calls, face: face::<OwnersAtOnce> },
];

#[derive(Default)]
struct Unsorted {
    added: Vec<(Place, Kind, Row)>,
}

impl Answers for Unsorted {
    fn fresh(&mut self) {
        self.added.clear();
    }

    fn call(&mut self, judge: &mut Judge, call: &Call, lent: usize) -> PlanAnswer {
        if let Call::Add(add) = call {
            self.added.extend(rows_of_add(add));
        }
        judged(judge, call, lent)
    }

    fn tables(&mut self, judge: &Judge) -> Tables {
        let mut tables = judge.tables().clone();
        for place in [Place::Auto, Place::Fixed] {
            for kind in Kind::ALL {
                let when = |row: &Row| self.added.iter().position(|one| *one == (place, kind, *row));
                tables.of_mut(place, kind).sort_by_key(when);
            }
        }
        tables
    }
}

#[derive(Default)]
struct DuplicateRow {
    twice: Option<(Place, Kind, Row)>,
}

impl Answers for DuplicateRow {
    fn fresh(&mut self) {
        self.twice = None;
    }

    fn call(&mut self, judge: &mut Judge, call: &Call, lent: usize) -> PlanAnswer {
        if let Call::Add(add @ Add::Pool { .. }) = call {
            let (place, kind, row) = rows_of_add(add)[0];
            let table = judge.tables().of(place, kind);
            if table.contains(&row) && table.len() < POOL_ROWS {
                self.twice = Some((place, kind, row));
            }
        }
        judged(judge, call, lent)
    }

    fn tables(&mut self, judge: &Judge) -> Tables {
        let mut tables = judge.tables().clone();
        if let Some((place, kind, row)) = self.twice {
            added::insert_row(tables.of_mut(place, kind), place, row);
        }
        tables
    }
}

/// A domain that is refused with the number keeps the ranges before the one that is to blame.
#[derive(Default)]
struct Keeps<const NUMBER: u32> {
    shown: Option<Tables>,
}

impl<const NUMBER: u32> Answers for Keeps<NUMBER> {
    fn call(&mut self, judge: &mut Judge, call: &Call, lent: usize) -> PlanAnswer {
        let answer = judged(judge, call, lent);
        self.shown = match call {
            Call::Add(add @ Add::Domain { .. }) if answer.answer == Answer::plain(NUMBER) => {
                Some(with_rows(judge.tables(), add, to_blame(judge.tables(), add, NUMBER)))
            }
            _ => None,
        };
        answer
    }

    fn tables(&mut self, judge: &Judge) -> Tables {
        self.shown.take().unwrap_or_else(|| judge.tables().clone())
    }
}

/// The range of a domain, from 0, that is refused with the number.
fn to_blame(tables: &Tables, add: &Add, number: u32) -> usize {
    let refused = |(place, kind, row): &(Place, Kind, Row)| match number {
        no::EMPTY_RANGE => row.start >= row.end,
        no::BAD_LPI => *kind == Kind::Lpi,
        _ => tables.of(*place, *kind).len() == POOL_ROWS && !tables.of(*place, *kind).contains(row),
    };
    rows_of_add(add).iter().position(refused).expect("a range to blame")
}

/// The tables with the first so many rows of a call added, duplicates left out.
pub fn with_rows(tables: &Tables, add: &Add, turns: usize) -> Tables {
    let mut tables = tables.clone();
    for (place, kind, row) in rows_of_add(add).into_iter().take(turns) {
        let table = tables.of_mut(place, kind);
        if place == Place::Held || !table.contains(&row) {
            added::insert_row(table, place, row);
        }
    }
    tables
}

#[derive(Default)]
struct StartKeeps;

impl Answers for StartKeeps {
    fn call(&mut self, judge: &mut Judge, call: &Call, lent: usize) -> PlanAnswer {
        if *call == Call::Start && added::malformed(judge.tables(), &Kind::ALL).is_none() {
            return super::one(Answer::Accepted);
        }
        judged(judge, call, lent)
    }
}

#[derive(Default)]
struct OwnersAtOnce;

impl Answers for OwnersAtOnce {
    fn call(&mut self, judge: &mut Judge, call: &Call, lent: usize) -> PlanAnswer {
        let answer = judged(judge, call, lent);
        if matches!(call, Call::Add(Add::Hold { .. })) && !answer.answer.is_refused() {
            judge.start();
        }
        answer
    }
}
