// What the original does with a call that adds, said in advance: its answer, and its rows afterwards. Under a departure it is held to this.

use crate::added;
use crate::calls::{by_domain, no, rows_of_add, Add, Answer, Kind, Place, Refusal, Row, Tables};
use crate::judge::Judge;

/// An answer, and the rows of the tables that the call speaks of.
#[derive(Debug, PartialEq, Eq)]
struct Done {
    answer: Answer,
    rows: Vec<(Place, Kind, Vec<Row>)>,
}

/// Whether the original can be given the call: its types have no unknown code.
pub fn can_be_given(add: &Add) -> bool {
    added::bad_add(add).is_none()
}

/// What the bare original does otherwise than was foreseen, in words.
pub fn surprise(judge: &Judge, add: &Add) -> Option<String> {
    let foreseen = of(judge.tables(), add);
    let mut bare = judge.bare().copy();
    let done = Done { answer: bare.add(add), rows: seen(add, |place, kind| bare.rows(place, kind)) };
    (done != foreseen).then(|| format!("{add:?}: foreseen {foreseen:?}, the bare original {done:?}"))
}

fn seen(add: &Add, rows: impl Fn(Place, Kind) -> Vec<Row>) -> Vec<(Place, Kind, Vec<Row>)> {
    rows_of_add(add).into_iter().map(|(place, kind, _)| (place, kind, rows(place, kind))).collect()
}

fn of(tables: &Tables, add: &Add) -> Done {
    let mut tables = tables.clone();
    let answer = match add {
        Add::Pool { .. } | Add::Domain { .. } => pool(&mut tables, add),
        Add::Hold { owner, .. } | Add::Pair { owner, .. } => reserve(&mut tables, add, *owner),
    };
    Done { answer, rows: seen(add, |place, kind| by_domain(tables.of(place, kind))) }
}

/// Each range in its turn: 4 where it is empty, and what went in before stays; no row for a duplicate; no table is ever
/// full, and no LPI too low.
fn pool(tables: &mut Tables, add: &Add) -> Answer {
    for (place, kind, row) in rows_of_add(add) {
        if row.start >= row.end {
            return Answer::plain(no::EMPTY_RANGE);
        }
        let table = tables.of_mut(place, kind);
        if !table.contains(&row) {
            added::insert_row(table, place, row);
        }
    }
    Answer::Accepted
}

/// 3, then for each row its 4 and its 5; all rows or none.
fn reserve(tables: &mut Tables, add: &Add, owner: u32) -> Answer {
    if owner == 0 {
        return Answer::plain(no::BAD_OWNER);
    }
    let rows = rows_of_add(add);
    for (place, kind, row) in &rows {
        if *kind != Kind::Input && row.start >= row.end {
            return Answer::plain(no::EMPTY_RANGE);
        }
        if let Some(held) = tables.of(*place, *kind).iter().find(|held| meet(*kind, held, row)) {
            return Answer::Refused(Refusal { owner: held.owner, ..Refusal::plain(no::RESERVED) });
        }
    }
    for (place, kind, row) in rows {
        added::insert_row(tables.of_mut(place, kind), place, row);
    }
    Answer::Accepted
}

fn meet(kind: Kind, one: &Row, other: &Row) -> bool {
    let overlap = one.start < other.end && other.start < one.end;
    one.domain == other.domain && if kind == Kind::Input { one.start == other.start } else { overlap }
}
