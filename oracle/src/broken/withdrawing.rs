// Broken withdrawals.

use super::{face, one, Broken};
use crate::added;
use crate::calls::{no, Answer, Call, Kind, Place, PlanAnswer, Row, Tables};
use crate::compare::face::{judged, Answers};
use crate::compare::Way;
use crate::judge::Judge;

pub const ALL: [Broken; 9] = [
    Broken { name: "a withdrawal takes reservations too", way: Way::Calls, face: face::<Otherwise<TakesAll>> },
    Broken { name: "a withdrawal keeps LPIs", way: Way::Calls, face: face::<Otherwise<KeepsLpis>> },
    Broken { name: "a withdrawal takes one row of a table", way: Way::Calls, face: face::<Otherwise<TakesOne>> },
    Broken { name: "the last row goes where one was withdrawn", way: Way::Calls, face: face::<Otherwise<LastRow>> },
    Broken { name: "a withdrawal of nothing is accepted", way: Way::Calls, face: face::<NothingFound> },
    Broken { name: "a reservation is found and withdrawn", way: Way::Calls, face: face::<FindsReserved> },
    Broken { name: "NotFound before Malformed", way: Way::Calls, face: face::<FoundFirst> },
    Broken { name: "withdrawn numbers are not used again", way: Way::Calls, face: face::<NotAgain> },
    Broken { name: "who was withdrawn may not come back", way: Way::Calls, face: face::<StaysOut> },
];

fn withdrawn(call: &Call, answer: &PlanAnswer) -> Option<u32> {
    match call {
        Call::Withdraw { requester } if !answer.answer.is_refused() => Some(*requester),
        _ => None,
    }
}

/// What is left of one owner table: its rows before, how many of them are reservations, and who is withdrawn.
trait Left: Default {
    fn left(kind: Kind, rows: &[Row], held: usize, requester: u32) -> Vec<Row>;
}

/// The owner tables after a withdrawal are shown otherwise, once.
#[derive(Default)]
struct Otherwise<L> {
    shown: Option<Tables>,
    left: std::marker::PhantomData<L>,
}

impl<L: Left> Answers for Otherwise<L> {
    fn call(&mut self, judge: &mut Judge, call: &Call, lent: usize) -> PlanAnswer {
        let mut before = judge.tables().clone();
        let answer = judged(judge, call, lent);
        self.shown = withdrawn(call, &answer).map(|requester| {
            for kind in Kind::ALL {
                let (rows, held) = (before.of(Place::Owner, kind), before.of(Place::Held, kind).len());
                *before.of_mut(Place::Owner, kind) = L::left(kind, rows, held, requester);
            }
            before
        });
        answer
    }

    fn tables(&mut self, judge: &Judge) -> Tables {
        self.shown.take().unwrap_or_else(|| judge.tables().clone())
    }
}

/// As it should be: the rows of others, and all reservations.
fn right(rows: &[Row], held: usize, requester: u32) -> Vec<Row> {
    let stays = |(at, row): &(usize, &Row)| *at < held || row.owner != requester;
    rows.iter().enumerate().filter(stays).map(|(_, row)| *row).collect()
}

#[derive(Default)]
struct TakesAll;

impl Left for TakesAll {
    fn left(_: Kind, rows: &[Row], _: usize, requester: u32) -> Vec<Row> {
        right(rows, 0, requester)
    }
}

#[derive(Default)]
struct KeepsLpis;

impl Left for KeepsLpis {
    fn left(kind: Kind, rows: &[Row], held: usize, requester: u32) -> Vec<Row> {
        if kind == Kind::Lpi {
            rows.to_vec()
        } else {
            right(rows, held, requester)
        }
    }
}

#[derive(Default)]
struct TakesOne;

impl Left for TakesOne {
    fn left(_: Kind, rows: &[Row], held: usize, requester: u32) -> Vec<Row> {
        let mut rows = rows.to_vec();
        if let Some(at) = rows[held..].iter().position(|row| row.owner == requester) {
            rows.remove(held + at);
        }
        rows
    }
}

#[derive(Default)]
struct LastRow;

impl Left for LastRow {
    fn left(_: Kind, rows: &[Row], held: usize, requester: u32) -> Vec<Row> {
        let mut rows = rows.to_vec();
        while let Some(at) = rows[held..].iter().position(|row| row.owner == requester) {
            rows.swap_remove(held + at);
        }
        rows
    }
}

#[derive(Default)]
struct NothingFound;

impl Answers for NothingFound {
    fn call(&mut self, judge: &mut Judge, call: &Call, lent: usize) -> PlanAnswer {
        let answer = judged(judge, call, lent);
        if answer.answer == Answer::plain(no::NOT_FOUND) {
            return one(Answer::Accepted);
        }
        answer
    }
}

#[derive(Default)]
struct FindsReserved;

impl Answers for FindsReserved {
    fn call(&mut self, judge: &mut Judge, call: &Call, lent: usize) -> PlanAnswer {
        let answer = judged(judge, call, lent);
        let Call::Withdraw { requester } = call else { return answer };
        let holds = |kind: &Kind| judge.tables().of(Place::Held, *kind).iter().any(|row| row.owner == *requester);
        if answer.answer == Answer::plain(no::NOT_FOUND) && Kind::ALL.iter().any(holds) {
            return one(Answer::Accepted);
        }
        answer
    }
}

#[derive(Default)]
struct FoundFirst;

impl Answers for FoundFirst {
    fn call(&mut self, judge: &mut Judge, call: &Call, lent: usize) -> PlanAnswer {
        let answer = judged(judge, call, lent);
        let Call::Withdraw { requester } = call else { return answer };
        let owns = |kind: &Kind| judge.tables().of(Place::Owner, *kind).iter().any(|row| row.owner == *requester);
        if answer.answer == Answer::plain(no::MALFORMED) && !Kind::ALL.iter().any(owns) {
            return one(Answer::plain(no::NOT_FOUND));
        }
        answer
    }
}

/// Requests are answered by a judge from whom nothing was ever withdrawn.
#[derive(Default)]
struct NotAgain {
    other: Option<Judge>,
}

impl Answers for NotAgain {
    fn fresh(&mut self) {
        self.other = None;
    }

    fn call(&mut self, judge: &mut Judge, call: &Call, lent: usize) -> PlanAnswer {
        let other = self.other.get_or_insert_with(Judge::fresh);
        let kept = match call {
            Call::Withdraw { .. } => None,
            Call::Request(request) => Some(one(other.request_into(request, lent))),
            call => Some(other.call(call)),
        };
        let answer = judged(judge, call, lent);
        match (call, kept) {
            (Call::Request(_), Some(kept)) => kept,
            _ => answer,
        }
    }
}

#[derive(Default)]
struct StaysOut {
    out: Vec<u32>,
}

impl Answers for StaysOut {
    fn fresh(&mut self) {
        self.out.clear();
    }

    fn call(&mut self, judge: &mut Judge, call: &Call, lent: usize) -> PlanAnswer {
        match call {
            Call::Request(request)
                if self.out.contains(&request.requester)
                    && added::malformed(judge.tables(), &Kind::ALL).is_none()
                    && lent >= added::RECORD =>
            {
                one(Answer::plain(no::BAD_INPUT))
            }
            call => {
                let answer = judged(judge, call, lent);
                self.out.extend(withdrawn(call, &answer));
                answer
            }
        }
    }
}
