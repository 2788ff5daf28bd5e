// Broken answers about low LPIs, and about MSI domains of which one range is refused.

use super::adding::with_rows;
use super::{face, one, Broken};
use crate::added::{self, FIRST_LPI};
use crate::calls::{no, rows_of_add, Add, Answer, Call, Choice, Hold, Need, Place, PlanAnswer, Refusal, Tables};
use crate::compare::face::{judged, Answers};
use crate::compare::Way;
use crate::judge::Judge;

pub const ALL: [Broken; 7] = [
    Broken { name: "takes a low LPI", way: Way::Calls, face: face::<TakesLow> },
    Broken { name: "judges an LPI range by its end", way: Way::Calls, face: face::<ByItsEnd> },
    Broken { name: "BadLpi before EmptyRange", way: Way::Calls, face: face::<LpiFirst> },
    Broken { name: "Reserved before BadLpi", way: Way::Calls, face: face::<ReservedFirst> },
    Broken { name: "a domain is Full before it is looked at", way: Way::Calls, face: face::<DomainFullFirst> },
    Broken { name: "a duplicate range needs a row", way: Way::Calls, face: face::<DuplicateFull> },
    Broken { name: "BadLpi for a request", way: Way::Calls, face: face::<RequestLow> },
];

/// Whether the judge refused a call that adds with the number.
fn refused<'a>(call: &'a Call, answer: &PlanAnswer, number: u32) -> Option<&'a Add> {
    match call {
        Call::Add(add) if answer.answer == Answer::plain(number) => Some(add),
        _ => None,
    }
}

/// Accepts what is refused with BadLpi, rows and all, where the test says so; the rows are shown once.
fn taken(judge: &Judge, call: &Call, answer: &mut PlanAnswer, test: impl Fn(&Add) -> bool) -> Option<Tables> {
    let add = refused(call, answer, no::BAD_LPI).filter(|add| test(add))?;
    answer.answer = Answer::Accepted;
    Some(with_rows(judge.tables(), add, rows_of_add(add).len()))
}

#[derive(Default)]
struct TakesLow {
    shown: Option<Tables>,
}

impl Answers for TakesLow {
    fn call(&mut self, judge: &mut Judge, call: &Call, lent: usize) -> PlanAnswer {
        let mut answer = judged(judge, call, lent);
        self.shown = taken(judge, call, &mut answer, |_| true);
        answer
    }

    fn tables(&mut self, judge: &Judge) -> Tables {
        self.shown.take().unwrap_or_else(|| judge.tables().clone())
    }
}

#[derive(Default)]
struct ByItsEnd {
    shown: Option<Tables>,
}

impl Answers for ByItsEnd {
    fn call(&mut self, judge: &mut Judge, call: &Call, lent: usize) -> PlanAnswer {
        let ends_above = |add: &Add| match add {
            Add::Domain { lpis, .. } | Add::Hold { what: Hold::Lpi { lpis, .. }, .. } => lpis.end > FIRST_LPI,
            _ => false,
        };
        let mut answer = judged(judge, call, lent);
        self.shown = taken(judge, call, &mut answer, ends_above);
        answer
    }

    fn tables(&mut self, judge: &Judge) -> Tables {
        self.shown.take().unwrap_or_else(|| judge.tables().clone())
    }
}

#[derive(Default)]
struct LpiFirst;

impl Answers for LpiFirst {
    fn call(&mut self, judge: &mut Judge, call: &Call, lent: usize) -> PlanAnswer {
        let answer = judged(judge, call, lent);
        match refused(call, &answer, no::EMPTY_RANGE) {
            Some(Add::Domain { lpis, .. } | Add::Hold { what: Hold::Lpi { lpis, .. }, .. })
                if lpis.start < FIRST_LPI =>
            {
                one(Answer::plain(no::BAD_LPI))
            }
            _ => answer,
        }
    }
}

#[derive(Default)]
struct ReservedFirst;

impl Answers for ReservedFirst {
    fn call(&mut self, judge: &mut Judge, call: &Call, lent: usize) -> PlanAnswer {
        let answer = judged(judge, call, lent);
        let Some(add @ Add::Hold { .. }) = refused(call, &answer, no::BAD_LPI) else { return answer };
        let (place, kind, row) = rows_of_add(add)[0];
        let mut held = judge.tables().of(place, kind).iter().filter(|held| held.domain == row.domain);
        match held.find(|held| held.start < row.end && row.start < held.end) {
            Some(held) => one(Answer::Refused(Refusal { owner: held.owner, ..Refusal::plain(no::RESERVED) })),
            None => answer,
        }
    }
}

#[derive(Default)]
struct DomainFullFirst;

impl Answers for DomainFullFirst {
    fn call(&mut self, judge: &mut Judge, call: &Call, lent: usize) -> PlanAnswer {
        let answer = judged(judge, call, lent);
        match call {
            Call::Add(add @ Add::Domain { .. }) if added::lacks_pool_row(judge.tables(), add) => {
                one(Answer::plain(no::FULL))
            }
            _ => answer,
        }
    }
}

#[derive(Default)]
struct DuplicateFull;

impl Answers for DuplicateFull {
    fn call(&mut self, judge: &mut Judge, call: &Call, lent: usize) -> PlanAnswer {
        let full = |place: Place, kind, tables: &Tables| tables.of(place, kind).len() == added::size(place);
        let before = match call {
            Call::Add(add @ Add::Domain { .. }) => {
                rows_of_add(add).iter().any(|(place, kind, _)| full(*place, *kind, judge.tables()))
            }
            _ => false,
        };
        let answer = judged(judge, call, lent);
        if before && !answer.answer.is_refused() {
            return one(Answer::plain(no::FULL));
        }
        answer
    }
}

#[derive(Default)]
struct RequestLow;

impl Answers for RequestLow {
    fn call(&mut self, judge: &mut Judge, call: &Call, lent: usize) -> PlanAnswer {
        let answer = judged(judge, call, lent);
        let not_allowed = Answer::Refused(Refusal { namespace: 6, ..Refusal::plain(no::FIXED_NOT_ALLOWED) });
        match call {
            Call::Request(request) if answer.answer == not_allowed => match request.need {
                Need::Msi { lpi: Choice::Fixed(lpi), .. } if lpi < FIRST_LPI => one(Answer::plain(no::BAD_LPI)),
                _ => answer,
            },
            _ => answer,
        }
    }
}
