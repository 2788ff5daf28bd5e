// Both sides give the same answers and leave the same tables: looked at before anything is timed. What ships runs here on a stack of 64 KB.

use crate::face::{Flat, Lent};
use crate::forms::{self, OfKind};
use crate::input::{flat, Input};
use crate::list;
use crate::stack::on_small;
use crate::tables::{State, RECORD};
use crate::theirs::{spelt, Theirs};
use oracle::added::PLAN_REQUESTS;
use oracle::calls::{Answer, Request};
use oracle::judge::Judge;

/// The judge with an input's tables, started.
pub fn judge(input: &Input) -> Judge {
    let mut judge = Judge::fresh();
    for add in &input.adds {
        assert_eq!(judge.add(add), Answer::Accepted, "{add:?}");
    }
    judge.start();
    judge
}

/// Goes through the requests one by one on every side; each must be granted, and every column must agree after each.
pub fn check(input: &Input, requests: &[Request]) {
    let mut judge = judge(input);
    let mut theirs = Theirs::with(&input.adds).started();
    let mut lent = Lent::of(&State::of(judge.tables()));
    let mut by_value = lent.state;
    let mut kinds: Vec<OfKind> = (1..=5).map(|kind| OfKind::of(&by_value, kind)).collect();
    for request in requests {
        let granted = judge.request(request);
        let Answer::Granted(record) = granted else { panic!("{}: {request:?}: {granted:?}", input.name) };
        assert!(theirs.allocate(&spelt(request)), "{}: {request:?}", input.name);
        let numbers = flat(request);
        let kind = &mut kinds[numbers[0] as usize - 1];
        assert_eq!(on_small(|| lent.allocate(&numbers)), 0, "{}: {request:?}", input.name);
        forms::allocate(&mut by_value, &numbers);
        kind.allocate(&numbers);
        let expected = State::of(judge.tables());
        assert!(lent.state == *expected, "{}: planner_allocate after {request:?}", input.name);
        assert_eq!(lent.results[..RECORD], record, "{}: the record of {request:?}", input.name);
        assert!(by_value == *expected, "{}: by value after {request:?}", input.name);
        assert!(kind.stands_in(&expected), "{}: the kind's call after {request:?}", input.name);
    }
}

/// The same requests as one plan, through the C face and through the doors over a list: every record, every number behind them, every column.
pub fn check_plan(input: &Input, requests: &[Request]) {
    let mut judge = judge(input);
    let state = State::of(judge.tables());
    let granted = judge.plan(requests, RECORD * PLAN_REQUESTS);
    assert_eq!(granted.answer, Answer::Accepted, "{}", input.name);
    let mut expected = Lent::of(&State::of(judge.tables()));
    let filled = granted.records.len() * RECORD;
    expected.results[..filled].copy_from_slice(granted.records.as_flattened());
    let same = |call: &str, got: &Lent| {
        assert!(got.state == expected.state, "{}: the tables after {call}", input.name);
        assert_eq!(got.results, expected.results, "{}: the records of {call}", input.name);
    };
    let numbers: Vec<Flat> = requests.iter().map(flat).collect();
    let list: Vec<_> = requests.iter().map(list::Request::of).collect();
    let (mut planned, mut listed, mut handed) = (Lent::of(&state), Lent::of(&state), Lent::of(&state));
    assert_eq!(on_small(|| planned.plan(&numbers)), filled as u64, "{}: what planner_plan filled", input.name);
    on_small(|| listed.list_in(&list));
    assert_eq!(on_small(|| handed.list_part(&list)), filled, "{}: the filled part", input.name);
    same("planner_plan", &planned);
    same("plan::list::plan_in", &listed);
    same("plan::list::plan", &handed);
}
