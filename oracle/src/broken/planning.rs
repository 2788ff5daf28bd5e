// Broken plans, and broken numbers around them.

use super::{face, Broken};
use crate::added;
use crate::calls::{Answer, Call, Kind, PlanAnswer, Tables};
use crate::compare::face::{judged, Answers, Behind, Face, Plain, Said};
use crate::compare::flat::{Step, REQUEST};
use crate::compare::Way;
use crate::judge::Judge;
use crate::pinned::Pinned;

pub const ALL: [Broken; 6] = [
    Broken { name: "a refused plan keeps its rows", way: Way::Calls, face: face::<PlanKeeps> },
    Broken { name: "a refused plan names index 0", way: Way::Calls, face: face::<IndexZero> },
    Broken { name: "a refused plan forgets its records", way: Way::Calls, face: face::<NoRecords> },
    Broken { name: "writes behind the filled part", way: Way::Calls, face: face::<WritesBehind> },
    Broken { name: "an index stays behind a refused plan", way: Way::Calls, face: face::<StaleIndex> },
    Broken { name: "takes an unknown code for automatic", way: Way::Calls, face: takes_codes },
];

#[derive(Default)]
struct PlanKeeps;

impl Answers for PlanKeeps {
    fn call(&mut self, judge: &mut Judge, call: &Call, lent: usize) -> PlanAnswer {
        let Call::Plan { requests, results } = call else { return judged(judge, call, lent) };
        let unsound = added::malformed(judge.tables(), &Kind::ALL).is_some();
        if unsound || added::short_plan(requests.len(), *results).is_some() {
            return judged(judge, call, lent);
        }
        let mut records = Vec::new();
        for (index, request) in requests.iter().enumerate() {
            match judge.request(request) {
                Answer::Granted(record) => records.push(record),
                answer => return PlanAnswer { answer, index, records },
            }
        }
        PlanAnswer { answer: Answer::Accepted, index: 0, records }
    }
}

#[derive(Default)]
struct IndexZero;

impl Answers for IndexZero {
    fn call(&mut self, judge: &mut Judge, call: &Call, lent: usize) -> PlanAnswer {
        PlanAnswer { index: 0, ..judged(judge, call, lent) }
    }
}

#[derive(Default)]
struct NoRecords;

impl Answers for NoRecords {
    fn call(&mut self, judge: &mut Judge, call: &Call, lent: usize) -> PlanAnswer {
        let mut answer = judged(judge, call, lent);
        if answer.answer.is_refused() {
            answer.records.clear();
        }
        answer
    }
}

#[derive(Default)]
struct WritesBehind;

impl Answers for WritesBehind {
    fn results(&mut self, lent: &mut [u64], filled: usize) {
        if let Some(number) = lent.get_mut(filled) {
            *number = 0;
        }
    }
}

#[derive(Default)]
struct StaleIndex {
    index: usize,
}

impl Answers for StaleIndex {
    fn fresh(&mut self) {
        self.index = 0;
    }

    fn call(&mut self, judge: &mut Judge, call: &Call, lent: usize) -> PlanAnswer {
        let mut answer = judged(judge, call, lent);
        match call {
            Call::Plan { .. } => self.index = answer.index,
            _ => answer.index = self.index,
        }
        answer
    }
}

fn takes_codes() -> Box<dyn Face> {
    Box::new(TakesCodes(Behind::new(Plain)))
}

struct TakesCodes(Behind<Plain>);

impl Face for TakesCodes {
    fn fresh(&mut self) {
        self.0.fresh();
    }

    fn step(&mut self, step: &Step) -> Said {
        let mut step = step.clone();
        match &mut step {
            Step::Call(numbers) if numbers.first() == Some(&4) => known_codes(&mut numbers[1..]),
            Step::Call(_) => {}
            Step::Allocate { request: numbers, .. } | Step::Plan { requests: numbers, .. } => known_codes(numbers),
        }
        self.0.step(&step)
    }

    fn tables(&mut self) -> Tables {
        self.0.tables()
    }

    fn text(&mut self, text: &[u8]) -> Vec<u8> {
        self.0.text(text)
    }

    fn pin(&mut self, text: &[u8], room: usize) -> Pinned {
        self.0.pin(text, room)
    }
}

fn known_codes(numbers: &mut [u64]) {
    for request in numbers.chunks_mut(REQUEST) {
        if let Some(code) = request.get_mut(6) {
            if *code > 1 {
                *code = 0;
            }
        }
    }
}
