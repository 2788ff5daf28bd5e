// The face that is compared: numbers in, numbers out. The library has it, the judge is put behind it, broken ones too.

use std::collections::BTreeMap;

use super::flat::{meaning, Meaning, Step};
use crate::added;
use crate::calls::{no, Answer, Call, Kind, PlanAnswer, Tables};
use crate::departures;
use crate::foreseen;
use crate::judge::Judge;
use crate::pinned::{in_room, judged as judged_back, Pinned};
use crate::text;

/// What every lent number holds beforehand, so that one written without need is seen.
pub const LENT: u64 = 0xA5A5_5A5A_C3C3_3C3C;

/// Everything that a step gives back but the tables.
#[derive(Clone, Debug, PartialEq, Eq)]
pub struct Said {
    /// Number, index, namespace, owner, detail.
    pub answer: [u64; 5],
    /// Numbers of the results list that a plan calls filled; 0 for other calls.
    pub filled: usize,
    /// The whole of the list lent, as it is afterwards.
    pub lent: Vec<u64>,
}

/// One state and the calls on it.
pub trait Face {
    /// The state becomes a fresh one.
    fn fresh(&mut self);

    fn step(&mut self, step: &Step) -> Said;

    /// All tables, used rows in order.
    fn tables(&mut self) -> Tables;

    /// The whole output for a text. No state is touched.
    fn text(&mut self, text: &[u8]) -> Vec<u8>;

    /// A text written back into a buffer of so many bytes. No state is touched.
    fn pin(&mut self, text: &[u8], room: usize) -> Pinned;
}

/// How something that answers typed calls answers; the judge itself, unless a method says otherwise.
pub trait Answers {
    fn fresh(&mut self) {}

    /// One call, with so many numbers lent for a single request's record.
    fn call(&mut self, judge: &mut Judge, call: &Call, lent: usize) -> PlanAnswer {
        judged(judge, call, lent)
    }

    fn tables(&mut self, judge: &Judge) -> Tables {
        judge.tables().clone()
    }

    /// The results list once the records are in it.
    fn results(&mut self, _lent: &mut [u64], _filled: usize) {}

    fn text(&mut self, text: &[u8]) -> Vec<u8> {
        output(text)
    }

    fn pin(&mut self, text: &[u8], room: usize) -> Pinned {
        in_room(&judged_back(text), room)
    }
}

/// The judge's answer to a call.
pub fn judged(judge: &mut Judge, call: &Call, lent: usize) -> PlanAnswer {
    let Call::Request(request) = call else { return judge.call(call) };
    let answer = judge.request_into(request, lent);
    let records = match &answer {
        Answer::Granted(record) => vec![*record],
        _ => Vec::new(),
    };
    PlanAnswer { answer, index: 0, records }
}

/// The judge's output; a panic of the original is an output that no program gives.
pub fn output(text: &[u8]) -> Vec<u8> {
    text::run(text).unwrap_or_else(|stopped| format!("panic at line {}: {}", stopped.line, stopped.message).into())
}

/// The judge with nothing changed.
pub struct Plain;

impl Answers for Plain {}

/// Typed answers behind the flat face, with a count of the departures that its steps fall under.
pub struct Behind<A> {
    pub answers: A,
    pub judge: Judge,
    pub excused: BTreeMap<&'static str, u64>,
    /// Whether an answer under no departure is held against the bare original's; and how many were.
    pub bare: bool,
    pub bare_same: u64,
    /// Calls that add under a departure, at which the bare original did what was foreseen.
    pub foreseen: u64,
}

impl<A: Answers> Behind<A> {
    pub fn new(answers: A) -> Self {
        Self { answers, judge: Judge::fresh(), excused: BTreeMap::new(), bare: false, bare_same: 0, foreseen: 0 }
    }

    fn asked(&mut self, call: &Call, lent: usize) -> PlanAnswer {
        let names = departures::of(self.judge.tables(), call);
        for name in &names {
            *self.excused.entry(name).or_default() += 1;
        }
        let same = self.bare && names.is_empty() && lent >= added::RECORD;
        let bare = if same { self.judge.bare_answer(call) } else { None };
        let surprise = self.surprise(call, &names);
        let answer = self.answers.call(&mut self.judge, call, lent);
        let other = match bare {
            Some(bare) if bare != answer.answer => {
                Some(format!("the bare original: {bare:?}, the judge: {:?}", answer.answer))
            }
            Some(_) => {
                self.bare_same += 1;
                None
            }
            None => surprise,
        };
        match other {
            Some(words) => PlanAnswer { answer: Answer::Panicked(words), ..answer },
            None => answer,
        }
    }

    /// What the bare original does with a call that adds, under a departure, if it was not foreseen.
    fn surprise(&mut self, call: &Call, names: &[&str]) -> Option<String> {
        match call {
            Call::Add(add) if !names.is_empty() && foreseen::can_be_given(add) => {
                self.foreseen += 1;
                foreseen::surprise(&self.judge, add)
            }
            _ => None,
        }
    }

    /// What the step's numbers come to.
    fn answer(&mut self, step: &Step) -> PlanAnswer {
        let plain = |number| PlanAnswer { answer: Answer::plain(number), index: 0, records: Vec::new() };
        match meaning(step) {
            Meaning::Call(call) => self.asked(&call, added::RECORD),
            Meaning::Lent(request, lent) => self.asked(&Call::Request(request), lent),
            Meaning::NoAdd => plain(no::BAD_INPUT),
            Meaning::Cut { asks } => {
                let unsound = asks && added::malformed(self.judge.tables(), &Kind::ALL).is_some();
                plain(if unsound { no::MALFORMED } else { no::SHORT })
            }
        }
    }
}

impl<A: Answers> Face for Behind<A> {
    fn fresh(&mut self) {
        self.judge = Judge::fresh();
        self.answers.fresh();
    }

    fn step(&mut self, step: &Step) -> Said {
        let answer = self.answer(step);
        let records = answer.records.concat();
        let (length, filled) = match step {
            Step::Call(_) => (0, 0),
            Step::Allocate { lent, .. } => (*lent, 0),
            Step::Plan { results, .. } => (*results, records.len()),
        };
        let mut lent = vec![LENT; length];
        if length > 0 {
            lent[..records.len()].copy_from_slice(&records);
            self.answers.results(&mut lent, records.len());
        }
        Said { answer: five(&answer), filled, lent }
    }

    fn tables(&mut self) -> Tables {
        self.answers.tables(&self.judge)
    }

    fn text(&mut self, text: &[u8]) -> Vec<u8> {
        self.answers.text(text)
    }

    fn pin(&mut self, text: &[u8], room: usize) -> Pinned {
        self.answers.pin(text, room)
    }
}

/// 01's five numbers of an answer. A panic of the original is a number that no call gives.
fn five(answer: &PlanAnswer) -> [u64; 5] {
    match &answer.answer {
        Answer::Accepted | Answer::Granted(_) => [0; 5],
        Answer::Refused(refusal) => {
            let [number, namespace, owner, detail] =
                [refusal.number, refusal.namespace, refusal.owner, refusal.detail].map(u64::from);
            [number, answer.index as u64, namespace, owner, detail]
        }
        Answer::Panicked(_) => [u64::MAX; 5],
    }
}
