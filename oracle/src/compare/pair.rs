// One input given to both sides, and the first thing in which they differ.

use std::any::Any;
use std::collections::BTreeMap;
use std::panic::{catch_unwind, AssertUnwindSafe};

use super::face::{Behind, Face, Plain, Said};
use super::flat::Step;
use super::pins;
use super::smallest::smallest;
use crate::calls::{Call, Kind, Place, Tables};
use crate::departures;
use crate::foreseen;
use crate::text::{self, Ran};

/// What both sides are given.
#[derive(Clone, Debug, PartialEq, Eq)]
pub enum Input {
    Text(Vec<u8>),
    Calls(Vec<Step>),
}

/// Our side and the judge's.
pub struct Pair {
    ours: Box<dyn Face>,
    theirs: Behind<Plain>,
    /// Departures of the texts and calls since they were last asked for.
    excused: BTreeMap<&'static str, u64>,
    /// How often each answer was given: number, namespace, detail.
    pub answers: BTreeMap<[u64; 3], u64>,
    /// What came of writing texts back.
    pub pins: pins::Counts,
    /// Lines of texts that add under a departure, at which the bare original did what was foreseen.
    foreseen: u64,
}

impl Pair {
    pub fn new(ours: Box<dyn Face>) -> Self {
        Self {
            ours,
            theirs: Behind::new(Plain),
            excused: BTreeMap::new(),
            answers: BTreeMap::new(),
            pins: BTreeMap::new(),
            foreseen: 0,
        }
    }

    /// In what the two sides differ, in words. A side that stops with a panic differs.
    pub fn difference(&mut self, input: &Input) -> Option<String> {
        let asked = catch_unwind(AssertUnwindSafe(|| match input {
            Input::Text(text) => self.text(text),
            Input::Calls(steps) => self.calls(steps),
        }));
        asked.unwrap_or_else(|panic| Some(format!("  stopped: {}\n", message(&*panic))))
    }

    /// From now on, whether the judge's own answers are held against the bare original's, where no departure holds.
    pub fn hold_bare(&mut self, bare: bool) {
        self.theirs.bare = bare;
    }

    /// Answers that were held against the bare original's and are the same.
    pub fn bare_same(&self) -> u64 {
        self.theirs.bare_same
    }

    /// Calls that add under a departure, at which the bare original did what was foreseen.
    pub fn foreseen(&self) -> u64 {
        self.foreseen + self.theirs.foreseen
    }

    /// The departures that the inputs since the last time fell under, and in how many places.
    pub fn take_excused(&mut self) -> BTreeMap<&'static str, u64> {
        let mut all = std::mem::take(&mut self.excused);
        for (name, number) in std::mem::take(&mut self.theirs.excused) {
            *all.entry(name).or_default() += number;
        }
        all
    }

    /// The difference again, at an input from which nothing can be left out.
    pub fn smallest_difference(&mut self, input: &Input) -> String {
        let least = match input {
            Input::Text(text) => {
                let lines: Vec<&[u8]> = text.split_inclusive(|byte| *byte == b'\n').collect();
                let differs = |lines: &[&[u8]]| self.difference(&Input::Text(lines.concat())).is_some();
                Input::Text(smallest(lines, differs).concat())
            }
            Input::Calls(steps) => {
                let differs = |steps: &[Step]| self.difference(&Input::Calls(steps.to_vec())).is_some();
                Input::Calls(smallest(steps.clone(), differs))
            }
        };
        let what = self.difference(&least).unwrap_or_else(|| "not the same twice".to_string());
        format!("{}{what}", shown(&least))
    }

    fn text(&mut self, text: &[u8]) -> Option<String> {
        let (excused, foreseen, mut surprise) = (&mut self.excused, &mut self.foreseen, None);
        let ran = text::run_seen(text, &mut |judge, call| {
            let names = departures::of(judge.tables(), call);
            for name in &names {
                *excused.entry(name).or_default() += 1;
            }
            match call {
                Call::Add(add) if !names.is_empty() && foreseen::can_be_given(add) => {
                    *foreseen += 1;
                    surprise = surprise.take().or_else(|| foreseen::surprise(judge, add));
                }
                _ => {}
            }
        });
        let ran = match ran {
            Ok(ran) => ran,
            Err(stopped) => return Some(format!("the original panics at line {}: {}", stopped.line, stopped.message)),
        };
        if surprise.is_some() {
            return surprise;
        }
        *self.answers.entry(answer_of(&ran)).or_default() += 1;
        let (ours, theirs) = (self.ours.text(text), ran.output());
        if ours != theirs {
            let words = |output: &[u8]| String::from_utf8_lossy(output).into_owned();
            return Some(format!("  ours:\n{}  the judge:\n{}", words(&ours), words(&theirs)));
        }
        pins::difference(&mut *self.ours, text, &ran, &mut self.pins)
    }

    fn calls(&mut self, steps: &[Step]) -> Option<String> {
        self.ours.fresh();
        self.theirs.fresh();
        for (at, step) in steps.iter().enumerate() {
            let (ours, theirs) = (self.ours.step(step), self.theirs.step(step));
            let [number, _, namespace, _, detail] = theirs.answer;
            *self.answers.entry([number, namespace, detail]).or_default() += 1;
            if ours != theirs {
                return Some(format!("  at call {at}\n  ours:      {}\n  the judge: {}\n", said(&ours), said(&theirs)));
            }
            let (ours, theirs) = (self.ours.tables(), self.theirs.tables());
            if ours != theirs {
                return Some(format!("  after call {at}\n{}", first_table(&ours, &theirs)));
            }
        }
        None
    }
}

fn message(panic: &(dyn Any + Send)) -> &str {
    let words = panic.downcast_ref::<String>().map(String::as_str);
    words.or_else(|| panic.downcast_ref::<&str>().copied()).unwrap_or("a panic without words")
}

/// Number, namespace and detail of a text's refusal; zeros where there is none.
fn answer_of(ran: &Ran) -> [u64; 3] {
    match ran {
        Ran::Refused { refusal, .. } => [refusal.number, refusal.namespace, refusal.detail].map(u64::from),
        Ran::Granted(_) => [0; 3],
    }
}

fn said(said: &Said) -> String {
    format!("answer {:?}, {} filled, lent {:?}", said.answer, said.filled, said.lent)
}

/// The input as one can type it again.
fn shown(input: &Input) -> String {
    match input {
        Input::Text(text) => format!("text: {:?}\n", String::from_utf8_lossy(text)),
        Input::Calls(steps) => steps.iter().enumerate().map(|(at, step)| format!("  {at}: {step:?}\n")).collect(),
    }
}

fn first_table(ours: &Tables, theirs: &Tables) -> String {
    for place in [Place::Auto, Place::Fixed, Place::Held, Place::Owner] {
        for kind in Kind::ALL {
            let (ours, theirs) = (ours.of(place, kind), theirs.of(place, kind));
            if ours != theirs {
                return format!("  table {place:?} {kind:?}\n  ours:      {ours:?}\n  the judge: {theirs:?}\n");
            }
        }
    }
    String::new()
}
