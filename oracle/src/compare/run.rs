// A run: families of inputs, shared out among threads, and what came of them.

use std::collections::BTreeMap;
use std::fmt;

use super::face::Face;
use super::flat::{step_of, Step};
use super::pair::{Input, Pair};
use super::pins::Counts;
use super::{odd, short_calls, short_texts};
use crate::added::RECORD;
use crate::calls::Call;
use crate::cases;
use crate::gen;
use crate::text::{read_line, Line};

/// Differences that are shown in full, of each family.
const SHOWN: usize = 3;

/// One in so many inputs is held against the bare original too.
const BARE: u64 = 4;

/// Texts, or calls.
#[derive(Clone, Copy, Debug, PartialEq, Eq)]
pub enum Way {
    Text,
    Calls,
}

/// A list of inputs, each known by its index.
pub struct Family {
    pub name: String,
    pub way: Way,
    pub count: u64,
    pub input: Box<dyn Fn(u64) -> Input + Sync>,
}

impl Family {
    pub fn texts(name: &str, count: u64, text: impl Fn(u64) -> Vec<u8> + Sync + 'static) -> Self {
        let input = Box::new(move |index| Input::Text(text(index)));
        Family { name: name.to_string(), way: Way::Text, count, input }
    }

    pub fn calls(name: &str, count: u64, steps: impl Fn(u64) -> Vec<super::flat::Step> + Sync + 'static) -> Self {
        let input = Box::new(move |index| Input::Calls(steps(index)));
        Family { name: name.to_string(), way: Way::Calls, count, input }
    }
}

/// All inputs of a run: N random ones of each way, the stored cases, and all short ones; more of those where N is large.
pub fn families(number: u64, seed: u64) -> Vec<Family> {
    let large = number >= 100_000;
    let mut all = vec![
        Family::texts("random texts", number, move |index| gen::text(seed, index)),
        Family::texts("random texts, automatic ranges fixed too", number, move |index| {
            gen::text_fixed_too(!seed, index)
        }),
        Family::calls("random calls", number, move |index| {
            let calls = match index % 3 {
                0 => gen::sequence(seed, index),
                1 => gen::sequence_fixed_too(seed, index),
                _ => gen::tight_sequence(seed, index),
            };
            let mut steps: Vec<_> = calls.iter().map(step_of).collect();
            odd::some_odd(&mut gen::Rng::new(!seed, index), &mut steps);
            steps
        }),
    ];
    let stored: Vec<Vec<u8>> = cases::all().into_iter().map(|case| case.text).collect();
    let (count, again) = (stored.len() as u64, stored.clone());
    all.push(Family::texts("stored cases", count, move |index| stored[index as usize].clone()));
    all.push(Family::calls("stored cases as calls", count, move |index| calls_of(&again[index as usize])));
    all.extend(short_texts::families(large));
    all.extend(short_calls::families(large));
    all
}

/// The lines of a text that can be read, as calls: what adds, a start, the wants as one plan; and from another start the wants one by one.
fn calls_of(text: &[u8]) -> Vec<Step> {
    let (mut steps, mut requests) = (Vec::new(), Vec::new());
    for line in text.split(|byte| *byte == b'\n').filter_map(read_line) {
        match line {
            Line::Add(add) => steps.push(step_of(&Call::Add(add))),
            Line::Want(request) => requests.push(request),
        }
    }
    let asked: Vec<Step> = requests.iter().map(|request| step_of(&Call::Request(request.clone()))).collect();
    let results = RECORD * requests.len();
    steps.extend([Call::Start, Call::Plan { requests, results }, Call::Start].iter().map(step_of));
    steps.extend(asked);
    steps
}

/// What came of a family.
#[derive(Debug, Default)]
pub struct Report {
    pub compared: u64,
    pub differ: u64,
    /// The first few differences, each at its smallest input.
    pub shown: Vec<String>,
    /// For each departure: inputs that fall under it, and places in them.
    pub excused: BTreeMap<&'static str, (u64, u64)>,
    /// How often each answer was given: number, namespace, detail.
    pub answers: BTreeMap<[u64; 3], u64>,
    /// Answers of the judge that were held against the bare original's as well.
    pub bare_same: u64,
    /// Calls that add under a departure, at which the bare original did what was foreseen.
    pub foreseen: u64,
    /// What came of writing texts back.
    pub pins: Counts,
}

impl Report {
    pub fn add(&mut self, other: Report) {
        self.compared += other.compared;
        self.differ += other.differ;
        self.shown.extend(other.shown);
        self.bare_same += other.bare_same;
        self.foreseen += other.foreseen;
        for (name, (inputs, places)) in other.excused {
            let entry = self.excused.entry(name).or_default();
            *entry = (entry.0 + inputs, entry.1 + places);
        }
        for (answer, count) in other.answers {
            *self.answers.entry(answer).or_default() += count;
        }
        for (what, count) in other.pins {
            *self.pins.entry(what).or_default() += count;
        }
    }

    fn take(&mut self, pair: &mut Pair, index: u64, input: &Input) {
        self.compared += 1;
        pair.hold_bare(index.is_multiple_of(BARE));
        let differs = pair.difference(input).is_some();
        for (name, places) in pair.take_excused() {
            let entry = self.excused.entry(name).or_default();
            *entry = (entry.0 + 1, entry.1 + places);
        }
        if differs {
            self.differ += 1;
            if self.shown.len() < SHOWN {
                self.shown.push(format!("input {index}\n{}", pair.smallest_difference(input)));
                pair.take_excused();
            }
        }
    }
}

impl fmt::Display for Report {
    fn fmt(&self, f: &mut fmt::Formatter<'_>) -> fmt::Result {
        for ([number, namespace, detail], count) in &self.answers {
            writeln!(f, "answer {number}, namespace {namespace}, detail {detail}: {count}")?;
        }
        for (name, (inputs, places)) in &self.excused {
            writeln!(f, "departure {name}: {inputs} inputs, {places} places, compared with 01's answer")?;
        }
        if self.foreseen > 0 {
            writeln!(f, "{} calls that add under a departure: the bare original did what was foreseen", self.foreseen)?;
        }
        for (what, count) in &self.pins {
            writeln!(f, "pinned text, {what}: {count}")?;
        }
        if self.bare_same > 0 {
            writeln!(f, "{} answers under no departure are the bare original's word for word", self.bare_same)?;
        }
        Ok(())
    }
}

/// ORACLE_THREADS, else as many as the machine runs at once.
pub fn threads() -> u64 {
    let given = std::env::var("ORACLE_THREADS").ok().and_then(|number| number.parse().ok());
    given.unwrap_or_else(|| std::thread::available_parallelism().map_or(1, |n| n.get() as u64)).max(1)
}

/// Gives every input of a family to both sides; each thread has a state of its own.
pub fn run(family: &Family, threads: u64, ours: &(dyn Fn() -> Box<dyn Face> + Sync)) -> Report {
    let part = |first: u64| {
        let (mut pair, mut report) = (Pair::new(ours()), Report::default());
        for index in (first..family.count).step_by(threads as usize) {
            report.take(&mut pair, index, &(family.input)(index));
        }
        report.answers = std::mem::take(&mut pair.answers);
        report.pins = std::mem::take(&mut pair.pins);
        report.bare_same = pair.bare_same();
        report.foreseen = pair.foreseen();
        report
    };
    let mut whole = Report::default();
    std::thread::scope(|scope| {
        let parts: Vec<_> = (0..threads).map(|first| scope.spawn(move || part(first))).collect();
        for part in parts {
            whole.add(part.join().expect("a part of the run"));
        }
    });
    whole
}
