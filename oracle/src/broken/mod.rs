// Deliberately broken answers. A comparison that does not notice each of them is worth nothing.

mod adding;
mod asking;
mod lpis;
mod pinning;
mod planning;
mod texts;
mod withdrawing;

use crate::calls::{Add, Answer, Choice, Hold, Kind, Need, Place, PlanAnswer, Record, Request, Row, Tables};
use crate::compare::face::{Answers, Behind, Face};
use crate::compare::{Family, Pair, Way};
use crate::judge::Judge;

/// Inputs of each family that a broken answer may go unnoticed for.
pub const BOUND: u64 = 10_000;

/// One way to be wrong.
pub struct Broken {
    pub name: &'static str,
    pub way: Way,
    pub face: fn() -> Box<dyn Face>,
}

pub fn all() -> Vec<Broken> {
    let mut all = Vec::new();
    all.extend(asking::ALL);
    all.extend(adding::ALL);
    all.extend(lpis::ALL);
    all.extend(planning::ALL);
    all.extend(withdrawing::ALL);
    all.extend(texts::ALL);
    all.extend(pinning::ALL);
    all
}

impl Broken {
    /// The family and the input at which it is noticed first, all families taken by turns.
    pub fn noticed<'a>(&self, families: &'a [Family]) -> Option<(&'a str, u64)> {
        let mut pair = Pair::new((self.face)());
        for index in 0..BOUND {
            for family in families.iter().filter(|family| family.way == self.way && index < family.count) {
                if pair.difference(&(family.input)(index)).is_some() {
                    return Some((&family.name, index));
                }
            }
        }
        None
    }
}

/// A broken face over typed answers.
fn face<A: Answers + Default + 'static>() -> Box<dyn Face> {
    Box::new(Behind::new(A::default()))
}

/// A judge with the same pools and owner rows and with more besides. Only requests may be asked of it.
fn aside(log: &[Add], more: &[Add], tables: &Tables, keep: impl Fn(Kind, usize) -> bool) -> Judge {
    let mut judge = Judge::fresh();
    for add in log.iter().chain(more) {
        judge.add(add);
    }
    for kind in Kind::ALL {
        let held = tables.of(Place::Held, kind).len();
        for (at, row) in tables.of(Place::Owner, kind).iter().enumerate().skip(held) {
            if keep(kind, at - held) {
                judge.add(&hold_of_row(kind, row));
            }
        }
    }
    judge.start();
    judge
}

fn hold_of_row(kind: Kind, row: &Row) -> Add {
    let [controller, its, device] = row.domain;
    let (wide, narrow) = (row.start..row.end, row.start as u32..row.end as u32);
    let what = match kind {
        Kind::Mmio => Hold::Mmio(wide),
        Kind::Pio => Hold::Pio(row.start as u16..row.end as u16),
        Kind::Host => Hold::Host(wide),
        Kind::Input => Hold::Input { controller, input: row.start, trigger: row.trigger, sharing: row.sharing },
        Kind::Device => Hold::Device { controller, its, devices: narrow },
        Kind::Event => Hold::Event { controller, its, device, events: narrow },
        Kind::Lpi => Hold::Lpi { controller, lpis: narrow },
    };
    Add::Hold { owner: row.owner, what }
}

fn one(answer: Answer) -> PlanAnswer {
    let records = match &answer {
        Answer::Granted(record) => vec![*record],
        _ => Vec::new(),
    };
    PlanAnswer { answer, index: 0, records }
}

/// A record granted at another number: an address at a base, an input, a host IRQ.
fn record_at(request: &Request, number: u64) -> Record {
    let (requester, slot) = (u64::from(request.requester), u64::from(request.slot));
    match request.need {
        Need::Mmio { size, .. } => [1, requester, slot, number, size, 0, 0, 0, 0],
        Need::Pio { size, .. } => [2, requester, slot, number, size.into(), 0, 0, 0, 0],
        Need::Input { controller, trigger, sharing, .. } => {
            [3, requester, slot, controller.into(), number, trigger.into(), sharing.into(), 0, 0]
        }
        _ => [4, requester, slot, number, 0, 0, 0, 0, 0],
    }
}

/// An address request's kind, size, alignment and choice.
fn address(need: &Need) -> Option<(Kind, u64, u64, Choice<u64>)> {
    match *need {
        Need::Mmio { size, alignment, base } => Some((Kind::Mmio, size, alignment, base)),
        Need::Pio { size, alignment, base } => {
            let base = match base {
                Choice::Auto => Choice::Auto,
                Choice::Fixed(number) => Choice::Fixed(number.into()),
            };
            Some((Kind::Pio, size.into(), alignment.into(), base))
        }
        _ => None,
    }
}
