// The stored cases: short plan texts, each with a name, and for those written by hand the output expected by hand.

mod bad_lines;
mod blocks;
mod full;
mod holds;
mod pinned;
mod pools;
mod stand;
mod store;
mod wants;

pub use store::{read_parts, write_all};

use crate::gen::{damaged, good_text, Rng};

pub struct Case {
    pub name: String,
    pub text: Vec<u8>,
    /// What must come out, worked out by hand from 01; none for random texts.
    pub expected: Option<Vec<u8>>,
}

/// All cases in the order in which they are stored.
pub fn all() -> Vec<Case> {
    let mut cases = Vec::new();
    for table in [stand::CASES, pools::CASES, holds::CASES, wants::CASES, blocks::CASES, pinned::CASES] {
        cases.extend(table.iter().map(|(name, text, expected)| case(name, lines(text), lines(expected))));
    }
    cases.extend(bad_lines::all());
    cases.extend(full::all());
    cases.extend(pinned::all());
    cases.extend(random());
    cases
}

fn case(name: &str, text: Vec<u8>, expected: Vec<u8>) -> Case {
    Case { name: name.to_string(), text, expected: Some(expected) }
}

/// Lines as the tables here write them: a blank for a tab, `/` for the newline between lines, and one newline more at
/// the end. `_` is a blank.
fn lines(short: &str) -> Vec<u8> {
    if short.is_empty() {
        return Vec::new();
    }
    let long = short.replace(' ', "\t").replace('_', " ").replace('/', "\n");
    (long + "\n").into_bytes()
}

/// The output for a refusal that names nothing.
fn refused(line: usize, number: u32) -> Vec<u8> {
    format!("no\t{line}\t{number}\t0\t0\t0\n").into_bytes()
}

const SEED: u64 = 20_240;
const LONGEST: usize = 500;

/// Short random texts, good and damaged; what comes out is the original's word alone.
fn random() -> Vec<Case> {
    let good = short_texts("random", 0, 110, good_text);
    let damaged = short_texts("damaged", 1_000_000, 40, |rng| {
        let text = good_text(rng);
        damaged(rng, text)
    });
    good.into_iter().chain(damaged).collect()
}

fn short_texts(name: &str, from: u64, number: usize, text: impl Fn(&mut Rng) -> Vec<u8>) -> Vec<Case> {
    (from..)
        .map(|index| text(&mut Rng::new(SEED, index)))
        .filter(|text| (40..=LONGEST).contains(&text.len()))
        .take(number)
        .enumerate()
        .map(|(i, text)| Case { name: format!("{name}-{i:03}"), text, expected: None })
        .collect()
}
