// Random inputs from a seed: plan texts, damaged texts and call sequences.

mod damage;
mod fill;
mod lines;
mod requests;
mod rng;
mod scene;
mod sequence;
mod texts;

pub use damage::damaged;
pub use lines::{line_of_add, line_of_request};
pub use rng::Rng;
pub use scene::{Ruler, Scene};
pub use sequence::{calls, tight_calls};
pub use texts::good_text;

use crate::calls::{Add, Call};

/// The text of a number under a seed, the same on every machine: three in four are good ones, the others damaged.
pub fn text(seed: u64, index: u64) -> Vec<u8> {
    let mut rng = Rng::new(seed, index);
    let text = good_text(&mut rng);
    if rng.chance(75) {
        text
    } else {
        damaged(&mut rng, text)
    }
}

/// The same kind of text with each automatic pool range made a fixed one too, so that what it grants can be asked for.
pub fn text_fixed_too(seed: u64, index: u64) -> Vec<u8> {
    let text = text(seed, index);
    let mut written = Vec::new();
    for line in text.split_inclusive(|byte| *byte == b'\n') {
        if let Some(range) = line.strip_prefix(b"pool\tauto\t") {
            written.extend_from_slice(b"pool\tfixed\t");
            written.extend_from_slice(range);
        }
        written.extend_from_slice(line);
    }
    written
}

/// The call sequence of a number under a seed.
pub fn sequence(seed: u64, index: u64) -> Vec<Call> {
    calls(&mut Rng::new(seed, index))
}

/// The same kind of sequence with each automatic pool range made a fixed one too, so that what it grants can be asked for.
pub fn sequence_fixed_too(seed: u64, index: u64) -> Vec<Call> {
    let mut calls = Vec::new();
    for call in sequence(seed, index) {
        let mut too = call.clone();
        if let Call::Add(Add::Pool { fixed: fixed @ false, .. } | Add::Domain { fixed: fixed @ false, .. }) = &mut too {
            *fixed = true;
            calls.push(too);
        }
        calls.push(call);
    }
    calls
}

/// The call sequence of a number under a seed, over few numbers.
pub fn tight_sequence(seed: u64, index: u64) -> Vec<Call> {
    tight_calls(&mut Rng::new(seed, index))
}

/// How many inputs a test runs: so many, unless ORACLE_RUNS says otherwise.
pub fn runs(usual: u64) -> u64 {
    std::env::var("ORACLE_RUNS").ok().and_then(|number| number.parse().ok()).unwrap_or(usual)
}
