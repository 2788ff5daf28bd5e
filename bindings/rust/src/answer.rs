//! The five numbers of an answer; those of the last one stand last in a state. They are set to 1 (Malformed) before each call: a library that writes none, such as
//! one that was built for another size, has then refused.

use crate::{Refusal, ANSWER, WORDS};

/// No answer yet.
pub const UNSAID: [u64; ANSWER] = [1, 0, 0, 0, 0];

pub fn unsay(state: &mut [u64; WORDS]) {
    state[WORDS - ANSWER..].copy_from_slice(&UNSAID);
}

/// Number, index, namespace, owner, detail.
pub fn answer(state: &[u64; WORDS]) -> [u64; ANSWER] {
    core::array::from_fn(|i| state[WORDS - ANSWER + i])
}

/// What a call came to: the number that it answered with must stand in the state too.
pub fn said(state: &[u64; WORDS], number: u64) -> Result<(), Refusal> {
    let answer = answer(state);
    if number != answer[0] {
        return Err(Refusal::Malformed);
    }
    Refusal::of(&answer)
}
