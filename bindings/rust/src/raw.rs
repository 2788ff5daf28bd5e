//! The exported functions over references and slices, and nothing else. Every pointer here comes from a reference or a slice that outlives the call, with its own length,
//! so none is null; the state has the size that is passed.

use crate::exported::{
    planner_allocate, planner_call, planner_fresh, planner_pin, planner_pin_text, planner_plan,
    planner_read, planner_registers, planner_state_size, planner_text,
};
use crate::{STATE_SIZE, WORDS};

const SIZE: u64 = STATE_SIZE as u64;

/// Whether the library's states have the size that this crate lends.
pub fn fits() -> bool {
    unsafe { planner_state_size() == SIZE }
}

#[must_use]
pub fn fresh(state: &mut [u64; WORDS]) -> u64 {
    unsafe { planner_fresh(state.as_mut_ptr(), SIZE) }
}

/// The answer's five numbers are not told beside: they stand in the state.
#[must_use]
pub fn call(state: &mut [u64; WORDS], numbers: &[u64]) -> u64 {
    let none: &mut [u64] = &mut [];
    unsafe {
        planner_call(
            state.as_mut_ptr(),
            SIZE,
            numbers.as_ptr(),
            numbers.len(),
            none.as_mut_ptr(),
            none.len(),
        )
    }
}

#[must_use]
pub fn allocate(state: &mut [u64; WORDS], request: &[u64], record: &mut [u64]) -> u64 {
    unsafe {
        planner_allocate(
            state.as_mut_ptr(),
            SIZE,
            request.as_ptr(),
            request.len(),
            record.as_mut_ptr(),
            record.len(),
        )
    }
}

#[must_use]
pub fn plan(state: &mut [u64; WORDS], requests: &[u64], results: &mut [u64]) -> u64 {
    unsafe {
        planner_plan(
            state.as_mut_ptr(),
            SIZE,
            requests.as_ptr(),
            requests.len(),
            results.as_mut_ptr(),
            results.len(),
        )
    }
}

#[must_use]
pub fn read(state: &[u64; WORDS], what: &[u64], out: &mut [u64]) -> u64 {
    unsafe {
        planner_read(
            state.as_ptr(),
            SIZE,
            what.as_ptr(),
            what.len(),
            out.as_mut_ptr(),
            out.len(),
        )
    }
}

pub fn pin(requests: &mut [u64], results: &[u64]) {
    unsafe {
        planner_pin(
            requests.as_mut_ptr(),
            requests.len(),
            results.as_ptr(),
            results.len(),
        )
    }
}

#[must_use]
pub fn text(text: &[u8], out: &mut [u8]) -> u64 {
    unsafe { planner_text(text.as_ptr(), text.len(), out.as_mut_ptr(), out.len()) }
}

#[must_use]
pub fn pin_text(text: &[u8], out: &mut [u8], answer: &mut [u64]) -> u64 {
    unsafe {
        planner_pin_text(
            text.as_ptr(),
            text.len(),
            out.as_mut_ptr(),
            out.len(),
            answer.as_mut_ptr(),
            answer.len(),
        )
    }
}

#[must_use]
pub fn registers(words: &[u64], requester: u64, requests: &mut [u64], answer: &mut [u64]) -> u64 {
    unsafe {
        planner_registers(
            words.as_ptr(),
            words.len(),
            requester,
            requests.as_mut_ptr(),
            requests.len(),
            answer.as_mut_ptr(),
            answer.len(),
        )
    }
}
