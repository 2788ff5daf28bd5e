//! The functions that the library exports, declared once: for `raw`, and for tests that hand in lists and sizes which the wrapper never does.
#![allow(dead_code)]

extern "C" {
    pub fn planner_state_size() -> u64;
    pub fn planner_fresh(state: *mut u64, size: u64) -> u64;
    pub fn planner_call(
        state: *mut u64,
        size: u64,
        numbers: *const u64,
        n: usize,
        answer: *mut u64,
        m: usize,
    ) -> u64;
    pub fn planner_allocate(
        state: *mut u64,
        size: u64,
        request: *const u64,
        n: usize,
        record: *mut u64,
        m: usize,
    ) -> u64;
    pub fn planner_plan(
        state: *mut u64,
        size: u64,
        requests: *const u64,
        n: usize,
        results: *mut u64,
        m: usize,
    ) -> u64;
    pub fn planner_read(
        state: *const u64,
        size: u64,
        what: *const u64,
        n: usize,
        out: *mut u64,
        m: usize,
    ) -> u64;
    pub fn planner_pin(requests: *mut u64, n: usize, results: *const u64, m: usize);
    pub fn planner_text(text: *const u8, n: usize, out: *mut u8, m: usize) -> u64;
    pub fn planner_pin_text(
        text: *const u8,
        n: usize,
        out: *mut u8,
        m: usize,
        answer: *mut u64,
        k: usize,
    ) -> u64;
    pub fn planner_registers(
        words: *const u64,
        n: usize,
        requester: u64,
        requests: *mut u64,
        m: usize,
        answer: *mut u64,
        k: usize,
    ) -> u64;
}
