//! The wrapper over a library that does nothing, as one built for another size, or that says one thing and writes another: whatever it answers, no call is
//! accepted, and nothing is granted or pinned.
//! The exported functions are defined here, so the linker takes none from the planner's library.

use std::sync::{
    atomic::{AtomicBool, AtomicU64, Ordering::SeqCst},
    Mutex,
};
use thurgoleo::{
    pin_text, registers, text, Choice, Hold, Kind, Part, Plan, PlanRefusal, Planner, Pool, Refusal,
    Request, TextRefusal, Use, Want, REGISTERS, REQUEST, STATE_SIZE, TEXT, TEXT_OUTPUT,
};

static SIZE: AtomicU64 = AtomicU64::new(0);
static ANSWER: AtomicU64 = AtomicU64::new(0);
/// Whether an accepted answer is written into the state.
static WRITES: AtomicBool = AtomicBool::new(false);
/// What is written as the answer of a pinned text or of registers, if anything is.
static SAID: Mutex<Option<[u64; 5]>> = Mutex::new(None);
/// What is written as the requests of registers.
static MADE: Mutex<[u64; REQUEST * REGISTERS]> = Mutex::new([0; REQUEST * REGISTERS]);

fn answer() -> u64 {
    ANSWER.load(SeqCst)
}

fn answer_on(state: *mut u64) -> u64 {
    if WRITES.load(SeqCst) {
        unsafe { state.add(STATE_SIZE / 8 - 5).write_bytes(0, 5) };
    }
    answer()
}

fn answer_told(said: *mut u64) -> u64 {
    if let Some(five) = *SAID.lock().unwrap() {
        unsafe { said.copy_from(five.as_ptr(), 5) };
    }
    answer()
}

#[no_mangle]
extern "C" fn planner_state_size() -> u64 {
    SIZE.load(SeqCst)
}

#[no_mangle]
extern "C" fn planner_fresh(state: *mut u64, _: u64) -> u64 {
    answer_on(state)
}

#[no_mangle]
extern "C" fn planner_call(
    state: *mut u64,
    _: u64,
    _: *const u64,
    _: usize,
    _: *mut u64,
    _: usize,
) -> u64 {
    answer_on(state)
}

#[no_mangle]
extern "C" fn planner_allocate(
    state: *mut u64,
    _: u64,
    _: *const u64,
    _: usize,
    _: *mut u64,
    _: usize,
) -> u64 {
    answer_on(state)
}

#[no_mangle]
extern "C" fn planner_plan(
    state: *mut u64,
    _: u64,
    _: *const u64,
    _: usize,
    _: *mut u64,
    _: usize,
) -> u64 {
    answer_on(state)
}

#[no_mangle]
extern "C" fn planner_read(
    _: *const u64,
    _: u64,
    _: *const u64,
    _: usize,
    _: *mut u64,
    _: usize,
) -> u64 {
    answer()
}

#[no_mangle]
extern "C" fn planner_pin(_: *mut u64, _: usize, _: *const u64, _: usize) {}

#[no_mangle]
extern "C" fn planner_text(_: *const u8, _: usize, _: *mut u8, _: usize) -> u64 {
    answer()
}

#[no_mangle]
extern "C" fn planner_pin_text(
    _: *const u8,
    _: usize,
    _: *mut u8,
    _: usize,
    said: *mut u64,
    _: usize,
) -> u64 {
    answer_told(said)
}

#[no_mangle]
extern "C" fn planner_registers(
    _: *const u64,
    _: usize,
    _: u64,
    requests: *mut u64,
    m: usize,
    said: *mut u64,
    _: usize,
) -> u64 {
    unsafe { requests.copy_from(MADE.lock().unwrap().as_ptr(), m) };
    answer_told(said)
}

const IRQ: Request = Request {
    requester: 1,
    slot: 0,
    want: Want::HostIrq {
        choice: Choice::Auto,
    },
};

/// No planner is made; over tables that say accepted already, where the size is right, no call is accepted.
fn nothing_is_accepted(size: u64) {
    let malformed = Err(Refusal::Malformed);
    assert_eq!(Planner::new().err(), Some(Refusal::Malformed));
    let kept = Planner::from_words([0; STATE_SIZE / 8]);
    if size != STATE_SIZE as u64 {
        assert_eq!(kept.err(), Some(Refusal::Malformed));
        return;
    }
    let mut p = kept.unwrap();
    let ports = Pool::Pio { start: 1, end: 2 };
    assert_eq!(p.add_pool(Use::Fixed, ports), malformed);
    assert_eq!(p.reserve(1, Hold::Host { start: 1, end: 2 }), malformed);
    assert_eq!(p.start(), malformed);
    assert_eq!(p.withdraw(1), malformed);
    assert_eq!(p.allocate(&IRQ), Err(Refusal::Malformed));
    if answer() != 0 {
        assert!(p.row(Part::Owners, Kind::Host, 0).is_none());
    }
    assert_eq!(p.rows(Part::Owners, Kind::Host).count(), 0);
    for requests in 0..3 {
        let mut plan = Plan::new();
        (0..requests).for_each(|_| plan.push(&IRQ).unwrap());
        let asked = plan.requests().to_vec();
        let refused = PlanRefusal {
            index: 0,
            refusal: Refusal::Malformed,
        };
        assert_eq!(p.plan(&mut plan), Err(refused));
        assert_eq!(plan.granted().count(), 0);
        plan.pin();
        assert_eq!(plan.requests(), asked);
    }
}

#[test]
fn whatever_it_answers() {
    let silent = [0, 1, 2, 9, 12, 13, 18, u64::MAX].map(|number| (number, false));
    let writing = [1, 2, 13, u64::MAX].map(|number| (number, true));
    for size in [STATE_SIZE as u64, 0, 1, 8, STATE_SIZE as u64 + 8, u64::MAX] {
        for (number, writes) in silent.into_iter().chain(writing) {
            SIZE.store(size, SeqCst);
            ANSWER.store(number, SeqCst);
            WRITES.store(writes, SeqCst);
            nothing_is_accepted(size);
            let mut out = [b'e'; TEXT_OUTPUT];
            assert_eq!(text(b"", &mut out), Err(Refusal::Malformed));
        }
    }
    nothing_is_pinned();
    nothing_is_sized();
}

/// Silence, whatever the count; a count that the text or the buffer cannot have; a refusal that writes; a line that is not there; a number that says nothing.
fn nothing_is_pinned() {
    let (written, refused) = (Some([0; 5]), Some([1, 10, 0, 0, 0]));
    let mut out = [b'e'; TEXT + 9];
    for (said, count, lines, room) in [
        (None, 0, "", 9),
        (None, 0, "\n", 9),
        (None, 1, "\n", 9),
        (None, u64::MAX, "\n", 9),
        (written, 1, "", 9),
        (written, 0, "\n", 9),
        (written, 10, "\n", 9),
        (written, TEXT as u64 + 1, "\n", TEXT + 9),
        (written, u64::MAX, "\n", TEXT + 9),
        (refused, 1, "\n", 9),
        (refused, 0, "", 9),
        (Some([2, 10, 0, 0, 0]), 0, "\n", 9),
        (Some([0, 18, 0, 0, 0]), 0, "\n", 9),
    ] {
        *SAID.lock().unwrap() = said;
        ANSWER.store(count, SeqCst);
        let malformed = TextRefusal {
            line: 0,
            refusal: Refusal::Malformed,
        };
        let pinned = pin_text(lines.as_bytes(), &mut out[..room]);
        assert_eq!(pinned, Err(malformed), "{said:?} {count} {lines:?}");
    }
    // what can be so is heard
    *SAID.lock().unwrap() = written;
    ANSWER.store(1, SeqCst);
    assert_eq!(pin_text(b"\n", &mut out), Ok(&b"e"[..]));
    *SAID.lock().unwrap() = Some([1, 8, 4, 9, 2]);
    ANSWER.store(0, SeqCst);
    let refusal = Refusal::Conflict {
        namespace: 4,
        owner: 9,
        detail: 2,
    };
    let refused = TextRefusal { line: 1, refusal };
    assert_eq!(pin_text(b"\n", &mut out), Err(refused));
}

/// The wrapper over a library that answers so, with these requests.
fn sized(said: Option<[u64; 5]>, count: u64, made: &[[u64; 5]]) -> Result<usize, Refusal> {
    let mut list = MADE.lock().unwrap();
    *list = [0; REQUEST * REGISTERS];
    for (place, numbers) in list.chunks_mut(REQUEST).zip(made) {
        place[..5].copy_from_slice(numbers);
    }
    drop(list);
    *SAID.lock().unwrap() = said;
    ANSWER.store(count, SeqCst);
    registers([0xFFFF_F000; REGISTERS], 7).map(|made| made.iter().count())
}

/// Silence, whatever the count; more than there are registers; requests of a refused device; what is no request for memory or ports, or one that its types cannot
/// say; two of one register, one of none; a number that says nothing.
fn nothing_is_sized() {
    let malformed = Err(Refusal::Malformed);
    let (memory, ports) = ([1, 7, 0, 64, 64], [2, 7, 5, 8, 8]);
    let (written, refused) = (Some([0; 5]), Some([16, 0, 0, 0, 0]));
    for count in [0, 1, 6, 7, u64::MAX] {
        assert_eq!(sized(None, count, &[memory; 6]), malformed);
    }
    for (said, count, made) in [
        (written, 1, [0; 5]),
        (written, 3, memory),
        (written, 7, memory),
        (written, u64::MAX, memory),
        (written, 1, [3, 7, 0, 64, 64]),
        (written, 1, [2, 7, 0, 65536, 65536]),
        (written, 1, [1, 7 | 1 << 32, 0, 64, 64]),
        (written, 1, [1, 7, 1 << 32, 64, 64]),
        (written, 1, [1, 7, 6, 64, 64]),
        (written, 2, memory),
        (refused, 1, memory),
        (Some([18, 0, 0, 0, 0]), 0, memory),
    ] {
        assert_eq!(
            sized(said, count, &[made; 2]),
            malformed,
            "{said:?} {made:?}"
        );
    }
    // what can be so is heard
    assert_eq!(sized(written, 0, &[memory]), Ok(0));
    assert_eq!(sized(written, 2, &[memory, ports]), Ok(2));
    assert_eq!(sized(refused, 0, &[memory]), Err(Refusal::BadMask));
}
