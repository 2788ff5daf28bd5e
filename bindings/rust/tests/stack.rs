//! Requests, plans, calls that add or start, withdrawals, reading back, and registers on a stack of 64 KB, as a hypervisor's thread has it: through the C face the same answers, records and states as on a
//! large one; through the wrapper what it grants. A text, answered and pinned, on the stack that is said to be enough for it.

mod common;

use common::{
    mixed, numbers, on_stack, planner_allocate, planner_call, planner_pin, planner_pin_text,
    planner_plan, planner_read, planner_text, stand,
};
use thurgoleo::{
    registers, Plan, Refusal, MOST, POOL_ROWS, RECORD, REQUEST, STATE_SIZE, TEXT, TEXT_OUTPUT,
    TEXT_STACK,
};

const SMALL: usize = 64 << 10;
const LARGE: usize = 1 << 20;

type Call = unsafe extern "C" fn(*mut u64, u64, *const u64, usize, *mut u64, usize) -> u64;

/// The call made on a stack of so many bytes: what it answers, the state and the results afterwards. Everything that it is lent stands elsewhere.
fn made(
    bytes: usize,
    call: Call,
    state: &[u64],
    requests: &[u64],
    room: usize,
) -> (u64, Vec<u64>, Vec<u64>) {
    let (mut state, mut out) = (state.to_vec(), vec![5; room]);
    let requests = requests.to_vec();
    let (tell, told) = std::sync::mpsc::channel();
    on_stack(bytes, move || {
        let (s, o) = (state.as_mut_ptr(), out.as_mut_ptr());
        let answer = unsafe {
            call(
                s,
                STATE_SIZE as u64,
                requests.as_ptr(),
                requests.len(),
                o,
                out.len(),
            )
        };
        tell.send((answer, state, out)).unwrap();
    });
    told.recv().unwrap()
}

fn same(call: Call, state: &[u64], requests: &[u64], room: usize) -> (u64, Vec<u64>, Vec<u64>) {
    let small = made(SMALL, call, state, requests, room);
    assert_eq!(small, made(LARGE, call, state, requests, room));
    small
}

#[test]
fn one_request_of_each_kind() {
    let state = stand().as_words().to_vec();
    for one in numbers(&mixed(5)).chunks(12) {
        let (number, _, record) = same(planner_allocate, &state, one, 9);
        assert_eq!((number, record[0]), (0, one[0]));
        // no room for the record; a list that is too short; a state that is not sound
        assert_eq!(same(planner_allocate, &state, one, 8).0, 11);
        assert_eq!(same(planner_allocate, &state, &one[..11], 9).0, 11);
        let mut unsound = state.clone();
        unsound[0] = 1 << 40;
        assert_eq!(same(planner_allocate, &unsound, one, 9).0, 1);
    }
}

#[test]
fn plans_of_every_end() {
    let state = stand().as_words().to_vec();
    let requests = numbers(&mixed(MOST));
    let room = RECORD * MOST;
    let (filled, _, mut results) = same(planner_plan, &state, &requests, room);
    assert_eq!(filled, room as u64);
    // pinned, and its last line asks for what its first was given: every row goes in and is taken out again
    let mut pinned = requests.clone();
    on_stack(SMALL, {
        let (to, n) = (pinned.as_mut_ptr() as usize, pinned.len());
        let (from, m) = (results.as_mut_ptr() as usize, results.len());
        move || unsafe { planner_pin(to as *mut u64, n, from as *const u64, m) }
    });
    let first = pinned[..12].to_vec();
    pinned[(MOST - 1) * REQUEST..].copy_from_slice(&first);
    let (filled, after, _) = same(planner_plan, &state, &pinned, room);
    assert_eq!(filled as usize, room - RECORD);
    let tables = state.len() - 5;
    assert_eq!(after[..tables], state[..tables]);
    // too long, cut within a request, no room
    for (numbers, room) in [
        (&numbers(&mixed(MOST + 1))[..], room + RECORD),
        (&requests[..requests.len() - 1], room),
        (&requests[..], room - 1),
    ] {
        assert_eq!(same(planner_plan, &state, numbers, room).0, 0);
    }
}

#[test]
fn the_wrapper() {
    let mut p = stand();
    let mut plan = Box::new(Plan::new());
    let requests = mixed(6);
    requests[1..].iter().for_each(|r| plan.push(r).unwrap());
    on_stack(SMALL, move || {
        assert_eq!(p.allocate(&requests[0]).unwrap().number(), 0x1000);
        assert!(p.plan(&mut plan).is_ok());
        assert_eq!(plan.granted().count(), 5);
        plan.pin();
        assert!(p.plan(&mut plan).is_err());
    });
}

/// Pools of both uses, reservations and the pair, a start, a request; each refused in one way or another too.
const CALLS: &[&[u64]] = &[
    &[1, 0, 1, 0x200_0000, 0x300_0000],
    &[1, 1, 2, 0xf000, 0xf100],
    &[1, 0, 3, 7, 0, 9],
    &[1, 1, 4, 500, 600],
    &[1, 0, 5, 3, 4, 8, 10, 0, 4, 8192, 8200],
    &[1, 1, 5, 3, 4, 8, 10, 4, 4, 8192, 8200],
    &[1, 1, 5, 3, 4, 8, 10, 0, 4, 8191, 8200],
    &[1, 0, 1, 9, 9],
    &[1, 0, 6, 0, 0],
    &[1, 0],
    &[2, 5, 1, 0x400_0000, 0x400_1000],
    &[2, 5, 1, 0x2000, 0x3000],
    &[2, 5, 2, 1, 2],
    &[2, 5, 3, 7, 3, 1, 0],
    &[2, 5, 4, 700, 701],
    &[2, 5, 5, 3, 4, 8, 9],
    &[2, 5, 6, 3, 4, 8, 0, 2],
    &[2, 5, 7, 3, 8192, 8193],
    &[2, 5, 7, 3, 8191, 8193],
    &[2, 5, 8, 7, 4, 1, 800],
    &[2, 5, 8, 7, 5, 1, 33],
    &[2, 0, 1, 1, 2],
    &[3],
    &[4, 1, 9, 0, 0x1000, 0x1000, 0, 0, 0, 0, 0, 0, 0],
    &[5],
    &[5, 9],
    &[6],
    &[],
];

#[test]
fn calls_that_add_or_start() {
    let state = stand().as_words().to_vec();
    let mut accepted = 0;
    for call in CALLS {
        let (number, after, told) = same(planner_call, &state, call, 5);
        assert_eq!(after[after.len() - 5..], told);
        assert_eq!(number, told[0]);
        accepted += u32::from(number == 0);
        let mut unsound = state.clone();
        unsound[0] = 1 << 40;
        assert_eq!(same(planner_call, &unsound, call, 0).0, 1);
    }
    assert_eq!(accepted, 15);
}

/// As many grants as a plan has, of all kinds, by two requesters: one goes, then the other; there is none of a third.
#[test]
fn withdrawals() {
    let mut state = stand().as_words().to_vec();
    let mut requests = numbers(&mixed(MOST));
    for (i, request) in requests.chunks_mut(REQUEST).enumerate() {
        request[1] = 7 + (i % 3 % 2) as u64;
    }
    let (filled, planned, _) = made(LARGE, planner_plan, &state, &requests, RECORD * MOST);
    assert_eq!(filled as usize, RECORD * MOST);
    let (number, one_left, told) = same(planner_call, &planned, &[5, 7], 5);
    assert_eq!((number, told), (0, vec![0; 5]));
    let (number, none_left, _) = same(planner_call, &one_left, &[5, 8], 5);
    assert_eq!(number, 0);
    assert!(none_left == state);
    for requester in [7, 9, 0, 1 << 32] {
        let (number, after, _) = same(planner_call, &none_left, &[5, requester], 0);
        assert_eq!(number, if requester % (1 << 32) == 0 { 2 } else { 13 });
        state[after.len() - 5] = number;
        assert!(after == state);
    }
}

unsafe extern "C" fn read(
    state: *mut u64,
    size: u64,
    what: *const u64,
    n: usize,
    out: *mut u64,
    m: usize,
) -> u64 {
    planner_read(state, size, what, n, out, m)
}

#[test]
fn the_answer_and_every_table_read_back() {
    const POOL: u64 = POOL_ROWS as u64;
    const ROWS: u64 = thurgoleo::ROWS as u64;
    let state = stand().as_words().to_vec();
    let (number, after, told) = same(read, &state, &[0], 5);
    assert_eq!((number, after), (0, state.clone()));
    assert_eq!(told, state[state.len() - 5..]);
    for part in 0..6 {
        for kind in 0..9 {
            for row in [0, POOL - 1, POOL, ROWS - 1, ROWS] {
                let rows = [0, POOL, POOL, ROWS, ROWS, 0][part as usize];
                let there = row < rows && (1..8).contains(&kind);
                let (number, after, told) = same(read, &state, &[part, kind, row], 9);
                assert_eq!(after, state);
                if part > 0 {
                    assert_eq!(number, if there { 0 } else { 2 });
                    assert_eq!(told == [5; 9], !there);
                }
            }
        }
    }
    // no room for a row; a list that is too short; none
    assert_eq!(same(read, &state, &[4, 1, 0], 8).0, 11);
    assert_eq!(same(read, &state, &[4, 1], 9).0, 11);
    assert_eq!(same(read, &state, &[], 9).0, 11);
}

#[test]
fn registers_of_every_sort() {
    on_stack(SMALL, || {
        let made = registers([0xFFFF_F000, 0, 4, u32::MAX, 0xFFFF_FF01, u32::MAX], 7).unwrap();
        assert_eq!(made.iter().count(), 4);
        assert_eq!(registers([8; 6], 7), Err(Refusal::BadMask));
    });
}

/// Pools, a reservation and as many wants as a plan has, half of them for message interrupts: a device and two LPIs each.
fn a_text() -> Vec<u8> {
    let text = "pool\tauto\tmmio\t0\t1000000\npool\tfixed\tpio\t0\t65535\npool\tauto\tmsi\t0\t0\t0\t999\t0\t64\t8192\t9999\nhold\t7\tmmio\t4096\t8192\n".to_string()
        + &"want\t3\t1\tmmio\t256\t256\tauto\nwant\t4\t0\tmsi\t0\t0\t2\tauto\n".repeat(MOST / 2);
    text.into_bytes()
}

#[test]
fn a_text_beside_its_state() {
    let text = a_text();
    on_stack(TEXT_STACK, move || {
        let mut out = vec![0; TEXT_OUTPUT];
        let n = unsafe { planner_text(text.as_ptr(), text.len(), out.as_mut_ptr(), out.len()) };
        let said = String::from_utf8(out[..n as usize].to_vec()).unwrap();
        let end = format!("end\t{}\n", MOST / 2 * 2);
        assert!(said.ends_with(&end), "{said}");
    });
}

/// The same text pinned on the same stack: written, without room, refused at its last line.
#[test]
fn a_pinned_text_beside_its_state() {
    let text = a_text();
    on_stack(TEXT_STACK, move || {
        let refused = [&text[..], b"pool\n"].concat();
        let device = MOST / 2 - 1;
        let last = format!("\tmsi\t0\t0\t2\t{device}\t0\t{}\n", 8192 + 2 * device);
        for (text, room, ends) in [(&text, TEXT, 0), (&text, 9, 11), (&refused, TEXT, 10)] {
            let (mut out, mut answer) = (vec![0; room], [7; 5]);
            let (to, five) = (out.as_mut_ptr(), answer.as_mut_ptr());
            let n = unsafe { planner_pin_text(text.as_ptr(), text.len(), to, room, five, 5) };
            assert_eq!((n == 0, answer[1]), (ends != 0, ends));
            assert!(n == 0 || out[..n as usize].ends_with(last.as_bytes()));
        }
    });
}
