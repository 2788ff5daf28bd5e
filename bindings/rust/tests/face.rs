//! The edge: codes, lengths and numbers that cannot be read get their refusal, and nothing else happens.

mod common;

use common::{
    planner_allocate, planner_call, planner_fresh, planner_plan, planner_read, planner_state_size,
    planner_text,
};
use thurgoleo::{
    Choice, DeviceId, Hold, Kind, Part, Plan, Planner, Pool, Refusal, Request, Use, Want, MOST,
    POOL_ROWS, ROWS, STATE_SIZE, TEXT_OUTPUT,
};

fn call(state: &mut [u64], numbers: &[u64]) -> [u64; 5] {
    let mut answer = [77; 5];
    let number = unsafe {
        planner_call(
            state.as_mut_ptr(),
            STATE_SIZE as u64,
            numbers.as_ptr(),
            numbers.len(),
            answer.as_mut_ptr(),
            5,
        )
    };
    assert_eq!(number, answer[0]);
    answer
}

fn state() -> Vec<u64> {
    Planner::new().unwrap().as_words().to_vec()
}

/// What the crate says of sizes is what the library does; of plans tests/again.rs says so.
#[test]
fn sizes() {
    assert_eq!(unsafe { planner_state_size() }, STATE_SIZE as u64);
    let p = Planner::new().unwrap();
    for part in [
        Part::Automatic,
        Part::Fixed,
        Part::Reservations,
        Part::Owners,
    ] {
        for kind in [Kind::Mmio, Kind::Input] {
            assert!(p.row(part, kind, part.rows() - 1).is_some());
            assert!(p.row(part, kind, part.rows()).is_none());
        }
    }
    let mut out = vec![0; TEXT_OUTPUT];
    for (room, bytes) in [(TEXT_OUTPUT, 6), (TEXT_OUTPUT - 1, 0)] {
        let n = unsafe { planner_text([0u8; 0].as_ptr(), 0, out.as_mut_ptr(), room) };
        assert_eq!(n, bytes);
    }
}

#[test]
fn a_fresh_state_is_written_to_its_last_byte_and_no_further() {
    let mut words = vec![7u64; STATE_SIZE / 8 + 1];
    assert_eq!(
        unsafe { planner_fresh(words.as_mut_ptr(), STATE_SIZE as u64) },
        0
    );
    assert!(words[..STATE_SIZE / 8].iter().all(|w| *w == 0));
    assert_eq!(words[STATE_SIZE / 8], 7);
}

#[test]
fn another_size_touches_nothing() {
    let ours = STATE_SIZE as u64;
    // that of a state with half as many rows too, which was ours once: 28 counts and the five numbers of the answer are there as well
    let half = (ours + 8 * (28 + 5)) / 2;
    for size in [0, 8, half, ours - 1, ours + 1, u64::MAX] {
        let mut small = [9u64; 2];
        let mut out = [5u64; 9];
        unsafe {
            assert_eq!(planner_fresh(small.as_mut_ptr(), size), 1);
            assert_eq!(
                planner_call(
                    small.as_mut_ptr(),
                    size,
                    [3u64].as_ptr(),
                    1,
                    out.as_mut_ptr(),
                    5
                ),
                1
            );
            assert_eq!(
                planner_plan(
                    small.as_mut_ptr(),
                    size,
                    [0u64; 12].as_ptr(),
                    12,
                    out.as_mut_ptr(),
                    9
                ),
                1
            );
            assert_eq!(
                planner_allocate(
                    small.as_mut_ptr(),
                    size,
                    [0u64; 12].as_ptr(),
                    12,
                    out.as_mut_ptr(),
                    9
                ),
                1
            );
            assert_eq!(
                planner_read(
                    small.as_ptr(),
                    size,
                    [0u64].as_ptr(),
                    1,
                    out.as_mut_ptr(),
                    5
                ),
                1
            );
        }
        assert_eq!((small, out), ([9; 2], [5; 9]));
    }
}

#[test]
fn what_cannot_be_read() {
    let mut s = state();
    for (numbers, number) in [
        (&[][..], 11),
        (&[0], 2),
        (&[5], 11),
        (&[5, 0], 2),
        (&[5, 1 << 32], 2),
        (&[5, u64::MAX], 2),
        (&[5, 1], 13),
        (&[6], 2),
        (&[u64::MAX], 2),
        (&[1], 11),
        (&[1, 0, 9], 2),
        (&[1, 0, 1, 5], 11),
        (&[1, 2, 1, 5, 9], 2),
        (&[1, 0, 2, 5, 65536], 2),
        (&[1, 0, 3, 1 << 32, 1, 2], 2),
        (&[1, 0, 5, 0, 0, 0, 1, 0, 1, 0], 11),
        (&[1, 0, 5, 0, 0, 0, 1, 0, 1, 0, 1 << 32], 2),
        (&[1, 2, 5, 0, 0, 0, 1, 0, 1, 0, 1], 2),
        (&[1, 0, 5, 0, 0, 0, 1, 0, 1, 0, 1], 12),
        (&[2, 1, 7, 1 << 32, 0, 1], 2),
        (&[2, 1, 7, 0, 0, 1], 12),
        (&[2, 1 << 32, 1, 0, 1], 2),
        (&[2, 1, 3, 0, 0, 4, 0], 2),
        (&[2, 0, 3, 0, 0, 4, 0], 2),
        (&[2, 0, 1, 0, 1], 3),
        (&[2, 1, 8, 0, 0, 0, u64::MAX], 4),
        (&[2, 1, 9, 0, 0, 0, 0], 2),
        (&[4, 4, 1, 0], 11),
        (&[4, 9, 1, 0, 0, 0, 0, 0, 0, 0, 0, 0, 0], 2),
    ] {
        let before = s.clone();
        assert_eq!(call(&mut s, numbers), [number, 0, 0, 0, 0], "{numbers:?}");
        assert_eq!(
            s[..STATE_SIZE / 8 - 5],
            before[..STATE_SIZE / 8 - 5],
            "{numbers:?}"
        );
    }
}

#[test]
fn an_unsound_state_is_1_before_all_else() {
    let mut s = state();
    s[0] = POOL_ROWS as u64 + 1;
    for numbers in [
        &[][..],
        &[9],
        &[1, 0, 1],
        &[3],
        &[4],
        &[5],
        &[5, 0],
        &[5, 1],
    ] {
        assert_eq!(call(&mut s, numbers)[0], 1);
    }
    assert_eq!(s[0], POOL_ROWS as u64 + 1);
}

#[test]
fn rows_come_back() {
    let mut p = Planner::new().unwrap();
    p.add_pool(
        Use::Fixed,
        Pool::Msi {
            controller: 1,
            its: 2,
            devices: 3..4,
            events: 5..6,
            lpis: 8192..8193,
        },
    )
    .unwrap();
    p.reserve(
        9,
        Hold::Input {
            controller: 4,
            input: u64::MAX,
            trigger: 3,
            sharing: 1,
        },
    )
    .unwrap();
    p.reserve(
        9,
        Hold::Event {
            controller: 1,
            its: 2,
            device: DeviceId(3),
            events: 10..20,
        },
    )
    .unwrap();
    let row = p.row(Part::Fixed, Kind::Event, 0).unwrap();
    assert_eq!(
        (
            row.controller,
            row.its,
            row.device,
            row.start,
            row.end,
            row.owner
        ),
        (1, 2, 0, 5, 6, 0)
    );
    let row = p.row(Part::Fixed, Kind::Lpi, 0).unwrap();
    assert_eq!((row.controller, row.its), (1, 0));
    assert_eq!((row.start, row.end, row.owner), (8192, 8193, 0));
    let row = p.row(Part::Reservations, Kind::Input, 0).unwrap();
    assert_eq!(
        (
            row.controller,
            row.start,
            row.end,
            row.trigger,
            row.sharing,
            row.owner
        ),
        (4, u64::MAX, 0, 3, 1, 9)
    );
    let row = p.row(Part::Reservations, Kind::Event, 0).unwrap();
    assert_eq!((row.device, row.start, row.end, row.owner), (3, 10, 20, 9));
    assert_eq!(p.used(Part::Owners, Kind::Input), 0);
    assert!(p.row(Part::Fixed, Kind::Event, POOL_ROWS).is_none());
    assert!(p.row(Part::Owners, Kind::Lpi, ROWS - 1).is_some());
    let s = p.as_words();
    let mut out = [5; 9];
    for (what, room, number) in [
        (&[][..], 9, 11),
        (&[1, 1], 9, 11),
        (&[1, 1, 0], 8, 11),
        (&[5, 1, 0], 9, 2),
        (&[1, 0, 0], 9, 2),
        (&[1, 8, 0], 9, 2),
        (&[1, 1, POOL_ROWS as u64], 9, 2),
        (&[0], 4, 11),
    ] {
        let got = unsafe {
            planner_read(
                s.as_ptr(),
                STATE_SIZE as u64,
                what.as_ptr(),
                what.len(),
                out.as_mut_ptr(),
                room,
            )
        };
        assert_eq!((got, out), (number, [5; 9]), "{what:?}");
    }
}

#[test]
fn a_plan_that_ends_within_a_request_is_11() {
    let mut s = state();
    let mut out = [5; 9];
    let filled = unsafe {
        planner_plan(
            s.as_mut_ptr(),
            STATE_SIZE as u64,
            [4u64; 13].as_ptr(),
            13,
            out.as_mut_ptr(),
            9,
        )
    };
    assert_eq!((filled, s[STATE_SIZE / 8 - 5], out), (0, 11, [5; 9]));
}

#[test]
fn a_full_plan() {
    let mut p = Planner::new().unwrap();
    p.add_pool(
        Use::Automatic,
        Pool::Host {
            start: 0,
            end: 1000,
        },
    )
    .unwrap();
    let mut plan = Plan::new();
    let irq = Request {
        requester: 1,
        slot: 0,
        want: Want::HostIrq {
            choice: Choice::Auto,
        },
    };
    for _ in 0..MOST {
        plan.push(&irq).unwrap();
    }
    assert_eq!(plan.push(&irq), Err(Refusal::Short));
    // as many as one table has rows; those that no plan reaches, one by one
    let most = MOST.min(ROWS);
    plan = Plan::new();
    (0..most).for_each(|_| plan.push(&irq).unwrap());
    p.plan(&mut plan).unwrap();
    assert!(plan.granted().map(|g| g.number()).eq(0..most as u64));
    (most..ROWS).for_each(|_| assert!(p.allocate(&irq).is_ok()));
    assert_eq!(p.allocate(&irq), Err(Refusal::Full));
}
