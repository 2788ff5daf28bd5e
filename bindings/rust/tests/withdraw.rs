//! Withdrawals: rows of one requester go from all owner tables, wherever they stand; others close up, reservations stay, and what is free again is granted again. Tables
//! that are full, handed in, or damaged; requesters that are nobody, or have nothing.

mod common;

use common::model::{Model, OWNER, OWNERS};
use common::{call_leaving as call, planner_plan, small_stack, stand};
use thurgoleo::{Planner, FIRST_LPI, POOL_ROWS, ROWS, STATE_SIZE};

const LPI: u64 = FIRST_LPI as u64;

/// The words of a pool table, of a table of ranges and of one of inputs; two numbers of 32 bits share a word.
const POOL: usize = 1 + 3 * POOL_ROWS;
const RANGES: usize = 1 + (3 * ROWS).div_ceil(2) + 2 * ROWS + ROWS.div_ceil(2);
const INPUTS: usize = 1 + ROWS.div_ceil(2) + ROWS + (3 * ROWS).div_ceil(2);
/// Where the reservations begin, and the words of seven tables of them; the owners stand behind.
const HELD: usize = 14 * POOL;
const SEVEN: usize = 6 * RANGES + INPUTS;

/// Reservation n of a kind, all of one domain and apart from one another.
fn hold(kind: u64, owner: u64, n: u64) -> Vec<u64> {
    let least = if kind == 7 { LPI } else { 0 };
    let (start, end) = (least + 10 * n, least + 10 * n + 3);
    let rest = match kind {
        3 => vec![1, n, 2, 1],
        5 => vec![1, 2, start, end],
        6 => vec![1, 2, 3, start, end],
        7 => vec![1, start, end],
        _ => vec![start, end],
    };
    [&[2, owner, kind][..], &rest].concat()
}

/// Tables that begin with these reservations, started.
fn reserved(holds: &[Vec<u64>]) -> Vec<u64> {
    let mut words = Planner::new().unwrap().as_words().to_vec();
    for numbers in holds.iter().chain([&vec![3]]) {
        assert_eq!(call(&mut words, numbers), 0);
    }
    words
}

/// Tables as they may be handed in: so many of these rows are reservations, and all stand among the owners.
fn handed_in(holds: &[Vec<u64>], held: usize) -> Vec<u64> {
    let (mut words, fewer) = (reserved(holds), reserved(&holds[..held]));
    words[HELD..HELD + SEVEN].copy_from_slice(&fewer[HELD..HELD + SEVEN]);
    words
}

/// The withdrawal, held to the model on these tables: its answer.
fn withdraw(words: &mut [u64], requester: u64) -> u64 {
    let mut model = Model::read(words);
    let due = model.call(&[5, requester]);
    assert_eq!(call(words, &[5, requester]), due[0], "{requester}");
    model.hold_to(words);
    due[0]
}

/// One request: the number granted, or the refusal's.
fn ask(words: &mut [u64], x: &[u64]) -> Result<u64, u64> {
    let (mut request, mut record) = ([0; 12], [0; 9]);
    request[..x.len()].copy_from_slice(x);
    let (s, size) = (words.as_mut_ptr(), STATE_SIZE as u64);
    let filled = unsafe { planner_plan(s, size, request.as_ptr(), 12, record.as_mut_ptr(), 9) };
    match words[words.len() - 5] {
        0 => {
            assert_eq!(filled, 9);
            Ok(record[[3, 3, 4, 3, 5][x[0] as usize - 1]])
        }
        number => Err(number),
    }
}

fn owners(words: &[u64], kind: usize) -> Vec<u64> {
    let rows = &Model::read(words).0[OWNERS][kind];
    rows.iter().map(|row| row[OWNER]).collect()
}

/// An automatic request of a kind, 1 to 5, for the least that there is.
fn least(kind: u64, requester: u64) -> Vec<u64> {
    let rest: &[u64] = match kind {
        1 | 2 => &[1, 1, 0],
        3 => &[1, 2, 0],
        4 => &[],
        _ => &[1, 2, 1],
    };
    [&[kind, requester, 0][..], rest].concat()
}

/// Pools of so many numbers of every kind, automatic and fixed, from the first on; started.
fn pooled(numbers: u64) -> Vec<u64> {
    let mut words = Planner::new().unwrap().as_words().to_vec();
    for used in 0..2 {
        for kind in [1, 2, 4] {
            assert_eq!(call(&mut words, &[1, used, kind, 0, numbers]), 0);
        }
        assert_eq!(call(&mut words, &[1, used, 3, 1, 0, numbers]), 0);
        let domain = [1, used, 5, 1, 2, 0, numbers, 0, 4, LPI, LPI + numbers];
        assert_eq!(call(&mut words, &domain), 0);
    }
    assert_eq!(call(&mut words, &[3]), 0);
    words
}

/// Behind two reservations, one of 7 and one of 8: five rows, each of them 7's or 8's, in each table alone.
#[test]
fn every_order_of_two_owners_in_each_table() {
    small_stack(|| {
        for kind in 1..8 {
            for order in 0..1 << 5 {
                let mut holds = vec![hold(kind, 7, 0), hold(kind, 8, 1)];
                holds.extend((0..5).map(|n| hold(kind, 7 + (order >> n & 1), 2 + n)));
                let mut words = handed_in(&holds, 2);
                let eights = (order as u32).count_ones() as usize;
                assert_eq!(withdraw(&mut words, 7), if eights < 5 { 0 } else { 13 });
                assert_eq!(owners(&words, kind as usize - 1).len(), 2 + eights);
                assert_eq!(withdraw(&mut words, 7), 13);
                assert_eq!(withdraw(&mut words, 8), if eights > 0 { 0 } else { 13 });
                assert_eq!(owners(&words, kind as usize - 1), [7, 8]);
            }
        }
    });
}

/// In all seven tables, in every set of them: the others are left as they are, to the last word.
#[test]
fn every_set_of_tables() {
    small_stack(|| {
        for set in 0..1 << 7 {
            let has = |kind: u64| set >> (kind - 1) & 1 == 1;
            let mut holds: Vec<Vec<u64>> = (1..8).map(|kind| hold(kind, 7, 0)).collect();
            for n in 1..4 {
                holds.extend(
                    (1..8).map(|kind| hold(kind, if n == 2 && has(kind) { 7 } else { 8 }, n)),
                );
            }
            let mut words = handed_in(&holds, 7);
            let before = Model::read(&words);
            assert_eq!(withdraw(&mut words, 7), if set == 0 { 13 } else { 0 });
            let after = Model::read(&words);
            for kind in 1..8 {
                let (was, is) = (&before.0[OWNERS][kind - 1], &after.0[OWNERS][kind - 1]);
                assert_eq!(was.len() - is.len(), usize::from(has(kind as u64)));
            }
            assert!(words[..HELD + SEVEN] == reserved(&holds[..7])[..HELD + SEVEN]);
        }
    });
}

/// Reservations are no grants: of the requester alone, of each kind and of all.
#[test]
fn a_reservation_alone_is_not_found() {
    for kind in 1..8 {
        let mut words = reserved(&[hold(kind, 7, 0), hold(kind, 8, 1), hold(kind, 7, 2)]);
        let before = words.clone();
        assert_eq!(
            [7, 8, 9].map(|requester| withdraw(&mut words, requester)),
            [13; 3]
        );
        assert!(words[..HELD + 2 * SEVEN] == before[..HELD + 2 * SEVEN]);
    }
    let all: Vec<Vec<u64>> = (1..8).map(|kind| hold(kind, 7, 0)).collect();
    assert_eq!(withdraw(&mut reserved(&all), 7), 13);
}

/// Of message interrupts three rows go together; handed in, one may be there alone, and goes too.
#[test]
fn message_interrupts() {
    let mut words = pooled(6);
    let [first, second] = [7, 8].map(|q| ask(&mut words, &[5, q, 0, 1, 2, 2]));
    assert_eq!((first, second), (Ok(0), Ok(1)));
    assert_eq!(withdraw(&mut words, 7), 0);
    let left = Model::read(&words);
    let rows = [4, 5, 6].map(|kind| left.0[OWNERS][kind].clone());
    let row = |its, device, start, end| vec![[1, its, device, start, end, 0, 0, 8]];
    assert_eq!(
        rows,
        [
            row(2, 0, 1, 2),
            row(2, 1, 0, 2),
            row(0, 0, LPI + 2, LPI + 4)
        ]
    );
    // what is free again is one device with its events, and two LPIs in front of the other's
    assert_eq!(ask(&mut words, &[5, 9, 0, 1, 2, 2]), Ok(0));
    let again = Model::read(&words);
    assert_eq!(again.0[OWNERS][6][1][3..5], [LPI, LPI + 2]);
    assert_eq!(withdraw(&mut words, 9), 0);
    assert_eq!(Model::read(&words), left);
    // an event row of nobody's device
    let mut alone = handed_in(&[hold(6, 7, 0)], 0);
    assert_eq!(withdraw(&mut alone, 7), 0);
    assert!(alone == reserved(&[]));
    // and one of a device that another has, who keeps it
    let mut alone = handed_in(&[hold(5, 8, 0), hold(6, 7, 0), hold(6, 8, 1)], 0);
    assert_eq!(withdraw(&mut alone, 7), 0);
    assert!(alone == handed_in(&[hold(5, 8, 0), hold(6, 8, 1)], 0));
}

/// A start forgets grants, a refused plan leaves none; slots and repeats make no difference; who was withdrawn comes back, and has no claim.
#[test]
fn who_asked_and_how() {
    let mut words = pooled(8);
    for (slot, requester) in [(0, 7), (0, 7), (5, 7), (0, 8)] {
        assert!(ask(&mut words, &[4, requester, slot]).is_ok());
    }
    // 9 asks in a plan that is refused at its last line
    let plan = [least(4, 9), least(1, 9), vec![4, 9, 0, 0, 0, 0, 1, 3]];
    let (mut list, mut results) = (vec![0; 36], [0; 27]);
    for (place, x) in list.chunks_mut(12).zip(&plan) {
        place[..x.len()].copy_from_slice(x);
    }
    let before = words.clone();
    let (s, to) = (words.as_mut_ptr(), results.as_mut_ptr());
    let filled = unsafe { planner_plan(s, STATE_SIZE as u64, list.as_ptr(), 36, to, 27) };
    let said = &words[words.len() - 5..];
    assert_eq!((filled, said), (18, &[8, 2, 4, 8, 4][..]));
    assert!(words[..HELD + 2 * SEVEN] == before[..HELD + 2 * SEVEN]);
    assert_eq!(withdraw(&mut words, 9), 13);
    assert_eq!(withdraw(&mut words, 7), 0);
    assert_eq!(owners(&words, 3), [8]);
    // it comes back after another took its first number
    assert_eq!(ask(&mut words, &least(4, 9)), Ok(0));
    assert_eq!(ask(&mut words, &least(4, 7)), Ok(1));
    assert_eq!(withdraw(&mut words, 7), 0);
    assert_eq!(ask(&mut words, &[4, 7, 0, 0, 0, 0, 1, 1]), Ok(1));
    assert_eq!(call(&mut words, &[3]), 0);
    assert_eq!(withdraw(&mut words, 7), 13);
}

/// Requesters whose numbers end alike are not one another.
#[test]
fn requesters_of_many_bits() {
    let all = [
        1,
        0x101,
        0x1_0001,
        0x100_0001,
        0x8000_0001,
        u64::from(u32::MAX),
    ];
    let mut words = pooled(8);
    all.iter()
        .for_each(|q| assert!(ask(&mut words, &least(4, *q)).is_ok()));
    for (gone, q) in all.iter().enumerate() {
        for nobody in [0, 1 << 32, q + (1 << 32), u64::MAX] {
            assert_eq!(withdraw(&mut words, nobody), 2);
        }
        assert_eq!(owners(&words, 3), all[gone..]);
        assert_eq!(withdraw(&mut words, *q), 0);
    }
}

/// Who shares an input keeps it; alone on it again, its codes decide.
#[test]
fn a_shared_input() {
    let mut words = pooled(4);
    let input = |q, trigger, sharing| [3, q, 0, 1, trigger, sharing, 1, 2];
    for q in [7, 8, 7, 9] {
        assert_eq!(ask(&mut words, &input(q, 1, 1)), Ok(2));
    }
    assert_eq!(withdraw(&mut words, 7), 0);
    assert_eq!(owners(&words, 2), [8, 9]);
    assert_eq!(ask(&mut words, &input(7, 0, 1)), Err(8));
    assert_eq!([8, 9].map(|q| withdraw(&mut words, q)), [0, 0]);
    assert_eq!(ask(&mut words, &input(7, 0, 0)), Ok(2));
}

/// Full and Exhausted read the tables after the withdrawal: of a full table a row goes, at each of some places, and the next request has that row and the least base.
#[test]
fn full_tables() {
    small_stack(|| {
        let rows = ROWS as u64;
        for kind in 1..6 {
            // as many numbers as rows: exhausted; more of them: full
            for (numbers, none_left) in [(rows, 7), (2 * rows, 9)] {
                let mut words = pooled(numbers);
                (0..rows).for_each(|n| assert_eq!(ask(&mut words, &least(kind, 1000 + n)), Ok(n)));
                for place in [0, 1, rows / 2, rows - 1] {
                    assert_eq!(ask(&mut words, &least(kind, 7)), Err(none_left));
                    assert_eq!(withdraw(&mut words, 1000 + place), 0);
                    assert_eq!(ask(&mut words, &least(kind, 2000 + place)), Ok(place));
                    let table = if kind == 5 { 6 } else { kind as usize - 1 };
                    assert_eq!(owners(&words, table)[ROWS - 1], 2000 + place);
                }
            }
        }
    });
}

/// Every other row of a full table goes; the numbers come back from the least on. Then all are of one requester, and go.
#[test]
fn half_of_a_full_table() {
    small_stack(|| {
        let rows = ROWS as u64;
        for kind in 1..6 {
            let mut words = pooled(2 * rows);
            let empty = words.clone();
            (0..rows).for_each(|n| assert_eq!(ask(&mut words, &least(kind, 7 + n % 2)), Ok(n)));
            assert_eq!(withdraw(&mut words, 7), 0);
            (0..rows / 2).for_each(|n| assert_eq!(ask(&mut words, &least(kind, 8)), Ok(2 * n)));
            assert_eq!(ask(&mut words, &least(kind, 8)), Err(9));
            assert_eq!(withdraw(&mut words, 8), 0);
            assert!(words == empty);
        }
    });
}

/// All seven tables full, of two requesters by turns, behind reservations.
#[test]
fn all_tables_full() {
    small_stack(|| {
        let mut holds = Vec::new();
        for n in 0..ROWS as u64 {
            holds.extend((1..8).map(|kind| hold(kind, 7 + n % 2, n)));
        }
        for held in [0, 7, 7 * 99, 7 * (ROWS - 1), 7 * ROWS] {
            let mut words = handed_in(&holds, held);
            let all_held = held == 7 * ROWS;
            assert_eq!(withdraw(&mut words, 9), 13);
            assert_eq!(withdraw(&mut words, 8), if all_held { 13 } else { 0 });
            let none = all_held || held == 7 * (ROWS - 1);
            assert_eq!(withdraw(&mut words, 7), if none { 13 } else { 0 });
            assert!(words[..HELD + 2 * SEVEN] == reserved(&holds[..held])[..HELD + 2 * SEVEN]);
        }
    });
}

/// 1 before all else: a count that is too large, a number behind the used rows, in each of the 28 tables; owners that do not begin with the reservations.
/// tests/rows.rs tries every other clause.
#[test]
fn damaged_tables() {
    let mut sound = stand().as_words().to_vec();
    assert_eq!(ask(&mut sound, &[4, 7, 0]), Ok(32));
    let seven = [RANGES, RANGES, INPUTS, RANGES, RANGES, RANGES, RANGES];
    let mut at = 0;
    for size in [[POOL; 7], [POOL; 7], seven, seven].concat() {
        for (place, number) in [
            (at, ROWS as u64 + 1),
            (at, u64::MAX),
            (at + size - 1, 1),
            (at + size - 1, 1 << 63),
        ] {
            let mut words = sound.clone();
            words[place] = number;
            for numbers in [&[5, 7][..], &[5, 0], &[5, 1 << 32], &[5, 9], &[5]] {
                assert_eq!(call(&mut words, numbers), 1, "{place}");
            }
        }
        at += size;
    }
    assert_eq!(at + 5, sound.len());
    let mut since = sound.clone();
    assert_eq!(call(&mut since, &[2, 9, 4, 100, 101]), 0);
    for numbers in [&[5, 7][..], &[5, 0], &[5]] {
        assert_eq!(call(&mut since, numbers), 1);
    }
    assert_eq!(withdraw(&mut sound, 7), 0);
}

/// Short lists after 1 and before 2; what stands behind the two numbers is not looked at; the answer is told where there is room for it.
#[test]
fn lists() {
    let mut words = pooled(8);
    for (numbers, number) in [
        (&[][..], 11),
        (&[5], 11),
        (&[5, 0], 2),
        (&[5, 7], 13),
        (
            &[5, 7, u64::MAX, u64::MAX, 9, 9, 9, 9, 9, 9, 9, 9, 9, 9],
            13,
        ),
    ] {
        assert_eq!(call(&mut words, numbers), number);
    }
    assert_eq!(ask(&mut words, &least(4, 7)), Ok(0));
    assert_eq!(call(&mut words, &[5, 7, 0, 0]), 0);
    assert_eq!(words, pooled(8));
}
