//! LPIs start at 8192: ranges of them that start lower are refused with 12, pooled, reserved and in a text; tables with such a row are not sound; a request for such an LPI
//! is not allowed, and none is refused with 12.

mod common;

use common::{call_leaving as call, planner, small_stack, stand};
use std::ops::Range;
use thurgoleo::{
    pin_text, text, Choice, DeviceId, EventId, Hold, Lpi, Plan, Planner, Pool, Refusal, Request,
    TextRefusal, Use, Want, FIRST_LPI, ROWS, TEXT_OUTPUT,
};

const USES: [Use; 2] = [Use::Automatic, Use::Fixed];

/// The start decides, wherever the range ends; an empty one comes first. Typed, for pools of both uses and for reservations.
#[test]
fn ranges_of_lpis() {
    let turned = Range { start: 9, end: 5 };
    for (lpis, answer) in [
        (FIRST_LPI - 1..FIRST_LPI + 1, Err(Refusal::BadLpi)),
        (FIRST_LPI - 1..FIRST_LPI, Err(Refusal::BadLpi)),
        (0..1, Err(Refusal::BadLpi)),
        (0..u32::MAX, Err(Refusal::BadLpi)),
        (FIRST_LPI..FIRST_LPI + 1, Ok(())),
        (FIRST_LPI..u32::MAX, Ok(())),
        (u32::MAX - 1..u32::MAX, Ok(())),
        (5..5, Err(Refusal::EmptyRange)),
        (turned, Err(Refusal::EmptyRange)),
        (FIRST_LPI..FIRST_LPI, Err(Refusal::EmptyRange)),
    ] {
        for controller in [0, 1, u32::MAX] {
            let mut p = Planner::new().unwrap();
            for used in USES {
                let (devices, events, lpis) = (0..1, 0..1, lpis.clone());
                let pool = Pool::Msi {
                    controller,
                    its: 0,
                    devices,
                    events,
                    lpis,
                };
                assert_eq!(p.add_pool(used, pool), answer);
            }
            let hold = Hold::Lpi {
                controller,
                lpis: lpis.clone(),
            };
            assert_eq!(p.reserve(3, hold), answer);
        }
    }
    assert_eq!(Refusal::BadLpi.number(), 12);
}

/// A reservation: 2, 3, 4, 12, 5, 9.
#[test]
fn reservations_of_lpis_in_their_order() {
    let mut words = Planner::new().unwrap().as_words().to_vec();
    for i in 0..ROWS as u64 {
        let first = u64::from(FIRST_LPI) + 2 * i;
        assert_eq!(call(&mut words, &[2, 7, 7, 1, first, first + 1]), 0);
    }
    let first = u64::from(FIRST_LPI);
    for (numbers, number) in [
        ([2, 0, 7, 1, 5, 1 << 32], 2),
        ([2, 0, 7, 1 << 32, 5, 5], 2),
        ([2, 0, 7, 1, 5, 5], 3),
        ([2, 0, 7, 1, 5, 6], 3),
        ([2, 8, 7, 1, 5, 5], 4),
        ([2, 8, 7, 1, 9, 5], 4),
        ([2, 8, 7, 1, first - 1, first + 1], 12),
        ([2, 8, 7, 1, 5, 6], 12),
        ([2, 8, 7, 2, first - 1, first], 12),
        ([2, 8, 7, 1, first + 1, first + 2], 9),
        ([2, 8, 7, 2, first, first + 1], 9),
    ] {
        assert_eq!(call(&mut words, &numbers), number, "{numbers:?}");
    }
    let mut p = planner(&words);
    let lpis = FIRST_LPI..FIRST_LPI + 1;
    let reserved = p.reserve(
        8,
        Hold::Lpi {
            controller: 1,
            lpis,
        },
    );
    assert_eq!(reserved, Err(Refusal::Reserved { owner: 7 }));
}

fn msi(device: Choice<DeviceId>, event: Choice<EventId>, lpi: Choice<Lpi>) -> Request {
    let (controller, its, count) = (0, 0, 2);
    let want = Want::Msi {
        controller,
        its,
        count,
        device,
        event,
        lpi,
    };
    Request {
        requester: 5,
        slot: 0,
        want,
    }
}

/// No request is refused with 12: no sound pool holds a low LPI, so it is not allowed, in its turn; automatic ones never find one.
#[test]
fn requests_for_low_lpis() {
    let fixed = |lpi| {
        msi(
            Choice::Fixed(DeviceId(3)),
            Choice::Fixed(EventId(4)),
            Choice::Fixed(Lpi(lpi)),
        )
    };
    let mut p = stand();
    for lpi in [0, 1, FIRST_LPI - 2, FIRST_LPI - 1] {
        let not_allowed = Err(Refusal::FixedNotAllowed { namespace: 6 });
        assert_eq!(p.allocate(&fixed(lpi)), not_allowed);
        let automatic = msi(Choice::Auto, Choice::Auto, Choice::Fixed(Lpi(lpi)));
        assert_eq!(p.allocate(&automatic), not_allowed);
        // the device's turn comes first
        let device = msi(
            Choice::Fixed(DeviceId(64)),
            Choice::Auto,
            Choice::Fixed(Lpi(lpi)),
        );
        let refused = Err(Refusal::FixedNotAllowed { namespace: 5 });
        assert_eq!(p.allocate(&device), refused);
    }
    let granted = p.allocate(&fixed(FIRST_LPI)).unwrap().numbers();
    assert_eq!(granted, [5, 5, 0, 0, 0, 3, 4, u64::from(FIRST_LPI), 2]);
    let granted = p.allocate(&msi(Choice::Auto, Choice::Auto, Choice::Auto));
    assert_eq!(granted.unwrap().numbers()[7], u64::from(FIRST_LPI) + 2);
}

/// What is done to fresh tables with the LPIs of a range.
type Made = fn(&mut Planner, Range<u32>);

fn pooled(p: &mut Planner, used: Use, lpis: Range<u32>) {
    let (devices, events) = (0..9, 0..9);
    p.add_pool(
        used,
        Pool::Msi {
            controller: 0,
            its: 0,
            devices,
            events,
            lpis,
        },
    )
    .unwrap();
}

/// The four tables of LPIs, each with a row that starts at the least one: an automatic pool, a fixed one, a reservation that is an owner too, an owner alone.
const MADE: [Made; 4] = [
    |p, lpis| pooled(p, Use::Automatic, lpis),
    |p, lpis| pooled(p, Use::Fixed, lpis),
    |p, lpis| {
        p.reserve(
            3,
            Hold::Lpi {
                controller: 0,
                lpis,
            },
        )
        .unwrap();
        p.start().unwrap();
    },
    |p, lpis| {
        pooled(p, Use::Fixed, FIRST_LPI..FIRST_LPI + 9);
        let start = Choice::Fixed(Lpi(lpis.start));
        p.allocate(&msi(
            Choice::Fixed(DeviceId(0)),
            Choice::Fixed(EventId(0)),
            start,
        ))
        .unwrap();
    },
];

/// The tables once made, and the words in them where such a row's start stands.
fn made(make: Made) -> (Vec<u64>, Vec<usize>) {
    let words = |first: u32| {
        let mut p = Box::new(Planner::new().unwrap());
        make(&mut p, first..FIRST_LPI + 7);
        p.as_words().to_vec()
    };
    let (one, other) = (words(FIRST_LPI), words(FIRST_LPI + 1));
    let start = |at: &usize| (one[*at], other[*at]) == (FIRST_LPI.into(), u64::from(FIRST_LPI) + 1);
    let places = (0..one.len()).filter(start).collect();
    (one, places)
}

/// A row that starts below the least LPI makes the tables unsound for every call that judges them: pools and reservations for all, owners for requests.
#[test]
fn low_rows_are_malformed() {
    small_stack(|| {
        for (i, make) in MADE.into_iter().enumerate() {
            let (sound, places) = made(make);
            assert_eq!(places.len(), if i == 2 { 2 } else { 1 });
            for start in [FIRST_LPI, FIRST_LPI - 1, 0] {
                let mut words = sound.clone();
                places.iter().for_each(|at| words[*at] = start.into());
                let malformed = start < FIRST_LPI;
                let owners = i == 3;
                for (numbers, judges) in [
                    (&[1, 0, 1, 0, 10][..], !owners),
                    (&[1, 1, 5, 1, 2, 0, 9, 0, 9, 9000, 9001], !owners),
                    (&[2, 9, 1, 0, 10], !owners),
                    (&[2, 9, 7, 1, 9000, 9001], !owners),
                    (&[3], !owners),
                    // a request that ends too early, which is 11 where the tables are sound
                    (&[4], true),
                ] {
                    let number = call(&mut words.clone(), numbers);
                    assert_eq!(number == 1, malformed && judges, "{i} {start} {numbers:?}");
                }
                // a plan of no requests judges all
                let none = planner(&words).plan(&mut Plan::new());
                assert_eq!(none.is_err(), malformed);
            }
        }
    });
}

/// In a text: `no LINE 12 0 0 0`, behind 10; pinned, the same line, and no byte is written.
#[test]
fn texts_with_low_lpis() {
    let good = "pool\tauto\tmsi\t0\t0\t0\t1\t0\t1\t8192\t8194\n";
    let low = "pool\tauto\tmsi\t0\t0\t0\t1\t0\t1\t8191\t8194\n";
    let want = "want\t1\t0\tmsi\t0\t0\t1\tauto\n";
    for (lines, said, refusal) in [
        (
            low.to_string(),
            "no\t1\t12\t0\t0\t0\n",
            Some((1, Refusal::BadLpi)),
        ),
        (
            format!("{good}{low}"),
            "no\t2\t12\t0\t0\t0\n",
            Some((2, Refusal::BadLpi)),
        ),
        (
            format!("{good}hold\t1\tlpi\t0\t0\t1\n"),
            "no\t2\t12\t0\t0\t0\n",
            Some((2, Refusal::BadLpi)),
        ),
        (
            format!("{good}hold\t0\tlpi\t0\t0\t1\n"),
            "no\t2\t3\t0\t0\t0\n",
            Some((2, Refusal::BadOwner)),
        ),
        (
            low.replace("8194", "8191"),
            "no\t1\t4\t0\t0\t0\n",
            Some((1, Refusal::EmptyRange)),
        ),
        (
            low.replace("8194", "4294967296"),
            "no\t1\t10\t0\t0\t0\n",
            Some((1, Refusal::BadLine)),
        ),
        (
            format!("{good}{want}{low}"),
            "no\t3\t10\t0\t0\t0\n",
            Some((3, Refusal::BadLine)),
        ),
        (
            format!("{good}{want}"),
            "got\t1\t0\tmsi\t0\t0\t0\t0\t8192\t1\nend\t1\n",
            None,
        ),
        (
            format!(
                "{}want\t1\t0\tmsi\t0\t0\t1\t0\t0\t8191\n",
                good.replace("auto", "fixed")
            ),
            "no\t2\t6\t6\t0\t0\n",
            Some((2, Refusal::FixedNotAllowed { namespace: 6 })),
        ),
    ] {
        let mut out = vec![0; TEXT_OUTPUT];
        assert_eq!(
            text(lines.as_bytes(), &mut out),
            Ok(said.as_bytes()),
            "{lines}"
        );
        let mut kept = [7; 300];
        let refused = pin_text(lines.as_bytes(), &mut kept).err();
        assert_eq!(
            refused,
            refusal.map(|(line, refusal)| TextRefusal { line, refusal }),
            "{lines}"
        );
        assert!(refused.is_none() || kept == [7; 300]);
    }
}
