// The comparison itself: nothing differs from itself, every broken answer is noticed, numbers mean what they should.

use oracle::added::{HELD_ROWS, PLAN_REQUESTS, POOL_ROWS};
use oracle::broken;
use oracle::calls::{Call, Choice, Need, Request};
use oracle::compare::face::{Behind, Face, Plain};
use oracle::compare::flat::{meaning, request_of, step_of, Meaning, Step};
use oracle::compare::{families, run, Input};
use oracle::gen;

#[test]
fn every_call_is_read_back() {
    for index in 0..2_000 {
        for call in gen::sequence(11, index) {
            let meant = match &call {
                Call::OfKind(request) => Meaning::Lent(request.clone(), 9),
                call => Meaning::Call(call.clone()),
            };
            assert_eq!(meaning(&step_of(&call)), meant);
        }
    }
}

#[test]
fn the_judge_does_not_differ_from_itself() {
    for family in families(300, 3) {
        if family.count < 60_000 {
            let report = run(&family, 2, &|| Box::new(Behind::new(Plain)));
            assert_eq!((report.compared, report.differ), (family.count, 0), "{}: {:?}", family.name, report.shown);
        }
    }
}

#[test]
fn every_broken_answer_is_noticed() {
    let families = families(2_000, 7);
    let all = broken::all();
    assert!(all.len() >= 12);
    for broken in all {
        assert!(broken.noticed(&families).is_some(), "{}", broken.name);
    }
}

/// In the stored cases as calls each table is filled to its last row and refuses one more; the longest plan is granted, one request more is 11.
#[test]
fn tables_and_plans_come_to_their_size() {
    let (mut full, mut ends) = ([[0; 7]; 4], Vec::new());
    for family in families(1, 1).iter().filter(|family| family.name == "stored cases as calls") {
        for index in 0..family.count {
            let Input::Calls(steps) = (family.input)(index) else { panic!("calls") };
            let mut face = Behind::new(Plain);
            for step in steps {
                let answer = face.step(&step).answer;
                let tables = face.tables();
                for (part, seven) in [&tables.auto, &tables.fixed, &tables.held, &tables.owners].into_iter().enumerate()
                {
                    let most = if part < 2 { POOL_ROWS } else { HELD_ROWS };
                    (0..7).filter(|kind| seven[*kind].len() == most).for_each(|kind| {
                        full[part][kind] += usize::from(answer[0] == 9);
                    });
                }
                if let Step::Plan { requests, .. } = step {
                    ends.push((requests.len() / 12, answer[0]));
                }
            }
        }
    }
    assert!(full.iter().flatten().all(|refused| *refused > 0), "{full:?}");
    for (length, answer) in [(PLAN_REQUESTS, 0), (PLAN_REQUESTS + 1, 11)] {
        assert!(ends.contains(&(length, answer)), "{length} {answer}: {ends:?}");
    }
}

/// Answers to calls that no typed call is.
#[test]
fn odd_numbers() {
    let mut face = Behind::new(Plain);
    let mut number = |numbers: &[u64]| face.step(&Step::Call(numbers.to_vec())).answer[0];
    assert_eq!(number(&[]), 11);
    assert_eq!(number(&[0]), 2);
    assert_eq!(number(&[6]), 2);
    assert_eq!(number(&[5]), 11);
    assert_eq!(number(&[5, 0]), 2);
    assert_eq!(number(&[5, 1]), 13);
    assert_eq!(number(&[1, 0, 1, 0]), 11);
    assert_eq!(number(&[1, 2, 1, 0, 1]), 2);
    assert_eq!(number(&[1, 0, 6]), 2);
    assert_eq!(number(&[1, 0, 2, 0, 65_536]), 2);
    assert_eq!(number(&[1, 0, 1, 0, 8, 99, 99]), 0);
    assert_eq!(number(&[2, 1 << 32, 1, 0, 1]), 2);
    assert_eq!(number(&[2, 0, 1, 0, 1]), 3);
    assert_eq!(number(&[2, 1, 1, 0, 1]), 0);
    // Asked before a start: the owner table does not begin with the reservation.
    assert_eq!(number(&[4]), 1);
    assert_eq!(number(&[4, 1, 1, 0, 1, 1, 0, 0, 0, 0, 0, 0, 0]), 1);
    assert_eq!(number(&[5]), 1);
    assert_eq!(number(&[5, 1 << 32]), 1);
    assert_eq!(number(&[5, 1]), 1);
    assert_eq!(number(&[3]), 0);
    assert_eq!(number(&[4]), 11);
    assert_eq!(number(&[4, 1, 1, 0, 1, 1, 0, 2, 0, 0, 0, 0, 0]), 2);
    assert_eq!(number(&[4, 1, 1, 0, 1, 1, 0, 0, 0, 7, 7, 7, 7]), 0);
    let rows = face.tables().owners[0].iter().map(|row| (row.start, row.end)).collect::<Vec<_>>();
    assert_eq!(rows, [(0, 1), (1, 2)]);
    // Asked by whom the reservation is, which stays.
    assert_eq!(face.step(&Step::Call(vec![5, 1 << 32])).answer[0], 2);
    assert_eq!(face.step(&Step::Call(vec![5, 1, 9, 9])).answer[0], 0);
    assert_eq!(face.step(&Step::Call(vec![5, 1])).answer, [13, 0, 0, 0, 0]);
    assert_eq!(face.tables().owners[0].len(), 1);
}

#[test]
fn a_request_of_numbers() {
    let bad = Request { requester: 0, slot: 0, need: Need::Host { irq: Choice::Auto } };
    let msi = [5, 1, 2, 3, 4, 5, 0, 99, 1, 7, 0, 1 << 40];
    let need =
        Need::Msi { controller: 3, its: 4, count: 5, device: Choice::Auto, event: Choice::Fixed(7), lpi: Choice::Auto };
    assert_eq!(request_of(&msi), Request { requester: 1, slot: 2, need });
    for at in [0, 1, 2, 3, 4, 5, 6, 8, 9, 10] {
        let mut odd = msi;
        odd[at] = 1 << 32;
        assert_eq!(request_of(&odd), bad, "{at}");
    }
}
