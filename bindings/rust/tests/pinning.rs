//! A request is pinned by its own record alone: what stands in the list behind a refused plan's records, or tells of another request, pins nothing.

mod common;

use common::{mixed, numbers, planner_pin, planner_plan, stand};
use thurgoleo::{MOST, STATE_SIZE};

fn pin(requests: &mut [u64], results: &[u64]) {
    unsafe {
        planner_pin(
            requests.as_mut_ptr(),
            requests.len(),
            results.as_ptr(),
            results.len(),
        )
    }
}

/// Plans on the stand; how many numbers were filled.
fn plan(requests: &[u64], results: &mut [u64]) -> usize {
    let mut state = stand().as_words().to_vec();
    let filled = unsafe {
        planner_plan(
            state.as_mut_ptr(),
            STATE_SIZE as u64,
            requests.as_ptr(),
            requests.len(),
            results.as_mut_ptr(),
            results.len(),
        )
    };
    filled as usize
}

#[test]
fn an_accepted_plan_is_pinned_whole() {
    let mut requests = numbers(&mixed(MOST));
    let mut results = vec![0; 9 * MOST];
    assert_eq!(plan(&requests, &mut results), 9 * MOST);
    pin(&mut requests, &results);
    assert!(requests.chunks_exact(12).all(|r| r[6] == 1));
    assert!(requests
        .chunks_exact(12)
        .all(|r| r[0] != 5 || (r[8] == 1 && r[10] == 1)));
}

#[test]
fn behind_a_refusal_requests_stay() {
    for refused in 0..10 {
        let mut requests = numbers(&mixed(10));
        // the list holds an accepted plan of other requesters
        let mut others = requests.clone();
        others.chunks_exact_mut(12).for_each(|r| r[1] += 1000);
        let mut results = vec![0; 90];
        assert_eq!(plan(&others, &mut results), 90);
        let stale = results.clone();
        // nobody asks: bad input
        requests[12 * refused + 1] = 0;
        assert_eq!(plan(&requests, &mut results), 9 * refused);
        assert_eq!(results[9 * refused..], stale[9 * refused..]);
        let before = requests.clone();
        pin(&mut requests, &results);
        assert!(requests[..12 * refused].chunks_exact(12).all(|r| r[6] == 1));
        assert_eq!(requests[12 * refused..], before[12 * refused..]);
    }
}

#[test]
fn a_record_of_another_request_pins_nothing() {
    let requests = numbers(&mixed(5));
    let mut results = vec![0; 45];
    assert_eq!(plan(&requests, &mut results), 45);
    for i in 0..5 {
        for field in 0..3 {
            let mut other = results.clone();
            other[9 * i + field] += 1;
            let mut pinned = requests.clone();
            pin(&mut pinned, &other);
            for j in 0..5 {
                let same = pinned[12 * j..][..12] == requests[12 * j..][..12];
                assert_eq!(same, i == j);
            }
        }
    }
}

#[test]
fn what_cannot_be_read_is_not_pinned() {
    // an input whose controller is too large, a kind that is not known, a requester and a slot too large, nobody
    let readable = [3, 7, 1, 0, 1, 0, 0, 0, 0, 0, 0, 0];
    for (place, number) in [(0, 6), (1, 0), (1, 1 << 32), (2, 1 << 32), (3, 1 << 32)] {
        let mut request = readable;
        request[place] = number;
        let mut record = [request[0], request[1], request[2], 0, 16, 1, 0, 0, 0];
        let before = request;
        pin(&mut request, &record);
        assert_eq!(request, before);
        record[..3].copy_from_slice(&readable[..3]);
        let mut request = readable;
        pin(&mut request, &record);
        assert_eq!(request[6..8], [1, 16]);
    }
}

/// One request of each kind, with its own record and with all others': the typed request says what the planner writes into its numbers.
#[test]
fn a_single_request_is_pinned() {
    let mut p = stand();
    let requests = mixed(5);
    let granted: Vec<_> = requests.iter().map(|r| p.allocate(r).unwrap()).collect();
    for request in &requests {
        for granted in &granted {
            let (mut numbers, record) = (request.numbers(), granted.numbers());
            pin(&mut numbers, &record);
            let pinned = request.pinned(granted);
            assert_eq!(pinned.numbers(), numbers);
            assert_eq!(
                pinned == *request,
                record[1] != u64::from(request.requester)
            );
            assert_eq!(pinned.pinned(granted), pinned);
        }
    }
    // from a fresh start each gets what it had, from the last to the first
    let mut again = stand();
    for (request, granted) in requests.iter().zip(&granted).rev() {
        assert_eq!(again.allocate(&request.pinned(granted)), Ok(*granted));
    }
}
