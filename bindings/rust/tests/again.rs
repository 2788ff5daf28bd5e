//! Plans of the most requests, of all kinds: accepted, pinned, run again in part and in any order; too long, too short, refused in the middle. Each test has a stack of 1 MiB.

mod common;

use common::{mixed, numbers, planner_plan, small_stack, stand, Rng};
use thurgoleo::{
    Choice, Kind, Part, Plan, Planner, Refusal, Want, MOST, POOL_ROWS, ROWS, STATE_SIZE,
};

const KINDS: [Kind; 7] = [
    Kind::Mmio,
    Kind::Pio,
    Kind::Input,
    Kind::Host,
    Kind::Device,
    Kind::Event,
    Kind::Lpi,
];

// The call itself, on lists of any length: the numbers filled.
fn run(words: &mut [u64], requests: &[u64], results: &mut [u64]) -> usize {
    unsafe {
        planner_plan(
            words.as_mut_ptr(),
            STATE_SIZE as u64,
            requests.as_ptr(),
            requests.len(),
            results.as_mut_ptr(),
            results.len(),
        ) as usize
    }
}

// The last five numbers of a state: number, index, namespace, owner, detail.
fn answer(words: &[u64]) -> &[u64] {
    &words[words.len() - 5..]
}

#[test]
fn the_same_again_in_any_choice_and_order() {
    small_stack(|| {
        let mut first = stand();
        let mut plan = Box::new(Plan::new());
        mixed(MOST).iter().for_each(|r| plan.push(r).unwrap());
        first.plan(&mut plan).unwrap();
        let granted: Vec<_> = plan.granted().map(|g| g.numbers()).collect();
        plan.pin();
        let pinned = plan.requests().to_vec();
        let mut rng = Rng(7);
        for turn in 0..200 {
            let mut order: Vec<usize> = (0..MOST).collect();
            rng.shuffle(&mut order);
            order.truncate(if turn < 20 { MOST } else { rng.below(MOST + 1) });
            let lines: Vec<u64> = order
                .iter()
                .flat_map(|i| pinned[12 * i..12 * i + 12].to_vec())
                .collect();
            let mut words = stand().as_words().to_vec();
            let mut results = vec![5; 9 * order.len() + 3];
            assert_eq!(run(&mut words, &lines, &mut results), 9 * order.len());
            assert_eq!(answer(&words), [0; 5]);
            order
                .iter()
                .enumerate()
                .for_each(|(k, i)| assert_eq!(results[9 * k..9 * k + 9], granted[*i]));
            assert_eq!(results[9 * order.len()..], [5; 3]);
            let again = Box::new(Planner::from_words(words.try_into().unwrap()).unwrap());
            let rows: u64 = KINDS.iter().map(|k| again.used(Part::Owners, *k)).sum();
            let msi = order.iter().filter(|i| **i % 5 == 4).count();
            assert_eq!(rows as usize, 2 + order.len() + 2 * msi);
        }
    });
}

#[test]
fn too_many_and_too_short() {
    small_stack(|| {
        let before = stand().as_words().to_vec();
        for (requests, room) in [
            (MOST + 1, 9 * (MOST + 1)),
            (MOST, 9 * MOST - 1),
            (1, 8),
            (1, 0),
        ] {
            let mut words = before.clone();
            let mut results = vec![5; room];
            assert_eq!(run(&mut words, &numbers(&mixed(requests)), &mut results), 0);
            assert_eq!(answer(&words), [11, 0, 0, 0, 0]);
            assert_eq!(words[..words.len() - 5], before[..before.len() - 5]);
            assert!(results.iter().all(|x| *x == 5));
        }
        for room in 0..=9 {
            let mut words = before.clone();
            let mut results = vec![5; room];
            let filled = run(&mut words, &numbers(&mixed(1)), &mut results);
            assert_eq!(
                (filled, answer(&words)[0]),
                if room == 9 { (9, 0) } else { (0, 11) }
            );
            assert!(room == 9 || results.iter().all(|x| *x == 5));
        }
        for cut in 1..12 {
            let mut words = before.clone();
            assert_eq!(run(&mut words, &numbers(&mixed(2))[cut..], &mut [0; 18]), 0);
            assert_eq!(answer(&words)[0], 11);
        }
        let mut words = before.clone();
        assert_eq!(run(&mut words, &[], &mut []), 0);
        assert_eq!(answer(&words), [0; 5]);
    });
}

#[test]
fn a_refusal_in_the_middle_puts_everything_back() {
    small_stack(|| {
        let before = stand().as_words().to_vec();
        let mut requests = mixed(MOST);
        requests[77].want = Want::HostIrq {
            choice: Choice::Fixed(33),
        };
        let mut words = before.clone();
        let mut results = vec![5; 9 * MOST];
        assert_eq!(run(&mut words, &numbers(&requests), &mut results), 9 * 77);
        assert_eq!(answer(&words), [8, 77, 4, 9, 4]);
        assert_eq!(words[..words.len() - 5], before[..before.len() - 5]);
        let mut alone = before.clone();
        let mut first = vec![5; 9 * 77];
        run(&mut alone, &numbers(&requests[..77]), &mut first);
        assert_eq!(results[..9 * 77], first);
        assert!(results[9 * 77..].iter().all(|x| *x == 5));
    });
}

#[test]
fn a_count_too_large_in_any_table_is_malformed() {
    small_stack(|| {
        let before = stand().as_words().to_vec();
        // the counts stand first in each table: 14 pool tables, then twice six range tables and one of inputs; two numbers of 32 bits share a word
        let mut at = 0;
        let half = |rows: usize| rows.div_ceil(2);
        let pool = 1 + POOL_ROWS + 2 * POOL_ROWS;
        let range = 1 + half(3 * ROWS) + 2 * ROWS + half(ROWS);
        let input = 1 + half(ROWS) + ROWS + half(3 * ROWS);
        let sizes: Vec<usize> = [pool; 14]
            .into_iter()
            .chain([range, range, input, range, range, range, range].repeat(2))
            .collect();
        for size in sizes {
            for count in [POOL_ROWS.max(ROWS) as u64 + 1, u64::MAX] {
                let mut words = before.clone();
                words[at] = count;
                let kept = words.clone();
                assert_eq!(run(&mut words, &numbers(&mixed(3)), &mut [0; 27]), 0);
                assert_eq!(answer(&words), [1, 0, 0, 0, 0]);
                assert_eq!(words[..words.len() - 5], kept[..kept.len() - 5]);
            }
            at += size;
        }
        assert_eq!(at + 5, before.len());
        assert_eq!(
            Planner::from_words([u64::MAX; STATE_SIZE / 8])
                .unwrap()
                .start(),
            Err(Refusal::Malformed)
        );
    });
}
