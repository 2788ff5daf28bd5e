// Numbers that no typed call has: unknown kinds and codes, numbers too large for their field, lists cut off or too long.

use super::flat::Step;
use crate::gen::Rng;

const NUMBERS: [u64; 16] = [0, 1, 2, 3, 4, 5, 6, 8, 9, 8191, 8192, 1 << 16, (1 << 32) - 1, 1 << 32, 1 << 63, u64::MAX];

/// A few steps of one sequence in four get odd numbers, lists or lent lengths.
pub fn some_odd(rng: &mut Rng, steps: &mut [Step]) {
    if !rng.chance(25) {
        return;
    }
    for step in steps {
        if rng.chance(10) {
            make_odd(rng, step);
        }
    }
}

fn make_odd(rng: &mut Rng, step: &mut Step) {
    match step {
        Step::Call(numbers) => odd_list(rng, numbers),
        Step::Allocate { request, lent } => {
            if rng.chance(50) {
                *lent = rng.pick(&[0, 1, 8, 10, 18]);
            } else {
                odd_number(rng, request);
            }
        }
        Step::Plan { requests, results } => {
            if rng.chance(20) {
                *results = rng.below(30) as usize;
            } else {
                odd_list(rng, requests);
            }
        }
    }
}

fn odd_list(rng: &mut Rng, numbers: &mut Vec<u64>) {
    match rng.below(8) {
        0 => numbers.truncate(rng.below(numbers.len() as u64 + 1) as usize),
        1 => numbers.extend_from_slice(&[u64::MAX; 12][..rng.below(13) as usize]),
        _ => odd_number(rng, numbers),
    }
}

fn odd_number(rng: &mut Rng, numbers: &mut [u64]) {
    if !numbers.is_empty() {
        let at = rng.below(numbers.len() as u64) as usize;
        numbers[at] = rng.pick(&NUMBERS);
    }
}
