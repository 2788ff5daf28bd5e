//! Random calls on random memory, with guard words around all that is lent, on a stack of 1 MiB. RANDOM_CALLS says how many (20,000 if it is not set).

mod common;

use common::{
    planner_allocate, planner_call, planner_fresh, planner_pin, planner_plan, planner_read,
    small_stack, Rng,
};
use thurgoleo::{Planner, STATE_SIZE};

const WORDS: usize = STATE_SIZE / 8;
const GUARD: u64 = 0xA5A5_5A5A_C3C3_3C3C;

impl Rng {
    // Small numbers mostly, then the widths' limits, then anything.
    fn number(&mut self) -> u64 {
        match self.below(8) {
            0..=4 => self.next() % 9,
            5 => [
                8191,
                8192,
                8193,
                1 << 16,
                (1 << 16) - 1,
                1 << 32,
                (1 << 32) - 1,
                u64::MAX,
                u64::MAX - 1,
            ][self.below(9)],
            6 => self.next() % 70_000,
            _ => self.next(),
        }
    }

    fn list(&mut self, longest: usize) -> Vec<u64> {
        (0..self.below(longest + 1))
            .map(|_| self.number())
            .collect()
    }
}

// What may be lent as a state: sound tables, sound ones with a few words changed, random words, all ones.
fn state(rng: &mut Rng, kept: &[u64]) -> Vec<u64> {
    match rng.below(8) {
        0 => (0..WORDS).map(|_| rng.next()).collect(),
        1 => vec![u64::MAX; WORDS],
        2 | 3 => {
            let mut words = kept.to_vec();
            (0..1 + rng.below(4)).for_each(|_| {
                let at = rng.below(WORDS);
                words[at] = rng.number();
            });
            words
        }
        _ => kept.to_vec(),
    }
}

fn calls(count: usize) {
    let mut rng = Rng(20261115);
    let mut kept = Planner::new().unwrap().as_words().to_vec();
    let (mut refused, mut accepted) = (0u64, 0u64);
    for _ in 0..count {
        let mut memory = vec![GUARD; WORDS + 2];
        memory[1..WORDS + 1].copy_from_slice(&state(&mut rng, &kept));
        let before = memory.clone();
        let mut x = rng.list(40);
        let lent = rng.below(40);
        let mut out = vec![GUARD; lent + 2];
        let size = if rng.below(16) == 0 {
            rng.number()
        } else {
            STATE_SIZE as u64
        };
        let (s, to) = (memory[1..].as_mut_ptr(), out[1..].as_mut_ptr());
        let which = rng.below(6);
        let number = unsafe {
            match which {
                0 => planner_fresh(s, size),
                1 => planner_call(s, size, x.as_ptr(), x.len(), to, lent),
                2 => planner_allocate(s, size, x.as_ptr(), x.len(), to, lent),
                3 => planner_plan(s, size, x.as_ptr(), x.len(), to, lent),
                4 => planner_read(s, size, x.as_ptr(), x.len(), to, lent),
                _ => {
                    planner_pin(x.as_mut_ptr(), x.len(), to, lent);
                    0
                }
            }
        };
        assert!(number <= 40, "an answer of {number}");
        assert!([memory[0], memory[WORDS + 1], out[0], out[lent + 1]]
            .iter()
            .all(|w| *w == GUARD));
        if size != STATE_SIZE as u64 || which > 3 {
            assert!(memory == before);
        } else if which > 0 {
            // a refusal changes the five numbers alone; an accepted call leaves tables that a start takes
            let said = memory[WORDS - 4];
            assert!(said <= 13);
            if said != 0 {
                assert!(memory[..WORDS - 4] == before[..WORDS - 4]);
                refused += 1;
            } else {
                accepted += 1;
                kept.copy_from_slice(&memory[1..WORDS + 1]);
            }
        }
        if rng.below(300) == 0 {
            kept = Planner::new().unwrap().as_words().to_vec();
        }
    }
    println!("{count} calls: {accepted} accepted, {refused} refused, nothing else");
    assert!(accepted > 0 && refused > 0);
}

#[test]
fn any_memory_any_numbers() {
    let count = std::env::var("RANDOM_CALLS")
        .ok()
        .and_then(|n| n.parse().ok())
        .unwrap_or(20_000);
    small_stack(move || calls(count));
}
