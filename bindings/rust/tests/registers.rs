//! A device's registers sized, held to 02's sentences written down once more over single bits: every low half of a word, every type and pair at every register, random
//! words, lists and requesters, with guards around all that is lent; what is made is planned.

mod common;

use common::{planner_plan, planner_registers, Rng};
use std::collections::BTreeMap;
use thurgoleo::{
    registers, Planner, Pool, Refusal, Use, ANSWER, RECORD, REGISTERS, REQUEST, STATE_SIZE,
};

const ROOM: usize = REQUEST * REGISTERS;
const GUARD: usize = 3;
/// What a number that is not told keeps.
const UNTOLD: u64 = 0xA5A5_5A5A_C3C3_3C3C;
const W32: u64 = u32::MAX as u64;

// ---- 02's sentences

/// The bits of a word, bit 0 first.
fn bits(word: u64) -> [bool; 32] {
    let (mut rest, mut bits) = (word, [false; 32]);
    for bit in &mut bits {
        *bit = rest % 2 == 1;
        rest /= 2;
    }
    assert_eq!(rest, 0);
    bits
}

/// The mask inverted and one added: bit by bit from the lowest, and what is carried out of the top is lost. 16 for a mask of zero, and for one with a one below a zero.
fn size(mask: &[bool]) -> Result<u64, u64> {
    let mut fell = false;
    for bit in mask.iter().rev() {
        if *bit && fell {
            return Err(16);
        }
        fell |= !bit;
    }
    if !mask.contains(&true) {
        return Err(16);
    }
    let (mut carry, mut size, mut worth) = (true, 0, 1u64);
    for bit in mask {
        let inverted = !bit;
        if inverted != carry {
            size += worth;
        }
        carry &= inverted;
        worth = worth.wrapping_mul(2);
    }
    Ok(size)
}

/// The register at an index: kind and size, if it asks for anything; and whether the next word is its high half.
fn register(words: &[u64], index: usize) -> Result<(Option<(u64, u64)>, bool), u64> {
    let word = bits(words[index]);
    if !word.contains(&true) {
        return Ok((None, false));
    }
    let mut mask = word.to_vec();
    if word[0] {
        mask[..2].fill(false);
        if !word[16..].contains(&true) {
            mask[16..].fill(true);
        }
        let ports = size(&mask)?;
        if ports > 0xFFFF {
            return Err(17);
        }
        return Ok((Some((2, ports)), false));
    }
    mask[..4].fill(false);
    match (word[2], word[1], words.get(index + 1)) {
        (false, false, _) => Ok((Some((1, size(&mask)?)), false)),
        (true, false, None) => Err(15),
        (true, false, Some(high)) => {
            mask.extend(bits(*high));
            Ok((Some((1, size(&mask)?)), true))
        }
        (_, true, _) => Err(14),
    }
}

/// The numbers of all requests, for a list of so many numbers; or the number of a refusal.
fn due(words: &[u64], requester: u64, room: usize) -> Result<Vec<u64>, u64> {
    let words = words.get(..REGISTERS).ok_or(11u64)?;
    if requester == 0 || requester > W32 || words.iter().any(|word| *word > W32) {
        return Err(2);
    }
    let (mut made, mut index) = (Vec::new(), 0);
    while index < REGISTERS {
        let (asked, pair) = register(words, index)?;
        if let Some((kind, size)) = asked {
            made.extend([kind, requester, index as u64, size, size]);
            made.resize(made.len().next_multiple_of(REQUEST), 0);
        }
        index += if pair { 2 } else { 1 };
    }
    if room / REQUEST < made.len() / REQUEST {
        return Err(11);
    }
    Ok(made)
}

// ---- the call, held to them

/// The call itself with a list of so many numbers: what it made, or its answer's number, which names nothing. All else is as it was, around the list and in it, and
/// around the answer.
fn made(words: &[u64], requester: u64, room: usize) -> Result<Vec<u64>, u64> {
    let (mut list, mut told) = (vec![UNTOLD; room + 2 * GUARD], [UNTOLD; ANSWER + 2]);
    let count = unsafe {
        planner_registers(
            words.as_ptr(),
            words.len(),
            requester,
            list[GUARD..].as_mut_ptr(),
            room,
            told[1..].as_mut_ptr(),
            ANSWER,
        )
    } as usize;
    assert!(count <= REGISTERS && REQUEST * count <= room);
    let number = told[1];
    assert_eq!(told, [UNTOLD, number, 0, 0, 0, 0, UNTOLD]);
    let end = GUARD + REQUEST * count;
    let mut others = list[..GUARD].iter().chain(&list[end..]);
    assert!(others.all(|n| *n == UNTOLD), "{words:x?} {room}");
    match number {
        0 => Ok(list[GUARD..end].to_vec()),
        _ => {
            assert_eq!(count, 0, "{words:x?} {room}");
            Err(number)
        }
    }
}

/// How often each number came, 0 for what was accepted.
#[derive(Default)]
struct Seen(BTreeMap<u64, usize>);

impl Seen {
    /// The call gives what is due, and is counted.
    fn hold(&mut self, words: &[u64], requester: u64, room: usize) -> Result<Vec<u64>, u64> {
        let due = due(words, requester, room);
        assert_eq!(
            made(words, requester, room),
            due,
            "{words:x?} {requester} {room}"
        );
        *self
            .0
            .entry(due.as_ref().err().copied().unwrap_or(0))
            .or_default() += 1;
        due
    }

    /// The six words, with room for all; the wrapper says the same.
    fn hold_all(&mut self, words: &[u64; REGISTERS]) {
        let due = self.hold(words, 7, ROOM);
        let typed = registers(words.map(|word| word as u32), 7);
        let numbers = typed.map(|made| made.iter().flat_map(|r| r.numbers()).collect());
        assert_eq!(numbers.map_err(|r| u64::from(r.number())), due);
    }

    fn numbers(&self) -> Vec<u64> {
        self.0.keys().copied().collect()
    }
}

/// Zeros but for these, from an index on.
fn at(index: usize, words: &[u64]) -> [u64; REGISTERS] {
    let mut six = [0; REGISTERS];
    six[index..index + words.len()].copy_from_slice(words);
    six
}

const HIGH: [u64; 9] = [
    0,
    1,
    2,
    0x7FFF_FFFF,
    0x8000_0000,
    0xC000_0000,
    0xFFFF_FFF0,
    0xFFFF_FFFE,
    0xFFFF_FFFF,
];

#[test]
fn every_low_half() {
    let mut seen = Seen::default();
    for upper in [0, 1, 0x7FFF, 0x8000, 0xFFFE, 0xFFFF, 0xF0F0] {
        for low in 0..1 << 16 {
            seen.hold_all(&at(low as usize / 16 % REGISTERS, &[upper << 16 | low]));
        }
    }
    assert_eq!(seen.numbers(), [0, 14, 15, 16, 17]);
}

/// Every low nibble, and so all four types, of ports, with and without bit 3, behind masks that are good, just not, and zero; at every register.
#[test]
fn every_type_at_every_register() {
    let mut seen = Seen::default();
    let good = (4..=32).map(|n| W32 << n & W32);
    let masks: Vec<u64> = good
        .flat_map(|m| [m, m ^ 0x10, m ^ 0x8000_0000, m >> 1 & !15])
        .collect();
    for index in 0..REGISTERS {
        for mask in &masks {
            for low in 0..16 {
                seen.hold_all(&at(index, &[mask | low]));
                // behind a register of another sort in each other place
                let mut six = [0xFFFF_FF01; REGISTERS];
                six[index] = mask | low;
                seen.hold_all(&six);
            }
        }
    }
    assert_eq!(seen.numbers(), [0, 14, 15, 16, 17]);
}

#[test]
fn pairs_at_every_place() {
    let (mut seen, mut rng) = (Seen::default(), Rng(15));
    let random: Vec<u64> = (0..40).map(|_| rng.next() & W32).collect();
    let contiguous = (0..=32).map(|n| W32 << n & W32);
    let highs: Vec<u64> = contiguous.chain(HIGH).chain(random).collect();
    for index in 0..REGISTERS {
        for low in (4..=32).map(|n| W32 << n & W32).chain([0x10, 0x7FFF_FFF0]) {
            for (bit3, high) in highs.iter().flat_map(|high| [(0, high), (8, high)]) {
                let words = [low | bit3 | 4, *high, 0xFFFF_F000];
                let fit = words.len().min(REGISTERS - index);
                seen.hold_all(&at(index, &words[..fit]));
            }
        }
    }
    // three pairs, one behind the other
    for high in highs {
        seen.hold_all(&[4, high, 4, W32, 4, high]);
    }
    assert_eq!(seen.numbers(), [0, 15, 16]);
}

/// A word as devices have it, mostly.
fn word(rng: &mut Rng) -> u64 {
    let mask = W32 << rng.below(33) & W32;
    match rng.below(12) {
        0 | 1 => 0,
        2 | 3 => mask | 1,
        4 => mask & 0xFFFF | 1,
        5..=7 => mask & !15 | [0, 8][rng.below(2)],
        8 => mask & !15 | 4,
        9 => HIGH[rng.below(HIGH.len())],
        10 => mask | rng.below(16) as u64,
        _ => rng.next() & W32,
    }
}

fn requester(rng: &mut Rng) -> u64 {
    match rng.below(12) {
        0 => [0, W32 + 1, u64::MAX, rng.next() | 1 << 32][rng.below(4)],
        1 => W32,
        _ => 1 + (rng.next() & 0xFFFF),
    }
}

#[test]
fn random_words_lists_and_requesters() {
    let (mut seen, mut rng) = (Seen::default(), Rng(2));
    for _ in 0..300_000 {
        let mut words: Vec<u64> = (0..REGISTERS).map(|_| word(&mut rng)).collect();
        match rng.below(30) {
            0 => words.truncate(rng.below(REGISTERS)),
            1 => words.extend([W32 + 1, u64::MAX, 2]),
            2 => {
                words[rng.below(REGISTERS)] =
                    [W32 + 1, u64::MAX, rng.next() | 1 << 32][rng.below(3)]
            }
            _ => {}
        }
        let room = [ROOM, ROOM, rng.below(ROOM + 20)][rng.below(3)];
        let _ = seen.hold(&words, requester(&mut rng), room);
    }
    assert_eq!(seen.numbers(), [0, 2, 11, 14, 15, 16, 17]);
    assert!(seen.0.values().all(|n| *n > 1_000), "{:?}", seen.0);
}

/// For none to six requests lists of every length: enough to the number, one short, none.
#[test]
fn short_at_each_room() {
    let mut seen = Seen::default();
    for count in 0..=REGISTERS {
        let mut words = [0; REGISTERS];
        words[REGISTERS - count..].fill(0xFFFF_FFFF);
        for room in 0..ROOM + 2 * REQUEST {
            let made = seen.hold(&words, 7, room).map(|list| list.len());
            let needed = REQUEST * count;
            assert_eq!(made, if room < needed { Err(11) } else { Ok(needed) });
        }
    }
    // a register's fault comes before it, and too few words before all
    for room in 0..ROOM {
        let late = [W32, W32, W32, W32, W32, 1];
        assert_eq!(seen.hold(&late, 7, room), Err(17));
        assert_eq!(seen.hold(&late, 0, room), Err(2));
        assert_eq!(seen.hold(&late[..5], 0, room), Err(11));
    }
}

#[test]
fn short_lists_for_the_answer_are_left_alone() {
    for (words, number) in [(at(0, &[0xFFFF_F000]), 0), (at(3, &[8]), 16)] {
        for told in 0..ANSWER + 3 {
            let (mut list, mut answer) = ([UNTOLD; ROOM], [UNTOLD; ANSWER + 4]);
            let (from, to, five) = (words.as_ptr(), list.as_mut_ptr(), answer.as_mut_ptr());
            let count = unsafe { planner_registers(from, REGISTERS, 7, to, ROOM, five, told) };
            assert_eq!(count, u64::from(number == 0));
            let heard = if told < ANSWER { 0 } else { ANSWER };
            assert!(answer[..heard] == [number, 0, 0, 0, 0][..heard]);
            assert!(answer[heard..].iter().all(|n| *n == UNTOLD));
        }
    }
}

/// Pools of all memory and all ports that there are.
fn board() -> Box<Planner> {
    let mut p = Box::new(Planner::new().unwrap());
    let (start, end) = (0, u64::MAX);
    p.add_pool(Use::Automatic, Pool::Mmio { start, end })
        .unwrap();
    let (start, end) = (0, u16::MAX);
    p.add_pool(Use::Automatic, Pool::Pio { start, end })
        .unwrap();
    p.start().unwrap();
    p
}

/// Whatever is made is a good request: planned, it is granted at a number that its size divides, or there is no room for it.
#[test]
fn what_is_made_is_planned() {
    let (board, mut rng, mut answers) = (board(), Rng(3), BTreeMap::new());
    while answers.values().sum::<usize>() < 20_000 {
        let words: Vec<u64> = (0..REGISTERS).map(|_| word(&mut rng)).collect();
        let Ok(requests) = made(&words, 7, ROOM) else {
            continue;
        };
        let (mut state, mut results) = (board.as_words().to_vec(), [0; RECORD * REGISTERS]);
        let (to, size) = (state.as_mut_ptr(), STATE_SIZE as u64);
        let (from, n) = (requests.as_ptr(), requests.len());
        let filled = unsafe {
            planner_plan(to, size, from, n, results.as_mut_ptr(), results.len()) as usize
        };
        let number = state[state.len() - ANSWER];
        assert!(number == 0 || number == 7, "{words:x?}: {number}");
        assert_eq!(number == 0, filled / RECORD == n / REQUEST);
        let grants = results[..filled]
            .chunks(RECORD)
            .zip(requests.chunks(REQUEST));
        for (got, asked) in grants {
            assert_eq!(got[..3], asked[..3]);
            assert_eq!((got[3] % asked[3], got[4]), (0, asked[3]), "{words:x?}");
        }
        *answers.entry(number).or_default() += 1;
    }
    assert!(answers.len() == 2, "granted and exhausted: {answers:?}");
}

#[test]
fn the_wrapper() {
    let made = registers([0xFFFF_F000, 0, 4, u32::MAX, 0, 0xFFFF_FF01], 9).unwrap();
    let slots = |index: usize| made.get(index).map(|r| (r.requester, r.slot));
    let there = [0, 2, 5].map(|slot| Some((9, slot as u32)));
    assert_eq!([0, 2, 5].map(slots), there);
    assert_eq!([1, 3, 4, 6, usize::MAX].map(slots), [None; 5]);
    assert!(made.into_iter().eq(made.iter().copied()));
    assert!((&made).into_iter().eq(made.iter()));
    assert_eq!(registers([0; 6], 9).unwrap().iter().count(), 0);
    assert_eq!(registers([0; 6], 0), Err(Refusal::BadInput));
    for (word, refusal) in [
        (2, Refusal::BadType),
        (4, Refusal::BadPair),
        (8, Refusal::BadMask),
        (1, Refusal::PortsTooLarge),
    ] {
        assert_eq!(registers([0, 0, 0, 0, 0, word], 9), Err(refusal));
    }
}
