//! A text pinned and a text answered by the exported functions, with guards around all that is lent; and the pinned text by what the program says.

use super::{planner_pin_text, planner_text, Rng};
use std::collections::HashMap;
use thurgoleo::{TEXT, TEXT_OUTPUT};

const GUARD: usize = 16;
/// What a number that is not told keeps.
pub const UNTOLD: u64 = 0xA5A5_5A5A_C3C3_3C3C;

/// The answer where the pinned text has no room.
pub const SHORT: [u64; 5] = [0, 11, 0, 0, 0];

/// The call itself on a buffer of so many bytes and a list of so many numbers: the bytes that it says it wrote, and the list. All bytes but these are as they were,
/// before the buffer, in it and behind it, and so are the numbers around the list.
pub fn pin(text: &[u8], room: usize, told: usize) -> (Vec<u8>, Vec<u64>) {
    let before: Vec<u8> = (0..room + 2 * GUARD).map(|i| (i * 37 + 11) as u8).collect();
    let (mut memory, mut answer) = (before.clone(), vec![UNTOLD; told + 2]);
    let count = unsafe {
        planner_pin_text(
            text.as_ptr(),
            text.len(),
            memory[GUARD..].as_mut_ptr(),
            room,
            answer[1..].as_mut_ptr(),
            told,
        )
    } as usize;
    assert!(count <= room);
    let end = GUARD + count;
    assert!(memory[..GUARD] == before[..GUARD] && memory[end..] == before[end..]);
    assert_eq!((answer[0], answer[told + 1]), (UNTOLD, UNTOLD));
    (memory[GUARD..end].to_vec(), answer[1..=told].to_vec())
}

/// The pinned text of a text that is accepted.
pub fn pinned(text: &str) -> String {
    let (written, answer) = pin(text.as_bytes(), TEXT, 5);
    assert_eq!(answer, [0; 5], "{text}");
    String::from_utf8(written).unwrap()
}

/// What the program answers.
pub fn said(text: &[u8]) -> String {
    let mut out = vec![0; TEXT_OUTPUT];
    let n = unsafe { planner_text(text.as_ptr(), text.len(), out.as_mut_ptr(), out.len()) };
    String::from_utf8(out[..n as usize].to_vec()).unwrap()
}

/// The numbers of the program's `no` line, if it says no.
pub fn no(said: &str) -> Option<Vec<u64>> {
    let numbers = said.strip_prefix("no\t")?.trim_end().split('\t');
    Some(numbers.map(|n| n.parse().unwrap()).collect())
}

/// The pinned text by what the program says: the i-th `got` line has the numbers of the i-th `want`.
pub fn by_hand(text: &str, said: &str) -> String {
    let mut got = said.lines();
    let pinned = |line: &str| {
        if !line.starts_with("want") {
            return format!("{line}\n");
        }
        let fields: Vec<&str> = got.next().unwrap().split('\t').collect();
        let granted = match fields[3] {
            "input" => &fields[5..6],
            "msi" => &fields[6..9],
            _ => &fields[4..5],
        };
        match line.strip_suffix("auto") {
            Some(asked) => format!("{asked}{}\n", granted.join("\t")),
            None => format!("{line}\n"),
        }
    };
    text.lines().map(pinned).collect()
}

/// The pinned text is pinned already, and its wants get what they got: all of them, and any of them in any order.
pub fn comes_again(rng: &mut Rng, text: &str) {
    let (first, kept) = (said(text.as_bytes()), pinned(text));
    assert_eq!(said(kept.as_bytes()), first, "{text}");
    assert_eq!(pinned(&kept), kept);
    let lines = kept.split_inclusive('\n');
    let (mut wants, board): (Vec<&str>, Vec<&str>) = lines.partition(|l| l.starts_with("want"));
    // slots differ, so that each want has its own line
    let got: HashMap<&str, &str> = wants.iter().copied().zip(first.lines()).collect();
    rng.shuffle(&mut wants);
    let some = rng.below(wants.len() + 1);
    wants.truncate([wants.len(), some][rng.below(2)]);
    let text = board.concat() + &wants.concat();
    let again: String = wants.iter().map(|w| format!("{}\n", got[w])).collect();
    assert_eq!(
        said(text.as_bytes()),
        format!("{again}end\t{}\n", wants.len())
    );
}
