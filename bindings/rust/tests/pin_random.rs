//! Random texts pinned: as the program says, whole and damaged, into buffers of any length; and any of the pinned wants, in any order, get what they got.
//! RANDOM_TEXTS says how many (2,000 if not set).

mod common;

use common::texts::{by_hand, comes_again, no, pin, said, SHORT};
use common::{small_stack, Rng};
use thurgoleo::{FIRST_LPI, TEXT};

impl Rng {
    /// A number of any length, up to a limit.
    fn number(&mut self, limit: u64) -> u64 {
        let bits = 1 + self.below(64);
        (self.next() >> (64 - bits)) % limit
    }

    /// A range, often short, below a limit.
    fn range(&mut self, limit: u64) -> (u64, u64) {
        let most = [4, 40, 4000][self.below(3)].min(limit - 1);
        let long = 1 + self.next() % most;
        let start = self.number(limit - long);
        (start, start + long)
    }
}

const WIDE: u64 = u64::MAX;
const NARROW: u64 = u32::MAX as u64;

/// Of each kind the fields that come before a range, and the limit of its numbers.
const KINDS: [(&str, u64); 4] = [
    ("mmio", WIDE),
    ("pio", u16::MAX as u64),
    ("input\t3", WIDE),
    ("host", WIDE),
];

/// A random text: pool ranges of all kinds, each automatic one inside a fixed one, and reservations, mixed; then wants, most of them automatic.
fn random_text(rng: &mut Rng) -> String {
    let mut board = Vec::new();
    let mut ranges: Vec<(&str, (u64, u64))> = Vec::new();
    for (kind, limit) in KINDS {
        for _ in 0..1 + rng.below(2) {
            let (start, end) = rng.range(limit);
            let (less, more) = (rng.below(3) as u64, rng.below(3) as u64);
            let (from, to) = (start.saturating_sub(less), (end + more.min(limit - end)));
            board.push(format!("pool\tauto\t{kind}\t{start}\t{end}\n"));
            board.push(format!("pool\tfixed\t{kind}\t{from}\t{to}\n"));
            ranges.push((kind, (start, end)));
        }
    }
    // of LPIs few may lie too low
    let least = if rng.below(16) == 0 {
        0
    } else {
        FIRST_LPI.into()
    };
    let msi = [0, 0, least]
        .map(|least| {
            let (start, end) = rng.range(NARROW - least);
            (least + start, least + end)
        })
        .map(|(start, end)| format!("\t{start}\t{end}"))
        .concat();
    for used in ["auto", "fixed"] {
        board.push(format!("pool\t{used}\tmsi\t2\t1{msi}\n"));
    }
    for _ in 0..rng.below(5) {
        let (kind, (start, end)) = ranges[rng.below(ranges.len())];
        let (first, owner) = (start + rng.next() % (end - start), 1 + rng.below(9));
        board.push(match kind {
            "input\t3" => format!("hold\t{owner}\tinput\t3\t{first}\t1\t1\n"),
            _ => format!("hold\t{owner}\t{kind}\t{first}\t{}\n", first + 1),
        });
    }
    // some lines twice, and all in any order
    (0..rng.below(3)).for_each(|_| board.push(board[rng.below(board.len())].clone()));
    rng.shuffle(&mut board);
    let mut text = board.concat();
    for slot in 0..rng.below(14) {
        let (kind, (start, end)) = ranges[rng.below(ranges.len())];
        let fixed = rng.below(12) == 0;
        let choice = match fixed {
            true => (start + rng.next() % (end - start)).to_string(),
            false => "auto".to_string(),
        };
        let size = 1 + rng.below(3);
        let want = match (rng.below(4), kind) {
            (0, _) => format!("msi\t2\t1\t{size}\tauto"),
            (_, "host") => format!("host\t{choice}"),
            (_, "input\t3") => format!("{kind}\t1\t1\t{choice}"),
            _ => format!("{kind}\t{size}\t{}\t{choice}", 1 << rng.below(3)),
        };
        text += &format!("want\t{}\t{slot}\t{want}\n", 1 + rng.below(5));
    }
    text
}

/// One or a few bytes changed, taken out or put in.
fn damaged(rng: &mut Rng, text: &str) -> Vec<u8> {
    let mut bytes = text.as_bytes().to_vec();
    for _ in 0..1 + rng.below(3) {
        let at = rng.below(bytes.len());
        let byte = b"\t\n0123456789autowhpl "[rng.below(21)];
        match rng.below(4) {
            0 => {
                bytes.remove(at);
            }
            1 => bytes.insert(at, byte),
            _ => bytes[at] = byte,
        }
    }
    bytes
}

/// Pinned or refused as the program says, into a buffer of any length.
fn agrees(rng: &mut Rng, text: &[u8]) -> bool {
    let says = said(text);
    if let Some(numbers) = no(&says) {
        let room = [0, rng.below(text.len() + 9), TEXT][rng.below(3)];
        assert_eq!(pin(text, room, 5), (vec![], numbers));
        return false;
    }
    let whole = by_hand(std::str::from_utf8(text).unwrap(), &says);
    let n = whole.len();
    for room in [n, n + rng.below(9), TEXT] {
        assert_eq!(pin(text, room, 5), (whole.clone().into_bytes(), vec![0; 5]));
    }
    assert!(n == 0 || pin(text, rng.below(n), 5).1 == SHORT);
    true
}

#[test]
fn random_texts() {
    let count = std::env::var("RANDOM_TEXTS")
        .ok()
        .and_then(|n| n.parse().ok())
        .unwrap_or(2_000);
    small_stack(move || {
        let mut rng = Rng(20261116);
        let (mut accepted, mut survived) = (0, 0);
        for _ in 0..count {
            let text = random_text(&mut rng);
            if agrees(&mut rng, text.as_bytes()) {
                accepted += 1;
                comes_again(&mut rng, &text);
            }
            let bytes = damaged(&mut rng, &text);
            survived += usize::from(agrees(&mut rng, &bytes));
        }
        println!("{count} texts: {accepted} pinned; each damaged: {survived} pinned");
        assert!(count / 4 < accepted && accepted < count);
        assert!(0 < survived && survived < count);
    });
}
