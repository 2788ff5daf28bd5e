//! A text pinned: the numbers that the program says were granted stand in place of each `auto` and nowhere else; a refusal is the program's, with its line, or 11
//! where the pinned text has no room; nothing is written but an accepted text, and nothing behind it.

mod common;

use common::texts::{by_hand, comes_again, no, pin, pinned, said, SHORT, UNTOLD};
use common::{small_stack, Rng};
use thurgoleo::{pin_text, Refusal, TextRefusal, MOST, TEXT};

const STAND: &str = include_str!("../../../examples/stand.plan");
const STAND_PINNED: &str = include_str!("../../../examples/stand-pinned.plan");

/// Lines of a pool that no automatic want looks into, so many bytes of them: each has 20 but the last.
fn filler(bytes: usize) -> String {
    let line = |n: usize| format!("pool\tfixed\thost\t0\t{}\n", "1".repeat(n - 19));
    let more = bytes / 20 - 1;
    line(20).repeat(more) + &line(bytes - 20 * more)
}

/// A text of so many bytes whose wants are of the longest numbers that there are.
fn long_text(bytes: usize, wants: usize) -> String {
    let head = "pool\tauto\tmmio\t18446744073709000000\t18446744073709551615\n\
        pool\tauto\tmsi\t0\t0\t4294960000\t4294967295\t4294960000\t4294967295\t4294960000\t4294967295\n";
    let kinds = [
        "want\t1\t0\tmmio\t1\t1\tauto\n",
        "want\t1\t0\tmsi\t0\t0\t1\tauto\n",
    ];
    let wants: String = (0..wants).map(|i| kinds[i % 2]).collect();
    let text = format!("{head}{}{wants}", filler(bytes - head.len() - wants.len()));
    assert_eq!(text.len(), bytes);
    text
}

#[test]
fn the_stand() {
    let kept = pinned(STAND);
    let wants = |text: &'static str| text.lines().partition(|l| l.starts_with("want"));
    let (mut asked, board): (Vec<&str>, Vec<&str>) = wants(STAND_PINNED);
    asked.reverse();
    let lines: Vec<&str> = board.into_iter().chain(asked).collect();
    assert_eq!(kept.lines().collect::<Vec<_>>(), lines);
    assert_eq!(said(kept.as_bytes()), said(STAND.as_bytes()));
    assert_eq!(pinned(&kept), kept);
}

#[test]
fn every_length_of_the_buffer() {
    // longer than it was read, as it was, shorter, without wants, with lines twice
    let host = "pool\tauto\thost\t5\t900\nhold\t1\thost\t5\t6\nhold\t1\thost\t7\t8\n";
    let texts = [
        STAND.to_string(),
        STAND_PINNED.to_string(),
        format!("{host}want\t1\t0\thost\tauto\nwant\t1\t0\thost\tauto\n"),
        host.to_string(),
        "pool\tauto\tpio\t0\t9\n".repeat(7) + "want\t1\t2\tpio\t2\t4\tauto\n",
        long_text(600, 4),
    ];
    for text in texts {
        let whole = by_hand(&text, &said(text.as_bytes()));
        for room in 0..=whole.len() + 3 {
            let (written, answer) = pin(text.as_bytes(), room, 5);
            if room < whole.len() {
                assert_eq!((written.len(), &answer[..]), (0, &SHORT[..]), "{room}");
            } else {
                assert_eq!((&written[..], &answer[..]), (whole.as_bytes(), &[0; 5][..]));
            }
        }
    }
}

#[test]
fn nothing_needs_no_room() {
    for room in 0..4 {
        assert_eq!(pin(b"", room, 5), (vec![], vec![0; 5]));
    }
    assert_eq!(pin_text(b"", &mut []), Ok(&b""[..]));
}

#[test]
fn the_longest_text() {
    small_stack(|| {
        // the wants grow a text by 16 or 28 bytes each, in turn; where it fits to the byte, where it is a byte too long, and far too long
        let grown = MOST / 2 * (16 + 28);
        for (bytes, fits) in [
            (TEXT - grown, true),
            (TEXT - grown + 1, false),
            (TEXT - 9, false),
            (TEXT, false),
        ] {
            let text = long_text(bytes, MOST);
            let whole = by_hand(&text, &said(text.as_bytes()));
            assert_eq!(whole.len(), bytes + grown);
            for room in [TEXT, TEXT + 1, whole.len(), whole.len() + 9] {
                let (written, answer) = pin(text.as_bytes(), room, 5);
                if fits {
                    assert!(written == whole.as_bytes() && answer == [0; 5]);
                } else {
                    assert_eq!((written.len(), &answer[..]), (0, &SHORT[..]), "{room}");
                }
            }
            // a byte less than the longest buffer that it may need
            assert_eq!(pin(text.as_bytes(), TEXT - 1, 5).1, SHORT);
        }
        // no wants: the longest text there is, written as it was read; a byte more is too long to be read, whatever the buffer
        let text = filler(TEXT);
        assert!(pinned(&text) == text);
        assert_eq!(pin(text.as_bytes(), TEXT - 1, 5).1, SHORT);
        for room in [0, TEXT, TEXT + 9] {
            let (written, answer) = pin(filler(TEXT + 1).as_bytes(), room, 5);
            assert_eq!((written.len(), answer), (0, vec![0, 10, 0, 0, 0]));
        }
        // a number of one digit: the longest text shrinks by three bytes, and needs no more room than is left
        let asked = "pool\tauto\thost\t3\t9\nwant\t9\t0\thost\tauto\n";
        let text = filler(TEXT - asked.len()) + asked;
        assert_eq!(pinned(&text).len(), TEXT - 3);
        assert_eq!(pin(text.as_bytes(), TEXT - 3, 5).1, [0; 5]);
        assert_eq!(pin(text.as_bytes(), TEXT - 4, 5).1, SHORT);
    });
}

/// So many wants of all kinds, every third for a number of its own; the pools of both uses alike.
fn mixed_text(wants: usize) -> String {
    let pools = [
        "mmio\t4096\t16777216",
        "pio\t256\t61440",
        "input\t3\t16\t9999",
        "host\t32\t9999",
        "msi\t1\t2\t0\t9999\t0\t64\t8192\t99999",
    ];
    let board: String = pools
        .map(|p| format!("pool\tauto\t{p}\npool\tfixed\t{p}\n"))
        .concat();
    let want = |i: usize| {
        let (asked, number) = match i % 5 {
            0 => ("mmio\t4096\t4096", format!("{}", 4096 * (2048 + i))),
            1 => ("pio\t8\t8", format!("{}", 8 * (4096 + i))),
            2 => ("input\t3\t1\t0", format!("{}", 5000 + i)),
            3 => ("host", format!("{}", 5000 + i)),
            _ => (
                "msi\t1\t2\t4",
                format!("{}\t9\t{}", 5000 + i, 50000 + 4 * i),
            ),
        };
        let choice = if i % 3 == 2 { number } else { "auto".into() };
        format!("want\t{}\t{i}\t{asked}\t{choice}\n", 1 + i % 9)
    };
    board
        + "hold\t77\thost\t33\t35\nhold\t77\tinput\t3\t16\t1\t0\n"
        + &(0..wants).map(want).collect::<String>()
}

/// All wants of the longest plan are granted, and again in any choice and order once they are pinned; one more is refused at its own line.
#[test]
fn the_most_wants() {
    small_stack(|| {
        let text = mixed_text(MOST);
        assert!(said(text.as_bytes()).ends_with(&format!("\nend\t{MOST}\n")));
        let mut rng = Rng(14);
        (0..50).for_each(|_| comes_again(&mut rng, &text));
        let over = mixed_text(MOST + 1);
        let short = vec![12 + MOST as u64 + 1, 11, 0, 0, 0];
        assert_eq!(no(&said(over.as_bytes())).unwrap(), short);
        assert_eq!(pin(over.as_bytes(), TEXT, 5), (vec![], short));
    });
}

#[test]
fn refusals_with_their_lines() {
    let host = "pool\tauto\thost\t5\t6\npool\tfixed\thost\t5\t9\nhold\t7\thost\t8\t9\n";
    let want = "want\t1\t0\thost\tauto\n";
    let domain = "pool\tauto\tmsi\t0\t0\t0\t1\t0\t1";
    let many = "pool\tauto\thost\t0\t999\n".to_string() + &want.repeat(MOST + 1);
    for (text, answer) in [
        ("\n".to_string(), [1, 10, 0, 0, 0]),
        ("want".to_string(), [1, 10, 0, 0, 0]),
        (format!("{host}want\t1\t0\thost\tauto"), [4, 10, 0, 0, 0]),
        (format!("{host}want\t1\t0\thost\t05\n"), [4, 10, 0, 0, 0]),
        (format!("{host}want\t1\t0\thost\tAuto\n"), [4, 10, 0, 0, 0]),
        (format!("{host}{want}\n{want}"), [5, 10, 0, 0, 0]),
        (format!("{host}{want}{host}"), [5, 10, 0, 0, 0]),
        (format!("{host}{want}\r\n"), [5, 10, 0, 0, 0]),
        (format!("{host}want\t0\t0\thost\tauto\n"), [4, 2, 0, 0, 0]),
        (format!("{host}hold\t0\thost\t1\t2\n"), [4, 3, 0, 0, 0]),
        (format!("{host}hold\t1\thost\t2\t2\n"), [4, 4, 0, 0, 0]),
        (format!("{host}hold\t1\thost\t8\t9\n"), [4, 5, 0, 7, 0]),
        (format!("{host}want\t1\t0\thost\t4\n"), [4, 6, 4, 0, 0]),
        (format!("{host}{want}{want}"), [5, 7, 4, 0, 0]),
        (format!("{host}want\t1\t0\thost\t8\n"), [4, 8, 4, 7, 4]),
        (format!("{host}{domain}\t8191\t8193\n"), [4, 12, 0, 0, 0]),
        (format!("{host}{domain}\t5\t5\n"), [4, 4, 0, 0, 0]),
        (format!("{host}{domain}\t0\t4294967296\n"), [4, 10, 0, 0, 0]),
        (
            format!("{host}{want}{domain}\t8191\t8193\n"),
            [5, 10, 0, 0, 0],
        ),
        (format!("{host}hold\t1\tlpi\t0\t0\t1\n"), [4, 12, 0, 0, 0]),
        (many, [MOST as u64 + 2, 11, 0, 0, 0]),
    ] {
        assert_eq!(no(&said(text.as_bytes())).unwrap(), answer, "{text}");
        // the buffer plays no part, not even one that would be too short
        for room in [0, 1, text.len(), TEXT, TEXT + 1] {
            let refused = (vec![], answer.to_vec());
            assert_eq!(pin(text.as_bytes(), room, 5), refused, "{text}");
        }
        let refused = pin_text(text.as_bytes(), &mut []).unwrap_err();
        let number = u64::from(refused.refusal.number());
        assert_eq!((refused.line as u64, number), (answer[0], answer[1]));
    }
}

#[test]
fn short_lists_are_left_alone() {
    for (text, room, answer) in [
        (STAND, TEXT, [0; 5]),
        (STAND, 9, SHORT),
        ("pool\n", 9, [1, 10, 0, 0, 0]),
    ] {
        for told in 0..9 {
            let (written, numbers) = pin(text.as_bytes(), room, told);
            assert_eq!(written.is_empty(), answer != [0; 5]);
            if told < 5 {
                assert!(numbers.iter().all(|n| *n == UNTOLD));
            } else {
                assert_eq!(numbers[..5], answer);
                assert!(numbers[5..].iter().all(|n| *n == UNTOLD));
            }
        }
    }
}

/// An automatic range that lies in no fixed one is pinned all the same; run again, its want is not allowed.
#[test]
fn pinned_where_nothing_is_fixed() {
    let head = "pool\tauto\thost\t5\t6\n";
    let kept = pinned(&format!("{head}want\t1\t0\thost\tauto\n"));
    assert_eq!(kept, format!("{head}want\t1\t0\thost\t5\n"));
    assert_eq!(said(kept.as_bytes()), "no\t2\t6\t4\t0\t0\n");
    assert_eq!(pin(kept.as_bytes(), TEXT, 5).1, [2, 6, 4, 0, 0]);
}

#[test]
fn the_wrapper() {
    let mut out = [7; TEXT];
    let kept = pinned(STAND);
    let n = kept.len();
    assert_eq!(
        pin_text(STAND.as_bytes(), &mut out[..n]),
        Ok(kept.as_bytes())
    );
    assert!(out[n..].iter().all(|b| *b == 7));
    let refused = |line, refusal| Err(TextRefusal { line, refusal });
    let mut out = [7; TEXT];
    for (text, room, answer) in [
        (STAND, n - 1, refused(0, Refusal::Short)),
        ("pool\n", TEXT, refused(1, Refusal::BadLine)),
        (
            "want\t1\t0\thost\tauto\n",
            TEXT,
            refused(1, Refusal::Exhausted { namespace: 4 }),
        ),
        (
            "hold\t3\tpio\t1\t2\nhold\t4\tpio\t1\t2\n",
            TEXT,
            refused(2, Refusal::Reserved { owner: 3 }),
        ),
    ] {
        assert_eq!(pin_text(text.as_bytes(), &mut out[..room]), answer);
        assert!(out.iter().all(|b| *b == 7));
    }
}
