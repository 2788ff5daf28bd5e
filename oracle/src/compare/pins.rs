// A text written back by both sides, and the pinned text run by the original once more.

use std::collections::BTreeMap;

use super::face::Face;
use crate::calls::no;
use crate::pinned::{back, held_by_fixed, in_room, is_automatic, Back, Pinned};
use crate::text::{run_seen, Ran, TEXT};

/// How often each thing was seen.
pub type Counts = BTreeMap<&'static str, u64>;

/// In what our side's pinned text and the judge's differ, in words, given what the text came to.
pub fn difference(ours: &mut dyn Face, text: &[u8], ran: &Ran, counts: &mut Counts) -> Option<String> {
    let back = back(text, ran);
    *counts.entry(what(text, &back)).or_default() += 1;
    for room in rooms(text, &back) {
        let (ours, theirs) = (ours.pin(text, room), in_room(&back, room));
        if back.as_ref().is_ok_and(|pinned| pinned.len() == room + 1) {
            *counts.entry("11 where the buffer is one byte too short").or_default() += 1;
        }
        if ours != theirs {
            return Some(format!(
                "  pinned into {room} bytes\n  ours: {}  the judge: {}",
                shown(&ours),
                shown(&theirs)
            ));
        }
    }
    match back {
        Ok(pinned) if pinned.len() <= TEXT && pinned != text => again(ours, text, ran, pinned, counts),
        _ => None,
    }
}

fn what(text: &[u8], back: &Back) -> &'static str {
    match back {
        Err(_) => "refused as the text is",
        Ok(pinned) if pinned.len() > TEXT => "too long once it is pinned",
        Ok(pinned) if pinned == text => "written as it is, no want automatic",
        Ok(_) => "written with the original's numbers",
    }
}

/// The lengths of the buffers lent: none and as long as the text, for one that is refused; else just what is needed, a byte less, and some more.
fn rooms(text: &[u8], back: &Back) -> Vec<usize> {
    match back {
        Err(_) => vec![0, text.len()],
        Ok(pinned) if pinned.is_empty() => vec![0, 7],
        Ok(pinned) => vec![pinned.len(), pinned.len() - 1, pinned.len() + 7],
    }
}

/// The pinned text read by the original: it grants the same, and then our side writes the same bytes once more; or it refuses with 6 what no fixed pool holds.
fn again(ours: &mut dyn Face, text: &[u8], ran: &Ran, pinned: Vec<u8>, counts: &mut Counts) -> Option<String> {
    let second = match run_seen(&pinned, &mut |_, _| {}) {
        Ok(second) => second,
        Err(stopped) => return Some(format!("the original panics at line {} of the pinned text", stopped.line)),
    };
    if second == *ran {
        *counts.entry("run again by the original: granted the same").or_default() += 1;
        let (room, ours) = (pinned.len(), ours.pin(&pinned, pinned.len()));
        return (ours != in_room(&Ok(pinned), room))
            .then(|| format!("  the pinned text pinned again: {}", shown(&ours)));
    }
    if refused_rightly(text, &second) && !held_by_fixed(text) {
        *counts.entry("run again by the original: 6 where no fixed pool holds an automatic one").or_default() += 1;
        return None;
    }
    Some(format!("  the pinned text run again by the original:\n{}", String::from_utf8_lossy(&second.output())))
}

/// 6, at a want that was automatic.
fn refused_rightly(text: &[u8], ran: &Ran) -> bool {
    let automatic = |line: &usize| text.split_inclusive(|byte| *byte == b'\n').nth(line - 1).is_some_and(is_automatic);
    matches!(ran, Ran::Refused { line, refusal } if refusal.number == no::FIXED_NOT_ALLOWED && automatic(line))
}

fn shown(pinned: &Pinned) -> String {
    let Pinned { answer, length, lent } = pinned;
    format!("answer {answer:?}, {length} bytes written\n{}\n", String::from_utf8_lossy(lent))
}
