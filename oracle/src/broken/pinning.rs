// Broken texts written back.

use super::{face, Broken};
use crate::compare::face::Answers;
use crate::compare::Way;
use crate::pinned::{in_room, is_automatic, judged, Pinned, TOO_LONG};
use crate::text::TEXT;

pub const ALL: [Broken; 13] = [
    Broken { name: "drops a repeated pool line of a pinned text", way: Way::Text, face: face::<DropsRepeated> },
    Broken { name: "writes the event where the LPI belongs", way: Way::Text, face: face::<EventForLpi> },
    Broken { name: "writes the holds behind the pools", way: Way::Text, face: face::<Sorted> },
    Broken { name: "leaves the last automatic want as it was", way: Way::Text, face: face::<LastLeft> },
    Broken { name: "loses a zero that was granted", way: Way::Text, face: face::<LostZero> },
    Broken { name: "a pinned text is Short one byte too late", way: Way::Text, face: face::<ShortLate> },
    Broken { name: "a pinned text is Short one byte too early", way: Way::Text, face: face::<ShortEarly> },
    Broken { name: "measures the text that was read", way: Way::Text, face: face::<MeasuresRead> },
    Broken { name: "pins a text that is longer than can be read", way: Way::Text, face: face::<NoLimit> },
    Broken { name: "writes a byte before Short is known", way: Way::Text, face: face::<ByteBeforeShort> },
    Broken { name: "writes a byte of a refused text", way: Way::Text, face: face::<ByteOfRefused> },
    Broken { name: "writes a zero behind the pinned text", way: Way::Text, face: face::<ZeroBehind> },
    Broken { name: "Short beats the text's own refusal", way: Way::Text, face: face::<ShortFirst> },
];

fn lines(text: &[u8]) -> Vec<&[u8]> {
    text.split_inclusive(|byte| *byte == b'\n').collect()
}

/// The judge's pinned text with something done to it, and put into the buffer as it should be.
fn changed(text: &[u8], room: usize, change: impl Fn(Vec<u8>) -> Vec<u8>) -> Pinned {
    in_room(&judged(text).map(change), room)
}

#[derive(Default)]
struct DropsRepeated;

impl Answers for DropsRepeated {
    fn pin(&mut self, text: &[u8], room: usize) -> Pinned {
        changed(text, room, |pinned| {
            let lines = lines(&pinned);
            let again = |at: &usize| lines[*at].starts_with(b"pool") && lines[..*at].contains(&lines[*at]);
            (0..lines.len()).filter(|at| !again(at)).flat_map(|at| lines[at].to_vec()).collect()
        })
    }
}

#[derive(Default)]
struct EventForLpi;

impl Answers for EventForLpi {
    fn pin(&mut self, text: &[u8], room: usize) -> Pinned {
        changed(text, room, |pinned| {
            let lpi = |(read, put): (&[u8], &[u8])| {
                let mut fields: Vec<&[u8]> = put.trim_ascii_end().split(|byte| *byte == b'\t').collect();
                match fields.as_mut_slice() {
                    [.., b"msi", _, _, _, _, event, lpi] if is_automatic(read) => *lpi = event,
                    _ => {}
                }
                [&fields.join(&b'\t')[..], b"\n"].concat()
            };
            lines(text).into_iter().zip(lines(&pinned)).flat_map(lpi).collect()
        })
    }
}

#[derive(Default)]
struct Sorted;

impl Answers for Sorted {
    fn pin(&mut self, text: &[u8], room: usize) -> Pinned {
        changed(text, room, |pinned| {
            let mut lines = lines(&pinned);
            lines.sort_by_key(|line| [&b"pool"[..], b"hold", b"want"].iter().position(|word| line.starts_with(word)));
            lines.concat()
        })
    }
}

#[derive(Default)]
struct LastLeft;

impl Answers for LastLeft {
    fn pin(&mut self, text: &[u8], room: usize) -> Pinned {
        changed(text, room, |pinned| {
            let (read, mut put) = (lines(text), lines(&pinned));
            if let Some(last) = read.iter().rposition(|line| is_automatic(line)) {
                put[last] = read[last];
            }
            put.concat()
        })
    }
}

#[derive(Default)]
struct LostZero;

impl Answers for LostZero {
    fn pin(&mut self, text: &[u8], room: usize) -> Pinned {
        changed(text, room, |pinned| {
            let lost = |(read, put): (&[u8], &[u8])| match put.strip_suffix(b"\t0\n") {
                Some(front) if is_automatic(read) => [front, b"\t\n"].concat(),
                _ => put.to_vec(),
            };
            lines(text).into_iter().zip(lines(&pinned)).flat_map(lost).collect()
        })
    }
}

#[derive(Default)]
struct ShortLate;

impl Answers for ShortLate {
    fn pin(&mut self, text: &[u8], room: usize) -> Pinned {
        match judged(text) {
            Ok(pinned) if pinned.len() == room + 1 => in_room(&Ok(pinned[..room].to_vec()), room),
            back => in_room(&back, room),
        }
    }
}

#[derive(Default)]
struct ShortEarly;

impl Answers for ShortEarly {
    fn pin(&mut self, text: &[u8], room: usize) -> Pinned {
        match judged(text) {
            Ok(pinned) if pinned.len() == room => in_room(&Err(TOO_LONG), room),
            back => in_room(&back, room),
        }
    }
}

#[derive(Default)]
struct MeasuresRead;

impl Answers for MeasuresRead {
    fn pin(&mut self, text: &[u8], room: usize) -> Pinned {
        match judged(text) {
            Ok(_) if text.len() > room => in_room(&Err(TOO_LONG), room),
            back => in_room(&back, room),
        }
    }
}

#[derive(Default)]
struct NoLimit;

impl Answers for NoLimit {
    fn pin(&mut self, text: &[u8], room: usize) -> Pinned {
        match judged(text) {
            Ok(pinned) if TEXT < pinned.len() && pinned.len() <= room => {
                let length = pinned.len();
                let mut lent = in_room(&Err(TOO_LONG), room).lent;
                lent[..length].copy_from_slice(&pinned);
                Pinned { answer: [0; 5], length, lent }
            }
            back => in_room(&back, room),
        }
    }
}

/// The buffer with its first byte written, where there is one.
fn first_written(mut pinned: Pinned, text: &[u8]) -> Pinned {
    if let (Some(first), Some(byte)) = (pinned.lent.first_mut(), text.first()) {
        *first = *byte;
    }
    pinned
}

#[derive(Default)]
struct ByteBeforeShort;

impl Answers for ByteBeforeShort {
    fn pin(&mut self, text: &[u8], room: usize) -> Pinned {
        let pinned = in_room(&judged(text), room);
        if pinned.answer == TOO_LONG {
            return first_written(pinned, text);
        }
        pinned
    }
}

#[derive(Default)]
struct ByteOfRefused;

impl Answers for ByteOfRefused {
    fn pin(&mut self, text: &[u8], room: usize) -> Pinned {
        let back = judged(text);
        let pinned = in_room(&back, room);
        if back.is_err() {
            return first_written(pinned, text);
        }
        pinned
    }
}

#[derive(Default)]
struct ZeroBehind;

impl Answers for ZeroBehind {
    fn pin(&mut self, text: &[u8], room: usize) -> Pinned {
        let mut pinned = in_room(&judged(text), room);
        if let (true, Some(byte)) = (pinned.answer == [0; 5], pinned.lent.get_mut(pinned.length)) {
            *byte = 0;
        }
        pinned
    }
}

#[derive(Default)]
struct ShortFirst;

impl Answers for ShortFirst {
    fn pin(&mut self, text: &[u8], room: usize) -> Pinned {
        match judged(text) {
            Err(_) if text.len() > room => in_room(&Err(TOO_LONG), room),
            back => in_room(&back, room),
        }
    }
}
