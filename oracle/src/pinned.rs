// The pinned text on the judge's side: the text's own lines, with the original's numbers where a want said `auto`.

use crate::calls::{no, rows_of_add, Kind, Place, Record, Row};
use crate::text::{read_line, run_seen, Line, Ran, TEXT};

/// What every lent byte holds beforehand, so that one written without need is seen.
pub const BYTE: u8 = 0xA5;

/// What writing a text back into a lent buffer gives.
#[derive(Clone, PartialEq, Eq)]
pub struct Pinned {
    /// Line, number, namespace, owner, detail; zeros where the text was written.
    pub answer: [u64; 5],
    /// How many bytes were written.
    pub length: usize,
    /// The whole of the buffer, as it is afterwards.
    pub lent: Vec<u8>,
}

/// What it comes to before a buffer is looked at: the pinned text, or the text's own refusal.
pub type Back = Result<Vec<u8>, [u64; 5]>;

/// Longer than a buffer, or than a text may be: no line is to blame.
pub const TOO_LONG: [u64; 5] = [0, no::SHORT as u64, 0, 0, 0];

pub fn back(text: &[u8], ran: &Ran) -> Back {
    match ran {
        Ran::Granted(records) => Ok(pinned(text, records)),
        Ran::Refused { line, refusal } => {
            let [number, namespace, owner, detail] =
                [refusal.number, refusal.namespace, refusal.owner, refusal.detail].map(u64::from);
            Err([*line as u64, number, namespace, owner, detail])
        }
    }
}

/// The same put into a buffer of so many bytes.
pub fn in_room(back: &Back, room: usize) -> Pinned {
    let mut lent = vec![BYTE; room];
    match back {
        Ok(bytes) if bytes.len() <= room.min(TEXT) => {
            lent[..bytes.len()].copy_from_slice(bytes);
            Pinned { answer: [0; 5], length: bytes.len(), lent }
        }
        Ok(_) => Pinned { answer: TOO_LONG, length: 0, lent },
        Err(refusal) => Pinned { answer: *refusal, length: 0, lent },
    }
}

/// The judge's pinned text, or its refusal; a panic of the original is an answer that no call gives.
pub fn judged(text: &[u8]) -> Back {
    run_seen(text, &mut |_, _| {}).map_or(Err([u64::MAX; 5]), |ran| back(text, &ran))
}

pub fn is_want(line: &[u8]) -> bool {
    line.starts_with(b"want\t")
}

pub fn is_automatic(line: &[u8]) -> bool {
    is_want(line) && line.ends_with(b"\tauto\n")
}

/// An accepted text with what its wants were granted: nothing but the last field of an automatic one is another.
fn pinned(text: &[u8], granted: &[Record]) -> Vec<u8> {
    let mut granted = granted.iter();
    let mut written = Vec::new();
    for line in text.split_inclusive(|byte| *byte == b'\n') {
        let record = if is_want(line) { granted.next() } else { None };
        match record {
            Some(record) if is_automatic(line) => {
                written.extend_from_slice(&line[..line.len() - b"\tauto\n".len()]);
                chosen(record).iter().for_each(|number| written.extend(format!("\t{number}").bytes()));
                written.push(b'\n');
            }
            _ => written.extend_from_slice(line),
        }
    }
    written
}

/// The numbers of a record that were left to the planner.
fn chosen(record: &Record) -> &[u64] {
    match record[0] {
        1 | 2 | 4 => &record[3..4],
        3 => &record[4..5],
        _ => &record[5..8],
    }
}

/// Whether each automatic pool range of a text lies inside a fixed one: what it grants can then be asked for.
pub fn held_by_fixed(text: &[u8]) -> bool {
    let rows: Vec<(Place, Kind, Row)> = text.split(|byte| *byte == b'\n').flat_map(rows_of_line).collect();
    let inside = |kind: Kind, row: &Row| {
        rows.iter().any(|(place, of, wide)| {
            let same = *place == Place::Fixed && *of == kind && wide.domain == row.domain;
            same && wide.start <= row.start && row.end <= wide.end
        })
    };
    rows.iter().all(|(place, kind, row)| *place != Place::Auto || inside(*kind, row))
}

fn rows_of_line(line: &[u8]) -> Vec<(Place, Kind, Row)> {
    match read_line(line) {
        Some(Line::Add(add)) => rows_of_add(&add),
        _ => Vec::new(),
    }
}
