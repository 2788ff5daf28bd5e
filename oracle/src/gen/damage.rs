// Damages a text: bytes, fields, lines and limits, so that most results break a line rule somewhere.

use super::rng::Rng;
use crate::text::{LINE, TEXT};

/// The text with one to three damages.
pub fn damaged(rng: &mut Rng, mut text: Vec<u8>) -> Vec<u8> {
    for _ in 0..rng.between(1, 3) {
        text = match rng.below(10) {
            0 | 1 => with_byte(rng, text),
            2 => without_byte(rng, text),
            3..=5 => with_field(rng, text),
            6 => with_lines_moved(rng, text),
            7 => cut(rng, text),
            8 => with_line(rng, text),
            _ => padded(rng, text),
        };
    }
    text
}

const BYTES: [u8; 20] = [
    b'\t', b'\n', b'\r', 0, 128, 255, b' ', b'+', b'-', b'.', b'0', b'1', b'9', b'a', b'A', b'P', b'x', b':', b'/', 127,
];

const FIELDS: [&[u8]; 32] = [
    b"",
    b"0",
    b"00",
    b"01",
    b"+1",
    b"-0",
    b"1 ",
    b" 1",
    b"65535",
    b"65536",
    b"4294967295",
    b"4294967296",
    b"18446744073709551615",
    b"18446744073709551616",
    b"99999999999999999999",
    b"184467440737095516150",
    b"auto",
    b"AUTO",
    b"fixed",
    b"mmio",
    b"pio",
    b"host",
    b"input",
    b"msi",
    b"device",
    b"event",
    b"lpi",
    b"pool",
    b"hold",
    b"want",
    b"4",
    b"2",
];

const LINES: [&[u8]; 10] = [
    b"",
    b"\t",
    b"pool",
    b"end\t0",
    b"pool\tauto\tmmio\t0\t4096",
    b"hold\t5\tmmio\t0\t1",
    b"want\t1\t1\thost\tauto",
    b"want\t1\t1\tmsi\t0\t0\t1\t0\t0",
    b"want\t1\t1\tmsi\t0\t0\t1\tauto\tauto\tauto",
    b"want\t1\t1\tmmio\t1\t1\tauto\t",
];

fn with_byte(rng: &mut Rng, mut text: Vec<u8>) -> Vec<u8> {
    let at = rng.below(text.len() as u64 + 1) as usize;
    let byte = rng.pick(&BYTES);
    if rng.chance(50) && at < text.len() {
        text[at] = byte;
    } else {
        text.insert(at, byte);
    }
    text
}

fn without_byte(rng: &mut Rng, mut text: Vec<u8>) -> Vec<u8> {
    if !text.is_empty() {
        text.remove(rng.below(text.len() as u64) as usize);
    }
    text
}

/// Puts another field in a field's place, or before it.
fn with_field(rng: &mut Rng, text: Vec<u8>) -> Vec<u8> {
    let mut lines = lines_of(&text);
    if lines.is_empty() {
        return text;
    }
    let at = rng.below(lines.len() as u64) as usize;
    let mut fields: Vec<Vec<u8>> = lines[at].split(|b| *b == b'\t').map(<[u8]>::to_vec).collect();
    let field = rng.below(fields.len() as u64) as usize;
    let other = rng.pick(&FIELDS).to_vec();
    if rng.chance(85) {
        fields[field] = other;
    } else {
        fields.insert(field, other);
    }
    lines[at] = fields.join(&b'\t');
    text_of(&lines)
}

/// Repeats, drops or swaps lines.
fn with_lines_moved(rng: &mut Rng, text: Vec<u8>) -> Vec<u8> {
    let mut lines = lines_of(&text);
    if lines.is_empty() {
        return text;
    }
    let (a, b) = (rng.below(lines.len() as u64) as usize, rng.below(lines.len() as u64) as usize);
    match rng.below(3) {
        0 => lines.insert(b, lines[a].clone()),
        1 => lines.swap(a, b),
        _ => {
            lines.remove(a);
        }
    }
    text_of(&lines)
}

/// Cuts the text off anywhere, often just before its last newline.
fn cut(rng: &mut Rng, mut text: Vec<u8>) -> Vec<u8> {
    let length = if rng.chance(50) { text.len().saturating_sub(1) } else { rng.below(text.len() as u64 + 1) as usize };
    text.truncate(length);
    text
}

fn with_line(rng: &mut Rng, text: Vec<u8>) -> Vec<u8> {
    let mut lines = lines_of(&text);
    let at = rng.below(lines.len() as u64 + 1) as usize;
    lines.insert(at, rng.pick(&LINES).to_vec());
    text_of(&lines)
}

/// Brings a line or the whole text to its limit, or one over.
fn padded(rng: &mut Rng, mut text: Vec<u8>) -> Vec<u8> {
    let over = rng.below(2) as usize;
    if rng.chance(70) {
        let mut line = b"want\t1\t1\thost\t".to_vec();
        line.resize(LINE + over, b'1');
        line.push(b'\n');
        text.extend(line);
        return text;
    }
    // A pool that is there already is accepted and adds no row.
    let line = b"pool\tauto\tmmio\t0\t4096\n";
    let mut front: Vec<u8> = Vec::new();
    while front.len() + line.len() + text.len() <= TEXT {
        front.extend_from_slice(line);
    }
    front.extend(text);
    // The last few bytes are empty lines: refused at their own number, unless the total has decided before.
    front.resize(TEXT + over, b'\n');
    front
}

fn lines_of(text: &[u8]) -> Vec<Vec<u8>> {
    let mut lines: Vec<Vec<u8>> = text.split(|b| *b == b'\n').map(<[u8]>::to_vec).collect();
    lines.pop();
    lines
}

fn text_of(lines: &[Vec<u8>]) -> Vec<u8> {
    lines.iter().flat_map(|line| line.iter().copied().chain([b'\n'])).collect()
}
