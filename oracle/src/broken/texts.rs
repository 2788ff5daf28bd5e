// Broken outputs of the text.

use super::{face, Broken};
use crate::added::bad_lpi;
use crate::compare::face::{output, Answers};
use crate::compare::Way;
use crate::text::{read_line, Line, TEXT};

pub const ALL: [Broken; 10] = [
    Broken { name: "loses a last zero of a got line", way: Way::Text, face: face::<LostZero> },
    Broken { name: "a bad line beats a refusal before it", way: Way::Text, face: face::<BadLineFirst> },
    Broken { name: "takes a last line without its newline", way: Way::Text, face: face::<OpenLine> },
    Broken { name: "takes leading zeros", way: Way::Text, face: face::<LeadingZeros> },
    Broken { name: "counts lines from 0", way: Way::Text, face: face::<LinesFromZero> },
    Broken { name: "cuts a text that is too long", way: Way::Text, face: face::<CutsText> },
    Broken { name: "takes a pool behind a want", way: Way::Text, face: face::<LatePool> },
    Broken { name: "one want too many is Full", way: Way::Text, face: face::<FullWant> },
    Broken { name: "a low LPI is a bad line", way: Way::Text, face: face::<LowBadLine> },
    Broken { name: "a low LPI behind a want is no bad line", way: Way::Text, face: face::<LowBehindWant> },
];

fn lines(text: &[u8]) -> Vec<&[u8]> {
    text.split_inclusive(|byte| *byte == b'\n').collect()
}

#[derive(Default)]
struct LostZero;

impl Answers for LostZero {
    fn text(&mut self, text: &[u8]) -> Vec<u8> {
        let output = output(text);
        let short = |line: &&[u8]| line.starts_with(b"got") && line.ends_with(b"\t0\n");
        let shorter = |line: &[u8]| [&line[..line.len() - 3], b"\n"].concat();
        lines(&output).iter().flat_map(|line| if short(line) { shorter(line) } else { line.to_vec() }).collect()
    }
}

#[derive(Default)]
struct BadLineFirst;

impl Answers for BadLineFirst {
    fn text(&mut self, text: &[u8]) -> Vec<u8> {
        let bad =
            lines(text).iter().position(|line| line.strip_suffix(b"\n").is_none_or(|line| read_line(line).is_none()));
        match bad {
            Some(at) if text.len() <= TEXT => format!("no\t{}\t10\t0\t0\t0\n", at + 1).into(),
            _ => output(text),
        }
    }
}

#[derive(Default)]
struct OpenLine;

impl Answers for OpenLine {
    fn text(&mut self, text: &[u8]) -> Vec<u8> {
        let mut text = text.to_vec();
        if text.len() < TEXT && text.last().is_some_and(|byte| *byte != b'\n') {
            text.push(b'\n');
        }
        output(&text)
    }
}

#[derive(Default)]
struct LeadingZeros;

impl Answers for LeadingZeros {
    fn text(&mut self, text: &[u8]) -> Vec<u8> {
        let mut kept = Vec::new();
        for (at, byte) in text.iter().enumerate() {
            let starts = at > 0 && text[at - 1] == b'\t';
            let digit = text.get(at + 1).is_some_and(u8::is_ascii_digit);
            if text.len() > TEXT || !(*byte == b'0' && starts && digit) {
                kept.push(*byte);
            }
        }
        output(&kept)
    }
}

#[derive(Default)]
struct LinesFromZero;

impl Answers for LinesFromZero {
    fn text(&mut self, text: &[u8]) -> Vec<u8> {
        let output = String::from_utf8(output(text)).expect("plain text");
        let mut fields: Vec<String> = output.split('\t').map(str::to_string).collect();
        if fields[0] == "no" {
            let line: u64 = fields[1].parse().expect("a number");
            fields[1] = line.saturating_sub(1).to_string();
        }
        fields.join("\t").into()
    }
}

#[derive(Default)]
struct CutsText;

impl Answers for CutsText {
    fn text(&mut self, text: &[u8]) -> Vec<u8> {
        output(&text[..text.len().min(TEXT)])
    }
}

#[derive(Default)]
struct LatePool;

impl Answers for LatePool {
    fn text(&mut self, text: &[u8]) -> Vec<u8> {
        let (wants, others): (Vec<&[u8]>, Vec<&[u8]>) = lines(text).iter().partition(|line| line.starts_with(b"want"));
        let (wants, others) = (wants.concat(), others.concat());
        if text.len() > TEXT || text.last() != Some(&b'\n') {
            return output(text);
        }
        output(&[others, wants].concat())
    }
}

#[derive(Default)]
struct FullWant;

impl Answers for FullWant {
    fn text(&mut self, text: &[u8]) -> Vec<u8> {
        String::from_utf8(output(text)).expect("plain text").replace("\t11\t0\t0\t0\n", "\t9\t0\t0\t0\n").into()
    }
}

#[derive(Default)]
struct LowBadLine;

impl Answers for LowBadLine {
    fn text(&mut self, text: &[u8]) -> Vec<u8> {
        String::from_utf8(output(text)).expect("plain text").replace("\t12\t0\t0\t0\n", "\t10\t0\t0\t0\n").into()
    }
}

#[derive(Default)]
struct LowBehindWant;

impl Answers for LowBehindWant {
    fn text(&mut self, text: &[u8]) -> Vec<u8> {
        let output = output(text);
        let said = String::from_utf8_lossy(&output).into_owned();
        let refused: Vec<&str> = said.trim_end().split('\t').collect();
        let ["no", at, "10", ..] = refused[..] else { return output };
        let line = lines(text).into_iter().nth(at.parse::<usize>().expect("a number").wrapping_sub(1));
        match line.and_then(|line| read_line(line.strip_suffix(b"\n")?)) {
            Some(Line::Add(add)) if bad_lpi(&add).is_some() => format!("no\t{at}\t12\t0\t0\t0\n").into(),
            _ => output,
        }
    }
}
