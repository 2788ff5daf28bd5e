// The plan-reading program of 01: bytes in, the whole output out. The line rules are 01's and the rulings', read anew.

use crate::added::PLAN_REQUESTS;
use crate::calls::{no, Add, Answer, Call, Choice, Hold, Need, PoolRange, Record, Refusal, Request};
use crate::judge::Judge;

/// Bytes of a text at most.
pub const TEXT: usize = 65_536;
/// Bytes of a line at most, before its newline.
pub const LINE: usize = 200;

/// What a good line says.
#[derive(Clone, Debug, PartialEq, Eq)]
pub enum Line {
    Add(Add),
    Want(Request),
}

/// What a text came to.
#[derive(Clone, Debug, PartialEq, Eq)]
pub enum Ran {
    /// At this line; 0 is the text as a whole.
    Refused { line: usize, refusal: Refusal },
    /// What its wants were granted, in order.
    Granted(Vec<Record>),
}

/// Why a text was not answered: the original stopped with a panic at a line.
#[derive(Debug)]
pub struct Stopped {
    pub line: usize,
    pub message: String,
}

/// The whole output for a text.
pub fn run(text: &[u8]) -> Result<Vec<u8>, Stopped> {
    run_seen(text, &mut |_, _| {}).map(|ran| ran.output())
}

/// What a text comes to; each call that a line comes to is shown beforehand, with the judge that will answer it.
pub fn run_seen(text: &[u8], see: &mut dyn FnMut(&Judge, &Call)) -> Result<Ran, Stopped> {
    if text.len() > TEXT {
        return Ok(Ran::Refused { line: 0, refusal: Refusal::plain(no::BAD_LINE) });
    }
    let mut lines: Vec<&[u8]> = text.split(|byte| *byte == b'\n').collect();
    let unfinished = lines.pop().unwrap_or_default();
    let mut reader = Reader::new();
    for (index, line) in lines.iter().enumerate() {
        match reader.step_seen(line, see) {
            Answer::Refused(refusal) => return Ok(Ran::Refused { line: index + 1, refusal }),
            Answer::Panicked(message) => return Err(Stopped { line: index + 1, message }),
            Answer::Accepted | Answer::Granted(_) => {}
        }
    }
    if !unfinished.is_empty() {
        return Ok(Ran::Refused { line: lines.len() + 1, refusal: Refusal::plain(no::BAD_LINE) });
    }
    Ok(Ran::Granted(reader.granted))
}

impl Ran {
    /// The program's output.
    pub fn output(&self) -> Vec<u8> {
        match self {
            Ran::Refused { line, refusal: Refusal { number, namespace, owner, detail } } => {
                format!("no\t{line}\t{number}\t{namespace}\t{owner}\t{detail}\n").into_bytes()
            }
            Ran::Granted(records) => {
                let got: String = records.iter().map(got).collect();
                format!("{got}end\t{}\n", records.len()).into_bytes()
            }
        }
    }
}

/// The state between two lines.
pub struct Reader {
    judge: Judge,
    granted: Vec<Record>,
    wanting: bool,
}

impl Reader {
    pub fn new() -> Self {
        Self { judge: Judge::fresh(), granted: Vec::new(), wanting: false }
    }

    /// Takes one line, without its newline.
    pub fn step(&mut self, line: &[u8]) -> Answer {
        self.step_seen(line, &mut |_, _| {})
    }

    fn step_seen(&mut self, line: &[u8], see: &mut dyn FnMut(&Judge, &Call)) -> Answer {
        let call = match read_line(line) {
            Some(Line::Add(add)) if !self.wanting => Call::Add(add),
            Some(Line::Want(_)) if self.granted.len() == PLAN_REQUESTS => return Answer::plain(no::SHORT),
            Some(Line::Want(request)) => Call::Request(request),
            _ => return Answer::plain(no::BAD_LINE),
        };
        if matches!(call, Call::Request(_)) && !self.wanting {
            self.judge.start();
            self.wanting = true;
        }
        see(&self.judge, &call);
        let answer = self.judge.call(&call).answer;
        if let Answer::Granted(record) = answer {
            self.granted.push(record);
        }
        answer
    }
}

impl Default for Reader {
    fn default() -> Self {
        Self::new()
    }
}

/// A record's line: the kind's word behind the slot, and as many numbers as the kind has.
fn got(record: &Record) -> String {
    let (word, numbers) = match record[0] {
        1 => ("mmio", 2),
        2 => ("pio", 2),
        3 => ("input", 4),
        4 => ("host", 1),
        _ => ("msi", 6),
    };
    let mut line = format!("got\t{}\t{}\t{word}", record[1], record[2]);
    for number in &record[3..3 + numbers] {
        line.push_str(&format!("\t{number}"));
    }
    line.push('\n');
    line
}

/// A line's meaning, or nothing if it breaks the line rules.
pub fn read_line(line: &[u8]) -> Option<Line> {
    if line.len() > LINE {
        return None;
    }
    let fields: Vec<&[u8]> = line.split(|byte| *byte == b'\t').collect();
    match fields.as_slice() {
        [b"pool", b"auto", rest @ ..] => read_pool(false, rest).map(Line::Add),
        [b"pool", b"fixed", rest @ ..] => read_pool(true, rest).map(Line::Add),
        [b"hold", owner, rest @ ..] => {
            let (owner, what) = (u32_of(owner)?, read_hold(rest)?);
            Some(Line::Add(Add::Hold { owner, what }))
        }
        [b"want", requester, slot, rest @ ..] => {
            let (requester, slot, need) = (u32_of(requester)?, u32_of(slot)?, read_need(rest)?);
            Some(Line::Want(Request { requester, slot, need }))
        }
        _ => None,
    }
}

fn read_pool(fixed: bool, fields: &[&[u8]]) -> Option<Add> {
    let range = match fields {
        [b"mmio", start, end] => PoolRange::Mmio(u64_of(start)?..u64_of(end)?),
        [b"pio", start, end] => PoolRange::Pio(u16_of(start)?..u16_of(end)?),
        [b"host", start, end] => PoolRange::Host(u64_of(start)?..u64_of(end)?),
        [b"input", controller, start, end] => {
            PoolRange::Input { controller: u32_of(controller)?, inputs: u64_of(start)?..u64_of(end)? }
        }
        [b"msi", controller, its, bounds @ ..] => return read_domain(fixed, controller, its, bounds),
        _ => return None,
    };
    Some(Add::Pool { fixed, range })
}

fn read_domain(fixed: bool, controller: &[u8], its: &[u8], bounds: &[&[u8]]) -> Option<Add> {
    let [device, device_end, event, event_end, lpi, lpi_end] = bounds else { return None };
    Some(Add::Domain {
        fixed,
        controller: u32_of(controller)?,
        its: u32_of(its)?,
        devices: u32_of(device)?..u32_of(device_end)?,
        events: u32_of(event)?..u32_of(event_end)?,
        lpis: u32_of(lpi)?..u32_of(lpi_end)?,
    })
}

fn read_hold(fields: &[&[u8]]) -> Option<Hold> {
    Some(match fields {
        [b"mmio", start, end] => Hold::Mmio(u64_of(start)?..u64_of(end)?),
        [b"pio", start, end] => Hold::Pio(u16_of(start)?..u16_of(end)?),
        [b"host", start, end] => Hold::Host(u64_of(start)?..u64_of(end)?),
        [b"input", controller, input, trigger, sharing] => Hold::Input {
            controller: u32_of(controller)?,
            input: u64_of(input)?,
            trigger: u32_of(trigger)?,
            sharing: u32_of(sharing)?,
        },
        [b"device", controller, its, start, end] => {
            Hold::Device { controller: u32_of(controller)?, its: u32_of(its)?, devices: u32_of(start)?..u32_of(end)? }
        }
        [b"event", controller, its, device, start, end] => Hold::Event {
            controller: u32_of(controller)?,
            its: u32_of(its)?,
            device: u32_of(device)?,
            events: u32_of(start)?..u32_of(end)?,
        },
        [b"lpi", controller, start, end] => {
            Hold::Lpi { controller: u32_of(controller)?, lpis: u32_of(start)?..u32_of(end)? }
        }
        _ => return None,
    })
}

fn read_need(fields: &[&[u8]]) -> Option<Need> {
    Some(match fields {
        [b"mmio", size, alignment, base] => {
            Need::Mmio { size: u64_of(size)?, alignment: u64_of(alignment)?, base: choice(base, u64_of)? }
        }
        [b"pio", size, alignment, base] => {
            Need::Pio { size: u16_of(size)?, alignment: u16_of(alignment)?, base: choice(base, u16_of)? }
        }
        [b"input", controller, trigger, sharing, input] => Need::Input {
            controller: u32_of(controller)?,
            trigger: u32_of(trigger)?,
            sharing: u32_of(sharing)?,
            input: choice(input, u64_of)?,
        },
        [b"host", irq] => Need::Host { irq: choice(irq, u64_of)? },
        [b"msi", controller, its, count, choices @ ..] => {
            let (controller, its, count) = (u32_of(controller)?, u32_of(its)?, u32_of(count)?);
            let [device, event, lpi] = three(choices)?;
            Need::Msi { controller, its, count, device, event, lpi }
        }
        _ => return None,
    })
}

/// The one word, or three numbers; no mixture in text.
fn three(fields: &[&[u8]]) -> Option<[Choice<u32>; 3]> {
    match fields {
        [b"auto"] => Some([Choice::Auto; 3]),
        [device, event, lpi] => {
            Some([Choice::Fixed(u32_of(device)?), Choice::Fixed(u32_of(event)?), Choice::Fixed(u32_of(lpi)?)])
        }
        _ => None,
    }
}

fn choice<T>(field: &[u8], number: impl Fn(&[u8]) -> Option<T>) -> Option<Choice<T>> {
    if field == b"auto" {
        return Some(Choice::Auto);
    }
    number(field).map(Choice::Fixed)
}

fn u16_of(field: &[u8]) -> Option<u16> {
    u16::try_from(number(field)?).ok()
}

fn u32_of(field: &[u8]) -> Option<u32> {
    u32::try_from(number(field)?).ok()
}

fn u64_of(field: &[u8]) -> Option<u64> {
    u64::try_from(number(field)?).ok()
}

/// A decimal number without sign or leading zeros. No field is wider than 64 bits, so more than twenty digits are too
/// many for any.
fn number(field: &[u8]) -> Option<u128> {
    let leading_zero = field.len() > 1 && field[0] == b'0';
    if field.is_empty() || field.len() > 20 || leading_zero || !field.iter().all(u8::is_ascii_digit) {
        return None;
    }
    Some(field.iter().fold(0, |value, digit| value * 10 + u128::from(digit - b'0')))
}
