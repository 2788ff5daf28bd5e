// Short texts, all of them: over a few bytes, over a few words, every field of a line changed, every few lines of a list.

use super::run::Family;
use super::Digits;

const BYTES: [u8; 6] = *b"\n\t01w\xff";

const WORDS: [&str; 14] =
    ["pool", "hold", "want", "auto", "fixed", "mmio", "pio", "input", "host", "msi", "0", "1", "2", ""];

/// What a field is changed to.
const FIELDS: [&str; 32] = [
    "",
    "0",
    "1",
    "2",
    "3",
    "4",
    "5",
    "8",
    "00",
    "01",
    "+1",
    "-0",
    " 1",
    "1 ",
    "65535",
    "65536",
    "8191",
    "8192",
    "4294967295",
    "4294967296",
    "18446744073709551615",
    "18446744073709551616",
    "99999999999999999999",
    "auto",
    "fixed",
    "mmio",
    "pio",
    "input",
    "host",
    "msi",
    "device",
    "Auto",
];

const MMIO: [&str; 10] = [
    "pool auto mmio 0 4",
    "pool auto mmio 4 8",
    "pool auto mmio 2 6",
    "pool fixed mmio 0 8",
    "hold 7 mmio 1 3",
    "hold 9 mmio 4 5",
    "want 1 0 mmio 2 2 auto",
    "want 2 1 mmio 4 1 0",
    "want 3 0 mmio 5 1 auto",
    "want 4 4 mmio 1 1 4",
];

const PIO: [&str; 7] = [
    "pool auto pio 65530 65535",
    "pool fixed pio 65528 65535",
    "hold 3 pio 65530 65532",
    "want 1 0 pio 2 2 auto",
    "want 2 0 pio 1 1 65534",
    "want 3 0 pio 1 1 65535",
    "want 4 0 pio 4 4 65532",
];

const INPUT: [&str; 9] = [
    "pool auto input 0 0 2",
    "pool auto input 1 0 1",
    "pool fixed input 0 0 2",
    "hold 5 input 0 0 1 1",
    "want 1 0 input 0 1 1 auto",
    "want 2 0 input 0 1 1 0",
    "want 3 0 input 0 2 0 0",
    "want 4 0 input 0 1 0 1",
    "want 5 0 input 1 0 0 auto",
];

const HOST: [&str; 8] = [
    "pool auto host 0 2",
    "pool auto host 1 3",
    "pool fixed host 1 2",
    "hold 4 host 0 1",
    "want 1 0 host auto",
    "want 2 0 host 1",
    "want 3 0 host 0",
    "want 4 0 host 18446744073709551615",
];

const MSI: [&str; 14] = [
    "pool auto msi 0 0 0 2 0 2 8192 8195",
    "pool auto msi 0 1 0 1 0 1 8193 8193",
    "pool fixed msi 0 1 0 2 0 2 8192 8195",
    "pool fixed msi 0 1 0 2 0 2 8191 8195",
    "hold 6 device 0 0 0 1",
    "hold 6 event 0 0 0 0 2",
    "hold 6 lpi 0 8193 8194",
    "hold 6 lpi 0 0 8194",
    "want 1 0 msi 0 0 1 auto",
    "want 2 0 msi 0 0 2 auto",
    "want 3 0 msi 0 1 1 auto",
    "want 4 0 msi 0 1 1 0 0 8192",
    "want 5 0 msi 0 1 1 1 0 8193",
    "want 6 0 msi 0 1 1 1 0 8191",
];

/// Lines that get a plain refusal.
const BAD: [&str; 7] = [
    "",
    "pool auto mmio 4 4",
    "hold 0 mmio 0 1",
    "hold 0 input 0 0 4 0",
    "want 0 0 host auto",
    "want 1 0 mmio 1 3 auto",
    "want 1 0 msi 0 0 1 0 0",
];

pub fn families(large: bool) -> Vec<Family> {
    let all: Vec<&str> = [&MMIO[..], &PIO, &INPUT, &HOST, &MSI, &BAD].concat();
    let words = if large { 5 } else { 4 };
    let lines = if large { 5 } else { 4 };
    let mut families = vec![
        Family::texts("all texts of few bytes", up_to(BYTES.len(), 6), bytes),
        Family::texts("all lines of few words", up_to(WORDS.len(), words), words_of),
        changed(&all),
        some_lines("all few lines of any kind", all, 3),
    ];
    for (name, list) in [("mmio", &MMIO[..]), ("pio", &PIO), ("input", &INPUT), ("host", &HOST), ("msi", &MSI)] {
        families.push(some_lines(&format!("all few lines of {name}"), list.to_vec(), lines));
    }
    families
}

/// How many lists of at most `longest` there are.
fn up_to(kinds: usize, longest: u32) -> u64 {
    (0..=longest).map(|length| (kinds as u64).pow(length)).sum()
}

/// The list of a number: shorter ones first.
fn list<T: Clone>(index: u64, kinds: &[T]) -> Vec<T> {
    let (mut rest, mut length, mut many) = (index, 0, 1);
    while rest >= many {
        rest -= many;
        many *= kinds.len() as u64;
        length += 1;
    }
    let mut digits = Digits(rest);
    (0..length).map(|_| digits.pick(kinds)).collect()
}

fn bytes(index: u64) -> Vec<u8> {
    list(index, &BYTES)
}

fn words_of(index: u64) -> Vec<u8> {
    let mut line = list(index, &WORDS).join("\t").into_bytes();
    line.push(b'\n');
    line
}

fn some_lines(name: &str, lines: Vec<&'static str>, longest: u32) -> Family {
    Family::texts(name, up_to(lines.len(), longest), move |index| text_of(&list(index, &lines)))
}

fn text_of(lines: &[&str]) -> Vec<u8> {
    lines.iter().flat_map(|line| line.replace(' ', "\t").into_bytes().into_iter().chain([b'\n'])).collect()
}

/// Every line of the list with each field changed to each other, or with another put before it; behind a good pool.
fn changed(lines: &[&'static str]) -> Family {
    let places: Vec<(Vec<&'static str>, usize)> = lines
        .iter()
        .filter(|line| !line.is_empty())
        .flat_map(|line| {
            let fields: Vec<&str> = line.split(' ').collect();
            (0..fields.len()).map(move |at| (fields.clone(), at))
        })
        .collect();
    let count = (places.len() * FIELDS.len() * 2) as u64;
    Family::texts("all lines with one field changed", count, move |index| {
        let mut digits = Digits(index);
        let (mut fields, at) = digits.pick(&places);
        let field = digits.pick(&FIELDS);
        if digits.digit(2) == 0 {
            fields[at] = field;
        } else {
            fields.insert(at, field);
        }
        let mut text = text_of(&["pool auto mmio 0 8", "pool fixed host 0 2"]);
        text.extend(fields.join("\t").into_bytes());
        text.push(b'\n');
        text
    })
}
