// Bad input: lines that break a line rule, widths and limits of every field, and which refused line decides.

use super::{case, lines, refused, Case};
use crate::text::{LINE, TEXT};

/// Texts of one line that is bad whatever else holds.
const BAD: &[(&str, &str)] = &[
    ("word-pool", "poll auto mmio 0 1"),
    ("word-pools", "pools auto mmio 0 1"),
    ("word-mode", "pool both mmio 0 1"),
    ("word-mode-longer", "pool autos mmio 0 1"),
    ("word-kind", "pool auto mem 0 1"),
    ("word-kind-shorter", "pool auto mmi 0 1"),
    ("word-of-a-hold-in-a-pool", "pool auto device 0 0 0 1"),
    ("word-of-a-pool-in-a-hold", "hold 1 msi 0 0 0 1 0 1 0 1"),
    ("word-of-a-hold-in-a-want", "want 1 1 lpi 0 auto"),
    ("word-hold-kind", "hold 1 memory 0 1"),
    ("word-want-kind", "want 1 1 irq auto"),
    ("word-choice", "want 1 1 host any"),
    ("word-choice-longer", "want 1 1 host automatic"),
    ("word-choice-fixed", "want 1 1 host fixed"),
    ("word-got", "got 1 1 host 0"),
    ("word-end", "end 0"),
    ("word-comment", "#_pool auto mmio 0 1"),
    ("word-alone-pool", "pool"),
    ("word-alone-hold", "hold"),
    ("word-alone-want", "want"),
    ("word-pool-auto-alone", "pool auto"),
    ("word-where-a-number-stands", "pool auto mmio auto 1"),
    ("number-where-a-word-stands", "pool 1 mmio 0 1"),
    ("auto-as-slot", "want 1 auto host auto"),
    ("auto-as-size", "want 1 1 mmio auto 1 auto"),
    ("upper-pool", "POOL auto mmio 0 1"),
    ("upper-mode", "pool Auto mmio 0 1"),
    ("upper-kind", "pool auto MMIO 0 1"),
    ("upper-hold", "Hold 1 mmio 0 1"),
    ("upper-choice", "want 1 1 host AUTO"),
    ("zeros-start", "pool auto mmio 00 1"),
    ("zeros-end", "pool auto mmio 0 01"),
    ("zeros-owner", "hold 01 mmio 0 1"),
    ("zeros-slot", "want 1 00 host auto"),
    ("zeros-choice", "want 1 1 host 007"),
    ("zeros-many", "pool auto mmio 0 000000000000000000000000001"),
    ("sign-plus", "pool auto mmio 0 +1"),
    ("sign-plus-zero", "pool auto mmio +0 1"),
    ("sign-minus-zero", "pool auto mmio -0 1"),
    ("sign-minus-owner", "hold -1 mmio 0 1"),
    ("sign-alone", "pool auto mmio - 1"),
    ("number-hex", "pool auto mmio 0x0 1"),
    ("number-power", "pool auto mmio 0 1e3"),
    ("number-point", "pool auto mmio 0 1.0"),
    ("number-comma", "pool auto mmio 0 1,000"),
    ("number-colon", "pool auto mmio 0 1:"),
    ("number-letter-behind", "pool auto mmio 0 1u"),
    ("empty-field-start", "pool auto mmio  1"),
    ("empty-field-owner", "hold  mmio 0 1"),
    ("empty-field-choice", "want 1 1 host "),
    ("empty-field-mode", "pool  mmio 0 1"),
    ("tab-doubled", "pool  auto mmio 0 1"),
    ("tab-trailing", "pool auto mmio 0 1 "),
    ("tab-trailing-want", "want 1 1 host auto "),
    ("tab-leading", " pool auto mmio 0 1"),
    ("tab-alone", " "),
    ("blank-trailing", "pool auto mmio 0 1_"),
    ("blank-leading", "_pool auto mmio 0 1"),
    ("blank-in-number", "pool auto mmio 0 1_0"),
    ("blanks-for-tabs", "pool_auto_mmio_0_1"),
    ("blank-alone", "_"),
    ("msi-auto-three-times", "want 1 1 msi 0 0 1 auto auto auto"),
    ("msi-auto-twice", "want 1 1 msi 0 0 1 auto auto"),
    ("msi-auto-and-two", "want 1 1 msi 0 0 1 auto 0 0"),
    ("msi-auto-in-the-middle", "want 1 1 msi 0 0 1 0 auto 0"),
    ("msi-auto-last", "want 1 1 msi 0 0 1 0 0 auto"),
    ("msi-one-number", "want 1 1 msi 0 0 1 0"),
    ("msi-two-numbers", "want 1 1 msi 0 0 1 0 0"),
    ("msi-four-numbers", "want 1 1 msi 0 0 1 0 0 0 0"),
    ("width-before-owner", "hold 0 pio 5 65536"),
    ("width-before-codes", "hold 1 input 0 0 4 4294967296"),
    ("width-before-empty", "pool auto pio 65536 1"),
    ("width-before-low-lpi", "pool auto msi 0 0 0 1 0 1 0 4294967296"),
    ("width-before-low-lpi-hold", "hold 1 lpi 4294967296 0 1"),
];

/// Texts of bytes that the short form cannot write, each bad at its first line.
const BAD_BYTES: &[(&str, &[u8])] = &[
    ("crlf", b"pool\tauto\tmmio\t0\t1\r\n"),
    ("cr-alone", b"\r\n"),
    ("cr-for-newline", b"pool\tauto\tmmio\t0\t1\rwant\t1\t1\tmmio\t1\t1\tauto\n"),
    ("nul-in-word", b"po\0l\tauto\tmmio\t0\t1\n"),
    ("nul-in-number", b"pool\tauto\tmmio\t0\t1\0\n"),
    ("nul-alone", b"\0\n"),
    ("nul-first", b"\0pool\tauto\tmmio\t0\t1\n"),
    ("byte-127", b"pool\tauto\tmmio\t0\t1\x7f\n"),
    ("byte-128", b"pool\tauto\tmmio\t0\t\x80\n"),
    ("byte-255", b"\xff\n"),
    ("byte-177-for-1", b"pool\tauto\tmmio\t0\t\xb1\n"),
    ("word-with-high-bits", b"\xf0\xef\xef\xec\tauto\tmmio\t0\t1\n"),
    ("byte-order-mark", b"\xef\xbb\xbfpool\tauto\tmmio\t0\t1\n"),
    ("vertical-tab", b"pool\x0bauto\x0bmmio\x0b0\x0b1\n"),
    ("slash-for-digit", b"pool\tauto\tmmio\t0\t1/\n"),
    ("empty-line", b"\n"),
    ("two-empty-lines", b"\n\n"),
    ("no-final-newline", b"pool\tauto\tmmio\t0\t1"),
    ("no-final-newline-one-byte", b"p"),
    ("no-final-newline-tab", b"\t"),
    ("no-final-newline-nul", b"\0"),
];

/// Texts of several lines, and which one decides.
const DECIDES: &[(&str, &str, &str)] = &[
    ("empty-line-between", "pool auto mmio 0 9//want 1 1 mmio 1 1 auto", "no 2 10 0 0 0"),
    ("empty-line-last", "pool auto mmio 0 9/", "no 2 10 0 0 0"),
    ("bad-before-refused", "nonsense/pool auto mmio 1 1", "no 1 10 0 0 0"),
    ("bad-after-refused", "pool auto mmio 1 1/nonsense", "no 1 4 0 0 0"),
    ("bad-after-refused-hold", "hold 0 mmio 0 1/nonsense", "no 1 3 0 0 0"),
    (
        "bad-after-refused-want",
        "pool auto host 0 1/want 1 1 host auto/want 1 1 host auto/want 1 1 host auto/x",
        "no 3 7 4 0 0",
    ),
    ("bad-after-good", "pool auto mmio 0 9/want 1 1 mmio 1 1 auto/want 1 1 mmio 1 1", "no 3 10 0 0 0"),
    ("refused-twice", "pool auto mmio 0 9/hold 0 mmio 0 1/pool auto mmio 1 1", "no 2 3 0 0 0"),
    ("pool-after-want", "pool auto host 0 9/want 1 1 host auto/pool auto host 0 9", "no 3 10 0 0 0"),
    ("hold-after-want", "pool auto host 0 9/want 1 1 host auto/hold 1 host 5 6", "no 3 10 0 0 0"),
    ("empty-pool-after-want", "pool auto host 0 9/want 1 1 host auto/pool auto host 1 1", "no 3 10 0 0 0"),
    ("owner-0-after-want", "pool auto host 0 9/want 1 1 host auto/hold 0 host 5 6", "no 3 10 0 0 0"),
    ("bad-codes-after-want", "pool auto host 0 9/want 1 1 host auto/hold 1 input 0 0 4 0", "no 3 10 0 0 0"),
    ("low-lpi-after-want", "pool auto host 0 9/want 1 1 host auto/pool auto msi 0 0 0 1 0 1 0 1", "no 3 10 0 0 0"),
    ("low-lpi-hold-after-want", "pool auto host 0 9/want 1 1 host auto/hold 1 lpi 0 0 1", "no 3 10 0 0 0"),
    ("bad-after-low-lpi", "pool auto msi 0 0 0 1 0 1 0 1/nonsense", "no 1 12 0 0 0"),
    ("bad-before-low-lpi", "nonsense/pool auto msi 0 0 0 1 0 1 0 1", "no 1 10 0 0 0"),
    ("pool-after-refused-want", "want 1 1 host auto/pool auto host 0 9", "no 1 7 4 0 0"),
    (
        "pool-between-holds",
        "hold 1 host 0 1/pool auto host 0 9/hold 1 host 1 2/want 1 1 host auto",
        "got 1 1 host 2/end 1",
    ),
];

/// One good line of each form: a word, or a number and the bits of its field.
const FORMS: &[(&str, &str)] = &[
    ("pool-mmio", "pool auto mmio 0/64 9/64"),
    ("pool-pio", "pool fixed pio 0/16 9/16"),
    ("pool-host", "pool auto host 0/64 9/64"),
    ("pool-input", "pool fixed input 0/32 0/64 9/64"),
    ("pool-msi", "pool auto msi 0/32 0/32 0/32 9/32 0/32 9/32 8192/32 8201/32"),
    ("hold-mmio", "hold 1/32 mmio 0/64 9/64"),
    ("hold-pio", "hold 1/32 pio 0/16 9/16"),
    ("hold-host", "hold 1/32 host 0/64 9/64"),
    ("hold-input", "hold 1/32 input 0/32 0/64 0/32 0/32"),
    ("hold-device", "hold 1/32 device 0/32 0/32 0/32 9/32"),
    ("hold-event", "hold 1/32 event 0/32 0/32 0/32 0/32 9/32"),
    ("hold-lpi", "hold 1/32 lpi 0/32 8192/32 8201/32"),
    ("want-mmio-auto", "want 1/32 1/32 mmio 1/64 1/64 auto"),
    ("want-mmio", "want 1/32 1/32 mmio 1/64 1/64 0/64"),
    ("want-pio-auto", "want 1/32 1/32 pio 1/16 1/16 auto"),
    ("want-pio", "want 1/32 1/32 pio 1/16 1/16 0/16"),
    ("want-input-auto", "want 1/32 1/32 input 0/32 0/32 0/32 auto"),
    ("want-input", "want 1/32 1/32 input 0/32 0/32 0/32 0/64"),
    ("want-host-auto", "want 1/32 1/32 host auto"),
    ("want-host", "want 1/32 1/32 host 0/64"),
    ("want-msi-auto", "want 1/32 1/32 msi 0/32 0/32 1/32 auto"),
    ("want-msi", "want 1/32 1/32 msi 0/32 0/32 1/32 0/32 0/32 0/32"),
];

pub fn all() -> Vec<Case> {
    let mut cases = Vec::new();
    cases.extend(BAD.iter().map(|(name, text)| bad(name, lines(text))));
    cases.extend(BAD_BYTES.iter().map(|(name, text)| bad(name, text.to_vec())));
    cases.extend(DECIDES.iter().map(|(name, text, expected)| case(name, lines(text), lines(expected))));
    cases.extend(FORMS.iter().flat_map(|(name, form)| of_form(name, form)));
    cases.extend(unfinished());
    cases.extend(long_lines());
    cases.extend(long_texts());
    cases
}

fn bad(name: &str, text: Vec<u8>) -> Case {
    case(&format!("bad-{name}"), text, refused(1, 10))
}

/// A form's line with each number one over its width, each at its width's largest, twenty nines, a field too few and
/// a field too many.
fn of_form(name: &str, form: &str) -> Vec<Case> {
    let fields: Vec<(&str, Option<u32>)> = form.split(' ').map(field).collect();
    let mut cases = Vec::new();
    let mut nines = true;
    for (i, (_, bits)) in fields.iter().enumerate() {
        let Some(bits) = bits else { continue };
        let over = 1u128 << bits;
        cases.push(bad(&format!("over-{name}-{i}"), with_field(&fields, i, &over.to_string())));
        cases.push(Case {
            name: format!("most-{name}-{i}"),
            text: with_field(&fields, i, &(over - 1).to_string()),
            expected: None,
        });
        if std::mem::take(&mut nines) {
            cases.push(bad(&format!("nines-{name}"), with_field(&fields, i, "99999999999999999999")));
        }
    }
    let words: Vec<&str> = fields.iter().map(|(word, _)| *word).collect();
    cases.push(bad(&format!("fewer-{name}"), lines(&words[..words.len() - 1].join(" "))));
    cases.push(bad(&format!("more-{name}"), lines(&(words.join(" ") + " 0"))));
    cases
}

fn field(field: &str) -> (&str, Option<u32>) {
    match field.split_once('/') {
        Some((number, bits)) => (number, Some(bits.parse().expect("bits"))),
        None => (field, None),
    }
}

fn with_field(fields: &[(&str, Option<u32>)], at: usize, other: &str) -> Vec<u8> {
    let words: Vec<&str> = fields.iter().enumerate().map(|(i, (word, _))| if i == at { other } else { word }).collect();
    lines(&words.join(" "))
}

/// A last line without its newline, behind lines that were accepted or refused.
fn unfinished() -> Vec<Case> {
    let without_newline = |text: &str| {
        let mut bytes = lines(text);
        bytes.pop();
        bytes
    };
    vec![
        case("unfinished-want", without_newline("pool auto host 0 9/want 1 1 host auto"), refused(2, 10)),
        case("unfinished-word", without_newline("pool auto host 0 9/want 1 1 host auto/w"), refused(3, 10)),
        case("unfinished-after-refused", without_newline("pool auto host 9 9/want 1 1 host auto"), refused(1, 4)),
        case("unfinished-after-bad", without_newline("pool auto host/want 1 1 host auto"), refused(1, 10)),
    ]
}

/// Lines of the most bytes, and of one more. No good line is that long, so both are bad; a good one follows to show which decides.
fn long_lines() -> Vec<Case> {
    let line = |bytes: usize| {
        let mut text = b"want\t1\t1\thost\t".to_vec();
        text.resize(bytes, b'1');
        text.extend_from_slice(b"\npool\tauto\thost\t0\t9\n");
        text
    };
    vec![bad("line-longest", line(LINE)), bad("line-over", line(LINE + 1)), bad("line-30000", line(30_000))]
}

/// Texts of the largest total and one byte more.
fn long_texts() -> Vec<Case> {
    let mut refused_first = b"hold\t0\tmmio\t0\t1\n".to_vec();
    refused_first.extend(repeated_pools(TEXT + 1 - refused_first.len()));
    vec![
        case("text-longest", repeated_pools(TEXT), lines("end 0")),
        case("text-over", repeated_pools(TEXT + 1), refused(0, 10)),
        case("text-over-refused-first", refused_first, refused(0, 10)),
    ]
}

/// Two pool lines, repeated to just so many bytes; a pool that is there already adds no row.
pub fn repeated_pools(bytes: usize) -> Vec<u8> {
    let (short, long) = (lines("pool auto mmio 0 4096"), lines("pool auto mmio 0 40960"));
    let longs = bytes % short.len();
    let shorts = (bytes - longs * long.len()) / short.len();
    [short.repeat(shorts), long.repeat(longs)].concat()
}
