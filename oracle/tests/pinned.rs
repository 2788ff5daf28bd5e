// The pinned text on the judge's side: by hand, line by line against the reader, and read again.

use oracle::calls::{Choice, Need, Record, Request};
use oracle::gen::{self, line_of_request};
use oracle::pinned::{back, held_by_fixed, in_room, judged, Pinned, BYTE, TOO_LONG};
use oracle::text::{read_line, run_seen, Line, Ran, LINE, TEXT};

/// A blank for a tab, `/` for a newline.
fn lines(short: &str) -> Vec<u8> {
    short.replace(' ', "\t").replace('/', "\n").into_bytes()
}

fn ran(text: &[u8]) -> Ran {
    run_seen(text, &mut |_, _| {}).expect("no panic of the original")
}

#[test]
fn by_hand() {
    for (text, pinned) in [
        ("", ""),
        ("pool auto mmio 0 9/", "pool auto mmio 0 9/"),
        (
            "hold 7 host 40 41/pool auto host 40 42/hold 8 pio 0 1/pool auto host 40 42/want 3 5 host auto/",
            "hold 7 host 40 41/pool auto host 40 42/hold 8 pio 0 1/pool auto host 40 42/want 3 5 host 41/",
        ),
        (
            "pool auto mmio 4096 12288/pool fixed pio 0 9/pool auto pio 0 9/want 1 1 mmio 1 1 auto/want 1 1 pio 2 1 0/want 1 1 pio 1 1 auto/",
            "pool auto mmio 4096 12288/pool fixed pio 0 9/pool auto pio 0 9/want 1 1 mmio 1 1 4096/want 1 1 pio 2 1 0/want 1 1 pio 1 1 2/",
        ),
        (
            "pool auto input 6 32 34/pool auto msi 6 2 8 10 3 7 8192 8200/want 1 1 input 6 0 1 auto/want 1 2 msi 6 2 4 auto/",
            "pool auto input 6 32 34/pool auto msi 6 2 8 10 3 7 8192 8200/want 1 1 input 6 0 1 32/want 1 2 msi 6 2 4 8 3 8192/",
        ),
    ] {
        assert_eq!(judged(&lines(text)), Ok(lines(pinned)), "{text}");
    }
    assert_eq!(judged(&lines("pool auto host 4 5/want 1 1 host auto/want 1 2 host auto/")), Err([3, 7, 4, 0, 0]));
    assert_eq!(judged(&lines("hold 0 host 4 5/")), Err([1, 3, 0, 0, 0]));
    assert_eq!(judged(&lines("pool auto host 4 5/pool auto msi 0 0 0 1 0 1 8191 8193/")), Err([2, 12, 0, 0, 0]));
    assert_eq!(judged(&vec![b'x'; TEXT + 1]), Err([0, 10, 0, 0, 0]));
}

#[test]
fn into_a_buffer() {
    let pinned = |answer, length, lent: &[u8]| Pinned { answer, length, lent: lent.to_vec() };
    let back = Ok(b"abc".to_vec());
    assert!(in_room(&back, 4) == pinned([0; 5], 3, &[b'a', b'b', b'c', BYTE]));
    assert!(in_room(&back, 3) == pinned([0; 5], 3, b"abc"));
    assert!(in_room(&back, 2) == pinned(TOO_LONG, 0, &[BYTE; 2]));
    assert!(in_room(&Ok(Vec::new()), 0) == pinned([0; 5], 0, &[]));
    assert!(in_room(&Err([3, 7, 4, 0, 0]), 1) == pinned([3, 7, 4, 0, 0], 0, &[BYTE]));
    assert_eq!(in_room(&Ok(vec![b'x'; TEXT]), TEXT + 1).answer, [0; 5]);
    assert!(in_room(&Ok(vec![b'x'; TEXT + 1]), TEXT + 1) == pinned(TOO_LONG, 0, &[BYTE; TEXT + 1]));
}

#[test]
fn ranges_inside_one_another() {
    let held = |text: &str| held_by_fixed(&lines(text));
    assert!(held("") && held("pool fixed host 0 9/"));
    assert!(held("pool auto host 1 9/pool fixed host 0 9/") && !held("pool auto host 0 9/pool fixed host 1 9/"));
    assert!(!held("pool auto host 0 9/pool fixed host 0 5/pool fixed host 5 9/"), "inside one alone");
    assert!(!held("pool auto host 0 9/pool fixed mmio 0 9/") && !held("pool auto input 0 0 9/pool fixed input 1 0 9/"));
    let auto = "pool auto msi 1 2 0 4 0 4 8192 8196/";
    assert!(held(&format!("{auto}pool fixed msi 1 2 0 4 0 4 8192 8196/")));
    assert!(!held(&format!("{auto}pool fixed msi 1 2 0 4 0 3 8192 8196/")));
    assert!(!held(&format!("{auto}pool fixed msi 1 3 0 4 0 4 8192 8196/")));
    let other = "pool fixed msi 1 2 0 4 0 4 8193 8194/pool fixed msi 1 9 0 1 0 1 8192 8201/";
    assert!(held(&format!("{auto}{other}")), "LPIs know no ITS");
}

/// The request with what it was granted as its choice.
fn fixed(request: &Request, record: &Record) -> Request {
    let mut request = request.clone();
    match &mut request.need {
        Need::Mmio { base, .. } => *base = Choice::Fixed(record[3]),
        Need::Pio { base, .. } => *base = Choice::Fixed(record[3] as u16),
        Need::Input { input, .. } => *input = Choice::Fixed(record[4]),
        Need::Host { irq } => *irq = Choice::Fixed(record[3]),
        Need::Msi { device, event, lpi, .. } => {
            [*device, *event, *lpi] = [record[5], record[6], record[7]].map(|number| Choice::Fixed(number as u32));
        }
    }
    request
}

/// Each written line is the one spelling of the call that was read there, with its numbers; and the whole is granted the same again.
#[test]
fn every_pinned_text_reads_back() {
    let (mut wants, mut same) = (0, 0);
    for index in 0..gen::runs(3_000) {
        let text = gen::text_fixed_too(5, index);
        let ran = ran(&text);
        let Ran::Granted(records) = &ran else { continue };
        let pinned = back(&text, &ran).expect("an accepted text");
        let mut records = records.iter();
        assert_eq!(pinned.split(|byte| *byte == b'\n').count(), text.split(|byte| *byte == b'\n').count());
        for (read, put) in text.split(|byte| *byte == b'\n').zip(pinned.split(|byte| *byte == b'\n')) {
            let Some(Line::Want(request)) = read_line(read) else {
                assert_eq!(read, put);
                continue;
            };
            let request = fixed(&request, records.next().expect("a record for each want"));
            assert_eq!(line_of_request(&request).map(String::into_bytes), Some(put.to_vec()));
            assert_eq!(read_line(put), Some(Line::Want(request)));
            assert!(put.len() <= LINE);
            wants += 1;
        }
        if held_by_fixed(&text) && pinned.len() <= TEXT {
            assert_eq!(self::ran(&pinned), ran);
            assert_eq!(judged(&pinned).as_ref(), Ok(&pinned));
            same += 1;
        }
    }
    assert!(gen::runs(3_000) < 3_000 || (wants > 3_000 && same > 1_000), "{wants} wants, {same} run again");
}
