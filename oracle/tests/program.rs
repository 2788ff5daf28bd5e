// The program `judge` and the line reader: the example through standard input, and every line read back.

use std::io::Write;
use std::process::{Command, Stdio};

use oracle::calls::{Call, Request};
use oracle::gen::{self, line_of_add, line_of_request};
use oracle::text::{read_line, Line};

fn judge(input: &[u8]) -> (Vec<u8>, bool) {
    let mut child = Command::new(env!("CARGO_BIN_EXE_judge"))
        .stdin(Stdio::piped())
        .stdout(Stdio::piped())
        .spawn()
        .expect("the program starts");
    // The program stops reading one byte behind the limit, so that a longer text need not all be taken.
    let _ = child.stdin.take().expect("a way in").write_all(input);
    let output = child.wait_with_output().expect("the program ends");
    (output.stdout, output.status.success())
}

#[test]
fn the_example_comes_out() {
    let text = b"pool\tauto\tmmio\t4096\t12288\nhold\t7\tmmio\t4096\t8192\nwant\t3\t1\tmmio\t256\t256\tauto\n";
    assert_eq!(judge(text), (b"got\t3\t1\tmmio\t8192\t256\nend\t1\n".to_vec(), true));
}

#[test]
fn nothing_in_is_nothing_wanted() {
    assert_eq!(judge(b""), (b"end\t0\n".to_vec(), true));
}

#[test]
fn a_text_far_over_the_limit_is_line_0() {
    assert_eq!(judge(&vec![b'x'; 1 << 20]), (b"no\t0\t10\t0\t0\t0\n".to_vec(), true));
}

/// A folder can be opened but not read.
#[test]
fn a_failed_read_prints_nothing() {
    let folder = std::fs::File::open(env!("CARGO_MANIFEST_DIR")).expect("a folder");
    let output = Command::new(env!("CARGO_BIN_EXE_judge")).stdin(folder).output().expect("the program ends");
    assert!(output.stdout.is_empty());
    assert!(!output.status.success());
}

#[test]
fn every_written_line_reads_back() {
    let mut lines = 0;
    let mut check = |line: Option<String>, meant: Line| {
        if let Some(line) = line {
            assert_eq!(read_line(line.as_bytes()), Some(meant), "{line}");
            lines += 1;
        }
    };
    let mut wants: Vec<Request> = Vec::new();
    for index in 0..2_000 {
        for call in gen::sequence(3, index) {
            match call {
                Call::Add(add) => check(line_of_add(&add), Line::Add(add)),
                Call::Request(request) | Call::OfKind(request) => wants.push(request),
                Call::Plan { requests, .. } => wants.extend(requests),
                Call::Start | Call::Withdraw { .. } => {}
            }
        }
    }
    for request in wants {
        check(line_of_request(&request), Line::Want(request));
    }
    assert!(lines > 20_000);
}
