// The stored cases: what was worked out by hand comes out, and the stored files are these cases and no others.

use std::collections::BTreeSet;
use std::path::PathBuf;

use oracle::cases::{self, read_parts, Case};
use oracle::text;

fn answer(case: &Case) -> Vec<u8> {
    text::run(&case.text).unwrap_or_else(|stopped| panic!("{}: {}", case.name, stopped.message))
}

fn shown(bytes: &[u8]) -> String {
    String::from_utf8_lossy(bytes).replace('\t', " ")
}

#[test]
fn what_was_worked_out_by_hand_comes_out() {
    let mut wrong = Vec::new();
    let all = cases::all();
    for case in &all {
        let Some(expected) = &case.expected else { continue };
        let given = answer(case);
        if given != *expected {
            wrong.push(format!("{}: expected {:?}, given {:?}", case.name, shown(expected), shown(&given)));
        }
    }
    assert!(wrong.is_empty(), "{}", wrong.join("\n"));
    let by_hand = all.iter().filter(|case| case.expected.is_some()).count();
    println!("{by_hand} of {} cases worked out by hand", all.len());
}

/// A number at its width's largest may be refused for what it says, but not as a bad line.
#[test]
fn the_largest_number_of_a_width_is_no_bad_line() {
    for case in cases::all().iter().filter(|case| case.name.starts_with("most-")) {
        assert_ne!(shown(&answer(case)), "no 1 10 0 0 0\n", "{}", case.name);
    }
}

#[test]
fn names_differ() {
    let all = cases::all();
    let names: BTreeSet<&str> = all.iter().map(|case| case.name.as_str()).collect();
    assert_eq!(names.len(), all.len());
}

#[test]
fn the_stored_files_are_these_cases() {
    let folder = PathBuf::from(env!("CARGO_MANIFEST_DIR")).join("cases");
    let read = |name: &str| std::fs::read(folder.join(name)).expect("a stored file");
    let names = String::from_utf8(read("cases.names")).expect("names");
    let names: Vec<&str> = names.lines().collect();
    let (input, output) = (read("cases.in"), read("cases.out"));
    assert!(input.len() + output.len() < 1 << 20, "the stored list stays small");
    let (input, output) = (read_parts(&input).expect("parts"), read_parts(&output).expect("parts"));
    let all = cases::all();
    assert_eq!((names.len(), input.len(), output.len()), (all.len(), all.len(), all.len()));
    for (i, case) in all.iter().enumerate() {
        assert_eq!(names[i], case.name);
        assert_eq!(input[i], case.text, "{}", case.name);
        assert_eq!(shown(&output[i]), shown(&answer(case)), "{}", case.name);
    }
}

/// Every refusal that a text can give is among the cases: 2 to 12 with each namespace and detail.
#[test]
fn every_refusal_of_a_text_is_there() {
    let mut seen = BTreeSet::new();
    for case in cases::all() {
        let output = shown(&answer(&case));
        let words: Vec<&str> = output.lines().next().expect("a line").split(' ').collect();
        if words[0] == "no" {
            seen.insert(format!("{} {} {}", words[2], words[3], words[5]));
        }
    }
    let mut all: Vec<String> = [2, 3, 4, 5, 9, 10, 11, 12].iter().map(|number| format!("{number} 0 0")).collect();
    for namespace in 1..=6 {
        all.extend([format!("6 {namespace} 0"), format!("7 {namespace} 0")]);
    }
    all.extend(["8 1 1", "8 2 1", "8 3 2", "8 3 3", "8 4 4", "8 5 5", "8 5 6", "8 6 7"].map(String::from));
    assert_eq!(seen, all.into_iter().collect());
}
