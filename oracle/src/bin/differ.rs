// Our code against the original: `differ N SEED [text|calls]`. The last line is 'N compared, M differ'.

use std::process::ExitCode;
use std::time::Instant;

use oracle::broken;
use oracle::compare::face::Face;
use oracle::compare::{families, run, threads, Report, Way};

fn main() -> ExitCode {
    let words: Vec<String> = std::env::args().collect();
    let (number, seed, ways) = match words.iter().map(String::as_str).collect::<Vec<_>>().as_slice() {
        [_, number, seed] => (number.parse(), seed.parse(), vec![Way::Text, Way::Calls]),
        [_, number, seed, "text"] => (number.parse(), seed.parse(), vec![Way::Text]),
        [_, number, seed, "calls"] => (number.parse(), seed.parse(), vec![Way::Calls]),
        _ => return usage(),
    };
    let (Ok(number), Ok(seed)) = (number, seed) else { return usage() };
    let ways: Vec<Way> = ways.into_iter().filter(|way| TEXT || *way != Way::Text).collect();
    if !TEXT {
        println!("our library has no text call: texts are not compared");
    }
    if ways.is_empty() {
        return ExitCode::from(2);
    }
    if !notices(&ways) {
        return ExitCode::FAILURE;
    }
    let report = compare(number, seed, &ways);
    print!("{report}");
    println!("{} compared, {} differ", report.compared, report.differ);
    if report.differ == 0 {
        ExitCode::SUCCESS
    } else {
        ExitCode::FAILURE
    }
}

fn usage() -> ExitCode {
    eprintln!("usage: differ N SEED [text|calls]");
    ExitCode::from(2)
}

/// The inputs that must tell broken answers are the same in every run.
const NOTICING: u64 = 7;

/// Each broken answer must be noticed before anything else is said.
fn notices(ways: &[Way]) -> bool {
    let families = families(broken::BOUND, NOTICING);
    let (mut noticed, mut all) = (0, 0);
    for broken in broken::all().iter().filter(|broken| ways.contains(&broken.way)) {
        all += 1;
        match broken.noticed(&families) {
            Some((family, index)) => {
                noticed += 1;
                println!("broken on purpose: {}: noticed at input {index} of {family}", broken.name);
            }
            None => println!("broken on purpose: {}: NOT NOTICED", broken.name),
        }
    }
    println!("broken on purpose: {noticed} of {all} noticed");
    noticed == all
}

fn compare(number: u64, seed: u64, ways: &[Way]) -> Report {
    let threads = threads();
    println!("seed {seed}, {threads} threads, our side: {}", OURS);
    let mut whole = Report::default();
    for family in families(number, seed).iter().filter(|family| ways.contains(&family.way)) {
        let begun = Instant::now();
        let report = run(family, threads, &ours);
        let seconds = begun.elapsed().as_secs_f64();
        let (compared, differ) = (report.compared, report.differ);
        println!("{}: {compared} compared, {differ} differ, {seconds:.1} s", family.name);
        for difference in &report.shown {
            println!("{difference}");
        }
        whole.add(report);
    }
    whole
}

/// Whether our side answers texts.
const TEXT: bool = cfg!(any(feature = "ours-text", not(feature = "ours")));

#[cfg(feature = "ours")]
const OURS: &str = "the library";

#[cfg(feature = "ours")]
fn ours() -> Box<dyn Face> {
    Box::new(oracle::ours::Library::new())
}

#[cfg(not(feature = "ours"))]
const OURS: &str = "the judge itself (built without the library)";

#[cfg(not(feature = "ours"))]
fn ours() -> Box<dyn Face> {
    use oracle::compare::face::{Behind, Plain};
    Box::new(Behind::new(Plain))
}
