// The generator: the same inputs from the same seed, and inputs that reach every answer.

use std::collections::BTreeMap;

use oracle::added::{FIRST_LPI, POOL_ROWS};
use oracle::calls::{no, rows_of_add, Add, Answer, Call, Choice, Hold, Kind, Need, Request};
use oracle::gen;
use oracle::judge::Judge;
use oracle::text;

const SEED: u64 = 7;

/// Refusals that a request can get, as number, namespace and detail.
const OF_REQUESTS: [&str; 22] = [
    "2 0 0", "6 1 0", "6 2 0", "6 3 0", "6 4 0", "6 5 0", "6 6 0", "7 1 0", "7 2 0", "7 3 0", "7 4 0", "7 5 0",
    "7 6 0", "8 1 1", "8 2 1", "8 3 2", "8 3 3", "8 4 4", "8 5 5", "8 5 6", "8 6 7", "9 0 0",
];

type Counts = BTreeMap<String, usize>;

fn expect(counts: &Counts, keys: impl IntoIterator<Item = String>) {
    let missing: Vec<String> = keys.into_iter().filter(|key| !counts.contains_key(key)).collect();
    assert!(missing.is_empty(), "never seen: {missing:?} in {counts:#?}");
}

/// What an output says: `accepted`, or number, namespace and detail of a refusal.
fn outcome(output: &[u8]) -> String {
    let text = String::from_utf8(output.to_vec()).expect("plain text");
    let fields: Vec<&str> = text.lines().next().expect("a line").split('\t').collect();
    match fields[0] {
        "no" => format!("{} {} {}", fields[2], fields[3], fields[5]),
        _ => "accepted".to_string(),
    }
}

fn name(call: &Call) -> &'static str {
    match call {
        Call::Add(_) => "add",
        Call::Start => "start",
        Call::Request(_) => "request",
        Call::OfKind(_) => "kind",
        Call::Plan { .. } => "plan",
        Call::Withdraw { .. } => "withdraw",
    }
}

#[test]
fn a_seed_gives_the_same_texts_and_sequences() {
    for index in 0..200 {
        assert_eq!(gen::text(SEED, index), gen::text(SEED, index));
        assert_eq!(gen::sequence(SEED, index), gen::sequence(SEED, index));
    }
    assert_ne!(gen::text(SEED, 1), gen::text(SEED + 1, 1));
}

#[test]
fn texts_reach_every_refusal() {
    let mut counts = Counts::new();
    for index in 0..20_000 {
        let output = text::run(&gen::text(SEED, index)).expect("no panic of the original");
        *counts.entry(outcome(&output)).or_default() += 1;
    }
    println!("{counts:#?}");
    let others = ["accepted", "3 0 0", "4 0 0", "5 0 0", "10 0 0", "11 0 0", "12 0 0"];
    expect(&counts, OF_REQUESTS.iter().chain(&others).map(|key| key.to_string()));
    assert!(counts["accepted"] > 20_000 / 3, "good texts mostly get accepted");
}

/// Whatever the text, the output has one of 01's two forms.
#[test]
fn outputs_have_01s_form() {
    for index in 0..gen::runs(4_000) {
        let input = gen::text(SEED + 1, index);
        let output = text::run(&input).expect("no panic of the original");
        let output = String::from_utf8(output).expect("plain text");
        let body = output.strip_suffix('\n').expect("a last newline");
        let lines: Vec<Vec<&str>> = body.split('\n').map(|line| line.split('\t').collect()).collect();
        assert!(is_refusal(&lines) || is_result(&lines), "text {index}: {output:?}");
    }
}

fn is_refusal(lines: &[Vec<&str>]) -> bool {
    lines.len() == 1 && lines[0].len() == 6 && lines[0][0] == "no" && numbers(&lines[0][1..])
}

fn is_result(lines: &[Vec<&str>]) -> bool {
    let Some((last, got)) = lines.split_last() else { return false };
    let length = |word: &str| match word {
        "mmio" | "pio" => 6,
        "input" => 8,
        "host" => 5,
        "msi" => 10,
        _ => 0,
    };
    let is_got = |line: &Vec<&str>| {
        line.len() > 4
            && line.len() == length(line[3])
            && line[0] == "got"
            && numbers(&line[1..3])
            && numbers(&line[4..])
    };
    *last == ["end", &got.len().to_string()] && got.iter().all(is_got)
}

fn numbers(fields: &[&str]) -> bool {
    fields.iter().all(|field| field.parse::<u64>().is_ok_and(|number| number.to_string() == **field))
}

#[test]
fn sequences_reach_every_refusal() {
    let mut counts = Counts::new();
    for index in 0..5_000 {
        let mut judge = Judge::fresh();
        for call in gen::sequence(SEED, index) {
            let key = match judge.call(&call).answer {
                Answer::Accepted | Answer::Granted(_) => "accepted".to_string(),
                Answer::Refused(refusal) => {
                    format!("{} {} {}", refusal.number, refusal.namespace, refusal.detail)
                }
                Answer::Panicked(message) => panic!("{message}"),
            };
            *counts.entry(format!("{} {key}", name(&call))).or_default() += 1;
        }
    }
    println!("{counts:#?}");
    let adds = ["accepted", "2 0 0", "3 0 0", "4 0 0", "5 0 0", "9 0 0", "12 0 0"].map(|key| format!("add {key}"));
    let plans = ["accepted", "1 0 0", "2 0 0", "9 0 0", "11 0 0"].map(|key| format!("plan {key}"));
    let withdrawals = ["accepted", "1 0 0", "2 0 0", "13 0 0"].map(|key| format!("withdraw {key}"));
    let asked = OF_REQUESTS.iter().chain(&["accepted", "1 0 0"]);
    let requests = asked.flat_map(|key| [format!("request {key}"), format!("kind {key}")]);
    expect(&counts, adds.into_iter().chain(plans).chain(withdrawals).chain(requests));
    assert!(counts["withdraw accepted"] * 2 > counts["withdraw 13 0 0"]);
}

/// An MSI domain is refused at each of its three ranges for each reason, LPIs are pooled, held and asked for on both sides
/// of the least, and most requests for an MSI still have pools to choose from.
#[test]
fn sequences_reach_every_end_of_a_domain() {
    let mut counts = Counts::new();
    let mut count = |key: String| *counts.entry(key).or_default() += 1;
    for index in 0..20_000 {
        let mut judge = Judge::fresh();
        for call in gen::sequence(SEED, index) {
            let before = judge.tables().clone();
            let answer = judge.call(&call).answer;
            let side = |start: u32| if start < FIRST_LPI { "low" } else { "high" };
            match &call {
                Call::Add(add @ Add::Domain { lpis, .. }) => {
                    count(format!("domain {}", side(lpis.start)));
                    for (place, kind, row) in rows_of_add(add) {
                        let table = before.of(place, kind);
                        let empty = answer == Answer::plain(no::EMPTY_RANGE) && row.start >= row.end;
                        let lacking = table.len() == POOL_ROWS && !table.contains(&row);
                        if empty || answer == Answer::plain(no::FULL) && lacking {
                            count(format!("{place:?} {kind:?} {}", if empty { "empty" } else { "full" }));
                        }
                        if kind == Kind::Lpi && answer == Answer::plain(no::BAD_LPI) {
                            count(format!("{place:?} {kind:?} low"));
                        }
                    }
                }
                Call::Add(Add::Hold { what: Hold::Lpi { lpis, .. }, .. }) => {
                    count(format!("hold {} {}", side(lpis.start), answer.is_refused()));
                }
                Call::Request(Request { need: Need::Msi { lpi, .. }, .. }) => {
                    count(format!("msi {}", answer.is_refused()));
                    if let Choice::Fixed(lpi) = lpi {
                        count(format!("fixed {} {}", side(*lpi), answer.is_refused()));
                    }
                }
                _ => {}
            }
        }
    }
    println!("{counts:#?}");
    let ends = ["Device empty", "Event empty", "Lpi empty", "Lpi low", "Device full", "Event full", "Lpi full"];
    let domains = ends.iter().flat_map(|end| [format!("Auto {end}"), format!("Fixed {end}")]);
    let sides = ["domain low", "domain high", "hold low true", "hold high true", "hold high false"];
    let asked = ["fixed low true", "fixed high true", "fixed high false"];
    expect(&counts, domains.chain(sides.iter().chain(&asked).map(|key| key.to_string())));
    assert!(!counts.contains_key("hold low false") && !counts.contains_key("fixed low false"));
    assert!(counts["msi false"] * 3 > counts["msi true"] && counts["domain high"] > 10 * counts["domain low"]);
}
