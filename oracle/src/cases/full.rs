// Tables filled to their last row: what still gets in, what is refused before Full, and the limit of wants.

use super::{case, lines, refused, Case};
use crate::added::{FIRST_LPI, HELD_ROWS, PLAN_REQUESTS, POOL_ROWS};

const KINDS: [&str; 7] = ["mmio", "pio", "input", "host", "device", "event", "lpi"];

pub fn all() -> Vec<Case> {
    let mut cases = Vec::new();
    for kind in KINDS {
        for mode in ["auto", "fixed"] {
            cases.extend(full_pool(mode, kind));
        }
        cases.extend(full_holds(kind));
        cases.extend(full_owners(kind));
    }
    for mode in ["auto", "fixed"] {
        cases.extend(full_domains(mode));
    }
    cases.extend(mixed());
    cases.extend(many_wants());
    cases
}

/// The first number of range `i` of a kind.
fn first(kind: &str, i: usize) -> usize {
    let least = if kind == "lpi" { FIRST_LPI as usize } else { 0 };
    least + 2 * i
}

/// The range of that number.
fn span(kind: &str, i: usize) -> String {
    format!("{} {}", first(kind, i), first(kind, i) + 2)
}

/// A pool line whose row in the table of the kind is number `i`.
fn pool(mode: &str, kind: &str, i: usize) -> String {
    match kind {
        "input" => format!("pool {mode} input {} {}", i % 2, span(kind, i)),
        "device" | "event" | "lpi" => {
            let three = ["device", "event", "lpi"].map(|other| span(other, if other == kind { i } else { 0 }));
            format!("pool {mode} msi {} {} {}", i % 2, i % 3, three.join(" "))
        }
        _ => format!("pool {mode} {kind} {}", span(kind, i)),
    }
}

/// A hold line of the kind whose row meets no other number's.
fn hold(owner: u32, kind: &str, i: usize) -> String {
    let span = span(kind, i);
    match kind {
        "input" => format!("hold {owner} input 0 {i} 1 1"),
        "device" => format!("hold {owner} device 0 0 {span}"),
        "event" => format!("hold {owner} event 0 0 {} {span}", i % 2),
        "lpi" => format!("hold {owner} lpi 0 {span}"),
        _ => format!("hold {owner} {kind} {span}"),
    }
}

fn joined(lines: impl Iterator<Item = String>) -> String {
    lines.collect::<Vec<_>>().join("/")
}

fn full_pool(mode: &str, kind: &str) -> Vec<Case> {
    let full = joined((0..POOL_ROWS).map(|i| pool(mode, kind, i)));
    let more = POOL_ROWS + 1;
    let name = |what: &str| format!("full-pool-{mode}-{kind}-{what}");
    let empty = pool(mode, kind, more).replace(&span(kind, more), &format!("{0} {0}", first(kind, more)));
    vec![
        case(&name("one-more"), lines(&format!("{full}/{}", pool(mode, kind, POOL_ROWS))), refused(more, 9)),
        case(&name("duplicate"), lines(&format!("{full}/{}", pool(mode, kind, 7))), lines("end 0")),
        case(&name("empty"), lines(&format!("{full}/{empty}")), refused(more, 4)),
    ]
}

/// MSI domains that need a row of a full table, which is `+`: 4 and 12 of any range come before 9.
const FULL_DOMAINS: [(&str, &str, &str, u32); 9] = [
    ("device", "empty-event", "+ 7 7 8192 8194", 4),
    ("device", "empty-lpi", "+ 0 2 9 9", 4),
    ("device", "low-lpi", "+ 0 2 8191 8194", 12),
    ("event", "empty-device", "7 6 + 8192 8194", 4),
    ("event", "empty-lpi", "0 2 + 9 5", 4),
    ("event", "low-lpi", "0 2 + 0 1", 12),
    ("lpi", "empty-device", "7 7 0 2 +", 4),
    ("lpi", "empty-event", "0 2 7 6 +", 4),
    ("lpi", "low-lpi", "0 2 0 2 8191 8294", 12),
];

fn full_domains(mode: &str) -> impl Iterator<Item = Case> + '_ {
    FULL_DOMAINS.iter().map(move |(kind, what, bounds, number)| {
        let full = joined((0..POOL_ROWS).map(|i| pool(mode, kind, i)));
        let bounds = bounds.replace('+', &span(kind, POOL_ROWS));
        let text = lines(&format!("{full}/pool {mode} msi 0 0 {bounds}"));
        case(&format!("full-pool-{mode}-{kind}-{what}"), text, refused(POOL_ROWS + 1, *number))
    })
}

fn full_holds(kind: &str) -> Vec<Case> {
    let full = joined((0..HELD_ROWS).map(|i| hold(4, kind, i)));
    let more = HELD_ROWS + 1;
    let name = |what: &str| format!("full-hold-{kind}-{what}");
    let reserved = lines(&format!("no {more} 5 0 4 0"));
    let mut cases = vec![
        case(&name("one-more"), lines(&format!("{full}/{}", hold(5, kind, HELD_ROWS))), refused(more, 9)),
        case(&name("reserved"), lines(&format!("{full}/{}", hold(5, kind, HELD_ROWS - 1))), reserved),
        case(&name("owner-0"), lines(&format!("{full}/{}", hold(0, kind, HELD_ROWS))), refused(more, 3)),
    ];
    if kind == "lpi" {
        let low = format!("{full}/hold 5 lpi 0 8191 8194");
        cases.push(case(&name("low"), lines(&low), refused(more, 12)));
    }
    cases
}

const DOMAIN: &str = "pool M msi 0 0 0 999 0 999 8192 9191";

/// The wants that meet a full owner table of the kind: pools, an automatic want, a fixed one, and one for the last number `L` that is held, with what it is
/// refused with before Full.
fn full_owners(kind: &str) -> Vec<Case> {
    let full = joined((0..HELD_ROWS).map(|i| hold(4, kind, i)));
    let name = |what: &str| format!("full-owner-{kind}-{what}");
    let (pools, auto, fixed, taken) = match kind {
        "mmio" => ("pool M mmio 0 999", "mmio 1 1 auto", "mmio 1 1 998", ("mmio 1 1 L", "1 4 1")),
        "pio" => ("pool M pio 0 999", "pio 1 1 auto", "pio 1 1 998", ("pio 1 1 L", "2 4 1")),
        "input" => ("pool M input 0 0 999", "input 0 0 0 auto", "input 0 0 0 998", ("input 0 0 1 L", "3 4 2")),
        "host" => ("pool M host 0 999", "host auto", "host 998", ("host L", "4 4 4")),
        "device" => (DOMAIN, "msi 0 0 1 auto", "msi 0 0 1 998 0 8192", ("msi 0 0 1 L 0 8192", "5 4 5")),
        "event" => (DOMAIN, "msi 0 0 1 auto", "msi 0 0 1 0 998 8192", ("msi 0 0 1 1 L 8192", "5 4 6")),
        _ => (DOMAIN, "msi 0 0 1 auto", "msi 0 0 1 0 0 9190", ("msi 0 0 1 0 0 L", "6 4 7")),
    };
    let last = if kind == "input" { HELD_ROWS } else { first(kind, HELD_ROWS) } - 1;
    let front = format!("{full}/{}/{}", pools.replace('M', "auto"), pools.replace('M', "fixed"));
    let line = HELD_ROWS + 3;
    let mut cases = vec![
        case(&name("auto"), lines(&format!("{front}/want 1 1 {auto}")), refused(line, 9)),
        case(&name("fixed"), lines(&format!("{front}/want 1 1 {fixed}")), refused(line, 9)),
        case(
            &name("conflict"),
            lines(&format!("{front}/want 1 1 {}", taken.0.replace('L', &last.to_string()))),
            lines(&format!("no {line} 8 {}", taken.1)),
        ),
    ];
    if kind == "input" {
        let shared = format!("{front}/want 1 1 input 0 1 1 3");
        cases.push(case(&name("shared"), lines(&shared), refused(line, 9)));
    }
    cases
}

/// Rows of several domains share a table; holds and grants share the owner table; a refusal comes before Full.
fn mixed() -> Vec<Case> {
    let controllers = joined((0..HELD_ROWS).map(|i| format!("hold 1 input {i} 7 0 0")));
    let half = joined((0..HELD_ROWS / 2).map(|i| hold(4, "host", i)));
    let wants = joined((HELD_ROWS / 2..HELD_ROWS).map(|_| "want 1 1 host auto".to_string()));
    let full = joined((0..HELD_ROWS).map(|i| hold(4, "host", i)));
    vec![
        case(
            "full-hold-all-domains",
            lines(&format!("{controllers}/hold 1 input {HELD_ROWS} 7 0 0")),
            refused(HELD_ROWS + 1, 9),
        ),
        case(
            "full-owner-holds-and-grants",
            lines(&format!("{half}/pool auto host 0 999/{wants}/want 1 1 host auto")),
            refused(HELD_ROWS + 2, 9),
        ),
        case(
            "full-owner-exhausted",
            lines(&format!("{full}/pool auto host 0 {}/want 1 1 host auto", 2 * HELD_ROWS)),
            lines(&format!("no {} 7 4 0 0", HELD_ROWS + 2)),
        ),
        case(
            "full-owner-not-allowed",
            lines(&format!("{full}/want 1 1 host 3")),
            lines(&format!("no {} 6 4 0 0", HELD_ROWS + 1)),
        ),
        case("full-owner-bad-input", lines(&format!("{full}/want 0 1 host auto")), refused(HELD_ROWS + 1, 2)),
        case(
            "full-owner-of-another-kind",
            lines(&format!("{full}/pool auto input 0 0 9/want 1 1 input 0 0 0 auto")),
            lines("got 1 1 input 0 0 0 0/end 1"),
        ),
    ]
}

/// As many wants as a plan has; one more is 10 if it is bad, else 11, whatever else could be said against it. Host IRQs as far as their table goes.
fn many_wants() -> Vec<Case> {
    let host = |i: usize| i < HELD_ROWS;
    let wants =
        joined((0..PLAN_REQUESTS).map(|i| format!("want 1 {i} {} auto", if host(i) { "host" } else { "mmio 1 1" })));
    let text = format!("pool auto host 5 999/pool auto mmio 0 9/{wants}");
    let got: String = (0..PLAN_REQUESTS)
        .map(|i| {
            if host(i) {
                format!("got 1 {i} host {}/", i + 5)
            } else {
                format!("got 1 {i} mmio {} 1/", i - HELD_ROWS)
            }
        })
        .collect();
    let of_kind = ["mmio 1 1", "pio 1 1", "host", "input 0 0 0", "msi 0 0 2"];
    let kinds = joined((0..PLAN_REQUESTS).map(|i| format!("want 1 {i} {} auto", of_kind[i % 5])));
    let pools = "pool auto mmio 0 99/pool auto pio 0 99/pool auto host 0 99/pool auto input 0 0 99/pool auto msi 0 0 0 99 0 9 8192 9000";
    let got_kinds: String = (0..PLAN_REQUESTS)
        .map(|i| match i % 5 {
            0 => format!("got 1 {i} mmio {} 1/", i / 5),
            1 => format!("got 1 {i} pio {} 1/", i / 5),
            2 => format!("got 1 {i} host {}/", i / 5),
            3 => format!("got 1 {i} input 0 {} 0 0/", i / 5),
            _ => format!("got 1 {i} msi 0 0 {} 0 {} 2/", i / 5, first("lpi", i / 5)),
        })
        .collect();
    let line = PLAN_REQUESTS + 3;
    let end = format!("end {PLAN_REQUESTS}");
    vec![
        case("wants-most", lines(&text), lines(&format!("{got}{end}"))),
        case("wants-most-mixed", lines(&format!("{pools}/{kinds}")), lines(&format!("{got_kinds}{end}"))),
        case("wants-over", lines(&format!("{text}/want 1 1 mmio 1 1 auto")), refused(line, 11)),
        case("wants-over-full-too", lines(&format!("{text}/want 1 1 host auto")), refused(line, 11)),
        case("wants-over-bad-input", lines(&format!("{text}/want 0 1 mmio 0 3 auto")), refused(line, 11)),
        case("wants-over-bad-line", lines(&format!("{text}/want 1 1 mmio 1 1")), refused(line, 10)),
        case("wants-over-pool", lines(&format!("{text}/pool auto mmio 0 9")), refused(line, 10)),
        case("wants-over-bad-after", lines(&format!("{text}/want 1 1 host auto/nonsense")), refused(line, 11)),
        case("wants-most-empty-line", lines(&format!("{text}/")), refused(line, 10)),
    ]
}
