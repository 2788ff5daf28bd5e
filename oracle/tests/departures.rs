// Each place where the original differs from 01 and 02, at its smallest input: what it does bare, and what they say.

use std::collections::BTreeMap;

use std::ops::Range;

use oracle::added::{FIRST_LPI, HELD_ROWS, POOL_ROWS};
use oracle::calls::{
    by_domain, no, rows_of_add, Add, Answer, Call, Choice, Hold, Kind, Need, Place, PoolRange, Refusal, Request,
};
use oracle::departures;
use oracle::foreseen;
use oracle::gen;
use oracle::judge::Judge;
use oracle::resources::bare::Bare;

fn want(requester: u32, need: Need) -> Request {
    Request { requester, slot: 0, need }
}

fn mmio(size: u64, alignment: u64, base: Choice<u64>) -> Request {
    want(1, Need::Mmio { size, alignment, base })
}

fn pio(size: u16, alignment: u16, base: Choice<u16>) -> Request {
    want(1, Need::Pio { size, alignment, base })
}

fn mmio_pool(fixed: bool, start: u64, end: u64) -> Add {
    Add::Pool { fixed, range: PoolRange::Mmio(start..end) }
}

fn exhausted(namespace: u32) -> Answer {
    Answer::Refused(Refusal { namespace, ..Refusal::plain(no::EXHAUSTED) })
}

/// The bare original's answer, and the judge's, on a state made by the calls.
fn both(adds: &[Add], request: &Request) -> (Answer, Answer) {
    let (mut bare, mut judge) = (Bare::new(), Judge::fresh());
    for add in adds {
        assert_eq!(bare.add(add), Answer::Accepted);
        assert_eq!(judge.add(add), Answer::Accepted);
    }
    bare.start();
    judge.start();
    let call = Call::Request(request.clone());
    let names = departures::of(judge.tables(), &call);
    let answers = (bare.request(request), judge.request(request));
    assert!(!names.is_empty() || answers.0 == answers.1, "{request:?} differs under no name");
    answers
}

fn panics(answer: &Answer) -> bool {
    matches!(answer, Answer::Panicked(_))
}

const BAD_INPUT: Answer = Answer::plain(no::BAD_INPUT);

#[test]
fn alignment_zero_auto() {
    let pool = Add::Pool { fixed: false, range: PoolRange::Pio(0..1) };
    assert_eq!(both(&[], &mmio(1, 0, Choice::Auto)), (exhausted(1), BAD_INPUT));
    assert_eq!(both(&[mmio_pool(false, 0, 1)], &mmio(1, 0, Choice::Auto)), (exhausted(1), BAD_INPUT));
    assert_eq!(both(&[pool], &pio(1, 0, Choice::Auto)), (exhausted(2), BAD_INPUT));
}

#[test]
fn alignment_zero_fixed() {
    let (bare, judge) = both(&[], &mmio(1, 0, Choice::Fixed(0)));
    assert!(panics(&bare), "{bare:?}");
    assert_eq!(judge, BAD_INPUT);
    let (bare, judge) = both(&[], &pio(1, 0, Choice::Fixed(0)));
    assert!(panics(&bare), "{bare:?}");
    assert_eq!(judge, BAD_INPUT);
}

#[test]
fn alignment_bits() {
    let granted = |base| Answer::Granted([1, 1, 0, base, 1, 0, 0, 0, 0]);
    assert_eq!(both(&[], &mmio(1, 3, Choice::Auto)), (exhausted(1), BAD_INPUT));
    assert_eq!(both(&[mmio_pool(false, 0, 1)], &mmio(1, 3, Choice::Auto)), (granted(0), BAD_INPUT));
    // 1 is no multiple of 3: the original rounds by the bits of 2.
    assert_eq!(both(&[mmio_pool(false, 1, 2)], &mmio(1, 3, Choice::Auto)), (granted(1), BAD_INPUT));
    assert_eq!(both(&[mmio_pool(true, 0, 4)], &mmio(1, 3, Choice::Fixed(3))), (granted(3), BAD_INPUT));
    let pool = Add::Pool { fixed: false, range: PoolRange::Pio(1..2) };
    let granted = Answer::Granted([2, 1, 0, 1, 1, 0, 0, 0, 0]);
    assert_eq!(both(&[pool], &pio(1, 3, Choice::Auto)), (granted, BAD_INPUT));
}

#[test]
fn size_zero() {
    let granted = |base| Answer::Granted([1, 1, 0, base, 0, 0, 0, 0, 0]);
    assert_eq!(both(&[], &mmio(0, 1, Choice::Auto)), (exhausted(1), BAD_INPUT));
    assert_eq!(both(&[mmio_pool(false, 0, 1)], &mmio(0, 1, Choice::Auto)), (granted(0), BAD_INPUT));
    // even the number behind the pool is allowed
    assert_eq!(both(&[mmio_pool(true, 0, 1)], &mmio(0, 1, Choice::Fixed(1))), (granted(1), BAD_INPUT));
    let pool = Add::Pool { fixed: false, range: PoolRange::Pio(0..1) };
    assert_eq!(both(&[pool], &pio(0, 1, Choice::Auto)), (Answer::Granted([2, 1, 0, 0, 0, 0, 0, 0, 0]), BAD_INPUT));
}

#[test]
fn count_zero() {
    let need = |choice| Need::Msi { controller: 0, its: 0, count: 0, device: choice, event: choice, lpi: choice };
    let first = FIRST_LPI..FIRST_LPI + 1;
    let domain = |fixed| Add::Domain { fixed, controller: 0, its: 0, devices: 0..1, events: 0..1, lpis: first.clone() };
    let granted = Answer::Granted([5, 1, 0, 0, 0, 0, 0, FIRST_LPI.into(), 0]);
    assert_eq!(both(&[], &want(1, need(Choice::Auto))), (exhausted(5), BAD_INPUT));
    assert_eq!(both(&[domain(false)], &want(1, need(Choice::Auto))), (granted.clone(), BAD_INPUT));
    let mut fixed = need(Choice::Fixed(0));
    if let Need::Msi { lpi, .. } = &mut fixed {
        *lpi = Choice::Fixed(FIRST_LPI);
    }
    assert_eq!(both(&[domain(true)], &want(1, fixed)), (granted, BAD_INPUT));
}

#[test]
fn requester_zero() {
    let host = want(0, Need::Host { irq: Choice::Auto });
    let pool = Add::Pool { fixed: false, range: PoolRange::Host(0..1) };
    assert_eq!(both(&[], &host), (exhausted(4), BAD_INPUT));
    assert_eq!(both(&[pool], &host), (Answer::Granted([4, 0, 0, 0, 0, 0, 0, 0, 0]), BAD_INPUT));
}

/// The original's types have no value for such a code: what panics here is our way in.
#[test]
fn code_unknown() {
    for (trigger, sharing) in [(4, 0), (0, 2)] {
        let need = Need::Input { controller: 0, trigger, sharing, input: Choice::Auto };
        let (bare, judge) = both(&[], &want(1, need));
        assert!(panics(&bare), "{bare:?}");
        assert_eq!(judge, BAD_INPUT);
        let hold = Add::Hold { owner: 1, what: Hold::Input { controller: 0, input: 0, trigger, sharing } };
        assert!(panics(&Bare::new().add(&hold)));
        assert_eq!(Judge::fresh().add(&hold), BAD_INPUT);
    }
    let pair = Add::Pair { owner: 1, controller: 0, input: 0, host: 0, trigger: 4 };
    assert!(panics(&Bare::new().add(&pair)));
    assert_eq!(Judge::fresh().add(&pair), BAD_INPUT);
}

#[test]
fn pair_no_range() {
    let (mut bare, mut judge) = (Bare::new(), Judge::fresh());
    let hold = Add::Hold { owner: 1, what: Hold::Input { controller: 0, input: 0, trigger: 0, sharing: 0 } };
    let pair = Add::Pair { owner: 1, controller: 0, input: 0, host: u64::MAX, trigger: 0 };
    assert_eq!(bare.add(&pair), Answer::plain(no::EMPTY_RANGE));
    bare.add(&hold);
    judge.add(&hold);
    let reserved = Refusal { owner: 1, ..Refusal::plain(no::RESERVED) };
    assert_eq!(bare.add(&pair), Answer::Refused(reserved));
    assert_eq!(judge.add(&pair), Answer::plain(no::EMPTY_RANGE));
}

fn domain(devices: Range<u32>, events: Range<u32>, lpis: Range<u32>) -> Add {
    Add::Domain { fixed: false, controller: 0, its: 0, devices, events, lpis }
}

fn msi() -> Request {
    let (device, event, lpi) = (Choice::Auto, Choice::Auto, Choice::Auto);
    want(1, Need::Msi { controller: 0, its: 0, count: 1, device, event, lpi })
}

/// A call that adds under the names alone: the bare original's answer, which is foreseen with its rows, and the judge's,
/// which leaves every table as it was.
fn departs(judge: &mut Judge, bare: &mut Bare, add: &Add, names: &[&str]) -> (Answer, Answer) {
    let before = judge.tables().clone();
    assert_eq!(departures::of(&before, &Call::Add(add.clone())), names);
    assert_eq!(foreseen::surprise(judge, add), None);
    let answers = (bare.add(add), judge.add(add));
    assert_eq!(judge.tables(), &before);
    answers
}

/// How many rows each table of a domain has in the original.
fn lengths(bare: &Bare) -> [usize; 3] {
    [Kind::Device, Kind::Event, Kind::Lpi].map(|kind| bare.rows(Place::Auto, kind).len())
}

#[test]
fn lpi_low() {
    let bad_lpi = Answer::plain(no::BAD_LPI);
    let (mut bare, mut judge) = (Bare::new(), Judge::fresh());
    let answers = departs(&mut judge, &mut bare, &domain(0..1, 0..1, 0..1), &["lpi_low"]);
    assert_eq!(answers, (Answer::Accepted, bad_lpi.clone()));
    assert_eq!(lengths(&bare), [1, 1, 1]);
    // the till's interrupt that never fired
    bare.start();
    assert_eq!(bare.request(&msi()), Answer::Granted([5, 1, 0, 0, 0, 0, 0, 0, 1]));
    assert_eq!(judge.request(&msi()), exhausted(5));
    let (mut bare, mut judge) = (Bare::new(), Judge::fresh());
    let hold = |owner, lpis| Add::Hold { owner, what: Hold::Lpi { controller: 0, lpis } };
    let answers = departs(&mut judge, &mut bare, &hold(1, 0..1), &["lpi_low"]);
    assert_eq!(answers, (Answer::Accepted, bad_lpi.clone()));
    // before Reserved
    let (mut bare, mut judge) = (Bare::new(), Judge::fresh());
    let held = hold(7, FIRST_LPI..FIRST_LPI + 2);
    assert_eq!((bare.add(&held), judge.add(&held)), (Answer::Accepted, Answer::Accepted));
    let answers = departs(&mut judge, &mut bare, &hold(1, FIRST_LPI - 1..FIRST_LPI + 1), &["lpi_low"]);
    let reserved = Refusal { owner: 7, ..Refusal::plain(no::RESERVED) };
    assert_eq!(answers, (Answer::Refused(reserved), bad_lpi));
    // the start decides, and what is refused before it
    let turned = Range { start: 9, end: 5 };
    for add in [hold(1, 9000..9001), hold(0, 0..1), hold(1, 5..5), hold(1, turned)] {
        assert!(departures::of(judge.tables(), &Call::Add(add)).is_empty());
    }
}

#[test]
fn domain_whole() {
    let empty = Answer::plain(no::EMPTY_RANGE);
    let (mut bare, mut judge) = (Bare::new(), Judge::fresh());
    let first = FIRST_LPI..FIRST_LPI + 1;
    let answers = departs(&mut judge, &mut bare, &domain(0..1, 0..0, first.clone()), &["domain_whole"]);
    assert_eq!(answers, (empty.clone(), empty.clone()));
    assert_eq!(lengths(&bare), [1, 0, 0]);
    // the row that stayed is seen by a later want
    let other = domain(5..6, 0..1, first.clone());
    assert_eq!((bare.add(&other), judge.add(&other)), (Answer::Accepted, Answer::Accepted));
    bare.start();
    judge.start();
    let granted = |device| Answer::Granted([5, 1, 0, 0, 0, device, 0, FIRST_LPI.into(), 1]);
    assert_eq!((bare.request(&msi()), judge.request(&msi())), (granted(0), granted(5)));
    // at the LPIs two rows stay, and a low LPI plays no part
    let (mut bare, mut judge) = (Bare::new(), Judge::fresh());
    let answers = departs(&mut judge, &mut bare, &domain(0..1, 0..1, 5..5), &["domain_whole"]);
    assert_eq!(answers, (empty.clone(), empty.clone()));
    assert_eq!(lengths(&bare), [1, 1, 0]);
    // no departure where no row stays: the first range is empty, or those before it are there already
    let mut judge = Judge::fresh();
    judge.add(&domain(0..1, 0..1, first.clone()));
    for add in [domain(1..1, 2..3, first.clone()), domain(0..1, 1..1, first), domain(0..1, 0..1, 5..5)] {
        assert!(departures::of(judge.tables(), &Call::Add(add.clone())).is_empty());
        assert_eq!((judge.bare_answer(&Call::Add(add.clone())), judge.add(&add)), (Some(empty.clone()), empty.clone()));
    }
}

#[test]
fn pool_table_full() {
    let (mut bare, mut judge) = (Bare::new(), Judge::fresh());
    let most = POOL_ROWS as u64;
    for i in 0..most {
        assert_eq!(bare.add(&mmio_pool(false, i, i + 1)), Answer::Accepted);
        assert_eq!(judge.add(&mmio_pool(false, i, i + 1)), Answer::Accepted);
    }
    assert_eq!(bare.add(&mmio_pool(false, most, most + 1)), Answer::Accepted);
    assert_eq!(bare.rows(Place::Auto, Kind::Mmio).len(), POOL_ROWS + 1);
    assert_eq!(judge.add(&mmio_pool(false, most, most + 1)), Answer::plain(no::FULL));
    assert_eq!(judge.tables().of(Place::Auto, Kind::Mmio).len(), POOL_ROWS);
}

/// An MSI domain of which one range needs a row of a full table, each of the three in turn: 9, and the original has all
/// three rows.
#[test]
fn pool_table_full_for_a_domain() {
    for full in 0..3 {
        let (mut bare, mut judge) = (Bare::new(), Judge::fresh());
        let range = |kind: usize, i: u32| {
            let start = [0, 0, FIRST_LPI][kind] + if kind == full { i } else { 0 };
            start..start + 1
        };
        for i in 0..POOL_ROWS as u32 {
            let add = domain(range(0, i), range(1, i), range(2, i));
            assert_eq!((bare.add(&add), judge.add(&add)), (Answer::Accepted, Answer::Accepted));
        }
        let mut before = [1; 3];
        before[full] = POOL_ROWS;
        assert_eq!(lengths(&bare), before);
        // a full table, and the two others need a row too
        let add = domain(900..901, 900..901, 9000..9001);
        let answers = departs(&mut judge, &mut bare, &add, &["pool_table_full"]);
        assert_eq!(answers, (Answer::Accepted, Answer::plain(no::FULL)));
        assert_eq!(lengths(&bare), before.map(|rows| rows + 1));
        // 4 and 12 come first
        let add = domain(900..901, 900..901, 1..2);
        let names = departures::of(judge.tables(), &Call::Add(add.clone()));
        assert_eq!((names, judge.add(&add)), (vec!["lpi_low"], Answer::plain(no::BAD_LPI)));
        let add = domain(800..801, 7..7, 9000..9001);
        let names = departures::of(judge.tables(), &Call::Add(add.clone()));
        assert_eq!((names, judge.add(&add)), (vec!["domain_whole"], Answer::plain(no::EMPTY_RANGE)));
        // a duplicate needs no row
        let add = domain(range(0, 7), range(1, 7), range(2, 7));
        assert!(departures::of(judge.tables(), &Call::Add(add.clone())).is_empty());
        assert_eq!(judge.add(&add), Answer::Accepted);
    }
}

#[test]
fn held_table_full() {
    let (mut bare, mut judge) = (Bare::new(), Judge::fresh());
    let hold = |i: u64| Add::Hold { owner: 1, what: Hold::Mmio(i..i + 1) };
    let pool = mmio_pool(false, 0, 999);
    let most = HELD_ROWS as u64;
    for i in 0..most {
        assert_eq!(bare.add(&hold(i)), Answer::Accepted);
        assert_eq!(judge.add(&hold(i)), Answer::Accepted);
    }
    bare.add(&pool);
    judge.add(&pool);
    bare.start();
    judge.start();
    let request = mmio(1, 1, Choice::Auto);
    assert_eq!(bare.request(&request), Answer::Granted([1, 1, 0, most, 1, 0, 0, 0, 0]));
    assert_eq!(judge.request(&request), Answer::plain(no::FULL));
    assert_eq!(bare.add(&hold(most)), Answer::Accepted);
    assert_eq!(judge.add(&hold(most)), Answer::plain(no::FULL));
}

/// The original's allocators borrow the pools, so that no reservation can be made while they are at work.
#[test]
fn owners_unsound() {
    let mut judge = Judge::fresh();
    judge.add(&Add::Hold { owner: 1, what: Hold::Mmio(0..1) });
    let request = want(1, Need::Host { irq: Choice::Auto });
    let call = Call::Request(request.clone());
    assert_eq!(departures::of(judge.tables(), &call), ["owners_unsound"]);
    assert_eq!(judge.bare_answer(&call), Some(exhausted(4)));
    assert_eq!(judge.request(&request), Answer::plain(no::MALFORMED));
}

/// The original has no plans; a request by itself is not refused.
#[test]
fn plan_short() {
    let mut judge = Judge::fresh();
    judge.add(&mmio_pool(false, 0, 999));
    let call = Call::Plan { requests: vec![mmio(1, 1, Choice::Auto)], results: 8 };
    assert_eq!(departures::of(judge.tables(), &call), ["plan_short"]);
    assert_eq!(judge.call(&call).answer, Answer::plain(no::SHORT));
}

/// Same answers, but the original tries every held number.
#[test]
fn host_crawl() {
    let adds = [
        Add::Pool { fixed: false, range: PoolRange::Host(0..65_538) },
        Add::Hold { owner: 1, what: Hold::Host(0..65_537) },
    ];
    let granted = Answer::Granted([4, 1, 0, 65_537, 0, 0, 0, 0, 0]);
    let request = want(1, Need::Host { irq: Choice::Auto });
    assert_eq!(both(&adds, &request), (granted.clone(), granted));
    let mut judge = Judge::fresh();
    for add in &adds {
        judge.add(add);
    }
    judge.start();
    assert_eq!(departures::of(judge.tables(), &Call::Request(request)), ["host_crawl"]);
}

/// Blocks of a million and more, which the bare original tries number by number: the judge, which takes them out of its pools, has the same answers.
#[test]
fn blocks_of_a_million() {
    const M: u64 = 1_000_000;
    let request = want(1, Need::Host { irq: Choice::Auto });
    let granted = |irq| Answer::Granted([4, 1, 0, irq, 0, 0, 0, 0, 0]);
    for (pools, blocks, answer) in [
        (vec![0..2 * M], vec![0..M], granted(M)),
        (vec![0..M], vec![0..M], exhausted(4)),
        (vec![0..M + 1], vec![0..M], granted(M)),
        (vec![M / 2..2 * M], vec![0..M], granted(M)),
        (vec![0..2 * M], vec![1..M], granted(0)),
        (vec![0..4 * M], vec![2 * M..3 * M, M..2 * M, 0..M], granted(3 * M)),
        (vec![0..4 * M], vec![M + 1..2 * M, 0..M], granted(M)),
        (vec![0..M, M / 2..M + 1], vec![0..M], granted(M)),
        (vec![0..M, 5 * M..6 * M], vec![0..M, 5 * M..6 * M - 1], granted(6 * M - 1)),
        (vec![u64::MAX - M..u64::MAX], vec![u64::MAX - M..u64::MAX - 1], granted(u64::MAX - 1)),
        (vec![u64::MAX - M..u64::MAX], vec![u64::MAX - M..u64::MAX], exhausted(4)),
    ] {
        let pool = |range| Add::Pool { fixed: false, range: PoolRange::Host(range) };
        let hold = |range| Add::Hold { owner: 9, what: Hold::Host(range) };
        let adds: Vec<Add> = pools.into_iter().map(pool).chain(blocks.into_iter().map(hold)).collect();
        assert_eq!(both(&adds, &request), (answer.clone(), answer), "{adds:?}");
    }
}

/// Under no departure the judge's answer is the bare original's; every departure but the slow one comes up.
#[test]
fn nothing_is_added_elsewhere() {
    std::panic::set_hook(Box::new(|_| {}));
    let mut counts: BTreeMap<&str, usize> = BTreeMap::new();
    let mut same = 0;
    for index in 0..gen::runs(4_000) {
        let mut judge = Judge::fresh();
        for call in gen::sequence(5, index) {
            let names = departures::of(judge.tables(), &call);
            let bare = if names.is_empty() { judge.bare_answer(&call) } else { None };
            let answer = judge.call(&call).answer;
            if let Some(bare) = bare {
                assert_eq!(answer, bare, "sequence {index}, {call:?}");
                same += 1;
            }
            for name in names {
                *counts.entry(name).or_default() += 1;
            }
        }
    }
    println!("{same} answers are the bare original's; departures: {counts:#?}");
    let missing: Vec<&str> = departures::ALL
        .iter()
        .map(|departure| departure.name)
        .filter(|name| *name != "host_crawl" && !counts.contains_key(name))
        .collect();
    assert!(missing.is_empty(), "{missing:?}");
}

/// The three names of MSI domains and low LPIs hold just where the judge's answer or its tables are not the original's; and
/// what the original does with any call that adds is foreseen.
#[test]
fn calls_that_add_are_foreseen() {
    let mut counts: BTreeMap<&str, usize> = BTreeMap::new();
    for index in 0..gen::runs(4_000) {
        let mut judge = Judge::fresh();
        for call in gen::sequence(6, index).into_iter().chain(gen::tight_sequence(6, index)) {
            let Call::Add(add) = &call else { continue };
            if !foreseen::can_be_given(add) {
                continue;
            }
            assert_eq!(foreseen::surprise(&judge, add), None, "sequence {index}");
            let names = departures::of(judge.tables(), &call);
            let mut bare = judge.bare().copy();
            let (theirs, ours) = (bare.add(add), judge.add(add));
            let tables = rows_of_add(add);
            let rows = tables
                .iter()
                .all(|(place, kind, _)| bare.rows(*place, *kind) == by_domain(judge.tables().of(*place, *kind)));
            assert_eq!(names.contains(&"lpi_low"), ours == Answer::plain(no::BAD_LPI));
            let domain = matches!(add, Add::Domain { .. });
            let kept = domain && ours == Answer::plain(no::EMPTY_RANGE) && !rows;
            assert_eq!(names.contains(&"domain_whole"), kept);
            let pool = domain || matches!(add, Add::Pool { .. });
            assert_eq!(names.contains(&"pool_table_full"), pool && ours == Answer::plain(no::FULL));
            assert!(!names.is_empty() || (rows && theirs == ours), "sequence {index}, {add:?}");
            names.into_iter().for_each(|name| *counts.entry(name).or_default() += 1);
        }
    }
    println!("{counts:#?}");
    assert!(["lpi_low", "domain_whole", "pool_table_full", "held_table_full"]
        .iter()
        .all(|name| counts.contains_key(name)));
}
