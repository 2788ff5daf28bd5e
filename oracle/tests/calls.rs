// What a text cannot say: plans, starts, mixed MSI choices, the pair call, and the tables after each call.

use std::ops::Range;

use oracle::added::{FIRST_LPI, HELD_ROWS, PLAN_REQUESTS, POOL_ROWS};
use oracle::calls::{
    no, wired, Add, Answer, Choice, Hold, Kind, Need, Place, PoolRange, Refusal, Request, Row, Tables,
};
use oracle::judge::Judge;

/// An empty range of another sort, too low where it is of LPIs.
const TURNED: Range<u32> = Range { start: 9, end: 5 };

fn host(requester: u32, irq: Choice<u64>) -> Request {
    Request { requester, slot: 0, need: Need::Host { irq } }
}

fn host_pool(fixed: bool, start: u64, end: u64) -> Add {
    Add::Pool { fixed, range: PoolRange::Host(start..end) }
}

fn host_hold(owner: u32, start: u64, end: u64) -> Add {
    Add::Hold { owner, what: Hold::Host(start..end) }
}

fn row(start: u64, end: u64, owner: u32) -> Row {
    Row { start, end, owner, ..Row::default() }
}

fn domain(fixed: bool, devices: Range<u32>, events: Range<u32>, lpis: Range<u32>) -> Add {
    Add::Domain { fixed, controller: 1, its: 2, devices, events, lpis }
}

fn msi(device: Choice<u32>, event: Choice<u32>, lpi: Choice<u32>) -> Request {
    Request { requester: 5, slot: 0, need: Need::Msi { controller: 1, its: 2, count: 2, device, event, lpi } }
}

fn accept(judge: &mut Judge, add: &Add) {
    assert_eq!(judge.add(add), Answer::Accepted, "{add:?}");
}

fn granted_host(requester: u64, irq: u64) -> Answer {
    Answer::Granted([4, requester, 0, irq, 0, 0, 0, 0, 0])
}

#[test]
fn requests_work_before_any_start_without_reservations() {
    let mut judge = Judge::fresh();
    accept(&mut judge, &host_pool(false, 5, 7));
    assert_eq!(judge.request(&host(1, Choice::Auto)), granted_host(1, 5));
    assert_eq!(judge.tables().of(Place::Owner, Kind::Host), &[row(5, 6, 1)]);
}

#[test]
fn a_reservation_since_the_start_is_malformed_until_started_again() {
    let mut judge = Judge::fresh();
    accept(&mut judge, &host_pool(false, 5, 9));
    accept(&mut judge, &host_hold(9, 5, 6));
    assert_eq!(judge.request(&host(1, Choice::Auto)), Answer::plain(no::MALFORMED));
    judge.start();
    assert_eq!(judge.request(&host(1, Choice::Auto)), granted_host(1, 6));
    accept(&mut judge, &host_hold(9, 7, 8));
    assert_eq!(judge.request(&host(1, Choice::Auto)), Answer::plain(no::MALFORMED));
    let plan = judge.plan(&[], 0);
    assert_eq!((plan.answer, plan.index), (Answer::plain(no::MALFORMED), 0));
    judge.start();
    assert_eq!(judge.tables().of(Place::Owner, Kind::Host), &[row(5, 6, 9), row(7, 8, 9)]);
    assert_eq!(judge.request(&host(1, Choice::Auto)), granted_host(1, 6));
}

/// The owner table still begins with the reservations: the new one is just what was granted first.
#[test]
fn a_reservation_of_what_was_granted_first_is_sound() {
    let mut judge = Judge::fresh();
    accept(&mut judge, &host_pool(false, 5, 9));
    assert_eq!(judge.request(&host(1, Choice::Auto)), granted_host(1, 5));
    accept(&mut judge, &host_hold(1, 5, 6));
    assert_eq!(judge.request(&host(1, Choice::Auto)), granted_host(1, 6));
    accept(&mut judge, &host_hold(2, 6, 7));
    assert_eq!(judge.request(&host(1, Choice::Auto)), Answer::plain(no::MALFORMED));
}

#[test]
fn a_call_of_one_kind_looks_at_its_own_tables() {
    let mut judge = Judge::fresh();
    accept(&mut judge, &host_pool(false, 5, 9));
    accept(&mut judge, &Add::Hold { owner: 1, what: Hold::Mmio(0..1) });
    assert_eq!(judge.request(&host(1, Choice::Auto)), Answer::plain(no::MALFORMED));
    assert_eq!(judge.request_of_kind(&host(1, Choice::Auto)), granted_host(1, 5));
}

#[test]
fn malformed_comes_before_short_and_short_before_bad_input() {
    let mut judge = Judge::fresh();
    assert_eq!(judge.request_into(&host(0, Choice::Auto), 8), Answer::plain(no::SHORT));
    assert_eq!(judge.request_into(&host(0, Choice::Auto), 9), Answer::plain(no::BAD_INPUT));
    accept(&mut judge, &host_hold(1, 0, 1));
    assert_eq!(judge.request_into(&host(0, Choice::Auto), 8), Answer::plain(no::MALFORMED));
}

#[test]
fn pools_added_after_a_start_serve_the_next_request() {
    let mut judge = Judge::fresh();
    accept(&mut judge, &host_pool(false, 5, 6));
    assert_eq!(judge.request(&host(1, Choice::Auto)), granted_host(1, 5));
    accept(&mut judge, &host_pool(false, 3, 7));
    assert_eq!(judge.request(&host(2, Choice::Auto)), granted_host(2, 3));
    assert_eq!(judge.request(&host(2, Choice::Auto)), granted_host(2, 4));
    assert_eq!(judge.request(&host(2, Choice::Auto)), granted_host(2, 6));
    assert_eq!(judge.tables().of(Place::Owner, Kind::Host), &[row(5, 6, 1), row(3, 4, 2), row(4, 5, 2), row(6, 7, 2)]);
}

#[test]
fn a_refused_plan_puts_the_owners_back_and_keeps_its_records() {
    let mut judge = Judge::fresh();
    accept(&mut judge, &host_pool(false, 5, 7));
    assert_eq!(judge.request(&host(1, Choice::Auto)), granted_host(1, 5));
    let plan = judge.plan(&[host(2, Choice::Auto), host(3, Choice::Auto), host(0, Choice::Auto)], 27);
    let exhausted = Refusal { namespace: 4, ..Refusal::plain(no::EXHAUSTED) };
    assert_eq!((plan.answer, plan.index), (Answer::Refused(exhausted), 1));
    assert_eq!(plan.records, [[4, 2, 0, 6, 0, 0, 0, 0, 0]]);
    assert_eq!(judge.tables().of(Place::Owner, Kind::Host), &[row(5, 6, 1)]);
    assert_eq!(judge.request(&host(2, Choice::Auto)), granted_host(2, 6));
}

#[test]
fn a_plan_tests_its_length_and_its_results_first() {
    let mut judge = Judge::fresh();
    accept(&mut judge, &host_pool(false, 0, 999));
    let plan = |judge: &mut Judge, length: usize, results: usize| {
        let plan = judge.plan(&vec![host(1, Choice::Auto); length], results);
        (plan.answer, plan.index, plan.records.len())
    };
    assert_eq!(plan(&mut judge, PLAN_REQUESTS + 1, 9 * (PLAN_REQUESTS + 1)), (Answer::plain(no::SHORT), 0, 0));
    assert_eq!(plan(&mut judge, 2, 17), (Answer::plain(no::SHORT), 0, 0));
    assert_eq!(plan(&mut judge, 0, 0), (Answer::Accepted, 0, 0));
    let most = PLAN_REQUESTS.min(HELD_ROWS);
    assert_eq!(plan(&mut judge, most, 9 * most), (Answer::Accepted, 0, most));
    for _ in most..HELD_ROWS {
        assert_eq!(plan(&mut judge, 1, 9), (Answer::Accepted, 0, 1));
    }
    assert_eq!(plan(&mut judge, 1, 9), (Answer::plain(no::FULL), 0, 0));
    judge.start();
    assert_eq!(plan(&mut judge, 2, 99), (Answer::Accepted, 0, 2));
}

/// Each of the three choices on its own: automatic ones from the automatic domain, fixed ones from the fixed one.
#[test]
fn msi_choices_stand_on_their_own() {
    use Choice::{Auto, Fixed};
    let numbers = |device: Choice<u32>, event: Choice<u32>, lpi: Choice<u32>| {
        let mut judge = Judge::fresh();
        accept(&mut judge, &domain(false, 10..12, 20..24, 9030..9034));
        accept(&mut judge, &domain(true, 110..112, 120..124, 9130..9134));
        judge.request(&msi(device, event, lpi))
    };
    let granted = |device, event, lpi| Answer::Granted([5, 5, 0, 1, 2, device, event, lpi, 2]);
    assert_eq!(numbers(Auto, Auto, Auto), granted(10, 20, 9030));
    assert_eq!(numbers(Fixed(111), Auto, Auto), granted(111, 20, 9030));
    assert_eq!(numbers(Auto, Fixed(121), Auto), granted(10, 121, 9030));
    assert_eq!(numbers(Auto, Auto, Fixed(9132)), granted(10, 20, 9132));
    assert_eq!(numbers(Fixed(110), Fixed(120), Auto), granted(110, 120, 9030));
    assert_eq!(numbers(Fixed(110), Auto, Fixed(9130)), granted(110, 20, 9130));
    assert_eq!(numbers(Auto, Fixed(120), Fixed(9130)), granted(10, 120, 9130));
    assert_eq!(numbers(Fixed(110), Fixed(122), Fixed(9132)), granted(110, 122, 9132));
    let refused = |namespace| Answer::Refused(Refusal { namespace, ..Refusal::plain(no::FIXED_NOT_ALLOWED) });
    assert_eq!(numbers(Fixed(10), Auto, Auto), refused(5));
    assert_eq!(numbers(Auto, Fixed(123), Auto), refused(5));
    assert_eq!(numbers(Auto, Auto, Fixed(9030)), refused(6));
    // no request gets 12: a low LPI lies in no pool
    assert_eq!(numbers(Auto, Auto, Fixed(FIRST_LPI - 1)), refused(6));
    assert_eq!(numbers(Auto, Auto, Fixed(0)), refused(6));
}

#[test]
fn an_msi_grant_adds_three_rows() {
    let mut judge = Judge::fresh();
    accept(&mut judge, &domain(false, 10..12, 20..24, 9030..9034));
    judge.request(&msi(Choice::Auto, Choice::Auto, Choice::Auto));
    let tables = judge.tables();
    assert_eq!(tables.of(Place::Owner, Kind::Device), &[Row { domain: [1, 2, 0], ..row(10, 11, 5) }]);
    assert_eq!(tables.of(Place::Owner, Kind::Event), &[Row { domain: [1, 2, 10], ..row(20, 22, 5) }]);
    assert_eq!(tables.of(Place::Owner, Kind::Lpi), &[Row { domain: [1, 0, 0], ..row(9030, 9032, 5) }]);
}

/// The rows of the three automatic tables of a domain.
fn rows(tables: &Tables) -> [Vec<(u64, u64)>; 3] {
    [Kind::Device, Kind::Event, Kind::Lpi]
        .map(|kind| tables.of(Place::Auto, kind).iter().map(|row| (row.start, row.end)).collect())
}

/// A refused domain leaves every table as it was: 4 at any of its ranges, then 12, then 9 of any of its tables.
#[test]
fn a_refused_msi_domain_leaves_nothing() {
    let (good, lpis) = (0..1, FIRST_LPI..FIRST_LPI + 1);
    let low = FIRST_LPI - 1..FIRST_LPI + 1;
    let mut judge = Judge::fresh();
    for (devices, events, lpis, number) in [
        (1..1, good.clone(), lpis.clone(), no::EMPTY_RANGE),
        (good.clone(), 1..1, lpis.clone(), no::EMPTY_RANGE),
        (good.clone(), good.clone(), 5..5, no::EMPTY_RANGE),
        (good.clone(), good.clone(), TURNED, no::EMPTY_RANGE),
        (good.clone(), TURNED, low.clone(), no::EMPTY_RANGE),
        (good.clone(), good.clone(), low.clone(), no::BAD_LPI),
        (good.clone(), good.clone(), 0..1, no::BAD_LPI),
    ] {
        assert_eq!(judge.add(&domain(false, devices, events, lpis)), Answer::plain(number));
        assert_eq!(judge.tables(), &Tables::default());
    }
    // the event table is full
    for i in 0..POOL_ROWS as u32 {
        accept(&mut judge, &domain(false, good.clone(), i..i + 1, lpis.clone()));
    }
    let before = judge.tables().clone();
    for (devices, events, lpis, number) in [
        (5..6, 99..100, 9..9, no::EMPTY_RANGE),
        (6..6, 99..100, lpis.clone(), no::EMPTY_RANGE),
        (5..6, 99..100, low, no::BAD_LPI),
        (5..6, 99..100, lpis.clone(), no::FULL),
        (good.clone(), 99..100, 9000..9001, no::FULL),
    ] {
        assert_eq!(judge.add(&domain(false, devices, events, lpis)), Answer::plain(number));
        assert_eq!(judge.tables(), &before);
    }
    // a duplicate needs no row, and the other use has tables of its own
    accept(&mut judge, &domain(false, 7..8, 7..8, 9000..9001));
    assert_eq!(rows(judge.tables()).map(|rows| rows.len()), [2, POOL_ROWS, 2]);
    accept(&mut judge, &domain(true, 7..8, 99..100, 9000..9001));
}

/// An accepted domain leaves the rows that it always left.
#[test]
fn an_accepted_msi_domain_adds_its_three_rows() {
    let mut judge = Judge::fresh();
    accept(&mut judge, &domain(false, 5..6, 3..4, 8193..8195));
    accept(&mut judge, &domain(false, 1..2, 3..4, FIRST_LPI..8200));
    assert_eq!(rows(judge.tables()), [vec![(1, 2), (5, 6)], vec![(3, 4)], vec![(8192, 8200), (8193, 8195)]]);
}

/// 3, 4, 12, 5, 9 for a reservation of LPIs.
#[test]
fn a_reservation_of_low_lpis() {
    let mut judge = Judge::fresh();
    let hold = |owner, lpis: Range<u32>| Add::Hold { owner, what: Hold::Lpi { controller: 1, lpis } };
    assert_eq!(judge.add(&hold(0, 5..5)), Answer::plain(no::BAD_OWNER));
    assert_eq!(judge.add(&hold(0, 5..6)), Answer::plain(no::BAD_OWNER));
    assert_eq!(judge.add(&hold(1, 5..5)), Answer::plain(no::EMPTY_RANGE));
    assert_eq!(judge.add(&hold(1, TURNED)), Answer::plain(no::EMPTY_RANGE));
    for low in [0..1, FIRST_LPI - 1..FIRST_LPI, FIRST_LPI - 1..FIRST_LPI + 1, 0..u32::MAX] {
        assert_eq!(judge.add(&hold(1, low)), Answer::plain(no::BAD_LPI));
    }
    assert_eq!(judge.tables(), &Tables::default());
    for i in 0..HELD_ROWS as u32 {
        accept(&mut judge, &hold(7, FIRST_LPI + i..FIRST_LPI + i + 1));
    }
    let before = judge.tables().clone();
    // before Reserved, and before Full
    assert_eq!(judge.add(&hold(1, FIRST_LPI - 1..FIRST_LPI + 1)), Answer::plain(no::BAD_LPI));
    assert_eq!(judge.add(&hold(1, 5..6)), Answer::plain(no::BAD_LPI));
    let reserved = Refusal { owner: 7, ..Refusal::plain(no::RESERVED) };
    assert_eq!(judge.add(&hold(1, FIRST_LPI..FIRST_LPI + 1)), Answer::Refused(reserved));
    assert_eq!(judge.add(&hold(1, 9000..9001)), Answer::plain(no::FULL));
    assert_eq!(judge.tables(), &before);
}

/// A pool row goes before the first row of its own domain with a greater start, else to the end of the whole table.
#[test]
fn pool_rows_of_all_domains_share_a_table() {
    let mut judge = Judge::fresh();
    let mut add = |controller: u32, start: u64, end: u64| {
        accept(&mut judge, &Add::Pool { fixed: true, range: PoolRange::Input { controller, inputs: start..end } });
    };
    add(2, 5, 6);
    add(1, 7, 9);
    add(2, 5, 8);
    add(1, 3, 4);
    add(2, 1, 2);
    add(2, 5, 6);
    let rows: Vec<(u32, u64, u64)> =
        judge.tables().of(Place::Fixed, Kind::Input).iter().map(|row| (row.domain[0], row.start, row.end)).collect();
    assert_eq!(rows, [(2, 1, 2), (2, 5, 6), (1, 3, 4), (1, 7, 9), (2, 5, 8)]);
}

#[test]
fn the_pair_reserves_both_or_neither() {
    let mut judge = Judge::fresh();
    let pair = |owner, input, host, trigger| Add::Pair { owner, controller: 3, input, host, trigger };
    let reserved = |owner| Answer::Refused(Refusal { owner, ..Refusal::plain(no::RESERVED) });
    accept(&mut judge, &pair(7, 1, 40, 2));
    assert_eq!(judge.tables().of(Place::Held, Kind::Input), &[wired(3, 1, 2, 0, 7)]);
    assert_eq!(judge.tables().of(Place::Held, Kind::Host), &[row(40, 41, 7)]);
    assert_eq!(judge.add(&pair(8, 1, 41, 0)), reserved(7));
    assert_eq!(judge.add(&pair(8, 2, 40, 0)), reserved(7));
    accept(&mut judge, &host_hold(6, 50, 60));
    assert_eq!(judge.add(&pair(8, 1, 55, 0)), reserved(7));
    assert_eq!(judge.add(&pair(8, 2, 55, 0)), reserved(6));
    assert_eq!(judge.add(&pair(0, 2, 41, 4)), Answer::plain(no::BAD_INPUT));
    assert_eq!(judge.add(&pair(0, 1, u64::MAX, 3)), Answer::plain(no::BAD_OWNER));
    assert_eq!(judge.add(&pair(8, 1, u64::MAX, 3)), Answer::plain(no::EMPTY_RANGE));
    assert_eq!(judge.tables().of(Place::Held, Kind::Input).len(), 1);
    assert_eq!(judge.tables().of(Place::Held, Kind::Host).len(), 2);
    accept(&mut judge, &pair(8, u64::MAX, u64::MAX - 1, 0));
}

#[test]
fn the_pair_finds_either_table_full() {
    for host_full in [false, true] {
        let mut judge = Judge::fresh();
        for i in 0..HELD_ROWS as u64 {
            let input = Hold::Input { controller: 9, input: i, trigger: 0, sharing: 0 };
            let what = if host_full { Hold::Host(i..i + 1) } else { input };
            accept(&mut judge, &Add::Hold { owner: 1, what });
        }
        let before = judge.tables().clone();
        let pair = Add::Pair { owner: 2, controller: 3, input: 500, host: 500, trigger: 0 };
        assert_eq!(judge.add(&pair), Answer::plain(no::FULL));
        assert_eq!(judge.tables(), &before);
    }
}

#[test]
fn a_long_held_stretch_of_host_irqs_does_not_stall() {
    let mut judge = Judge::fresh();
    accept(&mut judge, &host_pool(false, 0, u64::MAX));
    accept(&mut judge, &host_hold(9, 0, u64::MAX - 2));
    judge.start();
    assert_eq!(judge.request(&host(1, Choice::Auto)), granted_host(1, u64::MAX - 2));
    assert_eq!(judge.request(&host(1, Choice::Auto)), granted_host(1, u64::MAX - 1));
    let exhausted = Refusal { namespace: 4, ..Refusal::plain(no::EXHAUSTED) };
    assert_eq!(judge.request(&host(1, Choice::Auto)), Answer::Refused(exhausted));
}
