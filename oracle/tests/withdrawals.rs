// Withdrawals, which the original does not have: by hand, and on random calls against an original that begins afresh with the lines that are left.

use oracle::added::HELD_ROWS;
use oracle::calls::{
    no, pinned, rows_of_record, wired, Add, Answer, Call, Choice, Hold, Kind, Need, Place, PoolRange, Record, Refusal,
    Request, Row,
};
use oracle::gen;
use oracle::judge::Judge;

fn host(requester: u32, irq: Choice<u64>) -> Request {
    Request { requester, slot: 0, need: Need::Host { irq } }
}

fn row(start: u64, owner: u32) -> Row {
    Row { start, end: start + 1, owner, ..Row::default() }
}

/// Host IRQs 40 to 49, of which 40 is reserved by 7.
fn stand() -> Judge {
    let mut judge = Judge::fresh();
    for fixed in [false, true] {
        judge.add(&Add::Pool { fixed, range: PoolRange::Host(40..50) });
    }
    judge.add(&Add::Hold { owner: 7, what: Hold::Host(40..41) });
    judge.start();
    judge
}

fn owners(judge: &Judge) -> &[Row] {
    judge.tables().of(Place::Owner, Kind::Host)
}

fn ask(judge: &mut Judge, requester: u32) -> u64 {
    match judge.request(&host(requester, Choice::Auto)) {
        Answer::Granted(record) => record[3],
        answer => panic!("{answer:?}"),
    }
}

#[test]
fn rows_go_and_numbers_come_back() {
    let mut judge = stand();
    assert_eq!([7, 8, 7, 9].map(|requester| ask(&mut judge, requester)), [41, 42, 43, 44]);
    assert_eq!(judge.withdraw(7), Answer::Accepted);
    assert_eq!(owners(&judge), [row(40, 7), row(42, 8), row(44, 9)]);
    assert_eq!(judge.withdraw(7), Answer::plain(no::NOT_FOUND));
    assert_eq!([5, 7, 5].map(|requester| ask(&mut judge, requester)), [41, 43, 45]);
    assert_eq!(owners(&judge)[3..], [row(41, 5), row(43, 7), row(45, 5)]);
    assert_eq!(judge.withdraw(0), Answer::plain(no::BAD_INPUT));
    assert_eq!(judge.withdraw(6), Answer::plain(no::NOT_FOUND));
    let taken = Refusal { number: no::CONFLICT, namespace: 4, owner: 7, detail: 4 };
    assert_eq!(judge.request(&host(1, Choice::Fixed(43))), Answer::Refused(taken));
}

#[test]
fn a_reservation_alone_is_nothing_granted() {
    let mut judge = stand();
    assert_eq!(judge.withdraw(7), Answer::plain(no::NOT_FOUND));
    judge.add(&Add::Hold { owner: 7, what: Hold::Host(45..46) });
    for requester in [7, 0, 6] {
        assert_eq!(judge.withdraw(requester), Answer::plain(no::MALFORMED));
    }
    judge.start();
    assert_eq!(judge.withdraw(7), Answer::plain(no::NOT_FOUND));
}

/// A reservation of what its owner was granted makes the row a reservation's copy, which stays.
#[test]
fn a_grant_that_is_reserved_afterwards_stays() {
    let mut judge = Judge::fresh();
    judge.add(&Add::Pool { fixed: false, range: PoolRange::Host(40..50) });
    assert_eq!([7, 7].map(|requester| ask(&mut judge, requester)), [40, 41]);
    assert_eq!(judge.add(&Add::Hold { owner: 7, what: Hold::Host(40..41) }), Answer::Accepted);
    assert_eq!(judge.withdraw(7), Answer::Accepted);
    assert_eq!(owners(&judge), [row(40, 7)]);
    assert_eq!(ask(&mut judge, 8), 41);
}

#[test]
fn a_full_table_has_room_again() {
    let mut judge = Judge::fresh();
    judge.add(&Add::Pool { fixed: false, range: PoolRange::Host(0..1000) });
    for at in 0..HELD_ROWS as u64 {
        assert_eq!(ask(&mut judge, if at == 100 { 8 } else { 7 }), at);
    }
    assert_eq!(judge.request(&host(9, Choice::Auto)), Answer::plain(no::FULL));
    assert_eq!(judge.withdraw(8), Answer::Accepted);
    assert_eq!(ask(&mut judge, 9), 100);
    assert_eq!(judge.request(&host(9, Choice::Auto)), Answer::plain(no::FULL));
}

#[test]
fn who_shares_an_input_keeps_it() {
    let mut judge = Judge::fresh();
    judge.add(&Add::Pool { fixed: true, range: PoolRange::Input { controller: 1, inputs: 5..9 } });
    let input = |requester, sharing| Request {
        requester,
        slot: 0,
        need: Need::Input { controller: 1, trigger: 2, sharing, input: Choice::Fixed(6) },
    };
    for requester in [3, 4] {
        assert!(!judge.request(&input(requester, 1)).is_refused());
    }
    assert_eq!(judge.withdraw(3), Answer::Accepted);
    assert_eq!(judge.tables().of(Place::Owner, Kind::Input), &[wired(1, 6, 2, 1, 4)]);
    assert!(judge.request(&input(5, 0)).is_refused());
    assert_eq!(judge.withdraw(4), Answer::Accepted);
    assert!(!judge.request(&input(5, 0)).is_refused());
}

/// A line: a request with its answer written back, and the answer.
type Line = (Request, Record);

/// The lines that are there, told from calls and answers alone.
#[derive(Default)]
struct History {
    adds: Vec<Add>,
    lines: Vec<Line>,
    /// Whether pools and reservations are as they were at the start.
    since_start: bool,
}

impl History {
    fn take(&mut self, call: &Call, answer: &oracle::calls::PlanAnswer) {
        if answer.answer.is_refused() {
            return;
        }
        let asked: &[Request] = match call {
            Call::Request(request) | Call::OfKind(request) => std::slice::from_ref(request),
            Call::Plan { requests, .. } => requests,
            Call::Add(add) => {
                self.adds.push(add.clone());
                self.since_start = false;
                &[]
            }
            Call::Start => {
                self.lines.clear();
                self.since_start = true;
                &[]
            }
            Call::Withdraw { requester } => {
                self.lines.retain(|(request, _)| request.requester != *requester);
                &[]
            }
        };
        let lines = asked.iter().zip(&answer.records).map(|(request, record)| (pinned(request, record), *record));
        self.lines.extend(lines);
    }

    /// A bare original with the same pools and reservations that is asked for the lines, in their order.
    fn original(&self) -> oracle::resources::bare::Bare {
        let mut judge = Judge::fresh();
        self.adds.iter().for_each(|add| assert_eq!(judge.add(add), Answer::Accepted));
        let mut bare = judge.bare().copy();
        bare.start();
        for (request, record) in &self.lines {
            assert_eq!(bare.request(request), Answer::Granted(*record), "{request:?}");
        }
        bare
    }
}

/// After each withdrawal an original of its own begins afresh with the lines that are left; it answers as the judge does until
/// something but a request comes.
#[test]
fn the_original_with_the_lines_that_are_left() {
    let (mut begun, mut asked, mut lines) = (0, 0, 0);
    for index in 0..gen::runs(4_000) {
        let (mut judge, mut history, mut fresh) = (Judge::fresh(), History::default(), None);
        for call in gen::sequence_fixed_too(13, index) {
            let departs = !oracle::departures::of(judge.tables(), &call).is_empty();
            let answer = judge.call(&call);
            history.take(&call, &answer);
            match (&call, &mut fresh) {
                (Call::Withdraw { .. }, _) if !answer.answer.is_refused() => {
                    let asks = history.since_start && judge.tables().auto_in_fixed();
                    fresh = asks.then(|| history.original());
                    begun += usize::from(asks);
                    lines += if asks { history.lines.len() } else { 0 };
                }
                (Call::Request(request) | Call::OfKind(request), Some(original)) if !departs => {
                    assert_eq!(original.request(request), answer.answer, "sequence {index}, {request:?}");
                    asked += 1;
                }
                (Call::Withdraw { .. }, _) => {}
                _ => fresh = None,
            }
            if history.since_start {
                let mut owners = judge.tables().held.clone();
                for (kind, row) in history.lines.iter().flat_map(|(_, record)| rows_of_record(record)) {
                    owners[kind as usize].push(row);
                }
                assert_eq!(owners, judge.tables().owners, "sequence {index}, {call:?}");
            }
        }
    }
    println!("{begun} originals begun with {lines} lines, {asked} requests asked of them");
    assert!(begun > 400 && asked > 1_000 && lines > 400);
}
