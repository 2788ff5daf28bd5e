//! Random histories of requests, plans, withdrawals, starts, pools and reservations, accepted and refused, each on the state that the last call left, against the plain model: the
//! answer and every row of all tables after every call. The lines that are left, told from calls and answers alone, are the owner tables behind the reservations; any of
//! them, written back, in any order, are granted as they were by one plan from a fresh start. RANDOM_HISTORIES says how many (600 if it is not set).

mod common;

use common::model::{Five, Model, Record, Rows, ACCEPTED, OWNERS};
use common::{
    planner_allocate, planner_call, planner_fresh, planner_pin, planner_plan, small_stack, Rng,
};
use std::collections::BTreeMap;
use thurgoleo::{FIRST_LPI, MOST, STATE_SIZE};

const WORDS: usize = STATE_SIZE / 8;
const SIZE: u64 = STATE_SIZE as u64;
const GUARD: u64 = 0xA5A5_5A5A_C3C3_3C3C;
/// Histories, where nothing else is said: so many that every answer comes up.
const USUAL: usize = 600;
/// Guard words on either side of what is lent.
const WALL: usize = 4;

type Request = [u64; 12];

/// Numbers between guard words.
struct Lent(Vec<u64>);

impl Lent {
    fn of(numbers: &[u64]) -> Self {
        Lent([&[GUARD; WALL][..], numbers, &[GUARD; WALL]].concat())
    }

    fn fresh() -> Self {
        let mut state = Lent::of(&[u64::MAX; WORDS]);
        assert_eq!(unsafe { planner_fresh(state.at(), SIZE) }, 0);
        state
    }

    fn at(&mut self) -> *mut u64 {
        self.0[WALL..].as_mut_ptr()
    }

    /// What was lent; the guards are as they were.
    fn numbers(&self) -> &[u64] {
        let (front, rest) = self.0.split_at(WALL);
        let (numbers, back) = rest.split_at(rest.len() - WALL);
        assert_eq!((front, back), (&[GUARD; WALL][..], &[GUARD; WALL][..]));
        numbers
    }

    /// Of a state: the last answer.
    fn said(&self) -> Five {
        self.numbers()[WORDS - 5..].try_into().unwrap()
    }
}

/// A request that was accepted, with its answer written back; the answer, and the rows that it stands for.
#[derive(Clone)]
struct Line {
    pinned: Request,
    record: Record,
    rows: Rows,
}

/// The request with its answer written back, as the planner does it; here once more by hand.
fn pinned(request: &Request, record: &Record) -> Request {
    let (mut written, mut by_hand) = (*request, *request);
    unsafe { planner_pin(written.as_mut_ptr(), 12, record.as_ptr(), 9) };
    let chosen = match record[0] {
        3 => &record[4..5],
        5 => &record[5..8],
        _ => &record[3..4],
    };
    for (i, number) in chosen.iter().enumerate() {
        by_hand[6 + 2 * i] = 1;
        by_hand[7 + 2 * i] = *number;
    }
    // beside a choice that was fixed already the number is the same
    assert_eq!(written, by_hand);
    written
}

/// How often each call had each answer.
type Counts = BTreeMap<(&'static str, u64), usize>;

struct History {
    state: Lent,
    model: Model,
    /// The calls that added, as they were accepted.
    adds: Vec<Vec<u64>>,
    lines: Vec<Line>,
    /// Whether pools and reservations are as they were at the last start.
    since_start: bool,
}

impl History {
    fn new() -> Self {
        History {
            state: Lent::fresh(),
            model: Model::default(),
            adds: Vec::new(),
            lines: Vec::new(),
            since_start: true,
        }
    }

    /// After a call: the model's answer, all tables as the model has them; refused, every number of them as it was.
    fn hold_to(&self, before: &[u64], due: Five) {
        assert_eq!(self.state.said(), due);
        if due != ACCEPTED {
            assert!(self.state.numbers()[..WORDS - 5] == before[..WORDS - 5]);
            return;
        }
        self.model.hold_to(self.state.numbers());
        if self.since_start {
            self.hold_lines();
        }
    }

    /// The owners are the reservations and the lines that are left: so are the counts.
    fn hold_lines(&self) {
        let mut owners = self.model.0[OWNERS - 1].clone();
        for (kind, row) in self.lines.iter().flat_map(|line| &line.rows) {
            owners[*kind].push(*row);
        }
        assert_eq!(owners, self.model.0[OWNERS]);
    }

    fn granted(&mut self, request: &Request, record: Record, rows: Rows) {
        self.lines.push(Line {
            pinned: pinned(request, &record),
            record,
            rows,
        });
    }

    /// A call of `planner_call`: the answer is told, and stored.
    fn call(&mut self, x: &[u64]) -> u64 {
        let (before, mut told) = (self.state.numbers().to_vec(), Lent::of(&[GUARD; 5]));
        let (s, to) = (self.state.at(), told.at());
        let number = unsafe { planner_call(s, SIZE, x.as_ptr(), x.len(), to, 5) };
        let asked = if x[0] == 4 {
            let request: Request = x[1..13].try_into().unwrap();
            Some((request, self.model.ask(&request)))
        } else {
            None
        };
        let due = match &asked {
            Some((_, answer)) => answer.as_ref().err().copied().unwrap_or(ACCEPTED),
            None => self.called(x),
        };
        if let Some((request, Ok((record, rows)))) = asked {
            self.granted(&request, record, rows);
        }
        assert_eq!((number, told.numbers()), (due[0], &due[..]), "{x:?}");
        self.hold_to(&before, due);
        number
    }

    /// A call that asks for nothing: the model's answer, and what becomes of the lines.
    fn called(&mut self, x: &[u64]) -> Five {
        let before = self.model.clone();
        let due = self.model.call(x);
        match x[0] {
            _ if due != ACCEPTED => {}
            1 | 2 => {
                self.since_start &= self.model == before;
                self.adds.push(x.to_vec());
            }
            3 => {
                self.since_start = true;
                self.lines.clear();
            }
            _ => self.lines.retain(|line| line.record[1] != x[1]),
        }
        due
    }

    /// One request with its record.
    fn allocate(&mut self, request: &Request) -> u64 {
        let (before, mut record) = (self.state.numbers().to_vec(), Lent::of(&[GUARD; 9]));
        let (s, to) = (self.state.at(), record.at());
        let number = unsafe { planner_allocate(s, SIZE, request.as_ptr(), 12, to, 9) };
        let (due, written) = match self.model.ask(request) {
            Ok((record, rows)) => {
                self.granted(request, record, rows);
                (ACCEPTED, record)
            }
            Err(five) => (five, [GUARD; 9]),
        };
        assert_eq!((number, record.numbers()), (due[0], &written[..]));
        self.hold_to(&before, due);
        number
    }

    fn plan(&mut self, requests: &[Request]) -> u64 {
        let before = self.state.numbers().to_vec();
        let (list, mut results) = (
            requests.concat(),
            Lent::of(&vec![GUARD; 9 * requests.len() + 2]),
        );
        let (s, to, room) = (self.state.at(), results.at(), 9 * requests.len() + 2);
        let filled = unsafe { planner_plan(s, SIZE, list.as_ptr(), list.len(), to, room) };
        let (records, rows, due) = self.model.plan(requests);
        assert_eq!(filled as usize, 9 * records.len());
        let (front, rest) = results.numbers().split_at(filled as usize);
        assert!(front == records.concat() && rest.iter().all(|n| *n == GUARD));
        for ((request, record), rows) in requests.iter().zip(records).zip(rows) {
            self.granted(request, record, rows);
        }
        self.hold_to(&before, due);
        due[0]
    }

    /// Some of the lines, in any order, as one plan from a fresh start on the same pools and reservations: each has what it had, and nothing else is there.
    fn again(&self, rng: &mut Rng, most: usize) -> usize {
        let mut picked = self.lines.clone();
        rng.shuffle(&mut picked);
        picked.truncate(most);
        let mut fresh = History::new();
        for x in self.adds.iter().chain([&vec![3]]) {
            let (s, mut told) = (fresh.state.at(), [GUARD; 5]);
            let number =
                unsafe { planner_call(s, SIZE, x.as_ptr(), x.len(), told.as_mut_ptr(), 5) };
            assert_eq!(number, 0);
        }
        let requests: Vec<u64> = picked.iter().flat_map(|line| line.pinned).collect();
        let mut results = Lent::of(&vec![GUARD; 9 * picked.len()]);
        let (s, to, room) = (fresh.state.at(), results.at(), 9 * picked.len());
        let filled = unsafe { planner_plan(s, SIZE, requests.as_ptr(), requests.len(), to, room) };
        assert_eq!((filled as usize, fresh.state.said()), (room, ACCEPTED));
        assert!(
            results.numbers()
                == picked
                    .iter()
                    .flat_map(|line| line.record)
                    .collect::<Vec<_>>()
        );
        let mut due = self.model.clone();
        due.0[OWNERS] = due.0[OWNERS - 1].clone();
        for (kind, row) in picked.iter().flat_map(|line| &line.rows) {
            due.0[OWNERS][*kind].push(*row);
        }
        due.hold_to(fresh.state.numbers());
        picked.len()
    }
}

/// What a history is about: for each kind of table where its numbers begin and how many there are; which kinds are asked for; whether automatic ranges are fixed too.
struct Scene {
    first: [u64; 7],
    span: u64,
    kinds: Vec<u64>,
    too: bool,
}

impl Scene {
    fn random(rng: &mut Rng, long: bool) -> Self {
        let span = if long { 300 } else { 4 + rng.below(24) as u64 };
        let tops = [16, 32, 64].map(|bits: u32| (u64::MAX >> (64 - bits)) - span - 2);
        let [pio, narrow, wide] = tops;
        let least = u64::from(FIRST_LPI);
        let ends = [wide, pio, wide, wide, narrow, narrow, narrow];
        let first = std::array::from_fn(|kind| match rng.below(4) {
            0 => ends[kind],
            1 => 40 + if kind == 6 { least } else { 0 },
            _ => {
                if kind == 6 {
                    least
                } else {
                    0
                }
            }
        });
        let mut kinds: Vec<u64> = (1..6).collect();
        rng.shuffle(&mut kinds);
        kinds.truncate(if long {
            1 + rng.below(3)
        } else {
            1 + rng.below(9)
        });
        Scene {
            first,
            span,
            kinds,
            too: long || rng.below(4) > 0,
        }
    }

    fn number(&self, rng: &mut Rng, kind: usize) -> u64 {
        self.first[kind] + rng.below(self.span as usize) as u64
    }

    /// A part of a kind's numbers, or all of them.
    fn range(&self, rng: &mut Rng, kind: usize, all: bool) -> [u64; 2] {
        let (start, end) = (self.first[kind], self.first[kind] + self.span);
        if all {
            return [start, end];
        }
        let at = self.number(rng, kind);
        [at, at + 1 + rng.below((end - at) as usize) as u64]
    }

    fn pool(&self, rng: &mut Rng, used: u64, kind: u64, all: bool, at: [u64; 2]) -> Vec<u64> {
        let front = [1, used, kind];
        match kind {
            3 => [&front[..], &at[..1], &self.range(rng, 2, all)].concat(),
            5 => {
                let three = [4, 5, 6].map(|kind| self.range(rng, kind, all));
                [&front[..], &at, three.as_flattened()].concat()
            }
            _ => [&front[..], &self.range(rng, kind as usize - 1, all)].concat(),
        }
    }

    /// Pools for all kinds that are asked for.
    fn pools(&self, rng: &mut Rng) -> Vec<Vec<u64>> {
        let mut calls = Vec::new();
        for kind in &self.kinds {
            for at in [[0, 0], [0, 1], [1, 0]] {
                for all in [rng.below(3) > 0, false] {
                    calls.push(self.pool(rng, 0, *kind, all, at));
                }
                calls.push(self.pool(rng, 1, *kind, self.too, at));
            }
        }
        calls
    }

    /// A pool that is there, one that is not, one that is empty or too low.
    fn later_pool(&self, rng: &mut Rng, adds: &[Vec<u64>]) -> Vec<u64> {
        let pools: Vec<&Vec<u64>> = adds.iter().filter(|x| x[0] == 1).collect();
        let mut pool = pools[rng.below(pools.len())].clone();
        let last = pool.len() - 1;
        match rng.below(12) {
            0 => pool[last] = pool[last - 1],
            1 => pool[last - 1] = pool[last] - 1,
            2 if pool[2] == 5 => pool[last - 1] = u64::from(FIRST_LPI) - 1,
            _ => {}
        }
        pool
    }

    fn hold(&self, rng: &mut Rng) -> Vec<u64> {
        let owner = rng.below(6) as u64;
        let kind = 1 + rng.below(8) as u64;
        let (c, i) = (rng.below(2) as u64, rng.below(2) as u64);
        let code = rng.below(5) as u64;
        let mut short = |kind: usize| {
            let at = self.number(rng, kind);
            [at, (at + rng.below(3) as u64)]
        };
        let rest = match kind {
            3 => vec![c, short(2)[0], code, i],
            5 => [&[c, i][..], &short(4)].concat(),
            6 => [&[c, i, short(4)[0]][..], &short(5)].concat(),
            7 => [&[c][..], &short(6)].concat(),
            8 => vec![c, short(2)[0], code, short(3)[0]],
            _ => short(kind as usize - 1).to_vec(),
        };
        [&[2, owner, kind][..], &rest].concat()
    }

    fn requester(&self, rng: &mut Rng) -> u64 {
        [1, 2, 3, 4, 5, u64::from(u32::MAX)][rng.below(6)]
    }

    fn request(&self, rng: &mut Rng, fixed: usize) -> Request {
        let kind = self.kinds[rng.below(self.kinds.len())];
        let requester = if rng.below(60) == 0 {
            0
        } else {
            self.requester(rng)
        };
        let mut x = [
            kind,
            requester,
            rng.below(3) as u64,
            0,
            0,
            0,
            0,
            0,
            0,
            0,
            0,
            0,
        ];
        let two = |rng: &mut Rng| rng.below(2) as u64;
        // now and then a size or a count of 0, and an alignment of two bits
        let seldom = u64::from(rng.below(40) > 0);
        let some = |rng: &mut Rng| (rng.below(4) as u64 + seldom).min(3);
        let three = match kind {
            1 | 2 => [some(rng), [1, 1, 2, 4, 3 - seldom][rng.below(5)], 0],
            3 => [two(rng), two(rng), two(rng)],
            4 => [0; 3],
            _ => [two(rng), two(rng), some(rng)],
        };
        x[3..6].copy_from_slice(&three);
        let tables = match kind {
            5 => 4..7,
            kind => kind as usize - 1..kind as usize,
        };
        for (i, table) in tables.enumerate() {
            if rng.below(100) < fixed {
                x[6 + 2 * i] = 1;
                x[7 + 2 * i] = self.number(rng, table);
            }
        }
        x
    }

    fn withdrawn(&self, rng: &mut Rng) -> u64 {
        match rng.below(12) {
            0 => [0, 1 << 32, (1 << 32) + 1, u64::MAX][rng.below(4)],
            1 => 77,
            _ => self.requester(rng),
        }
    }
}

/// A call and its answer.
fn step(history: &mut History, scene: &Scene, rng: &mut Rng, long: bool) -> (&'static str, u64) {
    let fixed = if long { 5 } else { 35 };
    let withdrawals = if long { 1 } else { 14 };
    match rng.below(100) {
        n if n < withdrawals => {
            // junk behind its two numbers
            let mut x = vec![5, scene.withdrawn(rng)];
            x.resize(2 + rng.below(3), u64::MAX);
            ("withdraw", history.call(&x))
        }
        14 | 15 => ("pool", history.call(&scene.later_pool(rng, &history.adds))),
        16 if !long => ("hold", history.call(&scene.hold(rng))),
        17 if !long => ("start", history.call(&[3])),
        18 if !long => {
            let pool = scene.pool(rng, rng.0 & 1, scene.kinds[0], false, [1, 1]);
            ("pool", history.call(&pool))
        }
        20..=34 => {
            let length = rng.below(if long { 20 } else { 7 });
            let requests: Vec<Request> =
                (0..length).map(|_| scene.request(rng, fixed / 2)).collect();
            ("plan", history.plan(&requests))
        }
        n if n % 2 == 0 => {
            let request = scene.request(rng, fixed);
            ("call", history.call(&[&[4], &request[..]].concat()))
        }
        _ => ("allocate", history.allocate(&scene.request(rng, fixed))),
    }
}

/// A history, and what was run again of it: how many lines, and whether there were more than a plan has.
fn lived(rng: &mut Rng, long: bool, counts: &mut Counts) -> (usize, bool) {
    let (scene, mut history) = (Scene::random(rng, long), History::new());
    for x in scene.pools(rng) {
        assert_eq!(history.call(&x), 0);
    }
    for _ in 0..rng.below(7) {
        history.call(&scene.hold(rng));
    }
    history.call(&[3]);
    for _ in 0..if long { 800 } else { 20 + rng.below(60) } {
        let (what, answer) = step(&mut history, &scene, rng, long);
        *counts.entry((what, answer)).or_default() += 1;
        // after a reservation nothing goes until the next start, which comes soon; after a pool too
        if !history.since_start && rng.below(3) > 0 {
            history.call(&[3]);
        }
    }
    let (mut again, all) = (0, history.lines.len());
    if history.since_start && history.model.automatic_in_fixed() {
        for most in [all.min(MOST), rng.below(all.min(MOST) + 1), 1] {
            again += history.again(rng, most);
        }
    }
    (again, all > MOST)
}

#[test]
fn histories_as_the_model_and_their_lines_again() {
    let count = std::env::var("RANDOM_HISTORIES").ok();
    let count: usize = count.and_then(|n| n.parse().ok()).unwrap_or(USUAL);
    small_stack(move || {
        let mut counts = Counts::new();
        let (mut again, mut replayed, mut over) = (0, 0, 0);
        for index in 0..count {
            // one in fifty fills its tables
            let (lines, more) = lived(
                &mut Rng(20_261_116 + index as u64),
                index % 50 == 0,
                &mut counts,
            );
            again += lines;
            replayed += usize::from(lines > 0);
            over += usize::from(lines > 0 && more);
        }
        let calls: usize = counts.values().sum();
        println!("{count} histories, {calls} calls: {counts:?}");
        println!("{replayed} histories run again, {over} of them with more than {MOST} lines, {again} lines in all");
        if count < USUAL {
            return;
        }
        for (what, numbers) in [
            ("withdraw", &[0, 1, 2, 13][..]),
            ("call", &[0, 1, 2, 6, 7, 8, 9]),
            ("allocate", &[0, 1, 2, 6, 7, 8, 9]),
            ("plan", &[0, 1, 2, 6, 7, 8, 9]),
            ("pool", &[0, 4, 12]),
            ("hold", &[0, 2, 3, 4, 5]),
        ] {
            let seen = |number: &u64| counts.contains_key(&(what, *number));
            assert!(
                numbers.iter().all(seen),
                "{what} is not answered with each of {numbers:?}"
            );
        }
        assert!(replayed > count / 3 && again > 10 * count && over > 0);
    });
}
