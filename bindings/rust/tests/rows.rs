//! The table-level commands of tests/rows.py, run through the exported functions: what each call answers, every used row as it stands and as it is told, whether a call
//! left all tables as they were, and whether tables are sound. Numbers are stored anywhere in the state, so each clause of soundness is broken on each table.

mod common;

use common::{
    planner_allocate, planner_call, planner_fresh, planner_plan, planner_read, small_stack,
};
use std::{fmt::Write, path::Path};
use thurgoleo::{Part, FIRST_LPI, STATE_SIZE};

const SIZE: u64 = STATE_SIZE as u64;
const PARTS: [Part; 4] = [
    Part::Automatic,
    Part::Fixed,
    Part::Reservations,
    Part::Owners,
];

/// The bytes of a number in each column of a table, behind its count of eight.
fn widths(part: usize, kind: usize) -> &'static [usize] {
    match (part, kind) {
        (0 | 1, _) => &[4, 4, 8, 8],
        (_, 3) => &[4, 8, 4, 4, 4],
        _ => &[4, 4, 4, 8, 8, 4],
    }
}

fn aligned(at: usize, to: usize) -> usize {
    at.div_ceil(to) * to
}

/// Where the columns of a table begin, in C's layout, the count as column 0; and the table's bytes.
fn columns(part: usize, kind: usize) -> (Vec<usize>, usize) {
    let (mut at, mut starts) = (8, vec![0]);
    for &width in widths(part, kind) {
        at = aligned(at, width);
        starts.push(at);
        at += width * PARTS[part].rows();
    }
    (starts, aligned(at, 8))
}

/// Where a table begins; past the last one stand the five numbers of the answer.
fn table(part: usize, kind: usize) -> usize {
    let before = (0..4).flat_map(|p| (1..8).map(move |k| (p, k)));
    before
        .take_while(|&place| place != (part, kind))
        .map(|(p, k)| columns(p, k).1)
        .sum()
}

/// The words of a state, and of all its tables before the last call.
struct State(Vec<u64>, Vec<u64>);

impl State {
    fn fresh() -> Self {
        let mut state = State(vec![u64::MAX; STATE_SIZE / 8], Vec::new());
        assert_eq!(unsafe { planner_fresh(state.lent(), SIZE) }, 0);
        state
    }

    fn lent(&mut self) -> *mut u64 {
        self.1 = self.tables().to_vec();
        self.0.as_mut_ptr()
    }

    /// All but the answer.
    fn tables(&self) -> &[u64] {
        &self.0[..self.0.len() - 5]
    }

    /// The first byte and the width of a number.
    fn place(part: usize, kind: usize, column: usize, row: usize) -> (usize, usize) {
        let begin = table(part, kind) + columns(part, kind).0[column];
        match column {
            0 => (begin, 8),
            _ => {
                let width = widths(part, kind)[column - 1];
                (begin + width * row, width)
            }
        }
    }

    fn get(&self, part: usize, kind: usize, column: usize, row: usize) -> u64 {
        let (at, width) = Self::place(part, kind, column, row);
        let word = self.0[at / 8].to_le() >> (8 * (at % 8));
        if width == 4 {
            word & u64::from(u32::MAX)
        } else {
            word
        }
    }

    fn put(&mut self, part: usize, kind: usize, column: usize, row: usize, value: u64) {
        let (at, width) = Self::place(part, kind, column, row);
        let mut bytes = self.0[at / 8].to_le_bytes();
        bytes[at % 8..at % 8 + width].copy_from_slice(&value.to_le_bytes()[..width]);
        self.0[at / 8] = u64::from_le_bytes(bytes);
    }

    /// Number, index, namespace, owner, detail.
    fn answer(&self) -> Vec<u64> {
        self.0[self.0.len() - 5..].to_vec()
    }

    fn call(&mut self, numbers: &[u64]) {
        let mut told = [u64::MAX; 5];
        let (from, to) = (numbers.as_ptr(), told.as_mut_ptr());
        let number = unsafe { planner_call(self.lent(), SIZE, from, numbers.len(), to, 5) };
        assert_eq!(self.answer(), told);
        assert_eq!(number, told[0]);
    }

    fn allocate(&mut self, request: &[u64], record: &mut [u64]) {
        let (from, to) = (request.as_ptr(), record.as_mut_ptr());
        let number =
            unsafe { planner_allocate(self.lent(), SIZE, from, request.len(), to, record.len()) };
        assert_eq!(self.answer()[0], number);
    }

    /// Rows one behind the other, in the domain of controller 5, ITS 6 and device 7 as far as the kind has it.
    fn fill(&mut self, part: usize, kind: usize, count: usize) {
        let domain = [[0, 0, 0], [5, 0, 0], [5, 6, 0], [5, 6, 7]];
        let domain = domain[[0, 0, 0, 1, 0, 2, 3 - usize::from(part < 2), 1][kind]];
        for row in 0..count {
            let n = row as u64;
            let least = if kind == 7 { FIRST_LPI.into() } else { 0 };
            let (start, end) = (least + 10 + 20 * n, least + 20 + 20 * n);
            let numbers = match (part, kind) {
                (0 | 1, _) => vec![domain[0], domain[1], start, end],
                (_, 3) => vec![5, 10 + n, 1, 1, 3],
                _ => vec![domain[0], domain[1], domain[2], start, end, 3],
            };
            for (j, value) in numbers.into_iter().enumerate() {
                self.put(part, kind, j + 1, row, value);
            }
        }
        self.put(part, kind, 0, 0, count as u64);
    }

    /// Every used row as it stands, each held to what is told of it.
    fn show(&self, shown: &mut String) {
        for (part, kind) in (0..4).flat_map(|p| (1..8).map(move |k| (p, k))) {
            let count = self.get(part, kind, 0, 0);
            for row in 0..PARTS[part].rows().min(count as usize) {
                let last = widths(part, kind).len();
                let numbers: Vec<u64> = (1..=last).map(|j| self.get(part, kind, j, row)).collect();
                assert_eq!(
                    self.told(part, kind, row),
                    told_as(part, kind, count, &numbers)
                );
                writeln!(shown, "row {part} {kind} {}", line(&numbers)).unwrap();
            }
        }
    }

    fn told(&self, part: usize, kind: usize, row: usize) -> Vec<u64> {
        let what = [part as u64 + 1, kind as u64, row as u64];
        let mut out = vec![u64::MAX; 9];
        let state = self.0.as_ptr();
        let number = unsafe { planner_read(state, SIZE, what.as_ptr(), 3, out.as_mut_ptr(), 9) };
        assert_eq!(number, 0);
        out
    }

    /// Whether pools and reservations are sound: a call with too few numbers is 1 before it is 11. Whether all tables are: a plan of no requests is 1 before it is 0. A
    /// withdrawal judges as a plan does, before it is 11 or 2.
    fn judged(&self) -> [u64; 2] {
        let mut tried = State(self.0.clone(), Vec::new());
        tried.call(&[1]);
        let given = u64::from(tried.answer()[0] == 11);
        let none: &mut [u64] = &mut [];
        let (from, to) = (none.as_ptr(), none.as_mut_ptr());
        unsafe { planner_plan(tried.lent(), SIZE, from, 0, to, 0) };
        let sound = u64::from(tried.answer()[0] == 0);
        for (numbers, number) in [(&[5][..], 11), (&[5, 0], 2)] {
            tried.call(numbers);
            assert_eq!(tried.answer()[0], if sound == 1 { number } else { 1 });
        }
        [given, sound]
    }
}

/// Count, controller, ITS, device, start, end, trigger, sharing, owner.
fn told_as(part: usize, kind: usize, count: u64, x: &[u64]) -> Vec<u64> {
    match (part, kind) {
        (0 | 1, _) => vec![count, x[0], x[1], 0, x[2], x[3], 0, 0, 0],
        (_, 3) => vec![count, x[0], 0, 0, x[1], 0, x[2], x[3], x[4]],
        _ => vec![count, x[0], x[1], x[2], x[3], x[4], 0, 0, x[5]],
    }
}

fn line(numbers: &[u64]) -> String {
    let words: Vec<String> = numbers.iter().map(u64::to_string).collect();
    words.join(" ")
}

/// A request's numbers as the command has them, requester and slot before the kind, with a list of nines for its record.
fn ask(state: &mut State, x: &[u64], room: usize, shown: &mut String) {
    let mut request = vec![x[2], x[0], x[1]];
    request.extend_from_slice(&x[3..]);
    let mut record = vec![9; room];
    state.allocate(&request, &mut record);
    let mut said = state.answer();
    said.extend(record);
    writeln!(shown, "{}", line(&said)).unwrap();
}

fn run(commands: &str) -> String {
    let (mut state, mut shown) = (State::fresh(), String::new());
    for command in commands.lines() {
        let mut x: Vec<u64> = command.split(' ').map(|n| n.parse().unwrap()).collect();
        x.resize(14, 0);
        let place = |i: usize| x[i] as usize;
        match x[0] {
            0 => state = State::fresh(),
            1..=3 => {
                state.call(&x);
                writeln!(shown, "{}", line(&state.answer())).unwrap();
            }
            4 => state.put(place(1), place(2), place(3), place(4), x[5]),
            5 => state.show(&mut shown),
            6 => writeln!(shown, "{}", line(&state.judged())).unwrap(),
            7 => state.fill(place(1), place(2), place(3)),
            8 => ask(&mut state, &x[1..13], 9, &mut shown),
            9 => ask(&mut state, &x[2..14], place(1), &mut shown),
            11 => {
                x[0] = 5;
                state.call(&x);
                writeln!(shown, "{}", line(&state.answer())).unwrap();
            }
            _ => writeln!(shown, "{}", u64::from(state.1 == state.tables())).unwrap(),
        }
    }
    shown
}

#[test]
fn commands_answer_as_the_model() {
    assert_eq!(table(4, 1) + 40, STATE_SIZE, "the layout of the tables");
    let folder = Path::new(env!("CARGO_MANIFEST_DIR")).join("../../tests/rows");
    let commands = std::fs::read_to_string(folder.join("commands")).unwrap();
    let answers = std::fs::read_to_string(folder.join("answers")).unwrap();
    small_stack(move || {
        let shown = run(&commands);
        for (i, (ours, model)) in shown.lines().zip(answers.lines()).enumerate() {
            assert_eq!(ours, model, "line {} of the answers", i + 1);
        }
        assert_eq!(shown.len(), answers.len());
    });
}
