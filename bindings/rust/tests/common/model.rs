//! A plain model of the whole state: lists of rows as they are read back, and what each call does to them, tried number by number. It is for small pools.

use super::planner_read;
use thurgoleo::{FIRST_LPI, MOST, POOL_ROWS, ROWS, STATE_SIZE};

/// A row as it is told behind its table's count: controller, ITS, device, start, end, trigger, sharing, owner. An input is its start, and has no end.
pub type Row = [u64; 8];

const START: usize = 3;
const END: usize = 4;
const TRIGGER: usize = 5;
const SHARING: usize = 6;
pub const OWNER: usize = 7;

/// A table of each kind: MMIO, PIO, inputs, host IRQs, devices, events, LPIs.
pub type Seven = [Vec<Row>; 7];
const INPUT: usize = 2;
const LPI: usize = 6;

/// Number, index, namespace, owner, detail.
pub type Five = [u64; 5];

const fn plain(number: u64) -> Five {
    [number, 0, 0, 0, 0]
}

pub const ACCEPTED: Five = plain(0);

/// Automatic pools, fixed pools, reservations, owners: the used rows in their order.
#[derive(Clone, Debug, Default, PartialEq, Eq)]
pub struct Model(pub [Seven; 4]);

const AUTOMATIC: usize = 0;
const FIXED: usize = 1;
const HELD: usize = 2;
pub const OWNERS: usize = 3;

pub type Record = [u64; 9];
pub type Rows = Vec<(usize, Row)>;

/// What one table is asked for.
struct Ask {
    kind: usize,
    domain: [u64; 3],
    pools: [u64; 3],
    size: u64,
    alignment: u64,
    choice: [u64; 2],
}

/// Whether a row meets the numbers from a base on.
fn meets(kind: usize, row: &Row, base: u64, size: u64) -> bool {
    let end = match kind {
        INPUT => u128::from(row[START]) + 1,
        _ => row[END].into(),
    };
    u128::from(row[START]) < u128::from(base) + u128::from(size) && u128::from(base) < end
}

fn within(row: &Row, base: u64, size: u64) -> bool {
    row[START] <= base && u128::from(base) + u128::from(size) <= u128::from(row[END])
}

fn ranged(domain: [u64; 3], start: u64, end: u64, owner: u64) -> Row {
    [domain[0], domain[1], domain[2], start, end, 0, 0, owner]
}

/// The rows that a call adds: of pools 1, of reservations 2.
fn rows_of(x: &[u64]) -> Rows {
    match *x {
        [1, _, 3, c, s, e, ..] => vec![(INPUT, ranged([c, 0, 0], s, e, 0))],
        [1, _, 5, c, i, ds, de, es, ee, ls, le, ..] => vec![
            (4, ranged([c, i, 0], ds, de, 0)),
            (5, ranged([c, i, 0], es, ee, 0)),
            (LPI, ranged([c, 0, 0], ls, le, 0)),
        ],
        [1, _, kind, s, e, ..] => vec![(kind as usize - 1, ranged([0; 3], s, e, 0))],
        [2, owner, 3, c, n, trigger, sharing, ..] => {
            vec![(INPUT, [c, 0, 0, n, 0, trigger, sharing, owner])]
        }
        [2, owner, 5, c, i, s, e, ..] => vec![(4, ranged([c, i, 0], s, e, owner))],
        [2, owner, 6, c, i, d, s, e, ..] => vec![(5, ranged([c, i, d], s, e, owner))],
        [2, owner, 7, c, s, e, ..] => vec![(LPI, ranged([c, 0, 0], s, e, owner))],
        [2, owner, 8, c, n, trigger, host, ..] => vec![
            (INPUT, [c, 0, 0, n, 0, trigger, 0, owner]),
            (3, ranged([0; 3], host, host + 1, owner)),
        ],
        [2, owner, kind, s, e, ..] => vec![(kind as usize - 1, ranged([0; 3], s, e, owner))],
        _ => panic!("no call that adds: {x:?}"),
    }
}

impl Model {
    fn sound(&self) -> bool {
        (0..7).all(|kind| self.0[OWNERS][kind].starts_with(&self.0[HELD][kind]))
    }

    /// A call of `planner_call` whose numbers can be read; that of a request tells no record.
    pub fn call(&mut self, x: &[u64]) -> Five {
        match x[0] {
            1 => self.pool(x[1] as usize, rows_of(x)),
            2 => self.hold(x[1], rows_of(x)),
            3 => {
                self.0[OWNERS] = self.0[HELD].clone();
                ACCEPTED
            }
            4 => self.ask(&x[1..13]).map_or_else(|five| five, |_| ACCEPTED),
            _ => self.withdraw(x[1]),
        }
    }

    fn refused(&self, rows: &[(usize, Row)]) -> Option<Five> {
        let empty = |(kind, row): &(usize, Row)| {
            (*kind != INPUT || row[OWNER] == 0) && row[START] >= row[END]
        };
        if rows.iter().any(empty) {
            return Some(plain(4));
        }
        let low = |(kind, row): &(usize, Row)| *kind == LPI && row[START] < u64::from(FIRST_LPI);
        rows.iter().any(low).then_some(plain(12))
    }

    fn pool(&mut self, used: usize, rows: Rows) -> Five {
        if let Some(five) = self.refused(&rows) {
            return five;
        }
        let new: Rows = rows
            .into_iter()
            .filter(|(kind, row)| !self.0[used][*kind].contains(row))
            .collect();
        if new
            .iter()
            .any(|(kind, _)| self.0[used][*kind].len() == POOL_ROWS)
        {
            return plain(9);
        }
        for (kind, row) in new {
            let table = &mut self.0[used][kind];
            let later = |other: &Row| other[..3] == row[..3] && other[START] > row[START];
            let at = table.iter().position(later).unwrap_or(table.len());
            table.insert(at, row);
        }
        ACCEPTED
    }

    fn hold(&mut self, owner: u64, rows: Rows) -> Five {
        if rows
            .iter()
            .any(|(_, row)| row[TRIGGER] > 3 || row[SHARING] > 1)
        {
            return plain(2);
        }
        if owner == 0 {
            return plain(3);
        }
        if let Some(five) = self.refused(&rows) {
            return five;
        }
        for (kind, row) in &rows {
            let size = if *kind == INPUT {
                1
            } else {
                row[END] - row[START]
            };
            let met =
                |other: &&Row| other[..3] == row[..3] && meets(*kind, other, row[START], size);
            if let Some(other) = self.0[HELD][*kind].iter().find(met) {
                return [5, 0, 0, other[OWNER], 0];
            }
        }
        if rows
            .iter()
            .any(|(kind, _)| self.0[HELD][*kind].len() == ROWS)
        {
            return plain(9);
        }
        for (kind, row) in rows {
            self.0[HELD][kind].push(row);
        }
        ACCEPTED
    }

    /// Everything granted to a requester goes: of each owner table the rows behind as many as there are reservations.
    fn withdraw(&mut self, requester: u64) -> Five {
        if !self.sound() {
            return plain(1);
        }
        if requester == 0 || requester > u64::from(u32::MAX) {
            return plain(2);
        }
        let mut left = self.0[HELD].clone();
        for (kind, rows) in left.iter_mut().enumerate() {
            let granted = &self.0[OWNERS][kind][rows.len()..];
            rows.extend(granted.iter().filter(|row| row[OWNER] != requester));
        }
        if left == self.0[OWNERS] {
            return plain(13);
        }
        self.0[OWNERS] = left;
        ACCEPTED
    }

    /// One request: its record and its rows.
    pub fn ask(&mut self, x: &[u64]) -> Result<(Record, Rows), Five> {
        if !self.sound() {
            return Err(plain(1));
        }
        self.granted(x)
    }

    /// A plan: the records before the first refusal, and the rows of them all where there is none.
    pub fn plan(&mut self, requests: &[[u64; 12]]) -> (Vec<Record>, Vec<Rows>, Five) {
        let (mut records, mut rows) = (Vec::new(), Vec::new());
        if !self.sound() {
            return (records, rows, plain(1));
        }
        if requests.len() > MOST {
            return (records, rows, plain(11));
        }
        let before = self.0[OWNERS].clone();
        for (index, request) in requests.iter().enumerate() {
            match self.granted(request) {
                Ok((record, these)) => {
                    records.push(record);
                    rows.push(these);
                }
                Err(mut five) => {
                    self.0[OWNERS] = before;
                    five[1] = index as u64;
                    return (records, Vec::new(), five);
                }
            }
        }
        (records, rows, ACCEPTED)
    }

    fn granted(&mut self, x: &[u64]) -> Result<(Record, Rows), Five> {
        let (granted, rows) = self.resolve(x)?;
        if rows
            .iter()
            .any(|(kind, _)| self.0[OWNERS][*kind].len() == ROWS)
        {
            return Err(plain(9));
        }
        for (kind, row) in &rows {
            self.0[OWNERS][*kind].push(*row);
        }
        let mut record = [x[0], x[1], x[2], 0, 0, 0, 0, 0, 0];
        record[3..3 + granted.len()].copy_from_slice(&granted);
        Ok((record, rows))
    }

    /// What a request is granted, and its rows.
    fn resolve(&self, x: &[u64]) -> Result<(Vec<u64>, Rows), Five> {
        let (kind, q, [a, b, c]) = (x[0], x[1], [x[3], x[4], x[5]]);
        let bad = match kind {
            1 | 2 => a == 0 || b.count_ones() != 1,
            3 => b > 3 || c > 1,
            5 => c == 0,
            _ => false,
        };
        if bad || q == 0 {
            return Err(plain(2));
        }
        let ask = |kind, domain, size, alignment, choice: usize| Ask {
            kind,
            domain,
            pools: domain,
            size,
            alignment,
            choice: [x[choice], x[choice + 1]],
        };
        Ok(match kind {
            1 | 2 => {
                let table = kind as usize - 1;
                let base = self.choose(&ask(table, [0; 3], a, b, 6))?;
                (
                    vec![base, a],
                    vec![(table, ranged([0; 3], base, base + a, q))],
                )
            }
            3 => {
                let input = self.choose(&ask(INPUT, [a, 0, 0], 1, 1, 6))?;
                self.suits(a, input, b, c)?;
                (
                    vec![a, input, b, c],
                    vec![(INPUT, [a, 0, 0, input, 0, b, c, q])],
                )
            }
            4 => {
                let irq = self.choose(&ask(3, [0; 3], 1, 1, 6))?;
                (vec![irq], vec![(3, ranged([0; 3], irq, irq + 1, q))])
            }
            _ => {
                let device = self.choose(&ask(4, [a, b, 0], 1, 1, 6))?;
                let event = self.choose(&Ask {
                    pools: [a, b, 0],
                    ..ask(5, [a, b, device], c, 1, 8)
                })?;
                let lpi = self.choose(&ask(LPI, [a, 0, 0], c, 1, 10))?;
                let rows = vec![
                    (4, ranged([a, b, 0], device, device + 1, q)),
                    (5, ranged([a, b, device], event, event + c, q)),
                    (LPI, ranged([a, 0, 0], lpi, lpi + c, q)),
                ];
                (vec![a, b, device, event, lpi, c], rows)
            }
        })
    }

    fn owners<'a>(&'a self, ask: &'a Ask) -> impl Iterator<Item = &'a Row> {
        let table = &self.0[OWNERS][ask.kind];
        table.iter().filter(|row| row[..3] == ask.domain)
    }

    /// The least number that does, of all there are; or that which is asked for.
    fn choose(&self, ask: &Ask) -> Result<u64, Five> {
        let namespace = [1, 2, 3, 4, 5, 5, 6][ask.kind];
        let pools = |used: usize| {
            let table = &self.0[used][ask.kind];
            table.iter().filter(|row| row[..3] == ask.pools)
        };
        let taken = |base: u64| {
            self.owners(ask)
                .find(|row| meets(ask.kind, row, base, ask.size))
        };
        let [code, base] = ask.choice;
        if code == 0 {
            let all = pools(AUTOMATIC).flat_map(|pool| {
                let does = |base: &u64| {
                    base % ask.alignment == 0
                        && within(pool, *base, ask.size)
                        && taken(*base).is_none()
                };
                (pool[START]..pool[END]).find(does)
            });
            return all.min().ok_or([7, 0, namespace, 0, 0]);
        }
        let allowed = pools(FIXED).any(|pool| within(pool, base, ask.size));
        if base % ask.alignment != 0 || !allowed {
            return Err([6, 0, namespace, 0, 0]);
        }
        match taken(base) {
            Some(row) if ask.kind != INPUT => {
                Err([8, 0, namespace, row[OWNER], [1, 1, 0, 4, 5, 6, 7][ask.kind]])
            }
            _ => Ok(base),
        }
    }

    /// An input that has owners is shared with the first of them, and one trigger, or not had.
    fn suits(&self, controller: u64, input: u64, trigger: u64, sharing: u64) -> Result<(), Five> {
        let on = |row: &&Row| row[0] == controller && row[START] == input;
        match self.0[OWNERS][INPUT].iter().find(on) {
            Some(row) if row[TRIGGER] != trigger => Err([8, 0, 3, row[OWNER], 2]),
            Some(row) if row[SHARING] != 1 || sharing != 1 => Err([8, 0, 3, row[OWNER], 3]),
            _ => Ok(()),
        }
    }

    /// Whether each automatic range lies inside a fixed one.
    pub fn automatic_in_fixed(&self) -> bool {
        (0..7).all(|kind| {
            self.0[AUTOMATIC][kind].iter().all(|row| {
                let inside = |wide: &Row| {
                    wide[..3] == row[..3] && wide[START] <= row[START] && row[END] <= wide[END]
                };
                self.0[FIXED][kind].iter().any(inside)
            })
        })
    }

    /// The used rows of a state, as they are read back.
    pub fn read(state: &[u64]) -> Self {
        let rows = |part: usize, kind: usize| {
            let count = told(state, part, kind, 0)[0] as usize;
            let row = |at| told(state, part, kind, at)[1..].try_into().unwrap();
            (0..count).map(row).collect()
        };
        Model([0, 1, 2, 3].map(|part| std::array::from_fn(|kind| rows(part, kind))))
    }

    /// Holds every row of all 28 tables, used or not, to what is read back.
    pub fn hold_to(&self, state: &[u64]) {
        for (part, seven) in self.0.iter().enumerate() {
            let size = if part < HELD { POOL_ROWS } else { ROWS };
            for (kind, rows) in seven.iter().enumerate() {
                for at in 0..size {
                    let row = rows.get(at).copied().unwrap_or_default();
                    let told = told(state, part, kind, at);
                    let place = (part, kind, at);
                    assert_eq!(
                        (told[0], &told[1..]),
                        (rows.len() as u64, &row[..]),
                        "{place:?}"
                    );
                }
            }
        }
    }
}

fn told(state: &[u64], part: usize, kind: usize, at: usize) -> [u64; 9] {
    let what = [part as u64 + 1, kind as u64 + 1, at as u64];
    let (mut out, size) = ([u64::MAX; 9], STATE_SIZE as u64);
    assert_eq!(state.len(), STATE_SIZE / 8);
    let number =
        unsafe { planner_read(state.as_ptr(), size, what.as_ptr(), 3, out.as_mut_ptr(), 9) };
    assert_eq!(number, 0);
    out
}
