// 01 and 02 read sentence by sentence and tried number by number, against the judge: a difference nobody has named would show.

use std::cell::Cell;

use oracle::added::{FIRST_LPI, HELD_ROWS, PLAN_REQUESTS, POOL_ROWS};
use oracle::calls::{
    no, rows_of_add, Add, Answer, Call, Choice, Hold, Kind, Need, Place, PlanAnswer, Record, Refusal, Request, Row,
    Tables,
};
use oracle::gen;
use oracle::judge::Judge;

/// Numbers tried at most for one answer; an input that needs more is left.
const TRIES: u32 = 300_000;

/// Tables that follow 01's sentences alone.
struct Plain {
    tables: Tables,
    /// More numbers would have to be tried than we care for.
    left: Cell<bool>,
}

/// What one table is asked for.
struct Ask {
    kind: Kind,
    pools: [u32; 3],
    rows: [u32; 3],
    size: u64,
    alignment: u64,
    choice: Choice<u64>,
}

fn wide<T: Into<u64>>(choice: Choice<T>) -> Choice<u64> {
    match choice {
        Choice::Auto => Choice::Auto,
        Choice::Fixed(number) => Choice::Fixed(number.into()),
    }
}

fn largest(kind: Kind) -> u128 {
    match kind {
        Kind::Mmio | Kind::Input | Kind::Host => u64::MAX.into(),
        Kind::Pio => u16::MAX.into(),
        Kind::Device | Kind::Event | Kind::Lpi => u32::MAX.into(),
    }
}

fn namespace(kind: Kind) -> u32 {
    [1, 2, 3, 4, 5, 5, 6][kind as usize]
}

fn detail(kind: Kind) -> u32 {
    [1, 1, 0, 4, 5, 6, 7][kind as usize]
}

/// The end of a row's range; a wired holder's row is one number.
fn end(kind: Kind, row: &Row) -> u128 {
    if kind == Kind::Input && row.owner != 0 {
        u128::from(row.start) + 1
    } else {
        u128::from(row.end)
    }
}

fn overlaps(kind: Kind, row: &Row, start: u128, stop: u128) -> bool {
    u128::from(row.start) < stop && start < end(kind, row)
}

/// LPIs start at 8192.
fn too_low(kind: Kind, row: &Row) -> bool {
    kind == Kind::Lpi && row.start < u64::from(FIRST_LPI)
}

fn known(trigger: u32, sharing: u32) -> bool {
    trigger <= 3 && sharing <= 1
}

impl Plain {
    fn rows(&self, place: Place, kind: Kind, domain: [u32; 3]) -> impl Iterator<Item = &Row> {
        self.tables.of(place, kind).iter().filter(move |row| row.domain == domain)
    }

    fn add(&mut self, add: &Add) -> Answer {
        match add {
            Add::Pool { .. } | Add::Domain { .. } => self.add_pools(&rows_of_add(add)),
            Add::Hold { owner, what } => {
                let codes = match what {
                    Hold::Input { trigger, sharing, .. } => known(*trigger, *sharing),
                    _ => true,
                };
                self.reserve(add, codes, *owner)
            }
            Add::Pair { owner, trigger, .. } => self.reserve(add, known(*trigger, 0), *owner),
        }
    }

    /// The ranges and the room for them are tested before any row goes in: any EmptyRange, then BadLpi, then Full.
    fn add_pools(&mut self, rows: &[(Place, Kind, Row)]) -> Answer {
        if rows.iter().any(|(_, _, row)| row.start >= row.end) {
            return Answer::plain(no::EMPTY_RANGE);
        }
        if rows.iter().any(|(_, kind, row)| too_low(*kind, row)) {
            return Answer::plain(no::BAD_LPI);
        }
        let needs = |(place, kind, row): &(Place, Kind, Row)| !self.tables.of(*place, *kind).contains(row);
        let new: Vec<_> = rows.iter().copied().filter(needs).collect();
        if new.iter().any(|(place, kind, _)| self.tables.of(*place, *kind).len() == POOL_ROWS) {
            return Answer::plain(no::FULL);
        }
        for (place, kind, row) in new {
            let table = self.tables.of_mut(place, kind);
            let at = table.iter().position(|other| other.domain == row.domain && other.start > row.start);
            table.insert(at.unwrap_or(table.len()), row);
        }
        Answer::Accepted
    }

    /// All rows of a reservation or none.
    fn reserve(&mut self, add: &Add, codes: bool, owner: u32) -> Answer {
        let rows = rows_of_add(add);
        if !codes {
            return Answer::plain(no::BAD_INPUT);
        }
        if owner == 0 {
            return Answer::plain(no::BAD_OWNER);
        }
        if rows.iter().any(|(_, kind, row)| *kind != Kind::Input && row.start >= row.end) {
            return Answer::plain(no::EMPTY_RANGE);
        }
        if rows.iter().any(|(_, kind, row)| too_low(*kind, row)) {
            return Answer::plain(no::BAD_LPI);
        }
        for (place, kind, row) in &rows {
            let (start, stop) = (u128::from(row.start), end(*kind, row));
            if let Some(held) = self.rows(*place, *kind, row.domain).find(|held| overlaps(*kind, held, start, stop)) {
                return Answer::Refused(Refusal { owner: held.owner, ..Refusal::plain(no::RESERVED) });
            }
        }
        if rows.iter().any(|(place, kind, _)| self.tables.of(*place, *kind).len() == HELD_ROWS) {
            return Answer::plain(no::FULL);
        }
        for (place, kind, row) in rows {
            self.tables.of_mut(place, kind).push(row);
        }
        Answer::Accepted
    }

    fn sound(&self, kinds: &[Kind]) -> bool {
        kinds.iter().all(|kind| self.tables.of(Place::Owner, *kind).starts_with(self.tables.of(Place::Held, *kind)))
    }

    /// The least number from a pool's start on that is aligned, fits and meets no owner.
    fn least(&self, ask: &Ask) -> Option<u64> {
        let mut best: Option<u64> = None;
        let mut tries = 0;
        for pool in self.rows(Place::Auto, ask.kind, ask.pools) {
            let step = u128::from(ask.alignment);
            let mut base = u128::from(pool.start).div_ceil(step) * step;
            while base + u128::from(ask.size) <= u128::from(pool.end) {
                let stop = base + u128::from(ask.size);
                if !self.rows(Place::Owner, ask.kind, ask.rows).any(|row| overlaps(ask.kind, row, base, stop)) {
                    best = Some(best.map_or(base as u64, |other| other.min(base as u64)));
                    break;
                }
                base += step;
                tries += 1;
                if tries > TRIES {
                    self.left.set(true);
                    return None;
                }
            }
        }
        best
    }

    fn choose(&self, ask: &Ask) -> Result<u64, Refusal> {
        let of = |number| Refusal { namespace: namespace(ask.kind), ..Refusal::plain(number) };
        let base = match ask.choice {
            Choice::Auto => return self.least(ask).ok_or(of(no::EXHAUSTED)),
            Choice::Fixed(base) => base,
        };
        let (start, stop) = (u128::from(base), u128::from(base) + u128::from(ask.size));
        let within = |pool: &Row| u128::from(pool.start) <= start && stop <= u128::from(pool.end);
        let allowed = base % ask.alignment == 0 && stop <= largest(ask.kind);
        if !allowed || !self.rows(Place::Fixed, ask.kind, ask.pools).any(within) {
            return Err(of(no::FIXED_NOT_ALLOWED));
        }
        match self.rows(Place::Owner, ask.kind, ask.rows).find(|row| overlaps(ask.kind, row, start, stop)) {
            Some(row) if ask.kind != Kind::Input => {
                Err(Refusal { owner: row.owner, detail: detail(ask.kind), ..of(no::CONFLICT) })
            }
            _ => Ok(base),
        }
    }

    fn request(&mut self, request: &Request) -> Answer {
        match self.granted(request) {
            Ok((record, rows)) => {
                if rows.iter().any(|(kind, _)| self.tables.of(Place::Owner, *kind).len() == HELD_ROWS) {
                    return Answer::plain(no::FULL);
                }
                for (kind, row) in rows {
                    self.tables.of_mut(Place::Owner, kind).push(row);
                }
                Answer::Granted(record)
            }
            Err(refusal) => Answer::Refused(refusal),
        }
    }

    fn granted(&self, request: &Request) -> Result<(Record, Vec<(Kind, Row)>), Refusal> {
        let owner = request.requester;
        let bad = Err(Refusal::plain(no::BAD_INPUT));
        let front = |kind| [kind, u64::from(owner), u64::from(request.slot)];
        let row = |domain, start: u64, size: u64| Row { domain, start, end: start + size, owner, ..Row::default() };
        let ask =
            |kind, domain, size, alignment, choice| Ask { kind, pools: domain, rows: domain, size, alignment, choice };
        if owner == 0 {
            return bad;
        }
        let (front, numbers, rows) = match request.need {
            Need::Mmio { size, alignment, base } => {
                if size == 0 || alignment.count_ones() != 1 {
                    return bad;
                }
                let base = self.choose(&ask(Kind::Mmio, [0; 3], size, alignment, base))?;
                (front(1), vec![base, size], vec![(Kind::Mmio, row([0; 3], base, size))])
            }
            Need::Pio { size, alignment, base } => {
                if size == 0 || alignment.count_ones() != 1 {
                    return bad;
                }
                let base = self.choose(&ask(Kind::Pio, [0; 3], size.into(), alignment.into(), wide(base)))?;
                (front(2), vec![base, size.into()], vec![(Kind::Pio, row([0; 3], base, size.into()))])
            }
            Need::Input { controller, trigger, sharing, input } => {
                if !known(trigger, sharing) {
                    return bad;
                }
                let domain = [controller, 0, 0];
                let input = self.choose(&ask(Kind::Input, domain, 1, 1, input))?;
                self.suits(domain, input, trigger, sharing)?;
                let numbers = vec![controller.into(), input, trigger.into(), sharing.into()];
                (front(3), numbers, vec![(Kind::Input, Row { domain, start: input, end: 0, trigger, sharing, owner })])
            }
            Need::Host { irq } => {
                let irq = self.choose(&ask(Kind::Host, [0; 3], 1, 1, irq))?;
                (front(4), vec![irq], vec![(Kind::Host, row([0; 3], irq, 1))])
            }
            Need::Msi { controller, its, count, device, event, lpi } => {
                if count == 0 {
                    return bad;
                }
                let (domain, size) = ([controller, its, 0], u64::from(count));
                let device = self.choose(&ask(Kind::Device, domain, 1, 1, wide(device)))?;
                let holders = [controller, its, device as u32];
                let events = Ask { rows: holders, ..ask(Kind::Event, domain, size, 1, wide(event)) };
                let event = self.choose(&events)?;
                let lpi = self.choose(&ask(Kind::Lpi, [controller, 0, 0], size, 1, wide(lpi)))?;
                let rows = vec![
                    (Kind::Device, row(domain, device, 1)),
                    (Kind::Event, row(holders, event, size)),
                    (Kind::Lpi, row([controller, 0, 0], lpi, size)),
                ];
                (front(5), vec![controller.into(), its.into(), device, event, lpi, size], rows)
            }
        };
        let mut record = [0; 9];
        record[..3].copy_from_slice(&front);
        record[3..3 + numbers.len()].copy_from_slice(&numbers);
        Ok((record, rows))
    }

    /// A fixed input is free, or its first row and the request are both Shared with one trigger.
    fn suits(&self, domain: [u32; 3], input: u64, trigger: u32, sharing: u32) -> Result<(), Refusal> {
        let Some(first) = self.rows(Place::Owner, Kind::Input, domain).find(|row| row.start == input) else {
            return Ok(());
        };
        let conflict = |detail| Refusal { number: no::CONFLICT, namespace: 3, owner: first.owner, detail };
        if first.trigger != trigger {
            return Err(conflict(2));
        }
        if first.sharing != 1 || sharing != 1 {
            return Err(conflict(3));
        }
        Ok(())
    }

    fn plan(&mut self, requests: &[Request], results: usize) -> PlanAnswer {
        let refused = |answer, index, records| PlanAnswer { answer, index, records };
        if !self.sound(&Kind::ALL) {
            return refused(Answer::plain(no::MALFORMED), 0, Vec::new());
        }
        if requests.len() > PLAN_REQUESTS || results < 9 * requests.len() {
            return refused(Answer::plain(no::SHORT), 0, Vec::new());
        }
        let before = self.tables.owners.clone();
        let mut records = Vec::new();
        for (index, request) in requests.iter().enumerate() {
            match self.request(request) {
                Answer::Granted(record) => records.push(record),
                answer => {
                    self.tables.owners = before;
                    return refused(answer, index, records);
                }
            }
        }
        PlanAnswer { answer: Answer::Accepted, index: 0, records }
    }

    /// Everything granted to one requester goes; reservations stay even if their owner has the same number.
    fn withdraw(&mut self, requester: u32) -> Answer {
        if requester == 0 {
            return Answer::plain(no::BAD_INPUT);
        }
        let mut gone = 0;
        for kind in Kind::ALL {
            let held = self.tables.of(Place::Held, kind).len();
            let table = self.tables.of_mut(Place::Owner, kind);
            for at in (held..table.len()).rev() {
                if table[at].owner == requester {
                    table.remove(at);
                    gone += 1;
                }
            }
        }
        if gone == 0 {
            return Answer::plain(no::NOT_FOUND);
        }
        Answer::Accepted
    }

    fn call(&mut self, call: &Call) -> PlanAnswer {
        let answer = match call {
            Call::Add(add) => self.add(add),
            Call::Start => {
                self.tables.owners = self.tables.held.clone();
                Answer::Accepted
            }
            Call::Request(_) | Call::Withdraw { .. } if !self.sound(&Kind::ALL) => Answer::plain(no::MALFORMED),
            Call::OfKind(request) if !self.sound(request.need.kinds()) => Answer::plain(no::MALFORMED),
            Call::Request(request) | Call::OfKind(request) => self.request(request),
            Call::Plan { requests, results } => return self.plan(requests, *results),
            Call::Withdraw { requester } => self.withdraw(*requester),
        };
        let records = match answer {
            Answer::Granted(record) => vec![record],
            _ => Vec::new(),
        };
        PlanAnswer { answer, index: 0, records }
    }
}

#[test]
fn the_judge_says_what_01_says() {
    let (mut compared, mut left) = (0, 0);
    for index in 0..gen::runs(4_000) {
        let (mut plain, mut judge) = (Plain { tables: Tables::default(), left: Cell::new(false) }, Judge::fresh());
        for call in gen::sequence(9, index) {
            let (ours, theirs) = (plain.call(&call), judge.call(&call));
            if plain.left.get() {
                left += 1;
                break;
            }
            assert_eq!(theirs, ours, "sequence {index}, {call:?}");
            assert_eq!(judge.tables(), &plain.tables, "sequence {index}, {call:?}");
            compared += 1;
        }
    }
    println!("{compared} calls compared, {left} sequences left part of the way");
    assert!(compared > 15 * left);
}
