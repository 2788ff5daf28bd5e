// The judge: the original's answers in 01's numbers, with 01's and 02's additions in their order, and all tables after each call.

use crate::added;
use crate::calls::{
    by_domain, no, pinned, rows_of_add, rows_of_record, Add, Answer, Call, Kind, Place, PlanAnswer, Record, Request,
    Seven, Tables,
};
use crate::resources::bare::Bare;

/// One allocation state.
pub struct Judge {
    bare: Bare,
    tables: Tables,
    /// What was granted since the start, refused plans left out, and not withdrawn; none once a reservation was made since.
    lines: Option<Vec<Line>>,
}

/// A request with its answer written back, and the answer.
type Line = (Request, Record);

impl Judge {
    /// Fresh tables.
    pub fn fresh() -> Self {
        Self { bare: Bare::new(), tables: Tables::default(), lines: Some(Vec::new()) }
    }

    /// All tables in 01's order. Pools and reservations are held against the original's after every call that adds;
    /// owner rows are told from the original's answers, and tests/opened.rs holds them against the original's own.
    pub fn tables(&self) -> &Tables {
        &self.tables
    }

    /// The original's own pools and allocators as they stand.
    pub fn bare(&self) -> &Bare {
        &self.bare
    }

    /// Adds a pool range, an MSI domain, a reservation or the pair: all of it or nothing. The original stops at an empty
    /// range of a domain and keeps what it added before, which is taken back.
    pub fn add(&mut self, add: &Add) -> Answer {
        let refused = added::bad_add(add).or_else(|| added::pair_no_range(add)).or_else(|| added::bad_lpi(add));
        if let Some(refusal) = refused {
            return Answer::Refused(refusal);
        }
        let before = self.bare.copy();
        let mut answer = self.bare.add(add);
        if !answer.is_refused() && added::overfull(&self.bare, add) {
            answer = Answer::plain(no::FULL);
        }
        if answer.is_refused() {
            self.bare = before;
        } else if matches!(add, Add::Hold { .. } | Add::Pair { .. }) {
            self.lines = None;
        }
        self.follow(add);
        answer
    }

    /// The owner tables become copies of the reservations.
    pub fn start(&mut self) -> Answer {
        self.tables.owners = self.tables.held.clone();
        self.lines = Some(Vec::new());
        self.bare.start();
        Answer::Accepted
    }

    /// Everything granted to a requester goes. The original has no such call: it begins again with what is left.
    pub fn withdraw(&mut self, requester: u32) -> Answer {
        let refused =
            added::malformed(&self.tables, &Kind::ALL).or_else(|| added::no_withdrawal(&self.tables, requester));
        if let Some(refusal) = refused {
            return Answer::Refused(refusal);
        }
        self.tables.owners = added::owners_without(&self.tables, requester);
        if let Some(lines) = &mut self.lines {
            lines.retain(|(request, _)| request.requester != requester);
        }
        self.begin_again();
        Answer::Accepted
    }

    /// One request at the door, which looks at all tables.
    pub fn request(&mut self, request: &Request) -> Answer {
        self.request_into(request, added::RECORD)
    }

    /// One request at the door that is lent so many numbers for its record.
    pub fn request_into(&mut self, request: &Request, lent: usize) -> Answer {
        let refused = added::malformed(&self.tables, &Kind::ALL).or_else(|| added::short_record(lent));
        match refused {
            Some(refusal) => Answer::Refused(refusal),
            None => self.judged(request),
        }
    }

    /// The by-value call of one kind, which is handed the tables of that kind alone.
    pub fn request_of_kind(&mut self, request: &Request) -> Answer {
        match added::malformed(&self.tables, request.need.kinds()) {
            Some(refusal) => Answer::Refused(refusal),
            None => self.judged(request),
        }
    }

    /// A plan with a results list of so many numbers. A refused plan leaves the owner tables as they were.
    pub fn plan(&mut self, requests: &[Request], results: usize) -> PlanAnswer {
        let refused = added::malformed(&self.tables, &Kind::ALL).or_else(|| added::short_plan(requests.len(), results));
        if let Some(refusal) = refused {
            return PlanAnswer { answer: Answer::Refused(refusal), index: 0, records: Vec::new() };
        }
        let before = (self.tables.owners.clone(), self.lines.as_ref().map(Vec::len));
        let mut records = Vec::new();
        for (index, request) in requests.iter().enumerate() {
            match self.judged(request) {
                Answer::Granted(record) => records.push(record),
                answer => {
                    self.put_back(before);
                    return PlanAnswer { answer, index, records };
                }
            }
        }
        PlanAnswer { answer: Answer::Accepted, index: 0, records }
    }

    /// Any call, in the form of a plan's answer.
    pub fn call(&mut self, call: &Call) -> PlanAnswer {
        let answer = match call {
            Call::Add(add) => self.add(add),
            Call::Start => self.start(),
            Call::Request(request) => self.request(request),
            Call::OfKind(request) => self.request_of_kind(request),
            Call::Plan { requests, results } => return self.plan(requests, *results),
            Call::Withdraw { requester } => self.withdraw(*requester),
        };
        let records = match &answer {
            Answer::Granted(record) => vec![*record],
            _ => Vec::new(),
        };
        PlanAnswer { answer, index: 0, records }
    }

    /// The bare original's answer on the same state, which stays as it is.
    pub fn bare_answer(&self, call: &Call) -> Option<Answer> {
        let mut bare = self.bare.copy();
        match call {
            Call::Add(add) => Some(bare.add(add)),
            Call::Request(request) | Call::OfKind(request) => {
                bare.seat(&self.tables.owners);
                Some(bare.request(request))
            }
            Call::Start | Call::Plan { .. } | Call::Withdraw { .. } => None,
        }
    }

    /// One request on sound tables: 2, then the original, then 9.
    fn judged(&mut self, request: &Request) -> Answer {
        if let Some(refusal) = added::bad_request(request) {
            return Answer::Refused(refusal);
        }
        let crawl = added::host_crawl(&self.tables, request);
        let full = added::no_room(&self.tables, request);
        let answer = if full || crawl.is_some() { self.ask_aside(request, crawl) } else { self.ask(request) };
        match answer {
            Answer::Granted(_) if full => Answer::plain(no::FULL),
            Answer::Granted(record) => {
                self.record(request, &record);
                Answer::Granted(record)
            }
            refused => refused,
        }
    }

    /// Asks the allocators at work; they go on from the owner rows if a call in between has stopped them.
    fn ask(&mut self, request: &Request) -> Answer {
        if !self.bare.is_begun() {
            self.bare.seat(&self.tables.owners);
        }
        self.bare.request(request)
    }

    /// Asks allocators made for this one request, so that what they record can be dropped.
    fn ask_aside(&mut self, request: &Request, crawl: Option<Option<u64>>) -> Answer {
        let mut aside = self.bare.copy();
        if let Some(first) = crawl {
            aside.cut_auto_host_irqs(first);
        }
        aside.seat(&self.tables.owners);
        self.bare.forget_allocators();
        aside.request(request)
    }

    fn record(&mut self, request: &Request, record: &Record) {
        for (kind, row) in rows_of_record(record) {
            added::insert_row(self.tables.of_mut(Place::Owner, kind), Place::Owner, row);
        }
        if let Some(lines) = &mut self.lines {
            lines.push((pinned(request, record), *record));
        }
    }

    fn put_back(&mut self, (owners, lines): (Seven, Option<usize>)) {
        self.tables.owners = owners;
        if let (Some(kept), Some(length)) = (&mut self.lines, lines) {
            kept.truncate(length);
        }
        self.bare.forget_allocators();
    }

    /// The original begins from the reservations and is asked for the lines that are left, each by the numbers that it was
    /// given: it must give them again. Where these cannot be asked for, or are not known, it goes on from the owner rows.
    fn begin_again(&mut self) {
        self.bare.forget_allocators();
        let Some(lines) = &self.lines else { return };
        let rows = lines.iter().flat_map(|(_, record)| rows_of_record(record));
        let mut owners = self.tables.held.clone();
        rows.for_each(|(kind, row)| owners[kind as usize].push(row));
        assert_eq!(owners, self.tables.owners, "the owners are the reservations and the lines that are left");
        if self.tables.auto_in_fixed() {
            self.bare.start();
            for (request, record) in lines {
                assert_eq!(self.bare.request(request), Answer::Granted(*record), "again {request:?}");
            }
        }
    }

    /// Takes the rows that the original has added into the tables, and holds both against each other.
    fn follow(&mut self, add: &Add) {
        for (place, kind, row) in rows_of_add(add) {
            let theirs = self.bare.rows(place, kind);
            let ours = self.tables.of_mut(place, kind);
            if theirs.len() > ours.len() {
                added::insert_row(ours, place, row);
            }
            assert_eq!(by_domain(ours), theirs, "rows of {place:?} {kind:?} after {add:?}");
        }
    }
}
