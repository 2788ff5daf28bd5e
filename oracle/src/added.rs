// What 01, 02 and their rulings add around the original's answers, and nothing else. Every other answer is the original's.

use std::ops::Range;

use crate::calls::{no, rows_of_add, Add, Choice, Hold, Kind, Need, Place, Refusal, Request, Row, Seven, Tables};
use crate::resources::bare::Bare;
use crate::{InterruptSharing, InterruptTrigger};

/// Rows of a pool table.
pub const POOL_ROWS: usize = 64;
/// Rows of a reservation or owner table.
pub const HELD_ROWS: usize = 256;
/// Requests of a plan.
pub const PLAN_REQUESTS: usize = 256;
/// Numbers of a record.
pub const RECORD: usize = 9;
/// The least LPI: a range of them starts here or above.
pub const FIRST_LPI: u32 = 8192;
/// Host IRQ numbers that the original may try one by one before we help it over the held ones.
pub const CRAWL: u64 = 1 << 16;

/// 1, the only way to it from a fresh state: an owner table that no longer begins with its reservations, since the
/// original's allocators copy them once and can't see later ones.
pub fn malformed(tables: &Tables, kinds: &[Kind]) -> Option<Refusal> {
    let begins = |kind: &Kind| tables.of(Place::Owner, *kind).starts_with(tables.of(Place::Held, *kind));
    refuse(!kinds.iter().all(begins), no::MALFORMED)
}

/// 11: the original has neither plans nor results lists.
pub fn short_plan(requests: usize, results: usize) -> Option<Refusal> {
    refuse(requests > PLAN_REQUESTS || results < RECORD * requests, no::SHORT)
}

/// 11 for one request that writes its record into a lent list.
pub fn short_record(lent: usize) -> Option<Refusal> {
    refuse(lent < RECORD, no::SHORT)
}

/// 2 for a request: the original's own validation is not in the text given.
pub fn bad_request(request: &Request) -> Option<Refusal> {
    let bad = request.requester == 0
        || match request.need {
            Need::Mmio { size, alignment, .. } => size == 0 || alignment.count_ones() != 1,
            Need::Pio { size, alignment, .. } => size == 0 || alignment.count_ones() != 1,
            Need::Input { trigger, sharing, .. } => unknown_trigger(trigger) || unknown_sharing(sharing),
            Need::Host { .. } => false,
            Need::Msi { count, .. } => count == 0,
        };
    refuse(bad, no::BAD_INPUT)
}

/// 2 for a reservation: the original's types have no unknown code.
pub fn bad_add(add: &Add) -> Option<Refusal> {
    let bad = match add {
        Add::Hold { what: Hold::Input { trigger, sharing, .. }, .. } => {
            unknown_trigger(*trigger) || unknown_sharing(*sharing)
        }
        Add::Pair { trigger, .. } => unknown_trigger(*trigger),
        _ => false,
    };
    refuse(bad, no::BAD_INPUT)
}

/// 4 of the pair call before any 5, as 01's order has it: the original looks at the input's holder first.
pub fn pair_no_range(add: &Add) -> Option<Refusal> {
    let none = matches!(add, Add::Pair { owner, host, .. } if *owner != 0 && *host == u64::MAX);
    refuse(none, no::EMPTY_RANGE)
}

/// 12, directly after 4: the original knows no least LPI. Of a domain any empty range comes first, of a reservation its
/// owner too.
pub fn bad_lpi(add: &Add) -> Option<Refusal> {
    let low = |lpis: &Range<u32>| !lpis.is_empty() && lpis.start < FIRST_LPI;
    let bad = match add {
        Add::Domain { lpis, .. } => low(lpis) && empty_turn(add).is_none(),
        Add::Hold { owner, what: Hold::Lpi { lpis, .. } } => *owner != 0 && low(lpis),
        _ => false,
    };
    refuse(bad, no::BAD_LPI)
}

/// The first empty range of a pool or an MSI domain, from 0.
pub fn empty_turn(add: &Add) -> Option<usize> {
    match add {
        Add::Pool { .. } | Add::Domain { .. } => rows_of_add(add).iter().position(|(_, _, row)| row.start >= row.end),
        Add::Hold { .. } | Add::Pair { .. } => None,
    }
}

/// 9 for a call that the original accepted: a table that it speaks of has more rows now than 01's size. The original's
/// tables grow without end, so it has added the row; the judge takes it back.
pub fn overfull(bare: &Bare, add: &Add) -> bool {
    rows_of_add(add).iter().any(|(place, kind, _)| bare.rows(*place, *kind).len() > size(*place))
}

/// Whether a pool table that needs a row for the call has none; an exact duplicate needs none.
pub fn lacks_pool_row(tables: &Tables, add: &Add) -> bool {
    rows_of_add(add).iter().any(|(place, kind, row)| {
        let table = tables.of(*place, *kind);
        matches!(place, Place::Auto | Place::Fixed) && table.len() >= size(*place) && !table.contains(row)
    })
}

/// 9 for a request: an owner table that it needs has no free row. It comes last, so the original is asked first.
pub fn no_room(tables: &Tables, request: &Request) -> bool {
    request.need.kinds().iter().any(|kind| tables.of(Place::Owner, *kind).len() >= HELD_ROWS)
}

/// 2 for a withdrawal, and then 13: the original has none.
pub fn no_withdrawal(tables: &Tables, requester: u32) -> Option<Refusal> {
    let granted = |kind: &Kind| granted_rows(tables, *kind).iter().any(|row| row.owner == requester);
    refuse(requester == 0, no::BAD_INPUT).or_else(|| refuse(!Kind::ALL.iter().any(granted), no::NOT_FOUND))
}

/// The owner tables without what was granted to a requester: reservations stay, the other rows keep their order.
pub fn owners_without(tables: &Tables, requester: u32) -> Seven {
    Kind::ALL.map(|kind| {
        let left = granted_rows(tables, kind).iter().filter(|row| row.owner != requester);
        tables.of(Place::Held, kind).iter().chain(left).copied().collect()
    })
}

/// The rows behind as many as there are reservations.
fn granted_rows(tables: &Tables, kind: Kind) -> &[Row] {
    &tables.of(Place::Owner, kind)[tables.of(Place::Held, kind).len()..]
}

/// Where a row goes in a table that all domains share; the original keeps a list for each domain. A pool row goes
/// before the first row of its domain with a greater start, all other rows at the end.
pub fn insert_row(table: &mut Vec<Row>, place: Place, row: Row) {
    let greater = |other: &Row| other.domain == row.domain && other.start > row.start;
    let at = match place {
        Place::Auto | Place::Fixed => table.iter().position(greater),
        Place::Held | Place::Owner => None,
    };
    table.insert(at.unwrap_or(table.len()), row);
}

/// The least free host IRQ (inner) where the original would try too many held numbers one by one. Leaving those out
/// of its pools changes its time and not its answer.
pub fn host_crawl(tables: &Tables, request: &Request) -> Option<Option<u64>> {
    if !matches!(request.need, Need::Host { irq: Choice::Auto }) {
        return None;
    }
    let (mut tried, mut free) = (0u64, None);
    'pools: for pool in tables.of(Place::Auto, Kind::Host) {
        let mut number = pool.start;
        while number < pool.end {
            let holds = |row: &&Row| row.start <= number && number < row.end;
            let Some(owner) = tables.of(Place::Owner, Kind::Host).iter().find(holds) else {
                free = Some(number);
                break 'pools;
            };
            tried = tried.saturating_add(owner.end - number);
            number = owner.end;
        }
    }
    (tried > CRAWL).then_some(free)
}

/// 01's size of a table.
pub const fn size(place: Place) -> usize {
    match place {
        Place::Auto | Place::Fixed => POOL_ROWS,
        Place::Held | Place::Owner => HELD_ROWS,
    }
}

pub fn unknown_trigger(code: u32) -> bool {
    InterruptTrigger::from_code(code).is_none()
}

pub fn unknown_sharing(code: u32) -> bool {
    InterruptSharing::from_code(code).is_none()
}

fn refuse(test: bool, number: u32) -> Option<Refusal> {
    test.then(|| Refusal::plain(number))
}
