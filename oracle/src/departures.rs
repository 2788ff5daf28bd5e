// Where the original differs from 01 and 02 or has no answer: each place a predicate on the input alone. See docs/DIFFERENCES.md.

use crate::added::{self, size, unknown_sharing, unknown_trigger, PLAN_REQUESTS, RECORD};
use crate::calls::{rows_of_add, Add, Call, Choice, Hold, Kind, Need, Place, Request, Tables};

/// A named predicate on the tables handed in and the call.
pub struct Departure {
    pub name: &'static str,
    pub holds: fn(&Tables, &Call) -> bool,
}

pub const ALL: [Departure; 15] = [
    Departure { name: "alignment_zero_auto", holds: alignment_zero_auto },
    Departure { name: "alignment_zero_fixed", holds: alignment_zero_fixed },
    Departure { name: "alignment_bits", holds: alignment_bits },
    Departure { name: "size_zero", holds: size_zero },
    Departure { name: "count_zero", holds: count_zero },
    Departure { name: "requester_zero", holds: requester_zero },
    Departure { name: "code_unknown", holds: code_unknown },
    Departure { name: "pair_no_range", holds: pair_no_range },
    Departure { name: "lpi_low", holds: lpi_low },
    Departure { name: "domain_whole", holds: domain_whole },
    Departure { name: "pool_table_full", holds: pool_table_full },
    Departure { name: "held_table_full", holds: held_table_full },
    Departure { name: "owners_unsound", holds: owners_unsound },
    Departure { name: "plan_short", holds: plan_short },
    Departure { name: "host_crawl", holds: host_crawl },
];

/// The names of all departures that an input falls under.
pub fn of(tables: &Tables, call: &Call) -> Vec<&'static str> {
    ALL.iter().filter(|departure| (departure.holds)(tables, call)).map(|departure| departure.name).collect()
}

fn requests(call: &Call) -> &[Request] {
    match call {
        Call::Request(request) | Call::OfKind(request) => std::slice::from_ref(request),
        Call::Plan { requests, .. } => requests,
        Call::Add(_) | Call::Start | Call::Withdraw { .. } => &[],
    }
}

fn any(call: &Call, test: impl Fn(&Need) -> bool) -> bool {
    requests(call).iter().any(|request| test(&request.need))
}

/// An MMIO or PIO alignment as 64 bits, and whether the base is left to the planner.
fn alignment(need: &Need) -> Option<(u64, bool)> {
    match need {
        Need::Mmio { alignment, base, .. } => Some((*alignment, *base == Choice::Auto)),
        Need::Pio { alignment, base, .. } => Some((u64::from(*alignment), *base == Choice::Auto)),
        _ => None,
    }
}

fn alignment_zero_auto(_: &Tables, call: &Call) -> bool {
    any(call, |need| alignment(need) == Some((0, true)))
}

fn alignment_zero_fixed(_: &Tables, call: &Call) -> bool {
    any(call, |need| alignment(need) == Some((0, false)))
}

fn alignment_bits(_: &Tables, call: &Call) -> bool {
    any(call, |need| alignment(need).is_some_and(|(alignment, _)| alignment.count_ones() > 1))
}

fn size_zero(_: &Tables, call: &Call) -> bool {
    any(call, |need| matches!(need, Need::Mmio { size: 0, .. } | Need::Pio { size: 0, .. }))
}

fn count_zero(_: &Tables, call: &Call) -> bool {
    any(call, |need| matches!(need, Need::Msi { count: 0, .. }))
}

fn requester_zero(_: &Tables, call: &Call) -> bool {
    requests(call).iter().any(|request| request.requester == 0)
}

fn code_unknown(_: &Tables, call: &Call) -> bool {
    let unknown = |trigger: u32, sharing: u32| unknown_trigger(trigger) || unknown_sharing(sharing);
    match call {
        Call::Add(Add::Hold { what: Hold::Input { trigger, sharing, .. }, .. }) => unknown(*trigger, *sharing),
        Call::Add(Add::Pair { trigger, .. }) => unknown_trigger(*trigger),
        _ => any(call, |need| match need {
            Need::Input { trigger, sharing, .. } => unknown(*trigger, *sharing),
            _ => false,
        }),
    }
}

fn pair_no_range(_: &Tables, call: &Call) -> bool {
    matches!(call, Call::Add(Add::Pair { host: u64::MAX, .. }))
}

/// An MSI domain or a reservation with an LPI range that starts too low, and nothing that is refused before that.
fn lpi_low(_: &Tables, call: &Call) -> bool {
    matches!(call, Call::Add(add) if added::bad_lpi(add).is_some())
}

/// An MSI domain with an empty range, and a range before it that adds a row in the original: the answer is 4 in both.
fn domain_whole(tables: &Tables, call: &Call) -> bool {
    let Call::Add(add @ Add::Domain { .. }) = call else { return false };
    let before = added::empty_turn(add).unwrap_or(0);
    rows_of_add(add)[..before].iter().any(|(place, kind, row)| !tables.of(*place, *kind).contains(row))
}

/// A pool range or an MSI domain that is refused with nothing before 9.
fn pool_table_full(tables: &Tables, call: &Call) -> bool {
    let Call::Add(add) = call else { return false };
    added::lacks_pool_row(tables, add) && added::empty_turn(add).is_none() && added::bad_lpi(add).is_none()
}

fn held_table_full(tables: &Tables, call: &Call) -> bool {
    full_for_hold(tables, call) || full_for_requests(tables, call)
}

fn full_for_hold(tables: &Tables, call: &Call) -> bool {
    let Call::Add(add) = call else { return false };
    let full = |place: Place, kind: Kind| place == Place::Held && tables.of(place, kind).len() >= size(place);
    rows_of_add(add).iter().any(|(place, kind, _)| full(*place, *kind))
}

/// The rows there and one for each request of the kind are more than the table has.
fn full_for_requests(tables: &Tables, call: &Call) -> bool {
    Kind::ALL.iter().any(|kind| {
        let needed = requests(call).iter().filter(|request| request.need.kinds().contains(kind)).count();
        needed > 0 && tables.of(Place::Owner, *kind).len() + needed > size(Place::Owner)
    })
}

fn owners_unsound(tables: &Tables, call: &Call) -> bool {
    let kinds: &[Kind] = match call {
        Call::OfKind(request) => request.need.kinds(),
        Call::Request(_) | Call::Plan { .. } | Call::Withdraw { .. } => &Kind::ALL,
        Call::Add(_) | Call::Start => &[],
    };
    added::malformed(tables, kinds).is_some()
}

fn plan_short(_: &Tables, call: &Call) -> bool {
    match call {
        Call::Plan { requests, results } => requests.len() > PLAN_REQUESTS || *results < RECORD * requests.len(),
        _ => false,
    }
}

fn host_crawl(tables: &Tables, call: &Call) -> bool {
    requests(call).iter().any(|request| added::host_crawl(tables, request).is_some())
}
