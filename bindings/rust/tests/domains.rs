//! An MSI domain is taken whole or not at all: what is refused leaves every number of the 28 tables as it was, whichever of its ranges, tables or numbers is to blame;
//! an exact duplicate needs no row, even of a full table.

mod common;

use common::{call_leaving as call, mixed, numbers, planner, small_stack, stand};
use thurgoleo::{Kind, Part, Planner, Pool, Row, Use, FIRST_LPI, POOL_ROWS};

const USES: [Use; 2] = [Use::Automatic, Use::Fixed];
const PARTS: [Part; 4] = [
    Part::Automatic,
    Part::Fixed,
    Part::Reservations,
    Part::Owners,
];
const KINDS: [Kind; 7] = [
    Kind::Mmio,
    Kind::Pio,
    Kind::Input,
    Kind::Host,
    Kind::Device,
    Kind::Event,
    Kind::Lpi,
];
const THREE: [Kind; 3] = [Kind::Device, Kind::Event, Kind::Lpi];
/// Where the ranges of devices, events and LPIs begin here.
const FIRSTS: [u32; 3] = [0, 0, FIRST_LPI];

const NEW: [u32; 2] = [50_000, 50_005];
const THERE: [u32; 2] = [7_000, 7_005];

/// A domain of controller 1 and ITS 2, as numbers.
fn domain(used: Use, three: [[u32; 2]; 3]) -> [u64; 11] {
    let [[ds, de], [es, ee], [ls, le]] = three.map(|range| range.map(u64::from));
    [1, used as u64, 5, 1, 2, ds, de, es, ee, ls, le]
}

/// The same range for each kind, from its first number on.
fn alike(range: [u32; 2]) -> [[u32; 2]; 3] {
    FIRSTS.map(|first| range.map(|n| first + n))
}

/// Reservations of the kinds that the stand has none of.
const HOLDS: [&[u64]; 5] = [
    &[2, 8, 2, 0x100, 0x110],
    &[2, 8, 3, 0, 16, 0, 1],
    &[2, 8, 5, 0, 0, 60, 61],
    &[2, 8, 6, 0, 0, 60, 9, 10],
    &[2, 8, 7, 0, 8192, 8193],
];

/// The stand with rows in all its tables, and with domains added until the three tables of a use have so many rows; the first of these is the range that is THERE.
fn filled(used: Use, rows: [usize; 3]) -> Vec<u64> {
    let mut words = stand().as_words().to_vec();
    for hold in HOLDS.into_iter().chain([&[3][..]]) {
        assert_eq!(call(&mut words, hold), 0);
    }
    for request in numbers(&mixed(10)).chunks(12) {
        assert_eq!(call(&mut words, &[&[4], request].concat()), 0);
    }
    for i in 1..POOL_ROWS {
        let row = |kind: usize| if i < rows[kind] { i as u32 - 1 } else { 0 };
        let three = [0, 1, 2].map(|kind| alike(THERE)[kind].map(|bound| bound + 10 * row(kind)));
        assert_eq!(call(&mut words, &domain(used, three)), 0);
    }
    let p = planner(&words);
    assert_eq!(
        THREE.map(|kind| p.used(PARTS[used as usize], kind) as usize),
        rows
    );
    assert!(read_back(&words).iter().all(|rows| !rows.is_empty()));
    words
}

/// The used rows of all 28 tables, as they are read back.
fn read_back(words: &[u64]) -> Vec<Vec<Row>> {
    let p = planner(words);
    let tables = PARTS
        .iter()
        .flat_map(|part| KINDS.map(|kind| (*part, kind)));
    tables
        .map(|(part, kind)| p.rows(part, kind).collect())
        .collect()
}

/// The rows with those ranges that are new behind their tables, where no row of the domain starts later.
fn with_new(mut tables: Vec<Vec<Row>>, used: Use, three: [[u32; 2]; 3]) -> Vec<Vec<Row>> {
    for (i, [start, end]) in three.into_iter().enumerate() {
        if [start, end] == alike(NEW)[i] {
            let (controller, its) = (1, if i == 2 { 0 } else { 2 });
            let (start, end) = (start.into(), end.into());
            tables[7 * used as usize + 4 + i].push(Row {
                controller,
                its,
                device: 0,
                start,
                end,
                trigger: 0,
                sharing: 0,
                owner: 0,
            });
        }
    }
    tables
}

/// Which of the three tables are full: none, each, all.
const FULL: [[bool; 3]; 5] = [
    [false; 3],
    [true, false, false],
    [false, true, false],
    [false, false, true],
    [true; 3],
];

/// With every set of full tables: each range new, there, empty or turned round, of LPIs low too. The first test that any of the three does not pass decides.
#[test]
fn refused_domains_leave_all_tables() {
    small_stack(|| {
        let few = [NEW, THERE, [3, 3], [9, 5]];
        let low = [
            [0, 1],
            [FIRST_LPI - 1, FIRST_LPI],
            [FIRST_LPI - 1, FIRST_LPI + 1],
            [0, u32::MAX],
            [5, 5],
            [9, 5],
        ];
        let mut seen = [0; 13];
        for (used, full) in USES.into_iter().flat_map(|u| FULL.map(|full| (u, full))) {
            let state = filled(used, full.map(|full| if full { POOL_ROWS } else { 2 }));
            let lpis = few.map(|range| range.map(|n| FIRST_LPI + n));
            for (d, e) in few.into_iter().flat_map(|d| few.map(|e| (d, e))) {
                for l in lpis.into_iter().chain(low) {
                    let three = [d, e, l];
                    let lacks = |kind: usize| full[kind] && three[kind] == alike(NEW)[kind];
                    let number = if three.iter().any(|[start, end]| start >= end) {
                        4
                    } else if l[0] < FIRST_LPI {
                        12
                    } else if (0..3).any(lacks) {
                        9
                    } else {
                        0
                    };
                    let mut words = state.clone();
                    let answer = call(&mut words, &domain(used, three));
                    assert_eq!(answer, number, "{used:?} {full:?} {three:?}");
                    if number == 0 {
                        let expected = with_new(read_back(&state), used, three);
                        assert_eq!(read_back(&words), expected);
                    }
                    // once accepted it is there: nothing changes any more
                    let after = words.clone();
                    assert_eq!(call(&mut words, &domain(used, three)), number);
                    assert!(words == after);
                    seen[number as usize] += 1;
                }
            }
        }
        assert!(
            [0, 4, 9, 12].iter().all(|number| seen[*number] > 10),
            "{seen:?}"
        );
    });
}

/// Domains that would be accepted or 9, accepted, 12, and 4.
fn others() -> [[[u32; 2]; 3]; 4] {
    [alike(NEW), alike(THERE), [[0, 1]; 3], [[5, 5]; 3]]
}

/// A number too large for its field is 2, be the domain empty, low or without a row; so is an unknown use.
#[test]
fn too_large_numbers_of_a_domain() {
    small_stack(|| {
        for used in USES {
            let mut words = filled(used, [POOL_ROWS; 3]);
            for three in others() {
                for place in 3..11 {
                    for large in [1 << 32, u64::MAX] {
                        let mut numbers = domain(used, three);
                        numbers[place] = large;
                        assert_eq!(call(&mut words, &numbers), 2);
                    }
                }
                let mut numbers = domain(used, three);
                numbers[1] = 2;
                assert_eq!(call(&mut words, &numbers), 2);
                // 11 where a number is missing
                assert_eq!(call(&mut words, &numbers[..10]), 11);
            }
        }
    });
}

/// 1 before all else.
#[test]
fn domains_on_unsound_tables() {
    small_stack(|| {
        for used in USES {
            let sound = filled(used, [2; 3]);
            // a count too large, and a row behind the last used one
            for (place, number) in [(0, POOL_ROWS as u64 + 1), (3 * POOL_ROWS, 1)] {
                let mut words = sound.clone();
                words[place] = number;
                for three in others() {
                    assert_eq!(call(&mut words, &domain(used, three)), 1);
                }
                let mut numbers = domain(used, alike(NEW));
                numbers[3] = 1 << 32;
                assert_eq!(call(&mut words, &numbers), 1);
            }
        }
    });
}

/// Exact duplicates are accepted by full tables, and change nothing; with one new range among them the table of that one decides.
#[test]
fn duplicates_on_full_tables() {
    small_stack(|| {
        for used in USES {
            let mut words = filled(used, [POOL_ROWS; 3]);
            let (before, n) = (words.clone(), words.len() - 5);
            for i in 0..POOL_ROWS as u32 - 1 {
                let range = THERE.map(|bound| bound + 10 * i);
                assert_eq!(call(&mut words, &domain(used, alike(range))), 0);
                assert!(words[..n] == before[..n]);
            }
            for kind in 0..3 {
                let mut three = alike(THERE);
                three[kind] = alike(NEW)[kind];
                assert_eq!(call(&mut words, &domain(used, three)), 9);
            }
            // the other use has tables of its own
            let other = USES[1 - used as usize];
            assert_eq!(call(&mut words, &domain(other, alike(NEW))), 0);
        }
    });
}

/// Each of the three goes where a single range would: before the first row of its domain with a greater start, else to the end of its table.
#[test]
fn the_rows_of_accepted_domains() {
    let mut p = Planner::new().unwrap();
    let mut add = |controller, its, at: u32| {
        let (devices, events) = (at..at + 1, at + 1..at + 3);
        let lpis = FIRST_LPI + at..FIRST_LPI + at + 4;
        let pool = Pool::Msi {
            controller,
            its,
            devices,
            events,
            lpis,
        };
        p.add_pool(Use::Fixed, pool).unwrap();
    };
    add(1, 2, 50);
    add(1, 3, 40);
    add(1, 2, 30);
    add(2, 2, 10);
    add(1, 2, 30);
    add(1, 3, 60);
    let rows = |kind| -> Vec<[u64; 4]> {
        let row = |r: Row| [r.controller, r.its, r.start, r.end];
        p.rows(Part::Fixed, kind).map(row).collect()
    };
    let devices = [
        [1, 2, 30, 31],
        [1, 2, 50, 51],
        [1, 3, 40, 41],
        [2, 2, 10, 11],
        [1, 3, 60, 61],
    ];
    assert_eq!(rows(Kind::Device), devices);
    assert_eq!(
        rows(Kind::Event),
        devices.map(|[c, i, s, _]| [c, i, s + 1, s + 3])
    );
    // LPIs are kept by controller alone
    let first = u64::from(FIRST_LPI);
    let lpis = [(1, 30), (1, 40), (1, 50), (2, 10), (1, 60)];
    assert_eq!(
        rows(Kind::Lpi),
        lpis.map(|(c, at)| [c, 0, first + at, first + at + 4])
    );
    for kind in [Kind::Mmio, Kind::Pio, Kind::Input, Kind::Host] {
        assert_eq!(p.used(Part::Fixed, kind), 0);
    }
    for kind in THREE {
        assert_eq!(p.used(Part::Automatic, kind), 0);
    }
}
