// The owner rows that the judge tells from answers are those that the original holds.
//
// This crate compiles the original once more, with a function behind the end of some files that reads the private owner
// tables, and runs the same judge over it.

extern crate alloc;
extern crate oracle as axdevice_base;

use oracle::{calls, gen, InterruptSharing, InterruptTrigger};

include!(concat!(env!("OUT_DIR"), "/opened.rs"));
use resources::{DeviceManagerError, DeviceManagerResult};

#[allow(dead_code)]
#[path = "../src/added.rs"]
mod added;
#[allow(dead_code)]
#[path = "../src/judge.rs"]
mod judge;

use calls::{by_domain, Kind, Place};

#[test]
fn owner_rows_are_those_of_the_original() {
    let (mut looked, mut rows) = (0, 0);
    for index in 0..gen::runs(4_000) {
        let (mut opened, mut unchanged) = (judge::Judge::fresh(), oracle::judge::Judge::fresh());
        let calls = if index % 2 == 0 { gen::sequence(11, index) } else { gen::sequence_fixed_too(11, index) };
        for call in calls {
            assert_eq!(opened.call(&call), unchanged.call(&call), "sequence {index}, {call:?}");
            assert_eq!(opened.tables(), unchanged.tables(), "sequence {index}, {call:?}");
            if !opened.bare().is_begun() {
                continue;
            }
            let theirs = resources::owner_rows(opened.bare());
            for kind in Kind::ALL {
                let ours = by_domain(unchanged.tables().of(Place::Owner, kind));
                assert_eq!(theirs[kind as usize], ours, "{kind:?} of sequence {index}, {call:?}");
                rows += ours.len();
            }
            looked += 1;
        }
    }
    println!("{looked} looks, {rows} owner rows");
    assert!(looked > 0 && rows > 0);
}
