// 01's forms by value, which nothing that ships leans on: one request over the whole state, and over the tables of its kind.

use crate::face::Flat;
use crate::tables::{Inputs, MsiSet, Ranges, Set, State};

mod symbols {
    use super::*;

    // Each takes a pointer to its tables, then a list as a pointer and a length.
    extern "C" {
        pub fn timed_allocate(state: *mut State, request: *const u64, n: usize);
        pub fn timed_mmio(tables: *mut Set<Ranges>, request: *const u64, n: usize);
        pub fn timed_pio(tables: *mut Set<Ranges>, request: *const u64, n: usize);
        pub fn timed_input(tables: *mut Set<Inputs>, request: *const u64, n: usize);
        pub fn timed_host(tables: *mut Set<Ranges>, request: *const u64, n: usize);
        pub fn timed_msi(tables: *mut MsiSet, request: *const u64, n: usize);
    }
}

/// The tables of one kind, by the kind's number.
pub enum OfKind {
    Mmio(Set<Ranges>),
    Pio(Set<Ranges>),
    Input(Set<Inputs>),
    Host(Set<Ranges>),
    Msi(MsiSet),
}

impl OfKind {
    pub fn of(state: &State, kind: u64) -> Self {
        match kind {
            1 => OfKind::Mmio(state.mmio()),
            2 => OfKind::Pio(state.pio()),
            3 => OfKind::Input(state.input()),
            4 => OfKind::Host(state.host()),
            _ => OfKind::Msi(state.msi()),
        }
    }

    /// The by-value call of the kind, with the test of the kind's tables.
    pub fn allocate(&mut self, request: &Flat) {
        let (list, n) = (request.as_ptr(), request.len());
        // SAFETY: the pointers are to whole tables and a whole list; the calls require nothing more.
        unsafe {
            match self {
                OfKind::Mmio(tables) => symbols::timed_mmio(tables, list, n),
                OfKind::Pio(tables) => symbols::timed_pio(tables, list, n),
                OfKind::Input(tables) => symbols::timed_input(tables, list, n),
                OfKind::Host(tables) => symbols::timed_host(tables, list, n),
                OfKind::Msi(tables) => symbols::timed_msi(tables, list, n),
            }
        }
    }

    /// Whether the state holds these very tables.
    pub fn stands_in(&self, state: &State) -> bool {
        match self {
            OfKind::Mmio(tables) => *tables == state.mmio(),
            OfKind::Pio(tables) => *tables == state.pio(),
            OfKind::Input(tables) => *tables == state.input(),
            OfKind::Host(tables) => *tables == state.host(),
            OfKind::Msi(tables) => *tables == state.msi(),
        }
    }
}

/// One request over the whole state, with its test.
pub fn allocate(state: &mut State, request: &Flat) {
    // SAFETY: a whole state and a whole list; the call requires nothing more.
    unsafe { symbols::timed_allocate(state, request.as_ptr(), request.len()) }
}
