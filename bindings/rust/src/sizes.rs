//! The sizes of tables, plans and lists, and the least LPI, each once: what else has a size is computed here. The project's tests/sizes.py holds the numbers to
//! those of the proved code, and tests/face.rs to what the library does.

/// The rows of a pool table.
pub const POOL_ROWS: usize = 64;

/// The rows of a reservation table, and of an owner table.
pub const ROWS: usize = 256;

/// The requests of a plan.
pub const MOST: usize = 256;

/// The least LPI: the Arm GICv3 architecture has none below it.
pub const FIRST_LPI: u32 = 8192;

/// The base address registers of a PCI device, and the most requests that they make.
pub const REGISTERS: usize = 6;

/// The numbers of a request.
pub const REQUEST: usize = 12;

/// The numbers of a record.
pub const RECORD: usize = 9;

/// The numbers of an answer.
pub const ANSWER: usize = 5;

/// The numbers that a row is told as: its table's count, and eight of its own.
pub(crate) const ROW: usize = 9;

/// The bytes of columns of 32-bit numbers, filled up to whole words: columns of 64-bit numbers, or another table, stand behind them.
const fn narrow(columns: usize, rows: usize) -> usize {
    (columns * rows).div_ceil(2) * 8
}

const POOL: usize = 8 + narrow(2, POOL_ROWS) + 16 * POOL_ROWS;
const RANGES: usize = 8 + narrow(3, ROWS) + 16 * ROWS + narrow(1, ROWS);
const INPUTS: usize = 8 + narrow(1, ROWS) + 8 * ROWS + narrow(3, ROWS);

/// The bytes of a state: twice seven pool tables, twice seven tables of rows that are held, and the last answer.
pub const STATE_SIZE: usize = 2 * 7 * POOL + 2 * (6 * RANGES + INPUTS) + 8 * ANSWER;

/// The bytes of a text, read or pinned.
pub const TEXT: usize = 65536;

/// A number behind its tab, of twenty digits at the most.
const FIELD: usize = 21;

/// The bytes of the longest output that a text has: for each request the longest `got` line, which is that of message interrupts, and `end`.
pub const TEXT_OUTPUT: usize = MOST * (8 + 8 * FIELD) + 4 + FIELD;

/// The bytes of stack that are enough for a text, answered or pinned: a state, and 64 KB for all else, of which it takes less than half.
pub const TEXT_STACK: usize = STATE_SIZE + (64 << 10);
