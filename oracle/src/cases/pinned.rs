// Texts for writing back: all kinds at once, an automatic range in no fixed one, and texts whose pinned form is as long as a text may be, or longer, or shorter than they are.

use super::bad_lines::repeated_pools;
use super::{case, lines, Case};
use crate::text::TEXT;

pub const CASES: &[(&str, &str, &str)] = &[
    (
        "pinned-all-kinds",
        "pool auto mmio 4096 65536/hold 9 mmio 4096 8192/pool fixed mmio 0 65536/pool auto mmio 4096 65536/\
         pool auto pio 16 64/pool fixed pio 0 64/hold 9 pio 0 20/pool auto input 3 32 40/pool fixed input 3 32 40/\
         hold 9 host 5 6/pool auto host 5 9/pool fixed host 5 9/pool auto host 5 9/pool auto msi 1 2 8 10 0 4 8192 8200/\
         pool fixed msi 1 2 8 10 0 4 8192 8200/hold 9 lpi 1 8192 8193/pool fixed pio 0 64/\
         want 1 0 mmio 4096 4096 auto/want 1 1 mmio 4096 4096 12288/want 1 2 pio 8 8 auto/want 1 3 input 3 1 1 auto/\
         want 2 0 input 3 1 1 32/want 2 1 host auto/want 2 2 host 8/want 2 3 msi 1 2 3 auto/want 3 0 msi 1 2 2 9 0 8196/\
         want 3 1 mmio 4096 4096 auto/want 3 2 host auto",
        "got 1 0 mmio 8192 4096/got 1 1 mmio 12288 4096/got 1 2 pio 24 8/got 1 3 input 3 32 1 1/got 2 0 input 3 32 1 1/\
         got 2 1 host 6/got 2 2 host 8/got 2 3 msi 1 2 8 0 8193 3/got 3 0 msi 1 2 9 0 8196 2/got 3 1 mmio 16384 4096/\
         got 3 2 host 7/end 11",
    ),
    (
        "pinned-no-fixed",
        "pool auto host 5 9/pool fixed input 0 5 9/hold 2 host 5 6/want 1 1 host auto/want 1 2 host auto",
        "got 1 1 host 6/got 1 2 host 7/end 2",
    ),
    (
        "pinned-one-fixed",
        "pool auto host 5 9/pool fixed host 5 8/hold 2 host 5 7/want 1 1 host auto/want 1 2 host auto",
        "got 1 1 host 7/got 1 2 host 8/end 2",
    ),
];

pub fn all() -> Vec<Case> {
    let grows = "pool auto host 18446744073709551000 18446744073709551010/want 1 1 host auto";
    let got = "got 1 1 host 18446744073709551000/end 1";
    // 20 digits for the four letters of `auto`
    let more = 16;
    vec![
        long("pinned-longest", TEXT - more, grows, got),
        long("pinned-over", TEXT - more + 1, grows, got),
        long("pinned-shorter", TEXT, "pool auto host 5 9/want 1 1 host auto", "got 1 1 host 5/end 1"),
    ]
}

/// A text of just so many bytes that ends in these lines.
fn long(name: &str, bytes: usize, last: &str, expected: &str) -> Case {
    let last = lines(last);
    case(name, [repeated_pools(bytes - last.len()), last].concat(), lines(expected))
}
