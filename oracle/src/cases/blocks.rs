// Wide blocks in the way of an automatic search: the number behind them is found, or none is left. A search that tries one number after another takes a
// million turns at some of these and does not end at others.

pub const CASES: &[(&str, &str, &str)] = &[
    // a million host IRQs at the pool's start
    (
        "block-million",
        "pool auto host 0 2000000/hold 1 host 0 1000000/want 5 0 host auto/want 5 1 host auto",
        "got 5 0 host 1000000/got 5 1 host 1000001/end 2",
    ),
    ("block-million-is-all", "pool auto host 0 1000000/hold 1 host 0 1000000/want 5 0 host auto", "no 3 7 4 0 0"),
    ("block-million-but-one", "pool auto host 0 1000001/hold 1 host 0 1000000/want 5 0 host auto", "got 5 0 host 1000000/end 1"),
    (
        "block-million-but-one-twice",
        "pool auto host 0 1000001/hold 1 host 0 1000000/want 5 0 host auto/want 5 1 host auto",
        "no 4 7 4 0 0",
    ),
    (
        "block-million-behind-the-first",
        "pool auto host 0 2000000/hold 1 host 1 1000001/want 5 0 host auto/want 5 1 host auto",
        "got 5 0 host 0/got 5 1 host 1000001/end 2",
    ),
    (
        "block-begins-before-the-pool",
        "pool auto host 500000 2000000/hold 1 host 0 1000000/want 5 0 host auto",
        "got 5 0 host 1000000/end 1",
    ),
    (
        "block-ends-behind-the-pool",
        "pool auto host 500000 1000000/hold 1 host 400000 2000000/want 5 0 host auto",
        "no 3 7 4 0 0",
    ),
    // up to the last host IRQ that there is
    (
        "block-to-the-last",
        "pool auto host 0 18446744073709551615/hold 1 host 0 18446744073709551614/want 5 0 host auto",
        "got 5 0 host 18446744073709551614/end 1",
    ),
    (
        "block-to-the-last-twice",
        "pool auto host 0 18446744073709551615/hold 1 host 0 18446744073709551614/want 5 0 host auto/want 5 1 host auto",
        "no 4 7 4 0 0",
    ),
    (
        "block-of-all",
        "pool auto host 0 18446744073709551615/hold 1 host 0 18446744073709551615/want 5 0 host auto",
        "no 3 7 4 0 0",
    ),
    (
        "block-of-all-but-the-first",
        "pool auto host 0 18446744073709551615/hold 1 host 1 18446744073709551615/want 5 0 host auto/want 5 1 host auto",
        "no 4 7 4 0 0",
    ),
    // blocks one behind the other, in rising and in falling order, and with a gap of one number
    (
        "blocks-rising",
        "pool auto host 0 4000000/hold 1 host 0 1000000/hold 2 host 1000000 2000000/hold 3 host 2000000 3000000/want 5 0 host auto",
        "got 5 0 host 3000000/end 1",
    ),
    (
        "blocks-falling",
        "pool auto host 0 4000000/hold 3 host 2000000 3000000/hold 2 host 1000000 2000000/hold 1 host 0 1000000/want 5 0 host auto",
        "got 5 0 host 3000000/end 1",
    ),
    (
        "blocks-falling-to-the-last",
        "pool auto host 0 18446744073709551615/hold 3 host 2000000 18446744073709551614/hold 2 host 1000000 2000000/\
         hold 1 host 0 1000000/want 5 0 host auto",
        "got 5 0 host 18446744073709551614/end 1",
    ),
    (
        "blocks-gap-of-one",
        "pool auto host 0 4000000/hold 2 host 1000001 2000000/hold 1 host 0 1000000/want 5 0 host auto/want 5 1 host auto",
        "got 5 0 host 1000000/got 5 1 host 2000000/end 2",
    ),
    // pool rows behind one another and over one another
    (
        "block-across-pools",
        "pool auto host 0 600000/pool auto host 600000 1200000/hold 1 host 0 1000000/want 5 0 host auto",
        "got 5 0 host 1000000/end 1",
    ),
    (
        "block-under-pools",
        "pool auto host 0 1000000/pool auto host 500000 1000001/pool auto host 0 999999/hold 1 host 0 1000000/want 5 0 host auto",
        "got 5 0 host 1000000/end 1",
    ),
    (
        "block-in-each-pool",
        "pool auto host 0 1000000/pool auto host 5000000 6000000/hold 1 host 0 1000000/hold 1 host 5000000 5999999/want 5 0 host auto",
        "got 5 0 host 5999999/end 1",
    ),
    // a fixed host IRQ is looked up, not looked for
    ("block-holds-a-fixed-one", "pool fixed host 0 2000000/hold 7 host 0 1000000/want 5 0 host 999999", "no 3 8 4 7 4"),
    ("block-leaves-a-fixed-one", "pool fixed host 0 2000000/hold 7 host 0 1000000/want 5 0 host 1000000", "got 5 0 host 1000000/end 1"),
    // the same search for every other kind of range
    (
        "block-mmio",
        "pool auto mmio 0 18446744073709551615/hold 1 mmio 0 18446744073709551614/want 5 0 mmio 1 1 auto",
        "got 5 0 mmio 18446744073709551614 1/end 1",
    ),
    (
        "block-mmio-aligned",
        "pool auto mmio 0 4000000/hold 1 mmio 0 1000001/want 5 0 mmio 16 16 auto",
        "got 5 0 mmio 1000016 16/end 1",
    ),
    (
        "block-mmio-too-high-to-align",
        "pool auto mmio 0 18446744073709551615/hold 1 mmio 0 18446744073709551601/want 5 0 mmio 1 16 auto",
        "no 3 7 1 0 0",
    ),
    ("block-pio", "pool auto pio 0 65535/hold 1 pio 0 65534/want 5 0 pio 1 1 auto", "got 5 0 pio 65534 1/end 1"),
    (
        "block-device",
        "pool auto msi 0 0 0 4294967295 0 4 8192 8200/hold 1 device 0 0 0 4294967294/want 5 0 msi 0 0 1 auto",
        "got 5 0 msi 0 0 4294967294 0 8192 1/end 1",
    ),
    (
        "block-event",
        "pool auto msi 0 0 3 4 0 4294967295 8192 8200/hold 1 event 0 0 3 0 4294967293/want 5 0 msi 0 0 2 auto",
        "got 5 0 msi 0 0 3 4294967293 8192 2/end 1",
    ),
    (
        "block-lpi",
        "pool auto msi 0 0 3 4 0 4 8192 4294967295/hold 1 lpi 0 8192 4294967293/want 5 0 msi 0 0 2 auto",
        "got 5 0 msi 0 0 3 0 4294967293 2/end 1",
    ),
    (
        "block-of-another-controller",
        "pool auto msi 0 0 3 4 0 4 8192 4294967295/hold 1 lpi 1 8192 4294967293/want 5 0 msi 0 0 2 auto",
        "got 5 0 msi 0 0 3 0 8192 2/end 1",
    ),
    // inputs are held one by one
    (
        "block-inputs",
        "pool auto input 0 0 18446744073709551615/hold 1 input 0 2 0 0/hold 1 input 0 1 0 1/hold 1 input 0 0 0 0/want 5 0 input 0 0 1 auto",
        "got 5 0 input 0 3 0 1/end 1",
    ),
];
