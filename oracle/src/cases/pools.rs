// Pool lines: empty ranges, duplicates, overlaps, and whose requests a pool serves.

pub const CASES: &[(&str, &str, &str)] = &[
    ("empty-text", "", "end 0"),
    ("pool-auto-mmio-empty", "pool auto mmio 1 1", "no 1 4 0 0 0"),
    ("pool-fixed-mmio-turned", "pool fixed mmio 18446744073709551615 0", "no 1 4 0 0 0"),
    ("pool-auto-pio-empty", "pool auto pio 65535 65535", "no 1 4 0 0 0"),
    ("pool-fixed-pio-turned", "pool fixed pio 2 1", "no 1 4 0 0 0"),
    ("pool-auto-host-empty", "pool auto host 0 0", "no 1 4 0 0 0"),
    ("pool-fixed-host-turned", "pool fixed host 9 8", "no 1 4 0 0 0"),
    ("pool-auto-input-empty", "pool auto input 1 7 7", "no 1 4 0 0 0"),
    ("pool-fixed-input-turned", "pool fixed input 1 7 6", "no 1 4 0 0 0"),
    ("pool-auto-device-empty", "pool auto msi 0 0 1 1 0 1 0 1", "no 1 4 0 0 0"),
    ("pool-fixed-device-turned", "pool fixed msi 0 0 2 1 0 1 0 1", "no 1 4 0 0 0"),
    ("pool-auto-event-empty", "pool auto msi 0 0 0 1 4 4 0 1", "no 1 4 0 0 0"),
    ("pool-fixed-event-turned", "pool fixed msi 0 0 0 1 5 4 0 1", "no 1 4 0 0 0"),
    ("pool-auto-lpi-empty", "pool auto msi 0 0 0 1 0 1 8192 8192", "no 1 4 0 0 0"),
    ("pool-fixed-lpi-turned", "pool fixed msi 0 0 0 1 0 1 4294967295 0", "no 1 4 0 0 0"),
    ("pool-duplicates", "pool auto mmio 0 9/pool auto mmio 0 9/pool fixed mmio 0 9/pool fixed mmio 0 9", "end 0"),
    (
        "pool-overlap-least",
        "pool auto mmio 10 20/pool auto mmio 0 12/want 1 0 mmio 5 1 auto/want 1 0 mmio 7 1 auto/want 1 0 mmio 8 1 auto",
        "got 1 0 mmio 0 5/got 1 0 mmio 5 7/got 1 0 mmio 12 8/end 3",
    ),
    (
        "pool-same-start",
        "pool auto mmio 0 4/pool auto mmio 0 8/pool auto mmio 0 2/want 1 0 mmio 6 1 auto/want 2 0 mmio 2 1 auto",
        "got 1 0 mmio 0 6/got 2 0 mmio 6 2/end 2",
    ),
    ("pool-second-serves", "pool auto pio 0 2/pool auto pio 8 16/want 1 0 pio 4 4 auto", "got 1 0 pio 8 4/end 1"),
    ("pool-auto-is-not-fixed", "pool auto host 1 2/want 1 0 host 1", "no 2 6 4 0 0"),
    ("pool-fixed-is-not-auto", "pool fixed host 1 2/want 1 0 host auto", "no 2 7 4 0 0"),
    ("pool-other-controller", "pool auto input 1 0 9/want 1 0 input 2 0 0 auto", "no 2 7 3 0 0"),
    ("pool-other-its", "pool auto msi 1 1 0 9 0 9 8192 8201/want 1 0 msi 1 2 1 auto", "no 2 7 5 0 0"),
    (
        "pool-lpi-by-controller",
        "pool auto msi 1 1 0 1 0 4 8192 8194/pool auto msi 1 2 5 6 7 8 8292 8293/want 1 0 msi 1 2 1 auto",
        "got 1 0 msi 1 2 5 7 8192 1/end 1",
    ),
    (
        "pool-domains-mixed",
        "pool auto input 2 5 6/pool auto input 1 3 4/pool auto input 2 1 2/want 1 0 input 2 0 0 auto/\
         want 1 0 input 1 0 0 auto/want 1 0 input 2 0 0 auto/want 1 0 input 2 0 0 auto",
        "no 7 7 3 0 0",
    ),
    (
        "pool-widest",
        "pool auto mmio 0 18446744073709551615/pool auto pio 0 65535/pool auto host 0 18446744073709551615/\
         pool auto input 4294967295 0 18446744073709551615/\
         pool auto msi 4294967295 4294967295 0 4294967295 0 4294967295 8192 4294967295/\
         want 4294967295 4294967295 mmio 18446744073709551615 9223372036854775808 auto/\
         want 1 0 pio 65535 32768 auto/want 1 0 host auto/want 1 0 input 4294967295 3 1 auto/\
         want 1 0 msi 4294967295 4294967295 4294959103 auto",
        "got 4294967295 4294967295 mmio 0 18446744073709551615/got 1 0 pio 0 65535/got 1 0 host 0/\
         got 1 0 input 4294967295 0 3 1/got 1 0 msi 4294967295 4294967295 0 0 8192 4294959103/end 5",
    ),
    // LPIs start at 8192: the start decides, wherever the range ends, and any empty range comes first
    ("pool-auto-lpi-low", "pool auto msi 0 0 0 1 0 1 0 1", "no 1 12 0 0 0"),
    ("pool-fixed-lpi-low", "pool fixed msi 4294967295 4294967295 0 1 0 1 8191 8192", "no 1 12 0 0 0"),
    ("pool-auto-lpi-across", "pool auto msi 0 0 0 1 0 1 8191 8193", "no 1 12 0 0 0"),
    ("pool-fixed-lpi-low-widest", "pool fixed msi 0 0 0 1 0 1 0 4294967295", "no 1 12 0 0 0"),
    (
        "pool-lpi-first",
        "pool auto msi 0 0 0 1 0 1 8192 8193/want 1 0 msi 0 0 1 auto",
        "got 1 0 msi 0 0 0 0 8192 1/end 1",
    ),
    ("pool-lpi-low-empty", "pool auto msi 0 0 0 1 0 1 5 5", "no 1 4 0 0 0"),
    ("pool-lpi-low-turned", "pool fixed msi 0 0 0 1 0 1 9 5", "no 1 4 0 0 0"),
    (
        "pool-lpi-low-behind-good",
        "pool auto msi 0 0 0 1 0 1 8192 8193/pool auto msi 0 0 0 1 0 1 8191 8193",
        "no 2 12 0 0 0",
    ),
    ("pool-lpi-low-is-decided-first", "pool auto msi 0 0 0 1 0 1 0 1/pool auto mmio 1 1", "no 1 12 0 0 0"),
    ("pool-all-three-empty", "pool auto msi 0 0 1 1 1 1 0 0", "no 1 4 0 0 0"),
    (
        "pool-domain-twice",
        "pool auto msi 0 0 0 1 0 1 8192 8193/pool auto msi 0 0 0 1 0 1 8192 8193/pool fixed msi 0 0 0 1 0 1 8192 8193/\
         pool fixed msi 0 0 0 1 0 1 8192 8193",
        "end 0",
    ),
];
