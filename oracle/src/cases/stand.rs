// 01's example and its stand cases P1 to P10 as texts.

pub const CASES: &[(&str, &str, &str)] = &[
    (
        "example",
        "pool auto mmio 4096 12288/hold 7 mmio 4096 8192/want 3 1 mmio 256 256 auto",
        "got 3 1 mmio 8192 256/end 1",
    ),
    ("p1", "pool auto mmio 4096 12288/hold 5 mmio 4096 8192/want 1 1 mmio 256 256 auto", "got 1 1 mmio 8192 256/end 1"),
    ("p2", "pool auto mmio 4096 8192/pool auto mmio 8192 12288/want 1 1 mmio 6144 4096 auto", "no 3 7 1 0 0"),
    (
        "p3",
        "pool fixed mmio 0 32768/hold 9 mmio 12288 16384/hold 4 mmio 4096 8192/want 1 1 mmio 12288 4096 4096",
        "no 4 8 1 9 1",
    ),
    ("p4-once", "pool auto host 40 42/hold 5 host 40 41/want 1 1 host auto", "got 1 1 host 41/end 1"),
    ("p4-twice", "pool auto host 40 42/hold 5 host 40 41/want 1 1 host auto/want 1 2 host auto", "no 4 7 4 0 0"),
    (
        "p5",
        "pool auto mmio 18446744073709547520 18446744073709551615/want 1 1 mmio 4095 4096 auto",
        "got 1 1 mmio 18446744073709547520 4095/end 1",
    ),
    (
        "p5-size-4096",
        "pool auto mmio 18446744073709547520 18446744073709551615/want 1 1 mmio 4096 4096 auto",
        "no 2 7 1 0 0",
    ),
    (
        "p5-by-8192",
        "pool auto mmio 18446744073709547520 18446744073709551615/want 1 1 mmio 4095 8192 auto",
        "no 2 7 1 0 0",
    ),
    ("p6", "pool fixed pio 65520 65535/want 1 1 pio 1 1 65534", "got 1 1 pio 65534 1/end 1"),
    ("p6-last", "pool fixed pio 65520 65535/want 1 1 pio 1 1 65535", "no 2 6 2 0 0"),
    ("p7", "pool auto input 0 32 34/hold 5 input 0 32 0 1/want 1 1 input 0 0 1 auto", "got 1 1 input 0 33 0 1/end 1"),
    ("p8-trigger", "pool fixed input 0 32 33/hold 5 input 0 32 0 1/want 1 1 input 0 1 0 32", "no 3 8 3 5 2"),
    ("p8-sharing", "pool fixed input 0 32 33/hold 5 input 0 32 0 1/want 1 1 input 0 0 0 32", "no 3 8 3 5 3"),
    ("p9", "pool auto msi 0 0 8 10 0 4 8192 8200/hold 5 event 0 0 8 0 4/want 1 1 msi 0 0 1 auto", "no 3 7 5 0 0"),
    (
        "p10",
        "pool auto msi 0 0 8 10 0 4 8192 8200/want 1 1 msi 0 0 2 auto/want 1 2 msi 0 0 2 auto",
        "got 1 1 msi 0 0 8 0 8192 2/got 1 2 msi 0 0 9 0 8194 2/end 2",
    ),
];
