// The files that the judge compiles are the original's, byte for byte, and the original is the one that 01 names.

use std::path::Path;

/// Length and FNV-1a checksum of each file of axdevice 0.8.5 that is compiled.
const FILES: [(&str, usize, u64); 10] = [
    ("pool/mod.rs", 4_778, 0x2b84_1896_c7af_408a),
    ("pool/msi.rs", 4_329, 0x4055_b268_6b72_fdf5),
    ("pool/range.rs", 2_359, 0x9fd9_83d6_8203_46f6),
    ("pool/wired.rs", 2_985, 0x4702_3ac5_f6c8_989e),
    ("allocation/mod.rs", 2_077, 0xb0e4_16ad_276e_5893),
    ("allocation/address.rs", 5_052, 0x01d3_1eab_1a27_d916),
    ("allocation/host_irq.rs", 2_640, 0x8b0d_e1c1_2ec8_6bb7),
    ("allocation/msi.rs", 12_074, 0x3fb3_a6db_0c4b_c5fc),
    ("allocation/search.rs", 3_611, 0xa477_403b_b48c_e279),
    ("allocation/wired.rs", 3_932, 0x2bc9_0ab3_2c7e_8ad7),
];

fn files() -> Vec<&'static str> {
    env!("ORACLE_ORIGINAL_FILES").split(' ').collect()
}

fn read(folder: &str, file: &str) -> Vec<u8> {
    let path = Path::new(folder).join(file);
    std::fs::read(&path).unwrap_or_else(|error| panic!("{}: {error}", path.display()))
}

fn checksum(bytes: &[u8]) -> u64 {
    bytes.iter().fold(0xcbf2_9ce4_8422_2325, |sum, byte| (sum ^ u64::from(*byte)).wrapping_mul(0x0000_0100_0000_01b3))
}

#[test]
fn the_judge_is_built_from_the_original_bytes() {
    let built = concat!(env!("OUT_DIR"), "/unchanged/resources");
    for file in files() {
        assert_eq!(read(built, file), read(env!("ORACLE_ORIGINAL_FOLDER"), file), "{file}");
    }
}

#[test]
fn the_original_is_the_one_that_was_read() {
    let given: Vec<(&str, usize, u64)> = files()
        .into_iter()
        .map(|file| {
            let bytes = read(env!("ORACLE_ORIGINAL_FOLDER"), file);
            (file, bytes.len(), checksum(&bytes))
        })
        .collect();
    assert_eq!(given, FILES);
}

/// The tree that shows the owner tables is the original's bytes and then ours.
#[test]
fn the_opened_tree_begins_with_the_original_bytes() {
    let built = concat!(env!("OUT_DIR"), "/opened/resources");
    for file in files() {
        let (opened, original) = (read(built, file), read(env!("ORACLE_ORIGINAL_FOLDER"), file));
        assert!(opened.starts_with(&original), "{file}");
        let added = Path::new(env!("CARGO_MANIFEST_DIR")).join("parts/opened").join(file);
        let rest = if added.exists() { std::fs::read(added).expect("ours") } else { Vec::new() };
        assert_eq!(&opened[original.len()..], rest, "{file}");
    }
}
