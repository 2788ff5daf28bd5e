// Lays the original files, byte for byte, beside the parts written here, in the build's own folder.
//
// Two trees come out. `unchanged` is the judge: every original file as it is. `opened` is for one test only: the same
// bytes with a reading function added behind the end of some files, since the owner tables are private there.

use std::path::{Path, PathBuf};
use std::{env, fs};

/// The files taken from the original, below its `resources` folder.
const ORIGINAL: [&str; 10] = [
    "pool/mod.rs",
    "pool/msi.rs",
    "pool/range.rs",
    "pool/wired.rs",
    "allocation/mod.rs",
    "allocation/address.rs",
    "allocation/host_irq.rs",
    "allocation/msi.rs",
    "allocation/search.rs",
    "allocation/wired.rs",
];

/// What the text given lacks, written here.
const PARTS: [&str; 10] = [
    "mod.rs",
    "answers.rs",
    "bare.rs",
    "error.rs",
    "requirements.rs",
    "resolved.rs",
    "rows.rs",
    "pool/address.rs",
    "pool/address/tables.rs",
    "pool/host_irq.rs",
];

/// Files of the `opened` tree that get a reading function behind their end.
const OPENED: [&str; 6] = [
    "mod.rs",
    "allocation/mod.rs",
    "allocation/address.rs",
    "allocation/host_irq.rs",
    "allocation/msi.rs",
    "allocation/wired.rs",
];

fn main() {
    let here = PathBuf::from(env::var("CARGO_MANIFEST_DIR").unwrap());
    let out = PathBuf::from(env::var("OUT_DIR").unwrap());
    let original = original_folder(&here);
    for name in ["unchanged", "opened"] {
        let tree = out.join(name).join("resources");
        lay(&original, &ORIGINAL, &tree);
        lay(&here.join("parts/resources"), &PARTS, &tree);
        write_root(&out, name, &tree);
    }
    for file in OPENED {
        append(&here.join("parts/opened").join(file), &out.join("opened/resources").join(file));
    }
    println!("cargo:rustc-env=ORACLE_ORIGINAL_FOLDER={}", original.display());
    println!("cargo:rustc-env=ORACLE_ORIGINAL_FILES={}", ORIGINAL.join(" "));
    if env::var_os("CARGO_FEATURE_OURS").is_some() {
        link_ours(&here);
    }
    println!("cargo:rerun-if-env-changed=ORACLE_ORIGINAL");
    println!("cargo:rerun-if-changed=build.rs");
}

/// ORACLE_ORIGINAL, else the shared folder beside the project's root.
fn original_folder(here: &Path) -> PathBuf {
    let folder = match env::var("ORACLE_ORIGINAL") {
        Ok(given) => PathBuf::from(given),
        Err(_) => here.join("../../shared/docs/src/src/resources"),
    };
    fs::canonicalize(&folder).unwrap_or_else(|_| {
        panic!("the original is not at {}: set ORACLE_ORIGINAL to its resources folder", folder.display())
    })
}

/// The static library of our own code: ORACLE_LIBRARY names its folder, else the build folder of the project.
fn link_ours(here: &Path) {
    let folder = match env::var("ORACLE_LIBRARY") {
        Ok(given) => PathBuf::from(given),
        Err(_) => here.join("../target/staticlib"),
    };
    let library = folder.join("libexport.a");
    assert!(library.exists(), "our library is not at {}: see ./run", library.display());
    println!("cargo:rustc-link-search=native={}", folder.display());
    println!("cargo:rustc-link-lib=static=export");
    println!("cargo:rerun-if-changed={}", library.display());
    println!("cargo:rerun-if-env-changed=ORACLE_LIBRARY");
}

fn lay(from: &Path, files: &[&str], tree: &Path) {
    for file in files {
        let (source, target) = (from.join(file), tree.join(file));
        let bytes = fs::read(&source).unwrap_or_else(|e| panic!("{}: {e}", source.display()));
        fs::create_dir_all(target.parent().unwrap()).unwrap();
        fs::write(&target, bytes).unwrap();
        println!("cargo:rerun-if-changed={}", source.display());
    }
}

fn append(addition: &Path, target: &Path) {
    let mut bytes = fs::read(target).unwrap();
    bytes.extend(fs::read(addition).unwrap_or_else(|e| panic!("{}: {e}", addition.display())));
    fs::write(target, bytes).unwrap();
    println!("cargo:rerun-if-changed={}", addition.display());
}

/// The one line that a crate root takes in to have the tree as its module `resources`.
fn write_root(out: &Path, name: &str, tree: &Path) {
    let file = tree.join("mod.rs");
    let line = format!("#[path = {:?}]\npub mod resources;\n", file.to_str().unwrap());
    fs::write(out.join(format!("{name}.rs")), line).unwrap();
}
