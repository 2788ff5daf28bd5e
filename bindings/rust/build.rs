//! Finds the planner's static library: in `PLANNER_LIB_DIR`, or where `bindings/build` puts it.

use std::{env, path::Path};

fn main() {
    println!("cargo:rerun-if-env-changed=PLANNER_LIB_DIR");
    let dir = env::var("PLANNER_LIB_DIR").unwrap_or_else(|_| {
        let here = env::var("CARGO_MANIFEST_DIR").expect("cargo names the crate's folder");
        format!("{here}/../../target/staticlib")
    });
    let library = Path::new(&dir).join("libexport.a");
    println!("cargo:rerun-if-changed={}", library.display());
    if !library.exists() {
        println!(
            "cargo:warning=no {}: run bindings/build first, or set PLANNER_LIB_DIR",
            library.display()
        );
    }
    println!("cargo:rustc-link-search=native={dir}");
    println!("cargo:rustc-link-lib=static=export");
}
