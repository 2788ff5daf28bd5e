// Links the proved code: BENCH_LIB is the folder that holds its libraries for this machine. `run` sets it.

use std::env;

fn main() {
    let folder = env::var("BENCH_LIB").expect("BENCH_LIB names the folder of the libraries: start by `run`");
    println!("cargo:rustc-link-search=native={folder}");
    println!("cargo:rerun-if-env-changed=BENCH_LIB");
    for library in ["export", "lists", "timed"] {
        println!("cargo:rustc-link-lib=static={library}");
        println!("cargo:rerun-if-changed={folder}/lib{library}.a");
    }
}
