// Links target/native/libsteps_c.a, the proved steps as harness/native.sh makes them for the machine at hand.
use std::path::PathBuf;

fn main() {
    let here = PathBuf::from(std::env::var("CARGO_MANIFEST_DIR").expect("cargo sets it"));
    let libs = here.join("../../target/native");
    let archive = libs.join("libsteps_c.a");
    println!("cargo:rerun-if-changed={}", archive.display());
    if !archive.exists() {
        println!("cargo:warning={} is missing: run harness/native.sh steps_c first", archive.display());
    }
    println!("cargo:rustc-link-search=native={}", libs.display());
    println!("cargo:rustc-link-lib=static=steps_c");
}
