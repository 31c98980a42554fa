// Links the archives of the steps in target/native that bench/run has made; the judge's comes with the crate plimdrong.
use std::path::PathBuf;

fn main() {
    let here = PathBuf::from(std::env::var("CARGO_MANIFEST_DIR").expect("cargo sets it"));
    let libs = here.join("../target/native");
    println!("cargo:rustc-link-search=native={}", libs.display());
    for name in ["orders_c", "closing_c"] {
        println!("cargo:rustc-link-lib=static={name}");
        println!("cargo:rerun-if-changed={}", libs.join(format!("lib{name}.a")).display());
    }
    println!("cargo:rerun-if-env-changed=BENCH_BUILD");
}
