//! With the feature `product`, `bench` links the product's archives: BENCH_LIBS names them (default `whole_runs`, several
//! with commas), BENCH_LIB_DIR is their folder (default target/staticlib of the repository).
use std::env;

fn main() {
    println!("cargo:rerun-if-env-changed=BENCH_LIBS");
    println!("cargo:rerun-if-env-changed=BENCH_LIB_DIR");
    if env::var_os("CARGO_FEATURE_PRODUCT").is_none() {
        return;
    }
    let here = env::var("CARGO_MANIFEST_DIR").expect("cargo sets it");
    let dir = env::var("BENCH_LIB_DIR").unwrap_or_else(|_| format!("{here}/../../target/staticlib"));
    for name in env::var("BENCH_LIBS").unwrap_or_else(|_| "whole_runs".into()).split(',') {
        let archive = format!("{dir}/lib{name}.a");
        println!("cargo:rerun-if-changed={archive}");
        println!("cargo:rustc-link-arg-bin=bench={archive}");
    }
}
