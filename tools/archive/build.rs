// Finds the probes' archive: in RIFTKETTLE_LIB_DIR, else in crates/test_probes/out of the checkout, where `rt lib` there puts it.
// The library itself is found by bindings/rust. A shared library serves where there is no archive: the stub's.
use std::path::{Path, PathBuf};

fn main() {
    println!("cargo::rerun-if-env-changed=RIFTKETTLE_LIB_DIR");
    let named = std::env::var_os("RIFTKETTLE_LIB_DIR").map(PathBuf::from);
    let folder = named.unwrap_or_else(|| Path::new(env!("CARGO_MANIFEST_DIR")).join("../../crates/test_probes/out"));
    let (archive, shared) = (folder.join("libtest_probes.a"), folder.join("libtest_probes.so"));
    let kind = if archive.is_file() { "static" } else { "dylib" };
    if kind == "dylib" && !shared.is_file() {
        println!("cargo::error=no libtest_probes.a in {}: `rt lib` in crates/test_probes builds it", folder.display());
    }
    println!("cargo::rerun-if-changed={}", if kind == "static" { archive } else { shared }.display());
    println!("cargo::rustc-link-search=native={}", folder.display());
    println!("cargo::rustc-link-lib={kind}=test_probes");
}
