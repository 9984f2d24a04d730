//! Links libc_api.a, which `rt lib` in crates/c_api writes, from GATE_BENCH_ARCHIVE_DIR or the repository's crates/c_api/out.
use std::env;
use std::path::{Path, PathBuf};

fn main() {
    println!("cargo:rerun-if-env-changed=GATE_BENCH_ARCHIVE_DIR");
    let package = PathBuf::from(env::var("CARGO_MANIFEST_DIR").expect("cargo sets CARGO_MANIFEST_DIR"));
    let dir = match env::var("GATE_BENCH_ARCHIVE_DIR") {
        Ok(dir) => package.join(dir),
        Err(_) => package.join("../../crates/c_api/out"),
    };
    let archive = dir.join("libc_api.a");
    if !Path::new(&archive).exists() {
        panic!("no {}: run `rt lib` in the repository's crates/c_api, or set GATE_BENCH_ARCHIVE_DIR", archive.display());
    }
    println!("cargo:rerun-if-changed={}", archive.display());
    println!("cargo:rustc-link-search=native={}", dir.display());
    println!("cargo:rustc-link-lib=static=c_api");
}
