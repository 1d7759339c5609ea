//! Names the static library to link. It stands in the repository's `target/staticlib`, or where the environment variable `BENCH_NAMES_LIB` says.
//!
//! Where it is missing this does not fail: `cargo check` and `cargo clippy` over the workspace link nothing, and must work without a library that is for
//! timing alone.

use std::env;
use std::path::{Path, PathBuf};

const FILE: &str = "libbench_names.a";

fn main() {
    println!("cargo:rerun-if-changed=build.rs");
    println!("cargo:rerun-if-env-changed=BENCH_NAMES_LIB");
    let library = library();
    println!("cargo:rerun-if-changed={}", library.display());
    if let Some(folder) = library.parent() {
        println!("cargo:rustc-link-search=native={}", folder.display());
    }
    println!("cargo:rustc-link-lib=static=bench_names");
    if !library.is_file() {
        println!(
            "cargo:warning={} is not there, so this cannot be linked: `python3 tests/archive.py bench_names`, run at the top of the repository, proves and builds it",
            library.display()
        );
    }
}

/// Where the library should be; `BENCH_NAMES_LIB` may name the file or its folder.
fn library() -> PathBuf {
    match env::var_os("BENCH_NAMES_LIB") {
        Some(path) if Path::new(&path).ends_with(FILE) => PathBuf::from(path),
        Some(path) => Path::new(&path).join(FILE),
        None => Path::new(env!("CARGO_MANIFEST_DIR"))
            .join("../../target/staticlib")
            .join(FILE),
    }
}
