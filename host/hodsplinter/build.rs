//! Links the static library, here and for `differ`. It stands in the repository's `target/staticlib`, or where the environment variable `HODSPLINTER_LIB` says.

use std::env;
use std::path::{Path, PathBuf};
use std::process::exit;

const FILE: &str = "libhodsplinter.a";

fn main() {
    println!("cargo:rerun-if-env-changed=HODSPLINTER_LIB");
    let library = library();
    println!("cargo:rerun-if-changed={}", library.display());
    let folder = match library.parent() {
        Some(folder) if library.is_file() => folder,
        _ => missing(&library),
    };
    println!("cargo:rustc-link-search=native={}", folder.display());
    println!("cargo:rustc-link-lib=static=hodsplinter");
}

/// Where the library should be; `HODSPLINTER_LIB` may name the file or its folder.
fn library() -> PathBuf {
    match env::var_os("HODSPLINTER_LIB") {
        Some(path) if Path::new(&path).ends_with(FILE) => PathBuf::from(path),
        Some(path) => Path::new(&path).join(FILE),
        None => Path::new(env!("CARGO_MANIFEST_DIR"))
            .join("../../target/staticlib")
            .join(FILE),
    }
}

fn missing(library: &Path) -> ! {
    eprintln!(
        "the static library {} is not there: `make library`, run at the top of the repository, proves and builds it; \
         HODSPLINTER_LIB can name another {} or its folder (an absolute path)",
        library.display(),
        FILE
    );
    exit(1)
}
