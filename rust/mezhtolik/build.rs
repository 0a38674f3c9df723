//! Finds the package's static library.

use std::env;
use std::path::{Path, PathBuf};

const LIBRARY: &str = "libboundary.a";

fn folder() -> PathBuf {
    match env::var_os("MEZHTOLIK_LIB_DIR") {
        Some(folder) => PathBuf::from(folder),
        None => Path::new(env!("CARGO_MANIFEST_DIR")).join("../../target/staticlib"),
    }
}

fn main() {
    let folder = folder();
    let library = folder.join(LIBRARY);
    println!("cargo::rerun-if-env-changed=MEZHTOLIK_LIB_DIR");
    println!("cargo::rerun-if-changed={}", library.display());
    if !library.is_file() {
        let folder = folder.display();
        println!("cargo::error={LIBRARY} is not in {folder}: run `tests/library` at the root of the repository, or set MEZHTOLIK_LIB_DIR to its folder");
        return;
    }
    println!("cargo::rustc-link-search=native={}", folder.display());
    println!("cargo::rustc-link-lib=static=boundary");
}
