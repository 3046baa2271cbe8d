//! Links `libosierdrum.a`, which `tools/build osierdrum` writes to `target/staticlib` at the repository's root.
//! Another folder can be named by the variable `OSIERDRUM_LIB_DIR`.

use std::{env, path::PathBuf};

fn main() {
    println!("cargo:rerun-if-env-changed=OSIERDRUM_LIB_DIR");
    let dir = env::var_os("OSIERDRUM_LIB_DIR").map(PathBuf::from).unwrap_or_else(|| {
        let here = PathBuf::from(env::var_os("CARGO_MANIFEST_DIR").expect("cargo sets CARGO_MANIFEST_DIR"));
        here.join("../target/staticlib")
    });
    let archive = dir.join("libosierdrum.a");
    assert!(archive.is_file(), "{} is missing: run `tools/build osierdrum` at the repository's root first", archive.display());
    println!("cargo:rerun-if-changed={}", archive.display());
    println!("cargo:rustc-link-search=native={}", dir.display());
    println!("cargo:rustc-link-lib=static=osierdrum");
}
