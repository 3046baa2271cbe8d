//! The C header, by a C program that makes each call, and each again with n = 0: compiled with the system's compiler and linked with the same archive.

use std::{env, path::PathBuf, process::Command};

#[test]
fn a_c_program_links_and_runs() {
    let here = PathBuf::from(env!("CARGO_MANIFEST_DIR"));
    let archive = env::var_os("OSIERDRUM_LIB_DIR").map(PathBuf::from).unwrap_or_else(|| here.join("../target/staticlib"));
    let program = PathBuf::from(env!("CARGO_TARGET_TMPDIR")).join("header");
    let made = Command::new("cc")
        .args(["-std=c11", "-Wall", "-Wextra", "-Werror", "-I"])
        .arg(here.join("include"))
        .arg(here.join("tests/c/header.c"))
        .arg(archive.join("libosierdrum.a"))
        .arg("-o")
        .arg(&program)
        .status()
        .expect("a C compiler");
    assert!(made.success());
    assert_eq!(Command::new(program).status().expect("the program starts").code(), Some(0));
}
