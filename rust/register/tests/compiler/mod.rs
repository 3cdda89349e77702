//! The machine's C compilers, the repository's include/ and the archive, for the tests that call the register from C.
#![allow(dead_code, reason = "each test file uses a part")]
use std::fs;
use std::path::{Path, PathBuf};
use std::process::{Command, Output};

/// A compiler and the language that it takes a file for.
pub const DIALECTS: [(&str, &str, &str); 5] = [
    ("gcc", "c", "c89"), // with <stdint.h>, which C89 itself has not
    ("gcc", "c", "c99"),
    ("gcc", "c", "c17"),
    ("g++", "c++", "c++11"),
    ("g++", "c++", "c++17"),
];

pub fn include() -> PathBuf {
    Path::new(env!("CARGO_MANIFEST_DIR")).join("../../include")
}

pub fn header() -> String {
    fs::read_to_string(include().join("register.h")).expect("include/register.h is there")
}

/// A file that a test makes.
pub fn made(name: &str) -> PathBuf {
    Path::new(env!("CARGO_TARGET_TMPDIR")).join(name)
}

/// Compiles files to a program, without a warning.
pub fn compile(dialect: (&str, &str, &str), files: &[PathBuf], name: &str) -> PathBuf {
    let (compiler, language, standard) = dialect;
    let program = made(&format!("{name}-{standard}"));
    let output = Command::new(compiler)
        .args([&format!("-std={standard}"), "-pedantic", "-Wall", "-Wextra", "-Werror", "-I"])
        .arg(include())
        .args(["-x", language])
        .args(files)
        .args(["-x", "none", env!("REGISTER_LINKED"), "-o"])
        .arg(&program)
        .output()
        .unwrap_or_else(|error| panic!("{compiler} does not start: {error}"));
    assert!(output.status.success(), "{compiler} -std={standard} refuses {files:?}:\n{}", said(&output));
    program
}

pub fn run(program: &Path) -> Output {
    Command::new(program).output().expect("the program starts")
}

pub fn said(output: &Output) -> String {
    format!("{}{}", String::from_utf8_lossy(&output.stdout), String::from_utf8_lossy(&output.stderr))
}
