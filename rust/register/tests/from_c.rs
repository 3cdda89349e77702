//! The header and the archive, used by programs in C and C++ that the machine's compilers build.
mod compiler;
use compiler::{DIALECTS, compile, header, include, made, run, said};
use std::fs;
use std::path::{Path, PathBuf};

fn beside(name: &str) -> PathBuf {
    Path::new(env!("CARGO_MANIFEST_DIR")).join("tests").join(name)
}

/// Runs a program of this folder, which ends with the line of its first wrong answer.
fn checks(file: &str) {
    for dialect in DIALECTS {
        let ran = run(&compile(dialect, &[beside(file)], file.trim_end_matches(".c")));
        assert!(ran.status.success(), "tests/{file}, {dialect:?}, ends with {}: its CHECKs give the line", ran.status);
    }
}

#[test]
fn printed_case() {
    checks("printed.c");
}

#[test]
fn journal() {
    checks("journal.c");
}

/// The example at the top of the header, taken out of its comment.
fn example() -> String {
    let header = header();
    let begin = header.find("AN EXAMPLE").expect("the header has an example");
    let end = header.find("BUILDING").expect("the header says how to build");
    let lines = header[begin..end].lines().filter_map(|line| line.strip_prefix(" *"));
    lines.filter_map(|line| line.strip_prefix("     ").or(line.is_empty().then_some(line))).fold(
        String::new(),
        |mut text, line| {
            text.push_str(line);
            text.push('\n');
            text
        },
    )
}

#[test]
fn example_of_the_header() {
    let file = made("example.c");
    fs::write(&file, example()).expect("cargo's folder can be written");
    for dialect in DIALECTS {
        let program = compile(dialect, &[file.clone(), include().join("register_refusal.c")], "example");
        let ran = run(&program);
        assert!(ran.status.success() && said(&ran) == "tag 3: -25 daN since 10\n", "{dialect:?}: {}", said(&ran));
    }
}
