//! What the tests share: the two programs, a run of one, and a plain log of what was acknowledged.
#![allow(dead_code, reason = "each test file uses a part")]
pub mod log;
#[path = "../../../rust/bench/tests/common/rng.rs"]
mod rng;
pub mod traced;

pub use log::Log;
pub use rng::Rng;

use register::{Entry, Settings, calls};
use std::fs;
use std::io::{Read, Write};
use std::path::{Path, PathBuf};
use std::process::{Child, Command, Stdio};
use std::sync::OnceLock;

/// The program in C, built by the machine's compiler without a warning.
pub fn in_c() -> &'static Path {
    static BUILT: OnceLock<PathBuf> = OnceLock::new();
    BUILT.get_or_init(|| {
        let repository = Path::new(env!("CARGO_MANIFEST_DIR")).join("..");
        let program = Path::new(env!("CARGO_TARGET_TMPDIR")).join(concat!("mapped-c-", env!("CARGO_CRATE_NAME")));
        let built = Command::new("gcc")
            .args(["-std=c99", "-O2", "-pedantic", "-Wall", "-Wextra", "-Werror", "-I"])
            .arg(repository.join("include"))
            .args(["examples/mapped.c", "include/register_refusal.c"].map(|file| repository.join(file)))
            .args([env!("REGISTER_LINKED"), "-o"])
            .arg(&program)
            .output()
            .expect("gcc starts");
        assert!(built.status.success(), "gcc: {}", String::from_utf8_lossy(&built.stderr));
        program
    })
}

/// The program in Rust, built by cargo.
pub fn in_rust() -> &'static Path {
    Path::new(env!("CARGO_BIN_EXE_mapped"))
}

pub fn both() -> [&'static Path; 2] {
    [in_c(), in_rust()]
}

/// An empty folder of this name.
pub fn folder(name: &str) -> PathBuf {
    let folder = Path::new(env!("CARGO_TARGET_TMPDIR")).join(concat!("kept-", env!("CARGO_CRATE_NAME"))).join(name);
    if folder.exists() {
        fs::remove_dir_all(&folder).expect("a folder of an earlier test goes");
    }
    fs::create_dir_all(&folder).expect("cargo's folder can be written");
    folder
}

/// The words of a file; none if it is not there.
pub fn words(file: &Path) -> Vec<u32> {
    let bytes = fs::read(file).unwrap_or_default();
    bytes.as_chunks().0.iter().map(|word| u32::from_ne_bytes(*word)).collect()
}

/// Whether the mapped file is neither what the journal gives nor what it gave before its last entry: a program was
/// killed in the middle of a call, or of a rebuilding.
pub fn is_half_made(folder: &Path) -> bool {
    let (store, journal) = (words(&folder.join("store")), words(&folder.join("journal")));
    let before_last = journal.len().saturating_sub(Entry::WORDS);
    let given = |journal: &[u32]| {
        let mut words = vec![0; Settings::new(8, 2, 512, 64).expect("sound settings").words()];
        let _ = calls::replay(&mut words, journal);
        words
    };
    store != given(&journal) && store != given(&journal[..before_last])
}

/// The command that makes a journal's entry.
pub fn command(entry: Entry) -> String {
    match entry {
        Entry::Set { second, tag, reading } => format!("set {second} {tag} {reading}\n"),
        Entry::Clear { second, tag } => format!("clear {second} {tag}\n"),
        Entry::Update { second, tag, reading } => format!("update {second} {tag} {reading}\n"),
        Entry::Advance { second } => format!("advance {second}\n"),
        _ => unreachable!("no command starts a register"),
    }
}

/// A program with pipes for its input and output; what it says of errors is kept too.
pub fn prepared(program: &Path, folder: &Path) -> Command {
    let mut command = Command::new(program);
    command.arg(folder).stdin(Stdio::piped()).stdout(Stdio::piped()).stderr(Stdio::piped());
    command
}

/// Gives a program all its commands, and then the end of its input. It may have ended before it read them.
pub fn feed(child: &mut Child, commands: &str) {
    let mut input = child.stdin.take().expect("a pipe");
    let _ = input.write_all(commands.as_bytes());
}

/// What a program that has ended, or ends, printed.
pub fn printed(child: &mut Child) -> String {
    let mut text = String::new();
    child.stdout.take().expect("a pipe").read_to_string(&mut text).expect("plain text");
    text
}

/// A run to its end, which is a clean one.
pub fn run(program: &Path, folder: &Path, commands: &str) -> String {
    let mut child = prepared(program, folder).spawn().expect("the program starts");
    feed(&mut child, commands);
    let told = child.wait_with_output().expect("the program ends");
    assert!(told.status.success(), "{}: {}", program.display(), String::from_utf8_lossy(&told.stderr));
    String::from_utf8(told.stdout).expect("plain text")
}

/// A run that must stop with a complaint, which is given.
pub fn run_stopped(program: &Path, folder: &Path, commands: &str) -> String {
    let mut child = prepared(program, folder).spawn().expect("the program starts");
    feed(&mut child, commands);
    let told = child.wait_with_output().expect("the program ends");
    assert_eq!(told.status.code(), Some(1), "{} went on", program.display());
    String::from_utf8(told.stderr).expect("plain text")
}
