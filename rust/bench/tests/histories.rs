//! What the Rattle program `histories` must print is what the independent implementation gives (tools/expected-histories
//! does the same without the proved register being built).
use std::process::Command;

#[test]
fn stored_output() {
    let run = Command::new(env!("CARGO_BIN_EXE_histories")).output().expect("the program starts");
    assert!(run.status.success(), "it ends with {}", run.status);
    let stored = include_str!("../../../crates/histories/stdout");
    assert_eq!(String::from_utf8_lossy(&run.stdout), stored);
}
