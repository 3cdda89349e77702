//! Tells the tests where the archive is that `register` linked: they link the C example with it.
fn main() {
    println!("cargo::rerun-if-changed=build.rs");
    let archive = std::env::var("DEP_REGISTER_ARCHIVE").expect("register tells it");
    println!("cargo::rustc-env=REGISTER_LINKED={archive}");
}
