//! Finds the proved register's archive and links it: the one that `REGISTER_ARCHIVE` names, else the one that
//! `tools/archive` makes in the repository that this package lies in.
use std::path::{Path, PathBuf};
use std::process::Command;
use std::{env, fs};

const HELP: &str = "Two ways to get the archive of the proved register:
1. Set REGISTER_ARCHIVE to the full path of a libregister.a that is already built.
2. Put `rt`, the Rattle toolchain's command, on the PATH. `tools/archive` of the repository then runs it, and it proves
   first what is not proved yet (some minutes from nothing).";

fn main() {
    println!("cargo::rerun-if-env-changed=REGISTER_ARCHIVE");
    println!("cargo::rerun-if-changed=build.rs");
    let found = match env::var_os("REGISTER_ARCHIVE") {
        Some(path) => named(PathBuf::from(path)),
        None => made(&manifest_folder()),
    };
    if let Err(why) = found.and_then(|archive| link(&archive)) {
        for line in why.lines().chain(HELP.lines()) {
            println!("cargo::error={line}");
        }
    }
}

fn manifest_folder() -> PathBuf {
    PathBuf::from(env::var_os("CARGO_MANIFEST_DIR").expect("cargo sets CARGO_MANIFEST_DIR"))
}

/// The archive that the caller built.
fn named(path: PathBuf) -> Result<PathBuf, String> {
    println!("cargo::rerun-if-changed={}", path.display());
    if path.is_file() { Ok(path) } else { Err(format!("REGISTER_ARCHIVE is `{}`: no such file.", path.display())) }
}

/// The archive that `tools/archive` makes. If it fails, so does the build, with its words.
fn made(here: &Path) -> Result<PathBuf, String> {
    let repository = here.join("../..");
    let repository = repository.canonicalize().map_err(|error| format!("{}: {error}.", repository.display()))?;
    if !repository.join("crates.txt").is_file() {
        return Err(format!("REGISTER_ARCHIVE is not set, and {} has no Rattle crates.", repository.display()));
    }
    watch(&repository);
    let run = Command::new(repository.join("tools/archive")).arg("register").output();
    let run =
        run.map_err(|error| format!("REGISTER_ARCHIVE is not set, and `tools/archive` did not start: {error}."))?;
    if !run.status.success() {
        let (out, err) = (String::from_utf8_lossy(&run.stdout), String::from_utf8_lossy(&run.stderr));
        return Err(format!("`tools/archive register` failed in {}:\n{out}{err}", repository.display()));
    }
    Ok(repository.join("target/staticlib/libregister.a"))
}

/// What the archive is made from: all of the crates but their out/, which `rt` writes.
fn watch(repository: &Path) {
    println!("cargo::rerun-if-changed={}", repository.join("crates.txt").display());
    for folder in fs::read_dir(repository.join("crates")).into_iter().flatten().flatten() {
        for part in ["src", "specs", "proofs"].map(|part| folder.path().join(part)) {
            if part.is_dir() {
                println!("cargo::rerun-if-changed={}", part.display());
            }
        }
    }
}

/// Copies the archive to cargo's own folder, since the repository's target/ may be removed, and links it from there.
/// Build scripts of packages that depend on this one find it in `DEP_REGISTER_ARCHIVE`, this package's tests in
/// `REGISTER_LINKED`.
fn link(archive: &Path) -> Result<(), String> {
    let folder = PathBuf::from(env::var_os("OUT_DIR").expect("cargo sets OUT_DIR"));
    let kept = folder.join("libregister.a");
    fs::copy(archive, &kept).map_err(|error| format!("{} cannot be copied: {error}.", archive.display()))?;
    println!("cargo::rustc-link-search=native={}", folder.display());
    println!("cargo::rustc-link-lib=static=register");
    println!("cargo::rustc-env=REGISTER_LINKED={}", kept.display());
    println!("cargo::metadata=archive={}", kept.display());
    Ok(())
}
