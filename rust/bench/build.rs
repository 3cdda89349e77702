//! With the feature `array`: finds the archive of the second build of the changes and links it, as the build script of
//! the crate `register` does for the register's. It is the one that `ARRAY_BUILD_ARCHIVE` names, else the one that
//! `tools/archive array_build` makes in the repository. Without the feature there is nothing to link here.
use std::path::{Path, PathBuf};
use std::process::Command;
use std::{env, fs};

fn main() {
    println!("cargo::rerun-if-env-changed=ARRAY_BUILD_ARCHIVE");
    println!("cargo::rerun-if-changed=build.rs");
    if env::var_os("CARGO_FEATURE_ARRAY").is_none() {
        return;
    }
    let found = env::var_os("ARRAY_BUILD_ARCHIVE").map_or_else(made, |path| Ok(PathBuf::from(path)));
    if let Err(why) = found.and_then(|archive| link(&archive)) {
        for line in why.lines() {
            println!("cargo::error={line}");
        }
    }
}

/// The archive that `tools/archive` makes. Cargo runs this after the build script of `register`, so no two `rt` run at a
/// time.
fn made() -> Result<PathBuf, String> {
    let here = PathBuf::from(env::var_os("CARGO_MANIFEST_DIR").expect("cargo sets CARGO_MANIFEST_DIR"));
    let repository = here.join("../..");
    watch(&repository);
    let run = Command::new(repository.join("tools/archive")).arg("array_build").output();
    let run =
        run.map_err(|error| format!("ARRAY_BUILD_ARCHIVE is not set, and `tools/archive` did not start: {error}."))?;
    if !run.status.success() {
        let (out, err) = (String::from_utf8_lossy(&run.stdout), String::from_utf8_lossy(&run.stderr));
        return Err(format!("`tools/archive array_build` failed in {}:\n{out}{err}", repository.display()));
    }
    Ok(repository.join("target/staticlib/libarray_build.a"))
}

/// What the archive is made from: all of the crates but their out/, which `rt` writes.
fn watch(repository: &Path) {
    println!("cargo::rerun-if-changed={}", repository.join("crates.txt").display());
    for folder in fs::read_dir(repository.join("crates")).into_iter().flatten().flatten() {
        for part in ["src", "specs", "proofs"].map(|part| folder.path().join(part)) {
            if part.is_dir() {
                println!("cargo::rerun-if-changed={}", part.display());
            }
        }
    }
}

/// Copies the archive to cargo's own folder and links it from there.
fn link(archive: &Path) -> Result<(), String> {
    println!("cargo::rerun-if-changed={}", archive.display());
    let folder = PathBuf::from(env::var_os("OUT_DIR").expect("cargo sets OUT_DIR"));
    fs::copy(archive, folder.join("libarray_build.a"))
        .map_err(|error| format!("{} cannot be copied: {error}.", archive.display()))?;
    println!("cargo::rustc-link-search=native={}", folder.display());
    println!("cargo::rustc-link-lib=static=array_build");
    Ok(())
}
