//! Links the static archive of the proved library and, where the feature `before` asks for it, that of an earlier commit beside it.

use std::path::{Path, PathBuf};
use std::process::{exit, Command};
use std::{env, fs};

const FOLDER_VARIABLE: &str = "HANDSHAKE_ARCHIVE_DIR";
const USUAL_FOLDER: &str = "../crates/handshake/out";
const BEFORE_VARIABLE: &str = "HANDSHAKE_BEFORE_DIR";

// Cargo runs this in the package's folder, so relative and absolute paths are both taken from there.
fn main() {
    let folder = folder_of(FOLDER_VARIABLE).unwrap_or_else(|| PathBuf::from(USUAL_FOLDER));
    archive_in(&folder, FOLDER_VARIABLE);
    link(&folder, "handshake");
    if env::var_os("CARGO_FEATURE_BEFORE").is_some() {
        let before = folder_of(BEFORE_VARIABLE).unwrap_or_else(|| {
            stop(&format!("the feature `before` takes the archive of an earlier commit, too: set {BEFORE_VARIABLE} to its folder"))
        });
        let archive = archive_in(&before, BEFORE_VARIABLE);
        link(&renamed(&archive), "before");
    }
}

fn folder_of(variable: &str) -> Option<PathBuf> {
    println!("cargo:rerun-if-env-changed={variable}");
    env::var_os(variable).map(PathBuf::from)
}

/// The library's archive in this folder.
fn archive_in(folder: &Path, variable: &str) -> PathBuf {
    let archive = folder.join("libhandshake.a");
    println!("cargo:rerun-if-changed={}", archive.display());
    if !archive.is_file() {
        stop(&format!(
            "{} is not there: run `rt lib` in crates/handshake first (an archive elsewhere: set {variable} to its folder)",
            archive.display()
        ));
    }
    archive
}

fn link(folder: &Path, name: &str) {
    let folder = folder.canonicalize().unwrap_or_else(|error| {
        stop(&format!("{}: {error}", folder.display()));
    });
    println!("cargo:rustc-link-search=native={}", folder.display());
    println!("cargo:rustc-link-lib=static={name}");
}

/// The folder of a copy whose functions have other names, so that both archives can be linked.
fn renamed(archive: &Path) -> PathBuf {
    let made = PathBuf::from(env::var_os("OUT_DIR").expect("cargo sets OUT_DIR")).join("before");
    fs::create_dir_all(&made).unwrap_or_else(|error| stop(&format!("{}: {error}", made.display())));
    let mut objcopy = Command::new("objcopy");
    for function in ["search", "replay", "fences"] {
        objcopy.arg(format!("--keep-global-symbol=before_{function}"));
        objcopy.arg(format!(
            "--redefine-sym=handshake_{function}=before_{function}"
        ));
    }
    let status = objcopy.args([archive, &made.join("libbefore.a")]).status();
    match status {
        Ok(status) if status.success() => made,
        Ok(status) => stop(&format!("objcopy {}: {status}", archive.display())),
        Err(error) => stop(&format!("objcopy (Debian's binutils): {error}")),
    }
}

fn stop(message: &str) -> ! {
    eprintln!("{message}");
    exit(1)
}
