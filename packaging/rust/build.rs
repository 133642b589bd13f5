//! Links libbb.a: that of the folder that BB_LIBRARY names; else that beside this crate, as it lies in the archive; else the
//! one that pkg-config knows.

use std::env;
use std::path::{Path, PathBuf};
use std::process::Command;

fn main() {
    println!("cargo:rerun-if-env-changed=BB_LIBRARY");
    let folder = folder();
    let archive = folder.join("libbb.a");
    assert!(
        archive.is_file(),
        "{} isn't there: docs/LIBRARY.md says where libbb.a comes from",
        archive.display()
    );
    println!("cargo:rerun-if-changed={}", archive.display());
    println!("cargo:rustc-link-search=native={}", folder.display());
    println!("cargo:rustc-link-lib=static=bb");
}

/// The folder that has libbb.a.
fn folder() -> PathBuf {
    if let Ok(named) = env::var("BB_LIBRARY") {
        return PathBuf::from(named);
    }
    let crate_folder = env::var("CARGO_MANIFEST_DIR").expect("cargo says where the crate is");
    let beside = Path::new(&crate_folder).join("../lib");
    if beside.join("libbb.a").is_file() {
        return beside;
    }
    installed().unwrap_or_else(|| {
        panic!("BB_LIBRARY isn't set, ../lib has no libbb.a, and pkg-config knows no libbb: docs/LIBRARY.md says where it comes from")
    })
}

/// The folder of the one that is installed.
fn installed() -> Option<PathBuf> {
    let said = Command::new("pkg-config")
        .args(["--variable=libdir", "libbb"])
        .output()
        .ok()?;
    let folder = String::from_utf8(said.stdout).ok()?;
    let folder = folder.trim();
    (said.status.success() && !folder.is_empty()).then(|| PathBuf::from(folder))
}
