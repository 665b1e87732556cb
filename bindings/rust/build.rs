//! Links libsakiromuk.a, which has the proved code. Its folder is SAKIROMUK_LIB_DIR; where that is not set, `rt lib` is asked for it in
//! this repository's crates/sakiromuk, which the first time proves every room below it and takes some ten minutes.

use std::ffi::OsString;
use std::path::{Path, PathBuf};
use std::process::Command;

fn main() {
    println!("cargo:rerun-if-env-changed=SAKIROMUK_LIB_DIR");
    let target = |part: &str| std::env::var(format!("CARGO_CFG_TARGET_{part}")).unwrap_or_default();
    let (arch, os) = (target("ARCH"), target("OS"));
    assert!(arch == "x86_64" && os == "linux", "libsakiromuk.a is code for x86-64 Linux, not for {arch} {os}");
    let folder = std::env::var_os("SAKIROMUK_LIB_DIR").map_or_else(proved_here, given);
    println!("cargo:rustc-link-search=native={}", folder.display());
    println!("cargo:rustc-link-lib=static=sakiromuk");
}

/// A folder that holds the archive.
fn given(folder: OsString) -> PathBuf {
    let folder = PathBuf::from(folder);
    let archive = folder.join("libsakiromuk.a");
    assert!(archive.is_file(), "there is no {}", archive.display());
    println!("cargo:rerun-if-changed={}", archive.display());
    folder
}

/// The folder of the archive that `rt` makes of the crates beside this package.
fn proved_here() -> PathBuf {
    let root = Path::new(env!("CARGO_MANIFEST_DIR")).join("../..");
    println!("cargo:rerun-if-changed={}", root.join("crates.txt").display());
    // Not a crate's out/, which rt writes.
    for room in std::fs::read_dir(root.join("crates")).expect("this repository's crates").flatten() {
        for part in ["src", "specs", "proofs"].map(|part| room.path().join(part)) {
            if part.is_dir() {
                println!("cargo:rerun-if-changed={}", part.display());
            }
        }
    }
    let room = root.join("crates/sakiromuk");
    let made = Command::new("rt").arg("lib").current_dir(&room).output();
    let made = made
        .unwrap_or_else(|e| panic!("rt, the toolchain's program, could not be run ({e}); SAKIROMUK_LIB_DIR can name a folder with libsakiromuk.a"));
    let said = |bytes: &[u8]| String::from_utf8_lossy(bytes).into_owned();
    assert!(made.status.success(), "rt lib failed in {}:\n{}{}", room.display(), said(&made.stdout), said(&made.stderr));
    room.join("out")
}
