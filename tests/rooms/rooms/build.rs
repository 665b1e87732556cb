//! Links librooms_c.a, which `rt lib` leaves in crates/rooms_c/out, and again where it has changed.

use std::path::Path;

fn main() {
    // Where tests/build lays this crate out, in target/tests/crates/rooms.
    let archives = Path::new(env!("CARGO_MANIFEST_DIR")).join("../../../../crates/rooms_c/out");
    println!("cargo:rustc-link-search=native={}", archives.display());
    println!("cargo:rustc-link-lib=static=rooms_c");
    println!("cargo:rerun-if-changed={}", archives.join("librooms_c.a").display());
}
