//! Links the port: target/lib/libcard.a, which `make lib` writes.

use std::path::Path;

fn main() {
    let root = Path::new(env!("CARGO_MANIFEST_DIR")).join("../..");
    let lib = root.join("target/lib");
    println!("cargo:rerun-if-changed={}", lib.join("libcard.a").display());
    println!("cargo:rustc-link-search=native={}", lib.display());
    println!("cargo:rustc-link-lib=static=card");
}
