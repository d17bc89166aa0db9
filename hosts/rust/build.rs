//! Links libcard.a, which `make lib` writes, from CARD_LIB_DIR or from the repository's target/lib.
use std::{env, path::PathBuf, process::exit};

fn main() {
    let here = PathBuf::from(env::var_os("CARGO_MANIFEST_DIR").unwrap_or_default());
    let given = env::var_os("CARD_LIB_DIR").unwrap_or_else(|| "../../target/lib".into());
    let folder = here.join(given);
    let library = folder.join("libcard.a");
    println!("cargo:rerun-if-env-changed=CARD_LIB_DIR");
    println!("cargo:rerun-if-changed={}", library.display());
    if !library.is_file() {
        eprintln!("there is no {}: run `make lib` in the repository's root, or set CARD_LIB_DIR to the folder of libcard.a", library.display());
        exit(1);
    }
    println!("cargo:rustc-link-search=native={}", folder.display());
    println!("cargo:rustc-link-lib=static=card");
}
