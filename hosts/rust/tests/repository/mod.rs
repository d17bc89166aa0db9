//! Files of the repository that some tests compare with. A copy of this crate elsewhere does not have them.
use std::{fs, io::Write, path::Path};

/// The bytes of a file, named from the repository's root. Where it is missing, the test's log has a line that says so, whether output is captured or not.
pub fn file(name: &str) -> Option<Vec<u8>> {
    let path = Path::new(env!("CARGO_MANIFEST_DIR")).join("../..").join(name);
    if path.is_file() {
        return Some(fs::read(path).unwrap());
    }
    let line = format!("skipped: a comparison with {name}, which is not at {}\n", path.display());
    std::io::stderr().write_all(line.as_bytes()).unwrap();
    None
}

/// The text of the C header.
#[allow(dead_code)]
pub fn header() -> Option<String> {
    file("include/card.h").map(|bytes| String::from_utf8(bytes).unwrap())
}
