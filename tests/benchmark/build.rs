//! Links the driver, and nothing else, with the static libraries of the proved code, where tests/static_library.py puts them.

use std::path::Path;

fn main() {
    let root = Path::new(env!("CARGO_MANIFEST_DIR")).join("../..");
    for archive in ["libmeasured.a", "libmeasured_buffers.a", "libmeasured_fields.a"] {
        let archive = root.join("target/staticlib").join(archive);
        println!("cargo:rerun-if-changed={}", archive.display());
        println!("cargo:rustc-link-arg-bins={}", archive.display());
    }
}
