//! Links the archive that `tools/build library` writes.
use std::path::Path;

fn main() {
    let folder = Path::new(env!("CARGO_MANIFEST_DIR")).join("../target/staticlib");
    println!("cargo:rustc-link-search=native={}", folder.display());
    println!("cargo:rustc-link-lib=static=mirvacula");
    println!("cargo:rerun-if-changed={}", folder.join("libmirvacula.a").display());
}
