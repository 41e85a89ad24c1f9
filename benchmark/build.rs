//! Links the archive of an earlier revision that `tools/benchmark REVISION` writes.
use std::path::Path;

fn main() {
    if std::env::var_os("CARGO_FEATURE_BEFORE").is_none() {
        return;
    }
    let folder = Path::new(env!("CARGO_MANIFEST_DIR")).join("../target/before");
    println!("cargo:rustc-link-search=native={}", folder.display());
    println!("cargo:rustc-link-lib=static=mirvacula_before");
    println!("cargo:rerun-if-changed={}", folder.join("libmirvacula_before.a").display());
}
