//! Links the archive that `bin/library` builds at the top of the repository.
use std::path::Path;

fn main() {
    let root = Path::new(env!("CARGO_MANIFEST_DIR"))
        .parent()
        .expect("rust/ stands in the repository");
    let folder = root.join("crates/ffi/out");
    let archive = folder.join("libffi.a");
    assert!(
        archive.exists(),
        "no {}: run `bin/library` at the top of the repository first",
        archive.display()
    );
    println!("cargo:rustc-link-search=native={}", folder.display());
    println!("cargo:rustc-link-lib=static=ffi");
    println!("cargo:rerun-if-changed={}", archive.display());
}
