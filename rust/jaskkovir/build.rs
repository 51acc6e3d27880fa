//! Links the library that `rust/library` leaves in the repository.

use std::env;
use std::path::Path;

fn main() {
    let manifest = env::var("CARGO_MANIFEST_DIR").expect("cargo names the manifest's folder");
    let folder = Path::new(&manifest).join("../../target/staticlib");
    let library = folder.join("libjaskkovir.a");
    println!("cargo::rerun-if-changed={}", library.display());
    if !library.is_file() {
        println!("cargo::error=target/staticlib/libjaskkovir.a isn't there: run `rust/library` in the repository's root");
        return;
    }
    println!("cargo::rustc-link-search=native={}", folder.display());
    println!("cargo::rustc-link-lib=static=jaskkovir");
}
