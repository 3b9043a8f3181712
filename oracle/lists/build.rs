//! Where the archive is that `tools/build operations_c` makes.
use std::path::Path;

fn main() {
    let folder = Path::new(env!("CARGO_MANIFEST_DIR")).join("../../target/staticlib");
    println!("cargo:rerun-if-changed={}", folder.join("liboperations.a").display());
    println!("cargo:rustc-link-search=native={}", folder.display());
}
