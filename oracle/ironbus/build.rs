//! Names the original's modules to the compiler, unchanged and where they stand: in the folder that IRONBUS_SRC names, by default
//! ../shared/docs/src. A relative path counts from the root of this repository.
use std::path::{Path, PathBuf};
use std::{env, fs};

const MODULES: [&str; 6] = ["attempt", "crc", "cursor", "delivery", "lease", "types"];

fn main() {
    println!("cargo:rerun-if-env-changed=IRONBUS_SRC");
    let root = Path::new(env!("CARGO_MANIFEST_DIR")).join("../..");
    let folder = env::var_os("IRONBUS_SRC").map_or(PathBuf::from("../shared/docs/src"), PathBuf::from);
    let source = root.join(folder).join("crates/ironbus-core/src");
    let mut text = String::new();
    for module in MODULES {
        let file = source.join(format!("{module}.rs"));
        let file = fs::canonicalize(&file).unwrap_or_else(|error| panic!("{}: {error}; set IRONBUS_SRC", file.display()));
        println!("cargo:rerun-if-changed={}", file.display());
        text += &format!("#[path = {file:?}]\npub mod {module};\n");
    }
    let out = PathBuf::from(env::var_os("OUT_DIR").unwrap()).join("modules.rs");
    fs::write(out, text).unwrap();
}
