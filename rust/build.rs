//! Links the proved libraries, `target/staticlib/libserver.a` and `libexports.a` of the repository, which `./release archives` writes.
//! Another place can be named by the environment variable `NINOTSKEV_LIB`: the folder that has them. An empty one names none.
//!
//! The crate's folder is asked for when this runs, and not when it is compiled, and what is linked are copies in cargo's folder for
//! this script: a checkout that was copied with all that cargo had made would else go on linking the first one's libraries.
//!
//! Cargo runs this again by the dates of the archives: where one is newer than the last run. One that is put in place with an older date,
//! as `cp -a` keeps it, isn't seen, and cargo has no way to ask for more: a script that runs each time has all that is linked built each
//! time. `touch` the archive then, or `cargo clean`. `tests/library.rs` compares what was linked with what is there, byte by byte.

use std::env;
use std::fs;
use std::path::PathBuf;

fn variable(name: &str) -> PathBuf {
    let value = env::var_os(name);
    PathBuf::from(value.unwrap_or_else(|| panic!("cargo sets {name}")))
}

fn main() {
    println!("cargo:rerun-if-changed=build.rs");
    println!("cargo:rerun-if-env-changed=NINOTSKEV_LIB");
    let named = env::var_os("NINOTSKEV_LIB").filter(|folder| !folder.is_empty());
    let folder = named.map_or_else(
        || variable("CARGO_MANIFEST_DIR").join("../target/staticlib"),
        PathBuf::from,
    );
    let out = variable("OUT_DIR");
    println!("cargo:rustc-link-search=native={}", out.display());
    for library in ["server", "exports"] {
        let name = format!("lib{library}.a");
        let archive = folder.join(&name);
        println!("cargo:rerun-if-changed={}", archive.display());
        // Written, and not copied: a copy has the archive's mode too, and where nobody may write that one there is no second copy.
        let bytes = fs::read(&archive);
        if let Err(error) = bytes.and_then(|bytes| fs::write(out.join(&name), bytes)) {
            panic!(
                "{} can't be had: {error}. Write it by `./release archives {library}` in the folder above rust/, or name the folder that \
                 has it by NINOTSKEV_LIB.",
                archive.display()
            );
        }
        println!("cargo:rustc-link-lib=static={library}");
    }
}
