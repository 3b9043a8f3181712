//! Links the proved libraries, `libninotskev_server.a` and `libninotskev_exports.a`, from the first of these folders that there is:
//!
//! - the one that the environment variable `NINOTSKEV_LIB` names (an empty one names none);
//! - `target/staticlib` of the repository, where `./release archives` writes them;
//! - `lib` of a release, beside this crate.
//!
//! Each has the sums of its archives in `SHA256SUMS`, and an archive with another sum isn't linked.
//!
//! The crate's folder is asked for when this runs, and not when it is compiled, and what is linked are copies in cargo's folder for
//! this script: a checkout that was copied with all that cargo had made would else go on linking the first one's libraries.
//!
//! Cargo runs this again by the dates of the archives: where one is newer than the last run. One that is put in place with an older date,
//! as `cp -a` keeps it, isn't seen, and cargo has no way to ask for more: a script that runs each time has all that is linked built each
//! time. `touch` the archive then, or `cargo clean`. `tests/library.rs` compares what was linked with what is there, byte by byte.

use std::env;
use std::fs;
use std::path::{Path, PathBuf};
use std::process::exit;

#[path = "build/sha256.rs"]
mod sha256;

const LIBRARIES: [&str; 2] = ["ninotskev_server", "ninotskev_exports"];
const SUMS: &str = "SHA256SUMS";

fn stop(why: &str) -> ! {
    eprintln!("{why}");
    exit(1)
}

fn variable(name: &str) -> PathBuf {
    let value = env::var_os(name);
    PathBuf::from(value.unwrap_or_else(|| panic!("cargo sets {name}")))
}

/// The folder with the archives.
fn folder() -> PathBuf {
    println!("cargo:rerun-if-env-changed=NINOTSKEV_LIB");
    if let Some(named) = env::var_os("NINOTSKEV_LIB").filter(|folder| !folder.is_empty()) {
        return PathBuf::from(named);
    }
    let here = variable("CARGO_MANIFEST_DIR");
    // Only the one that is found is watched: for a file that isn't there cargo would run this each time.
    let places = ["../../target/staticlib", "../../lib"].map(|place| here.join(place));
    let found = places.into_iter().find(|place| place.join(SUMS).exists());
    found.unwrap_or_else(|| {
        stop(
            "The proved libraries are missing: write them by `./release archives` at the top of the checkout, which needs the Rattle kit, \
             or name the folder `lib` of a release by NINOTSKEV_LIB.",
        )
    })
}

/// A file of the folder.
fn read(path: &Path) -> Vec<u8> {
    println!("cargo:rerun-if-changed={}", path.display());
    fs::read(path).unwrap_or_else(|error| {
        stop(&format!(
            "{} can't be read: {error}. A folder with the proved libraries has lib{}.a, lib{}.a and their sums in {SUMS}.",
            path.display(),
            LIBRARIES[0],
            LIBRARIES[1],
        ))
    })
}

fn main() {
    println!("cargo:rerun-if-changed=build.rs");
    println!("cargo:rerun-if-changed=build/sha256.rs");
    let [arch, os, target] = ["CARGO_CFG_TARGET_ARCH", "CARGO_CFG_TARGET_OS", "TARGET"]
        .map(|name| variable(name).display().to_string());
    if (arch.as_str(), os.as_str()) != ("x86_64", "linux") {
        stop(&format!(
            "The proved libraries are for x86-64 Linux only: there are none for {target}."
        ));
    }
    let folder = folder();
    let sums = String::from_utf8_lossy(&read(&folder.join(SUMS))).into_owned();
    let out = variable("OUT_DIR");
    println!("cargo:rustc-link-search=native={}", out.display());
    for library in LIBRARIES {
        let name = format!("lib{library}.a");
        let archive = folder.join(&name);
        let bytes = read(&archive);
        let sum = format!("{}  {name}", sha256::sum(&bytes));
        if !sums.lines().any(|line| line == sum) {
            stop(&format!(
                "{} isn't the one that {SUMS} beside it has: take the whole folder from one release, or write it anew by `./release archives`.",
                archive.display()
            ));
        }
        // Written, and not copied: a copy has the archive's mode too, and where nobody may write that one there is no second copy.
        if let Err(error) = fs::write(out.join(&name), bytes) {
            stop(&format!("{} can't be copied: {error}.", archive.display()));
        }
        println!("cargo:rustc-link-lib=static={library}");
    }
}
