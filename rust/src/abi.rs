//! Whether the libraries that were linked are those that this crate was written for.

use std::fmt;
use std::sync::OnceLock;

use crate::ffi;

/// The number of the interface between this crate and the proved `libserver.a`. It is raised with every change of a struct that crosses or of
/// an exported call, here, in `crates/server/specs/Abi.antt` and in `crates/server/src/abi.rt`; `CHANGELOG.md` has it beside each
/// version.
pub const ABI: u64 = 2;

/// That of the interface to `libexports.a`, which has the snapshots. It is raised with every change of a call of that library, here, in
/// `crates/exports/specs/Abi.antt` and in `crates/exports/src/abi.rt`.
pub const EXPORTS_ABI: u64 = 1;

/// Something that a library says of itself, beside what this crate has.
#[derive(Clone, Copy, Debug, PartialEq, Eq)]
pub(crate) struct Compared {
    pub(crate) of: &'static str,
    pub(crate) what: &'static str,
    pub(crate) library: u64,
    pub(crate) here: u64,
}

/// A linked library isn't the one that this crate was written for: see [`check_library`].
#[derive(Clone, Copy, Debug, PartialEq, Eq)]
pub struct WrongLibrary(Compared);

impl fmt::Display for WrongLibrary {
    fn fmt(&self, f: &mut fmt::Formatter<'_>) -> fmt::Result {
        let Compared {
            of,
            what,
            library,
            here,
        } = self.0;
        write!(
            f,
            "the linked lib{of}.a is not the one that this crate was written for: {what} is {library} there and {here} here. \
             Write it by `./release archives {of}` in the checkout that this crate is from, and see which folder NINOTSKEV_LIB names"
        )
    }
}

impl std::error::Error for WrongLibrary {}

// The first that differs.
fn compare(all: &[Compared]) -> Result<(), WrongLibrary> {
    match all.iter().find(|one| one.library != one.here) {
        Some(other) => Err(WrongLibrary(*other)),
        None => Ok(()),
    }
}

/// Compares what the linked libraries say of themselves with what this crate was written for: the numbers of their interfaces ([`ABI`],
/// [`EXPORTS_ABI`]), and the sizes of the structs that cross.
///
/// [`Consumer::start`](crate::Consumer::start), the restarts and the codecs of snapshots ask it before their first call, and panic
/// with its words where it fails: a program that was linked so can do nothing right, and a call would be undefined. A server that
/// wants an error instead asks it first.
///
/// # Errors
/// What differs.
pub fn check_library() -> Result<(), WrongLibrary> {
    static CHECKED: OnceLock<Result<(), WrongLibrary>> = OnceLock::new();
    *CHECKED.get_or_init(|| compare(&ffi::compared()))
}

/// The same for whoever is about to call the library.
pub(crate) fn require_library() {
    if let Err(wrong) = check_library() {
        panic!("{wrong}");
    }
}

#[cfg(test)]
mod tests {
    use super::*;

    #[test]
    fn the_linked_libraries_are_the_right_ones() {
        assert_eq!(check_library(), Ok(()));
        assert!(ffi::compared().iter().all(|one| one.here > 0));
    }

    // Other numbers of the interfaces, and other bytes of each struct.
    #[test]
    fn any_other_number_is_refused() {
        let right = ffi::compared();
        assert_eq!(compare(&right), Ok(()));
        for place in 0..right.len() {
            for other in [0, right[place].here + 1] {
                let mut wrong = right;
                wrong[place].library = other;
                assert_eq!(compare(&wrong), Err(WrongLibrary(wrong[place])));
            }
        }
        for (place, of, here) in [(0, "server", ABI), (4, "exports", EXPORTS_ABI)] {
            let mut wrong = right;
            wrong[place].library = 999;
            let said = compare(&wrong).unwrap_err().to_string();
            let differs = format!("the number of the interface is 999 there and {here} here");
            assert!(
                said.starts_with(&format!("the linked lib{of}.a ")),
                "{said}"
            );
            assert!(said.contains(&differs), "{said}");
            assert!(
                said.contains(&format!("`./release archives {of}`")),
                "{said}"
            );
        }
    }
}
