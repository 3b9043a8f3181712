//! The newest entry of the changelog is of this version and this interface, and the versions fall by one from there to the base. What
//! crosses to the libraries can't change while the number of its interface stays.

use std::fs;
use std::path::Path;

use ironbus_delivery_state::{ABI, EXPORTS_ABI};

/// Each entry's version and what is said of its abi.
fn entries() -> Vec<([u64; 3], String)> {
    let path = Path::new(env!("CARGO_MANIFEST_DIR")).join("CHANGELOG.md");
    let text = fs::read_to_string(path).unwrap();
    let heads = text.lines().filter_map(|line| line.strip_prefix("## "));
    heads
        .map(|head| {
            let (version, abi) = head.split_once(", ").expect("a version and its abi");
            (numbers(version), abi.to_owned())
        })
        .collect()
}

fn numbers(version: &str) -> [u64; 3] {
    let numbers: Vec<u64> = version.split('.').map(|n| n.parse().unwrap()).collect();
    numbers.try_into().expect("three numbers")
}

#[test]
fn the_newest_entry_is_of_this_version() {
    let entries = entries();
    assert_eq!(entries[0].0, numbers(env!("CARGO_PKG_VERSION")));
    assert_eq!(entries[0].1, format!("abi {ABI}"));
    assert_eq!(entries.last().unwrap().0, [0, 1, 0]);
    for pair in entries.windows(2) {
        assert!(pair[1].0 < pair[0].0, "{:?} after {:?}", pair[1], pair[0]);
    }
}

// A minor version for each request.
#[test]
fn every_request_has_its_version() {
    let path = Path::new(env!("CARGO_MANIFEST_DIR")).join("../../docs/REQUESTS.md");
    let requests = fs::read_to_string(path).unwrap();
    let letters: Vec<&str> = requests
        .lines()
        .filter_map(|line| line.strip_prefix("## ")?.split_once(". "))
        .map(|(letter, _)| letter)
        .filter(|letter| letter.len() == 1)
        .collect();
    assert_eq!(letters.len(), 13);
    let path = Path::new(env!("CARGO_MANIFEST_DIR")).join("CHANGELOG.md");
    let text = fs::read_to_string(path).unwrap();
    for (minor, letter) in (2..).zip(letters) {
        let head = format!("## 0.{minor}.0, ");
        let entry = text
            .split("\n## ")
            .find(|entry| format!("## {entry}").starts_with(&head));
        let entry = entry.unwrap_or_else(|| panic!("no entry {head}"));
        assert!(
            entry.contains(&format!("\n\nRequest {letter}, ")),
            "{entry}"
        );
    }
}

/// FNV-1a: a number that another text hardly has.
fn hash(text: &str) -> u64 {
    text.bytes().fold(0xcbf2_9ce4_8422_2325, |hash, byte| {
        (hash ^ u64::from(byte)).wrapping_mul(0x0100_0000_01b3)
    })
}

/// The texts of a folder's files that end so, without comments. A place is named from this crate's folder.
fn texts(folder: &str, end: &str) -> Vec<String> {
    let folder = Path::new(env!("CARGO_MANIFEST_DIR")).join(folder);
    let paths = fs::read_dir(folder)
        .unwrap()
        .map(|entry| entry.unwrap().path());
    paths
        .filter(|path| path.extension().is_some_and(|found| found == end))
        .map(|path| without(&fs::read_to_string(path).unwrap(), "//"))
        .collect()
}

/// A text without comments, which go from this sign to the end of a line.
fn without(text: &str, sign: &str) -> String {
    let code = |line: &str| line.split(sign).next().unwrap().to_owned() + "\n";
    text.lines().map(code).collect()
}

/// A text without blanks, and without what layout or visibility adds.
fn plain(text: &str) -> String {
    let words = text.split_whitespace();
    let words = words.filter(|word| !["pub", "pub(crate)"].contains(word));
    words.collect::<String>().replace(",)", ")")
}

/// The functions that a crate exports: name, parameters and answer, without contract and body.
fn signatures(folder: &str) -> Vec<String> {
    let texts = texts(folder, "rt");
    let functions = texts
        .iter()
        .flat_map(|text| text.split("extern \"C\" fn ").skip(1));
    let heads = functions.map(|text| text.split(['{']).next().unwrap());
    let mut signatures: Vec<String> = heads
        .map(|head| {
            plain(
                head.trim_end()
                    .trim_end_matches("ensures")
                    .trim_end_matches("requires"),
            )
        })
        .collect();
    signatures.sort();
    signatures
}

/// The types of this crate that have a layout, field by field.
fn layouts() -> Vec<String> {
    let texts = texts("src", "rs");
    let items = texts
        .iter()
        .flat_map(|text| text.split("\n#[repr(").skip(1));
    let ends = |item: &str| item.find("\n}").into_iter().chain(item.find(");")).min();
    let mut layouts: Vec<String> = items
        .map(|item| plain(&item[..ends(item).expect("an item has its end")]))
        .collect();
    layouts.sort();
    layouts
}

/// The numbers of the calls and the values of their answers, as the definitions have them.
fn numbers_of_calls() -> String {
    ["server/specs/Kinds.antt", "answers/specs/Numbers.antt"]
        .map(|file| {
            let path = Path::new(env!("CARGO_MANIFEST_DIR")).join("../../crates");
            plain(&without(
                &fs::read_to_string(path.join(file)).unwrap(),
                "--",
            ))
        })
        .concat()
}

// Beside each number the hash of what it stands for.
#[test]
fn what_crosses_is_that_of_its_number() {
    let server = signatures("../../crates/server_c/src").join("\n")
        + &layouts().join("\n")
        + &numbers_of_calls();
    let hash_of_server = hash(&server);
    assert_eq!(
        (ABI, hash_of_server),
        (2, 0x25cb4e4c667e8b0f),
        "what crosses to libninotskev_server.a has changed: raise ABI in the four places that CHANGELOG.md names, write the entry, and put \
         {hash_of_server:#018x} here, beside the number"
    );
    let mut exports = signatures("../../crates/exports_c/src");
    exports.extend(
        layouts()
            .into_iter()
            .filter(|item| item.contains("structNumbers{")),
    );
    let hash_of_exports = hash(&exports.join("\n"));
    assert_eq!(
        (EXPORTS_ABI, hash_of_exports),
        (1, 0xca6bd11f3ab3e8a0),
        "what crosses to libninotskev_exports.a has changed: raise EXPORTS_ABI in the three places that CHANGELOG.md names, write the entry, and \
         put {hash_of_exports:#018x} here, beside the number"
    );
}

// What the hashes are of: each call that this crate declares, its structs field by field, the numbers of the calls and the values
// of their answers.
#[test]
fn all_that_crosses_is_seen() {
    let path = Path::new(env!("CARGO_MANIFEST_DIR")).join("src/ffi.rs");
    let text = fs::read_to_string(path).unwrap();
    let declared: Vec<&str> = text
        .lines()
        .filter_map(|line| line.strip_prefix("    fn ninotskev_")?.split('(').next())
        .collect();
    assert_eq!(declared.len(), 20);
    let seen = [
        signatures("../../crates/server_c/src"),
        signatures("../../crates/exports_c/src"),
    ]
    .concat();
    for name in declared {
        let is = |found: &String| {
            let rest = found
                .strip_prefix("ninotskev_")
                .and_then(|rest| rest.strip_prefix(name));
            rest.is_some_and(|rest| rest.starts_with(['(', '<']))
        };
        assert!(seen.iter().any(is), "{name}: {seen:?}");
    }
    // The last field of the machine, an array, and a number in a struct of its own.
    let layouts = layouts();
    for item in [
        "C)]structState{configuration:Configuration,phase:u64,writing:Writing,",
        "C)]structAckCursor{committed:u64,starts:[u64;128],ends:[u64;128],runs:usize,",
        "C)]structHours{given:bool,shift:u64,days:[u64;7],",
        "transparent)]structRights(u8",
    ] {
        assert!(
            layouts.iter().any(|found| found == item),
            "{item}: {layouts:?}"
        );
    }
    let numbers = numbers_of_calls();
    for item in [
        "entry42(look(NearestOpena))",
        "wrote_valuesw=w.block∷bitw.last∷[]",
    ] {
        assert!(numbers.contains(item), "{item}: {numbers}");
    }
}
