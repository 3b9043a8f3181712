//! Which libraries are linked: those that are there, a checkout that was copied its own; and one that isn't the crate's is found before the
//! first call.

use std::fs;
use std::path::{Path, PathBuf};
use std::process::{Command, Output};

use ironbus_delivery_state::{ABI, EXPORTS_ABI};

#[path = "../build/sha256.rs"]
mod sha256;

/// A program over a copy of the crate: it asks which libraries it has, and then starts a consumer.
const ASKS: &str = r#"
use ironbus_delivery_state::{check_library, Area, Configuration, Consumer, NewJournal, Storage, BLOCK};

struct Zeros;

impl Storage for Zeros {
    fn read(&mut self) -> std::io::Result<Area> {
        Ok(vec![0; 18 * BLOCK].into())
    }

    fn write_block(&mut self, _: usize, _: &[u8; BLOCK]) -> std::io::Result<()> {
        Ok(())
    }

    fn sync(&mut self) -> std::io::Result<()> {
        Ok(())
    }
}

fn main() {
    match check_library() {
        Ok(()) => println!("the right one"),
        Err(error) => println!("{error}"),
    }
    let consumer = Consumer::start(&Configuration::default(), NewJournal::on(Zeros).unwrap());
    println!("{:?}", consumer.unwrap());
}
"#;

/// Another, which asks nothing and calls one codec, or creates a journal, whose first sector has a check.
const CODECS: &str = r#"
use ironbus_delivery_state::{
    decode_attempt_snapshot, encode_attempt_snapshot, encode_attempt_snapshot_v2, NewJournal, Offset,
};

fn main() {
    let pairs = [(Offset::new(5), 1)];
    match std::env::args().nth(1).as_deref() {
        Some("1") => println!("{:?}", encode_attempt_snapshot(&pairs)),
        Some("2") => println!("{:?}", encode_attempt_snapshot_v2(&pairs)),
        Some("create") => println!("{:?}", NewJournal::create("new.journal", 18)),
        _ => println!("{:?}", decode_attempt_snapshot(&[0; 9])),
    }
}
"#;

/// A library with another number, whose calls may not be made.
struct Other {
    of: &'static str,
    answers: &'static str,
    calls: &'static [&'static str],
}

const SERVER: Other = Other {
    of: "server",
    answers: "
unsigned long ninotskev_abi(void) { return 99; }
unsigned long ninotskev_abi_size(unsigned long part) { return part; }
",
    calls: &[
        "start", "off", "restart", "ask", "progress", "plan", "begin", "step",
    ],
};

const EXPORTS: Other = Other {
    of: "exports",
    answers: "
unsigned long ninotskev_exports_abi(void) { return 99; }
",
    calls: &[
        "crc32c",
        "encode_attempts",
        "encode_attempts_v2",
        "decode_attempts",
    ],
};

fn done(command: &mut Command) {
    let output = command.output().unwrap();
    let said = String::from_utf8_lossy(&output.stderr);
    assert!(output.status.success(), "{command:?}: {said}");
}

/// Writes such a library in place of the one that is there.
fn put(other: &Other, checkout: &Path) {
    let trap = |name: &&str| format!("void ninotskev_{name}(void) {{ __builtin_trap(); }}\n");
    let calls: String = other.calls.iter().map(trap).collect();
    let libraries = checkout.join("target/staticlib");
    let [source, object, archive] =
        ["c", "o", "a"].map(|end| libraries.join(format!("libninotskev_{}.{end}", other.of)));
    fs::write(&source, other.answers.to_owned() + &calls).unwrap();
    fs::remove_file(&archive).unwrap();
    done(
        Command::new("cc")
            .arg("-c")
            .arg(&source)
            .arg("-o")
            .arg(&object),
    );
    done(Command::new("ar").arg("rcs").args([&archive, &object]));
    sums(&libraries);
}

/// A checkout of the crate with the libraries that are linked here.
fn checkout(folder: &Path) {
    let [crate_folder, libraries] = ["rust/next", "target/staticlib"].map(|name| folder.join(name));
    fs::create_dir_all(crate_folder.join("examples")).unwrap();
    fs::create_dir_all(&libraries).unwrap();
    let here = Path::new(env!("CARGO_MANIFEST_DIR"));
    for name in ["src", "build", "build.rs", "Cargo.toml", "Cargo.lock"] {
        done(
            Command::new("cp")
                .arg("-a")
                .arg(here.join(name))
                .arg(&crate_folder),
        );
    }
    for (name, program) in [("asks", ASKS), ("codecs", CODECS)] {
        fs::write(crate_folder.join(format!("examples/{name}.rs")), program).unwrap();
    }
    for name in ARCHIVES {
        fs::copy(linked_from().join(name), libraries.join(name)).unwrap();
    }
    sums(&libraries);
}

const ARCHIVES: [&str; 2] = ["libninotskev_server.a", "libninotskev_exports.a"];
const SUMS: &str = "SHA256SUMS";

/// The folder that the build script takes the libraries from.
fn linked_from() -> PathBuf {
    if let Some(named) = std::env::var_os("NINOTSKEV_LIB").filter(|folder| !folder.is_empty()) {
        return PathBuf::from(named);
    }
    let here = Path::new(env!("CARGO_MANIFEST_DIR"));
    let places = ["../../target/staticlib", "../../lib"].map(|place| here.join(place));
    let found = places.into_iter().find(|place| place.join(SUMS).exists());
    found.expect("they were linked from there")
}

/// Writes the sums of the archives beside them.
fn sums(libraries: &Path) {
    let line = |name| {
        let bytes = fs::read(libraries.join(name)).unwrap();
        format!("{}  {name}\n", sha256::sum(&bytes))
    };
    fs::write(libraries.join(SUMS), ARCHIVES.map(line).concat()).unwrap();
}

/// Builds a program in a checkout and runs it.
fn run(checkout: &Path, program: &[&str]) -> Output {
    Command::new(env!("CARGO"))
        .args(["run", "--offline", "--quiet", "--example"])
        .args(program)
        .current_dir(checkout.join("rust/next"))
        .env("CARGO_TARGET_DIR", checkout.join("rust/next/target"))
        // which names no folder
        .env("NINOTSKEV_LIB", "")
        .env("RUST_BACKTRACE", "0")
        .output()
        .unwrap()
}

fn is_right(output: &Output) {
    let [out, err] = [&output.stdout, &output.stderr].map(|text| String::from_utf8_lossy(text));
    assert_eq!(
        out, "the right one\nConsumer on Journal of 18 blocks\n",
        "{err}"
    );
}

fn wrong(of: &str, here: u64) -> String {
    format!(
        "the linked libninotskev_{of}.a is not the one that this crate was written for: \
         the number of the interface is 99 there and {here} here."
    )
}

/// A panic, and no trap of a call.
fn panics(output: &Output, wrong: &str) {
    let err = String::from_utf8_lossy(&output.stderr);
    assert!(err.contains("panicked") && err.contains(wrong), "{err}");
    assert_eq!(output.status.code(), Some(101));
}

fn says_and_panics(output: &Output, wrong: &str) {
    let out = String::from_utf8_lossy(&output.stdout);
    assert!(out.starts_with(wrong), "{out}");
    panics(output, wrong);
}

// Cargo goes by dates, and doesn't see an archive that was put there with an older one.
#[test]
fn what_is_linked_is_what_is_there() {
    for name in ARCHIVES {
        let there = linked_from().join(name);
        let linked = Path::new(env!("OUT_DIR")).join(name);
        let same = fs::read(&there).unwrap() == fs::read(linked).unwrap();
        let there = there.display();
        assert!(
            same,
            "{there} is not what is linked here: it was put there with an older date. `touch` it, or `cargo clean`"
        );
    }
}

#[test]
fn a_copied_checkout_links_its_own_library() {
    let folder = Path::new(env!("CARGO_TARGET_TMPDIR")).join("checkouts");
    let _ = fs::remove_dir_all(&folder);
    let [first, second] = ["first", "second"].map(|name| folder.join(name));
    checkout(&first);
    is_right(&run(&first, &["asks"]));
    // With all that cargo has made. Then another library comes into the first.
    done(Command::new("cp").arg("-a").args([&first, &second]));
    put(&SERVER, &first);
    is_right(&run(&second, &["asks"]));
    // It is found where it is linked: a clear error, and a start that makes no call.
    put(&SERVER, &second);
    for checkout in [&first, &second] {
        says_and_panics(&run(checkout, &["asks"]), &wrong("server", ABI));
    }
    fs::remove_dir_all(&folder).unwrap();
}

// The snapshots' library by itself: said too, before a start, and before each codec and each check where nothing else is called.
#[test]
fn another_library_of_the_snapshots_is_found() {
    let checkout_folder = Path::new(env!("CARGO_TARGET_TMPDIR")).join("snapshots");
    let _ = fs::remove_dir_all(&checkout_folder);
    checkout(&checkout_folder);
    put(&EXPORTS, &checkout_folder);
    let wrong = wrong("exports", EXPORTS_ABI);
    says_and_panics(&run(&checkout_folder, &["asks"]), &wrong);
    for codec in ["1", "2", "read", "create"] {
        panics(&run(&checkout_folder, &["codecs", codec]), &wrong);
    }
    assert!(!checkout_folder.join("rust/next/new.journal").exists());
    fs::remove_dir_all(&checkout_folder).unwrap();
}

/// What the build script says in a checkout that can't be built.
fn not_built(checkout: &Path, target: &[&str]) -> String {
    let mut build = Command::new(env!("CARGO"));
    build
        .args(["check", "--offline", "--quiet", "--lib"])
        .args(target);
    build
        .current_dir(checkout.join("rust/next"))
        .env("CARGO_TARGET_DIR", checkout.join("rust/next/target"))
        .env("NINOTSKEV_LIB", "");
    let output = build.output().unwrap();
    assert!(!output.status.success());
    let said = String::from_utf8(output.stderr).unwrap();
    assert!(!said.contains("panicked"), "{said}");
    let (_, why) = said.split_once("--- stderr\n").expect(&said);
    why.trim().to_owned()
}

// An archive that isn't whole or isn't the one of the sums, one that is missing, its sums, or both folders, and another target: a sentence each.
#[test]
fn only_archives_with_their_sums_are_linked() {
    let folder = Path::new(env!("CARGO_TARGET_TMPDIR")).join("sums");
    let _ = fs::remove_dir_all(&folder);
    checkout(&folder);
    let [archive, sums, libraries, lib] = [
        "target/staticlib/libninotskev_server.a",
        "target/staticlib/SHA256SUMS",
        "target/staticlib",
        "lib",
    ]
    .map(|name| folder.join(name));
    let whole = fs::read(&archive).unwrap();
    let mut other = whole.clone();
    other[5000] ^= 1;
    for bytes in [&other[..], &whole[..whole.len() - 1]] {
        fs::write(&archive, bytes).unwrap();
        let said = not_built(&folder, &[]);
        let wanted = "libninotskev_server.a isn't the one that SHA256SUMS beside it has";
        assert!(said.contains(wanted), "{said}");
    }
    fs::remove_file(&archive).unwrap();
    let said = not_built(&folder, &[]);
    let wanted = "libninotskev_server.a can't be read: No such file or directory";
    assert!(said.contains(wanted), "{said}");
    fs::write(&archive, &whole).unwrap();
    let said = not_built(&folder, &["--target", "aarch64-unknown-linux-gnu"]);
    let wanted = "The proved libraries are for x86-64 Linux only: there are none for aarch64-unknown-linux-gnu.";
    assert_eq!(said, wanted);
    // In the place of a release too.
    fs::rename(&libraries, &lib).unwrap();
    is_right(&run(&folder, &["asks"]));
    fs::rename(&lib, &libraries).unwrap();
    fs::remove_file(&sums).unwrap();
    let said = not_built(&folder, &[]);
    assert!(
        said.starts_with("The proved libraries are missing: "),
        "{said}"
    );
    fs::remove_dir_all(&folder).unwrap();
}

// FIPS 180-4's examples, and the lengths around a block's end, all in one sum.
#[test]
fn sums_are_those_of_the_standard() {
    for (text, sum) in [
        (
            "",
            "e3b0c44298fc1c149afbf4c8996fb92427ae41e4649b934ca495991b7852b855",
        ),
        (
            "abc",
            "ba7816bf8f01cfea414140de5dae2223b00361a396177a9cb410ff61f20015ad",
        ),
        (
            "abcdbcdecdefdefgefghfghighijhijkijkljklmklmnlmnomnopnopq",
            "248d6a61d20638b8e5c026930c3e6039a33ce45964ff2167f6ecedd419db06c1",
        ),
    ] {
        assert_eq!(sha256::sum(text.as_bytes()), sum);
    }
    let million = vec![b'a'; 1_000_000];
    assert_eq!(
        sha256::sum(&million),
        "cdc76e5c9914fb9281a1c7e284d73e67f1809a48a497200e046d39ccc7112cd0"
    );
    let mut all = String::new();
    for length in 50..130 {
        all += &sha256::sum(&million[..length]);
    }
    assert_eq!(
        sha256::sum(all.as_bytes()),
        "8cf2ba18001b24ead1e256f002b37193e9aabe86c15dded4b93c22b4eb0f65f1"
    );
}
