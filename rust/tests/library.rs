//! Which libraries are linked: those that are there, a checkout that was copied its own; and one that isn't the crate's is found before the
//! first call.

use std::fs;
use std::path::{Path, PathBuf};
use std::process::{Command, Output};

use ironbus_delivery_state::{ABI, EXPORTS_ABI};

/// A program over a copy of the crate: it asks which libraries it has, and then starts a consumer.
const ASKS: &str = r#"
use ironbus_delivery_state::{check_library, Configuration, Consumer, NewJournal, Storage, BLOCK};

struct Zeros;

impl Storage for Zeros {
    fn read(&mut self) -> std::io::Result<Vec<u8>> {
        Ok(vec![0; 18 * BLOCK])
    }

    fn write_block(&mut self, _: usize, _: &[u8; BLOCK]) -> std::io::Result<()> {
        Ok(())
    }
}

fn main() {
    match check_library() {
        Ok(()) => println!("the right one"),
        Err(error) => println!("{error}"),
    }
    let consumer = Consumer::start(&Configuration::default(), NewJournal::on(Zeros).unwrap());
    println!("{:?}", consumer.unwrap());
}
"#;

/// Another, which asks nothing and calls one codec.
const CODECS: &str = r#"
use ironbus_delivery_state::{
    decode_attempt_snapshot, encode_attempt_snapshot, encode_attempt_snapshot_v2, Offset,
};

fn main() {
    let pairs = [(Offset::new(5), 1)];
    match std::env::args().nth(1).as_deref() {
        Some("1") => println!("{:?}", encode_attempt_snapshot(&pairs)),
        Some("2") => println!("{:?}", encode_attempt_snapshot_v2(&pairs)),
        _ => println!("{:?}", decode_attempt_snapshot(&[0; 9])),
    }
}
"#;

/// A library with another number, whose calls may not be made.
struct Other {
    of: &'static str,
    answers: &'static str,
    calls: &'static [&'static str],
}

const SERVER: Other = Other {
    of: "server",
    answers: "
unsigned long ninotskev_abi(void) { return 99; }
unsigned long ninotskev_abi_size(unsigned long part) { return part; }
",
    calls: &[
        "start", "off", "restart", "ask", "progress", "plan", "begin", "step",
    ],
};

const EXPORTS: Other = Other {
    of: "exports",
    answers: "
unsigned long ninotskev_exports_abi(void) { return 99; }
",
    calls: &["encode_attempts", "encode_attempts_v2", "decode_attempts"],
};

fn done(command: &mut Command) {
    let output = command.output().unwrap();
    let said = String::from_utf8_lossy(&output.stderr);
    assert!(output.status.success(), "{command:?}: {said}");
}

/// Writes such a library in place of the one that is there.
fn put(other: &Other, checkout: &Path) {
    let trap = |name: &&str| format!("void ninotskev_{name}(void) {{ __builtin_trap(); }}\n");
    let calls: String = other.calls.iter().map(trap).collect();
    let [source, object, archive] =
        ["c", "o", "a"].map(|end| checkout.join(format!("target/staticlib/lib{}.{end}", other.of)));
    fs::write(&source, other.answers.to_owned() + &calls).unwrap();
    fs::remove_file(&archive).unwrap();
    done(
        Command::new("cc")
            .arg("-c")
            .arg(&source)
            .arg("-o")
            .arg(&object),
    );
    done(Command::new("ar").arg("rcs").args([&archive, &object]));
}

/// A checkout of the crate with the libraries that are linked here.
fn checkout(folder: &Path) {
    let [crate_folder, libraries] = ["rust", "target/staticlib"].map(|name| folder.join(name));
    fs::create_dir_all(crate_folder.join("examples")).unwrap();
    fs::create_dir_all(&libraries).unwrap();
    let here = Path::new(env!("CARGO_MANIFEST_DIR"));
    for name in ["src", "build.rs", "Cargo.toml", "Cargo.lock"] {
        done(
            Command::new("cp")
                .arg("-a")
                .arg(here.join(name))
                .arg(&crate_folder),
        );
    }
    for (name, program) in [("asks", ASKS), ("codecs", CODECS)] {
        fs::write(crate_folder.join(format!("examples/{name}.rs")), program).unwrap();
    }
    for name in ARCHIVES {
        fs::copy(linked_from().join(name), libraries.join(name)).unwrap();
    }
}

const ARCHIVES: [&str; 2] = ["libserver.a", "libexports.a"];

/// The folder that the build script takes the libraries from.
fn linked_from() -> PathBuf {
    let named = std::env::var_os("NINOTSKEV_LIB").filter(|folder| !folder.is_empty());
    let here = Path::new(env!("CARGO_MANIFEST_DIR"));
    named.map_or_else(|| here.join("../target/staticlib"), PathBuf::from)
}

/// Builds a program in a checkout and runs it.
fn run(checkout: &Path, program: &[&str]) -> Output {
    Command::new(env!("CARGO"))
        .args(["run", "--offline", "--quiet", "--example"])
        .args(program)
        .current_dir(checkout.join("rust"))
        .env("CARGO_TARGET_DIR", checkout.join("rust/target"))
        // which names no folder
        .env("NINOTSKEV_LIB", "")
        .env("RUST_BACKTRACE", "0")
        .output()
        .unwrap()
}

fn is_right(output: &Output) {
    let [out, err] = [&output.stdout, &output.stderr].map(|text| String::from_utf8_lossy(text));
    assert_eq!(
        out, "the right one\nConsumer on Journal of 18 blocks\n",
        "{err}"
    );
}

fn wrong(of: &str, here: u64) -> String {
    format!(
        "the linked lib{of}.a is not the one that this crate was written for: \
         the number of the interface is 99 there and {here} here."
    )
}

/// A panic, and no trap of a call.
fn panics(output: &Output, wrong: &str) {
    let err = String::from_utf8_lossy(&output.stderr);
    assert!(err.contains("panicked") && err.contains(wrong), "{err}");
    assert_eq!(output.status.code(), Some(101));
}

fn says_and_panics(output: &Output, wrong: &str) {
    let out = String::from_utf8_lossy(&output.stdout);
    assert!(out.starts_with(wrong), "{out}");
    panics(output, wrong);
}

// Cargo goes by dates, and doesn't see an archive that was put there with an older one.
#[test]
fn what_is_linked_is_what_is_there() {
    for name in ARCHIVES {
        let there = linked_from().join(name);
        let linked = Path::new(env!("OUT_DIR")).join(name);
        let same = fs::read(&there).unwrap() == fs::read(linked).unwrap();
        let there = there.display();
        assert!(
            same,
            "{there} is not what is linked here: it was put there with an older date. `touch` it, or `cargo clean`"
        );
    }
}

#[test]
fn a_copied_checkout_links_its_own_library() {
    let folder = Path::new(env!("CARGO_TARGET_TMPDIR")).join("checkouts");
    let _ = fs::remove_dir_all(&folder);
    let [first, second] = ["first", "second"].map(|name| folder.join(name));
    checkout(&first);
    is_right(&run(&first, &["asks"]));
    // With all that cargo has made. Then another library comes into the first.
    done(Command::new("cp").arg("-a").args([&first, &second]));
    put(&SERVER, &first);
    is_right(&run(&second, &["asks"]));
    // It is found where it is linked: a clear error, and a start that makes no call.
    put(&SERVER, &second);
    for checkout in [&first, &second] {
        says_and_panics(&run(checkout, &["asks"]), &wrong("server", ABI));
    }
    fs::remove_dir_all(&folder).unwrap();
}

// The snapshots' library by itself: said too, before a start, and before each codec where nothing else is called.
#[test]
fn another_library_of_the_snapshots_is_found() {
    let checkout_folder = Path::new(env!("CARGO_TARGET_TMPDIR")).join("snapshots");
    let _ = fs::remove_dir_all(&checkout_folder);
    checkout(&checkout_folder);
    put(&EXPORTS, &checkout_folder);
    let wrong = wrong("exports", EXPORTS_ABI);
    says_and_panics(&run(&checkout_folder, &["asks"]), &wrong);
    for codec in ["1", "2", "read"] {
        panics(&run(&checkout_folder, &["codecs", codec]), &wrong);
    }
    fs::remove_dir_all(&checkout_folder).unwrap();
}
