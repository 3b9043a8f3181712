//! The example as a program: a journal is created by its own command, an error of the disk ends the server, and each end that somebody
//! has to treat differently has its exit status.

mod common;

use std::fs;
use std::io::{self, Write};
use std::path::{Path, PathBuf};
use std::process::{Command, Output};
use std::sync::Once;

use common::fresh_path;
use ironbus_delivery_state::{Journal, BLOCK};

/// Where cargo puts it, beside the tests. It isn't built with a test alone, so that is seen to.
fn program() -> PathBuf {
    static BUILT: Once = Once::new();
    BUILT.call_once(|| {
        let mut build = Command::new(env!("CARGO"));
        build.args(["build", "--offline", "--quiet", "--example", "server"]);
        if !cfg!(debug_assertions) {
            build.arg("--release");
        }
        build.current_dir(env!("CARGO_MANIFEST_DIR"));
        assert!(build.status().unwrap().success());
    });
    let this = std::env::current_exe().unwrap();
    let folder = this.parent().and_then(Path::parent).unwrap();
    folder.join("examples/server")
}

fn server(arguments: &[&Path]) -> Output {
    Command::new(program()).args(arguments).output().unwrap()
}

fn said(output: &Output) -> String {
    String::from_utf8(output.stderr.clone()).unwrap()
}

/// It ended with a status, and said just this of a file.
fn ended(output: &Output, status: i32, path: &Path, why: &str) {
    let wanted = format!("server: {}: {why}\n", path.display());
    assert_eq!((output.status.code(), said(output)), (Some(status), wanted));
}

#[test]
fn running_creates_no_journal() {
    let path = fresh_path("example");
    let [init, run] = ["init", "run"].map(Path::new);
    let output = server(&[run, &path]);
    let why = "the journal can't be read or written: No such file or directory (os error 2)";
    ended(&output, 4, &path, why);
    assert!(!path.exists());
    assert!(server(&[init, &path]).status.success());
    // It is there, and stays.
    let before = fs::read(&path).unwrap();
    let output = server(&[init, &path]);
    ended(&output, 4, &path, "there is a journal of that name");
    assert_eq!(fs::read(&path).unwrap(), before);
    for settled in [20, 40] {
        let output = server(&[run, &path]);
        let text = String::from_utf8(output.stdout).unwrap();
        assert!(
            text.contains(&format!("settled below {settled},")),
            "{text}"
        );
    }
}

#[test]
fn wrong_arguments_are_answered_with_the_usage() {
    let path = fresh_path("example-arguments");
    let [init, run, help] = ["init", "run", "--help"].map(Path::new);
    let output = server(&[help]);
    assert!(output.status.success());
    let usage = String::from_utf8(output.stdout).unwrap();
    assert!(usage.starts_with("server init JOURNAL [SEEN]"), "{usage}");
    // No command, none that there is, no journal, and one file too many.
    let path = path.as_path();
    for arguments in [&[][..], &[path], &[init], &[run, path, path, path]] {
        let output = server(arguments);
        assert_eq!(output.status.code(), Some(2));
        assert_eq!(said(&output), format!("server: wrong arguments\n\n{usage}"));
    }
    assert!(!path.exists());
}

#[test]
fn a_journal_that_another_process_has_is_left_alone() {
    let path = fresh_path("example-in-use");
    let [init, run] = ["init", "run"].map(Path::new);
    assert!(server(&[init, &path]).status.success());
    let held = Journal::open(&path).unwrap();
    ended(&server(&[run, &path]), 3, &path, "the journal is in use");
    drop(held);
    assert!(server(&[run, &path]).status.success());
}

#[test]
fn a_journal_that_is_refused_is_not_run() {
    let path = fresh_path("example-refused");
    let [init, run] = ["init", "run"].map(Path::new);
    assert!(server(&[init, &path]).status.success());
    assert!(server(&[run, &path]).status.success());
    let mut bytes = fs::read(&path).unwrap();
    bytes[BLOCK + 20] ^= 1;
    fs::write(&path, &bytes).unwrap();
    let why = "the consumer was not restarted: refused (5): block 1 of the journal is damaged";
    ended(&server(&[run, &path]), 4, &path, why);
    fs::write(&path, &bytes[..17 * BLOCK]).unwrap();
    let why = "the consumer was not restarted: refused (4): a journal has an even number of blocks, 18 to 128";
    ended(&server(&[run, &path]), 4, &path, why);
}

#[test]
fn a_journal_that_is_older_than_was_seen_is_not_run() {
    let path = fresh_path("example-older");
    let seen = fresh_path("example-seen");
    let [init, run] = ["init", "run"].map(Path::new);
    assert!(server(&[init, &path, &seen]).status.success());
    assert!(server(&[run, &path, &seen]).status.success());
    fs::remove_file(&path).unwrap();
    // A new journal in its place isn't made, and where it is made all the same, it isn't run.
    let output = server(&[init, &path, &seen]);
    assert_eq!(output.status.code(), Some(4));
    assert!(!path.exists());
    assert!(said(&output).contains("was seen"), "{}", said(&output));
    assert!(server(&[init, &path]).status.success());
    let output = server(&[run, &path, &seen]);
    assert_eq!(output.status.code(), Some(4));
    assert!(
        said(&output).contains("the journal is older"),
        "{}",
        said(&output)
    );
}

// Another name, or a disk that isn't mounted, doesn't count as nothing seen.
#[test]
fn what_was_seen_has_to_be_there() {
    let path = fresh_path("example-unseen");
    let seen = fresh_path("example-unseen.seen");
    let [init, run] = ["init", "run"].map(Path::new);
    assert!(server(&[init, &path]).status.success());
    ended(
        &server(&[run, &path, &seen]),
        4,
        &seen,
        "there is no such file",
    );
    assert!(!seen.exists());
    fs::write(&seen, "").unwrap();
    let why = "cannot parse integer from empty string";
    ended(&server(&[run, &path, &seen]), 4, &seen, why);
    fs::write(&seen, [255]).unwrap();
    let why = "stream did not contain valid UTF-8";
    ended(&server(&[run, &path, &seen]), 4, &seen, why);
    let folder = path.parent().unwrap();
    let output = server(&[run, folder]);
    let why = "the journal can't be read or written: Is a directory (os error 21)";
    ended(&output, 4, folder, why);
}

// No file may grow or be written from its first byte on: each write of a block fails.
#[test]
fn an_error_of_the_disk_ends_the_server() {
    let path = fresh_path("example-disk");
    let [init, run] = ["init", "run"].map(Path::new);
    assert!(server(&[init, &path]).status.success());
    let before = fs::read(&path).unwrap();
    let output = Command::new("sh")
        .args(["-c", "trap '' XFSZ; ulimit -f 0; exec \"$0\" run \"$1\""])
        .args([&program(), &path])
        .output()
        .unwrap();
    // What the disk said stands behind each of the two writes, once.
    let failed = "block 1 of the journal could not be written: File too large (os error 27)";
    let wanted = format!(
        "server: {failed}; and once more: {failed}. See to the disk, and restart the machine before the server\n"
    );
    assert_eq!((output.status.code(), said(&output)), (Some(6), wanted));
    assert_eq!(fs::read(&path).unwrap(), before);
    assert!(server(&[run, &path]).status.success());
}

/// Whether system calls can be watched. Where they can't, that is said, past the test's own output, which is shown of tests that fail
/// alone; and where nothing may be skipped, it is an error.
fn strace_is_there(test: &str) -> bool {
    let mut can = Command::new("strace");
    can.args(["-o", "/dev/null", "true"]);
    if can.output().is_ok_and(|output| output.status.success()) {
        return true;
    }
    let missing = format!("{test} needs strace, which is not there or may not trace");
    assert!(
        std::env::var_os("CI").is_none_or(|ci| ci != "true"),
        "{missing}; with CI=true nothing is skipped"
    );
    let skipped = format!("\nSKIPPED: {missing}\n");
    io::stderr().write_all(skipped.as_bytes()).unwrap();
    false
}

/// The program under strace, with what that is told.
fn traced(told: &[&str], trace: &Path, arguments: &[&Path]) -> Output {
    let mut strace = Command::new("strace");
    strace.arg("-f").args(told).arg("-o").arg(trace);
    strace.arg(program()).args(arguments).output().unwrap()
}

// The disk fails in a write and then doesn't; in the write of `reopen` too; in what comes before the first read; and that of what was
// seen does.
#[test]
fn errors_of_the_disk_have_their_statuses() {
    if !strace_is_there("errors_of_the_disk_have_their_statuses") {
        return;
    }
    let path = fresh_path("example-disk-fails");
    let seen = fresh_path("example-disk-fails.seen");
    let [init, run] = ["init", "run"].map(Path::new);
    assert!(server(&[init, &path, &seen]).status.success());
    let fails = |what: &str, status: i32, says: &str| {
        let told = ["-e", "trace=fsync,fdatasync", "-e"];
        let fault = format!("inject={what}");
        let told = [&told[..], &[&fault]].concat();
        let output = traced(&told, Path::new("/dev/null"), &[run, &path, &seen]);
        assert_eq!(
            (output.status.code(), said(&output)),
            (Some(status), says.to_owned())
        );
    };
    let error = "Input/output error (os error 5)";
    let failed = format!("block 1 of the journal could not be written: {error}");
    fails(
        "fdatasync:error=EIO:when=1",
        5,
        &format!(
            "server: {failed}; it is written now. See to the disk, then run the server again\n"
        ),
    );
    fails(
        "fdatasync:error=EIO:when=1+",
        6,
        &format!(
            "server: {failed}; and once more: {failed}. See to the disk, and restart the machine before the server\n"
        ),
    );
    fails(
        "fsync:error=EIO:when=1",
        6,
        &format!(
            "server: {}: the journal can't be read or written: {error}\n",
            path.display()
        ),
    );
    fails(
        "fsync:error=EIO:when=2",
        6,
        &format!("server: {}: {error}\n", seen.display()),
    );
    assert!(server(&[run, &path, &seen]).status.success());
}

/// The calls of these names that the program makes, in their order.
fn calls(names: &str, arguments: &[&Path]) -> Vec<String> {
    let trace = fresh_path("example-trace");
    let output = traced(&["-e", &format!("trace={names}")], &trace, arguments);
    assert!(output.status.success());
    let text = fs::read_to_string(trace).unwrap();
    let call = |line: &str| Some(line.split_once(' ')?.1.trim().split_once('(')?.0.to_owned());
    text.lines().filter_map(call).collect()
}

// A journal's bytes are durable before it has its name, and then its name is; what is there is made durable before it is read, and
// each block that is written before the next one. No test that stops a process can see that.
#[test]
fn what_is_written_is_made_durable() {
    if !strace_is_there("what_is_written_is_made_durable") {
        return;
    }
    let path = fresh_path("example-durable");
    let [init, run] = ["init", "run"].map(Path::new);
    // The last is of the read.
    let made = calls("pwrite64,fsync,linkat", &[init, &path]);
    assert_eq!(made, ["pwrite64", "fsync", "linkat", "fsync", "fsync"]);
    let written = calls("pwrite64,fsync,fdatasync", &[run, &path]);
    let (read, written) = written.split_first().unwrap();
    assert_eq!(read, "fsync");
    assert!(written.len() > 10, "{written:?}");
    for pair in written.chunks(2) {
        assert_eq!(pair, ["pwrite64", "fdatasync"]);
    }
}
