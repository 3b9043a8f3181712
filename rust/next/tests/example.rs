//! The example as a program: a journal is created by its own command, an error of the disk ends the server, and each end that somebody
//! has to treat differently has its exit status.

mod common;

use std::fs;
use std::ops::Deref;
use std::path::{Path, PathBuf};
use std::process::{Command, Output};
use std::sync::Once;

use common::{beside, fresh_path, strace_is_there, with_end};
use ironbus_delivery_state::{Journal, Remedy, BLOCK, SECTOR};

/// Where cargo puts it, beside the tests. It isn't built with a test alone, so that is seen to.
fn program() -> PathBuf {
    static BUILT: Once = Once::new();
    BUILT.call_once(|| {
        let mut build = Command::new(env!("CARGO"));
        build.args(["build", "--offline", "--quiet", "--example", "server"]);
        if !cfg!(debug_assertions) {
            build.arg("--release");
        }
        build.current_dir(env!("CARGO_MANIFEST_DIR"));
        assert!(build.status().unwrap().success());
    });
    let this = std::env::current_exe().unwrap();
    let folder = this.parent().and_then(Path::parent).unwrap();
    folder.join("examples/server")
}

/// How it was run, and what came of it.
struct Run {
    words: String,
    output: Output,
}

impl Run {
    fn of(program: &mut Command, arguments: &[&Path]) -> Run {
        let words: Vec<&str> = arguments.iter().filter_map(|word| word.to_str()).collect();
        let output = program.args(arguments).output().unwrap();
        let words = words.join(" ");
        Run { words, output }
    }
}

impl Deref for Run {
    type Target = Output;

    fn deref(&self) -> &Output {
        &self.output
    }
}

fn server(arguments: &[&Path]) -> Run {
    Run::of(&mut Command::new(program()), arguments)
}

fn said(output: &Output) -> String {
    String::from_utf8(output.stderr.clone()).unwrap()
}

/// It ended with a status, and said just this, and what is to be done.
fn ended(run: &Run, status: u8, why: &str) {
    let to_do = Remedy::ALL
        .iter()
        .find(|remedy| remedy.exit_status() == status);
    let to_do = to_do.expect("there is such a status");
    let wanted = format!("server {}: {why}\nto do: {to_do}\n", run.words);
    assert_eq!(
        (run.status.code(), said(run)),
        (Some(i32::from(status)), wanted)
    );
}

#[test]
fn running_creates_no_journal() {
    let path = fresh_path("example");
    let [init, run] = ["init", "run"].map(Path::new);
    let output = server(&[run, &path]);
    let why = "the journal can't be read or written: No such file or directory (os error 2)";
    ended(&output, 4, why);
    assert!(!path.exists());
    assert!(server(&[init, &path]).status.success());
    // It is there, and stays.
    let before = fs::read(&path).unwrap();
    let output = server(&[init, &path]);
    ended(&output, 4, "there is a journal of that name");
    assert_eq!(fs::read(&path).unwrap(), before);
    for settled in [20, 40] {
        let output = server(&[run, &path]);
        let text = String::from_utf8(output.stdout.clone()).unwrap();
        assert!(
            text.contains(&format!("settled below {settled},")),
            "{text}"
        );
    }
}

// Where another server had the jobs before: no ceiling is ever seen that is below the first generation.
#[test]
fn a_journal_is_created_from_a_generation() {
    let path = fresh_path("example-from");
    let seen = fresh_path("example-from.seen");
    let [from, run, first, clock] = ["takeover", "run", "5000", "clock"].map(Path::new);
    assert!(server(&[from, first, &path, &seen]).status.success());
    let ceiling = || {
        let text = fs::read_to_string(&seen).unwrap();
        let (ceiling, bounds) = text.split_once(' ').unwrap();
        assert_eq!(bounds, "limit 5 threshold 1\n");
        ceiling.parse::<u64>().unwrap()
    };
    assert_eq!(ceiling(), 5000);
    assert!(server(&[run, &path, &seen]).status.success());
    assert!(ceiling() > 5000 + 4096);
    // It is there, and was seen.
    let output = server(&[from, clock, &path]);
    ended(&output, 4, "there is a journal of that name");
    fs::remove_file(&path).unwrap();
    assert_eq!(server(&[from, clock, &path, &seen]).status.code(), Some(4));
    fs::remove_file(&seen).unwrap();
    assert!(server(&[from, clock, &path, &seen]).status.success());
    assert!(ceiling() > 1_600_000_000_000_000_000);
}

// A file from before, with its blocks side by side.
#[test]
fn a_file_from_before_is_run() {
    let path = fresh_path("example-before");
    let run = Path::new("run");
    fs::write(&path, [0; 18 * BLOCK]).unwrap();
    for settled in [20, 40] {
        let output = server(&[run, &path]);
        let text = String::from_utf8(output.stdout.clone()).unwrap();
        let from = "restarting from Journal of 18 blocks, blocks side by side\n";
        assert!(text.starts_with(from), "{text}");
        assert!(
            text.contains(&format!("settled below {settled},")),
            "{text}"
        );
    }
    assert_eq!(fs::metadata(&path).unwrap().len(), 18 * BLOCK as u64);
}

#[test]
fn wrong_arguments_are_answered_with_the_usage() {
    let path = fresh_path("example-arguments");
    let [init, run, help] = ["init", "run", "--help"].map(Path::new);
    let output = server(&[help]);
    assert!(output.status.success());
    let usage = String::from_utf8(output.stdout.clone()).unwrap();
    assert!(usage.starts_with("server init JOURNAL [SEEN]"), "{usage}");
    let last = usage.lines().last();
    assert_eq!(
        last,
        Some("  8  choose another folder or another filesystem for it")
    );
    // No command, none that there is, no journal, and one file too many; no generation, and none that is a number.
    let path = path.as_path();
    let [from, first] = ["takeover", "5000"].map(Path::new);
    for arguments in [
        &[][..],
        &[path],
        &[init],
        &[run, path, path, path],
        &[from, first],
        &[from, path, path],
        &[from, first, path, path, path],
    ] {
        let output = server(arguments);
        assert_eq!(output.status.code(), Some(2));
        assert_eq!(said(&output), format!("server: wrong arguments\n\n{usage}"));
    }
    assert!(!path.exists());
}

#[test]
fn a_journal_that_another_process_has_is_left_alone() {
    let path = fresh_path("example-in-use");
    let [init, run] = ["init", "run"].map(Path::new);
    assert!(server(&[init, &path]).status.success());
    let held = Journal::open(&path).unwrap();
    ended(&server(&[run, &path]), 3, "the journal is in use");
    drop(held);
    assert!(server(&[run, &path]).status.success());
}

#[test]
fn a_journal_that_is_refused_is_not_run() {
    let path = fresh_path("example-refused");
    let [init, run] = ["init", "run"].map(Path::new);
    assert!(server(&[init, &path]).status.success());
    assert!(server(&[run, &path]).status.success());
    let mut bytes = fs::read(&path).unwrap();
    bytes[2 * SECTOR + 20] ^= 1;
    fs::write(&path, &bytes).unwrap();
    let why = "the consumer was not restarted: refused (5): block 1 of the journal is damaged";
    ended(&server(&[run, &path]), 4, why);
    fs::write(&path, &bytes[..18 * SECTOR]).unwrap();
    let why = "the file is no journal: it is too short: 73728 bytes, and not 77824";
    ended(&server(&[run, &path]), 4, why);
    fs::write(&path, [0; 17 * BLOCK]).unwrap();
    let why = "the consumer was not restarted: refused (4): a journal has an even number of blocks, 18 to 128";
    ended(&server(&[run, &path]), 4, why);
}

#[test]
fn a_journal_that_is_older_than_was_seen_is_not_run() {
    let path = fresh_path("example-older");
    let seen = fresh_path("example-seen");
    let [init, run] = ["init", "run"].map(Path::new);
    assert!(server(&[init, &path, &seen]).status.success());
    assert!(server(&[run, &path, &seen]).status.success());
    fs::remove_file(&path).unwrap();
    // A new journal in its place isn't made, and where it is made all the same, it isn't run.
    let output = server(&[init, &path, &seen]);
    assert_eq!(output.status.code(), Some(4));
    assert!(!path.exists());
    assert!(said(&output).contains("was seen"), "{}", said(&output));
    assert!(server(&[init, &path]).status.success());
    let output = server(&[run, &path, &seen]);
    assert_eq!(output.status.code(), Some(4));
    assert!(
        said(&output).contains("the journal is older"),
        "{}",
        said(&output)
    );
}

// Another name, or a disk that isn't mounted, doesn't count as nothing seen.
#[test]
fn what_was_seen_has_to_be_there() {
    let path = fresh_path("example-unseen");
    let seen = fresh_path("example-unseen.seen");
    let [init, run] = ["init", "run"].map(Path::new);
    assert!(server(&[init, &path]).status.success());
    let why = "there is no file of the last ceiling";
    ended(&server(&[run, &path, &seen]), 4, why);
    assert!(!seen.exists());
    let why = "the file of the last ceiling has none in it";
    for text in [&b""[..], &[255]] {
        fs::write(&seen, text).unwrap();
        ended(&server(&[run, &path, &seen]), 4, why);
    }
    // Of another configuration.
    fs::write(&seen, "0 limit 4 threshold 1\n").unwrap();
    let why = "the journal was run with limit 4 threshold 1, and not with limit 5 threshold 1: the bounds are for one of each";
    ended(&server(&[run, &path, &seen]), 4, why);
    let folder = path.parent().unwrap();
    let output = server(&[run, folder]);
    let why = "the journal can't be read or written: Is a directory (os error 21)";
    ended(&output, 4, why);
}

// No file may grow or be written from its first byte on: each write of a block fails.
#[test]
fn an_error_of_the_disk_ends_the_server() {
    let path = fresh_path("example-disk");
    let [init, run] = ["init", "run"].map(Path::new);
    assert!(server(&[init, &path]).status.success());
    let before = fs::read(&path).unwrap();
    let mut limited = Command::new("sh");
    limited.args(["-c", "trap '' XFSZ; ulimit -f 0; exec \"$0\" \"$@\""]);
    let output = Run::of(limited.arg(program()), &[run, &path]);
    let why = "the disk failed twice: block 1 of the journal could not be written: File too large (os error 27)";
    ended(&output, 6, why);
    assert_eq!(fs::read(&path).unwrap(), before);
    assert!(server(&[run, &path]).status.success());
}

/// The program under strace, with what that is told.
fn traced(told: &[&str], trace: &Path, arguments: &[&Path]) -> Run {
    let mut strace = Command::new("strace");
    strace.arg("-f").args(told).arg("-o").arg(trace);
    Run::of(strace.arg(program()), arguments)
}

/// The program, whose system call fails as it is told, if it is about a file.
fn failing(fault: &str, file: &Path, arguments: &[&Path]) -> Run {
    let call = fault.split(':').next().unwrap();
    let (trace, inject) = (format!("trace={call}"), format!("inject={fault}"));
    let told = ["-P", file.to_str().unwrap(), "-e", &trace, "-e", &inject];
    traced(&told, Path::new("/dev/null"), arguments)
}

// The disk fails in the sync before the first read; in a sync of a checkpoint, before its header and after it, and then doesn't, or does so
// in `reopen` too; and that of what was seen does.
#[test]
fn errors_of_the_disk_have_their_statuses() {
    if !strace_is_there("errors_of_the_disk_have_their_statuses") {
        return;
    }
    let path = fresh_path("example-disk-fails");
    let seen = fresh_path("example-disk-fails.seen");
    let [init, run] = ["init", "run"].map(Path::new);
    assert!(server(&[init, &path, &seen]).status.success());
    let fails = |fault: &str, status: u8, why: &str| {
        let told = [
            "-e",
            "trace=fsync,fdatasync",
            "-e",
            &format!("inject={fault}"),
        ];
        let output = traced(&told, Path::new("/dev/null"), &[run, &path, &seen]);
        ended(&output, status, why);
    };
    let error = "Input/output error (os error 5)";
    let why = format!("the journal can't be read or written: {error}");
    fails("fdatasync:error=EIO:when=1", 6, &why);
    let failed = format!("the journal could not be made durable: {error}");
    for sync in [2, 3] {
        let once = format!("the disk failed, and the consumer was restarted: {failed}");
        fails(&format!("fdatasync:error=EIO:when={sync}"), 5, &once);
        let twice = format!("the disk failed twice: {failed}");
        fails(&format!("fdatasync:error=EIO:when={sync}+"), 6, &twice);
    }
    let why = format!("the last ceiling can't be read or written: {error}");
    fails("fsync:error=EIO:when=1", 6, &why);
    let why = format!("the folder of the last ceiling can't be synced: {error}");
    fails("fsync:error=EIO:when=2", 6, &why);
    let why = "the folder of the last ceiling can't be synced: Invalid argument (os error 22)";
    fails("fsync:error=EINVAL:when=2", 8, why);
    assert!(server(&[run, &path, &seen]).status.success());
}

// The sector of each block can't be read, one after the other, as a torn one shows on many disks; and the first one.
#[test]
fn a_sector_that_can_not_be_read_is_no_end() {
    if !strace_is_there("a_sector_that_can_not_be_read_is_no_end") {
        return;
    }
    let path = fresh_path("example-unreadable");
    let seen = fresh_path("example-unreadable.seen");
    let [init, run] = ["init", "run"].map(Path::new);
    assert!(server(&[init, &path, &seen]).status.success());
    assert!(server(&[run, &path, &seen]).status.success());
    let before = [&path, &seen].map(|path| fs::read(path).unwrap());
    let unreadable = |reads: &str| {
        let fault = format!("inject=pread64:error=EIO:when={reads}");
        let file = path.to_str().unwrap();
        let told = ["-P", file, "-e", "trace=pread64", "-e", &fault];
        for (path, bytes) in [&path, &seen].into_iter().zip(&before) {
            fs::write(path, bytes).unwrap();
        }
        traced(&told, Path::new("/dev/null"), &[run, &path, &seen])
    };
    let why = "the file is no journal: sector 0 can't be read: Input/output error (os error 5)";
    ended(&unreadable("1"), 6, why);
    assert_eq!(fs::read(&path).unwrap(), before[0]);
    // The run made nine checkpoints of two blocks: the ninth is in the first half, and the four before it are in the other one.
    for block in 0..18 {
        // The read of many blocks fails, and then that of this one by itself.
        let output = unreadable(&format!("2..{}+{}", 3 + block, 1 + block));
        let text = String::from_utf8(output.stdout.clone()).unwrap();
        let lost = format!("of 18 blocks, of which [{block}] can't be read, ");
        assert!(text.contains(&lost), "{text}");
        match block {
            // Its header: the checkpoint before is found, and the server has seen a later one.
            0 => ended(
                &output,
                4,
                "the journal is older than was seen of it: its ceiling is 4129, and 4130 was seen. A restart would give generations a second time",
            ),
            1 => ended(
                &output,
                4,
                "the consumer was not restarted: refused (5): block 1 of the journal is damaged",
            ),
            _ => assert_eq!((output.status.code(), said(&output)), (Some(0), String::new())),
        }
    }
}

// A place that can't have a journal: no name, no hard links, and a folder that can't be synced. Nothing is left of it.
#[test]
fn a_place_that_can_not_have_a_journal_is_named() {
    let path = fresh_path("example-place");
    let init = Path::new("init");
    let output = server(&[init, Path::new("")]);
    ended(&output, 8, "the path doesn't end in the name of a file");
    if !strace_is_there("a_place_that_can_not_have_a_journal_is_named") {
        return;
    }
    let fails = |fault: &str, file: &Path, status: u8, why: &str| {
        ended(&failing(fault, file, &[init, &path]), status, why);
        assert!(!path.exists() && beside(&path).is_empty());
    };
    let links = "the filesystem has no hard links, by which a journal gets its name";
    let why = format!("{links}: Operation not permitted (os error 1)");
    fails("linkat:error=EPERM", &path, 8, &why);
    let why = format!("{links}: Operation not supported (os error 95)");
    fails("linkat:error=EOPNOTSUPP", &path, 8, &why);
    let folder = path.parent().unwrap();
    let why = "the journal's folder can't be synced: Invalid argument (os error 22)";
    fails("fsync:error=EINVAL", folder, 8, why);
    let why = "the journal's folder can't be synced: Input/output error (os error 5)";
    fails("fsync:error=EIO", folder, 6, why);
    assert!(server(&[init, &path]).status.success());
}

// A disk that is full, as the journal is created, as the last ceiling is kept, and in a checkpoint, where a disk that copies on write needs
// room too.
#[test]
fn a_disk_that_is_full_is_named() {
    if !strace_is_there("a_disk_that_is_full_is_named") {
        return;
    }
    let path = fresh_path("example-full");
    let seen = fresh_path("example-full.seen");
    let [init, run] = ["init", "run"].map(Path::new);
    let full = "No space left on device (os error 28)";
    let told = ["-e", "trace=pwrite64", "-e", "inject=pwrite64:error=ENOSPC"];
    let output = traced(&told, Path::new("/dev/null"), &[init, &path]);
    let why = format!("the journal can't be read or written: {full}");
    ended(&output, 7, &why);
    assert!(!path.exists() && beside(&path).iter().all(|name| name == ".seen"));
    let temporary = with_end(&seen, ".tmp");
    let why = format!("the last ceiling can't be read or written: {full}");
    let output = failing("write:error=ENOSPC", &temporary, &[init, &path, &seen]);
    ended(&output, 7, &why);
    assert!(!path.exists() && !seen.exists() && !temporary.exists());
    assert!(server(&[init, &path, &seen]).status.success());
    let output = failing("write:error=ENOSPC", &temporary, &[run, &path, &seen]);
    ended(&output, 7, &why);
    // The first checkpoint was made, and just its ceiling wasn't kept.
    let failed = format!("block 3 of the journal could not be written: {full}");
    let output = failing("pwrite64:error=ENOSPC", &path, &[run, &path, &seen]);
    ended(&output, 6, &format!("the disk failed twice: {failed}"));
    let output = failing("pwrite64:error=ENOSPC:when=1", &path, &[run, &path, &seen]);
    let once = "the disk failed, and the consumer was restarted";
    ended(&output, 5, &format!("{once}: {failed}"));
    assert!(server(&[run, &path, &seen]).status.success());
}

// The journal's name is gone, as the first checkpoint begins: what is asked then is its file, and its name.
#[test]
fn a_journal_that_was_moved_is_named() {
    if !strace_is_there("a_journal_that_was_moved_is_named") {
        return;
    }
    let path = fresh_path("example-moved");
    let [init, run] = ["init", "run"].map(Path::new);
    assert!(server(&[init, &path]).status.success());
    let before = fs::read(&path).unwrap();
    let output = failing("statx:error=ENOENT:when=3", &path, &[run, &path]);
    let why = "the checkpoint was not begun: the journal was moved: there is no file of its name";
    ended(&output, 4, why);
    assert_eq!(fs::read(&path).unwrap(), before);
}

/// The calls of these names that the program makes, in their order.
fn calls(names: &str, arguments: &[&Path]) -> Vec<String> {
    let trace = fresh_path("example-trace");
    let output = traced(&["-e", &format!("trace={names}")], &trace, arguments);
    assert!(output.status.success());
    let text = fs::read_to_string(trace).unwrap();
    let call = |line: &str| Some(line.split_once(' ')?.1.trim().split_once('(')?.0.to_owned());
    text.lines().filter_map(call).collect()
}

// A journal's bytes are durable before it has its name, and then its name is; what is there is made durable before it is read; and a
// checkpoint has two syncs, one before its header and one after it, however many blocks it has. No test that stops a process can see that.
#[test]
fn what_is_written_is_made_durable() {
    if !strace_is_there("what_is_written_is_made_durable") {
        return;
    }
    let path = fresh_path("example-durable");
    let [init, run] = ["init", "run"].map(Path::new);
    // The zeros, the first sector, its name; the last is before the read.
    let made = calls("pwrite64,fsync,fdatasync,linkat", &[init, &path]);
    let wanted = [
        "pwrite64",
        "pwrite64",
        "fsync",
        "linkat",
        "fsync",
        "fdatasync",
    ];
    assert_eq!(made, wanted);
    let written = calls("pwrite64,fsync,fdatasync", &[run, &path]);
    let (read, written) = written.split_first().unwrap();
    assert_eq!(read, "fdatasync");
    // Blocks and a sync, and then the header and a sync.
    let syncs: Vec<&[String]> = written.split(|call| call == "fdatasync").collect();
    let (end, syncs) = syncs.split_last().unwrap();
    assert!(end.is_empty() && syncs.len() % 2 == 0, "{written:?}");
    let checkpoints = syncs.chunks(2).map(|pair| {
        assert!(pair.concat().iter().all(|call| call == "pwrite64"));
        assert_eq!(pair[1].len(), 1);
        pair[0].len() + 1
    });
    // The fifth goes to the other half, and the ninth back.
    let blocks: Vec<usize> = checkpoints.collect();
    assert_eq!(blocks, [2, 2, 2, 2, 11, 2, 2, 2, 11]);
}
