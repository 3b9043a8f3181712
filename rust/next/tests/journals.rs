//! Files of several journals: what the file says of each, who has it, imports that are cut, and checkpoints together.

mod common;

use std::fs::{self, File};
use std::os::unix::fs::FileExt;
use std::path::Path;
use std::process::{Command, Stdio};

use common::{configuration, fresh_path, WORKER};
use ironbus_delivery_state::{
    checkpoint_all, CheckpointError, Configuration, Consumer, CursorSnapshot, FormError,
    Generation, ImportError, Journal, JournalError, JournalPart, JournalState, Journals,
    NewJournal, Offset, Refusal, Snapshots, Step, WorkerId, BLOCK, SECTOR,
};

fn settings() -> Configuration {
    configuration(3, 2, 5, 12)
}

/// Snapshots of another server: offsets below 5 are settled, and 7 was handed out twice.
fn snapshots() -> Snapshots {
    let cursor = CursorSnapshot {
        committed: Offset::new(5),
        ahead: Vec::new(),
    };
    Snapshots::encode(&cursor, &[(Offset::new(7), 2)]).unwrap()
}

fn import(journals: &Journals, number: usize) -> Result<Consumer<JournalPart>, ImportError> {
    journals.import(number, &settings(), &snapshots(), Generation::new(9000))
}

fn states(journals: &Journals) -> Vec<JournalState> {
    (0..journals.count())
        .map(|number| journals.state(number).unwrap())
        .collect()
}

use JournalState::{Free, InUse, Unfinished};

#[test]
fn each_journal_is_free_then_in_use() {
    let path = fresh_path("several");
    let journals = Journals::create(&path, 3, 18).unwrap();
    assert_eq!((journals.count(), journals.blocks()), (3, 18));
    assert_eq!(states(&journals), [Free; 3]);
    assert_eq!(fs::metadata(&path).unwrap().len(), (SECTOR * 55) as u64);
    // There is nothing to restart from, and no fourth.
    assert!(matches!(journals.journal(1), Err(JournalError::Free)));
    for number in [3, usize::MAX] {
        assert!(
            matches!(journals.new_journal(number), Err(JournalError::NoSuchJournal(n)) if n == number)
        );
        assert!(matches!(
            journals.journal(number),
            Err(JournalError::NoSuchJournal(_))
        ));
        assert!(matches!(
            journals.state(number),
            Err(JournalError::NoSuchJournal(_))
        ));
        assert!(matches!(
            journals.free(number),
            Err(JournalError::NoSuchJournal(_))
        ));
    }
    let journal = journals.new_journal(1).unwrap();
    // It has one owner, and the others are as they were.
    assert!(matches!(journals.new_journal(1), Err(JournalError::Locked)));
    assert!(matches!(journals.journal(1), Err(JournalError::Locked)));
    assert!(matches!(journals.free(1), Err(JournalError::Locked)));
    let consumer = Consumer::start(&settings(), journal).unwrap();
    drop(consumer);
    assert_eq!(states(&journals), [Free, InUse, Free]);
    assert!(matches!(journals.new_journal(1), Err(JournalError::Used)));
    // Nothing was handed out: it begins as a fresh one does.
    let consumer = Consumer::restart(&settings(), journals.journal(1).unwrap()).unwrap();
    assert_eq!(consumer.ceiling(WORKER).unwrap(), Generation::new(0));
    let mut consumer = consumer.checkpoint(WORKER).unwrap();
    consumer.commit(WORKER, Offset::new(4)).unwrap();
    drop(consumer.checkpoint(WORKER).unwrap());
    drop(journals);
    let journals = Journals::open(&path).unwrap();
    assert_eq!(states(&journals), [Free, InUse, Free]);
    let consumer = Consumer::restart(&settings(), journals.journal(1).unwrap()).unwrap();
    assert_eq!(consumer.committed(WORKER).unwrap(), Offset::new(4));
}

// By the value that opened it, or by a journal of it.
#[test]
fn the_file_has_one_lock() {
    let path = fresh_path("several-locked");
    let journals = Journals::create(&path, 2, 18).unwrap();
    let journal = journals.new_journal(0).unwrap();
    assert!(matches!(Journals::open(&path), Err(JournalError::Locked)));
    drop(journals);
    assert!(matches!(Journals::open(&path), Err(JournalError::Locked)));
    drop(journal);
    assert_eq!(states(&Journals::open(&path).unwrap()), [InUse, Free]);
    assert!(matches!(
        Journals::create(&path, 2, 18),
        Err(JournalError::Exists)
    ));
}

#[test]
fn a_file_of_one_is_opened_as_such() {
    let path = fresh_path("several-or-one");
    drop(Journals::create(&path, 1, 18).unwrap());
    assert!(matches!(
        Journal::open(&path),
        Err(JournalError::Form(FormError::SeveralJournals(1)))
    ));
    fs::remove_file(&path).unwrap();
    drop(NewJournal::create(&path, 18).unwrap());
    assert!(matches!(
        Journals::open(&path),
        Err(JournalError::Form(FormError::NoMarks))
    ));
    for (journals, blocks) in [(0, 18), (65_536, 18), (2, 17), (2, 130)] {
        let other = path.with_extension("other");
        let made = Journals::create(&other, journals, blocks);
        assert!(matches!(
            made,
            Err(JournalError::BadJournals(_) | JournalError::BadBlocks(_))
        ));
        assert!(!other.exists());
    }
}

#[test]
fn a_journal_is_freed() {
    let path = fresh_path("several-freed");
    let journals = Journals::create(&path, 2, 18).unwrap();
    for number in 0..2 {
        let journal = journals.new_journal(number).unwrap();
        let mut consumer = Consumer::start(&settings(), journal).unwrap();
        // Both halves are used, so that the last block is.
        for _ in 0..12 {
            consumer = consumer.checkpoint(WORKER).unwrap();
        }
    }
    let before = fs::read(&path).unwrap();
    journals.free(0).unwrap();
    assert_eq!(states(&journals), [Free, InUse]);
    let after = fs::read(&path).unwrap();
    assert!(after[SECTOR..19 * SECTOR].iter().all(|byte| *byte == 0));
    assert_eq!(after[19 * SECTOR..], before[19 * SECTOR..]);
    let journal = journals.new_journal(0).unwrap();
    drop(Consumer::start(&settings(), journal).unwrap());
}

#[test]
fn a_consumer_is_imported_into_a_free_journal() {
    let path = fresh_path("several-import");
    let journals = Journals::create(&path, 2, 18).unwrap();
    let mut consumer = import(&journals, 1).unwrap();
    assert_eq!(consumer.committed(WORKER).unwrap(), Offset::new(5));
    let hand_out = consumer.claim(WORKER, Offset::new(7), 0).unwrap();
    assert_eq!(
        (hand_out.deliveries(), hand_out.token().generation),
        (3, Generation::new(9000))
    );
    assert!(matches!(
        import(&journals, 1),
        Err(ImportError::Journal(JournalError::Locked))
    ));
    drop(consumer);
    assert!(matches!(
        import(&journals, 1),
        Err(ImportError::Journal(JournalError::Used))
    ));
    assert_eq!(states(&journals), [Free, InUse]);
    // What is refused leaves the journal as it was.
    let mut wrong = snapshots();
    wrong.cursor[0] = 3;
    let refused = journals.import(0, &settings(), &wrong, Generation::new(1));
    assert_eq!(
        refused.unwrap_err().refusal(),
        Some(Refusal::CursorUnsupportedVersion { version: 3 })
    );
    assert_eq!(states(&journals), [Free, InUse]);
    let consumer = Consumer::restart(&settings(), journals.journal(1).unwrap()).unwrap();
    assert!(consumer.ceiling(WORKER).unwrap() > Generation::new(9000));
}

const ROLE: &str = "NINOTSKEV_JOURNALS_PATH";

/// What the process does whose system calls are watched: an import into journal 1.
#[test]
#[ignore = "a part of the test below"]
fn imports_once() {
    let Some(path) = std::env::var_os(ROLE) else {
        return;
    };
    let journals = Journals::open(path).unwrap();
    let imported = import(&journals, 1);
    println!("says {}", if imported.is_ok() { "whole" } else { "failed" });
}

// Each write and each sync of an import fails, or the process is killed in its place: the import is whole, or the journal is free or
// unfinished, and nobody gets a consumer of it.
#[test]
fn an_import_that_is_cut_is_found() {
    if !common::strace_is_there("an_import_that_is_cut_is_found") {
        return;
    }
    let path = fresh_path("several-cut");
    let mut seen = Vec::new();
    for (call, fault) in [
        ("pwrite64", "signal=SIGKILL"),
        ("pwrite64", "error=EIO"),
        ("fdatasync", "signal=SIGKILL"),
        ("fdatasync", "error=EIO"),
    ] {
        for when in 1.. {
            let _ = fs::remove_file(&path);
            drop(Journals::create(&path, 2, 18).unwrap());
            let inject = format!("inject={call}:{fault}:when={when}");
            let output = Command::new("strace")
                .args([
                    "-f",
                    "-qq",
                    "-o",
                    "/dev/null",
                    "-e",
                    &format!("trace={call}"),
                    "-e",
                    &inject,
                ])
                .arg(std::env::current_exe().unwrap())
                .args(["imports_once", "--exact", "--nocapture", "--ignored"])
                .env(ROLE, &path)
                .stderr(Stdio::null())
                .output()
                .unwrap();
            let whole = String::from_utf8_lossy(&output.stdout).contains("says whole");
            let journals = Journals::open(&path).unwrap();
            let state = journals.state(1).unwrap();
            assert!(!whole || state == InUse);
            match journals.journal(1) {
                Ok(journal) => {
                    assert_eq!(state, InUse);
                    let consumer = Consumer::restart(&settings(), journal).unwrap();
                    assert!(consumer.ceiling(WORKER).unwrap() > Generation::new(9000));
                    assert_eq!(consumer.committed(WORKER).unwrap(), Offset::new(5));
                }
                Err(JournalError::Free) => assert_eq!(state, Free),
                Err(JournalError::Unfinished) => {
                    assert_eq!(state, Unfinished);
                    assert!(matches!(
                        journals.new_journal(1),
                        Err(JournalError::Unfinished)
                    ));
                    // It can be imported into again, and freed.
                    drop(import(&journals, 1).unwrap());
                    assert_eq!(journals.state(1).unwrap(), InUse);
                    journals.free(1).unwrap();
                }
                Err(other) => panic!("{other}"),
            }
            seen.push(state);
            if whole {
                break;
            }
        }
    }
    for state in [Free, Unfinished, InUse] {
        assert!(seen.contains(&state), "{seen:?}");
    }
}

// An import was cut after its header and before the file said so. It may be an old one: while another is made, its header goes first, and
// is gone durably, before the mark is touched, whose tearing would leave the header to judge.
#[test]
fn an_old_header_goes_before_the_mark() {
    if !common::strace_is_there("an_old_header_goes_before_the_mark") {
        return;
    }
    let path = fresh_path("several-again");
    let journals = Journals::create(&path, 2, 18).unwrap();
    drop(import(&journals, 1).unwrap());
    drop(journals);
    let sector = |block: usize| SECTOR * (1 + 18 + block);
    let mut unfinished = [0; BLOCK];
    unfinished[0] = 1;
    let check = common::crc32c(&unfinished[..508]);
    unfinished[508..].copy_from_slice(&check.to_le_bytes());
    poke(&path, sector(17) + BLOCK, &unfinished);
    assert_eq!(states(&Journals::open(&path).unwrap()), [Free, Unfinished]);
    let trace = fresh_path("several-again.trace");
    let status = Command::new("strace")
        .args(["-f", "-qq", "-e", "trace=pwrite64,fdatasync", "-o"])
        .arg(&trace)
        .arg(std::env::current_exe().unwrap())
        .args(["imports_once", "--exact", "--nocapture", "--ignored"])
        .env(ROLE, &path)
        .stdout(Stdio::null())
        .status()
        .unwrap();
    assert!(status.success());
    let text = fs::read_to_string(trace).unwrap();
    // Where each write goes, and none for a sync.
    let place = |line: &str| {
        let write = line.contains("pwrite64(").then_some(line)?;
        let (_, rest) = write.rsplit_once(", ")?;
        rest.split_once(')')?.0.parse::<usize>().ok()
    };
    let calls: Vec<Option<usize>> = text.lines().map(place).collect();
    let first = |place: usize| calls.iter().position(|call| *call == Some(place)).unwrap();
    let (header, mark) = (first(sector(0)), first(sector(17)));
    assert!(
        header < mark && calls[header..mark].contains(&None),
        "{text}"
    );
    assert_eq!(states(&Journals::open(&path).unwrap()), [Free, InUse]);
}

/// Writes a part of a file by its name.
fn poke(path: &Path, at: usize, bytes: &[u8]) {
    let file = File::options().write(true).open(path).unwrap();
    file.write_all_at(bytes, at as u64).unwrap();
}

// The mark shares the sector of the last block, and goes with it.
#[test]
fn a_torn_mark_is_judged_by_the_headers() {
    let path = fresh_path("several-torn");
    let mark = |number: usize| SECTOR * (1 + 18 * number + 17) + BLOCK;
    let journals = Journals::create(&path, 4, 18).unwrap();
    // 0 is free, 1 was marked and no more, 2 has a checkpoint, 3 has one in the second half and the first one zeroed.
    drop(journals.new_journal(1).unwrap());
    for number in [2, 3] {
        let journal = journals.new_journal(number).unwrap();
        let consumer = Consumer::start(&settings(), journal).unwrap();
        drop(consumer.checkpoint(WORKER).unwrap());
    }
    drop(journals);
    let sector = |block: usize| SECTOR * (1 + 18 * 3 + block);
    let header = fs::read(&path).unwrap()[sector(0)..sector(2)].to_vec();
    poke(&path, sector(0), &[0; 2 * SECTOR]);
    poke(&path, sector(9), &header);
    assert_eq!(
        states(&Journals::open(&path).unwrap()),
        [Free, InUse, InUse, InUse]
    );
    for torn in [&[7; 100][..], &[0; BLOCK]] {
        for number in 0..4 {
            poke(&path, mark(number), torn);
        }
        let found = states(&Journals::open(&path).unwrap());
        // Zeros after zeros say that it is free: nobody can tell it from one, and nothing was handed out.
        let unused = if torn[0] == 0 { Free } else { Unfinished };
        assert_eq!(found, [unused, unused, InUse, InUse]);
    }
    // A header that is torn is none; and a journal with any other byte isn't free.
    poke(&path, SECTOR * (1 + 18 * 2) + 20, &[1]);
    poke(&path, SECTOR * (1 + 5), &[2]);
    assert_eq!(
        states(&Journals::open(&path).unwrap()),
        [Unfinished, Free, Unfinished, InUse]
    );
}

// ## Checkpoints together

/// A consumer on each journal of a new file, each with an offset of its own settled.
fn fleet(journals: &Journals) -> Vec<Consumer<JournalPart>> {
    let started = (0..journals.count())
        .map(|number| Consumer::start(&settings(), journals.new_journal(number).unwrap()).unwrap());
    let made = checkpoint_all(started, WORKER);
    let mut consumers: Vec<_> = made.into_iter().map(Result::unwrap).collect();
    for (number, consumer) in consumers.iter_mut().enumerate() {
        consumer
            .commit(WORKER, Offset::new(1 + number as u64))
            .unwrap();
    }
    consumers
}

#[test]
fn all_checkpoints_are_made() {
    let path = fresh_path("together");
    let journals = Journals::create(&path, 50, 18).unwrap();
    // Through both halves.
    let mut consumers = fleet(&journals);
    for _ in 0..20 {
        let made = checkpoint_all(consumers, WORKER);
        consumers = made.into_iter().map(Result::unwrap).collect();
    }
    drop((consumers, journals));
    let journals = Journals::open(&path).unwrap();
    for number in 0..50 {
        let journal = journals.journal(number).unwrap();
        let consumer = Consumer::restart(&settings(), journal).unwrap();
        let committed = consumer.committed(WORKER).unwrap();
        assert_eq!(committed, Offset::new(1 + number as u64));
    }
    assert!(checkpoint_all(Vec::<Consumer>::new(), WORKER).is_empty());
}

// Each has an answer of its own, in its place.
#[test]
fn one_that_is_refused_leaves_the_others() {
    let path = fresh_path("together-refused");
    let journals = Journals::create(&path, 3, 18).unwrap();
    let mut consumers = Vec::new();
    for number in 0..3 {
        let mut settings = settings();
        if number == 1 {
            settings.settings.rights.swap(0, 3);
        }
        let journal = journals.new_journal(number).unwrap();
        consumers.push(Consumer::start(&settings, journal).unwrap());
    }
    let mut made = checkpoint_all(consumers, WORKER).into_iter();
    assert!(made.next().unwrap().is_ok());
    match made.next().unwrap() {
        Err(CheckpointError::Refused(error)) => {
            assert_eq!(error.refusal(), Some(Refusal::NotPermitted));
            let made = error.into_consumer().checkpoint(WorkerId::new(3));
            assert!(made.is_ok());
        }
        other => panic!("{other:?}"),
    }
    assert!(made.next().unwrap().is_ok() && made.next().is_none());
}

/// What the process does whose syncs fail: two consumers with blocks that aren't durable, of which the first one syncs.
#[test]
#[ignore = "a part of the test below"]
fn two_consumers() {
    let Some(path) = std::env::var_os(ROLE) else {
        return;
    };
    let journals = Journals::open(path).unwrap();
    let [mut first, mut second] = [0, 1].map(|number| {
        let journal = journals.journal(number).unwrap();
        Consumer::restart(&settings(), journal).unwrap()
    });
    for (consumer, bound) in [(&mut first, 10), (&mut second, 20)] {
        consumer.commit(WORKER, Offset::new(bound)).unwrap();
    }
    let one_step = |consumer: Consumer<JournalPart>| match consumer.begin(WORKER).unwrap().step() {
        Ok(Step::Wrote { writing, .. }) => writing,
        other => panic!("{other:?}"),
    };
    let (first, second) = (one_step(first), one_step(second));
    // The system tells the first one alone that the sync failed.
    let first = first.finish().unwrap_err();
    let second = second.finish().unwrap_err();
    assert_eq!(second.error().to_string().split(' ').next(), Some("a"));
    assert_eq!((first.block(), second.block()), (None, None));
    for (failed, committed) in [(first, 4), (second, 5)] {
        let journal = failed.reopen().unwrap();
        let consumer = Consumer::restart(&settings(), journal).unwrap();
        assert_eq!(consumer.committed(WORKER).unwrap(), Offset::new(committed));
        drop(consumer.checkpoint(WORKER).unwrap());
    }
    println!("says both");
}

// A sync of one journal fails: what others have written to the same file may be lost with it, and they are told.
#[test]
fn a_failed_sync_is_told_to_all() {
    if !common::strace_is_there("a_failed_sync_is_told_to_all") {
        return;
    }
    let path = fresh_path("together-told");
    let journals = Journals::create(&path, 2, 18).unwrap();
    for number in 0..2 {
        let journal = journals.new_journal(number).unwrap();
        let consumer = Consumer::start(&settings(), journal).unwrap();
        let mut consumer = consumer.checkpoint(WORKER).unwrap();
        let committed = Offset::new(4 + number as u64);
        consumer.commit(WORKER, committed).unwrap();
        // So many ranges take several bodies, and the first step of a checkpoint isn't synced.
        for range in 0..60 {
            let offset = Offset::new(101 + 2 * range);
            let hand_out = consumer.claim(WORKER, offset, 0).unwrap();
            consumer.ack(WORKER, hand_out.token()).unwrap();
        }
        drop(consumer.checkpoint(WORKER).unwrap());
    }
    drop(journals);
    // The first sync is that of the open.
    let inject = "inject=fdatasync:error=EIO:when=2";
    let output = Command::new("strace")
        .args([
            "-f",
            "-qq",
            "-o",
            "/dev/null",
            "-e",
            "trace=fdatasync",
            "-e",
            inject,
        ])
        .arg(std::env::current_exe().unwrap())
        .args(["two_consumers", "--exact", "--nocapture", "--ignored"])
        .env(ROLE, &path)
        .output()
        .unwrap();
    let said = String::from_utf8_lossy(&output.stdout);
    assert!(said.contains("says both"), "{said}");
}
