//! A journal that is deleted, moved, replaced or cut short under a server is found as the next checkpoint begins, and nothing is lost by it.

mod common;

use std::env;
use std::fs::{self, OpenOptions};
use std::io;
use std::path::{Path, PathBuf};
use std::process::Command;

use common::{configuration, created, fresh_path, with_end, FORMS, WORKER};
use ironbus_delivery_state::{
    checkpoint_all, CheckpointError, Configuration, Consumer, Displaced, Form, Journal,
    JournalError, JournalPart, Journals, NewJournal, Offset, Refusal,
};

fn settings() -> Configuration {
    configuration(3, 1, 10, 25)
}

/// A consumer with an offset settled and checkpointed, and one settled since.
fn running(path: &Path, form: Form) -> Consumer {
    let consumer = Consumer::start(&settings(), created(path, form, 18)).unwrap();
    let mut consumer = consumer.checkpoint(WORKER).unwrap();
    for offset in [0, 1].map(Offset::new) {
        let token = consumer.claim(WORKER, offset, 0).unwrap().token();
        consumer.ack(WORKER, token).unwrap();
        if offset == Offset::ZERO {
            consumer = consumer.checkpoint(WORKER).unwrap();
        }
    }
    consumer
}

/// A checkpoint isn't begun, for this reason, and the consumer is as it was.
fn found(consumer: Consumer, wanted: Displaced) -> Consumer {
    let error = consumer.begin(WORKER).unwrap_err();
    assert_eq!(error.refusal(), None);
    let cause = std::error::Error::source(&error).unwrap();
    assert_eq!(cause.to_string(), wanted.to_string());
    let cause = cause.downcast_ref::<io::Error>().unwrap().get_ref();
    assert_eq!(cause.and_then(|cause| cause.downcast_ref()), Some(&wanted));
    let consumer = error.into_consumer();
    assert_eq!(consumer.committed(WORKER), Ok(Offset::new(2)));
    consumer
}

/// The checkpoint is made once the file is back, and has all.
fn goes_on(consumer: Consumer, path: &Path) {
    drop(consumer.checkpoint(WORKER).unwrap());
    let consumer = Consumer::restart(&settings(), Journal::open(path).unwrap()).unwrap();
    assert_eq!(consumer.committed(WORKER), Ok(Offset::new(2)));
}

#[test]
fn a_journal_that_was_moved_is_found() {
    for form in FORMS {
        let path = fresh_path("displaced-moved");
        let other = with_end(&path, ".old");
        let _ = fs::remove_file(&other);
        let consumer = running(&path, form);
        fs::rename(&path, &other).unwrap();
        let consumer = found(consumer, Displaced::Moved);
        // Another file in its place is no better.
        fs::write(&path, fs::read(&other).unwrap()).unwrap();
        let consumer = found(consumer, Displaced::Replaced);
        fs::rename(&other, &path).unwrap();
        goes_on(consumer, &path);
    }
}

// The file is open, and has what the last checkpoint had: that can be put in its place.
#[test]
fn a_journal_that_was_deleted_is_found_and_had_again() {
    for form in FORMS {
        let path = fresh_path("displaced-deleted");
        let mut consumer = running(&path, form);
        let blocks = common::blocks_of(&path);
        assert_eq!(consumer.journal_bytes().unwrap().bytes(), blocks);
        fs::remove_file(&path).unwrap();
        let mut consumer = found(consumer, Displaced::Deleted);
        let ceiling = consumer.ceiling(WORKER).unwrap();
        let again = consumer.journal_bytes().unwrap();
        assert_eq!(again.bytes(), blocks);
        fs::write(&path, again.bytes()).unwrap();
        // That is another file still: this consumer can't go on with it.
        let consumer = found(consumer, Displaced::Deleted);
        drop(consumer);
        let journal = Journal::open(&path).unwrap();
        let consumer = Consumer::restart_at_least(&settings(), journal, ceiling).unwrap();
        assert_eq!(consumer.committed(WORKER), Ok(Offset::new(1)));
        drop(consumer);
        fs::remove_file(&path).unwrap();
    }
}

// As docs/OPERATING.md has it, with a journal over which another file was moved.
#[test]
fn what_the_last_checkpoint_had_takes_the_journals_name() {
    let folder = fresh_path("displaced-by-hand");
    let _ = fs::remove_dir_all(&folder);
    fs::create_dir(&folder).unwrap();
    let path = folder.join("recipes.journal");
    let consumer = running(&path, Form::Sectors);
    fs::write(folder.join("other"), [7; 5000]).unwrap();
    fs::rename(folder.join("other"), &path).unwrap();
    let mut consumer = found(consumer, Displaced::Deleted);
    let ceiling = consumer.ceiling(WORKER).unwrap();
    let area = consumer.journal_bytes().unwrap();
    fs::write(folder.join("recipes.again"), area.bytes()).unwrap();
    drop(consumer);
    let text = include_str!("../../../docs/OPERATING.md");
    let command = text.lines().find(|line| line.starts_with("chmod 600 "));
    let mut sh = Command::new("sh");
    sh.args(["-c", command.unwrap()]).current_dir(&folder);
    assert!(sh.status().unwrap().success());
    let journal = Journal::open(&path).unwrap();
    let consumer = Consumer::restart_at_least(&settings(), journal, ceiling).unwrap();
    assert_eq!(consumer.committed(WORKER), Ok(Offset::new(1)));
    drop(consumer.checkpoint(WORKER).unwrap());
    assert_eq!(fs::read(folder.join("recipes.worn")).unwrap().len(), 5000);
    assert!(!folder.join("recipes.again").exists());
    fs::remove_dir_all(&folder).unwrap();
}

// What was cut off is nowhere any more, and the consumer has all but that: another journal goes on with it, above every generation given.
#[test]
fn of_a_journal_that_was_cut_short_the_state_is_moved() {
    for form in FORMS {
        let path = fresh_path("displaced-export");
        let mut consumer = running(&path, form);
        let late = consumer.claim(WORKER, Offset::new(2), 0).unwrap().token();
        let file = OpenOptions::new().write(true).open(&path).unwrap();
        file.set_len(5000).unwrap();
        let error = consumer.journal_bytes().unwrap_err();
        assert_eq!(error.kind(), io::ErrorKind::UnexpectedEof);
        let consumer = consumer.begin(WORKER).unwrap_err().into_consumer();
        let ceiling = consumer.ceiling(WORKER).unwrap();
        let snapshots = consumer.export(WORKER).unwrap();
        drop(consumer);
        let worn = with_end(&path, ".worn");
        fs::rename(&path, &worn).unwrap();
        drop(NewJournal::import(&path, 18, &settings(), &snapshots, ceiling).unwrap());
        let journal = Journal::open(&path).unwrap();
        let mut consumer = Consumer::restart_at_least(&settings(), journal, ceiling).unwrap();
        assert_eq!(consumer.committed(WORKER), Ok(Offset::new(2)));
        assert_eq!(consumer.count_of(WORKER, Offset::new(2)), Ok(1));
        assert_eq!(consumer.ack(WORKER, late), Err(Refusal::Fenced));
        fs::remove_file(&worn).unwrap();
    }
}

#[test]
fn a_journal_of_another_length_is_found() {
    for form in FORMS {
        let path = fresh_path("displaced-cut");
        let consumer = running(&path, form);
        let whole = fs::read(&path).unwrap();
        let wanted = whole.len() as u64;
        let mut consumer = consumer;
        for bytes in [0, wanted - 1, wanted + 1] {
            let file = OpenOptions::new().write(true).open(&path).unwrap();
            file.set_len(bytes).unwrap();
            consumer = found(consumer, Displaced::Length { bytes, wanted });
        }
        fs::write(&path, whole).unwrap();
        goes_on(consumer, &path);
    }
}

// The whole checkpoint says the same, and what is refused is said where the file is there.
#[test]
fn a_checkpoint_says_it_too() {
    let path = fresh_path("displaced-checkpoint");
    let consumer = running(&path, Form::Sectors);
    let unknown = ironbus_delivery_state::WorkerId::new(9);
    let error = consumer.begin(unknown).unwrap_err();
    assert_eq!(error.refusal(), Some(Refusal::UnknownWorker));
    fs::remove_file(&path).unwrap();
    let error = error.into_consumer().checkpoint(WORKER).unwrap_err();
    assert_eq!(error.refusal(), None);
    let CheckpointError::Refused(error) = error else {
        panic!("nothing was written");
    };
    drop(found(error.into_consumer(), Displaced::Deleted));
}

// A file of several journals: each of them is told, and all go on once the file is back.
#[test]
fn a_file_of_several_journals_is_missed_by_each() {
    let path = fresh_path("displaced-journals");
    let other = with_end(&path, ".old");
    let journals = Journals::create(&path, 3, 18).unwrap();
    let started = (0..3).map(|number| {
        let journal = journals.new_journal(number).unwrap();
        Consumer::start(&settings(), journal).unwrap()
    });
    let made = checkpoint_all(started, WORKER);
    let mut all: Vec<Consumer<JournalPart>> = made.into_iter().map(Result::unwrap).collect();
    let syncs = journals.syncs();
    fs::rename(&path, &other).unwrap();
    let before = fs::read(&other).unwrap();
    let made = checkpoint_all(all, WORKER).into_iter();
    all = made
        .map(|made| match made {
            Err(CheckpointError::Refused(error)) => {
                assert_eq!(error.refusal(), None);
                let cause = std::error::Error::source(&error).unwrap();
                assert_eq!(cause.to_string(), Displaced::Moved.to_string());
                error.into_consumer()
            }
            other => panic!("{other:?}"),
        })
        .collect();
    assert_eq!(all.len(), 3);
    assert_eq!(
        (fs::read(&other).unwrap(), journals.syncs()),
        (before, syncs)
    );
    let area = all[2].journal_bytes().unwrap();
    assert!(area.bytes().iter().any(|byte| *byte != 0));
    fs::rename(&other, &path).unwrap();
    for made in checkpoint_all(all, WORKER) {
        drop(made.unwrap());
    }
    drop(journals);
    fs::remove_file(&path).unwrap();
    // An opened one knows its name too, and its length.
    let journals = Journals::create(&path, 1, 18).unwrap();
    drop(journals.new_journal(0).unwrap());
    drop(journals);
    let journals = Journals::open(&path).unwrap();
    let consumer = Consumer::restart(&settings(), journals.journal(0).unwrap()).unwrap();
    let wanted = fs::metadata(&path).unwrap().len();
    let file = OpenOptions::new().write(true).open(&path).unwrap();
    file.set_len(wanted - 1).unwrap();
    let error = consumer.begin(WORKER).unwrap_err();
    let cause = std::error::Error::source(&error).unwrap();
    let bytes = wanted - 1;
    assert_eq!(
        cause.to_string(),
        Displaced::Length { bytes, wanted }.to_string()
    );
}

// A relative name counts from the folder in which the journal was opened or created; a name may be a link.
#[test]
fn the_name_is_that_of_the_folder_then() {
    let folder = fresh_path("displaced-folder");
    let _ = fs::remove_dir_all(&folder);
    fs::create_dir(&folder).unwrap();
    let here = env::current_dir().unwrap();
    env::set_current_dir(&folder).unwrap();
    let consumer = running(Path::new("journal"), Form::Sectors);
    env::set_current_dir(&here).unwrap();
    let consumer = consumer.checkpoint(WORKER).unwrap();
    drop(consumer);
    std::os::unix::fs::symlink("journal", folder.join("link")).unwrap();
    env::set_current_dir(&folder).unwrap();
    let journal = Journal::open("link").unwrap();
    env::set_current_dir(&here).unwrap();
    let consumer = Consumer::restart(&settings(), journal).unwrap();
    let consumer = consumer.checkpoint(WORKER).unwrap();
    fs::remove_file(folder.join("link")).unwrap();
    let consumer = found(consumer, Displaced::Moved);
    drop(consumer);
    fs::remove_dir_all(&folder).unwrap();
}

// A name that isn't one. Nothing is left of it.
#[test]
fn a_journal_has_a_name() {
    let folder = fresh_path("displaced-names");
    let _ = fs::remove_dir_all(&folder);
    fs::create_dir(&folder).unwrap();
    let here = env::current_dir().unwrap();
    env::set_current_dir(&folder).unwrap();
    for name in ["", "..", "/", "."] {
        let error = NewJournal::create(name, 18).unwrap_err();
        let no_name = matches!(error, JournalError::NoFileName);
        assert!(no_name, "{name}: {error:?}");
        let error = Journals::create(name, 2, 18).unwrap_err();
        assert!(
            matches!(error, JournalError::NoFileName),
            "{name}: {error:?}"
        );
        assert!(matches!(Journal::open(name), Err(JournalError::Io(_))));
    }
    let left: Vec<PathBuf> = fs::read_dir(".")
        .unwrap()
        .map(|entry| entry.unwrap().path())
        .collect();
    assert_eq!(left, [] as [PathBuf; 0]);
    env::set_current_dir(&here).unwrap();
    fs::remove_dir_all(&folder).unwrap();
}
