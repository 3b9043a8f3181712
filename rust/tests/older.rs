//! The ceiling as what a server knows a journal by: one that was restored from a backup, or created anew, is refused.

mod common;

use std::fs;
use std::path::Path;

use common::{configuration, fresh_path, WORKER};
use ironbus_delivery_state::{
    Configuration, Consumer, Generation, Journal, NewJournal, Offset, Refusal, RestartAtLeastError,
    BLOCK,
};

fn settings() -> Configuration {
    configuration(3, 9, 10, 25)
}

fn at_least(path: &Path, seen: u64) -> Result<Consumer, RestartAtLeastError> {
    let journal = Journal::open(path).unwrap();
    Consumer::restart_at_least(&settings(), journal, Generation::new(seen))
}

/// The ceilings of an error that says that the journal is too old.
fn ceilings(error: RestartAtLeastError) -> [u64; 2] {
    match error {
        RestartAtLeastError::Older(older) => [older.found().get(), older.seen().get()],
        RestartAtLeastError::Refused(error) => panic!("{error}"),
    }
}

#[test]
fn the_ceiling_rises_with_each_checkpoint_that_reserves() {
    let journal = NewJournal::create(fresh_path("ceiling"), 18).unwrap();
    let consumer = Consumer::start(&settings(), journal).unwrap();
    assert_eq!(consumer.ceiling(), Generation::new(0));
    let mut consumer = consumer.checkpoint(WORKER).unwrap();
    assert_eq!(consumer.ceiling(), Generation::new(4096));
    for offset in 0..3 {
        let token = consumer.claim(WORKER, offset.into(), 0).unwrap().token();
        assert!(token.generation < consumer.ceiling());
    }
    assert_eq!(consumer.ceiling(), Generation::new(4096));
    let consumer = consumer.checkpoint(WORKER).unwrap();
    assert_eq!(consumer.ceiling(), Generation::new(4099));
    let consumer = Consumer::restart(&settings(), consumer.into_journal()).unwrap();
    assert_eq!(consumer.ceiling(), Generation::new(4099));
}

#[test]
fn a_journal_from_a_backup_is_refused() {
    let path = fresh_path("backup");
    let journal = NewJournal::create(&path, 18).unwrap();
    let consumer = Consumer::start(&settings(), journal).unwrap();
    let mut consumer = consumer.checkpoint(WORKER).unwrap();
    let backup = fs::read(&path).unwrap();
    let _ = consumer.claim(WORKER, Offset::ZERO, 0).unwrap();
    let consumer = consumer.checkpoint(WORKER).unwrap();
    let seen = consumer.ceiling().get();
    drop(consumer);
    assert_eq!(seen, 4097);
    // As it is, and with any ceiling below, it is taken.
    for known in [0, 4096, seen] {
        drop(at_least(&path, known).unwrap());
    }
    assert_eq!(
        ceilings(at_least(&path, seen + 1).unwrap_err()),
        [seen, seen + 1]
    );
    // A worker is given a job, and the backup comes back: it is refused, and stays as it is.
    let consumer = at_least(&path, seen).unwrap();
    let mut consumer = consumer.checkpoint(WORKER).unwrap();
    let given = consumer.claim(WORKER, Offset::new(1), 0).unwrap().token();
    let seen = consumer.ceiling().get();
    drop(consumer);
    fs::write(&path, &backup).unwrap();
    let error = at_least(&path, seen).unwrap_err();
    assert_eq!(
        error.to_string(),
        "the journal is older than was seen of it: its ceiling is 4096, and 8193 was seen. A restart would give generations a second time"
    );
    let journal = error.into_journal();
    assert_eq!(journal.bytes(), backup);
    assert_eq!(fs::read(&path).unwrap(), backup);
    // So it would: the worker's late ack settles what another holds.
    let consumer = Consumer::restart(&settings(), journal).unwrap();
    let mut consumer = consumer.checkpoint(WORKER).unwrap();
    let _ = consumer.claim(WORKER, Offset::ZERO, 0).unwrap();
    let again = consumer.claim(WORKER, Offset::new(1), 0).unwrap().token();
    assert_eq!(again, given);
    assert_eq!(consumer.ack(WORKER, given), Ok(()));
}

// Nothing was handed out between the backup and the last checkpoint: the ceiling is the same, and doesn't tell them apart. No generation
// comes twice, but a job that was settled is open again.
#[test]
fn a_backup_with_the_same_ceiling_is_taken() {
    let path = fresh_path("same-ceiling");
    let journal = NewJournal::create(&path, 18).unwrap();
    let consumer = Consumer::start(&settings(), journal).unwrap();
    let mut consumer = consumer.checkpoint(WORKER).unwrap();
    let token = consumer.claim(WORKER, Offset::ZERO, 0).unwrap().token();
    let mut consumer = consumer.checkpoint(WORKER).unwrap();
    let backup = fs::read(&path).unwrap();
    consumer.ack(WORKER, token).unwrap();
    let consumer = consumer.checkpoint(WORKER).unwrap();
    let seen = consumer.ceiling().get();
    drop(consumer);
    fs::write(&path, &backup).unwrap();
    let consumer = at_least(&path, seen).unwrap();
    assert_eq!(consumer.is_settled(WORKER, Offset::ZERO), Ok(false));
    let mut consumer = consumer.checkpoint(WORKER).unwrap();
    let again = consumer.claim(WORKER, Offset::ZERO, 0).unwrap().token();
    assert!(again.generation.get() >= seen);
    assert_eq!(consumer.ack(WORKER, token), Err(Refusal::Fenced));
}

#[test]
fn a_journal_that_was_created_anew_is_refused() {
    let path = fresh_path("anew");
    let journal = NewJournal::create(&path, 18).unwrap();
    let consumer = Consumer::start(&settings(), journal).unwrap();
    let seen = consumer.checkpoint(WORKER).unwrap().ceiling().get();
    fs::remove_file(&path).unwrap();
    drop(NewJournal::create(&path, 18).unwrap());
    let error = at_least(&path, seen).unwrap_err();
    assert_eq!(error.refusal(), None);
    assert_eq!(ceilings(error), [0, 4096]);
}

#[test]
fn what_a_restart_refuses_is_refused_first() {
    let path = fresh_path("refused-first");
    fs::write(&path, vec![0; 17 * BLOCK]).unwrap();
    let error = at_least(&path, u64::MAX).unwrap_err();
    assert!(matches!(error, RestartAtLeastError::Refused(_)));
    assert_eq!(error.refusal(), Some(Refusal::BadArea));
    assert_eq!(error.into_journal().blocks(), 17);
}
