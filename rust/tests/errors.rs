//! What errors say: each its own level alone, and what caused it by `source`, so that whoever prints the whole chain says each thing once.

mod common;

use std::error::Error;
use std::io;

use common::{configuration, fresh_path, WORKER};
use ironbus_delivery_state::{
    Configuration, Consumer, Generation, Journal, JournalError, NewJournal, Storage, WorkerId,
    BLOCK,
};

/// Zeroed blocks, so many, of a disk that can't be written.
struct ReadOnly(usize);

impl Storage for ReadOnly {
    fn read(&mut self) -> io::Result<Vec<u8>> {
        Ok(vec![0; self.0 * BLOCK])
    }

    fn write_block(&mut self, _: usize, _: &[u8; BLOCK]) -> io::Result<()> {
        Err(io::Error::other("the disk is full"))
    }
}

/// A storage that can't be read.
struct Gone;

impl Storage for Gone {
    fn read(&mut self) -> io::Result<Vec<u8>> {
        Err(io::Error::other("the disk is gone"))
    }

    fn write_block(&mut self, _: usize, _: &[u8; BLOCK]) -> io::Result<()> {
        unreachable!("it was never read")
    }
}

fn settings() -> Configuration {
    configuration(3, 1, 10, 25)
}

fn started() -> Consumer<ReadOnly> {
    let journal = NewJournal::on(ReadOnly(18)).unwrap();
    Consumer::start(&settings(), journal).unwrap()
}

/// What an error says, and what each says that caused it. None says what the next one does.
fn says(error: &dyn Error) -> Vec<String> {
    let (mut said, mut next) = (Vec::new(), Some(error));
    while let Some(error) = next {
        said.push(error.to_string());
        next = error.source();
    }
    for pair in said.windows(2) {
        assert!(!pair[0].contains(&pair[1]), "{pair:?}");
    }
    said
}

#[test]
fn a_start_and_a_restart_that_were_refused() {
    let journal = NewJournal::on(ReadOnly(18)).unwrap();
    let error = Consumer::start(&configuration(3, 0, 10, 25), journal).unwrap_err();
    let threshold = "refused (3): the flush threshold is 0";
    assert_eq!(says(&error), ["the consumer was not started", threshold]);
    let journal = Journal::on(ReadOnly(17)).unwrap();
    let error = Consumer::restart(&settings(), journal).unwrap_err();
    let length = "refused (4): a journal has an even number of blocks, 18 to 128";
    let refused = ["the consumer was not restarted", length];
    assert_eq!(says(&error), refused);
    // The same, with no level of its own.
    let seen = Generation::new(7);
    let error = Consumer::restart_at_least(&settings(), error.into_journal(), seen).unwrap_err();
    assert_eq!(says(&error), refused);
    let journal = Journal::on(ReadOnly(18)).unwrap();
    let error = Consumer::restart_at_least(&settings(), journal, seen).unwrap_err();
    let older = "the journal is older than was seen of it: its ceiling is 0, and 7 was seen. A restart would give generations a second time";
    assert_eq!(says(&error), [older]);
}

#[test]
fn a_checkpoint_that_was_not_made() {
    let nobody = WorkerId::new(8);
    let unknown = "refused (38): there is no worker of that number";
    let refused = ["the checkpoint was not begun", unknown];
    assert_eq!(says(&started().begin(nobody).unwrap_err()), refused);
    assert_eq!(says(&started().checkpoint(nobody).unwrap_err()), refused);
    let block = "block 1 of the journal could not be written";
    let failed = [block, "the disk is full"];
    assert_eq!(says(&started().checkpoint(WORKER).unwrap_err()), failed);
    let error = started().begin(WORKER).unwrap().finish().unwrap_err();
    assert_eq!(says(&error), failed);
    assert_eq!(says(&error.reopen().unwrap_err()), failed);
}

#[test]
fn a_journal_that_can_not_be_had() {
    let path = fresh_path("errors");
    let missing = "No such file or directory (os error 2)";
    let unusable = "the journal can't be read or written";
    assert_eq!(
        says(&Journal::open(&path).unwrap_err()),
        [unusable, missing]
    );
    let error = NewJournal::on(Gone).unwrap_err();
    assert_eq!(says(&error), [unusable, "the disk is gone"]);
    let error = NewJournal::create(&path, 17).unwrap_err();
    assert_eq!(
        says(&error),
        ["a journal has an even number of blocks, 18 to 128, and not 17"]
    );
    let held = NewJournal::create(&path, 18).unwrap();
    let error = NewJournal::create(&path, 18).unwrap_err();
    assert_eq!(says(&error), ["there is a journal of that name"]);
    let error = Journal::open(&path).unwrap_err();
    assert_eq!(says(&error), ["the journal is in use"]);
    drop(held);
    let used = says(&JournalError::Used);
    assert_eq!(used, ["the journal was used before"]);
}
