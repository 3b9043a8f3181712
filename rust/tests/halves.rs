//! The two halves of a journal: a checkpoint that goes to the other one, journals from before there were halves, the last numbers of
//! groups, and what a worn first block brings back.

mod common;

use std::fs;
use std::path::{Path, PathBuf};

use common::{configuration, crc32c, fresh_path, WORKER};
use ironbus_delivery_state::{
    Configuration, Consumer, Journal, NewJournal, Offset, Refusal, Step, BLOCK,
};

fn settings() -> Configuration {
    configuration(3, 9, 10, 25)
}

/// A consumer on a new journal, after so many checkpoints, each of two blocks: before checkpoint i, from 1, offset i is settled.
fn after(path: &Path, blocks: usize, checkpoints: u64) -> Consumer {
    let journal = NewJournal::create(path, blocks).unwrap();
    let mut consumer = Consumer::start(&settings(), journal).unwrap();
    for offset in 0..checkpoints {
        if offset > 0 {
            let token = consumer
                .claim(WORKER, Offset::new(offset), 0)
                .unwrap()
                .token();
            consumer.ack(WORKER, token).unwrap();
        }
        consumer = consumer.checkpoint(WORKER).unwrap();
    }
    consumer
}

/// The file of such a consumer, and what it has.
fn file_after(name: &str, blocks: usize, checkpoints: u64) -> (PathBuf, Vec<u8>) {
    let path = fresh_path(name);
    drop(after(&path, blocks, checkpoints));
    let bytes = fs::read(&path).unwrap();
    (path, bytes)
}

/// A restart on a file of these bytes; where it is refused, the file stays.
fn restart(path: &Path, bytes: &[u8]) -> Result<Consumer, Refusal> {
    fs::write(path, bytes).unwrap();
    Consumer::restart(&settings(), Journal::open(path).unwrap()).map_err(|error| {
        let refusal = error.refusal();
        assert_eq!(error.into_journal().bytes(), bytes);
        refusal
    })
}

/// How many offsets from 1 on are settled.
fn settled(consumer: &Consumer) -> u64 {
    (1..100)
        .take_while(|offset| consumer.is_settled(WORKER, Offset::new(*offset)).unwrap())
        .count() as u64
}

#[test]
fn a_checkpoint_that_does_not_fit_goes_to_the_other_half() {
    let path = fresh_path("other-half");
    let consumer = after(&path, 18, 4);
    assert_eq!(consumer.blocks_left(WORKER).unwrap(), 1);
    let mut writing = consumer.begin(WORKER).unwrap();
    assert_eq!(writing.writes_left(), 9 + 2);
    let mut written = Vec::new();
    let consumer = loop {
        let before = fs::read(&path).unwrap();
        match writing.step().unwrap() {
            Step::Wrote { block, writing: w } => {
                written.push(block);
                writing = w;
                // The half in use stays as it is.
                assert_eq!(fs::read(&path).unwrap()[..9 * BLOCK], before[..9 * BLOCK]);
            }
            Step::Finished { block, consumer } => {
                written.push(block);
                break consumer;
            }
        }
    };
    assert_eq!(written, [9, 10, 11, 12, 13, 14, 15, 16, 17, 10, 9]);
    assert_eq!(consumer.blocks_left(WORKER).unwrap(), 7);
    drop(consumer);
    let consumer = Consumer::restart(&settings(), Journal::open(&path).unwrap()).unwrap();
    assert_eq!(
        (settled(&consumer), consumer.blocks_left(WORKER).unwrap()),
        (3, 7)
    );
}

#[test]
fn a_longer_journal_has_longer_halves() {
    let path = fresh_path("longer");
    let consumer = after(&path, 128, 32);
    assert_eq!(consumer.blocks_left(WORKER).unwrap(), 0);
    let writing = consumer.begin(WORKER).unwrap();
    assert_eq!(writing.writes_left(), 64 + 2);
    let consumer = writing.finish().unwrap();
    assert_eq!(consumer.blocks_left(WORKER).unwrap(), 62);
}

#[test]
fn what_is_worn_in_the_other_half_is_not_judged() {
    let (path, bytes) = file_after("other-worn", 18, 6);
    for block in 0..9 {
        let mut bytes = bytes.clone();
        bytes[BLOCK * block + 9] ^= 1;
        assert_eq!(settled(&restart(&path, &bytes).unwrap()), 5);
    }
    // In the half in use it is, and the other one isn't read instead.
    for block in [10, 12] {
        let mut bytes = bytes.clone();
        bytes[BLOCK * block + 9] ^= 1;
        let refusal = restart(&path, &bytes).unwrap_err();
        assert_eq!(
            refusal,
            Refusal::Damaged {
                block: block as u64
            }
        );
    }
}

/// What the customer has to know: the first block of the half in use is what says that it is in use. Where that block is lost, a
/// restart finds the older half, without a refusal, and gives generations a second time.
#[test]
fn a_worn_first_block_of_the_half_in_use_brings_back_the_other() {
    let path = fresh_path("first-worn");
    let mut consumer = after(&path, 18, 6);
    // All generations of the last checkpoint are given.
    let mut given = Vec::new();
    while !consumer.is_due(WORKER).unwrap().ceiling {
        let offset = Offset::new(6 + given.len() as u64);
        let token = consumer.claim(WORKER, offset, 0).unwrap().token();
        consumer.ack(WORKER, token).unwrap();
        given.push(token.generation);
    }
    drop(consumer);
    let mut bytes = fs::read(&path).unwrap();
    bytes[BLOCK * 9 + 9] ^= 1;
    let consumer = restart(&path, &bytes).unwrap();
    assert_eq!(settled(&consumer), 3);
    let mut consumer = consumer.checkpoint(WORKER).unwrap();
    let again = consumer.claim(WORKER, Offset::new(6), 0).unwrap().token();
    assert!(given.contains(&again.generation));
}

#[test]
fn without_a_first_block_in_either_half_there_is_no_group() {
    let (path, bytes) = file_after("both-worn", 18, 6);
    let mut worn = bytes.clone();
    worn[9] ^= 1;
    worn[BLOCK * 9 + 9] ^= 1;
    // Headers behind it in the first half are seen.
    let refusal = restart(&path, &worn).unwrap_err();
    assert_eq!(refusal, Refusal::Damaged { block: 0 });
    // Where the first half was just zeroed there is none, and a fresh consumer comes of it.
    worn[..9 * BLOCK].fill(0);
    let consumer = restart(&path, &worn).unwrap();
    assert_eq!(
        (settled(&consumer), consumer.blocks_left(WORKER).unwrap()),
        (0, 9)
    );
}

// ## Journals from before there were halves

/// Groups of two blocks one behind the other, as such a journal of 18 blocks has them: the fifth one lies across the middle.
fn from_before(name: &str) -> (PathBuf, Vec<u8>) {
    let (path, mut bytes) = file_after(name, 36, 9);
    bytes.truncate(18 * BLOCK);
    (path, bytes)
}

#[test]
fn a_group_across_the_middle_is_refused() {
    let (path, mut bytes) = from_before("across");
    let refusal = restart(&path, &bytes).unwrap_err();
    assert_eq!(refusal, Refusal::Damaged { block: 8 });
    // An unsound body on the walk is named first.
    bytes[BLOCK * 3 + 9] ^= 1;
    let refusal = restart(&path, &bytes).unwrap_err();
    assert_eq!(refusal, Refusal::Damaged { block: 3 });
}

#[test]
fn zeros_behind_it_bring_all_its_groups_into_the_first_half() {
    let (path, mut bytes) = from_before("zeros-behind");
    bytes.resize(36 * BLOCK, 0);
    let consumer = restart(&path, &bytes).unwrap();
    assert_eq!(
        (settled(&consumer), consumer.blocks_left(WORKER).unwrap()),
        (8, 0)
    );
    let consumer = consumer.checkpoint(WORKER).unwrap();
    assert_eq!(consumer.blocks_left(WORKER).unwrap(), 16);
}

#[test]
fn a_group_that_begins_on_the_middle_is_in_use() {
    let (path, mut bytes) = from_before("on-the-middle");
    // twice the first block of the sixth group
    bytes.resize(20 * BLOCK, 0);
    let consumer = restart(&path, &bytes).unwrap();
    assert_eq!(
        (settled(&consumer), consumer.blocks_left(WORKER).unwrap()),
        (8, 2)
    );
    drop(consumer.checkpoint(WORKER).unwrap());
    let bytes = fs::read(&path).unwrap();
    let consumer = restart(&path, &bytes).unwrap();
    assert_eq!(
        (settled(&consumer), consumer.blocks_left(WORKER).unwrap()),
        (8, 0)
    );
}

// ## Numbers

/// Gives the group of two blocks whose header stands at a block another number; the checks are right.
fn renumber(bytes: &mut [u8], header: usize, number: u32) {
    for block in [header, header + 1] {
        let block = &mut bytes[BLOCK * block..BLOCK * (block + 1)];
        block[4..8].copy_from_slice(&number.to_le_bytes());
        let check = crc32c(&block[..508]).to_le_bytes();
        block[508..].copy_from_slice(&check);
    }
}

#[test]
fn of_equal_numbers_the_first_half_is_in_use() {
    let (path, bytes) = file_after("equal", 18, 5);
    for (number, right) in [(2, 4), (1, 3), (0, 3)] {
        let mut bytes = bytes.clone();
        renumber(&mut bytes, 9, number);
        assert_eq!(settled(&restart(&path, &bytes).unwrap()), right);
    }
}

#[test]
fn behind_the_last_number_there_is_no_checkpoint() {
    let (path, mut bytes) = file_after("last-number", 18, 1);
    renumber(&mut bytes, 0, u32::MAX - 1);
    let consumer = restart(&path, &bytes).unwrap().checkpoint(WORKER).unwrap();
    let error = consumer.begin(WORKER).unwrap_err();
    assert_eq!(error.refusal(), Refusal::JournalFull);
    let mut consumer = error.into_consumer();
    // That is no reason to stop before the generations run out.
    let _ = consumer.claim(WORKER, Offset::new(7), 0).unwrap();
    drop(consumer);
    let consumer = Consumer::restart(&settings(), Journal::open(&path).unwrap()).unwrap();
    assert_eq!(
        consumer.begin(WORKER).unwrap_err().refusal(),
        Refusal::JournalFull
    );
}
