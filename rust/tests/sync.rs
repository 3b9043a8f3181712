//! A disk that forgets: a write that could not be made durable is read back from memory until the machine goes down, and is gone then. What
//! a restart reads after [`Failed::reopen`] is what the disk has, so that no generation is given twice.

mod common;

use std::cell::RefCell;
use std::io;
use std::rc::Rc;

use common::{configuration, Book, WORKER};
use ironbus_delivery_state::{
    CheckpointError, Configuration, Consumer, Failed, Journal, NewJournal, Offset, Storage, BLOCK,
};

/// The blocks in memory and on the disk; which writes to come can't be made durable, counted from the next; and what those were that
/// could not, since the last look.
struct Disk {
    memory: Vec<u8>,
    durable: Vec<u8>,
    writes: usize,
    fails: Vec<usize>,
    failed: Vec<(usize, [u8; BLOCK])>,
}

#[derive(Clone)]
struct Forgetful(Rc<RefCell<Disk>>);

impl Forgetful {
    fn new(blocks: usize, fails: &[usize]) -> Forgetful {
        Forgetful(Rc::new(RefCell::new(Disk {
            memory: vec![0; BLOCK * blocks],
            durable: vec![0; BLOCK * blocks],
            writes: 0,
            fails: fails.to_vec(),
            failed: Vec::new(),
        })))
    }

    /// The machine goes down: what is in memory only is lost.
    fn goes_down(&self) {
        let disk = &mut *self.0.borrow_mut();
        disk.memory.clone_from(&disk.durable);
    }

    /// The disk has what is read.
    fn is_durable(&self) -> bool {
        let disk = self.0.borrow();
        disk.memory == disk.durable
    }

    /// The disk has the block that failed, as it was to be written the first time, and no other was tried since.
    fn has_what_failed(&self, block: usize) -> bool {
        let disk = &mut *self.0.borrow_mut();
        let failed = std::mem::take(&mut disk.failed);
        let place = BLOCK * block..BLOCK * (block + 1);
        let same = |write: &(usize, [u8; BLOCK])| write.0 == block && *write == failed[0];
        !failed.is_empty() && failed.iter().all(same) && disk.durable[place] == failed[0].1
    }
}

impl Storage for Forgetful {
    fn read(&mut self) -> io::Result<Vec<u8>> {
        Ok(self.0.borrow().memory.clone())
    }

    fn write_block(&mut self, block: usize, bytes: &[u8; BLOCK]) -> io::Result<()> {
        let disk = &mut *self.0.borrow_mut();
        let place = BLOCK * block..BLOCK * (block + 1);
        disk.memory[place.clone()].copy_from_slice(bytes);
        disk.writes += 1;
        if disk.fails.contains(&(disk.writes - 1)) {
            disk.failed.push((block, *bytes));
            return Err(io::Error::other("not durable"));
        }
        disk.durable[place].copy_from_slice(bytes);
        Ok(())
    }
}

fn settings() -> Configuration {
    configuration(9, 9, 10, 25)
}

/// A hand-out of the next offset, settled at once. No other may have its generation.
fn one_job(consumer: &mut Consumer<Forgetful>, book: &mut Book, offset: &mut u64) {
    let hand_out = consumer.claim(WORKER, Offset::new(*offset), 0).unwrap();
    *offset += 1;
    book.handed_out(hand_out);
    consumer.ack(WORKER, hand_out.token()).unwrap();
    book.settled(hand_out.token().offset.get());
}

/// Jobs with a checkpoint after each, so many; some of the writes fail. The machine goes down so many checkpoints behind the first one that
/// failed, and then there are as many checkpoints again. Answers the number of writes.
fn jobs(checkpoints: usize, fails: &[usize], later: usize) -> usize {
    let disk = Forgetful::new(18, fails);
    let journal = NewJournal::on(disk.clone()).unwrap();
    let mut consumer = Consumer::start(&settings(), journal).unwrap();
    let (mut book, mut offset, mut down_in) = (Book::default(), 0, None);
    for _ in 0..checkpoints {
        consumer = match consumer.checkpoint(WORKER) {
            Ok(consumer) => consumer,
            Err(CheckpointError::Refused(error)) => panic!("{error}"),
            Err(CheckpointError::Failed(failed)) => {
                down_in = Some(later);
                let block = failed.block();
                let journal = until_it_is_written(failed);
                assert!(disk.is_durable() && disk.has_what_failed(block));
                let again = Consumer::restart(&settings(), journal).expect("no restart is refused");
                again.checkpoint(WORKER).unwrap()
            }
        };
        if down_in == Some(0) {
            drop(consumer);
            disk.goes_down();
            let journal = Journal::on(disk.clone()).unwrap();
            let again = Consumer::restart(&settings(), journal).expect("no restart is refused");
            consumer = again.checkpoint(WORKER).unwrap();
        }
        down_in = down_in.and_then(|left| left.checked_sub(1));
        one_job(&mut consumer, &mut book, &mut offset);
    }
    let writes = disk.0.borrow().writes;
    writes
}

fn until_it_is_written(mut failed: Failed<Forgetful>) -> Journal<Forgetful> {
    loop {
        match failed.reopen() {
            Ok(journal) => return journal,
            Err(again) => {
                assert_eq!(again.error().to_string(), "not durable");
                failed = again;
            }
        }
    }
}

// Every write of a list with four changes between the halves.
#[test]
fn no_generation_is_given_twice() {
    let writes = jobs(18, &[], 0);
    assert_eq!(writes, 18 * 2 + 4 * 9);
    for at in 0..writes {
        for later in 0..3 {
            jobs(18, &[at], later);
        }
    }
}

// The write of `reopen` fails too, once and twice.
#[test]
fn what_fails_again_is_remembered() {
    let writes = jobs(10, &[], 0);
    for at in 0..writes {
        jobs(10, &[at, at + 1], 1);
        jobs(10, &[at, at + 1, at + 2], 0);
    }
}

#[test]
fn the_block_that_failed_is_named() {
    let disk = Forgetful::new(18, &[1]);
    let journal = NewJournal::on(disk.clone()).unwrap();
    let consumer = Consumer::start(&settings(), journal).unwrap();
    let error = consumer.checkpoint(WORKER).unwrap_err();
    assert_eq!(error.refusal(), None);
    let CheckpointError::Failed(failed) = error else {
        panic!("the second write fails");
    };
    assert_eq!(failed.block(), 0);
    assert_eq!(
        failed.to_string(),
        "block 0 of the journal could not be written"
    );
    assert_eq!(failed.error().to_string(), "not durable");
    assert!(!disk.is_durable());
    // The header counts once it is written again.
    let consumer = Consumer::restart(&settings(), failed.reopen().unwrap()).unwrap();
    assert!(disk.is_durable());
    assert_eq!(consumer.ceiling().get(), 4096);
}
