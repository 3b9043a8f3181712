//! A disk that forgets: what could not be made durable is read back from memory until the machine goes down, and is gone then. What a restart
//! reads after [`Failed::reopen`] is what the disk has, so that no generation is given twice.

mod common;

use std::cell::RefCell;
use std::io;
use std::rc::Rc;

use common::{configuration, Book, Random, WORKER};
use ironbus_delivery_state::{
    Area, CheckpointError, Configuration, Consumer, Failed, Journal, NewJournal, Offset, Step,
    Storage, BLOCK,
};

/// The blocks in memory and on the disk, and which of them the next sync makes durable.
struct Disk {
    memory: Vec<u8>,
    durable: Vec<u8>,
    dirty: Vec<usize>,
    /// Writes and syncs so far, and which of them fail, counted alike.
    done: usize,
    fails: Vec<usize>,
    /// Which blocks a sync that fails has made durable all the same.
    random: Random,
}

#[derive(Clone)]
struct Forgetful(Rc<RefCell<Disk>>);

impl Forgetful {
    fn new(blocks: usize) -> Forgetful {
        Forgetful(Rc::new(RefCell::new(Disk {
            memory: vec![0; BLOCK * blocks],
            durable: vec![0; BLOCK * blocks],
            dirty: Vec::new(),
            done: 0,
            fails: Vec::new(),
            random: Random(1),
        })))
    }

    /// A new journal on it. The writes and syncs after it are counted, and some of them fail.
    fn journal(&self, fails: &[usize]) -> NewJournal<Forgetful> {
        let journal = NewJournal::on(self.clone()).unwrap();
        let disk = &mut *self.0.borrow_mut();
        disk.done = 0;
        disk.fails = fails.to_vec();
        disk.random = Random(fails.iter().sum::<usize>() as u64);
        journal
    }

    /// The machine goes down: what is in memory only is lost. Nothing fails after it.
    fn goes_down(&self) {
        let disk = &mut *self.0.borrow_mut();
        disk.memory.clone_from(&disk.durable);
        disk.dirty.clear();
        disk.fails.clear();
    }

    /// The disk has what is read.
    fn is_durable(&self) -> bool {
        let disk = self.0.borrow();
        disk.memory == disk.durable
    }
}

impl Disk {
    fn fails(&mut self) -> bool {
        self.done += 1;
        self.fails.contains(&(self.done - 1))
    }

    fn make_durable(&mut self, block: usize) {
        let place = BLOCK * block..BLOCK * (block + 1);
        self.durable[place.clone()].copy_from_slice(&self.memory[place]);
    }
}

impl Storage for Forgetful {
    fn read(&mut self) -> io::Result<Area> {
        Ok(self.0.borrow().memory.clone().into())
    }

    fn write_block(&mut self, block: usize, bytes: &[u8; BLOCK]) -> io::Result<()> {
        let disk = &mut *self.0.borrow_mut();
        disk.memory[BLOCK * block..BLOCK * (block + 1)].copy_from_slice(bytes);
        // One that fails is in memory and nowhere else, and no sync will see to it.
        if disk.fails() {
            return Err(io::Error::other("not written"));
        }
        disk.dirty.push(block);
        Ok(())
    }

    fn sync(&mut self) -> io::Result<()> {
        let disk = &mut *self.0.borrow_mut();
        let fails = disk.fails();
        for block in std::mem::take(&mut disk.dirty) {
            if !fails || disk.random.below(2) == 0 {
                disk.make_durable(block);
            }
        }
        if fails {
            return Err(io::Error::other("not durable"));
        }
        Ok(())
    }
}

fn settings() -> Configuration {
    configuration(9, 9, 10, 25)
}

/// A hand-out of the next offset, settled at once. No other may have its generation.
fn one_job(consumer: &mut Consumer<Forgetful>, book: &mut Book, offset: &mut u64) {
    let hand_out = consumer.claim(WORKER, Offset::new(*offset), 0).unwrap();
    *offset += 1;
    book.handed_out(hand_out);
    consumer.ack(WORKER, hand_out.token()).unwrap();
    book.settled(hand_out.token().offset.get());
}

/// A checkpoint, after as many restarts as it takes, and whether it took any.
fn checkpoint(mut consumer: Consumer<Forgetful>, disk: &Forgetful) -> (Consumer<Forgetful>, bool) {
    let mut restarted = false;
    loop {
        let failed = match consumer.checkpoint(WORKER) {
            Ok(consumer) => {
                assert!(disk.is_durable());
                return (consumer, restarted);
            }
            Err(CheckpointError::Refused(error)) => panic!("{error}"),
            Err(CheckpointError::Failed(failed)) => failed,
        };
        let journal = until_it_is_written(failed);
        assert!(disk.is_durable());
        consumer = Consumer::restart(&settings(), journal).expect("no restart is refused");
        restarted = true;
    }
}

/// Jobs with a checkpoint after each, so many; some of the writes and syncs fail. The machine goes down so many checkpoints after one that
/// failed. Answers the number of writes and syncs.
fn jobs(checkpoints: usize, fails: &[usize], later: usize) -> usize {
    let disk = Forgetful::new(18);
    let mut consumer = Consumer::start(&settings(), disk.journal(fails)).unwrap();
    let (mut book, mut offset, mut down_in) = (Book::default(), 0, None);
    for _ in 0..checkpoints {
        let restarted;
        (consumer, restarted) = checkpoint(consumer, &disk);
        if restarted {
            down_in = Some(later);
        }
        if down_in == Some(0) {
            drop(consumer);
            disk.goes_down();
            let journal = Journal::on(disk.clone()).unwrap();
            consumer = Consumer::restart(&settings(), journal).expect("no restart is refused");
            (consumer, _) = checkpoint(consumer, &disk);
        }
        down_in = down_in.and_then(|left| left.checked_sub(1));
        one_job(&mut consumer, &mut book, &mut offset);
    }
    let done = disk.0.borrow().done;
    done
}

fn until_it_is_written(mut failed: Failed<Forgetful>) -> Journal<Forgetful> {
    loop {
        let blocks = failed.blocks().to_vec();
        match failed.reopen() {
            Ok(journal) => return journal,
            Err(again) => {
                assert!(again.error().to_string().starts_with("not "));
                assert_eq!(again.blocks(), blocks);
                failed = again;
            }
        }
    }
}

// Every write and every sync of a list with four changes between the halves.
#[test]
fn no_generation_is_given_twice() {
    let done = jobs(18, &[], 0);
    assert_eq!(done, 18 * 2 + 4 * 9 + 18 * 2);
    for at in 0..done {
        for later in 0..3 {
            jobs(18, &[at], later);
        }
    }
}

// What `reopen` does fails too, once and twice: its first write, a later one, or its sync.
#[test]
fn what_fails_again_is_remembered() {
    let done = jobs(10, &[], 0);
    for at in 0..done {
        for then in 1..14 {
            jobs(10, &[at, at + then], 1);
            jobs(10, &[at, at + then, at + then + 1], 0);
        }
    }
}

fn failed_at(disk: &Forgetful, fails: usize) -> Failed<Forgetful> {
    let consumer = Consumer::start(&settings(), disk.journal(&[fails])).unwrap();
    let error = consumer.checkpoint(WORKER).unwrap_err();
    assert_eq!(error.refusal(), None);
    let CheckpointError::Failed(failed) = error else {
        panic!("a write or a sync fails");
    };
    assert!(!disk.is_durable());
    failed
}

// The body, the sync, the header, the sync.
#[test]
fn what_failed_is_named() {
    let written = |block| format!("block {block} of the journal could not be written");
    let synced = "the journal could not be made durable".to_owned();
    for (fails, said, block, pending, ceiling) in [
        (0, written(1), Some(1), 1, 0),
        (1, synced.clone(), None, 1, 0),
        (2, written(0), Some(0), 0, 4096),
        (3, synced, None, 0, 4096),
    ] {
        let disk = Forgetful::new(18);
        let failed = failed_at(&disk, fails);
        assert_eq!(failed.to_string(), said);
        assert_eq!((failed.block(), failed.blocks()), (block, &[pending][..]));
        // The header counts once it is written again.
        let consumer = Consumer::restart(&settings(), failed.reopen().unwrap()).unwrap();
        assert!(disk.is_durable());
        assert_eq!(consumer.ceiling(WORKER).unwrap().get(), ceiling);
    }
}

// A change between the halves: nine zeros, two of them written over by the body and by the header.
#[test]
fn all_that_is_pending_is_remembered() {
    let disk = Forgetful::new(18);
    let mut consumer = Consumer::start(&settings(), disk.journal(&[])).unwrap();
    for _ in 0..4 {
        consumer = consumer.checkpoint(WORKER).unwrap();
    }
    let before = disk.0.borrow().durable.clone();
    let first = disk.0.borrow().done;
    disk.0.borrow_mut().fails = vec![first + 10, first + 11 + 9];
    let failed = consumer.begin(WORKER).unwrap().finish().unwrap_err();
    assert_eq!(failed.block(), None);
    let zeros_and_body = [9, 11, 12, 13, 14, 15, 16, 17, 10];
    assert_eq!(failed.blocks(), zeros_and_body);
    // Its sync fails too.
    let failed = failed.reopen().unwrap_err();
    assert_eq!(
        (failed.block(), failed.blocks()),
        (None, &zeros_and_body[..])
    );
    let journal = failed.reopen().unwrap();
    assert!(disk.is_durable());
    assert_eq!(journal.bytes()[..9 * BLOCK], before[..9 * BLOCK]);
    assert_eq!(journal.bytes()[10 * BLOCK], 2);
}

// A checkpoint that is given up, of whose blocks two are written, is made durable too.
#[test]
fn a_checkpoint_that_is_given_up_is_durable() {
    for fails in [false, true] {
        let disk = Forgetful::new(18);
        let mut consumer = Consumer::start(&settings(), disk.journal(&[])).unwrap();
        for _ in 0..8 {
            consumer = checkpoint(consumer, &disk).0;
        }
        let mut writing = consumer.begin(WORKER).unwrap();
        for _ in ["the first block of the other half", "the second"] {
            let Step::Wrote { writing: next, .. } = writing.step().unwrap() else {
                panic!("zeros come first");
            };
            writing = next;
        }
        assert!(!disk.is_durable());
        if fails {
            let done = disk.0.borrow().done;
            disk.0.borrow_mut().fails.push(done);
        }
        let journal = writing.into_journal();
        assert_eq!(journal.is_err(), fails);
        drop(journal.or_else(Failed::reopen).unwrap());
        assert!(disk.is_durable());
    }
}

// What could not be synced when a journal is opened isn't read.
#[test]
fn a_journal_is_synced_before_it_is_read() {
    let disk = Forgetful::new(18);
    let consumer = Consumer::start(&settings(), disk.journal(&[])).unwrap();
    drop(consumer.begin(WORKER).unwrap());
    let done = disk.0.borrow().done;
    disk.0.borrow_mut().fails = vec![done];
    let error = Journal::on(disk.clone()).unwrap_err();
    assert_eq!(error.to_string(), "not durable");
}
