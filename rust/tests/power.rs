//! Power failures and errors at the block writes of a real file: after each, a restart finds what the book of docs/SPEC.md says, and
//! demand 3's three promises and the bound over the batch hold. Nothing here knows how the state is kept.

mod common;

use common::{configuration, fresh_path, Book, Cut, Cuttable, Power, Random, WORKER};
use ironbus_delivery_state::{
    CheckpointError, Configuration, Consumer, Generation, Journal, LeaseToken, NewJournal, Offset,
    Refusal,
};
use std::cell::RefCell;
use std::path::{Path, PathBuf};
use std::rc::Rc;

/// What comes after a write that failed: another process, as after a power failure, or the same one, which reopens the journal.
#[derive(Clone, Copy, Debug, PartialEq, Eq)]
enum Then {
    AnotherProcess,
    Reopened,
}

/// A list of calls on one journal, and what is known of it.
struct Run {
    random: Random,
    path: PathBuf,
    then: Vec<Then>,
    configuration: Configuration,
    offsets: Vec<u64>,
    book: Book,
    power: Rc<RefCell<Power>>,
    cuts: u64,
    now: u64,
    /// The ceiling of the last checkpoint that was answered.
    seen: Generation,
    tokens: Vec<LeaseToken>,
    /// Tokens from before a restart, or of jobs that a commit closed: refused ever after.
    stale: Vec<LeaseToken>,
    refused: u64,
}

impl Run {
    fn new(path: &Path, seed: u64, then: &[Then]) -> Run {
        let mut random = Random(seed);
        let limit = 1 + random.below(3) as u32;
        let threshold = 1 + random.below(3) as u32;
        let configuration =
            configuration(limit, threshold, 4 + random.below(8), 12 + random.below(8));
        let mut offsets: Vec<u64> = (0..3 + random.below(9)).collect();
        offsets.extend([40, 41, 1000, u64::MAX - 1, u64::MAX]);
        Run {
            random,
            path: path.to_owned(),
            then: then.to_vec(),
            configuration,
            offsets,
            book: Book::default(),
            power: Rc::default(),
            cuts: 0,
            now: 0,
            seen: Generation::new(0),
            tokens: Vec::new(),
            stale: Vec::new(),
            refused: 0,
        }
    }

    fn restart(&mut self, journal: Journal<Cuttable>) -> Consumer<Cuttable> {
        let consumer = Consumer::restart_at_least(&self.configuration, journal, self.seen)
            .expect("no restart is refused, and no journal is older than was seen");
        self.stale.append(&mut self.tokens);
        self.book.restarted(&consumer, &self.offsets);
        consumer
    }

    /// A checkpoint, whose power may fail at some write.
    fn checkpoint(&mut self, consumer: Consumer<Cuttable>) -> Consumer<Cuttable> {
        let writing = consumer.begin(WORKER).expect("there is always room");
        match writing.finish() {
            Ok(consumer) => {
                self.book.header_written();
                assert!(consumer.ceiling() >= self.seen);
                self.seen = consumer.ceiling();
                consumer
            }
            Err(failed) => {
                self.cuts += 1;
                let [left_new, writing] = {
                    let mut power = self.power.borrow_mut();
                    [power.left_new.take(), power.writing.take()]
                };
                let (journal, found) = match self.random.pick(&self.then) {
                    Then::AnotherProcess => {
                        drop(failed);
                        let file = Cuttable::again(&self.path, &self.power);
                        (Journal::on(file).unwrap(), left_new)
                    }
                    // The block is written once more.
                    Then::Reopened => (failed.reopen().unwrap(), writing),
                };
                // The header is the block of kind 1.
                if found.is_some_and(|block| block[0] == 1) {
                    self.book.header_written();
                }
                self.restart(journal)
            }
        }
    }

    fn claim(&mut self, consumer: &mut Consumer<Cuttable>) -> bool {
        let offset = self.random.pick(&self.offsets);
        match consumer.claim(WORKER, Offset::new(offset), self.now) {
            Ok(hand_out) => {
                let token = hand_out.token();
                assert_eq!(token.offset.get(), offset);
                assert!(token.generation < self.seen);
                self.book.handed_out(hand_out);
                self.tokens.push(token);
                false
            }
            Err(refusal) => {
                self.refused += 1;
                refusal == Refusal::CheckpointDue
            }
        }
    }

    /// A call under a token of now or of long ago.
    fn under_a_token(&mut self, consumer: &mut Consumer<Cuttable>) {
        let old = !self.stale.is_empty() && self.random.below(4) == 0;
        let list = if old { &self.stale } else { &self.tokens };
        if list.is_empty() {
            return;
        }
        let token = self.random.pick(list);
        let offset = token.offset.get();
        let result = match self.random.below(4) {
            0 => consumer
                .ack(WORKER, token)
                .map(|()| self.book.settled(offset)),
            1 => consumer
                .term(WORKER, token)
                .map(|()| self.book.settled(offset)),
            2 => {
                let delay = (self.random.below(2) == 0).then_some(5);
                consumer.nack(WORKER, token, self.now, delay).map(drop)
            }
            _ => consumer.progress(WORKER, token, self.now).map(drop),
        };
        if old {
            assert_eq!(
                result,
                Err(Refusal::Fenced),
                "a token from before a restart or a commit"
            );
        }
        self.refused += u64::from(result.is_err());
    }

    fn commit(&mut self, consumer: &mut Consumer<Cuttable>) {
        let bound = self.random.below(6);
        consumer
            .commit(WORKER, Offset::new(bound))
            .expect("no commit is refused to who may");
        self.book.committed(bound);
        // Whoever holds a job below the bound comes too late from now on.
        let tokens = std::mem::take(&mut self.tokens);
        let (late, kept): (Vec<_>, Vec<_>) = tokens
            .into_iter()
            .partition(|token| token.offset.get() < bound);
        self.stale.extend(late);
        self.tokens = kept;
    }

    /// One call of the list.
    fn call(&mut self, mut consumer: Consumer<Cuttable>) -> Consumer<Cuttable> {
        self.now = match self.random.below(8) {
            0 => self.random.below(40),
            1..=4 => self.now + self.random.below(6),
            _ => self.now,
        };
        let due = consumer.is_due(WORKER).unwrap().is_due();
        assert_eq!(consumer.checkpoint_due(), due);
        match self.random.below(16) {
            0..=6 => {
                if self.claim(&mut consumer) {
                    return self.checkpoint(consumer);
                }
            }
            7..=11 => self.under_a_token(&mut consumer),
            12 => self.commit(&mut consumer),
            13 => return self.checkpoint(consumer),
            14 => {
                if self.random.below(3) == 0 {
                    return self.restart(consumer.into_journal());
                }
            }
            _ => self.book.compare(&consumer, &self.offsets),
        }
        consumer
    }
}

fn cut_of(random: &mut Random) -> Cut {
    match random.below(4) {
        0 => Cut::Old,
        1 => Cut::New,
        2 => Cut::Torn(random.below(513) as usize),
        _ => Cut::Noise(random.next()),
    }
}

/// A list of calls with power failures at random writes, on a journal of so many blocks; answers what was done.
fn random_list(path: &Path, seed: u64, calls: usize, blocks: usize) -> Run {
    let mut run = Run::new(path, seed, &[Then::AnotherProcess, Then::Reopened]);
    let journal = NewJournal::on(Cuttable::new(path, blocks, &run.power)).unwrap();
    let mut consumer = Consumer::start(&run.configuration, journal).unwrap();
    for _ in 0..calls {
        if run.power.borrow().cut.is_none() && run.random.below(6) == 0 {
            let cut = cut_of(&mut run.random);
            let left = run.random.below(12) as usize;
            run.power.borrow_mut().cut = Some((left, cut));
        }
        consumer = run.call(consumer);
    }
    run.book.holds_the_bounds(&run.configuration);
    run
}

#[test]
fn random_lists_keep_the_book() {
    let path = fresh_path("random-lists");
    let mut cuts = 0;
    for seed in 0..3000 {
        let blocks = 18 + 2 * (seed as usize % 56);
        cuts += random_list(&path, seed, 120, blocks).cuts;
    }
    assert!(cuts > 1000);
}

/// Lists that are long enough for dozens of changes between the halves, on the shortest journal and on one of 20 blocks, of whose halves
/// the blocks are an even number.
#[test]
fn dozens_of_changes_between_the_halves_keep_the_book() {
    let path = fresh_path("changes");
    for seed in 0..60 {
        let run = random_list(&path, seed, 2000, 18 + 2 * (seed as usize % 2));
        let power = run.power.borrow();
        assert!(power.zeroed >= 24 * 9, "{} blocks zeroed", power.zeroed);
        assert!(power.cut_zeros >= 5, "{} cuts in zeroing", power.cut_zeros);
    }
}

/// A list of calls that is always the same, with a checkpoint after every few: the halves change three times.
fn fixed_list(path: &Path, cut: Option<(usize, Cut)>, then: Then) -> usize {
    let mut run = Run::new(path, 7, &[then]);
    run.power.borrow_mut().cut = cut;
    let journal = NewJournal::on(Cuttable::new(path, 18, &run.power)).unwrap();
    let mut consumer = Consumer::start(&run.configuration, journal).unwrap();
    for turn in 0..60 {
        if turn % 4 == 0 {
            consumer = run.checkpoint(consumer);
        }
        consumer = run.call(consumer);
    }
    run.book.holds_the_bounds(&run.configuration);
    drop(consumer);
    let writes = run.power.borrow().writes;
    writes
}

#[test]
fn every_write_of_a_list_is_cut_in_every_way() {
    let path = fresh_path("every-write");
    let writes = fixed_list(&path, None, Then::AnotherProcess);
    assert!(writes > 50);
    for at in 0..writes {
        for cut in [
            Cut::Old,
            Cut::New,
            Cut::Torn(1),
            Cut::Torn(256),
            Cut::Torn(508),
            Cut::Torn(511),
            Cut::Noise(at as u64),
        ] {
            for then in [Then::AnotherProcess, Then::Reopened] {
                fixed_list(&path, Some((at, cut)), then);
            }
        }
    }
}

fn checkpointed(consumer: Consumer<Cuttable>, book: &mut Book) -> Consumer<Cuttable> {
    book.header_written();
    consumer.checkpoint(WORKER).unwrap()
}

/// Offsets 0 and 1 are handed out twice each, a restart loses these counts, and then they are handed out three times each: with M 3 and
/// N 2 that is 2 × 2 + 1 × 2 repeated deliveries.
#[test]
fn the_bound_over_the_batch_is_met() {
    let configuration = configuration(3, 2, 10, 25);
    let file = Cuttable::new(&fresh_path("batch"), 18, &Rc::default());
    let mut book = Book::default();
    let hand_out_both = |consumer: &mut Consumer<Cuttable>, book: &mut Book, now: u64| {
        for offset in [0, 1] {
            book.handed_out(consumer.claim(WORKER, Offset::new(offset), now).unwrap());
        }
    };
    let consumer = Consumer::start(&configuration, NewJournal::on(file).unwrap()).unwrap();
    let mut consumer = checkpointed(consumer, &mut book);
    hand_out_both(&mut consumer, &mut book, 0);
    hand_out_both(&mut consumer, &mut book, 10);
    let consumer = Consumer::restart(&configuration, consumer.into_journal()).unwrap();
    book.restarted(&consumer, &[0, 1]);
    let mut consumer = checkpointed(consumer, &mut book);
    hand_out_both(&mut consumer, &mut book, 20);
    hand_out_both(&mut consumer, &mut book, 30);
    let mut consumer = checkpointed(consumer, &mut book);
    hand_out_both(&mut consumer, &mut book, 40);
    assert_eq!(book.repeated, 6);
    book.holds_the_bounds(&configuration);
}

#[test]
fn after_an_error_only_a_restart_is_left() {
    let path = fresh_path("an-error");
    let power = Rc::new(RefCell::new(Power {
        cut: Some((2, Cut::Old)),
        ..Power::default()
    }));
    let journal = NewJournal::on(Cuttable::new(&path, 128, &power)).unwrap();
    let consumer = Consumer::start(&configuration(2, 1, 10, 25), journal).unwrap();
    let mut consumer = consumer.checkpoint(WORKER).unwrap();
    let token = consumer.claim(WORKER, Offset::new(0), 0).unwrap().token();
    let Err(CheckpointError::Failed(failed)) = consumer.checkpoint(WORKER) else {
        panic!("the disk failed");
    };
    assert_eq!(failed.error().to_string(), "the power failed");
    let journal = failed.reopen().unwrap();
    let mut consumer = Consumer::restart(&configuration(2, 1, 10, 25), journal).unwrap();
    assert_eq!(consumer.ack(WORKER, token), Err(Refusal::Fenced));
    assert_eq!(consumer.count_of(WORKER, Offset::new(0)).unwrap(), 0);
}
