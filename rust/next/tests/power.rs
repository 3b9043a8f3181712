//! Power failures, killed processes and errors on a disk that keeps no order between two syncs: after each, a restart finds what the book
//! of docs/SPEC.md says, and demand 3's three promises and the bound over the batch hold. Nothing here knows how the state is kept.

mod common;

use common::{configuration, Book, Disk, Fate, Random, Simulated, WORKER};
use ironbus_delivery_state::{
    CheckpointError, Configuration, Consumer, Failed, Generation, Journal, LeaseToken, NewJournal,
    Offset, Refusal, Step, Writing, BLOCK,
};
use std::cell::RefCell;
use std::rc::Rc;

/// What comes after a write or a sync that failed.
#[derive(Clone, Copy, Debug, PartialEq, Eq)]
enum Then {
    /// The power failed: each block has a fate by itself, from these numbers.
    PowerFails(u64),
    /// The power failed, and every block that has pending writes has this fate.
    AllAre(Fate),
    /// The power failed in the last write, and the disk had made all before it in order: demand 3's own disk.
    LastIs(Fate),
    /// The process was killed, and the next one has what the system has.
    Killed,
    /// The same process writes all of it again. Its first try may fail after so many writes and syncs.
    Reopens(Option<usize>),
}

impl Then {
    fn random(random: &mut Random) -> Then {
        match random.below(8) {
            0..=3 => Then::PowerFails(random.next()),
            4 => Then::LastIs(Fate::random(random)),
            5 => Then::Killed,
            6 => Then::Reopens(None),
            _ => Then::Reopens(Some(random.below(4) as usize)),
        }
    }
}

/// A list of calls on one journal, and what is known of it.
struct Run {
    random: Random,
    /// What comes after each failure; if nothing is said, anything.
    then: Option<Then>,
    configuration: Configuration,
    offsets: Vec<u64>,
    book: Book,
    disk: Rc<RefCell<Disk>>,
    failures: u64,
    now: u64,
    /// The ceiling of the last checkpoint that was answered.
    seen: Generation,
    tokens: Vec<LeaseToken>,
    /// Tokens from before a restart, or of jobs that a commit closed: refused ever after.
    stale: Vec<LeaseToken>,
}

impl Run {
    fn new(blocks: usize, seed: u64, then: Option<Then>) -> Run {
        let mut random = Random(seed);
        let limit = 1 + random.below(3) as u32;
        let threshold = 1 + random.below(3) as u32;
        let configuration =
            configuration(limit, threshold, 4 + random.below(8), 12 + random.below(8));
        let mut offsets: Vec<u64> = (0..3 + random.below(9)).collect();
        offsets.extend([40, 41, 1000, u64::MAX - 1, u64::MAX]);
        Run {
            random,
            then,
            configuration,
            offsets,
            book: Book::default(),
            disk: Simulated::new(blocks).0,
            failures: 0,
            now: 0,
            seen: Generation::new(0),
            tokens: Vec::new(),
            stale: Vec::new(),
        }
    }

    fn storage(&self) -> Simulated {
        Simulated(Rc::clone(&self.disk))
    }

    fn start(&self) -> Consumer<Simulated> {
        let journal = NewJournal::on(self.storage()).unwrap();
        Consumer::start(&self.configuration, journal).unwrap()
    }

    fn restart(&mut self, journal: Journal<Simulated>) -> Consumer<Simulated> {
        let consumer = Consumer::restart_at_least(&self.configuration, journal, self.seen)
            .expect("no restart is refused, and no journal is older than was seen");
        self.stale.append(&mut self.tokens);
        self.book.restarted(&consumer, &self.offsets);
        consumer
    }

    /// What the disk failed in is resolved, and the journal is read again.
    fn resolved(&mut self, failed: Failed<Simulated>) -> Journal<Simulated> {
        let then = self.then.unwrap_or_else(|| Then::random(&mut self.random));
        match then {
            Then::PowerFails(seed) => {
                let mut random = Random(seed);
                let mut disk = self.disk.borrow_mut();
                disk.power_fails(|_| Fate::random(&mut random));
            }
            Then::AllAre(fate) => self.disk.borrow_mut().power_fails(|_| fate),
            Then::LastIs(fate) => {
                let mut disk = self.disk.borrow_mut();
                if let Some(last) = disk.pending.pop() {
                    disk.held = disk.shown();
                    disk.pending = vec![last];
                    disk.power_fails(|_| fate);
                }
            }
            Then::Killed => {}
            Then::Reopens(fails_in) => {
                self.disk.borrow_mut().fails_in = fails_in;
                let journal = failed.reopen();
                // Nothing is forgotten by a try that failed.
                let journal = journal.or_else(|again| {
                    self.disk.borrow_mut().fails_in = None;
                    again.reopen()
                });
                self.disk.borrow_mut().fails_in = None;
                return journal.unwrap();
            }
        }
        drop(failed);
        Journal::on(self.storage()).unwrap()
    }

    /// A checkpoint, in which the disk may fail, or which may be given up.
    fn checkpoint(&mut self, consumer: Consumer<Simulated>) -> Consumer<Simulated> {
        let mut writing = consumer.begin(WORKER).expect("there is always room");
        if self.then.is_none() && self.random.below(16) == 0 {
            return self.give_up(writing);
        }
        loop {
            match writing.step() {
                Ok(Step::Wrote { writing: next, .. }) => writing = next,
                Ok(Step::Finished { consumer, .. }) => {
                    assert!(self.disk.borrow().pending.is_empty());
                    self.book.header_written();
                    assert!(consumer.ceiling(WORKER).unwrap() >= self.seen);
                    self.seen = consumer.ceiling(WORKER).unwrap();
                    return consumer;
                }
                Err(failed) => return self.after(failed),
            }
        }
    }

    /// After a failure.
    fn after(&mut self, failed: Failed<Simulated>) -> Consumer<Simulated> {
        self.failures += 1;
        let header = self.disk.borrow().pending_header();
        let journal = self.resolved(failed);
        assert!(self.disk.borrow().pending.is_empty());
        if header.is_some_and(|(block, bytes)| has(&journal, block, &bytes)) {
            self.book.header_written();
        }
        self.restart(journal)
    }

    /// A checkpoint that is given up before its header, if it gets so far.
    fn give_up(&mut self, mut writing: Writing<Simulated>) -> Consumer<Simulated> {
        let steps = self.random.below(writing.writes_left() as u64);
        for _ in 0..steps {
            match writing.step() {
                Ok(Step::Wrote { writing: next, .. }) => writing = next,
                Ok(Step::Finished { .. }) => unreachable!("the header isn't among these steps"),
                Err(failed) => return self.after(failed),
            }
        }
        match writing.into_journal() {
            Ok(journal) => {
                assert!(self.disk.borrow().pending.is_empty());
                self.restart(journal)
            }
            Err(failed) => self.after(failed),
        }
    }

    fn claim(&mut self, consumer: &mut Consumer<Simulated>) -> bool {
        let offset = self.random.pick(&self.offsets);
        match consumer.claim(WORKER, Offset::new(offset), self.now) {
            Ok(hand_out) => {
                let token = hand_out.token();
                assert_eq!(token.offset.get(), offset);
                assert!(token.generation < self.seen);
                self.book.handed_out(hand_out);
                self.tokens.push(token);
                false
            }
            Err(refusal) => refusal == Refusal::CheckpointDue,
        }
    }

    /// A call under a token of now or of long ago.
    fn under_a_token(&mut self, consumer: &mut Consumer<Simulated>) {
        let old = !self.stale.is_empty() && self.random.below(4) == 0;
        let list = if old { &self.stale } else { &self.tokens };
        if list.is_empty() {
            return;
        }
        let token = self.random.pick(list);
        let offset = token.offset.get();
        let result = match self.random.below(4) {
            0 => consumer
                .ack(WORKER, token)
                .map(|()| self.book.settled(offset)),
            1 => consumer
                .term(WORKER, token)
                .map(|()| self.book.settled(offset)),
            2 => {
                let delay = (self.random.below(2) == 0).then_some(5);
                consumer.nack(WORKER, token, self.now, delay).map(drop)
            }
            _ => consumer.progress(WORKER, token, self.now).map(drop),
        };
        if old {
            assert_eq!(
                result,
                Err(Refusal::Fenced),
                "a token from before a restart or a commit"
            );
        }
    }

    fn commit(&mut self, consumer: &mut Consumer<Simulated>) {
        let bound = self.random.below(6);
        consumer
            .commit(WORKER, Offset::new(bound))
            .expect("no commit is refused to who may");
        self.book.committed(bound);
        // Whoever holds a job below the bound comes too late from now on.
        let tokens = std::mem::take(&mut self.tokens);
        let (late, kept): (Vec<_>, Vec<_>) = tokens
            .into_iter()
            .partition(|token| token.offset.get() < bound);
        self.stale.extend(late);
        self.tokens = kept;
    }

    /// One call of the list.
    fn call(&mut self, mut consumer: Consumer<Simulated>) -> Consumer<Simulated> {
        self.now = match self.random.below(8) {
            0 => self.random.below(40),
            1..=4 => self.now + self.random.below(6),
            _ => self.now,
        };
        match self.random.below(16) {
            0..=6 => {
                if self.claim(&mut consumer) {
                    return self.checkpoint(consumer);
                }
            }
            7..=11 => self.under_a_token(&mut consumer),
            12 => self.commit(&mut consumer),
            13 => return self.checkpoint(consumer),
            14 => {
                if self.random.below(3) == 0 {
                    return self.restart(consumer.into_journal().unwrap());
                }
            }
            _ => self.book.compare(&consumer, &self.offsets),
        }
        consumer
    }
}

/// Whether a journal has a block.
fn has(journal: &Journal<Simulated>, block: usize, bytes: &[u8; BLOCK]) -> bool {
    journal.bytes()[BLOCK * block..BLOCK * (block + 1)] == *bytes
}

/// A list of calls with failures at random writes and syncs, on a journal of so many blocks; answers what was done.
fn random_list(seed: u64, calls: usize, blocks: usize) -> Run {
    let mut run = Run::new(blocks, seed, None);
    let mut consumer = run.start();
    for _ in 0..calls {
        if run.disk.borrow().fails_in.is_none() && run.random.below(5) == 0 {
            let left = run.random.below(14) as usize;
            run.disk.borrow_mut().fails_in = Some(left);
        }
        consumer = run.call(consumer);
    }
    run.book.holds_the_bounds(&run.configuration);
    run
}

#[test]
fn a_hundred_thousand_random_lists_keep_the_book() {
    let mut failures = 0;
    for seed in 0..100_000 {
        // Half of them on the shortest journal, where the halves change soonest.
        let blocks = 18 + 2 * (seed as usize % 112).saturating_sub(56);
        failures += random_list(seed, 40, blocks).failures;
    }
    assert!(failures > 100_000, "{failures} failures");
}

/// Lists that are long enough for dozens of changes between the halves, on the shortest journal and on one of 20 blocks, of whose halves
/// the blocks are an even number.
#[test]
fn dozens_of_changes_between_the_halves_keep_the_book() {
    for seed in 0..60 {
        let run = random_list(seed, 2000, 18 + 2 * (seed as usize % 2));
        let disk = run.disk.borrow();
        assert!(disk.zeroed >= 24 * 9, "{} blocks zeroed", disk.zeroed);
        assert!(disk.failed_zeros >= 5, "{} in zeroing", disk.failed_zeros);
    }
}

/// A list of calls that is always the same, with a checkpoint after every few: the halves change three times. Answers how many writes and
/// syncs it has.
fn fixed_list(fails_in: Option<usize>, then: Then) -> usize {
    let mut run = Run::new(18, 7, Some(then));
    let mut consumer = run.start();
    let before = run.disk.borrow().syncs;
    run.disk.borrow_mut().fails_in = fails_in;
    for turn in 0..60 {
        if turn % 4 == 0 {
            consumer = run.checkpoint(consumer);
        }
        consumer = run.call(consumer);
    }
    run.book.holds_the_bounds(&run.configuration);
    assert_eq!(run.failures, u64::from(fails_in.is_some()));
    drop(consumer);
    let disk = run.disk.borrow();
    disk.writes + disk.syncs - before
}

#[test]
fn every_write_and_every_sync_of_a_list_fails_in_every_way() {
    let all = fixed_list(None, Then::Killed);
    assert!(all > 80, "{all} writes and syncs");
    let fates = [
        Fate::Held,
        Fate::Written(0),
        Fate::Written(1),
        Fate::Torn(1),
        Fate::Torn(256),
        Fate::Torn(508),
        Fate::Torn(511),
    ];
    for at in 0..all {
        for fate in fates.into_iter().chain([Fate::Noise(at as u64)]) {
            fixed_list(Some(at), Then::AllAre(fate));
            fixed_list(Some(at), Then::LastIs(fate));
        }
        for seed in 0..8 {
            fixed_list(Some(at), Then::PowerFails(seed * 1000 + at as u64));
        }
        fixed_list(Some(at), Then::Killed);
        for fails_in in [None, Some(0), Some(1), Some(2)] {
            fixed_list(Some(at), Then::Reopens(fails_in));
        }
    }
}

// ## Every combination

/// A consumer on so many blocks with so many ranges and leases, after so many checkpoints.
struct Prepared {
    consumer: Consumer<Simulated>,
    disk: Rc<RefCell<Disk>>,
    book: Book,
    offsets: Vec<u64>,
}

fn settings() -> Configuration {
    configuration(9, 999, 10, 25)
}

impl Prepared {
    fn new(blocks: usize, ranges: u64, leases: u64, checkpoints: u64) -> Prepared {
        let storage = Simulated::new(blocks);
        let disk = Rc::clone(&storage.0);
        let consumer = Consumer::start(&settings(), NewJournal::on(storage).unwrap()).unwrap();
        let mut prepared = Prepared {
            consumer: consumer.checkpoint(WORKER).unwrap(),
            disk,
            book: Book::default(),
            offsets: vec![0, 500, 2000],
        };
        for range in 0..ranges {
            prepared.settle(2 * range + 1);
        }
        for lease in 0..leases {
            prepared.claim(1000 + lease);
        }
        for checkpoint in 0..checkpoints {
            prepared.consumer = prepared.consumer.checkpoint(WORKER).unwrap();
            prepared.book.header_written();
            // Offsets below the ranges' last, so that no two checkpoints are the same and none has more blocks.
            prepared.settle(256 + checkpoint);
        }
        prepared
    }

    fn claim(&mut self, offset: u64) -> LeaseToken {
        let hand_out = self.consumer.claim(WORKER, Offset::new(offset), 0).unwrap();
        self.book.handed_out(hand_out);
        self.offsets.push(offset);
        hand_out.token()
    }

    fn settle(&mut self, offset: u64) {
        let token = self.claim(offset);
        self.consumer.ack(WORKER, token).unwrap();
        self.book.settled(offset);
    }

    /// The next checkpoint, of so many block writes: whatever is lost, torn or reordered of what is pending after any of them, a restart
    /// finds the checkpoint before, or this one if its header is there. Every combination is tried of up to so many, and some if there are
    /// more. Answers how many they were.
    fn combinations(self, writes: usize, most: usize) -> usize {
        let begun = self.consumer.begin(WORKER).unwrap();
        assert_eq!(begun.writes_left(), writes);
        self.disk.borrow_mut().moments = Some(Vec::new());
        drop(begun.finish().unwrap());
        let moments = self.disk.borrow_mut().moments.take().unwrap();
        assert_eq!(moments.len(), writes);
        let [before, after] = [self.book.copy, self.book.page].map(|page| Book {
            page,
            ..Book::default()
        });
        let mut tried = 0;
        for moment in &moments {
            let header = moment.pending_header();
            let mut random = Random(tried as u64);
            for left in combinations(moment, most, &mut random) {
                let journal = Journal::on(Simulated::on(left)).unwrap();
                let new = header.is_some_and(|(block, bytes)| has(&journal, block, &bytes));
                let book = if new { &after } else { &before };
                let consumer =
                    Consumer::restart(&settings(), journal).expect("no restart is refused");
                book.compare(&consumer, &self.offsets);
                // What is left of it doesn't disturb the next checkpoint.
                let journal = consumer.checkpoint(WORKER).unwrap().into_journal().unwrap();
                let consumer = Consumer::restart(&settings(), journal).unwrap();
                book.compare(&consumer, &self.offsets);
                tried += 1;
            }
        }
        tried
    }
}

/// What a power failure may leave of a disk: each block with pending writes as it was held, as any of its writes, or torn. That is every
/// combination, if there are up to so many, and otherwise 200 of them.
fn combinations<'a>(
    disk: &'a Disk,
    most: usize,
    random: &'a mut Random,
) -> impl Iterator<Item = Disk> + 'a {
    let mut outcomes = Vec::new();
    for block in disk.pending_blocks() {
        let (held, writes) = disk.block(block);
        let mut fates = vec![Fate::Held];
        fates.extend((0..writes.len()).map(Fate::Written));
        fates.push(match random.below(2) {
            0 => Fate::Noise(random.next()),
            _ => Fate::Torn(random.pick(&[1, 256, 508, 511])),
        });
        let left = fates.into_iter().map(|fate| fate.leaves(held, &writes));
        outcomes.push((block, left.collect::<Vec<_>>()));
    }
    let all = outcomes
        .iter()
        .try_fold(1, |all: usize, left| all.checked_mul(left.1.len()));
    let all = all.filter(|all| *all <= most);
    (0..all.unwrap_or(200)).map(move |mut number| {
        let mut left = Disk::new(0);
        left.held.clone_from(&disk.held);
        for (block, outcomes) in &outcomes {
            let choice = match all {
                Some(_) => number,
                None => random.next() as usize,
            };
            number /= outcomes.len();
            left.hold(*block, &outcomes[choice % outcomes.len()]);
        }
        left
    })
}

// Checkpoints of 2 to 7 blocks, of which 1 to 6 are pending at once, and then the header.
#[test]
fn pending_writes_are_lost_torn_and_reordered_in_every_combination() {
    let sizes = [(0, 0), (40, 0), (70, 0), (100, 0), (128, 0), (128, 63)];
    for (bodies, (ranges, leases)) in (1..).zip(sizes) {
        let prepared = Prepared::new(128, ranges, leases, 2);
        let tried = prepared.combinations(bodies + 1, 729);
        let wanted = (1..=bodies as u32).map(|n| 3usize.pow(n)).sum::<usize>() + 3;
        assert_eq!(tried, wanted, "{bodies} bodies");
    }
}

// The halves have old groups. Nine zeros and a body are pending at once, and one block has two writes: every combination of them.
#[test]
fn a_change_between_the_halves_in_every_combination() {
    let tried = Prepared::new(18, 0, 0, 7).combinations(9 + 2, 30_000);
    let zeros: usize = (1..=9).map(|n| 3usize.pow(n)).sum();
    assert_eq!(tried, zeros + 3usize.pow(8) * 4 + 3);
    // With the largest checkpoint, and in the longest journal, some of them.
    assert!(Prepared::new(18, 128, 63, 3).combinations(9 + 7, 729) > 1000);
    assert!(Prepared::new(128, 0, 0, 63).combinations(64 + 2, 729) > 10_000);
}

// ## Syncs

// However many blocks a checkpoint has.
#[test]
fn a_checkpoint_takes_two_syncs() {
    for (blocks, ranges, leases, checkpoints, writes) in [
        (18, 0, 0, 2, 2),
        (18, 40, 0, 1, 3),
        (18, 0, 0, 3, 9 + 2),
        (18, 128, 63, 1, 9 + 7),
        (128, 0, 0, 2, 2),
        (128, 40, 0, 2, 3),
        (128, 128, 63, 2, 7),
        (128, 0, 0, 31, 64 + 2),
        (128, 128, 63, 8, 64 + 7),
    ] {
        let prepared = Prepared::new(blocks, ranges, leases, checkpoints);
        let counted = |disk: &Rc<RefCell<Disk>>| [disk.borrow().writes, disk.borrow().syncs];
        let before = counted(&prepared.disk);
        let writing = prepared.consumer.begin(WORKER).unwrap();
        assert_eq!(writing.writes_left(), writes);
        drop(writing.finish().unwrap());
        let after = counted(&prepared.disk);
        assert_eq!([0, 1].map(|n| after[n] - before[n]), [writes, 2]);
    }
}

// Step by step: the body is durable before the header is written, and the header before the consumer is given back.
#[test]
fn the_header_is_written_when_nothing_is_pending() {
    let prepared = Prepared::new(18, 40, 0, 0);
    let pending = || prepared.disk.borrow().pending_blocks().len();
    let mut writing = prepared.consumer.begin(WORKER).unwrap();
    for (left, waits) in [(3, 1), (2, 0)] {
        assert_eq!(writing.writes_left(), left);
        let Step::Wrote { writing: next, .. } = writing.step().unwrap() else {
            panic!("the header comes last");
        };
        assert_eq!(pending(), waits);
        writing = next;
    }
    let Step::Finished { .. } = writing.step().unwrap() else {
        panic!("the header comes last");
    };
    assert_eq!(pending(), 0);
}

// ## Errors and bounds

fn checkpointed(consumer: Consumer<Simulated>, book: &mut Book) -> Consumer<Simulated> {
    book.header_written();
    consumer.checkpoint(WORKER).unwrap()
}

/// Offsets 0 and 1 are handed out twice each, a restart loses these counts, and then they are handed out three times each: with M 3 and
/// N 2 that is 2 × 2 + 1 × 2 repeated deliveries.
#[test]
fn the_bound_over_the_batch_is_met() {
    let configuration = configuration(3, 2, 10, 25);
    let mut book = Book::default();
    let hand_out_both = |consumer: &mut Consumer<Simulated>, book: &mut Book, now: u64| {
        for offset in [0, 1] {
            book.handed_out(consumer.claim(WORKER, Offset::new(offset), now).unwrap());
        }
    };
    let journal = NewJournal::on(Simulated::new(18)).unwrap();
    let consumer = Consumer::start(&configuration, journal).unwrap();
    let mut consumer = checkpointed(consumer, &mut book);
    hand_out_both(&mut consumer, &mut book, 0);
    hand_out_both(&mut consumer, &mut book, 10);
    let consumer = Consumer::restart(&configuration, consumer.into_journal().unwrap()).unwrap();
    book.restarted(&consumer, &[0, 1]);
    let mut consumer = checkpointed(consumer, &mut book);
    hand_out_both(&mut consumer, &mut book, 20);
    hand_out_both(&mut consumer, &mut book, 30);
    let mut consumer = checkpointed(consumer, &mut book);
    hand_out_both(&mut consumer, &mut book, 40);
    assert_eq!(book.repeated, 6);
    book.holds_the_bounds(&configuration);
}

#[test]
fn after_an_error_only_a_restart_is_left() {
    let storage = Simulated::new(128);
    let disk = Rc::clone(&storage.0);
    let journal = NewJournal::on(storage).unwrap();
    let consumer = Consumer::start(&configuration(2, 1, 10, 25), journal).unwrap();
    let mut consumer = consumer.checkpoint(WORKER).unwrap();
    let token = consumer.claim(WORKER, Offset::new(0), 0).unwrap().token();
    disk.borrow_mut().fails_in = Some(0);
    let Err(CheckpointError::Failed(failed)) = consumer.checkpoint(WORKER) else {
        panic!("the disk failed");
    };
    assert_eq!(failed.error().to_string(), "the disk failed");
    assert_eq!((failed.block(), failed.blocks()), (Some(3), &[3][..]));
    let journal = failed.reopen().unwrap();
    let mut consumer = Consumer::restart(&configuration(2, 1, 10, 25), journal).unwrap();
    assert_eq!(consumer.ack(WORKER, token), Err(Refusal::Fenced));
    assert_eq!(consumer.count_of(WORKER, Offset::new(0)).unwrap(), 0);
}
