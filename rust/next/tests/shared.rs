//! The shared consumer: what it does by itself, and what it says when it can't. The disk here forgets what could not be made durable, and
//! reads it back until the machine goes down.

mod common;

use std::collections::{BTreeMap, BTreeSet};
use std::fs;
use std::io;
use std::panic::{catch_unwind, AssertUnwindSafe};
use std::path::PathBuf;
use std::sync::atomic::{AtomicU64, Ordering};
use std::sync::{Arc, Mutex};
use std::thread;

use common::{configuration, fresh_path, Random, WORKER};
use ironbus_delivery_state::{
    Area, CeilingError, CeilingFile, Configuration, Consumer, Generation, HandOut, Journal,
    JournalError, LeaseToken, NewJournal, Offset, Refusal, Remedy, Rights, SharedConsumer,
    SharedError, Storage, WorkerId, BLOCK,
};

fn settings() -> Configuration {
    configuration(3, 2, 1000, 5000)
}

// ## A disk that fails when it is told to

#[derive(Default)]
struct Disk {
    memory: Vec<u8>,
    durable: Vec<u8>,
    dirty: BTreeSet<usize>,
    /// Which writes and syncs from now on fail: each of the next ones, by whether it does.
    fails: Vec<bool>,
    panics: bool,
    displaced: bool,
}

#[derive(Clone)]
struct Worn(Arc<Mutex<Disk>>);

impl Worn {
    fn new() -> Worn {
        let zeros = vec![0; 18 * BLOCK];
        Worn(Arc::new(Mutex::new(Disk {
            memory: zeros.clone(),
            durable: zeros,
            ..Disk::default()
        })))
    }

    fn with<R>(&self, change: impl FnOnce(&mut Disk) -> R) -> R {
        change(&mut self.0.lock().unwrap())
    }

    fn fails(&self, fails: &[bool]) {
        self.with(|disk| disk.fails = fails.iter().rev().copied().collect());
    }

    fn journal(&self) -> Journal<Worn> {
        Journal::on(self.clone()).unwrap()
    }
}

impl Disk {
    fn does(&mut self) -> io::Result<()> {
        assert!(!self.panics, "the storage panics");
        match self.fails.pop() {
            Some(true) => Err(io::Error::other("worn out")),
            _ => Ok(()),
        }
    }
}

impl Storage for Worn {
    fn read(&mut self) -> io::Result<Area> {
        Ok(self.with(|disk| disk.memory.clone()).into())
    }

    fn write_block(&mut self, block: usize, bytes: &[u8; BLOCK]) -> io::Result<()> {
        // The lock is given up before a panic, so that the test can go on with the disk.
        let mut disk = self.0.lock().unwrap();
        if disk.panics {
            drop(disk);
            panic!("the storage panics");
        }
        disk.memory[BLOCK * block..BLOCK * (block + 1)].copy_from_slice(bytes);
        disk.dirty.insert(block);
        disk.does()
    }

    fn sync(&mut self) -> io::Result<()> {
        self.with(|disk| {
            let done = disk.does();
            for block in std::mem::take(&mut disk.dirty) {
                // What can't be made durable is forgotten.
                if done.is_ok() {
                    let place = BLOCK * block..BLOCK * (block + 1);
                    disk.durable[place.clone()].copy_from_slice(&disk.memory[place]);
                }
            }
            done
        })
    }

    fn check(&mut self) -> io::Result<()> {
        match self.with(|disk| disk.displaced) {
            true => Err(io::Error::other("the disk was unplugged")),
            false => Ok(()),
        }
    }
}

fn shared_on(disk: &Worn) -> SharedConsumer<Worn> {
    SharedConsumer::on(disk.journal(), None, &settings()).unwrap()
}

fn claimed<S: Storage>(shared: &SharedConsumer<S>, offset: u64) -> LeaseToken {
    shared
        .claim(WORKER, Offset::new(offset), 0)
        .unwrap()
        .token()
}

fn is_settled<S: Storage>(shared: &SharedConsumer<S>, offset: u64) -> bool {
    let offset = Offset::new(offset);
    shared
        .look(|consumer| consumer.is_settled(WORKER, offset))
        .unwrap()
}

/// Both files of a server, that aren't there.
fn files(name: &str) -> [PathBuf; 2] {
    ["journal", "seen"].map(|end| fresh_path(&format!("shared-{name}.{end}")))
}

fn created(name: &str) -> [PathBuf; 2] {
    let [journal, seen] = files(name);
    let ceiling = Some(CeilingFile::new(&seen));
    SharedConsumer::create(&journal, ceiling, 18, Generation::default(), &settings()).unwrap();
    [journal, seen]
}

fn opened([journal, seen]: &[PathBuf; 2]) -> Result<SharedConsumer, SharedError> {
    SharedConsumer::open(journal, seen, &settings())
}

// ## What it is

fn is_shared<T: Clone + Send + Sync + 'static>() {}

fn is_an_error<E: std::error::Error + Send + Sync + 'static>() {}

#[test]
fn threads_can_have_it() {
    is_shared::<SharedConsumer>();
    is_shared::<SharedConsumer<Worn>>();
    is_an_error::<SharedError>();
    is_an_error::<CeilingError>();
}

// ## What it does

// Nobody else makes a checkpoint, and no claim is refused for want of one: 4,096 generations go with the first, and two redeliveries make
// another due.
#[test]
fn checkpoints_are_made_when_they_are_due() {
    let shared = shared_on(&Worn::new());
    let mut generations = BTreeSet::new();
    for round in 0..9000 {
        let token = claimed(&shared, 0);
        assert!(generations.insert(token.generation), "{round}");
        // At the ceiling a nack needs a checkpoint too.
        assert_eq!(shared.nack(WORKER, token, 0, Some(0)).unwrap(), 0);
        if round % 2 == 0 {
            assert!(!shared
                .look(|consumer| Ok(consumer.is_due(WORKER)?.ceiling))
                .unwrap());
        }
    }
    assert_eq!(shared.restarts(), 0);
}

#[test]
fn the_other_calls_are_the_consumers() {
    let shared = shared_on(&Worn::new());
    let [first, second, third] = [0, 1, 2].map(|offset| claimed(&shared, offset));
    shared.ack(WORKER, first).unwrap();
    shared.term(WORKER, second).unwrap();
    assert_eq!(shared.progress(WORKER, third, 7).unwrap(), 1007);
    assert!(shared.commit(WORKER, Offset::new(9)).unwrap());
    assert!(!shared.clone().commit(WORKER, Offset::new(9)).unwrap());
    for refused in [
        shared.ack(WORKER, third),
        shared.term(WORKER, third),
        shared.nack(WORKER, third, 7, None).map(drop),
        shared.progress(WORKER, third, 7).map(drop),
    ] {
        assert_eq!(refused.unwrap_err().refusal(), Some(Refusal::Fenced));
    }
    let refused = shared.claim(WORKER, Offset::new(8), 0).unwrap_err();
    assert_eq!(refused.refusal(), Some(Refusal::Settled));
    let refused = shared.look(|consumer| consumer.committed(WorkerId::new(1)));
    assert_eq!(refused.unwrap_err().refusal(), Some(Refusal::NotPermitted));
}

// A task that was cancelled: what it called was made, and just the answer is lost.
#[test]
fn a_call_whose_answer_is_lost_was_made() {
    let shared = shared_on(&Worn::new());
    let job = Offset::new(0);
    let _ = shared.claim(WORKER, job, 0).unwrap();
    let held = shared.claim(WORKER, job, 999).unwrap_err();
    assert_eq!(held.refusal(), Some(Refusal::InFlight));
    let again = shared.claim(WORKER, job, 1000).unwrap();
    assert_eq!(again.deliveries(), 2);
    drop(shared.ack(WORKER, again.token()));
    let refused = shared.ack(WORKER, again.token()).unwrap_err();
    assert_eq!(refused.refusal(), Some(Refusal::Fenced));
    assert!(is_settled(&shared, 0));
}

// The last ceiling is durable before anything is handed out below it.
#[test]
fn the_ceiling_is_kept_before_a_hand_out() {
    let files = created("kept");
    let seen = || fs::read_to_string(&files[1]).unwrap();
    assert_eq!(seen(), "0 limit 3 threshold 2\n");
    let shared = opened(&files).unwrap();
    assert_eq!(seen(), "0 limit 3 threshold 2\n");
    let token = claimed(&shared, 0);
    assert_eq!(seen(), "4096 limit 3 threshold 2\n");
    shared.ack(WORKER, token).unwrap();
    shared.checkpoint().unwrap();
    assert_eq!(seen(), "4097 limit 3 threshold 2\n");
    drop(shared);
    let shared = opened(&files).unwrap();
    assert!(is_settled(&shared, 0));
    assert!(claimed(&shared, 1).generation >= Generation::new(4097));
}

// Where it can't be kept nothing is handed out, what was is settled all the same, and once it can be all goes on.
#[test]
fn nothing_is_handed_out_before_the_ceiling_is_kept() {
    let [_, seen] = files("unkept");
    let temporary = common::with_end(&seen, ".tmp");
    let _ = fs::remove_dir(&temporary);
    let files = created("unkept");
    let shared = opened(&files).unwrap();
    let token = claimed(&shared, 0);
    // A folder in the place of the file that is renamed: as a disk that is full, it fails each time.
    fs::create_dir(&temporary).unwrap();
    let error = shared.checkpoint().unwrap_err();
    assert!(
        matches!(error, SharedError::Ceiling(CeilingError::Io(_))),
        "{error:?}"
    );
    for _ in 0..2 {
        let error = shared.claim(WORKER, Offset::new(1), 0).unwrap_err();
        assert!(
            matches!(error, SharedError::Ceiling(CeilingError::Io(_))),
            "{error:?}"
        );
        assert_eq!(
            shared.look(|consumer| consumer.in_flight(WORKER)).unwrap(),
            1
        );
    }
    let error = shared.nack(WORKER, token, 0, None).unwrap_err();
    assert!(matches!(error, SharedError::Ceiling(_)), "{error:?}");
    shared.ack(WORKER, token).unwrap();
    fs::remove_dir(&temporary).unwrap();
    let _ = claimed(&shared, 1);
    let seen = fs::read_to_string(&files[1]).unwrap();
    assert_eq!(seen, "4097 limit 3 threshold 2\n");
}

// ## What it refuses to open

#[test]
fn a_journal_that_is_not_the_right_one_is_not_opened() {
    let files = created("refused");
    let [journal, seen] = &files;
    let new = fs::read(journal).unwrap();
    let shared = opened(&files).unwrap();
    let error = opened(&files).unwrap_err();
    assert!(
        matches!(error, SharedError::Journal(JournalError::Locked)),
        "{error:?}"
    );
    assert_eq!(error.remedy(), Remedy::FindOther);
    let _ = claimed(&shared, 0);
    drop(shared);
    let kept = fs::read(journal).unwrap();
    // One that was created anew.
    fs::write(journal, &new).unwrap();
    let error = opened(&files).unwrap_err();
    let older = SharedError::Older {
        found: Generation::new(0),
        seen: Generation::new(4096),
    };
    assert_eq!(error.report(), older.report());
    assert_eq!(error.remedy(), Remedy::Look);
    fs::write(journal, &kept).unwrap();
    // Another configuration.
    for (limit, threshold) in [(4, 2), (3, 1)] {
        let other = configuration(limit, threshold, 1000, 5000);
        let error = SharedConsumer::open(journal, seen, &other).unwrap_err();
        let says = format!(
            "the journal was run with limit 3 threshold 2, and not with limit {limit} threshold {threshold}: the bounds are for one of each"
        );
        assert_eq!(error.to_string(), says);
        assert_eq!(error.remedy(), Remedy::Look);
    }
    // Other times are no other bounds.
    drop(SharedConsumer::open(journal, seen, &configuration(3, 2, 9, 9)).unwrap());
    // A file from before has no configuration, and from the next checkpoint on has it.
    fs::write(seen, "4096").unwrap();
    let shared = opened(&files).unwrap();
    let _ = claimed(&shared, 1);
    drop(shared);
    let text = fs::read_to_string(seen).unwrap();
    assert!(text.ends_with(" limit 3 threshold 2\n"), "{text}");
    // No file, and one with something else.
    fs::write(seen, "the last ceiling").unwrap();
    let error = opened(&files).unwrap_err();
    assert!(matches!(
        error,
        SharedError::Ceiling(CeilingError::NoCeiling)
    ));
    fs::remove_file(seen).unwrap();
    let error = opened(&files).unwrap_err();
    assert!(matches!(error, SharedError::Ceiling(CeilingError::Missing)));
    assert!(!seen.exists());
}

#[test]
fn a_worker_has_to_be_there_who_may_make_checkpoints() {
    let mut nobody = settings();
    nobody.settings.rights[0] = Rights::CLAIM;
    let refused = SharedConsumer::on(Worn::new().journal(), None, &nobody).unwrap_err();
    assert!(matches!(
        refused,
        SharedError::NotRestarted(Refusal::NotPermitted)
    ));
    assert_eq!(refused.remedy(), Remedy::MendProgram);
    // It needn't be the one who calls.
    nobody.settings.rights[7] = Rights::CHECKPOINT;
    let shared = SharedConsumer::on(Worn::new().journal(), None, &nobody).unwrap();
    let _ = claimed(&shared, 0);
}

// A new journal isn't created where something was seen of one before.
#[test]
fn creating_is_refused_where_something_was_seen() {
    let files = created("seen");
    let [journal, seen] = &files;
    let ceiling = || Some(CeilingFile::new(seen));
    let zero = Generation::default();
    let again = SharedConsumer::create(journal, ceiling(), 18, zero, &settings()).unwrap_err();
    assert!(matches!(again, SharedError::Journal(JournalError::Exists)));
    let _ = claimed(&opened(&files).unwrap(), 0);
    fs::remove_file(journal).unwrap();
    let again = SharedConsumer::create(journal, ceiling(), 18, zero, &settings()).unwrap_err();
    assert!(
        matches!(again, SharedError::Ceiling(CeilingError::Seen(_))),
        "{again:?}"
    );
    assert!(!journal.exists());
    fs::remove_file(seen).unwrap();
    let first = Generation::new(5000);
    SharedConsumer::create(journal, ceiling(), 18, first, &settings()).unwrap();
    assert_eq!(
        fs::read_to_string(seen).unwrap(),
        "5000 limit 3 threshold 2\n"
    );
    assert!(claimed(&opened(&files).unwrap(), 0).generation >= first);
}

// With the disk of the ceiling not mounted and the journal there, a create that is refused leaves no file that says that nothing was seen.
#[test]
fn a_create_that_is_refused_leaves_no_ceiling() {
    let files = created("refused");
    let [journal, seen] = &files;
    fs::remove_file(seen).unwrap();
    for first in [Generation::default(), Generation::new(5000)] {
        let ceiling = Some(CeilingFile::new(seen));
        let again = SharedConsumer::create(journal, ceiling, 18, first, &settings()).unwrap_err();
        assert!(matches!(again, SharedError::Journal(JournalError::Exists)));
        assert!(!seen.exists());
    }
    let missing = opened(&files).unwrap_err();
    assert!(matches!(
        missing,
        SharedError::Ceiling(CeilingError::Missing)
    ));
}

// ## Errors of the disk

// Each write and each sync of a checkpoint fails in turn. The consumer is restarted, its tokens are refused, and nothing is read that the
// disk doesn't have.
#[test]
fn an_error_of_the_disk_restarts_it() {
    // A first checkpoint has two blocks: a write, a sync, the header, a sync.
    for at in 0..4 {
        let disk = Worn::new();
        let shared = shared_on(&disk);
        let token = claimed(&shared, 0);
        let done = claimed(&shared, 1);
        shared.ack(WORKER, done).unwrap();
        let mut fails = vec![false; at];
        fails.push(true);
        disk.fails(&fails);
        let error = shared.checkpoint().unwrap_err();
        assert!(
            matches!(error, SharedError::Restarted(_)),
            "{at}: {error:?}"
        );
        assert_eq!(error.remedy(), Remedy::SeeToDisk);
        assert!(
            error.report().contains(": worn out\nto do: "),
            "{}",
            error.report()
        );
        assert_eq!(shared.restarts(), 1);
        disk.with(|disk| assert_eq!(disk.memory, disk.durable));
        let refused = shared.ack(WORKER, token).unwrap_err();
        assert_eq!(refused.refusal(), Some(Refusal::Fenced));
        // What was settled before counts where the header was among what was written once more.
        assert_eq!(is_settled(&shared, 1), at >= 2, "{at}");
        let again = claimed(&shared, 0);
        assert!(again.generation > token.generation);
        shared.ack(WORKER, again).unwrap();
        shared.checkpoint().unwrap();
        assert!(is_settled(&shared_on(&disk), 0));
    }
}

// The disk fails twice and more: each call tries it again, and the lock and what is to be written are kept meanwhile.
#[test]
fn a_disk_that_stays_broken_is_tried_again_by_each_call() {
    let disk = Worn::new();
    let shared = shared_on(&disk);
    let token = claimed(&shared, 0);
    disk.fails(&[true; 9]);
    let calls: [&dyn Fn() -> Result<(), SharedError>; 6] = [
        &|| shared.checkpoint(),
        &|| shared.claim(WORKER, Offset::new(1), 0).map(drop),
        &|| shared.ack(WORKER, token),
        &|| shared.commit(WORKER, Offset::new(1)).map(drop),
        &|| shared.look(|consumer| consumer.committed(WORKER)).map(drop),
        &|| shared.nack(WORKER, token, 0, None).map(drop),
    ];
    for call in calls {
        let error = call().unwrap_err();
        assert!(matches!(error, SharedError::Disk(_)), "{error:?}");
        assert_eq!(error.remedy(), Remedy::RestartMachine);
    }
    assert!(format!("{shared:?}").contains("Failed"), "{shared:?}");
    disk.fails(&[]);
    let error = shared.ack(WORKER, token).unwrap_err();
    assert!(matches!(error, SharedError::Restarted(_)), "{error:?}");
    assert_eq!(shared.restarts(), 1);
    assert!(claimed(&shared, 0).generation > token.generation);
}

// What the disk has after it isn't the consumer's journal any more.
#[test]
fn a_restart_that_is_refused_is_said_by_each_call() {
    let disk = Worn::new();
    let shared = shared_on(&disk);
    let token = claimed(&shared, 0);
    // Both halves lose all: what is read then is as a journal that was created anew, and older than was seen.
    disk.fails(&[true]);
    let zeros = vec![0; 18 * BLOCK];
    let error = {
        // The blocks that are written once more are two; the first group goes.
        disk.with(|disk| disk.memory.clone_from(&zeros));
        shared.checkpoint().unwrap_err()
    };
    assert!(matches!(error, SharedError::Older { .. }), "{error:?}");
    for _ in 0..2 {
        let error = shared.ack(WORKER, token).unwrap_err();
        assert!(matches!(error, SharedError::Older { .. }), "{error:?}");
        let error = shared
            .look(|consumer| consumer.committed(WORKER))
            .unwrap_err();
        assert!(matches!(error, SharedError::Older { .. }), "{error:?}");
        assert_eq!(error.remedy(), Remedy::Look);
    }
}

#[test]
fn a_journal_that_went_away_is_said_and_nothing_is_lost() {
    let disk = Worn::new();
    let shared = shared_on(&disk);
    let token = claimed(&shared, 0);
    disk.with(|disk| disk.displaced = true);
    let before = disk.with(|disk| disk.memory.clone());
    let error = shared.checkpoint().unwrap_err();
    assert!(matches!(error, SharedError::Displaced(_)), "{error:?}");
    let says = "the checkpoint was not begun: the disk was unplugged\nto do: ";
    assert!(error.report().starts_with(says), "{}", error.report());
    shared.ack(WORKER, token).unwrap();
    assert_eq!(disk.with(|disk| disk.memory.clone()), before);
    assert_eq!(shared.journal_bytes().unwrap().bytes(), before);
    disk.with(|disk| disk.displaced = false);
    shared.checkpoint().unwrap();
    assert_eq!(shared.restarts(), 0);
    assert!(is_settled(&shared_on(&disk), 0));
}

// ## Panics

// A question that panics harms nothing; a call that does loses the consumer, and no other thread goes on with half of it.
#[test]
fn a_panic_loses_the_consumer_only_in_a_call() {
    let disk = Worn::new();
    let shared = shared_on(&disk);
    let token = claimed(&shared, 0);
    let other = shared.clone();
    let panicked = thread::spawn(move || {
        let _ = other.look(|_| -> Result<(), Refusal> { panic!("a question of its own") });
    });
    assert!(panicked.join().is_err());
    shared.ack(WORKER, token).unwrap();
    shared.checkpoint().unwrap();
    disk.with(|disk| disk.panics = true);
    let panicked = catch_unwind(AssertUnwindSafe(|| shared.checkpoint()));
    assert!(panicked.is_err());
    disk.with(|disk| disk.panics = false);
    for _ in 0..2 {
        let error = shared.claim(WORKER, Offset::new(1), 0).unwrap_err();
        assert!(matches!(error, SharedError::Lost), "{error:?}");
        let error = shared
            .look(|consumer| consumer.committed(WORKER))
            .unwrap_err();
        assert!(matches!(error, SharedError::Lost), "{error:?}");
    }
    // The journal is as the checkpoint before left it.
    assert!(is_settled(&shared_on(&disk), 0));
}

// ## Many workers on a disk that fails again and again

/// What the workers were handed out, and what they were told.
#[derive(Default)]
struct Told {
    generations: BTreeSet<Generation>,
    delivered: BTreeMap<Offset, u64>,
    restarted: u64,
}

/// A clock that goes on with each look, so that leases run out.
static CLOCK: AtomicU64 = AtomicU64::new(0);

fn work(shared: &SharedConsumer<Worn>, told: &Mutex<Told>, seed: u64, end: u64) {
    let mut random = Random(seed);
    loop {
        let now = CLOCK.fetch_add(1, Ordering::Relaxed);
        let next = shared.look(|consumer| next(consumer, now, Offset::new(end), &mut random));
        let answer = match next {
            Ok(None) => return,
            Ok(Some(offset)) => shared.claim(WORKER, offset, now),
            Err(error) => Err(error),
        };
        match answer {
            Ok(hand_out) => {
                let token = hand_out.token();
                let told = &mut *told.lock().unwrap();
                assert!(
                    told.generations.insert(token.generation),
                    "{token:?} came twice"
                );
                if let HandOut::Deliver { .. } = hand_out {
                    *told.delivered.entry(token.offset).or_default() += 1;
                }
            }
            Err(SharedError::Restarted(_)) => told.lock().unwrap().restarted += 1,
            Err(SharedError::Disk(_)) => {}
            // Another worker was faster.
            Err(SharedError::Refused(Refusal::InFlight | Refusal::Settled | Refusal::Full)) => {}
            Err(error) => panic!("{error:?}"),
        }
        let Ok(token) = answer.map(|hand_out| hand_out.token()) else {
            continue;
        };
        let settled = match random.below(4) {
            0 => shared.nack(WORKER, token, now, Some(0)).map(drop),
            1 => Ok(()),
            _ => shared.ack(WORKER, token),
        };
        match settled {
            Ok(()) | Err(SharedError::Refused(Refusal::Fenced) | SharedError::Disk(_)) => {}
            Err(SharedError::Restarted(_)) => told.lock().unwrap().restarted += 1,
            Err(error) => panic!("{error:?}"),
        }
    }
}

/// A job that is open, if there is one: any that waits, or else the first that nobody has, or one that somebody has.
fn next(
    consumer: &Consumer<Worn>,
    now: u64,
    end: Offset,
    random: &mut Random,
) -> Result<Option<Offset>, Refusal> {
    let mut waiting = [Offset::ZERO; 128];
    let n = consumer.waiting(WORKER, now, &mut waiting)?;
    if n > 0 && random.below(2) == 0 {
        return Ok(Some(waiting[random.below(n as u64) as usize]));
    }
    let open = consumer.open_stretches(WORKER, Offset::ZERO, end)?;
    let mut open = open.into_iter().flat_map(|stretch| stretch.offsets());
    let first = open.next();
    Ok(open
        .find(|offset| consumer.lease_of(WORKER, *offset) == Ok(None))
        .or(first))
}

#[test]
fn workers_on_a_disk_that_fails() {
    let configuration = configuration(3, 2, 40, 80);
    let disk = Worn::new();
    let shared = SharedConsumer::on(disk.journal(), None, &configuration).unwrap();
    let told = Mutex::new(Told::default());
    let mut random = Random(3);
    let mut end = 0;
    while end < 600 {
        end += 60;
        let fails: Vec<bool> = (0..300).map(|_| random.below(12) == 0).collect();
        disk.fails(&fails);
        thread::scope(|scope| {
            for worker in 0..4 {
                let (shared, told) = (shared.clone(), &told);
                scope.spawn(move || work(&shared, told, end + worker, end));
            }
        });
    }
    disk.fails(&[]);
    while shared.checkpoint().is_err() {}
    let told = told.into_inner().unwrap();
    let restarts = shared.restarts();
    println!("{restarts} restarts");
    assert!(restarts > 20, "{restarts}");
    // Each restart was told to one worker, but for one that the last checkpoints met.
    assert!(told.restarted <= restarts && restarts <= told.restarted + 1);
    let most = 3 + restarts * (2 + 1);
    assert!(told.delivered.values().all(|times| *times <= most));
    let consumer = Consumer::restart(&configuration, disk.journal()).unwrap();
    assert_eq!(consumer.committed(WORKER).unwrap(), Offset::new(end));
    assert!(consumer.ceiling(WORKER).unwrap() > *told.generations.last().unwrap());
}

// The journal's file is the consumer's own: a second one isn't had, and the first one goes on.
#[test]
fn one_journal_has_one_consumer() {
    let files = created("one");
    let shared = opened(&files).unwrap();
    assert!(matches!(
        Journal::open(&files[0]),
        Err(JournalError::Locked)
    ));
    assert!(matches!(
        NewJournal::create(&files[0], 18),
        Err(JournalError::Exists)
    ));
    let other = shared.clone();
    drop(shared);
    let _ = claimed(&other, 0);
    drop(other);
    drop(Journal::open(&files[0]).unwrap());
}
