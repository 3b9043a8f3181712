//! The journal over a file: the clinics' incident end to end, one owner at a time, and what is refused before anything is lost.

mod common;

use std::fs::{self, File};
use std::io::{self, BufRead, BufReader, Write};
use std::os::unix::fs::PermissionsExt;
use std::path::{Path, PathBuf};
use std::process::{Child, Command, Stdio};
use std::time::Duration;

use common::{configuration, fresh_path, Random, WORKER};
use ironbus_delivery_state::{
    CheckpointError, Configuration, Consumer, HandOut, Journal, JournalError, NewJournal, Offset,
    Refusal, Step, BLOCK,
};

const SECOND: u64 = 1_000_000_000;

fn restart(path: &Path, configuration: &Configuration) -> Consumer {
    Consumer::restart(configuration, Journal::open(path).unwrap()).unwrap()
}

#[test]
fn a_worker_that_slept_through_a_restart_is_refused() {
    let path = fresh_path("incident");
    let configuration = configuration(5, 2, 30 * SECOND, 300 * SECOND);
    let recipe = Offset::new(0);
    let journal = NewJournal::create(&path, 64).unwrap();
    let consumer = Consumer::start(&configuration, journal).unwrap();
    let mut server = consumer.checkpoint(WORKER).unwrap();
    let HandOut::Deliver {
        token: sleeper,
        deliveries: 1,
    } = server.claim(WORKER, recipe, 0).unwrap()
    else {
        panic!("a first delivery");
    };
    // The server goes down while the worker sleeps, and the recipe goes to another.
    drop(server);
    let mut server = restart(&path, &configuration).checkpoint(WORKER).unwrap();
    let other = server.claim(WORKER, recipe, SECOND).unwrap().token();
    assert_ne!(sleeper.generation, other.generation);
    // The sleeper wakes: its token is refused in every way, and the recipe isn't done.
    assert_eq!(server.ack(WORKER, sleeper), Err(Refusal::Fenced));
    assert_eq!(server.ack(WORKER, sleeper).unwrap_err().number(), 24);
    assert_eq!(server.term(WORKER, sleeper), Err(Refusal::Fenced));
    assert_eq!(
        server.nack(WORKER, sleeper, SECOND, None),
        Err(Refusal::Fenced)
    );
    assert_eq!(
        server.progress(WORKER, sleeper, SECOND),
        Err(Refusal::Fenced)
    );
    assert!(!server.is_settled(WORKER, recipe).unwrap());
    // The other worker fails, so the recipe is worked out again, by a third.
    let again = server.nack(WORKER, other, SECOND, Some(0)).unwrap();
    let third = server.claim(WORKER, recipe, again).unwrap().token();
    server.ack(WORKER, third).unwrap();
    drop(server.checkpoint(WORKER).unwrap());
    let mut server = restart(&path, &configuration);
    assert!(server.is_settled(WORKER, recipe).unwrap());
    assert_eq!(server.ack(WORKER, sleeper), Err(Refusal::Fenced));
}

#[test]
fn the_fourteenth_example() {
    let path = fresh_path("fourteenth");
    let configuration = configuration(2, 1, 10, 25);
    let job = Offset::new(0);
    let consumer = Consumer::start(&configuration, NewJournal::create(&path, 18).unwrap()).unwrap();
    let mut consumer = consumer.checkpoint(WORKER).unwrap();
    let first = consumer.claim(WORKER, job, 0).unwrap();
    assert!(matches!(first, HandOut::Deliver { deliveries: 1, .. }));
    assert_eq!(consumer.claim(WORKER, job, 9), Err(Refusal::InFlight));
    let second = consumer.claim(WORKER, job, 10).unwrap();
    assert!(matches!(second, HandOut::Deliver { deliveries: 2, .. }));
    assert_eq!(consumer.claim(WORKER, job, 20), Err(Refusal::CheckpointDue));
    assert!(
        consumer.is_due(WORKER).unwrap().threshold && !consumer.is_due(WORKER).unwrap().ceiling
    );
    drop(consumer.checkpoint(WORKER).unwrap());
    let mut consumer = restart(&path, &configuration).checkpoint(WORKER).unwrap();
    let HandOut::DeadLetter {
        token,
        deliveries: 3,
    } = consumer.claim(WORKER, job, 30).unwrap()
    else {
        panic!("over the limit");
    };
    assert_eq!(token.generation.get(), 4098);
    let lease = consumer.lease_of(WORKER, job).unwrap().unwrap();
    assert_eq!((lease.attempt_start, lease.deadline), (30, 40));
    assert_eq!(lease.generation, token.generation);
    assert_eq!(consumer.lease_of(WORKER, Offset::new(1)).unwrap(), None);
    assert_eq!(
        (
            consumer.in_flight(WORKER).unwrap(),
            consumer.committed(WORKER).unwrap()
        ),
        (1, Offset::ZERO)
    );
    consumer.term(WORKER, token).unwrap();
    assert_eq!(
        (
            consumer.in_flight(WORKER).unwrap(),
            consumer.committed(WORKER).unwrap()
        ),
        (0, Offset::new(1))
    );
}

#[test]
fn a_nack_of_years_comes_back_after_the_hard_cap() {
    const YEAR: u64 = 365 * 24 * 3600 * SECOND;
    let path = fresh_path("years");
    let configuration = configuration(9, 9, 30 * SECOND, 300 * SECOND);
    let recipe = Offset::new(0);
    let consumer = Consumer::start(&configuration, NewJournal::create(&path, 18).unwrap()).unwrap();
    let mut server = consumer.checkpoint(WORKER).unwrap();
    for (now, delay) in [(SECOND, 4 * YEAR), (400 * SECOND, u64::MAX)] {
        let token = server.claim(WORKER, recipe, now).unwrap().token();
        let back = now + 300 * SECOND;
        assert_eq!(server.nack(WORKER, token, now, Some(delay)), Ok(back));
        let lease = server.lease_of(WORKER, recipe).unwrap().unwrap();
        assert_eq!(lease.deadline, back);
        let early = server.claim(WORKER, recipe, back - 1);
        assert_eq!(early, Err(Refusal::InFlight));
    }
    // A delay of just the cap, and one below it, are as they were asked for; so is the schedule's, 7 from the second hand-out on.
    let mut now = 700 * SECOND;
    for (delay, waits) in [
        (Some(300 * SECOND), 300 * SECOND),
        (Some(300 * SECOND - 1), 300 * SECOND - 1),
        (Some(0), 0),
        (None, 7),
    ] {
        let token = server.claim(WORKER, recipe, now).unwrap().token();
        let back = server.nack(WORKER, token, now, delay);
        assert_eq!(back, Ok(now + waits));
        now += waits;
    }
}

#[test]
fn the_hard_cap_bounds_the_schedule_too() {
    let path = fresh_path("schedule");
    // The schedule is 3, 7.
    let configuration = configuration(9, 9, 2, 5);
    let recipe = Offset::new(0);
    let consumer = Consumer::start(&configuration, NewJournal::create(&path, 18).unwrap()).unwrap();
    let mut server = consumer.checkpoint(WORKER).unwrap();
    let first = server.claim(WORKER, recipe, 0).unwrap().token();
    assert_eq!(server.nack(WORKER, first, 0, None), Ok(3));
    let second = server.claim(WORKER, recipe, 3).unwrap().token();
    assert_eq!(server.nack(WORKER, second, 3, None), Ok(8));
    // At the end of the clock the deadline stays at the largest number.
    let third = server.claim(WORKER, recipe, u64::MAX - 4).unwrap().token();
    assert_eq!(server.nack(WORKER, third, u64::MAX - 4, None), Ok(u64::MAX));
}

#[test]
fn calls_give_01s_answers() {
    let path = fresh_path("answers");
    let configuration = configuration(3, 9, 10, 25);
    let consumer = Consumer::start(&configuration, NewJournal::create(&path, 18).unwrap()).unwrap();
    let mut consumer = consumer.checkpoint(WORKER).unwrap();
    assert_eq!(
        consumer.claim(WORKER, Offset::new(u64::MAX), 0),
        Err(Refusal::LastOffset)
    );
    let token = consumer.claim(WORKER, Offset::new(3), 100).unwrap().token();
    assert_eq!(consumer.progress(WORKER, token, 109), Ok(119));
    assert_eq!(consumer.progress(WORKER, token, 120), Ok(125));
    assert_eq!(
        consumer.progress(WORKER, token, 125),
        Err(Refusal::CapReached)
    );
    assert_eq!(consumer.commit(WORKER, Offset::new(3)), Ok(true));
    assert_eq!(consumer.commit(WORKER, Offset::new(3)), Ok(false));
    assert_eq!(
        consumer.claim(WORKER, Offset::new(2), 0),
        Err(Refusal::Settled)
    );
    // the first delay of the schedule is 3
    assert_eq!(consumer.nack(WORKER, token, 200, None), Ok(203));
    assert_eq!(
        consumer.nack(WORKER, token, 200, None),
        Err(Refusal::Fenced)
    );
    let mut list = [Offset::new(77); 3];
    assert_eq!(consumer.waiting(WORKER, 202, &mut list), Ok(0));
    assert_eq!(
        consumer.waiting(WORKER, 203, &mut []),
        Err(Refusal::OutTooShort)
    );
    assert_eq!(consumer.waiting(WORKER, 203, &mut list), Ok(1));
    assert_eq!(list, [Offset::new(3), Offset::new(77), Offset::new(77)]);
    for offset in 4..67 {
        let _ = consumer.claim(WORKER, Offset::new(offset), 0).unwrap();
    }
    assert_eq!(
        consumer.claim(WORKER, Offset::new(67), 0),
        Err(Refusal::Full)
    );
    assert_eq!(consumer.in_flight(WORKER).unwrap(), 64);
    let mut list = [Offset::ZERO; 128];
    assert_eq!(consumer.waiting(WORKER, 203, &mut list), Ok(64));
}

// Carried offsets by offset, then leases by deadline, equal deadlines by offset; all counts are by offset still.
#[test]
fn the_longest_waiting_comes_first() {
    let path = fresh_path("waiting");
    let configuration = configuration(3, 9, 10, 25);
    let consumer = Consumer::start(&configuration, NewJournal::create(&path, 18).unwrap()).unwrap();
    let mut consumer = consumer.checkpoint(WORKER).unwrap();
    for (offset, now) in [(40, 0), (30, 1)] {
        let _ = consumer.claim(WORKER, Offset::new(offset), now).unwrap();
    }
    let journal = consumer.checkpoint(WORKER).unwrap().into_journal();
    let consumer = Consumer::restart(&configuration, journal).unwrap();
    let mut consumer = consumer.checkpoint(WORKER).unwrap();
    for (offset, now) in [(7, 20), (9, 10), (2, 30), (8, 10), (5, 31)] {
        let _ = consumer.claim(WORKER, Offset::new(offset), now).unwrap();
    }
    let all = [30, 40, 8, 9, 7, 2, 5].map(Offset::new);
    for (now, n) in [(0, 2), (19, 2), (20, 4), (30, 5), (40, 6), (41, 7)] {
        let mut list = [Offset::ZERO; 7];
        assert_eq!(consumer.waiting(WORKER, now, &mut list), Ok(n));
        assert_eq!(list[..n], all[..n], "at {now}");
    }
    let counts = consumer.all_attempt_counts(WORKER).unwrap();
    let rising = [2, 5, 7, 8, 9, 30, 40].map(|offset| (Offset::new(offset), 1));
    assert_eq!(counts, rising);
}

// As long as it gets: 64 offsets carried, and 64 leases whose deadlines rise, fall, are equal or lie anyhow.
#[test]
fn a_full_waiting_list_is_in_order() {
    let path = fresh_path("waiting_full");
    let configuration = configuration(3, 99, 10, 25);
    let consumer = Consumer::start(&configuration, NewJournal::create(&path, 18).unwrap()).unwrap();
    let mut consumer = consumer.checkpoint(WORKER).unwrap();
    for offset in 64..128 {
        let _ = consumer.claim(WORKER, Offset::new(offset), 0).unwrap();
    }
    let journal = consumer.checkpoint(WORKER).unwrap().into_journal();
    let consumer = Consumer::restart(&configuration, journal).unwrap();
    let mut consumer = consumer.checkpoint(WORKER).unwrap();
    let clocks: [fn(u64) -> u64; 4] = [
        |offset| offset,
        |offset| 63 - offset,
        |_| 0,
        |offset| offset * 37 % 11,
    ];
    for (turn, clock) in (1..).zip(clocks) {
        let clock = |offset| turn * 1000 + clock(offset);
        let mut leases: Vec<u64> = (0..64).collect();
        for &offset in &leases {
            let _ = consumer
                .claim(WORKER, Offset::new(offset), clock(offset))
                .unwrap();
        }
        leases.sort_by_key(|&offset| (clock(offset), offset));
        let mut list = [Offset::ZERO; 128];
        assert_eq!(consumer.waiting(WORKER, u64::MAX, &mut list), Ok(128));
        let expected = (64..128).chain(leases).map(Offset::new);
        assert!(list.into_iter().eq(expected), "turn {turn}");
        consumer = consumer.checkpoint(WORKER).unwrap();
    }
}

#[test]
fn a_batch_is_closed_though_a_job_of_it_is_held() {
    let path = fresh_path("superseded");
    let configuration = configuration(5, 9, 10, 25);
    let job = Offset::new(2);
    let consumer = Consumer::start(&configuration, NewJournal::create(&path, 18).unwrap()).unwrap();
    let mut consumer = consumer.checkpoint(WORKER).unwrap();
    let held = consumer.claim(WORKER, job, 0).unwrap().token();
    let other = consumer.claim(WORKER, Offset::new(3), 0).unwrap().token();
    let mut consumer = consumer.checkpoint(WORKER).unwrap();
    assert_eq!(consumer.commit(WORKER, Offset::new(3)), Ok(true));
    assert_eq!(consumer.commit(WORKER, Offset::new(3)), Ok(false));
    // Its holder comes too late; the job at the bound goes on.
    assert_eq!(consumer.ack(WORKER, held), Err(Refusal::Fenced));
    assert_eq!(consumer.term(WORKER, held), Err(Refusal::Fenced));
    assert_eq!(consumer.nack(WORKER, held, 1, None), Err(Refusal::Fenced));
    assert_eq!(consumer.progress(WORKER, held, 1), Err(Refusal::Fenced));
    assert_eq!(consumer.progress(WORKER, other, 1), Ok(11));
    assert_eq!(consumer.is_settled(WORKER, job), Ok(true));
    assert_eq!(consumer.count_of(WORKER, job), Ok(0));
    assert_eq!(consumer.in_flight(WORKER), Ok(1));
    // A restart goes back to the checkpoint before: the job is open with its count, and the token is fenced still.
    drop(consumer);
    let mut consumer = restart(&path, &configuration);
    assert_eq!(consumer.is_settled(WORKER, job), Ok(false));
    assert_eq!(consumer.count_of(WORKER, job), Ok(1));
    assert_eq!(consumer.ack(WORKER, held), Err(Refusal::Fenced));
    // With a checkpoint behind it the commit stays.
    assert_eq!(consumer.commit(WORKER, Offset::new(3)), Ok(true));
    drop(consumer.checkpoint(WORKER).unwrap());
    let consumer = restart(&path, &configuration);
    assert_eq!(consumer.committed(WORKER), Ok(Offset::new(3)));
    assert_eq!(
        consumer.all_attempt_counts(WORKER),
        Ok(vec![(Offset::new(3), 1)])
    );
}

#[test]
fn a_checkpoint_goes_block_by_block() {
    let path = fresh_path("steps");
    let configuration = configuration(3, 9, 10, 25);
    let consumer = Consumer::start(&configuration, NewJournal::create(&path, 18).unwrap()).unwrap();
    let writing = consumer.begin(WORKER).unwrap();
    assert_eq!(writing.writes_left(), 2);
    let Step::Wrote { block: 1, writing } = writing.step().unwrap() else {
        panic!("the body comes first");
    };
    assert_eq!(writing.writes_left(), 1);
    let bytes = fs::read(&path).unwrap();
    assert!(bytes[..BLOCK].iter().all(|byte| *byte == 0));
    assert_eq!(bytes[BLOCK], 2);
    let Step::Finished { block: 0, consumer } = writing.step().unwrap() else {
        panic!("the header comes last");
    };
    assert_eq!(fs::read(&path).unwrap()[0], 1);
    let consumer = consumer.checkpoint(WORKER).unwrap();
    assert_eq!(consumer.blocks_left(WORKER).unwrap(), 5);
}

#[test]
fn configurations_are_refused_by_01s_numbers() {
    let path = fresh_path("configuration");
    let mut journal = NewJournal::create(&path, 18).unwrap();
    let mut one = configuration(0, 1, 10, 25);
    let refused = |journal, configuration: &Configuration| {
        let error = Consumer::start(configuration, journal).unwrap_err();
        (error.refusal().number(), error.into_journal())
    };
    let number;
    (number, journal) = refused(journal, &one);
    assert_eq!(number, 1);
    one.settings.delivery = ironbus_delivery_state::DeliveryConfig::new(3, false, &[1; 17]);
    let number;
    (number, journal) = refused(journal, &one);
    assert_eq!(number, 2);
    let (number, journal) = refused(journal, &configuration(3, 0, 10, 25));
    assert_eq!(number, 3);
    drop(Consumer::start(&configuration(3, 1, 10, 25), journal).unwrap());
    // Files that are no journals.
    for len in [
        0,
        100,
        16 * BLOCK,
        17 * BLOCK,
        19 * BLOCK,
        20 * BLOCK - 1,
        130 * BLOCK,
    ] {
        fs::write(&path, vec![0; len]).unwrap();
        let journal = Journal::open(&path).unwrap();
        let error = Consumer::restart(&configuration(3, 1, 10, 25), journal).unwrap_err();
        assert_eq!(error.refusal(), Refusal::BadArea);
    }
}

#[test]
fn a_journal_that_is_there_can_only_be_opened() {
    let path = fresh_path("there");
    for blocks in [0, 1, 16, 17, 19, 127, 129, 130] {
        let refused = NewJournal::create(&path, blocks);
        assert!(matches!(refused, Err(JournalError::BadBlocks(n)) if n == blocks));
    }
    assert!(matches!(Journal::open(&path), Err(JournalError::Io(_))));
    let configuration = configuration(3, 1, 10, 25);
    let consumer = Consumer::start(&configuration, NewJournal::create(&path, 18).unwrap()).unwrap();
    let journal = consumer.checkpoint(WORKER).unwrap().into_journal();
    assert_eq!(journal.bytes(), fs::read(&path).unwrap());
    let before = fs::read(&path).unwrap();
    assert!(matches!(
        NewJournal::create(&path, 18),
        Err(JournalError::Exists)
    ));
    assert_eq!(fs::read(&path).unwrap(), before);
    assert_eq!(beside(&path), [""; 0]);
}

/// What else stands in the folder under the journal's name, by what comes behind it.
fn beside(path: &Path) -> Vec<String> {
    let journal = path.file_name().unwrap().to_str().unwrap();
    let names = fs::read_dir(path.parent().unwrap()).unwrap();
    let mut names: Vec<String> = names
        .map(|entry| entry.unwrap().file_name().into_string().unwrap())
        .filter_map(|name| name.strip_prefix(journal).map(str::to_owned))
        .filter(|rest| !rest.is_empty())
        .collect();
    names.sort_unstable();
    names
}

fn with_end(path: &Path, end: &str) -> PathBuf {
    PathBuf::from(format!("{}{end}", path.display()))
}

#[test]
fn a_journal_is_for_its_owner_alone() {
    let path = fresh_path("mode");
    drop(NewJournal::create(&path, 18).unwrap());
    let mode = fs::metadata(&path).unwrap().permissions().mode();
    assert_eq!(mode & 0o777, 0o600);
}

#[test]
fn what_a_create_left_is_removed() {
    let path = fresh_path("leftovers");
    let [stopped, going_on, other] =
        [".4711-0.new", ".4711-1.new", ".other.new"].map(|end| with_end(&path, end));
    for name in [&stopped, &going_on, &other] {
        fs::write(name, [0; 100]).unwrap();
    }
    // One that is going on has its file locked.
    let held = File::open(&going_on).unwrap();
    held.lock().unwrap();
    drop(NewJournal::create(&path, 18).unwrap());
    assert_eq!(beside(&path), [".4711-1.new", ".other.new"]);
    drop(held);
    assert!(matches!(
        NewJournal::create(&path, 18),
        Err(JournalError::Exists)
    ));
    assert_eq!(beside(&path), [".other.new"]);
    // It was stopped when the file had the journal's name already: that is taken away, and the journal stays.
    fs::hard_link(&path, &stopped).unwrap();
    let journal = Journal::open(&path).unwrap();
    assert_eq!(beside(&path), [".other.new"]);
    assert_eq!(journal.bytes(), fs::read(&path).unwrap());
    assert!(matches!(Journal::open(&path), Err(JournalError::Locked)));
    fs::remove_file(&other).unwrap();
}

// A copy that is named by year and month has the name of a leftover, and is none.
#[test]
fn what_no_create_left_stays() {
    let path = fresh_path("kept");
    let copy = with_end(&path, ".2026-11.new");
    let long = with_end(&path, ".2026-12.new");
    let mut bytes = vec![0; 18 * BLOCK];
    bytes[17 * BLOCK] = 1;
    fs::write(&copy, &bytes).unwrap();
    fs::write(&long, vec![0; 128 * BLOCK + 1]).unwrap();
    drop(NewJournal::create(&path, 18).unwrap());
    drop(Journal::open(&path).unwrap());
    assert_eq!(beside(&path), [".2026-11.new", ".2026-12.new"]);
    assert_eq!(fs::read(&copy).unwrap(), bytes);
    for name in [copy, long] {
        fs::remove_file(name).unwrap();
    }
}

#[test]
fn a_damaged_journal_is_refused() {
    let path = fresh_path("damaged");
    let configuration = configuration(3, 1, 10, 25);
    let consumer = Consumer::start(&configuration, NewJournal::create(&path, 18).unwrap()).unwrap();
    drop(consumer.checkpoint(WORKER).unwrap());
    let mut bytes = fs::read(&path).unwrap();
    bytes[BLOCK + 20] ^= 1;
    fs::write(&path, &bytes).unwrap();
    let error = Consumer::restart(&configuration, Journal::open(&path).unwrap()).unwrap_err();
    let refusal = error.refusal();
    let journal = error.into_journal();
    assert_eq!(refusal, Refusal::Damaged { block: 1 });
    assert_eq!(
        refusal.to_string(),
        "refused (5): block 1 of the journal is damaged"
    );
    assert_eq!(journal.bytes(), bytes);
}

/// A journal of three groups, of two blocks each: the first has nothing settled, the second offset 0, the third offset 1 too.
fn three_groups(path: &Path, configuration: &Configuration) -> Vec<u8> {
    let journal = NewJournal::create(path, 18).unwrap();
    let mut consumer = Consumer::start(configuration, journal)
        .unwrap()
        .checkpoint(WORKER)
        .unwrap();
    for offset in [0, 1] {
        let token = consumer
            .claim(WORKER, Offset::new(offset), 0)
            .unwrap()
            .token();
        consumer.ack(WORKER, token).unwrap();
        consumer = consumer.checkpoint(WORKER).unwrap();
    }
    drop(consumer);
    let bytes = fs::read(path).unwrap();
    assert_eq!(
        [0, 1, 2, 3, 4, 5, 6].map(|block| bytes[BLOCK * block]),
        [1, 2, 1, 2, 1, 2, 0]
    );
    bytes
}

/// A restart on a file of these bytes, with a bit of each of some blocks flipped. Where it is refused, the file stays.
fn restart_worn(
    path: &Path,
    configuration: &Configuration,
    bytes: &[u8],
    worn: &[usize],
) -> Result<Consumer, Refusal> {
    let mut bytes = bytes.to_vec();
    for block in worn {
        bytes[BLOCK * block + 9] ^= 1;
    }
    fs::write(path, &bytes).unwrap();
    Consumer::restart(configuration, Journal::open(path).unwrap()).map_err(|error| {
        let refusal = error.refusal();
        assert_eq!(error.into_journal().bytes(), bytes);
        assert_eq!(fs::read(path).unwrap(), bytes);
        refusal
    })
}

#[test]
fn a_worn_header_is_refused_while_a_later_one_stands() {
    let path = fresh_path("worn-header");
    let configuration = configuration(3, 1, 10, 25);
    let bytes = three_groups(&path, &configuration);
    let refusal = |worn: &[usize]| restart_worn(&path, &configuration, &bytes, worn).unwrap_err();
    assert_eq!(refusal(&[2]), Refusal::Damaged { block: 2 });
    assert_eq!(refusal(&[0]), Refusal::Damaged { block: 0 });
    assert_eq!(refusal(&[0, 2]), Refusal::Damaged { block: 0 });
    // the bodies behind where the walk ended aren't tested
    assert_eq!(refusal(&[2, 3, 5]), Refusal::Damaged { block: 2 });
    assert_eq!(
        refusal(&[2]).to_string(),
        "refused (5): block 2 of the journal is damaged"
    );
    // The block put back, all is there.
    let consumer = restart_worn(&path, &configuration, &bytes, &[]).unwrap();
    assert!(
        consumer.is_settled(WORKER, Offset::new(0)).unwrap()
            && consumer.is_settled(WORKER, Offset::new(1)).unwrap()
    );
}

#[test]
fn an_unsound_body_is_named_before_a_worn_header() {
    let path = fresh_path("body-first");
    let configuration = configuration(3, 1, 10, 25);
    let bytes = three_groups(&path, &configuration);
    let refusal = restart_worn(&path, &configuration, &bytes, &[1, 2]).unwrap_err();
    assert_eq!(refusal, Refusal::Damaged { block: 1 });
}

#[test]
fn without_a_later_header_the_group_before_counts() {
    let path = fresh_path("last-header");
    let configuration = configuration(3, 1, 10, 25);
    let bytes = three_groups(&path, &configuration);
    // The last group's header is worn, and then the second group's too.
    let consumer = restart_worn(&path, &configuration, &bytes, &[4]).unwrap();
    assert!(
        consumer.is_settled(WORKER, Offset::new(0)).unwrap()
            && !consumer.is_settled(WORKER, Offset::new(1)).unwrap()
    );
    drop(consumer);
    let consumer = restart_worn(&path, &configuration, &bytes, &[2, 4]).unwrap();
    assert!(!consumer.is_settled(WORKER, Offset::new(0)).unwrap());
    // The next checkpoint is written over the lost ones.
    drop(consumer.checkpoint(WORKER).unwrap());
    let bytes = fs::read(&path).unwrap();
    assert_eq!((bytes[2 * BLOCK], bytes[2 * BLOCK + 4]), (1, 2));
    drop(restart(&path, &configuration));
}

// ## Two processes

const ROLE: &str = "NINOTSKEV_ROLE";

/// Another process, which ends with this value: a test that fails would else wait for it.
struct Other(Child);

impl Other {
    fn ends(&mut self) {
        self.0.wait().unwrap();
    }

    fn is_killed(&mut self) {
        self.0.kill().unwrap();
        self.ends();
    }
}

impl Drop for Other {
    fn drop(&mut self) {
        let _ = self.0.kill();
        let _ = self.0.wait();
    }
}

/// Runs `role` of this file in another process.
fn other(role: &str, path: &Path) -> Other {
    other_by(Command::new(std::env::current_exe().unwrap()), role, path)
}

/// The same where no file may be written from its first byte on: each write of a block fails.
fn other_without_a_disk(role: &str, path: &Path) -> Other {
    let mut limited = Command::new("sh");
    limited.args(["-c", "trap '' XFSZ; ulimit -f 0; exec \"$0\" \"$@\""]);
    limited.arg(std::env::current_exe().unwrap());
    other_by(limited, role, path)
}

fn other_by(mut command: Command, role: &str, path: &Path) -> Other {
    let child = command
        .args(["role", "--exact", "--nocapture", "--ignored"])
        .env(ROLE, role)
        .env("NINOTSKEV_PATH", path)
        .stdin(Stdio::piped())
        .stdout(Stdio::piped())
        .spawn()
        .unwrap();
    Other(child)
}

/// It may go on.
fn go_on(child: &mut Other) {
    child.0.stdin.as_mut().unwrap().write_all(b"\n").unwrap();
}

/// The line that it says.
fn says(child: &mut Other) -> String {
    let lines = BufReader::new(child.0.stdout.as_mut().unwrap()).lines();
    let line = lines
        .map(|line| line.unwrap())
        .find(|line| line.contains("says "))
        .expect("the other process says something");
    line.split("says ").nth(1).unwrap().to_owned()
}

fn create_without_end(path: &Path) -> ! {
    loop {
        drop(NewJournal::create(path, 128).unwrap());
        fs::remove_file(path).unwrap();
        println!("says created");
    }
}

fn waits() {
    io::stdin().read_line(&mut String::new()).unwrap();
}

// The disk fails, and again in `reopen`; what is left is kept, as a part of an error, until it may be dropped.
fn fail(path: &Path) {
    let consumer = restart(path, &configuration(3, 1, 10, 25));
    let Err(CheckpointError::Failed(failed)) = consumer.checkpoint(WORKER) else {
        panic!("the disk fails");
    };
    println!("says {failed}");
    waits();
    let again: Box<dyn std::error::Error> = failed.reopen().unwrap_err().into();
    println!("says {again}");
    waits();
    drop(again);
    println!("says dropped");
    waits();
}

/// What the other process does: it opens the journal, and for `hold` keeps it until it is stopped; for `create` it makes one again and
/// again; for `fail` it has a disk that fails.
#[test]
#[ignore = "a part of the tests below"]
fn role() {
    let Ok(role) = std::env::var(ROLE) else {
        return;
    };
    let path = std::env::var_os("NINOTSKEV_PATH").unwrap();
    match role.as_str() {
        "create" => create_without_end(Path::new(&path)),
        "fail" => return fail(Path::new(&path)),
        _ => {}
    }
    match Journal::open(path) {
        Ok(_journal) => {
            println!("says open");
            // long enough for the other process to stop it
            if role == "hold" {
                std::thread::sleep(std::time::Duration::from_secs(600));
            }
        }
        Err(error) => println!("says {error}"),
    }
}

#[test]
fn a_second_process_is_refused() {
    let path = fresh_path("two-processes");
    let configuration = configuration(3, 1, 10, 25);
    let consumer = Consumer::start(&configuration, NewJournal::create(&path, 18).unwrap()).unwrap();
    let mut second = other("look", &path);
    assert_eq!(says(&mut second), "the journal is in use");
    second.ends();
    // Neither can this process have it twice.
    assert!(matches!(Journal::open(&path), Err(JournalError::Locked)));
    let consumer = consumer.checkpoint(WORKER).unwrap();
    drop(consumer);
    let mut third = other("look", &path);
    assert_eq!(says(&mut third), "open");
    third.ends();
}

// What an error of the disk leaves holds the lock, and no longer than it is there: `Failed` says what to do.
#[test]
fn what_an_error_of_the_disk_leaves_holds_the_journal_until_it_is_dropped() {
    let path = fresh_path("failed");
    drop(NewJournal::create(&path, 18).unwrap());
    let mut failed = other_without_a_disk("fail", &path);
    for _ in ["the disk failed", "and again in `reopen`"] {
        assert_eq!(
            says(&mut failed),
            "block 1 of the journal could not be written"
        );
        assert!(matches!(Journal::open(&path), Err(JournalError::Locked)));
        let mut second = other("look", &path);
        assert_eq!(says(&mut second), "the journal is in use");
        second.ends();
        go_on(&mut failed);
    }
    // The process goes on, and the journal is anybody's.
    assert_eq!(says(&mut failed), "dropped");
    assert_eq!(Journal::open(&path).unwrap().bytes(), [0; 18 * BLOCK]);
    go_on(&mut failed);
    failed.ends();
}

#[test]
fn a_process_that_was_killed_leaves_the_journal() {
    let path = fresh_path("killed");
    let configuration = configuration(3, 1, 10, 25);
    drop(Consumer::start(&configuration, NewJournal::create(&path, 18).unwrap()).unwrap());
    let mut holder = other("hold", &path);
    assert_eq!(says(&mut holder), "open");
    assert!(matches!(Journal::open(&path), Err(JournalError::Locked)));
    holder.is_killed();
    drop(restart(&path, &configuration).checkpoint(WORKER).unwrap());
}

#[test]
fn a_process_that_was_killed_in_create_leaves_nothing_for_ever() {
    let path = fresh_path("killed-in-create");
    let mut random = Random(3);
    let mut left = 0;
    for _ in 0..40 {
        let mut creator = other("create", &path);
        says(&mut creator);
        std::thread::sleep(Duration::from_micros(random.below(2000)));
        creator.is_killed();
        left += beside(&path).len();
        // What was there is a whole journal or none, and the next create or open removes the rest.
        match NewJournal::create(&path, 128) {
            Ok(journal) => drop(journal),
            Err(JournalError::Exists) => {
                let journal = Journal::open(&path).unwrap();
                assert_eq!(journal.bytes(), [0; 128 * BLOCK]);
            }
            Err(error) => panic!("{error}"),
        }
        assert_eq!(beside(&path), [""; 0]);
        fs::remove_file(&path).unwrap();
    }
    assert!(left > 0, "no create was stopped on the way");
}
