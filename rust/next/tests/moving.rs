//! Moving in and out: the clinics' incident on the day of the move, snapshots that are taken and given, and what an import that is refused,
//! stopped or failed leaves.

mod common;

use std::fs;
use std::io;
use std::path::{Path, PathBuf};
use std::process::{Command, Output, Stdio};
use std::time::{Duration, Instant};

use common::{
    beside, blocks_of, configuration, crc32c, fresh_path, says, strace_is_there, with_end, Other,
    Random, WORKER,
};
use ironbus_delivery_state::{
    decode_attempt_snapshot, encode_attempt_snapshot_v2, tidy, Area, Configuration, Consumer,
    CursorSnapshot, DeliveryConfig, Generation, HandOut, Hours, ImportError, Journal, JournalError,
    LeaseToken, NewJournal, Offset, Refusal, Rights, Snapshots, Storage, Stretch, WorkerId, BLOCK,
    SECTOR,
};

const SECOND: u64 = 1_000_000_000;

fn settings() -> Configuration {
    configuration(5, 99, 30 * SECOND, 300 * SECOND)
}

fn cursor_of(committed: u64, ahead: &[[u64; 2]]) -> CursorSnapshot {
    let ranges = ahead.iter().map(|range| Stretch::new(range[0], range[1]));
    CursorSnapshot {
        committed: Offset::new(committed),
        ahead: ranges.collect(),
    }
}

fn pairs_of(counts: &[(u64, u32)]) -> Vec<(Offset, u32)> {
    let pairs = counts.iter();
    pairs
        .map(|(offset, count)| (Offset::new(*offset), *count))
        .collect()
}

fn snapshots_of(committed: u64, ahead: &[[u64; 2]], counts: &[(u64, u32)]) -> Snapshots {
    Snapshots::encode(&cursor_of(committed, ahead), &pairs_of(counts)).unwrap()
}

fn import(path: &Path, snapshots: &Snapshots, first: u64) -> Result<Consumer, ImportError> {
    NewJournal::import(path, 18, &settings(), snapshots, Generation::new(first))
}

fn restart(path: &Path) -> Consumer {
    Consumer::restart(&settings(), Journal::open(path).unwrap()).unwrap()
}

/// 128 ranges of 10^9 offsets each, and 128 counts: as much as there can be.
fn fullest() -> (CursorSnapshot, Vec<(Offset, u32)>) {
    let ranges = (0..128).map(|range| (1 + 2 * range) * SECOND);
    let ahead: Vec<[u64; 2]> = ranges.map(|start| [start, start + SECOND]).collect();
    // The last one below each range.
    let counts = ahead.iter().zip((1..128).chain([u32::MAX]));
    let counts: Vec<(u64, u32)> = counts.map(|(range, n)| (range[0] - 1, n)).collect();
    (cursor_of(7, &ahead), pairs_of(&counts))
}

fn full() -> Snapshots {
    let (settled, counts) = fullest();
    Snapshots::encode(&settled, &counts).unwrap()
}

/// The consumer has just what `full` has.
fn is_full<S>(consumer: &Consumer<S>) {
    let (settled, counts) = fullest();
    assert_eq!(consumer.export(WORKER).unwrap(), full());
    assert_eq!(consumer.all_attempt_counts(WORKER).unwrap(), counts);
    let is_settled = |offset: u64| consumer.is_settled(WORKER, Offset::new(offset)).unwrap();
    assert!(is_settled(0) && is_settled(6) && !is_settled(7) && !is_settled(u64::MAX));
    for range in &settled.ahead {
        let [start, end] = [range.start, range.end].map(Offset::get);
        let edges = [start - 1, start, start + SECOND / 2, end - 1, end].map(is_settled);
        assert_eq!(edges, [false, true, true, true, false]);
    }
    assert_eq!(consumer.in_flight(WORKER), Ok(0));
}

// ## The day of the move

/// What a worker of the old server holds: it was the first hand-out of all, and then the worker fell asleep.
const SLEEPER: LeaseToken = LeaseToken {
    offset: Offset::new(7),
    generation: Generation::new(0),
};

/// Offset 7 is handed out anew.
fn handed_out_anew(consumer: &mut Consumer) -> (LeaseToken, u32) {
    let HandOut::Deliver { token, deliveries } = consumer.claim(WORKER, SLEEPER.offset, 0).unwrap()
    else {
        panic!("a delivery");
    };
    (token, deliveries)
}

/// The sleeper wakes up, and nothing is taken from it.
fn is_refused(consumer: &mut Consumer) {
    assert_eq!(consumer.ack(WORKER, SLEEPER), Err(Refusal::Fenced));
    assert_eq!(consumer.term(WORKER, SLEEPER), Err(Refusal::Fenced));
    let nacked = consumer.nack(WORKER, SLEEPER, 1, None);
    assert_eq!(nacked, Err(Refusal::Fenced));
    assert_eq!(consumer.progress(WORKER, SLEEPER, 1), Err(Refusal::Fenced));
    assert_eq!(consumer.is_settled(WORKER, SLEEPER.offset), Ok(false));
}

#[test]
fn a_worker_that_slept_through_the_move_is_refused() {
    let path = fresh_path("moving-day");
    // The old server's: 0 to 6 are done, and 7 was handed out once.
    let snapshots = snapshots_of(7, &[], &[(7, 1)]);
    let mut consumer = import(&path, &snapshots, 5000).unwrap();
    is_refused(&mut consumer);
    let (token, deliveries) = handed_out_anew(&mut consumer);
    assert_eq!((token.generation.get(), deliveries), (5000, 2));
    is_refused(&mut consumer);
    // The power fails, with or without a checkpoint of it.
    for checkpointed in [false, true] {
        if checkpointed {
            consumer = consumer.checkpoint(WORKER).unwrap();
        }
        drop(consumer);
        consumer = restart(&path).checkpoint(WORKER).unwrap();
        is_refused(&mut consumer);
        let (token, deliveries) = handed_out_anew(&mut consumer);
        assert!(token.generation.get() > 5000);
        assert_eq!(deliveries, 2 + u32::from(checkpointed));
        is_refused(&mut consumer);
    }
    let lease = consumer.lease_of(WORKER, SLEEPER.offset).unwrap().unwrap();
    let token = LeaseToken {
        generation: lease.generation,
        ..SLEEPER
    };
    assert_eq!(consumer.ack(WORKER, token), Ok(()));
    assert_eq!(consumer.committed(WORKER), Ok(Offset::new(8)));
}

// The same day with a journal of `create`, which counts from 0 as the old server did: the incident. So the test above can fail.
#[test]
fn with_create_the_sleeper_settles_a_job_that_was_handed_out_anew() {
    let path = fresh_path("moving-wrong");
    let journal = NewJournal::create(&path, 18).unwrap();
    let consumer = Consumer::start(&settings(), journal).unwrap();
    let mut consumer = consumer.checkpoint(WORKER).unwrap();
    let (token, _) = handed_out_anew(&mut consumer);
    assert_eq!(token, SLEEPER);
    assert_eq!(consumer.ack(WORKER, SLEEPER), Ok(()));
    assert_eq!(consumer.is_settled(WORKER, SLEEPER.offset), Ok(true));
}

// A consumer that begins empty: the server restarts from the journal, with its own configuration.
#[test]
fn a_journal_from_a_generation_gives_none_below_it() {
    let path = fresh_path("moving-from");
    for first in [0, 1, 4711, 1 << 53, u64::MAX - 5000] {
        let _ = fs::remove_file(&path);
        let journal = NewJournal::create_from(&path, 20, Generation::new(first)).unwrap();
        assert_eq!(journal.blocks(), 20);
        let restarted = Consumer::restart(&settings(), journal).unwrap();
        assert!(restarted.ceiling(WORKER).unwrap().get() >= first);
        assert_eq!(restarted.export(WORKER).unwrap(), snapshots_of(0, &[], &[]));
        let mut consumer = restarted.checkpoint(WORKER).unwrap();
        let (token, deliveries) = handed_out_anew(&mut consumer);
        assert!(token.generation.get() >= first && deliveries == 1);
        if first > 0 {
            is_refused(&mut consumer);
        }
        assert_eq!(consumer.ack(WORKER, token), Ok(()));
        // It keeps to it from its first moment on.
        drop(consumer);
        assert!(restart(&path).ceiling(WORKER).unwrap().get() >= first);
    }
    // No generation is left behind the last.
    fs::remove_file(&path).unwrap();
    let mut consumer = import(&path, &snapshots_of(0, &[], &[]), u64::MAX).unwrap();
    let claimed = consumer.claim(WORKER, Offset::ZERO, 0);
    assert_eq!(claimed, Err(Refusal::Exhausted));
}

#[test]
fn the_clock_is_above_what_a_server_gives() {
    let generation = Generation::from_clock().unwrap().get();
    // After September 2020, and before 2100.
    assert!((1_600_000_000 * SECOND..4_102_444_800 * SECOND).contains(&generation));
    assert!(Generation::from_clock().unwrap().get() >= generation);
}

// ## Snapshots in and out

#[test]
fn as_much_as_there_can_be_is_imported() {
    let path = fresh_path("moving-full");
    let (settled, counts) = fullest();
    let second = Snapshots {
        attempts: encode_attempt_snapshot_v2(&counts).unwrap(),
        ..full()
    };
    for snapshots in [full(), second] {
        let _ = fs::remove_file(&path);
        let consumer = import(&path, &snapshots, 9).unwrap();
        is_full(&consumer);
        assert_eq!(consumer.ceiling(WORKER).unwrap(), Generation::new(9 + 4096));
        // The checkpoint is in the file: header and eight bodies.
        drop(consumer);
        is_full(&restart(&path));
        let kinds: Vec<u8> = blocks_of(&path).chunks(BLOCK).map(|b| b[0]).collect();
        assert_eq!(kinds[..9], [1, 2, 2, 2, 2, 2, 2, 2, 2]);
        assert_eq!(kinds[9..], [0; 9]);
    }
    assert_eq!(CursorSnapshot::decode(&full().cursor), Ok(settled));
    assert_eq!(decode_attempt_snapshot(&full().attempts), Ok(counts));
}

// All that is done before the file, however wide the ranges are: the last thing that is refused is that nobody may checkpoint.
#[test]
fn an_import_takes_less_than_a_millisecond_besides_its_file() {
    let path = fresh_path("moving-time");
    let mut nobody = settings();
    nobody.settings.rights = [Rights::none(); 8];
    let snapshots = full();
    let took = (0..50).map(|_| {
        let began = Instant::now();
        let answer = NewJournal::import(&path, 128, &nobody, &snapshots, Generation::new(1));
        let took = began.elapsed();
        assert_eq!(answer.unwrap_err().refusal(), Some(Refusal::NotPermitted));
        took
    });
    let fastest = took.min().unwrap();
    assert!(fastest < Duration::from_millis(1), "{fastest:?}");
}

#[test]
fn counts_of_settled_offsets_and_zeros_are_dropped() {
    let path = fresh_path("moving-dropped");
    let counts = [(3, 1), (7, 0), (8, 2), (9, 3), (11, 4), (12, 5)];
    let snapshots = snapshots_of(7, &[[9, 12]], &counts);
    drop(import(&path, &snapshots, 1).unwrap());
    let consumer = restart(&path);
    let exported = consumer.export(WORKER).unwrap();
    assert_eq!(exported, snapshots_of(7, &[[9, 12]], &[(8, 2), (12, 5)]));
}

/// Blocks in memory.
struct Memory(Vec<u8>);

impl Storage for Memory {
    fn read(&mut self) -> io::Result<Area> {
        Ok(self.0.clone().into())
    }

    fn write_block(&mut self, block: usize, bytes: &[u8; BLOCK]) -> io::Result<()> {
        self.0[BLOCK * block..BLOCK * (block + 1)].copy_from_slice(bytes);
        Ok(())
    }

    fn sync(&mut self) -> io::Result<()> {
        Ok(())
    }
}

/// A consumer that has been called at random, near the first offsets or near the last.
fn called(random: &mut Random) -> Consumer<Memory> {
    let journal = NewJournal::on(Memory(vec![0; 128 * BLOCK])).unwrap();
    let consumer = Consumer::start(&settings(), journal).unwrap();
    let mut consumer = consumer.checkpoint(WORKER).unwrap();
    let base = random.pick(&[0, 1000, u64::MAX - 60]);
    consumer.commit(WORKER, Offset::new(base)).unwrap();
    let mut tokens = Vec::new();
    for call in 0..random.below(200) {
        let offset = Offset::new(base.saturating_add(random.below(62)));
        match random.below(5) {
            0 if random.below(40) == 0 => drop(consumer.commit(WORKER, offset)),
            0 | 1 if !tokens.is_empty() => {
                let token = tokens.swap_remove(random.below(tokens.len() as u64) as usize);
                let _ = consumer.ack(WORKER, token);
            }
            _ => {
                let claimed = consumer.claim(WORKER, offset, call * 10 * SECOND);
                tokens.extend(claimed.map(|hand_out| hand_out.token()));
            }
        }
    }
    consumer
}

#[test]
fn what_is_exported_is_what_is_there_and_comes_in_again() {
    let path = fresh_path("moving-round");
    let mut random = Random(53);
    let (mut ranges, mut counted) = (0, 0);
    for list in 0..300 {
        let consumer = called(&mut random);
        let exported = consumer.export(WORKER).unwrap();
        let settled = CursorSnapshot::decode(&exported.cursor).unwrap();
        assert_eq!(Ok(settled.committed), consumer.committed(WORKER));
        let (first, last) = (settled.committed.get().saturating_sub(70), 140);
        for offset in (first..first.saturating_add(last)).map(Offset::new) {
            let ahead = settled.ahead.iter();
            let here = offset < settled.committed
                || ahead
                    .clone()
                    .any(|range| range.start <= offset && offset < range.end);
            assert_eq!(consumer.is_settled(WORKER, offset), Ok(here), "{offset}");
        }
        let counts = decode_attempt_snapshot(&exported.attempts).unwrap();
        assert_eq!(Ok(&counts), consumer.all_attempt_counts(WORKER).as_ref());
        assert_eq!(exported.attempts[0], 1);
        ranges += settled.ahead.len();
        counted += counts.len();
        // A file takes syncs.
        if list % 10 == 0 {
            let _ = fs::remove_file(&path);
            let imported = import(&path, &exported, 5000).unwrap();
            assert_eq!(imported.export(WORKER).unwrap(), exported);
            drop(imported);
            assert_eq!(restart(&path).export(WORKER).unwrap(), exported);
        }
    }
    assert!(ranges > 1000 && counted > 1000, "{ranges} {counted}");
}

#[test]
fn everything_settled_is_exported() {
    let path = fresh_path("moving-all");
    for (committed, ahead) in [
        (u64::MAX, &[][..]),
        (0, &[[1, u64::MAX]]),
        (u64::MAX - 2, &[[u64::MAX - 1, u64::MAX]]),
        (5, &[[7, 8], [9, u64::MAX]]),
    ] {
        let _ = fs::remove_file(&path);
        let snapshots = snapshots_of(committed, ahead, &[]);
        let consumer = import(&path, &snapshots, 1).unwrap();
        assert_eq!(consumer.export(WORKER).unwrap(), snapshots);
    }
}

#[test]
fn an_export_is_a_question() {
    let mut settings = settings();
    settings.settings.rights[1] = Rights::LOOK;
    settings.settings.rights[2] = Rights::from_bits(255 - 64);
    let journal = NewJournal::on(Memory(vec![0; 18 * BLOCK])).unwrap();
    let consumer = Consumer::start(&settings, journal).unwrap();
    let export = |worker| consumer.export(WorkerId::new(worker));
    assert!(export(1).is_ok());
    assert_eq!(export(2), Err(Refusal::NotPermitted));
    assert_eq!(export(8), Err(Refusal::UnknownWorker));
}

#[test]
fn a_cursor_that_is_none_is_not_encoded() {
    let number = |committed, ahead: &[[u64; 2]]| {
        let encoded = cursor_of(committed, ahead).encode();
        encoded.map_err(|refusal| (refusal.number(), refusal.values()))
    };
    assert_eq!(number(5, &[[7, 7]]), Err((10, [7, 7])));
    assert_eq!(number(5, &[[9, 7]]), Err((10, [9, 7])));
    assert_eq!(number(5, &[[5, 7]]), Err((11, [5, 5])));
    assert_eq!(number(5, &[[6, 8], [8, 9]]), Err((11, [8, 8])));
    let ranges: Vec<[u64; 2]> = (1..130).map(|n| [2 * n, 2 * n + 1]).collect();
    assert_eq!(number(0, &ranges).unwrap_err().0, 12);
    assert_eq!(number(0, &ranges[..128]).unwrap().len(), 13 + 16 * 128);
}

// The Rust of docs/MOVING.md, as it stands there.
#[test]
fn the_document_runs() -> Result<(), Box<dyn std::error::Error>> {
    let folder = folder("moving-document");
    std::env::set_current_dir(&folder)?;
    let Snapshots { cursor, attempts } = full();
    let (configuration, worker) = (settings(), WORKER);
    let snapshots = Snapshots { cursor, attempts };
    let first = Generation::from_clock()?;
    let consumer = NewJournal::import("recipes.journal", 18, &configuration, &snapshots, first)?;
    assert!(consumer.ceiling(WORKER).unwrap() > first);
    let snapshots = consumer.export(worker)?;
    assert_eq!(snapshots, full());
    let here = include_str!("moving.rs");
    let text = include_str!("../../../docs/MOVING.md");
    let blocks = text.split("```rust\n").skip(1);
    let blocks: Vec<&str> = blocks.filter_map(|rest| rest.split("```").next()).collect();
    assert_eq!(blocks.len(), 2);
    let lines = blocks.iter().flat_map(|block| block.lines());
    for line in lines {
        assert!(here.contains(line.trim()), "{line}");
    }
    Ok(())
}

// ## What is refused

fn sealed(mut bytes: Vec<u8>) -> Vec<u8> {
    let check = crc32c(&bytes);
    bytes.extend(check.to_le_bytes());
    bytes
}

/// A cursor snapshot of so many ranges, and an attempt snapshot of so many pairs, right but for their number.
fn too_long(ranges: u64, pairs: u32) -> Snapshots {
    let numbers = (1..=ranges).flat_map(|n| [2 * n, 2 * n + 1]);
    let numbers = [0].into_iter().chain(numbers).flat_map(u64::to_le_bytes);
    let entries = (0..pairs).flat_map(|n| {
        let offset = (1000 + u64::from(n)).to_le_bytes();
        offset.into_iter().chain(1u32.to_le_bytes())
    });
    let head = [1].into_iter().chain(pairs.to_le_bytes());
    Snapshots {
        cursor: sealed([1].into_iter().chain(numbers).collect()),
        attempts: sealed(head.chain(entries).collect()),
    }
}

/// A folder of its own, which is empty.
fn folder(name: &str) -> PathBuf {
    let folder = fresh_path(name);
    let _ = fs::remove_dir_all(&folder);
    fs::create_dir(&folder).unwrap();
    folder
}

fn is_empty(folder: &Path) -> bool {
    fs::read_dir(folder).unwrap().next().is_none()
}

/// An import is refused, and nothing is left behind: the refusal's number.
fn refused(folder: &Path, snapshots: &Snapshots) -> u64 {
    let error = import(&folder.join("journal"), snapshots, 9).unwrap_err();
    assert!(is_empty(folder), "{error}");
    error.refusal().expect("a refusal").number()
}

#[test]
fn a_range_or_a_pair_too_many_is_refused() {
    let folder = folder("moving-too-many");
    assert_eq!(refused(&folder, &too_long(129, 128)), 12);
    assert_eq!(refused(&folder, &too_long(128, 129)), 19);
    assert_eq!(refused(&folder, &too_long(129, 129)), 12);
    assert!(import(&folder.join("journal"), &too_long(128, 128), 9).is_ok());
}

// Each bit of each byte wrong, and cut at each length, in both versions of the attempts.
#[test]
fn a_snapshot_that_is_damaged_is_refused() {
    let folder = folder("moving-damaged");
    let (_, counts) = fullest();
    let second = encode_attempt_snapshot_v2(&counts).unwrap();
    let (cursor, first) = (full().cursor, full().attempts);
    let damaged = |bytes: &[u8]| {
        let bits = (0..8 * bytes.len()).map(|bit| {
            let mut bytes = bytes.to_vec();
            bytes[bit / 8] ^= 1 << (bit % 8);
            bytes
        });
        let cuts = (0..bytes.len()).map(|length| bytes[..length].to_vec());
        bits.chain(cuts).collect::<Vec<_>>()
    };
    for cursor in damaged(&cursor) {
        let attempts = first.clone();
        let number = refused(&folder, &Snapshots { cursor, attempts });
        assert!((6..=9).contains(&number), "{number}");
    }
    for attempts in [damaged(&first), damaged(&second)].concat() {
        let cursor = cursor.clone();
        let number = refused(&folder, &Snapshots { cursor, attempts });
        assert!((13..=17).contains(&number), "{number}");
    }
    assert!(import(&folder.join("journal"), &full(), 9).is_ok());
}

// Everything is wrong at first, and one thing after the other is made right: so each is refused before all that come after it.
#[test]
fn what_is_refused_comes_in_its_order() {
    let folder = folder("moving-order");
    let path = folder.join("journal");
    let mut settings = settings();
    settings.settings.delivery =
        DeliveryConfig::new(0, false, &[1; 17]).with_attempts_flush_redeliveries(0);
    settings.settings.hours = Hours::from_masks([1 << 48; 7], 0);
    settings.settings.rights = [Rights::from_bits(255 - 32); 8];
    let mut snapshots = too_long(129, 129);
    let mut blocks = usize::MAX;
    let refused = |settings: &Configuration, blocks, snapshots: &Snapshots| {
        let first = Generation::new(1);
        let error = NewJournal::import(&path, blocks, settings, snapshots, first).unwrap_err();
        assert!(is_empty(&folder));
        error.refusal().expect("a refusal").number()
    };
    assert_eq!(refused(&settings, blocks, &snapshots), 1);
    settings.settings.delivery =
        DeliveryConfig::new(1, false, &[1; 17]).with_attempts_flush_redeliveries(0);
    assert_eq!(refused(&settings, blocks, &snapshots), 2);
    settings.settings.delivery =
        DeliveryConfig::new(1, false, &[1; 16]).with_attempts_flush_redeliveries(0);
    assert_eq!(refused(&settings, blocks, &snapshots), 3);
    settings.settings.delivery = DeliveryConfig::default();
    assert_eq!(refused(&settings, blocks, &snapshots), 33);
    settings.settings.hours = Hours::week();
    assert_eq!(refused(&settings, blocks, &snapshots), 34);
    settings.settings.hours = Hours::default();
    for wrong in [usize::MAX, 0, 16, 17, 19, 130, usize::MAX / BLOCK] {
        blocks = wrong;
        assert_eq!(refused(&settings, blocks, &snapshots), 4);
    }
    blocks = 18;
    assert_eq!(refused(&settings, blocks, &snapshots), 12);
    snapshots.cursor = full().cursor;
    assert_eq!(refused(&settings, blocks, &snapshots), 19);
    snapshots.attempts = full().attempts;
    assert_eq!(refused(&settings, blocks, &snapshots), 39);
    // The first worker who may.
    settings.settings.rights[6] = Rights::CHECKPOINT;
    let first = Generation::new(1);
    assert!(NewJournal::import(&path, blocks, &settings, &snapshots, first).is_ok());
}

#[test]
fn a_journal_that_is_there_stays() {
    let folder = folder("moving-there");
    let path = folder.join("journal");
    drop(import(&path, &full(), 9).unwrap());
    let before = fs::read(&path).unwrap();
    let exists = |error| assert!(matches!(error, JournalError::Exists), "{error}");
    match import(&path, &snapshots_of(0, &[], &[]), 1) {
        Err(ImportError::Journal(error)) => exists(error),
        other => panic!("{other:?}"),
    }
    exists(NewJournal::create_from(&path, 18, Generation::new(1)).unwrap_err());
    assert_eq!(fs::read(&path).unwrap(), before);
    assert_eq!(fs::read_dir(&folder).unwrap().count(), 1);
    let blocks = NewJournal::create_from(&path, 17, Generation::new(1));
    assert!(matches!(blocks, Err(JournalError::BadBlocks(17))));
}

// ## Processes that are stopped, and disks that fail

const PATH: &str = "NINOTSKEV_MOVING_PATH";
const ONCE: &str = "NINOTSKEV_MOVING_ONCE";

/// What the other process does: it imports as much as there can be, once or again and again.
#[test]
#[ignore = "a part of the tests below"]
fn role() {
    let Some(path) = std::env::var_os(PATH) else {
        return;
    };
    loop {
        match import(Path::new(&path), &full(), 9) {
            Ok(consumer) => drop(consumer),
            Err(error) => {
                println!("says {error}");
                return;
            }
        }
        println!("says imported");
        if std::env::var_os(ONCE).is_some() {
            return;
        }
        fs::remove_file(&path).unwrap();
    }
}

fn as_role(command: &mut Command, path: &Path) {
    command.args(["role", "--exact", "--nocapture", "--ignored"]);
    command.env(PATH, path);
}

// Whichever moment it was stopped at: a whole import, or no file of that name. What else is left goes with the next create or open, but for
// one that was finished and had no name yet, which may be somebody's own: that is a whole import too.
#[test]
fn a_process_that_was_killed_in_an_import_leaves_all_or_nothing() {
    let folder = folder("moving-killed");
    let path = folder.join("journal");
    let mut random = Random(7);
    let (mut whole, mut none, mut unfinished) = (0, 0, 0);
    // Sixty times, and until one was stopped between its first block and its first sector.
    for kill in 0..600 {
        if kill >= 60 && unfinished > 0 {
            break;
        }
        let mut command = Command::new(std::env::current_exe().unwrap());
        as_role(&mut command, &path);
        let mut importer = Other(command.stdout(Stdio::piped()).spawn().unwrap());
        assert_eq!(says(&mut importer), "imported");
        std::thread::sleep(Duration::from_micros(random.below(6000)));
        importer.is_killed();
        for end in beside(&path) {
            let bytes = fs::read(with_end(&path, &end)).unwrap();
            let has_blocks = bytes.iter().any(|byte| *byte != 0);
            unfinished += usize::from(has_blocks && !bytes.starts_with(b"NINOTSKV"));
        }
        if path.exists() {
            whole += 1;
            is_full(&restart(&path));
        } else {
            none += 1;
            drop(NewJournal::create(&path, 18).unwrap());
        }
        fs::remove_file(&path).unwrap();
        for end in beside(&path) {
            fs::rename(with_end(&path, &end), &path).unwrap();
            is_full(&restart(&path));
            fs::remove_file(&path).unwrap();
        }
    }
    assert!(is_empty(&folder));
    assert!(none > 0 && unfinished > 0, "{whole} {none} {unfinished}");
}

// It has blocks and no first sector, so that nobody can open it: the next create of that name removes it, and `tidy` does, unless somebody holds its lock. What
// can be opened stays, and what has no such length or name.
#[test]
fn what_an_import_left_is_removed() {
    let folder = folder("moving-left");
    let path = folder.join("journal");
    drop(import(&path, &full(), 9).unwrap());
    let whole = fs::read(&path).unwrap();
    let side_by_side = blocks_of(&path);
    fs::remove_file(&path).unwrap();
    let mut stopped = whole.clone();
    stopped[..SECTOR].fill(0);
    let longer = [&stopped[..], &[0]].concat();
    let kept = [".1-2.new", ".1-3.new", ".1-4.new", ".other.new"];
    let files = [&whole, &side_by_side, &longer, &stopped];
    for (end, bytes) in kept.into_iter().zip(files) {
        fs::write(with_end(&path, end), bytes).unwrap();
    }
    for end in [".1-0.new", ".1-1.new"] {
        fs::write(with_end(&path, end), &stopped).unwrap();
    }
    let held = fs::File::open(with_end(&path, ".1-1.new")).unwrap();
    held.lock().unwrap();
    drop(NewJournal::create_from(&path, 18, Generation::new(1)).unwrap());
    assert_eq!(beside(&path), [&[".1-1.new"][..], &kept].concat());
    drop(held);
    assert_eq!(tidy(&folder).unwrap(), 1);
    assert_eq!(beside(&path), kept);
    for (end, bytes) in kept.into_iter().zip(files) {
        assert!(fs::read(with_end(&path, end)).unwrap() == *bytes, "{end}");
    }
}

/// The other process under strace, with what that is told, and what it said.
fn traced(told: &[&str], trace: &Path, path: &Path) -> (Output, String) {
    let mut strace = Command::new("strace");
    strace.arg("-f").args(told).arg("-o").arg(trace);
    strace.arg(std::env::current_exe().unwrap()).env(ONCE, "1");
    as_role(&mut strace, path);
    let output = strace.output().unwrap();
    let text = String::from_utf8(output.stdout.clone()).unwrap();
    let said = text
        .lines()
        .find_map(|line| Some(line.split_once("says ")?.1));
    (output, said.unwrap_or_default().to_owned())
}

// Each write, each sync, and the naming fail in turn. No file of that name is left, nor any other, and the next import is made.
#[test]
fn an_import_whose_disk_fails_leaves_no_file() {
    if !strace_is_there("an_import_whose_disk_fails_leaves_no_file") {
        return;
    }
    let folder = folder("moving-disk");
    let path = folder.join("journal");
    let made = "the journal can't be read or written";
    let written = "the first checkpoint could not be written";
    // The zeros, nine blocks, and the first sector; the zeros' sync and the checkpoint's two; all of it and its name.
    let writes = (1..=11).map(|n| {
        (
            "pwrite64",
            n,
            if n == 1 || n == 11 { made } else { written },
        )
    });
    let syncs = (1..=3).map(|n| ("fdatasync", n, if n == 1 { made } else { written }));
    let folder_synced = "the journal's folder can't be synced";
    let names = [
        ("fsync", 1, made),
        ("linkat", 1, made),
        ("fsync", 2, folder_synced),
    ];
    for (call, n, says) in writes.chain(syncs).chain(names) {
        let fault = format!("inject={call}:error=EIO:when={n}");
        let told = ["-e", &format!("trace={call}"), "-e", &fault];
        let (_, said) = traced(&told, Path::new("/dev/null"), &path);
        assert_eq!(said, says, "{call} {n}");
        assert!(is_empty(&folder), "{call} {n}");
    }
    let (_, said) = traced(&["-e", "trace=none"], Path::new("/dev/null"), &path);
    assert_eq!(said, "imported");
    is_full(&restart(&path));
}

// All of it is durable before it has its name, and then its name is. No test that stops a process can see that.
#[test]
fn an_import_is_durable_before_it_has_its_name() {
    if !strace_is_there("an_import_is_durable_before_it_has_its_name") {
        return;
    }
    let folder = folder("moving-durable");
    let trace = fresh_path("moving-trace");
    let told = ["-e", "trace=pwrite64,fsync,fdatasync,linkat"];
    let (_, said) = traced(&told, &trace, &folder.join("journal"));
    assert_eq!(said, "imported");
    let text = fs::read_to_string(&trace).unwrap();
    let call = |line: &str| Some(line.split_once(' ')?.1.trim().split_once('(')?.0.to_owned());
    let calls: Vec<String> = text.lines().filter_map(call).collect();
    let wanted = [
        &["pwrite64", "fdatasync"][..],
        &["pwrite64"; 8],
        &["fdatasync", "pwrite64", "fdatasync"],
        &["pwrite64", "fsync", "linkat", "fsync"],
    ];
    assert_eq!(calls, wanted.concat());
}
