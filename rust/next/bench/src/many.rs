//! Many consumers whose journals lie in one file: what an idle one takes of memory, how long their checkpoints take together and one by one,
//! and how long it takes to open them; beside that, as many files of one journal each.

use std::fs;
use std::path::{Path, PathBuf};
use std::time::{Duration, Instant};

use delivery_bench::{Nowhere, Original, Side};
use ironbus_delivery_state::{
    checkpoint_all, Configuration, Consumer, Journal, JournalPart, Journals, NewJournal, WorkerId,
    MIN_BLOCKS,
};

const WORKER: WorkerId = WorkerId::new(0);

/// How many consumers are idle, are checkpointed, and are opened.
const IDLE: usize = 10_000;
const CHECKPOINTED: usize = 1000;
const OPENED: usize = 5000;

const ROUNDS: usize = 5;

/// The bytes of memory that the process has.
fn resident() -> u64 {
    let status = fs::read_to_string("/proc/self/status").unwrap();
    let line = status.lines().find(|line| line.starts_with("VmRSS:"));
    let number = line.and_then(|line| line.split_whitespace().nth(1));
    1024 * number.unwrap().parse::<u64>().unwrap()
}

/// What each of so many takes of it, and they.
fn memory_of<T>(count: usize, make: impl FnOnce() -> Vec<T>) -> (u64, Vec<T>) {
    let before = resident();
    let all = make();
    assert_eq!(all.len(), count);
    ((resident() - before) / count as u64, all)
}

/// The answers of all checkpoints.
fn together(consumers: Vec<Consumer<JournalPart>>) -> Vec<Consumer<JournalPart>> {
    let made = checkpoint_all(consumers, WORKER);
    made.into_iter().map(Result::unwrap).collect()
}

/// A consumer on each journal of a new file, with a first checkpoint, some at a time.
fn fleet(journals: &Journals) -> Vec<Consumer<JournalPart>> {
    let mut consumers = Vec::with_capacity(journals.count());
    for first in (0..journals.count()).step_by(100) {
        let numbers = first..journals.count().min(first + 100);
        let started = numbers.map(|number| {
            let journal = journals.new_journal(number).unwrap();
            Consumer::start(&Configuration::default(), journal).unwrap()
        });
        consumers.extend(together(started.collect()));
    }
    consumers
}

fn memory(path: &Path) {
    let journals = Journals::create(path, IDLE, MIN_BLOCKS).unwrap();
    let (theirs, original) = memory_of(IDLE, || {
        let sides = (0..IDLE).map(|_| Box::<Original<Nowhere>>::start(Nowhere));
        sides.collect()
    });
    let (ours, consumers) = memory_of(IDLE, || fleet(&journals));
    println!("| bytes of an idle consumer, of {IDLE} in one file | {theirs} | {ours} |");
    drop((original, consumers));
}

/// The least of several rounds.
fn least(mut round: impl FnMut() -> Duration) -> f64 {
    let rounds = (0..ROUNDS).map(|_| round().as_secs_f64());
    rounds.fold(f64::INFINITY, f64::min)
}

fn checkpoints(journals: &Journals) {
    let mut consumers = Some(fleet(journals));
    let mut syncs = [0; 2];
    let mut timed = |which: usize, checkpoint: fn(Vec<_>) -> Vec<_>| {
        let before = journals.syncs();
        let all = consumers.take().unwrap();
        let start = Instant::now();
        consumers = Some(checkpoint(all));
        let time = start.elapsed();
        syncs[which] = journals.syncs() - before;
        time
    };
    let one_by_one = |all: Vec<Consumer<JournalPart>>| {
        let all = all.into_iter();
        all.map(|consumer| consumer.checkpoint(WORKER).unwrap())
            .collect()
    };
    let all = least(|| timed(1, together));
    let each = least(|| timed(0, one_by_one));
    let (a, b) = (each * 1e3, all * 1e3);
    let [one, two] = syncs;
    println!(
        "| ms of {CHECKPOINTED} durable checkpoints, one by one and together | {a:.1} | {b:.1} |"
    );
    println!("| syncs of that | {one} | {two} |");
    println!("| how many times as fast | | {:.0} |", each / all);
}

/// Opens a file, and each of its journals in turn; then the same with a consumer that is restarted from each.
fn open(path: &Path) -> [Duration; 2] {
    let start = Instant::now();
    let journals = Journals::open(path).unwrap();
    for number in 0..journals.count() {
        drop(journals.journal(number).unwrap());
    }
    let opened = start.elapsed();
    drop(journals);
    let start = Instant::now();
    let journals = Journals::open(path).unwrap();
    let restarted = (0..journals.count()).map(|number| {
        let journal = journals.journal(number).unwrap();
        Consumer::restart(&Configuration::default(), journal).unwrap()
    });
    let restarted: Vec<_> = restarted.collect();
    let time = start.elapsed();
    drop(restarted);
    [opened, time]
}

fn opening(path: &Path) {
    let journals = Journals::create(path, OPENED, MIN_BLOCKS).unwrap();
    drop(fleet(&journals));
    drop(journals);
    let times: Vec<_> = (0..ROUNDS).map(|_| open(path)).collect();
    let least = |which: usize| {
        let times = times.iter().map(|time| time[which].as_secs_f64() * 1e3);
        times.fold(f64::INFINITY, f64::min)
    };
    let (opened, restarted) = (least(0), least(1));
    println!("| ms to open {OPENED} journals of one file | | {opened:.1} |");
    println!("| the same, and to restart a consumer from each | | {restarted:.1} |");
}

/// Files of one journal each, in a folder of their own, which are copies of one.
fn files(folder: &Path, count: usize) -> Vec<PathBuf> {
    fs::create_dir(folder).unwrap();
    let first = folder.join("0");
    let journal = NewJournal::create(&first, MIN_BLOCKS).unwrap();
    let consumer = Consumer::start(&Configuration::default(), journal).unwrap();
    drop(consumer.checkpoint(WORKER).unwrap());
    let paths: Vec<PathBuf> = (0..count).map(|n| folder.join(n.to_string())).collect();
    for path in &paths[1..] {
        fs::copy(&first, path).unwrap();
    }
    fs::File::open(folder).unwrap().sync_all().unwrap();
    paths
}

fn opening_files(folder: &Path) {
    for count in [OPENED / 50, OPENED / 5, OPENED] {
        let paths = files(folder, count);
        let open = || {
            let start = Instant::now();
            for path in &paths {
                drop(Journal::open(path).unwrap());
            }
            start.elapsed()
        };
        // The first round makes them durable.
        let time = least(open) * 1e6 / count as f64;
        println!("| µs to open one of {count} files in a folder | | {time:.1} |");
        fs::remove_dir_all(folder).unwrap();
    }
}

pub fn table(path: &Path) {
    println!("| many consumers | original, or one by one | this crate |\n|---|---|---|");
    memory(path);
    fs::remove_file(path).unwrap();
    let journals = Journals::create(path, CHECKPOINTED, MIN_BLOCKS).unwrap();
    checkpoints(&journals);
    drop(journals);
    fs::remove_file(path).unwrap();
    opening(path);
    fs::remove_file(path).unwrap();
    opening_files(&path.with_extension("files"));
}
