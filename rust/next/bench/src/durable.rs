//! Durable checkpoints of this crate: how long each takes, and how many syncs.

use std::collections::BTreeMap;
use std::path::Path;
use std::time::{Duration, Instant};

use delivery_bench::{Blocks, Here, Side};
use ironbus_delivery_state::{Storage, BLOCK, MAX_BLOCKS, MIN_BLOCKS};

/// How many checkpoints are made for a size of them: in rounds, since other work on the machine or the disk can only add to a time.
const ROUNDS: usize = 10;
const CHECKPOINTS: usize = 200;

/// The most ranges of a cursor, and the most leases.
const RANGES: u64 = 128;
const LEASES: u64 = 64;

/// A side whose every checkpoint has so many blocks.
fn side(storage: Blocks, size: usize) -> Here<Blocks> {
    let side = Here::start(storage);
    match size {
        2 => side,
        3 => with(side, 0, 50),
        _ => with(side.carrying(1000..1000 + LEASES), RANGES, LEASES),
    }
}

fn with(mut side: Here<Blocks>, ranges: u64, leases: u64) -> Here<Blocks> {
    for range in 0..ranges {
        let token = side.claim(2 * range + 1, 0);
        side.ack(token);
    }
    for lease in 0..leases {
        side.claim(2000 + lease, 0);
    }
    side
}

/// The times of some checkpoints, in microseconds, the worst of each round, and the most syncs that one took.
#[derive(Default)]
struct Times {
    micros: Vec<f64>,
    worst: [f64; ROUNDS],
    syncs: u64,
}

impl Times {
    fn add(&mut self, round: usize, time: Duration, syncs: u64) {
        let micros = time.as_secs_f64() * 1e6;
        self.micros.push(micros);
        self.worst[round] = self.worst[round].max(micros);
        self.syncs = self.syncs.max(syncs);
    }

    fn row(mut self, name: &str, writes: usize) {
        self.micros.sort_by(f64::total_cmp);
        let count = self.micros.len();
        let (median, worst) = (self.micros[count / 2], self.micros[count - 1]);
        let quiet = self.worst.iter().copied().filter(|&w| w > 0.0);
        let quiet = quiet.fold(f64::INFINITY, f64::min);
        let (ratio, syncs) = (quiet / median, self.syncs);
        println!(
            "| {name} | {writes} | {count} | {median:.0} | {quiet:.0} | {ratio:.1} | {worst:.0} | {syncs} |"
        );
    }
}

/// Checkpoints of so many blocks, apart by how many writes they take: more where they go to the other half.
fn checkpoints(path: &Path, blocks: usize, size: usize) {
    let storage = Blocks::new(path, blocks, true);
    let syncs = storage.syncs();
    let mut side = side(storage, size);
    let mut times = BTreeMap::<usize, Times>::new();
    for n in 0..ROUNDS * CHECKPOINTS {
        let before = syncs.get();
        let start = Instant::now();
        let (done, steps) = Here::finish(side.begin());
        let time = start.elapsed();
        side = done;
        times
            .entry(steps as usize)
            .or_default()
            .add(n / CHECKPOINTS, time, syncs.get() - before);
    }
    for (writes, times) in times {
        let other = if writes > size {
            ", to the other half"
        } else {
            ""
        };
        times.row(
            &format!("{size} blocks of a journal of {blocks}{other}"),
            writes,
        );
    }
}

/// What the disk takes by itself: a sector and a sync, twice.
fn floor(path: &Path) {
    let mut storage = Blocks::new(path, MIN_BLOCKS, true);
    let mut times = Times::default();
    for n in 0..ROUNDS * CHECKPOINTS {
        let start = Instant::now();
        for block in 0..2 {
            storage.write_block(block, &[n as u8; BLOCK]).unwrap();
            storage.sync().unwrap();
        }
        times.add(n / CHECKPOINTS, start.elapsed(), 2);
    }
    times.row("a write and a sync, twice, by themselves", 2);
}

pub fn table(path: &Path) {
    println!("| durable checkpoint | writes | how many | median, µs | worst of the quietest round, µs | ratio | worst of all, µs | syncs |");
    println!("|---|---|---|---|---|---|---|---|");
    floor(path);
    for blocks in [MIN_BLOCKS, MAX_BLOCKS] {
        for size in [2, 3, 9] {
            checkpoints(path, blocks, size);
        }
    }
    std::fs::remove_file(path).unwrap();
}
