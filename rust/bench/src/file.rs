//! Claim and ack, and the checkpoints between them, with the same blocks written to a file.

use std::path::Path;
use std::time::{Duration, Instant};

use delivery_bench::{Blocks, Here, Original, Side};

/// How much is done in a round: checkpoints, batches between two of them, and messages in flight at a time.
#[derive(Clone, Copy)]
struct Work {
    checkpoints: u64,
    batches: u64,
    flight: u64,
}

/// The best times of a round: the claims and acks between two checkpoints, and a checkpoint.
fn round<S: Side<Storage = Blocks>>(work: Work, blocks: Blocks) -> [Duration; 2] {
    let mut side = S::start(blocks);
    let (mut calls, mut writes) = (Duration::MAX, Duration::MAX);
    let mut next = 0;
    for _ in 0..work.checkpoints {
        let start = Instant::now();
        for _ in 0..work.batches {
            let mut tokens = Vec::with_capacity(work.flight as usize);
            for offset in next..next + work.flight {
                tokens.push(side.claim(offset, offset));
            }
            for token in &tokens {
                side.ack(*token);
            }
            next += work.flight;
        }
        calls = calls.min(start.elapsed());
        let start = Instant::now();
        side = side.checkpoint();
        writes = writes.min(start.elapsed());
    }
    assert_eq!((side.committed(), side.held()), (next, (0, 0)));
    [calls, writes]
}

/// The best of several rounds, in turns, so that other work on the machine counts for little.
fn line(path: &Path, name: &str, work: Work, sync: bool, rounds: usize) {
    let mut best = [f64::INFINITY; 4];
    for _ in 0..rounds {
        let theirs = round::<Box<Original<Blocks>>>(work, Blocks::new(path, sync));
        let ours = round::<Here<Blocks>>(work, Blocks::new(path, sync));
        for (best, time) in best.iter_mut().zip([theirs, ours].as_flattened()) {
            *best = best.min(time.as_secs_f64());
        }
    }
    let [a, c, b, d] = best;
    let (call, write) = (1e9 / (work.batches * work.flight) as f64, 1e6);
    println!(
        "| {name} | {:.0} | {:.0} | {:.1} | {:.1} | {:.1} | {:.1} |",
        a * call,
        b * call,
        b / a,
        c * write,
        d * write,
        (b + d) / (a + c)
    );
}

pub fn table(path: &Path) {
    println!("| | claim + ack: original, ns | this crate, ns | ratio | checkpoint: original, µs | this crate, µs | all: ratio |");
    println!("|---|---|---|---|---|---|---|");
    let [one, many] = [(1000, 1), (20, 50)].map(|(batches, flight)| Work {
        checkpoints: 60,
        batches,
        flight,
    });
    for (durable, sync, rounds) in [("not durable", false, 11), ("durable", true, 5)] {
        for work in [one, many] {
            let flight = work.flight;
            let name = format!("{flight} in flight, 1,000 between checkpoints, {durable}");
            line(path, &name, work, sync, rounds);
        }
    }
    std::fs::remove_file(path).unwrap();
}
