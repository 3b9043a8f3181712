//! This crate beside the original's lease table and cursor: claim + ack with the checkpoints between them on a file, then the calls
//! one by one, then many consumers. Both in one run, in turns, the least of each side; the tables go to docs/PERFORMANCE.md.

mod calls;
mod file;
mod fleet;

use std::path::PathBuf;
use std::time::Instant;

use delivery_bench::{Here, Nowhere, Original};

type Theirs = Box<Original<Nowhere>>;
type Ours = Here<Nowhere>;

/// The nanoseconds of a call, where so many are made at a time: the least of several times.
fn per_call(calls: u64, times: u32, mut run: impl FnMut()) -> f64 {
    let mut least = f64::INFINITY;
    for _ in 0..times {
        let start = Instant::now();
        run();
        least = least.min(start.elapsed().as_secs_f64());
    }
    least * 1e9 / calls as f64
}

/// Lines of the table, from rounds of the two sides in turns, each of which gives a time for each line.
fn lines<const N: usize>(
    names: [&str; N],
    rounds: u32,
    mut theirs: impl FnMut() -> [f64; N],
    mut ours: impl FnMut() -> [f64; N],
) {
    let mut least = [[f64::INFINITY; N]; 2];
    for _ in 0..rounds {
        for (least, times) in least.iter_mut().zip([theirs(), ours()]) {
            for (least, time) in least.iter_mut().zip(times) {
                *least = least.min(time);
            }
        }
    }
    for (i, name) in names.into_iter().enumerate() {
        let [theirs, ours] = [least[0][i], least[1][i]];
        let ratio = ours / theirs;
        println!("| {name} | {theirs:.1} | {ours:.1} | {ratio:.2} |");
    }
}

fn main() {
    let path = PathBuf::from(
        std::env::args_os()
            .nth(1)
            .unwrap_or_else(|| "bench.journal".into()),
    );
    file::table(&path);
    println!("\n| what | original, ns | this crate, ns | ratio |\n|---|---|---|---|");
    calls::table();
    fleet::table();
}
