//! This crate beside the original's lease table and cursor: claim + ack with the checkpoints between them on a file, then the calls
//! one by one, then many consumers. Both in one run, in turns, the least of each side; the tables go to docs/PERFORMANCE.md. Before the
//! calls come durable checkpoints of this crate by themselves, with the median and the worst.
//!
//! The first argument is the file that checkpoints are written to, and the second one of the tables, if it is to be alone: `file`,
//! `durable`, `calls`, `fleet` or `many`. The last one, of many consumers in one file, comes only if it is named: it takes over a gigabyte of
//! disk beside that file.

mod calls;
mod durable;
mod file;
mod fleet;
mod many;

use std::path::PathBuf;
use std::time::Instant;

use delivery_bench::{Here, Memory, Original};

type Theirs = Box<Original<Memory>>;
type Ours = Here<Memory>;

/// The nanoseconds of a call, where so many are made at a time: the least of several times.
fn per_call(calls: u64, times: u32, mut run: impl FnMut()) -> f64 {
    let mut least = f64::INFINITY;
    for _ in 0..times {
        let start = Instant::now();
        run();
        least = least.min(start.elapsed().as_secs_f64());
    }
    least * 1e9 / calls as f64
}

/// Lines of the table, from rounds of the two sides in turns, each of which gives a time for each line.
fn lines<const N: usize>(
    names: [&str; N],
    rounds: u32,
    mut theirs: impl FnMut() -> [f64; N],
    mut ours: impl FnMut() -> [f64; N],
) {
    let mut least = [[f64::INFINITY; N]; 2];
    for _ in 0..rounds {
        for (least, times) in least.iter_mut().zip([theirs(), ours()]) {
            for (least, time) in least.iter_mut().zip(times) {
                *least = least.min(time);
            }
        }
    }
    for (i, name) in names.into_iter().enumerate() {
        let [theirs, ours] = [least[0][i], least[1][i]];
        let ratio = ours / theirs;
        println!("| {name} | {theirs:.1} | {ours:.1} | {ratio:.2} |");
    }
}

fn main() {
    let mut arguments = std::env::args_os().skip(1);
    let path = PathBuf::from(arguments.next().unwrap_or_else(|| "bench.journal".into()));
    let table = arguments.next();
    let wanted = |name: &str| table.as_deref().is_none_or(|table| table == name);
    if table.as_deref().is_some_and(|table| table == "many") {
        many::table(&path);
        return;
    }
    if wanted("file") {
        file::table(&path);
        println!();
    }
    if wanted("durable") {
        durable::table(&path);
        println!();
    }
    if wanted("calls") || wanted("fleet") {
        println!("| what | original, ns | this crate, ns | ratio |\n|---|---|---|---|");
    }
    if wanted("calls") {
        calls::table();
    }
    if wanted("fleet") {
        fleet::table();
    }
}
