//! The port beside the original, as ratios: each pair of times is taken in turns within one run, many times over, and the least of
//! each is kept, since other work on the machine can only add to a time. Prints the table of docs/PERFORMANCE.md.
mod checks;
mod drivers;
mod stack;

use drivers::{here, in_place, original};
use ironbus::attempt::{decode_attempt_snapshot, encode_attempt_snapshot};
use ironbus::cursor::AckCursor;
use ironbus::types::Offset;
use std::hint::black_box;
use std::time::{Duration, Instant};

/// How often each side is timed.
const TURNS: u32 = 400;

fn timed(run: &mut dyn FnMut()) -> Duration {
    let start = Instant::now();
    run();
    start.elapsed()
}

/// Times both sides in turns, each doing the thing `times` over, and prints a line of the table.
fn line(what: &str, times: u32, mut theirs: impl FnMut(), mut ours: impl FnMut()) {
    let (mut least_theirs, mut least_ours) = (Duration::MAX, Duration::MAX);
    for _ in 0..TURNS {
        least_theirs = least_theirs.min(timed(&mut theirs));
        least_ours = least_ours.min(timed(&mut ours));
    }
    let each = |time: Duration| time.as_nanos() as f64 / f64::from(times);
    let (theirs, ours) = (each(least_theirs), each(least_ours));
    println!("| {what} | {theirs:.1} | {ours:.1} | {:.2} |", ours / theirs);
}

/// The value counts as used, so that nothing that made it is left out.
fn keep<T>(value: T) {
    black_box(value);
}

fn repeat(times: u32, mut run: impl FnMut()) {
    for _ in 0..times {
        run();
    }
}

fn checks() {
    let bytes: Vec<u8> = (0..65_536_u32).map(|i| (i * 31 + 7) as u8).collect();
    for (name, len, times) in [("16 B", 16, 2000), ("512 B", 512, 200), ("64 KiB", 65_536, 2)] {
        let bytes = &bytes[..len];
        assert_eq!(checks::by_16(bytes), rattle::crc32c(bytes));
        let ours = || repeat(times, || keep(rattle::crc32c(black_box(bytes))));
        line(
            &format!("crc32c, {name}, against the stand-in"),
            times,
            || repeat(times, || keep(crc32c::crc32c(black_box(bytes)))),
            ours,
        );
        line(
            &format!("crc32c, {name}, against a table of 16"),
            times,
            || repeat(times, || keep(checks::by_16(black_box(bytes)))),
            ours,
        );
        if checks::by_instruction(bytes) == Some(rattle::crc32c(bytes)) {
            let theirs = || repeat(times, || keep(checks::by_instruction(black_box(bytes))));
            line(
                &format!("crc32c, {name}, against the processor's instruction"),
                times,
                theirs,
                ours,
            );
        }
    }
}

fn cursor_snapshots() {
    for n in [0, 1, 16, 128] {
        let ranges: Vec<(u64, u64)> = (0..n).map(|i| (7 + 3 * i, 8 + 3 * i)).collect();
        let (starts, ends): (Vec<u64>, Vec<u64>) = ranges.iter().copied().unzip();
        let cursor = AckCursor::resume_with_ahead(Offset::new(5), ranges).unwrap();
        let mut bytes = Vec::new();
        cursor.encode_snapshot(&mut bytes);
        let times = 20_000 / (n as u32 + 10);
        let mut out = vec![0; bytes.len()];
        let mut vec = Vec::with_capacity(bytes.len());
        let mut theirs = || {
            repeat(times, || {
                vec.clear();
                black_box(&cursor).encode_snapshot(black_box(&mut vec));
            })
        };
        let (s, e) = (black_box(&starts), black_box(&ends));
        let ours = || repeat(times, || keep(rattle::encode_cursor(5, s, e, &mut out, 0)));
        line(&format!("cursor snapshot, {n} ranges: encode"), times, &mut theirs, ours);
        assert_eq!(out, bytes);
        out.fill(0);
        line(&format!("cursor snapshot, {n} ranges: encode, by value"), times, theirs, || {
            here::encodes(5, &starts, &ends, black_box(&mut out), times)
        });
        assert_eq!(out, bytes);
        let (mut s, mut e) = ([0; 128], [0; 128]);
        let ours = || repeat(times, || keep(rattle::decode_cursor(black_box(&bytes), &mut s, &mut e)));
        line(
            &format!("cursor snapshot, {n} ranges: decode"),
            times,
            || repeat(times, || keep(AckCursor::decode_snapshot(black_box(&bytes)))),
            ours,
        );
    }
}

/// Version 2 has no original: it is timed against version 1.
fn attempt_snapshots() {
    for n in [0, 1, 16, 128] {
        let pairs: Vec<(u64, u32)> = (0..n).map(|i| (7 + 3 * i, 1 + i as u32)).collect();
        let (offsets, attempts): (Vec<u64>, Vec<u32>) = pairs.iter().copied().unzip();
        let mut bytes = Vec::new();
        encode_attempt_snapshot(&pairs, &mut bytes);
        let times = 20_000 / (n as u32 + 10);
        let (mut first, mut second) = (vec![0; bytes.len()], vec![0; bytes.len()]);
        let mut vec = Vec::with_capacity(bytes.len());
        let mut theirs = || {
            repeat(times, || {
                vec.clear();
                encode_attempt_snapshot(black_box(&pairs), black_box(&mut vec));
            })
        };
        let (o, a) = (black_box(&offsets), black_box(&attempts));
        let ours = || repeat(times, || keep(rattle::encode_attempts(o, a, &mut first, 0)));
        line(&format!("attempt snapshot, {n} pairs: encode"), times, &mut theirs, ours);
        assert_eq!(first, bytes);
        let ours = || repeat(times, || keep(rattle::encode_attempts_v2(o, a, &mut second, 0)));
        line(&format!("attempt snapshot, {n} pairs, version 2: encode"), times, theirs, ours);
        let (mut o, mut a) = ([0; 128], [0; 128]);
        for (name, ours) in [("", &first), (", version 2", &second)] {
            line(
                &format!("attempt snapshot, {n} pairs{name}: decode"),
                times,
                || repeat(times, || keep(decode_attempt_snapshot(black_box(&bytes)))),
                || repeat(times, || keep(rattle::decode_attempts(black_box(ours), &mut o, &mut a))),
            );
            assert_eq!((&o[..offsets.len()], &a[..offsets.len()]), (&offsets[..], &attempts[..]));
        }
    }
}

fn calls() {
    let n = 2000;
    assert_eq!(original::acks_in_order(n), here::acks_in_order(n));
    line(
        "ack in order",
        n as u32,
        || keep(original::acks_in_order(black_box(n))),
        || keep(here::acks_in_order(black_box(n))),
    );
    assert_eq!(original::acks_in_order(n), in_place::acks_in_order(n));
    line(
        "ack in order, in place",
        n as u32,
        || keep(original::acks_in_order(black_box(n))),
        || keep(in_place::acks_in_order(black_box(n))),
    );
    let batches = 30;
    assert_eq!(original::acks_reversed(batches), here::acks_reversed(batches));
    let theirs = || keep(original::acks_reversed(black_box(batches)));
    line("ack, in batches of 64 from the last down", 64 * batches, theirs, || {
        keep(here::acks_reversed(black_box(batches)))
    });
    assert_eq!(original::acks_reversed(batches), in_place::acks_reversed(batches));
    line(
        "ack, in batches of 64 from the last down, in place",
        64 * batches,
        theirs,
        || keep(in_place::acks_reversed(black_box(batches))),
    );
    let rounds = 16;
    assert_eq!(original::acks_apart(rounds), in_place::acks_apart(rounds));
    line(
        "ack, 127 offsets apart from the last down, in place",
        127 * rounds,
        || keep(original::acks_apart(black_box(rounds))),
        || keep(in_place::acks_apart(black_box(rounds))),
    );
    for window in [0, 8, 63] {
        let n = 1000;
        assert_eq!(original::claims_and_acks(window, n), here::claims_and_acks(window, n));
        let theirs = || keep(original::claims_and_acks(black_box(window), n));
        let ours = || keep(here::claims_and_acks(black_box(window), n));
        line(
            &format!("claim, and ack of the oldest in table and cursor, {window} more in flight"),
            n,
            theirs,
            ours,
        );
    }
}

/// The stack of a loop of acks by value, with the cursor that it holds.
fn stacks() {
    println!("\n| stack, with the cursor | original, B | here, B |\n|---|---|---|");
    let theirs = stack::of(|| keep(original::acks_reversed(black_box(1))));
    let ours = stack::of(|| keep(here::acks_reversed(black_box(1))));
    println!("| acks | {theirs} | {ours} |");
}

fn main() {
    println!("| what | original, ns | here, ns | ratio |\n|---|---|---|---|");
    checks();
    cursor_snapshots();
    attempt_snapshots();
    calls();
    stacks();
}
