//! Scenes of imports: consumers that begin with the snapshots of another server (SPEC.md, "Import").
use crate::make::Maker;
use crate::open::questions;
use crate::scenes::checkpoint;
use crate::wear::snapshots;
use ironbus::cursor::AckCursor;
use ironbus::types::Offset;
use lists::codecs::{attempt_snapshot, attempt_snapshot_v2};

/// Bytes as a word of a line.
pub fn word(bytes: &[u8]) -> String {
    if bytes.is_empty() {
        return "-".to_string();
    }
    bytes.iter().map(|byte| format!("{byte:02x}")).collect()
}

pub fn line(first: u64, cursor: &[u8], attempts: &[u8]) -> String {
    format!("import {first} {} {}", word(cursor), word(attempts))
}

/// The snapshot of a cursor with so many ranges, narrow and wide ones.
pub fn cursor_with(maker: &mut Maker, ranges: u64) -> Vec<u8> {
    let committed = maker.random.pick(&[0, 0, 5, 1 << 40]);
    let mut at = committed;
    let mut ahead = Vec::new();
    for _ in 0..ranges {
        let start = at + 1 + maker.random.below(3);
        at = start + maker.random.pick(&[1, 1, 2, 1_000_000_000]);
        ahead.push((start, at));
    }
    let cursor = AckCursor::resume_with_ahead(Offset::new(committed), ahead).expect("rising ranges");
    let mut bytes = Vec::new();
    cursor.encode_snapshot(&mut bytes);
    bytes
}

/// An attempt snapshot of so many counts, of settled offsets and zeros among them.
pub fn attempts_with(maker: &mut Maker, counts: u64) -> Vec<u8> {
    let mut offset = maker.random.pick(&[0, 0, 3, 1 << 40]);
    let mut pairs = Vec::new();
    for _ in 0..counts {
        pairs.push((offset, maker.random.pick(&[0u32, 1, 1, 2, 3, u32::MAX])));
        offset += 1 + maker.random.below(3);
    }
    let snapshot = maker.random.pick(&[attempt_snapshot, attempt_snapshot_v2]);
    snapshot(&pairs)
}

/// The first generation of an import.
fn first(maker: &mut Maker) -> u64 {
    maker.random.pick(&[0, 1, 7, 4_096, 1 << 60, u64::MAX - 2, u64::MAX])
}

/// Both snapshots: sound ones, full ones, one too many of either, and such as have a fault.
fn both(maker: &mut Maker) -> (Vec<u8>, Vec<u8>) {
    let (ranges, counts) = maker
        .random
        .pick(&[(0, 0), (1, 2), (3, 5), (3, 5), (128, 128), (129, 3), (3, 129)]);
    let (cursor, attempts) = (cursor_with(maker, ranges), attempts_with(maker, counts));
    match maker.random.below(6) {
        0 => snapshots(maker),
        1 => (cut(maker, cursor), attempts),
        2 => (cursor, cut(maker, attempts)),
        3 => (damaged(maker, cursor), damaged(maker, attempts)),
        _ => (cursor, attempts),
    }
}

/// The first bytes, none at all among them.
fn cut(maker: &mut Maker, mut bytes: Vec<u8>) -> Vec<u8> {
    let length = maker.random.below(bytes.len() as u64 + 1) as usize;
    bytes.truncate(maker.random.pick(&[0, 8, 12, length, length]));
    bytes
}

/// One bit of the bytes is wrong, if any.
fn damaged(maker: &mut Maker, mut bytes: Vec<u8>) -> Vec<u8> {
    if maker.random.below(2) == 0 {
        let at = maker.random.below(bytes.len() as u64) as usize;
        bytes[at] ^= 1 << maker.random.below(8);
    }
    bytes
}

/// Imports in any phase, what is found after them, and a restart before and after the first checkpoint.
pub fn imports(maker: &mut Maker) {
    maker.start_any();
    for _ in 0..2 + maker.random.below(4) {
        let (cursor, attempts) = both(maker);
        let first = first(maker);
        let answer = maker.say(line(first, &cursor, &attempts));
        maker.say("state");
        if answer == "imported" {
            after(maker);
        }
        match maker.random.below(6) {
            0 => drop(maker.say("begin")),
            1 => {
                maker.say("begin");
                maker.say("cut torn");
            }
            2 => {
                let hours = maker.any_hours();
                maker.hours(Some(hours));
            }
            _ => (),
        }
    }
}

/// What follows an import: a claim that is due a checkpoint, calls, and restarts that find it.
fn after(maker: &mut Maker) {
    let claim = format!("claim {} 0", maker.offset());
    maker.say(claim);
    if maker.random.below(6) == 0 {
        maker.say("restart");
        maker.say("state");
    }
    checkpoint(maker);
    maker.say("restart");
    maker.say("state");
    questions(maker);
    checkpoint(maker);
    for _ in 0..8 {
        maker.any_call();
    }
    checkpoint(maker);
    maker.say("restart");
    maker.say("state");
}
