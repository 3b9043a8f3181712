//! Scenes in which the journal's bytes change by wear, and journals that no checkpoint wrote.
use crate::block::{bodies_for, body_block, header_block, seal, used, Header, BLOCK, ROOM};
use crate::journal::block_of;
use crate::make::Maker;
use crate::open::questions;
use crate::scenes::checkpoint;
use ironbus::crc::crc32c;
use lists::codecs::{attempt_snapshot, attempt_snapshot_v2};

impl Maker {
    pub fn poke(&mut self, block: usize, byte: usize, values: &[u8]) {
        for (i, value) in values.iter().enumerate() {
            self.say(format!("poke {block} {} {value}", byte + i));
        }
    }

    pub fn block(&self, block: usize) -> Option<Vec<u8>> {
        let started = self.program.started.as_ref()?;
        Some(block_of(&started.area, block).to_vec())
    }

    /// Makes a block of the area what is given, by pokes where it differs.
    pub fn make_block(&mut self, block: usize, new: &[u8]) {
        if block as u64 >= self.blocks() {
            return;
        }
        let Some(old) = self.block(block) else { return };
        for i in (0..BLOCK).filter(|&i| old[i] != new[i]) {
            self.poke(block, i, &new[i..=i]);
        }
    }

    /// Puts the right check behind a block's bytes.
    pub fn reseal(&mut self, block: usize) {
        let Some(mut new) = self.block(block) else { return };
        seal(&mut new);
        self.make_block(block, &new);
    }
}

/// A byte's place in a block, most often in a field.
fn place(maker: &mut Maker) -> usize {
    let any = maker.random.below(BLOCK as u64) as usize;
    maker.random.pick(&[
        0, 1, 2, 3, 4, 5, 7, 8, 15, 16, 17, 18, 19, 20, 21, 28, 29, 30, 31, 507, 508, 511, any, any,
    ])
}

/// Some checkpoints, then wear on a block, with its check as it was or made anew, and restarts.
pub fn worn(maker: &mut Maker) {
    maker.start("3 0 9", 10, 25, 24, &[]);
    let groups = 1 + maker.random.below(4);
    for i in 0..groups {
        checkpoint(maker);
        maker.say(format!("claim {} 0", 3 * i + 1));
        maker.say(format!("claim {} 0", 3 * i + 2));
        maker.say(format!("ack {} {}", 3 * i + 2, 2 * i + 1));
    }
    for _ in 0..12 {
        let block = maker.random.below(2 * groups) as usize;
        let Some(old) = maker.block(block) else { return };
        for _ in 0..1 + maker.random.below(2) {
            let at = place(maker);
            let value = match maker.random.below(3) {
                0 => old[at] ^ (1 << maker.random.below(8)),
                1 => old[at].wrapping_add(1),
                _ => maker.random.below(256) as u8,
            };
            maker.poke(block, at, &[value]);
        }
        if maker.random.below(4) > 0 {
            maker.reseal(block);
        }
        maker.say("restart");
        maker.say("state");
        if maker.random.below(6) > 0 {
            maker.make_block(block, &old);
            maker.say("restart");
        }
    }
    shorter(maker);
}

/// The same journal with less and less of its area.
pub fn shorter(maker: &mut Maker) {
    let mut blocks = maker.blocks();
    while blocks > 0 && maker.random.below(6) > 0 {
        blocks -= maker.random.pick(&[0, 1, 2, 2, 4]).min(blocks);
        maker.say(format!("restart {}", 512 * blocks));
        maker.say("state");
        checkpoint(maker);
    }
}

/// What may be wrong with a snapshot.
#[derive(Clone, Copy, PartialEq)]
enum Fault {
    None,
    Version,
    Length,
    Count,
    Check,
    Order,
}

const FAULTS: [Fault; 5] = [Fault::Version, Fault::Length, Fault::Count, Fault::Check, Fault::Order];

/// The bytes with their check behind them, and the fault that isn't in them yet; `versions` are none of the snapshot's.
fn checked(maker: &mut Maker, mut bytes: Vec<u8>, fault: Fault, versions: &[u8]) -> Vec<u8> {
    if fault == Fault::Version {
        bytes[0] = maker.random.pick(versions);
    }
    let check = crc32c(&bytes).to_le_bytes();
    bytes.extend(check);
    match fault {
        Fault::Check => *bytes.last_mut().unwrap() ^= 1,
        Fault::Length if maker.random.below(2) == 0 => bytes.push(0),
        Fault::Length => drop(bytes.pop()),
        _ => (),
    }
    bytes
}

fn cursor_bytes(maker: &mut Maker, fault: Fault) -> Vec<u8> {
    let mut at = maker.random.pick(&[0, 0, 5, 9, u64::MAX - 40, u64::MAX]);
    let mut bytes = vec![1];
    bytes.extend(at.to_le_bytes());
    let least = u64::from(fault != Fault::Order);
    for _ in 0..maker.random.below(4).max(1 - least) {
        let start = at.saturating_add(least + maker.random.below(2));
        let end = start.saturating_add(least + maker.random.below(3));
        bytes.extend(start.to_le_bytes());
        bytes.extend(end.to_le_bytes());
        at = end;
    }
    checked(maker, bytes, fault, &[0, 2, 255])
}

fn attempt_bytes(maker: &mut Maker, fault: Fault) -> Vec<u8> {
    let count: u64 = maker.random.pick(&[0, 1, 2, 3, 5]);
    let declared = if fault == Fault::Count {
        maker.random.near(count)
    } else {
        count
    };
    let mut offset = maker.random.pick(&[0, 0, 4, u64::MAX - 9]);
    let least = u64::from(fault != Fault::Order);
    let mut pairs = Vec::new();
    for _ in 0..count {
        pairs.push((offset, maker.random.pick(&[0u32, 1, 2, 3, u32::MAX - 1, u32::MAX])));
        offset = offset.saturating_add(least + maker.random.below(4));
    }
    let snapshot = maker.random.pick(&[attempt_snapshot, attempt_snapshot_v2]);
    let mut bytes = snapshot(&pairs);
    bytes.truncate(bytes.len() - 4);
    bytes[1..5].copy_from_slice(&(declared as u32).to_le_bytes());
    checked(maker, bytes, fault, &[0, 3, 255])
}

/// Snapshots, at most one of them with a fault.
pub fn snapshots(maker: &mut Maker) -> (Vec<u8>, Vec<u8>) {
    let fault = maker.random.pick(&FAULTS);
    let (cursor, attempts) = maker.random.pick(&[
        (Fault::None, Fault::None),
        (fault, Fault::None),
        (Fault::None, fault),
        (fault, fault),
    ]);
    (cursor_bytes(maker, cursor), attempt_bytes(maker, attempts))
}

/// Where the next group of two blocks goes, and its number.
fn next_group(maker: &Maker) -> Option<(usize, u32)> {
    let consumer = maker.program.consumer()?;
    let half = consumer.half;
    let at = if consumer.block + 2 > half.end {
        half.other().from
    } else {
        consumer.block
    };
    Some((at, consumer.group as u32))
}

/// Groups of a foreign hand after some checkpoints, a restart on each, and what follows.
pub fn forged(maker: &mut Maker) {
    let blocks = maker.random.pick(&[18, 20, 40]);
    maker.start("3 0 2", 10, 25, blocks, &[]);
    for _ in 0..maker.random.pick(&[0, 1, 2, 4, 5, 6]) {
        checkpoint(maker);
        maker.say("claim 1 0");
    }
    let Some((at, group)) = next_group(maker) else { return };
    for _ in 0..3 {
        let (cursor, attempts) = snapshots(maker);
        forge(maker, at, group, &cursor, &attempts);
        maker.say("restart");
        maker.say("state");
        questions(maker);
    }
    checkpoint(maker);
    for _ in 0..10 {
        maker.any_call();
    }
    checkpoint(maker);
    maker.say("restart");
    maker.say("state");
}

/// Groups of zeros whose lengths are at the bounds of a sound header and of a body, at the beginning of a half.
pub fn bounds(maker: &mut Maker) {
    maker.start("3 0 2", 10, 25, 18, &[]);
    for _ in 0..12 {
        let at = maker.random.pick(&[0, 0, 9]);
        let cursor = maker.random.pick(&[12, 13, 29, 480, 491, 492, 2_061, 2_062]);
        let attempts = maker.random.pick(&[8, 9, 9, 21, 487, 488, 508, 509, 1_545, 1_546]);
        forge(maker, at, 1, &vec![0; cursor], &vec![0; attempts]);
        maker.say("restart");
    }
}

fn forge(maker: &mut Maker, at: usize, group: u32, cursor: &[u8], attempts: &[u8]) {
    let payload = [cursor, attempts].concat();
    let mut header = Header {
        bodies: bodies_for(payload.len()),
        group,
        ceiling: maker.random.pick(&[0, 7, 4_096, u64::MAX - 2]),
        cursor: cursor.len(),
        attempts: attempts.len(),
    };
    for index in 1..=header.bodies {
        let from = ROOM * (index - 1);
        let part = &payload[from..from + used(index, payload.len())];
        maker.make_block(at + index, &body_block(group, index, part));
    }
    if maker.random.below(12) == 0 {
        header.bodies = maker.random.near(header.bodies as u64) as usize;
    }
    maker.make_block(at, &header_block(&header));
}
