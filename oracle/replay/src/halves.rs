//! Scenes on the two halves of a journal: switches, power failures in them, what may stand in the first blocks, the last group
//! numbers, and journals from before the halves (SPEC.md, "Halves").
use crate::block::{formed_header, header_block, Header};
use crate::journal::{block_of, read_group, writes, Half, Stored};
use crate::make::Maker;
use crate::rights::{Rights, WORKERS};
use crate::scenes::{checkpoint, cut_everywhere, KINDS};
use crate::wear::{shorter, snapshots};
use ironbus::cursor::AckCursor;
use ironbus::types::Offset;
use lists::codecs::attempt_snapshot;

/// Areas in which switches are frequent.
const SMALL: [u64; 6] = [18, 18, 20, 22, 24, 30];

/// A header whose group has the largest number.
const LAST: u64 = u32::MAX as u64;

fn start_small(maker: &mut Maker) {
    let blocks = maker.random.pick(&SMALL);
    maker.start("3 0 9", 10, 25, blocks, &[]);
    checkpoint(maker);
}

/// The half in use, where there is a consumer.
fn in_use(maker: &Maker) -> Option<Half> {
    maker.program.consumer().map(|consumer| consumer.half)
}

/// Whether the next checkpoint would be made in the other half.
fn at_the_end(maker: &Maker) -> bool {
    let all = Rights([127; WORKERS]);
    let writing = maker
        .program
        .consumer()
        .and_then(|consumer| consumer.with_rights(all).begin(0).ok());
    writing.is_some_and(|writing| Some(writing.after.half) != in_use(maker))
}

/// Checkpoints until the next one would be made in the other half.
fn up_to_the_end(maker: &mut Maker) {
    while !at_the_end(maker) {
        if checkpoint(maker).is_none() {
            return;
        }
    }
}

/// Claims, so that the next group has up to three bodies; some are acked again.
fn more(maker: &mut Maker) {
    let committed = maker
        .program
        .consumer()
        .map_or(0, |consumer| consumer.cursor.committed().get());
    for i in 0..maker.random.pick(&[0, 1, 3, 45, 64]) {
        maker.say(format!("claim {} 0", committed.saturating_add(3 * i + 1)));
    }
    for _ in 0..maker.random.below(6) {
        let token = maker.token();
        maker.say(format!("ack {token}"));
    }
}

/// Dozens of checkpoints of various sizes, most whole and some cut anywhere; restarts in between.
pub fn switches(maker: &mut Maker) {
    start_small(maker);
    for _ in 0..20 + maker.random.below(30) {
        match maker.random.below(8) {
            0 => more(maker),
            1 => cut_anywhere(maker),
            2 => drop(maker.say("restart")),
            3 => {
                let bound = maker.offset();
                maker.say(format!("commit {bound}"));
            }
            _ => drop(checkpoint(maker)),
        }
    }
    maker.say("state");
    maker.say("restart");
    maker.say("state");
    if maker.random.below(3) == 0 {
        shorter(maker);
    }
}

/// One checkpoint, cut in any of its writes, and the restart.
fn cut_anywhere(maker: &mut Maker) {
    let begun = maker.say("begin");
    let writes = begun.strip_prefix("begun ").map_or(1, |count| count.parse().unwrap());
    for _ in 0..maker.random.below(writes) {
        maker.say("step");
    }
    let kind = maker.random.pick(&KINDS);
    maker.say(format!("cut {kind}"));
    maker.say("restart");
    maker.say("state");
}

/// Every write of a switch cut in one way and then another: zeros, bodies and the header.
pub fn cut_switches(maker: &mut Maker) {
    let blocks = maker.random.pick(&[18, 18, 20]);
    maker.start("3 0 9", 10, 25, blocks, &[]);
    checkpoint(maker);
    for _ in 0..maker.random.below(3) {
        up_to_the_end(maker);
        checkpoint(maker);
    }
    more(maker);
    up_to_the_end(maker);
    let kind = maker.random.pick(&KINDS);
    cut_everywhere(maker, kind);
    // A group that fits no longer; once it is lost by a restart, one that does.
    let kind = maker.random.pick(&KINDS);
    more(maker);
    if at_the_end(maker) {
        cut_everywhere(maker, kind);
    }
    checkpoint(maker);
    maker.say("restart");
    maker.say("state");
}

/// Gives a header another group number, with the right check.
fn renumber(maker: &mut Maker, block: usize, number: u32) {
    maker.poke(block, 4, &number.to_le_bytes());
    maker.reseal(block);
}

/// Makes the first block of a half worn in some way.
fn wear_first(maker: &mut Maker, half: Half) {
    let Some(old) = maker.block(half.from) else { return };
    let rival = maker
        .block(half.other().from)
        .map_or(0, |block| u32::from_le_bytes(block[4..8].try_into().unwrap()));
    match maker.random.below(7) {
        0 => maker.make_block(half.from, &[0; 512]),
        1 => maker.poke(half.from, 0, &[2]),
        2..=3 => {
            let number = maker
                .random
                .pick(&[rival, rival, rival.wrapping_add(1), rival.wrapping_sub(1), 0, 1, u32::MAX]);
            renumber(maker, half.from, number);
        }
        4 => {
            maker.poke(half.from, 300, &[1]);
            maker.reseal(half.from);
        }
        _ => {
            let at = maker.random.below(512) as usize;
            let bit = 1 << maker.random.below(8);
            maker.poke(half.from, at, &[old[at] ^ bit]);
        }
    }
}

/// Some switches; then the first blocks of the halves are worn, one or both, and put back; restarts on all of it.
pub fn first_blocks(maker: &mut Maker) {
    start_small(maker);
    for _ in 0..maker.random.below(4) {
        up_to_the_end(maker);
        checkpoint(maker);
    }
    if maker.random.below(4) == 0 {
        up_to_the_end(maker);
        cut_anywhere(maker);
    }
    for _ in 0..6 {
        let Some(half) = in_use(maker) else { return };
        let before = [half, half.other()].map(|half| maker.block(half.from));
        let worn = maker.random.pick(&[half, half, half.other()]);
        wear_first(maker, worn);
        maker.say("restart");
        maker.say("state");
        if maker.random.below(3) == 0 {
            wear_first(maker, worn.other());
            maker.say("restart");
            maker.say("state");
        }
        if maker.random.below(5) == 0 {
            checkpoint(maker);
            checkpoint(maker);
            maker.say("restart");
        }
        for (half, old) in [half, half.other()].into_iter().zip(before) {
            maker.make_block(half.from, &old.unwrap_or_default());
        }
        maker.say("restart");
        maker.say("state");
    }
}

/// Gives the groups of the half in use numbers from another one on, as far as a header can have them.
fn renumber_all(maker: &mut Maker, first: u64) {
    let Some(half) = in_use(maker) else { return };
    let Some(started) = &maker.program.started else { return };
    let area = started.area.clone();
    let (mut at, mut number) = (half.from, first);
    while at < half.end {
        let header = formed_header(block_of(&area, at)).filter(|header| at + header.bodies < half.end);
        let (Some(header), Ok(group)) = (header, u32::try_from(number)) else {
            return;
        };
        let Ok(stored) = read_group(&area, at, &header) else { return };
        for (block, bytes) in writes(&stored, group, at) {
            maker.make_block(block, &bytes);
        }
        at += 1 + header.bodies;
        number += 1;
    }
}

/// Group numbers up to the last one, with a switch before, at and behind it.
pub fn last_numbers(maker: &mut Maker) {
    start_small(maker);
    for _ in 0..maker.random.below(5) {
        checkpoint(maker);
    }
    let under = maker.random.below(14);
    renumber_all(maker, LAST - under);
    maker.say("restart");
    maker.say("state");
    for _ in 0..under + 2 {
        if maker.random.below(6) == 0 {
            cut_anywhere(maker);
        }
        if maker.random.below(4) == 0 {
            maker.say("restart");
        }
        checkpoint(maker);
    }
    maker.say("begin");
    maker.say("restart");
    maker.say("state");
    for _ in 0..3 {
        maker.say_as_anyone("begin");
    }
    maker.say("begin");
    first_numbers(maker);
}

/// A half that begins with any number, the other one beside it.
fn first_numbers(maker: &mut Maker) {
    for _ in 0..3 {
        let first = maker.random.pick(&[0, 0, 1, 77, LAST - 1, LAST]);
        renumber_all(maker, first);
        maker.say("restart");
        maker.say("state");
        checkpoint(maker);
    }
}

/// A journal that uses the whole area, as those from before the halves do: a group across the middle, or one that begins there.
pub fn old_journals(maker: &mut Maker) {
    let blocks = maker.random.pick(&SMALL) as usize;
    maker.start("3 0 9", 10, 25, blocks as u64, &[]);
    let mut headers = Vec::new();
    let mut at = 0;
    while let Some((block, header)) = old_group(maker, at, headers.len() as u32 + 1, blocks) {
        at = block;
        headers.push(header);
        if maker.random.below(12) == 0 {
            break;
        }
    }
    maker.say("restart");
    maker.say("state");
    checkpoint(maker);
    for _ in 0..3 {
        if headers.is_empty() {
            return;
        }
        let header = maker.random.pick(&headers);
        let Some(old) = maker.block(header) else { return };
        let at = maker.random.pick(&[0, 4, 100, 511]);
        maker.poke(header, at, &[old[at].wrapping_add(1)]);
        if maker.random.below(3) == 0 {
            maker.reseal(header);
        }
        maker.say("restart");
        maker.say("state");
        maker.make_block(header, &old);
        maker.say("restart");
    }
    checkpoint(maker);
    maker.say("state");
}

/// One more group of an old journal; answers the block behind it and its own, or nothing where it has no room in the area.
fn old_group(maker: &mut Maker, at: usize, group: u32, blocks: usize) -> Option<(usize, usize)> {
    let mut cursor = Vec::new();
    AckCursor::resume(Offset::new(group.into())).encode_snapshot(&mut cursor);
    let count = maker.random.pick(&[0, 0, 1, 1, 2, 45, 90]);
    let pairs: Vec<(u64, u32)> = (0..count).map(|i| (1_000 + i, 1)).collect();
    let stored = Stored {
        ceiling: 4_096 * u64::from(group),
        cursor,
        attempts: attempt_snapshot(&pairs),
    };
    let writes = writes(&stored, group, at);
    if at + writes.len() > blocks {
        return None;
    }
    let next = at + writes.len();
    for (block, bytes) in writes {
        maker.make_block(block, &bytes);
    }
    Some((next, at))
}

/// A header whose bodies fit that many blocks, its own among them, or are one or two too many.
fn tight_header(maker: &mut Maker, group: u32, left: usize) -> Header {
    let bodies = (left + maker.random.below(4) as usize).saturating_sub(2).clamp(1, 8);
    let total = maker.random.pick(&[500 * bodies - 478, (500 * bodies).min(2_061 + 1_545)]);
    let attempts = (total - 13).min(1_545);
    Header {
        bodies,
        group: maker.random.pick(&[group, group, group, group.wrapping_add(1)]),
        ceiling: 7,
        cursor: total - attempts,
        attempts,
    }
}

/// Headers of a foreign hand behind the groups, which have just room for their bodies or not; groups of that hand there; checkpoints.
pub fn unfit(maker: &mut Maker) {
    start_small(maker);
    for _ in 0..maker.random.below(9) {
        checkpoint(maker);
    }
    for _ in 0..6 {
        let Some(consumer) = maker.program.consumer() else { return };
        let (at, group, end) = (consumer.block, consumer.group as u32, consumer.half.end);
        if at < end {
            let header = tight_header(maker, group, end - at);
            maker.make_block(at, &header_block(&header));
            maker.say("restart");
        }
        if at + 1 < end && maker.random.below(2) == 0 {
            let (cursor, attempts) = snapshots(maker);
            let stored = Stored {
                ceiling: 9_000,
                cursor,
                attempts,
            };
            for (block, bytes) in writes(&stored, group, at) {
                maker.make_block(block, &bytes);
            }
            maker.say("restart");
            maker.say("state");
        }
        if at < end {
            maker.make_block(at, &[0; 512]);
            maker.say("restart");
        }
        checkpoint(maker);
    }
}
