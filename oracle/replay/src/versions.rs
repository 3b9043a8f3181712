//! Scenes on journals with attempt snapshots of version 1, as those from before have them, of both versions, and of others
//! (SPEC.md, "Attempt snapshot").
use crate::block::formed_header;
use crate::headers::groups;
use crate::journal::{block_of, read_group, writes, Stored};
use crate::make::Maker;
use crate::scenes::checkpoint;
use ironbus::crc::crc32c;
use lists::codecs::as_version_1;

/// Checkpoints, the groups of which become version 1 one by one, and restarts in between; then checkpoints behind them.
pub fn versions(maker: &mut Maker) {
    maker.start("3 0 9", 10, 25, 40, &[]);
    let mut headers = groups(maker);
    maker.say("restart");
    maker.say("state");
    if maker.random.below(2) == 0 {
        headers.reverse();
    }
    for &header in &headers {
        rewrite(maker, header, as_version_1);
        maker.say("restart");
        maker.say("state");
    }
    after(maker);
    let other = maker.random.pick(&headers);
    others(maker, other);
    maker.say("restart");
    if let Some(last) = checkpoint(maker) {
        others(maker, last);
        rewrite(maker, last, |bytes| of_version(bytes, 2));
    }
    after(maker);
}

/// What the carried counts come to in calls, a checkpoint, and a restart.
fn after(maker: &mut Maker) {
    checkpoint(maker);
    for _ in 0..6 {
        maker.any_call();
    }
    checkpoint(maker);
    maker.say("restart");
    maker.say("state");
}

/// The snapshot of a group says that it is of another version: nobody minds where a later group counts.
fn others(maker: &mut Maker, header: usize) {
    for version in [0, 3, 255, 1, 2] {
        rewrite(maker, header, |bytes| of_version(bytes, version));
        maker.say("restart");
        maker.say("state");
    }
}

/// The bytes with another version in front and the right check.
fn of_version(bytes: &[u8], version: u8) -> Vec<u8> {
    let (body, _) = bytes.split_at(bytes.len() - 4);
    let mut new = body.to_vec();
    new[0] = version;
    new.extend(crc32c(&new).to_le_bytes());
    new
}

/// Changes the attempt snapshot of the group whose header stands at the block; the checks of the blocks are right.
fn rewrite(maker: &mut Maker, at: usize, change: impl Fn(&[u8]) -> Vec<u8>) {
    let Some(started) = &maker.program.started else { return };
    for (block, bytes) in rewritten(&started.area.clone(), at, change) {
        maker.make_block(block, &bytes);
    }
}

/// The blocks of that group, with another attempt snapshot of the same length; none where a switch has zeroed it.
pub fn rewritten(area: &[u8], at: usize, change: impl Fn(&[u8]) -> Vec<u8>) -> Vec<(usize, Vec<u8>)> {
    let block = block_of(area, at);
    let Some(header) = formed_header(block) else {
        return Vec::new();
    };
    let stored = read_group(area, at, &header).expect("sound bodies");
    let attempts = change(&stored.attempts);
    writes(&Stored { attempts, ..stored }, header.group, at)
}
