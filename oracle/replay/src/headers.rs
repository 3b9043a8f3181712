//! Scenes in which headers are changed, in the first group, a middle one and the last, while later ones stand (SPEC.md, "Restart").
use crate::block::BLOCK;
use crate::journal::Half;
use crate::make::Maker;
use crate::scenes::checkpoint;
use crate::wear::shorter;

/// Groups of one body and of two; then a header of theirs is changed, and more behind or before it, and put back; restarts on all of it.
pub fn headers(maker: &mut Maker) {
    let blocks = maker.random.pick(&[24, 40]);
    maker.start("3 0 9", 10, 25, blocks, &[]);
    for _ in 0..maker.random.pick(&[0, 0, blocks / 4]) {
        checkpoint(maker);
    }
    let mut headers = groups(maker);
    let Some(half) = maker.program.consumer().map(|consumer| consumer.half) else {
        return;
    };
    headers.retain(|header| (half.from..half.end).contains(header));
    let before: Vec<Vec<u8>> = (0..blocks as usize).filter_map(|block| maker.block(block)).collect();
    for _ in 0..4 {
        let any = maker.random.below(headers.len() as u64) as usize;
        let worn = maker.random.pick(&[0, any, any, headers.len() - 1]);
        wear(maker, headers[worn]);
        maker.say("restart");
        maker.say("state");
        match maker.random.below(4) {
            0 => behind(maker, &headers[worn + 1..]),
            1 => body(maker, &headers),
            _ => look_alike(maker, headers[worn], half),
        }
        for (block, bytes) in before.iter().enumerate() {
            maker.make_block(block, bytes);
        }
        maker.say("restart");
    }
    let worn = maker.random.pick(&headers);
    wear(maker, worn);
    shorter(maker);
}

/// Two to six checkpoints; answers where their headers stand.
pub fn groups(maker: &mut Maker) -> Vec<usize> {
    let mut headers: Vec<usize> = checkpoint(maker).into_iter().collect();
    for i in 0..1 + maker.random.below(5) {
        for j in 0..maker.random.pick(&[0, 1, 2, 3, 40]) {
            maker.say(format!("claim {} 0", 40 * i + j));
        }
        headers.extend(checkpoint(maker));
    }
    headers
}

/// Changes a header, so that it is no sound one at its place: all of it lost, a bit wrong, or a field with the check made anew.
fn wear(maker: &mut Maker, block: usize) {
    let Some(old) = maker.block(block) else { return };
    let field = match maker.random.below(8) {
        0 => return maker.make_block(block, &[0; BLOCK]),
        1 => (0, 2),
        2 => (4, old[4].wrapping_add(1)),
        3 => (16, 12),
        4 => (300, 1),
        _ => {
            let at = maker.random.below(BLOCK as u64) as usize;
            let bit = 1 << maker.random.below(8);
            return maker.poke(block, at, &[old[at] ^ bit]);
        }
    };
    maker.poke(block, field.0, &[field.1]);
    maker.reseal(block);
}

/// The headers behind are changed too, the last one first.
fn behind(maker: &mut Maker, headers: &[usize]) {
    for &header in headers.iter().rev() {
        wear(maker, header);
        maker.say("restart");
    }
    maker.say("state");
}

/// A body is worn, before the header or behind it.
fn body(maker: &mut Maker, headers: &[usize]) {
    let body = maker.random.pick(headers) + 1;
    let at = maker.random.below(BLOCK as u64) as usize;
    let Some(old) = maker.block(body) else { return };
    maker.poke(body, at, &[old[at].wrapping_add(1)]);
    maker.say("restart");
}

/// Two blocks behind the header, of a group or of none, get kind 1 and then a right check; some are in the other half.
fn look_alike(maker: &mut Maker, header: usize, half: Half) {
    for _ in 0..2 {
        let left = maker
            .random
            .pick(&[half.end, half.end, half.end + 1, maker.blocks() as usize])
            - header;
        let block = header + maker.random.below(left as u64) as usize;
        if block as u64 >= maker.blocks() {
            continue;
        }
        maker.poke(block, 0, &[1]);
        maker.say("restart");
        maker.reseal(block);
        maker.say("restart");
    }
}
