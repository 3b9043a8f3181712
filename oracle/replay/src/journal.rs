//! The journal: its two halves (SPEC.md, "Halves"), the walk of a restart and the block writes of a checkpoint.
use crate::block::{
    bodies_for, body_block, formed_header, header_block, is_header, sound_body, sound_header, unfit_header, Header, BLOCK, PAYLOAD,
    ROOM,
};
use lists::codecs::Code;

pub const AREA: u64 = 65_536;
/// The fewest blocks: two halves, each with room for the largest group.
pub const BLOCKS: u64 = 18;

const BAD_AREA: u64 = 4;
const DAMAGED: u64 = 5;

/// What a group stores.
pub struct Stored {
    pub ceiling: u64,
    pub cursor: Vec<u8>,
    pub attempts: Vec<u8>,
}

/// What a walk finds: the last group's content, the next group's number, which may be one more than a header can have, and its
/// block, which is the end of the half where that is full.
pub struct Found {
    pub last: Option<Stored>,
    pub group: u64,
    pub block: usize,
    pub half: Half,
}

/// Refusal 4 for the area of a start or a restart.
pub fn area_length(length: u64) -> Result<(), Code> {
    let blocks = length / BLOCK as u64;
    if length % BLOCK as u64 != 0 || length > AREA || blocks % 2 != 0 || blocks < BLOCKS {
        return Err(vec![BAD_AREA]);
    }
    Ok(())
}

/// One of the two halves of an area: which one, and its blocks.
#[derive(Clone, Copy, Debug, PartialEq)]
pub struct Half {
    pub number: usize,
    pub from: usize,
    pub end: usize,
}

impl Half {
    pub fn new(blocks: usize, number: usize) -> Half {
        let half = blocks / 2;
        Half {
            number,
            from: half * number,
            end: half * (number + 1),
        }
    }

    pub fn other(&self) -> Half {
        Half::new(2 * (self.end - self.from), 1 - self.number)
    }
}

/// The half in use, and the group number that is expected first there: the half whose first block is a header sound in all but its
/// number; of two, that with the greater number, or the first. Where there is none, the first half and 1.
pub fn in_use(area: &[u8]) -> (Half, u64) {
    let halves = [0, 1].map(|number| Half::new(area.len() / BLOCK, number));
    let numbers = halves.map(|half| formed_header(block_of(area, half.from)).map(|header| u64::from(header.group)));
    match numbers {
        [None, None] => (halves[0], 1),
        [Some(first), None] => (halves[0], first),
        [None, Some(second)] => (halves[1], second),
        [Some(first), Some(second)] if first >= second => (halves[0], first),
        [Some(_), Some(second)] => (halves[1], second),
    }
}

pub fn block_of(area: &[u8], block: usize) -> &[u8] {
    &area[BLOCK * block..BLOCK * (block + 1)]
}

/// What the groups of the half in use come to. A header that is unsound for want of room alone where the walk ended (SPEC.md,
/// "Halves"), and a block behind that one in the half that is a header still (SPEC.md, "Restart"), are refusal 5, naming where
/// it ended; an unsound body on the walk comes first.
pub fn read(area: &[u8]) -> Result<Found, Code> {
    let found = walk(area)?;
    if ends_unfit(area, &found) || header_behind(area, found.half, found.block) {
        return Err(vec![DAMAGED, found.block as u64]);
    }
    Ok(found)
}

/// Whether the walk ended at a header that is sound in all but its room.
pub fn ends_unfit(area: &[u8], found: &Found) -> bool {
    found.block < found.half.end && unfit_header(block_of(area, found.block), found.group, found.half.end - found.block)
}

/// Whether a header stands behind the block in the half.
pub fn header_behind(area: &[u8], half: Half, block: usize) -> bool {
    (block + 1..half.end).any(|block| is_header(block_of(area, block)))
}

/// Walks the half in use from its first block to the first that is no sound header; the last group counts.
pub fn walk(area: &[u8]) -> Result<Found, Code> {
    let (half, first) = in_use(area);
    let mut found = Found {
        last: None,
        group: first,
        block: half.from,
        half,
    };
    while found.block < half.end {
        let Some(header) = sound_header(block_of(area, found.block), found.group, half.end - found.block) else {
            break;
        };
        found.last = Some(read_group(area, found.block, &header)?);
        found.group += 1;
        found.block += 1 + header.bodies;
    }
    Ok(found)
}

/// The content of the group whose sound header stands at the block; refusal 5 names the first body that is unsound.
pub fn read_group(area: &[u8], at: usize, header: &Header) -> Result<Stored, Code> {
    let total = header.cursor + header.attempts;
    let mut payload = Vec::new();
    for index in 1..=header.bodies {
        let block = block_of(area, at + index);
        if !sound_body(block, header, index) {
            return Err(vec![DAMAGED, (at + index) as u64]);
        }
        payload.extend(&block[PAYLOAD..PAYLOAD + ROOM]);
    }
    Ok(Stored {
        ceiling: header.ceiling,
        cursor: payload[..header.cursor].to_vec(),
        attempts: payload[header.cursor..total].to_vec(),
    })
}

/// The writes of a checkpoint in their order, each with its block: bodies 1 to n behind the header's place, then the header.
pub fn writes(stored: &Stored, group: u32, at: usize) -> Vec<(usize, Vec<u8>)> {
    let payload = [&stored.cursor[..], &stored.attempts[..]].concat();
    let header = Header {
        bodies: bodies_for(payload.len()),
        group,
        ceiling: stored.ceiling,
        cursor: stored.cursor.len(),
        attempts: stored.attempts.len(),
    };
    let mut writes = Vec::new();
    for (i, part) in payload.chunks(ROOM).enumerate() {
        writes.push((at + i + 1, body_block(group, i + 1, part)));
    }
    writes.push((at, header_block(&header)));
    writes
}

/// The writes that zero a half, from its first block on.
pub fn zeroing(half: Half) -> Vec<(usize, Vec<u8>)> {
    (half.from..half.end).map(|block| (block, vec![0; BLOCK])).collect()
}
