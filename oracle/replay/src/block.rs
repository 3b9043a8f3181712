//! The journal's blocks, byte by byte (SPEC.md, "Blocks"). The check is the original's.
use ironbus::crc::crc32c;

pub const BLOCK: usize = 512;
/// Bytes 0 to 507 are checked by the four behind them.
pub const CHECK: usize = 508;
/// A body's payload begins at byte 8.
pub const PAYLOAD: usize = 8;
/// The most payload that one body has.
pub const ROOM: usize = 500;

const HEADER_KIND: u8 = 1;
const BODY_KIND: u8 = 2;

/// What a header says.
#[derive(Clone, Copy, Debug, PartialEq)]
pub struct Header {
    pub bodies: usize,
    pub group: u32,
    pub ceiling: u64,
    pub cursor: usize,
    pub attempts: usize,
}

/// The number of bodies that so many bytes of payload need.
pub fn bodies_for(payload: usize) -> usize {
    payload.div_ceil(ROOM)
}

/// The payload that body `index`, from 1, has of `total` bytes.
pub fn used(index: usize, total: usize) -> usize {
    (total - ROOM * (index - 1)).min(ROOM)
}

/// Puts the right check behind the bytes.
pub fn seal(block: &mut [u8]) {
    let check = crc32c(&block[..CHECK]).to_le_bytes();
    block[CHECK..BLOCK].copy_from_slice(&check);
}

fn checks(block: &[u8]) -> bool {
    u32_at(block, CHECK) == crc32c(&block[..CHECK])
}

pub fn header_block(header: &Header) -> Vec<u8> {
    let mut block = vec![0; BLOCK];
    block[0] = HEADER_KIND;
    block[1] = header.bodies as u8;
    block[4..8].copy_from_slice(&header.group.to_le_bytes());
    block[8..16].copy_from_slice(&header.ceiling.to_le_bytes());
    block[16..18].copy_from_slice(&(header.cursor as u16).to_le_bytes());
    block[18..20].copy_from_slice(&(header.attempts as u16).to_le_bytes());
    seal(&mut block);
    block
}

pub fn body_block(group: u32, index: usize, payload: &[u8]) -> Vec<u8> {
    let mut block = vec![0; BLOCK];
    block[0] = BODY_KIND;
    block[1] = index as u8;
    block[2..4].copy_from_slice(&(payload.len() as u16).to_le_bytes());
    block[4..8].copy_from_slice(&group.to_le_bytes());
    block[PAYLOAD..PAYLOAD + payload.len()].copy_from_slice(payload);
    seal(&mut block);
    block
}

fn u16_at(block: &[u8], at: usize) -> usize {
    usize::from(u16::from_le_bytes([block[at], block[at + 1]]))
}

fn u32_at(block: &[u8], at: usize) -> u32 {
    u32::from_le_bytes(block[at..at + 4].try_into().unwrap())
}

fn u64_at(block: &[u8], at: usize) -> u64 {
    u64::from_le_bytes(block[at..at + 8].try_into().unwrap())
}

fn zeros(bytes: &[u8]) -> bool {
    bytes.iter().all(|&byte| byte == 0)
}

/// Kind 1 and a right check, whatever else the block says.
pub fn is_header(block: &[u8]) -> bool {
    block[0] == HEADER_KIND && checks(block)
}

/// What the block says, if it is a header sound in all but the expected number and the room that its bodies have.
pub fn formed_header(block: &[u8]) -> Option<Header> {
    let header = Header {
        bodies: usize::from(block[1]),
        group: u32_at(block, 4),
        ceiling: u64_at(block, 8),
        cursor: u16_at(block, 16),
        attempts: u16_at(block, 18),
    };
    let sound = is_header(block)
        && zeros(&block[2..4])
        && zeros(&block[20..CHECK])
        && (13..=2061).contains(&header.cursor)
        && (9..=1545).contains(&header.attempts)
        && header.bodies == bodies_for(header.cursor + header.attempts);
    sound.then_some(header)
}

/// What the block says, if it is a sound header of the group. `left` is the number of blocks of its half from this one on.
pub fn sound_header(block: &[u8], group: u64, left: usize) -> Option<Header> {
    formed_header(block).filter(|header| u64::from(header.group) == group && 1 + header.bodies <= left)
}

/// Whether the block is a header of the group that is sound in all but its room.
pub fn unfit_header(block: &[u8], group: u64, left: usize) -> bool {
    formed_header(block).is_some_and(|header| u64::from(header.group) == group && 1 + header.bodies > left)
}

/// Whether the block is the sound body `index`, from 1, of the header's group.
pub fn sound_body(block: &[u8], header: &Header, index: usize) -> bool {
    let used = used(index, header.cursor + header.attempts);
    block[0] == BODY_KIND
        && checks(block)
        && u32_at(block, 4) == header.group
        && usize::from(block[1]) == index
        && u16_at(block, 2) == used
        && zeros(&block[PAYLOAD + used..CHECK])
}

#[cfg(test)]
mod tests {
    use super::*;

    /// The payload of a checkpoint that has nothing to store: each snapshot with its check.
    const EMPTY: [u8; 22] = [1, 0, 0, 0, 0, 0, 0, 0, 0, 235, 190, 219, 79, 2, 0, 0, 0, 0, 109, 169, 80, 53];

    const HEADER: Header = Header {
        bodies: 1,
        group: 1,
        ceiling: 4_096,
        cursor: 13,
        attempts: 9,
    };

    /// The blocks of the first checkpoint on a zeroed area. The checks were worked out apart, bit by bit.
    #[test]
    fn first_checkpoint_byte_by_byte() {
        let mut header = [0; BLOCK];
        header[..20].copy_from_slice(&[1, 1, 0, 0, 1, 0, 0, 0, 0, 16, 0, 0, 0, 0, 0, 0, 13, 0, 9, 0]);
        header[508..].copy_from_slice(&[0x78, 0x98, 0x39, 0x7e]);
        assert_eq!(header_block(&HEADER), header);
        assert_eq!(sound_header(&header, 1, 2), Some(HEADER));
        let mut body = [0; BLOCK];
        body[..8].copy_from_slice(&[2, 1, 22, 0, 1, 0, 0, 0]);
        body[8..30].copy_from_slice(&EMPTY);
        body[508..].copy_from_slice(&[0xbc, 0xc1, 0xa1, 0x07]);
        assert_eq!(body_block(1, 1, &EMPTY), body);
        assert!(sound_body(&body, &HEADER, 1));
    }

    #[test]
    fn payload_in_bodies() {
        assert_eq!(
            [22, 500, 501, 1_000, 1_001, 2_061 + 1_545].map(bodies_for),
            [1, 1, 2, 2, 3, 8]
        );
        assert_eq!([1, 2, 7, 8].map(|index| used(index, 2_061 + 1_545)), [500, 500, 500, 106]);
        assert_eq!([1, 2].map(|index| used(index, 1_000)), [500, 500]);
    }

    /// No block with one bit changed is sound. With its check made anew, it is sound only where the bit is free: the ceiling of
    /// a header, the payload of a body. Lengths have bounds of their own, below.
    #[test]
    fn one_bit_changed() {
        let header = header_block(&HEADER);
        let body = body_block(1, 1, &EMPTY);
        for bit in 0..8 * BLOCK {
            let changed = |block: &[u8]| {
                let mut block = block.to_vec();
                block[bit / 8] ^= 1 << (bit % 8);
                block
            };
            assert_eq!(sound_header(&changed(&header), 1, 2), None);
            assert!(!sound_body(&changed(&body), &HEADER, 1));
            let sealed = |block: &[u8]| {
                let mut block = changed(block);
                seal(&mut block);
                block
            };
            let (byte, in_check) = (bit / 8, bit / 8 >= CHECK);
            if !(16..20).contains(&byte) {
                let sound = sound_header(&sealed(&header), 1, 2).is_some();
                assert_eq!(sound, (8..16).contains(&byte) || in_check, "byte {byte}");
            }
            let sound = sound_body(&sealed(&body), &HEADER, 1);
            assert_eq!(sound, (8..30).contains(&byte) || in_check, "byte {byte}");
        }
    }

    #[test]
    fn bounds_of_a_sound_header() {
        let sound = |cursor, attempts, left| {
            let header = Header {
                bodies: bodies_for(cursor + attempts),
                cursor,
                attempts,
                ..HEADER
            };
            sound_header(&header_block(&header), 1, left).is_some()
        };
        assert!(sound(13, 9, 2) && !sound(13, 9, 1) && !sound(12, 9, 2) && !sound(13, 8, 2));
        assert!(sound(2_061, 1_545, 9) && !sound(2_061, 1_545, 8) && !sound(2_062, 1_545, 9) && !sound(2_061, 1_546, 9));
        assert!(!unfit_header(&header_block(&HEADER), 1, 2) && unfit_header(&header_block(&HEADER), 1, 1));
        assert!(!unfit_header(&header_block(&HEADER), 2, 1));
        assert_eq!(sound_header(&header_block(&HEADER), 2, 2), None);
        assert_eq!(sound_header(&header_block(&Header { bodies: 2, ..HEADER }), 1, 9), None);
    }
}
