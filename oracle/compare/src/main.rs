//! The exported functions beside the original's on the same inputs: all short ones, random ones around each boundary, damaged
//! copies of good ones, and every count, version, length and order at its limit. Compared are the answers with their values, and
//! every byte and number of lent memory, written or not. Attempt snapshots of version 2 (SPEC.md, "Attempt snapshot") are made
//! and read beside a second writing of them, and the original has to turn away each of them.
mod both;

use both::Both;
use ironbus::cursor::AckCursor;
use lists::codecs::{attempt_snapshot, attempt_snapshot_v2};
use lists::random::Random;

/// Room for whatever is decoded.
const ROOM: (usize, usize) = (132, 131);

fn seal(bytes: &mut [u8]) {
    if let Some(body) = bytes.len().checked_sub(4) {
        let check = crc32c::crc32c(&bytes[..body]);
        bytes[body..].copy_from_slice(&check.to_le_bytes());
    }
}

/// Cursor bytes of any ranges, with a right check.
fn cursor_bytes(committed: u64, ranges: &[(u64, u64)]) -> Vec<u8> {
    let mut bytes = vec![1];
    bytes.extend(committed.to_le_bytes());
    bytes.extend(
        ranges
            .iter()
            .flat_map(|&(start, end)| [start.to_le_bytes(), end.to_le_bytes()].concat()),
    );
    bytes.extend([0; 4]);
    seal(&mut bytes);
    bytes
}

/// Attempt bytes of either version, of any pairs, that declare any count, with a right check.
fn attempt_bytes(version: u8, declared: u32, pairs: &[(u64, u32)]) -> Vec<u8> {
    let mut bytes = if version == 2 {
        attempt_snapshot_v2(pairs)
    } else {
        attempt_snapshot(pairs)
    };
    bytes[1..5].copy_from_slice(&declared.to_le_bytes());
    seal(&mut bytes);
    bytes
}

/// The versions that are read.
const VERSIONS: [u8; 2] = [1, 2];

fn good_ranges(random: &mut Random, committed: u64, n: usize) -> Vec<(u64, u64)> {
    let mut end = committed;
    let mut ranges = Vec::new();
    for _ in 0..n {
        let start = end + 1 + random.below(3);
        end = start + 1 + random.below(3);
        ranges.push((start, end));
    }
    ranges
}

fn good_pairs(random: &mut Random, n: usize) -> Vec<(u64, u32)> {
    let mut offset = random.below(9);
    let mut pairs = Vec::new();
    for _ in 0..n {
        pairs.push((offset, random.number() as u32));
        offset += 1 + random.below(3);
    }
    pairs
}

/// Both decoders on the same bytes.
fn decode(both: &mut Both, bytes: &[u8]) {
    both.decode_cursor(bytes, ROOM);
    both.decode_attempts(bytes, ROOM);
}

/// All byte strings of up to two bytes.
fn short(both: &mut Both) {
    decode(both, &[]);
    for a in 0..=255 {
        decode(both, &[a]);
        for b in 0..=255 {
            decode(both, &[a, b]);
        }
    }
}

/// All lists of up to `most` members out of some.
fn all_lists<T: Copy>(members: &[T], most: usize, see: &mut impl FnMut(&[T])) {
    fn longer<T: Copy>(list: &mut Vec<T>, members: &[T], most: usize, see: &mut impl FnMut(&[T])) {
        see(list);
        if list.len() < most {
            for &member in members {
                list.push(member);
                longer(list, members, most, see);
                list.pop();
            }
        }
    }
    longer(&mut Vec::new(), members, most, see);
}

/// All snapshots of a few small ranges and pairs, in any order and with any faults.
fn small(both: &mut Both) {
    let ends: Vec<(u64, u64)> = (0..6).flat_map(|start| (0..6).map(move |end| (start, end))).collect();
    all_lists(&ends, 3, &mut |ranges| {
        for committed in 0..3 {
            both.decode_cursor(&cursor_bytes(committed, ranges), ROOM);
            both.encode_cursor(committed, ranges, 80, 9);
        }
    });
    let pairs: Vec<(u64, u32)> = (0..4).flat_map(|offset| [0, 1].map(|attempt| (offset, attempt))).collect();
    all_lists(&pairs, 4, &mut |pairs| {
        for declared in 0..6 {
            for version in VERSIONS {
                both.decode_attempts(&attempt_bytes(version, declared, pairs), ROOM);
            }
        }
        both.encode_attempts(pairs, 60, 2);
    });
}

/// Random bytes of every length around each boundary, half of them of version 1, a quarter of version 2, half of them with a right
/// check.
fn lengths(both: &mut Both, random: &mut Random) {
    let around = |n: usize| n - 40..n + 40;
    for len in (0..200)
        .chain(around(1545))
        .chain(around(1557))
        .chain(around(2061))
        .chain(around(2077))
    {
        for kind in 0..16 {
            let mut bytes: Vec<u8> = (0..len).map(|_| random.number() as u8).collect();
            if kind % 4 < 3 && len > 0 {
                bytes[0] = [1, 2, 1][kind % 4];
            }
            if kind % 8 < 4 && len >= 9 {
                bytes[1..5].copy_from_slice(&(((len - 9) / 12) as u32).to_le_bytes());
            }
            if kind < 8 {
                seal(&mut bytes);
            }
            decode(both, &bytes);
        }
    }
}

/// Copies of a good snapshot with one byte or one bit changed, cut short or grown, with the check as it was and made anew.
fn damage(both: &mut Both, random: &mut Random, good: &[u8]) {
    decode(both, good);
    let both_ways = |both: &mut Both, mut bytes: Vec<u8>| {
        decode(both, &bytes);
        seal(&mut bytes);
        decode(both, &bytes);
    };
    for place in 0..good.len() {
        let changes: Vec<u8> = if good.len() < 100 {
            (0..8).map(|bit| 1 << bit).collect()
        } else {
            vec![1 << random.below(8)]
        };
        for change in changes.into_iter().chain([random.number() as u8]) {
            let mut bytes = good.to_vec();
            bytes[place] ^= change;
            both_ways(both, bytes);
        }
        both_ways(both, good[..place].to_vec());
    }
    for more in 1..20 {
        both_ways(both, [good, &vec![0; more]].concat());
    }
}

/// Sound snapshots into places that are enough, too few or none; and pairs that declare another count.
fn sound(both: &mut Both, committed: u64, ranges: &[(u64, u64)], pairs: &[(u64, u32)]) {
    let n = pairs.len();
    for places in [
        (n, n),
        (n, n.saturating_sub(1)),
        (n.saturating_sub(1), n),
        (n + 1, n + 2),
        (0, 0),
    ] {
        both.decode_cursor(&cursor_bytes(committed, ranges), places);
        for version in VERSIONS {
            both.decode_attempts(&attempt_bytes(version, n as u32, pairs), places);
        }
    }
    for declared in [0, n as u32 + 1, 128, 129, u32::MAX] {
        for version in VERSIONS {
            both.decode_attempts(&attempt_bytes(version, declared, pairs), ROOM);
        }
    }
}

/// A fault in the last range.
fn faulty_ranges(both: &mut Both, committed: u64, mut ranges: Vec<(u64, u64)>) {
    let Some((start, end)) = ranges.pop() else {
        return;
    };
    for fault in [
        (start, start),
        (end, start),
        (committed, end),
        (0, 1),
        (u64::MAX, u64::MAX),
        (u64::MAX - 1, u64::MAX),
    ] {
        ranges.push(fault);
        both.decode_cursor(&cursor_bytes(committed, &ranges), ROOM);
        both.encode_cursor(committed, &ranges, 2200, 0);
        ranges.pop();
    }
}

/// A fault in the last pair.
fn faulty_pairs(both: &mut Both, mut pairs: Vec<(u64, u32)>) {
    let Some((offset, attempt)) = pairs.pop() else {
        return;
    };
    for fault in [0, offset.saturating_sub(1), u64::MAX] {
        pairs.push((fault, attempt));
        for version in VERSIONS {
            both.decode_attempts(&attempt_bytes(version, pairs.len() as u32, &pairs), ROOM);
        }
        both.encode_attempts(&pairs, 1600, 0);
        pairs.pop();
    }
}

/// Counts up to the limits and past them, sound and with a fault in the last place.
fn counts(both: &mut Both, random: &mut Random) {
    for n in (0..20).chain(120..136) {
        let committed = random.below(1000);
        let ranges = good_ranges(random, committed, n);
        let pairs = good_pairs(random, n);
        sound(both, committed, &ranges, &pairs);
        faulty_ranges(both, committed, ranges);
        faulty_pairs(both, pairs);
    }
}

/// Outputs for `len` bytes exactly full, one short and with room, at positions up to the end and past it.
fn places(len: usize, mut encode: impl FnMut(usize, usize)) {
    for at in [0, 1, 7, 100] {
        for out in [len + at, len + at - 1, len + at + 1, at, 0] {
            let around = [at, at + 1, out, out + 1, out.wrapping_sub(len)];
            let last = [usize::MAX, usize::MAX - len, usize::MAX - len + 1];
            for at in around.into_iter().chain(last) {
                encode(out, at);
            }
        }
    }
}

/// Both encoders into outputs of every room.
fn room(both: &mut Both, random: &mut Random) {
    for n in [0, 1, 2, 16, 127, 128, 129] {
        let ranges = good_ranges(random, 5, n);
        let pairs = good_pairs(random, n);
        places(13 + 16 * n, |out, at| both.encode_cursor(5, &ranges, out, at));
        places(9 + 12 * n, |out, at| both.encode_attempts(&pairs, out, at));
    }
}

/// Checks of every short length, and of some long ones.
fn checks(both: &mut Both, random: &mut Random) {
    let bytes: Vec<u8> = (0..1 << 16).map(|_| random.number() as u8).collect();
    for len in (0..1100).chain([4095, 4096, 65_535, 65_536]) {
        both.check(&bytes[..len]);
        both.check(&vec![0; len]);
        both.check(&vec![255; len]);
    }
}

/// Acks around committed, near enough to join or so far apart that they are shed, and of the last offsets.
fn acks(both: &mut Both, random: &mut Random) {
    for spread in [8, 40, 300, 3000] {
        let (mut original, mut rattle) = (AckCursor::new(), rattle::AckCursor::zero());
        for _ in 0..600 {
            let offset = if random.below(50) == 0 {
                u64::MAX - random.below(3)
            } else {
                original.committed().get().saturating_sub(3) + random.below(spread)
            };
            both.ack(&mut original, &mut rattle, offset);
        }
    }
}

/// Everything that depends on no seed.
fn fixed(both: &mut Both) {
    short(both);
    small(both);
    for version in 0..=255 {
        for len in 0..80 {
            let mut bytes = vec![version; len];
            seal(&mut bytes);
            decode(both, &bytes);
        }
    }
}

/// Everything else.
fn seeded(both: &mut Both, random: &mut Random) {
    checks(both, random);
    lengths(both, random);
    for n in [0, 1, 2, 3, 5, 40, 128, 129] {
        let ranges = good_ranges(random, 77, n);
        damage(both, random, &cursor_bytes(77, &ranges));
        let pairs = good_pairs(random, n);
        for version in VERSIONS {
            damage(both, random, &attempt_bytes(version, n as u32, &pairs));
        }
    }
    counts(both, random);
    room(both, random);
    acks(both, random);
}

fn main() {
    let seeds = std::env::args()
        .nth(1)
        .map_or(1, |word| word.parse().expect("a number of seeds"));
    let mut both = Both::default();
    fixed(&mut both);
    for seed in 1..=seeds {
        seeded(&mut both, &mut Random(seed));
    }
    println!(
        "compare: {} inputs, all answered as the original answers them, and as SPEC says where they are of version 2; the original turns \
         away each of the {} attempt snapshots of this version",
        both.inputs, both.turned_away
    );
}
